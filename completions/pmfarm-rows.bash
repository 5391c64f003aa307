# bash completion for pmfarm-rows
_pmfarm_rows() {
    local word=${COMP_WORDS[COMP_CWORD]} before=${COMP_WORDS[COMP_CWORD - 1]} words=''
    case $before in
        --format) words='text json sarif junit github' ;;
        --profile) words='1 2' ;;
        --section | --run) compopt +o default 2>/dev/null ;;
        --log | --program | --source-root | --baseline | --write-baseline | *[\<\>]*) ;; # (bash offers the names of files)
        *)
            [[ "$word" != -* ]] || words='--fail --warn --empty --pass --section --json --format --log --profile --run --program
                --source-root --baseline --write-baseline --help -h'
            ;;
    esac
    mapfile -t COMPREPLY < <(compgen -W "$words" -- "$word")
}
complete -o default -F _pmfarm_rows pmfarm-rows
