# bash completion for pmfarm-page
_pmfarm_page() {
    local word=${COMP_WORDS[COMP_CWORD]} before=${COMP_WORDS[COMP_CWORD - 1]} words=''
    case $before in
        --profile) words='1 2' ;;
        --run) compopt +o default 2>/dev/null ;;
        --program | --report | *[\<\>]*) ;; # (bash offers the names of files)
        *) [[ "$word" != -* ]] || words='--profile --run --program --report --help -h' ;;
    esac
    mapfile -t COMPREPLY < <(compgen -W "$words" -- "$word")
}
complete -o default -F _pmfarm_page pmfarm-page
