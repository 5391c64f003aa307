# bash completion for pmfarm-trace
_pmfarm_trace() {
    local word=${COMP_WORDS[COMP_CWORD]} before=${COMP_WORDS[COMP_CWORD - 1]} words='' at
    COMPREPLY=()
    for ((at = 1; at < COMP_CWORD; at++)); do
        case ${COMP_WORDS[at]} in
            --log | --pmem | --range | --stacks | --sections | --hold) ((++at)) ;;
            -*) ;;
            *) return ;; # (the words of the program that is traced; bash offers the names of files)
        esac
    done
    case $before in
        --sections) words='threads none' ;;
        --stacks | --range | --hold) compopt +o default 2>/dev/null ;;
        --log | --pmem | *[\<\>]*) ;;
        *)
            if [[ "$word" != [-./]* ]]; then
                mapfile -t COMPREPLY < <(compgen -c -- "$word")
                return
            fi
            words='--log --pmem --range --stacks --persist-at-end --clflush-fence --lock-fence --sections --hold --help'
            ;;
    esac
    mapfile -t COMPREPLY < <(compgen -W "$words" -- "$word")
}
complete -o default -F _pmfarm_trace pmfarm-trace
