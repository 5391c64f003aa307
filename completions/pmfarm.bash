# bash completion for pmfarm
_pmfarm() {
    local word=${COMP_WORDS[COMP_CWORD]} before=${COMP_WORDS[COMP_CWORD - 1]} command=${COMP_WORDS[1]} words=''
    COMPREPLY=()
    case $command in
        check) words='--workers --run --profile --ledger --strict --help -h' ;;
        explain) words='--section --event --all --first --run --profile --help -h' ;;
        why) words='--section --event --first --all-rows --patch --run --profile --help -h' ;;
        locate) words='--section --event --run --help -h' ;;
        lint) words='--unasserted --help -h' ;;
        cut) words='--events --step --files --bytes --help -h' ;;
        join) words='--ledger --summary --files-from --stream --trust --workers --help -h' ;;
        sim) words='--log --workers --ledgers --help -h' ;;
        help) words='check explain why locate lint cut join sim' ;;
    esac
    if [ "$COMP_CWORD" -eq 1 ]; then
        words='check explain why locate lint cut join sim help --help -h --version -V'
    elif [ "$before" = --profile ]; then
        words='1 2'
    elif [[ "$before" = --@(workers|run|section|event|first|events|step|bytes|ledgers) ]]; then
        words='' && compopt +o default 2>/dev/null
    elif [[ "$before" = *[\<\>]* || "$before" = --@(files|files-from|log) || ("$command" = @(check|explain|why|locate|lint|join) && "$word" != -*) ]]; then
        words='' # (bash offers the names of files)
    fi
    mapfile -t COMPREPLY < <(compgen -W "$words" -- "$word")
}
complete -o default -F _pmfarm pmfarm
