# Completion of pclmin for bash.
_pclmin() {
    local word=${COMP_WORDS[COMP_CWORD]} previous=${COMP_WORDS[COMP_CWORD - 1]} command=${COMP_WORDS[1]}
    COMPREPLY=()
    if [ "$COMP_CWORD" -eq 1 ]; then
        mapfile -t COMPREPLY < <(compgen -W "min pbm pgm shrink pages batch explain check same help --help --version" -- "$word")
        return
    fi
    case $previous in
        --dpi) mapfile -t COMPREPLY < <(compgen -W "300 600 auto" -- "$word"); return ;;
        --format) mapfile -t COMPREPLY < <(compgen -W "1 2" -- "$word"); return ;;
        --page) if [ "$command" = pbm ] || [ "$command" = pgm ]; then return; fi ;;
        --scale) return ;;
        --cert | --image | --output | -o) mapfile -t COMPREPLY < <(compgen -f -- "$word"); return ;;
    esac
    case $command:$word in
        min:-*) mapfile -t COMPREPLY < <(compgen -W "--dpi --cert --format --quiet --keep-inode --output --help" -- "$word") ;;
        pbm:-*) mapfile -t COMPREPLY < <(compgen -W "--dpi --page --drivers --quiet --keep-inode --output --help" -- "$word") ;;
        pgm:-*) mapfile -t COMPREPLY < <(compgen -W "--dpi --scale --page --drivers --quiet --keep-inode --output --help" -- "$word") ;;
        shrink:-*) mapfile -t COMPREPLY < <(compgen -W "--dpi --report --json --profile-only --stated --drivers --quiet --keep-inode --output --help" -- "$word") ;;
        pages:-*) mapfile -t COMPREPLY < <(compgen -W "--dpi --json --tsv --stated --quiet --keep-inode --output --help" -- "$word") ;;
        batch:-*) mapfile -t COMPREPLY < <(compgen -W "--dpi --min --profile-only --stated --drivers --json --quiet --keep-inode --output --keep-folders --in-place --help" -- "$word") ;;
        explain:-*) mapfile -t COMPREPLY < <(compgen -W "--dpi --json --stated --quiet --keep-inode --output --help" -- "$word") ;;
        check:-*) mapfile -t COMPREPLY < <(compgen -W "--dpi --page --json --quiet --help" -- "$word") ;;
        same:-*) mapfile -t COMPREPLY < <(compgen -W "--dpi --asked --image --json --stated --quiet --help" -- "$word") ;;
        min:* | pbm:* | pgm:* | shrink:* | pages:* | batch:* | explain:* | check:* | same:*) mapfile -t COMPREPLY < <(compgen -f -- "$word") ;;
        help:*) mapfile -t COMPREPLY < <(compgen -W "min pbm pgm shrink pages batch explain check same" -- "$word") ;;
    esac
}
complete -o filenames -F _pclmin pclmin
