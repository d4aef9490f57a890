# Completions of msrepack for bash: commands, options, lengths, files and folders.
_msrepack() {
    local word=$2 before=$3 words='' commands='repack feed list check compare archive verify replace help'
    COMPREPLY=()
    case ${COMP_WORDS[1]} in
        repack | feed) words='--length --no-int24 --tolerance --strict --help' ;;
        list) words='--tolerance --strict --json --help' ;;
        check) words='--help' ;;
        compare) words='--tolerance --help' ;;
        archive)
            words='--length --no-int24 --tolerance --strict --below --resume --check --only-smaller --keep-old'
            words="$words --older-than --known --names --bytes --quiet --json --dry-run --help"
            ;;
        verify) words='--known --names --quiet --json --below --help' ;;
        replace) words='--undo --below --only-smaller --older-than --touch --int24 --help' ;;
    esac
    if [ "$COMP_CWORD" -eq 1 ]; then
        words="$commands --help --version"
    elif [ "${COMP_WORDS[1]}" = help ]; then
        words=$commands
    elif [ "$before" = --length ]; then
        words='256 512 1024 2048 4096 8192 16384 32768 65536'
        if [ "${COMP_WORDS[1]}" = archive ]; then words="$words same"; fi
    elif [ "$before" = --tolerance ] || [ "$before" = --below ] || [ "$before" = --older-than ]; then
        return # a number, or a path that is counted from ROOT
    elif [ "$before" = --known ]; then
        compopt -o default
        return
    elif [[ $word != -* ]]; then
        case ${COMP_WORDS[1]} in
            archive | verify | replace) compopt -o dirnames ;;
            *) compopt -o default ;;
        esac
        return
    fi
    COMPREPLY=($(compgen -W "$words" -- "$word"))
}
complete -F _msrepack msrepack
