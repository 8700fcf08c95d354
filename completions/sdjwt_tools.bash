# Completion of sdjwt_tools for bash: its commands, and the names of the files.

_sdjwt_tools() {
    local word=${COMP_WORDS[COMP_CWORD]} file
    COMPREPLY=()
    case $COMP_CWORD,${COMP_WORDS[1]} in
        1,*)
            COMPREPLY=($(compgen -W 'feed audit wallet' -- "$word"))
            ;;
        2,feed | 2,audit | 3,audit | *,wallet)
            compopt -o filenames 2>/dev/null
            while IFS= read -r file; do
                COMPREPLY+=("$file")
            done < <(compgen -f -- "$word")
            ;;
    esac
}

complete -F _sdjwt_tools sdjwt_tools
