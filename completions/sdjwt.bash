# Completion of sdjwt for bash: its commands, the forms of convert, and names of files.

_sdjwt_files() {
    compopt -o filenames 2>/dev/null
    local file
    while IFS= read -r file; do
        COMPREPLY+=("$file")
    done < <(compgen -f -- "$1")
}

_sdjwt() {
    local word=${COMP_WORDS[COMP_CWORD]}
    COMPREPLY=()
    case $COMP_CWORD,${COMP_WORDS[1]} in
        1,*)
            COMPREPLY=($(compgen -W 'issue present verify show split convert gen' -- "$word"))
            ;;
        2,convert)
            COMPREPLY=($(compgen -W 'compact flat general' -- "$word"))
            ;;
        2,issue | 2,present | 2,verify | 2,show | 2,split | 3,issue | 3,present | 3,verify | 3,convert)
            _sdjwt_files "$word"
            ;;
    esac
}

complete -F _sdjwt sdjwt
