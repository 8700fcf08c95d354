# Completion of sdjwt-keys for bash: its commands, their options, and names of files.

_sdjwt_keys() {
    local word=${COMP_WORDS[COMP_CWORD]} before=${COMP_WORDS[COMP_CWORD - 1]} file
    local policy='--policy --key --alg --typ --iss --require --skew --aud --nonce --max-age --holder --holder-alg --now'
    local algs='ES256 ES384 ES512 EdDSA Ed25519 PS256 PS384 PS512 RS256 RS384 RS512 HS256 HS384 HS512'
    COMPREPLY=()
    case $before in
        --alg | --holder-alg) COMPREPLY=($(compgen -W "$algs" -- "$word")) && return ;;
        --form) COMPREPLY=($(compgen -W 'pem jwk' -- "$word")) && return ;;
        --color) COMPREPLY=($(compgen -W 'auto always never' -- "$word")) && return ;;
        --key | --issuer | --holder | --policy | --html) ;;
        --*) [[ $before == --json || $before == --full ]] || return ;;
        convert) COMPREPLY=($(compgen -W 'compact flat general' -- "$word")) && return ;;
    esac
    if [ "$COMP_CWORD" -eq 1 ]; then
        COMPREPLY=($(compgen -W 'keygen issue present verify inspect show convert explain --help --version' -- "$word"))
        return
    fi
    if [[ $word == -* ]]; then
        local options
        case ${COMP_WORDS[1]} in
            keygen) options='--alg --form --kid' ;;
            issue) options='--key --alg --holder' ;;
            present) options='--want --never --aud --nonce --key --alg --issuer --now' ;;
            verify) options=$policy ;;
            inspect) options="--html --color --full $policy" ;;
        esac
        COMPREPLY=($(compgen -W "--help --json ${options-}" -- "$word"))
        return
    fi
    [ "${COMP_WORDS[1]}" != explain ] || return
    compopt -o filenames 2>/dev/null
    while IFS= read -r file; do
        COMPREPLY+=("$file")
    done < <(compgen -f -- "$word")
}

complete -F _sdjwt_keys sdjwt-keys
