# Completes the words of acn in bash: source this file. Made by docs/man.
_acn_types() {
    cat ./*.asn ./*.asn1 2>/dev/null | tr -s '[:space:]' ' ' | grep -oE '[A-Z][A-Za-z0-9-]* (\{[^}]*\} )?DEFINITIONS|[A-Z][A-Za-z0-9-]* ::=' |
        awk '/DEFINITIONS$/ { module = $1; next } module && $1 != "TAGS" { print module "." $1 }'
}

_acn() {
    local word="${COMP_WORDS[COMP_CWORD]}"
    compopt -o default
    COMPREPLY=()
    if [ "$COMP_CWORD" -eq 1 ]; then
        COMPREPLY=($(compgen -W "check bounds layout encode decode compare extremes route explain work --help --version --explain --hints --progress" -- "$word"))
        return
    fi
    case "${COMP_WORDS[1]}:$COMP_CWORD" in
        layout:2|encode:2|decode:2|compare:2|compare:3|extremes:2|explain:2|work:2) COMPREPLY=($(compgen -W "$(_acn_types)" -- "$word")) ;;
        --*) compopt +o default ;;
        *) COMPREPLY=($(compgen -f -X '!*.@(asn|asn1|acn|map)' -- "$word")) ;;
    esac
}
shopt -s extglob
complete -F _acn acn ./acn
