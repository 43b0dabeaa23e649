# Completion for bash: the options that --help has, and files.
_hrafnolt() {
    local current=${COMP_WORDS[COMP_CWORD]} before=${COMP_WORDS[COMP_CWORD - 1]} help
    COMPREPLY=()
    case $before in
    -j | --jobs | --timeout) return ;;
    esac
    help=$("$1" --help 2>/dev/null) || return
    case $current in
    -*) help=$(sed -n 's/^  *\(-[^ ]*\( [^ ][^ ]*\)*\)  .*$/\1/p' <<<"$help" | grep -o -e '-[-a-z0-9]*') ;;
    # what hrafnolt-text is to do
    *) [ "$COMP_CWORD" = 1 ] && help=$(sed -n 's/^  \([a-z][a-z]*\) .*$/\1/p' <<<"$help") || help= ;;
    esac
    mapfile -t COMPREPLY < <(compgen -W "$help" -- "$current")
}
complete -o default -F _hrafnolt hrafnolt-files hrafnolt-dot hrafnolt-text hrafnolt-draw hrafnolt-registers
