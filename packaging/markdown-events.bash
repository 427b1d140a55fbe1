# Completions of markdown-events's options for bash.
_markdown_events() {
    local word=${COMP_WORDS[COMP_CWORD]}
    compopt -o filenames
    mapfile -t COMPREPLY < <(
        case $word in
            -*) compgen -W '--gfm --frontmatter --math --mark --all --outline --help --version' -- "$word" ;;
            *) compgen -f -- "$word" ;;
        esac
    )
}
complete -F _markdown_events markdown-events
