# Completions of markdown-safe's options for bash.
_markdown_safe() {
    local word=${COMP_WORDS[COMP_CWORD]}
    compopt -o filenames
    mapfile -t COMPREPLY < <(
        case $word in
            -*) compgen -W '--clean --help --listed --version' -- "$word" ;;
            *) compgen -f -- "$word" ;;
        esac
    )
}
complete -F _markdown_safe markdown-safe
