# Completions of markdown's options for bash.
_markdown_proved() {
    local word=${COMP_WORDS[COMP_CWORD]} before=${COMP_WORDS[COMP_CWORD - 1]}
    compopt -o filenames
    mapfile -t COMPREPLY < <(
        case $before:$word in
            --references:*) compgen -f -- "$word" ;;
            --heading-id-prefix:* | --link-base:* | --image-base:* | --link-rel:*) ;;
            *:-*) compgen -W '--gfm --mark --math --frontmatter --heading-ids --heading-id-prefix --link-base --image-base --link-rel --lazy-images --listed-html --dangerous --plain --references --help --version' -- "$word" ;;
            *) compgen -f -- "$word" ;;
        esac
    )
}
complete -F _markdown_proved markdown markdown-proved
