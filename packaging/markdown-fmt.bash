# Completions of markdown-fmt's options for bash.
_markdown_fmt() {
    local word=${COMP_WORDS[COMP_CWORD]} before=${COMP_WORDS[COMP_CWORD - 1]}
    local rules='trailing-spaces file-ends blank-lines code-indented code-fenced heading-setext heading-atx
        blank-around thematic-break bullet-marker marker-space list-indent list-number attention hard-break
        gfm-table definition'
    # Readline takes `=` for a word.
    if [ "$word" = = ]; then
        word=
    elif [ "$before" = = ]; then
        before=${COMP_WORDS[COMP_CWORD - 2]}
    fi
    compopt -o filenames
    mapfile -t COMPREPLY < <(
        case $before in
            --disable | --enable) compgen -W "$rules" -- "$word" ;;
            --hard-breaks) compgen -W 'spaces backslash' -- "$word" ;;
            *)
                case $word in
                    -*)
                        compgen -W '--check --diff --padded-tables --hard-breaks --disable --enable --ignore
                            --config --gfm --frontmatter --math --mark --all --help --version' -- "$word"
                        ;;
                    *) compgen -f -- "$word" ;;
                esac
                ;;
        esac
    )
}
complete -F _markdown_fmt markdown-fmt
