# Completions of markdown-lint's options for bash.
_markdown_lint() {
    local word=${COMP_WORDS[COMP_CWORD]} before=${COMP_WORDS[COMP_CWORD - 1]}
    local rules='heading-increment list-marker list-indent nested-list-indent trailing-spaces tab-indent
        reversed-link blank-lines line-length heading-space heading-blank-lines duplicate-heading
        second-title heading-punctuation list-numbers fence-blank-lines list-blank-lines raw-html
        bare-url emphasis-spaces code-language empty-link no-alt-text final-newline missing-fragment
        undefined-reference unused-definition table-cells missing-file'
    compopt -o filenames
    mapfile -t COMPREPLY < <(
        case $before in
            --disable | --only) compgen -W "$rules" -- "$word" ;;
            --columns) compgen -W 'bytes characters' -- "$word" ;;
            *)
                case $word in
                    -*)
                        compgen -W '--gfm --frontmatter --math --mark --all --disable --only --siblings
                            --line-length --columns --ignore --config --fix --json --help --version' -- "$word"
                        ;;
                    *) compgen -f -- "$word" ;;
                esac
                ;;
        esac
    )
}
complete -F _markdown_lint markdown-lint
