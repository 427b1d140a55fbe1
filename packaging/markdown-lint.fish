# Completions of markdown-lint's options for fish.
complete -c markdown-lint -F
complete -c markdown-lint -l gfm -d "Read GitHub Flavored Markdown"
complete -c markdown-lint -l frontmatter -d "Read frontmatter at the start of a text"
complete -c markdown-lint -l math -d 'Read $a$, and blocks between lines of $$'
complete -c markdown-lint -l mark -d "Read ==text== as marked text"
complete -c markdown-lint -l all -d "All four"
set -l rules heading-increment list-marker list-indent nested-list-indent trailing-spaces tab-indent reversed-link blank-lines line-length heading-space heading-blank-lines duplicate-heading second-title heading-punctuation list-numbers fence-blank-lines list-blank-lines raw-html bare-url emphasis-spaces code-language empty-link no-alt-text final-newline missing-fragment undefined-reference unused-definition table-cells missing-file
complete -c markdown-lint -l disable -x -a "$rules" -d "Turn a rule off"
complete -c markdown-lint -l only -x -a "$rules" -d "Check this rule alone"
complete -c markdown-lint -l siblings -d "Let headings of different sections have the same text"
complete -c markdown-lint -l line-length -x -d "Find lines of more characters than this"
complete -c markdown-lint -l columns -x -a "bytes characters" -d "What columns count"
complete -c markdown-lint -l ignore -x -d "Leave out folders and files of this name"
complete -c markdown-lint -l config -r -F -d "Read settings from a file"
complete -c markdown-lint -l fix -d "Mend what can be mended with the same page"
complete -c markdown-lint -l json -d "Print each finding as an object of JSON"
complete -c markdown-lint -s h -l help -d "Print help"
complete -c markdown-lint -s V -l version -d "Print the version"
