# Completions of markdown-fmt's options for fish.
complete -c markdown-fmt -F
complete -c markdown-fmt -l check -d "Write nothing, print the names of files that would change"
complete -c markdown-fmt -l diff -d "Write nothing, print what would change"
complete -c markdown-fmt -l padded-tables -d "Pad the cells of tables"
complete -c markdown-fmt -l hard-breaks -x -a "spaces backslash" -d "End lines with hard breaks so"
set -l rules trailing-spaces file-ends blank-lines code-indented code-fenced heading-setext heading-atx blank-around thematic-break bullet-marker marker-space list-indent list-number attention hard-break gfm-table definition
complete -c markdown-fmt -l disable -x -a "$rules" -d "Turn a rule off"
complete -c markdown-fmt -l enable -x -a "$rules" -d "Turn a rule on"
complete -c markdown-fmt -l ignore -r -F -d "Leave out files and folders below folders"
complete -c markdown-fmt -l config -r -F -d "Read settings from a file"
complete -c markdown-fmt -l gfm -d "Read GitHub Flavored Markdown"
complete -c markdown-fmt -l frontmatter -d "Read frontmatter at the start of a text"
complete -c markdown-fmt -l math -d 'Read $a$, and blocks between lines of $$'
complete -c markdown-fmt -l mark -d "Read ==text== as marked text"
complete -c markdown-fmt -l all -d "All four"
complete -c markdown-fmt -s h -l help -d "Print help"
complete -c markdown-fmt -s V -l version -d "Print the version"
