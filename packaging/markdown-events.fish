# Completions of markdown-events's options for fish.
complete -c markdown-events -F
complete -c markdown-events -l gfm -d "Read GitHub Flavored Markdown"
complete -c markdown-events -l frontmatter -d "Read frontmatter at the start of a text"
complete -c markdown-events -l math -d 'Read $a$, and blocks between lines of $$'
complete -c markdown-events -l mark -d "Read ==text== as marked text"
complete -c markdown-events -l all -d "All four"
complete -c markdown-events -l outline -d "Print headings instead of events"
complete -c markdown-events -s h -l help -d "Print help"
complete -c markdown-events -s V -l version -d "Print the version"
