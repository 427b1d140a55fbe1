# Completions of markdown-safe's options for fish.
complete -c markdown-safe -F
complete -c markdown-safe -l clean -d "Print what is kept of the HTML"
complete -c markdown-safe -l listed -d "Let pages have tags of the list, too"
complete -c markdown-safe -s h -l help -d "Print help"
complete -c markdown-safe -s V -l version -d "Print the version"
