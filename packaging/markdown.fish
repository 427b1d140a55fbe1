# Completions of markdown's options for fish.
for command in markdown markdown-proved
    complete -c $command -F
    complete -c $command -l gfm -d "Read what GitHub adds to CommonMark"
    complete -c $command -l mark -d "Read ==text== as marked text"
    complete -c $command -l math -d 'Read $a$, and blocks between lines of $$, as math'
    complete -c $command -l frontmatter -d "Leave out metadata at the start of the input"
    complete -c $command -l heading-ids -d "Print ids of headings"
    complete -c $command -l heading-id-prefix -x -d "Print a text before these ids"
    complete -c $command -l link-base -x -d "Print a URL before links that are relative paths"
    complete -c $command -l image-base -x -d "Print a URL before images that are relative paths"
    complete -c $command -l link-rel -x -d "Print a rel in links"
    complete -c $command -l lazy-images -d 'Print loading="lazy" in images'
    complete -c $command -l listed-html -d "Keep HTML by a list of elements and attributes"
    complete -c $command -l dangerous -d "Keep HTML and every protocol of the input"
    complete -c $command -l plain -d "Turn every construct off"
    complete -c $command -l references -r -F -d "Read more names of character references from a file"
    complete -c $command -s h -l help -d "Print help"
    complete -c $command -s V -l version -d "Print the version"
end
