/* Reads Markdown with the extensions of GitHub from standard input, and writes its links to standard output, one a line: line, column,
 * kind and destination. */
#include <stdio.h>

#include "markdown.h"

static int print(const markdown_link *link, const char *destination, void *context)
{
    static const char *const KINDS[] = {"link", "image", "autolink", "literal", "definition"};
    (void)context;
    printf("%zu:%zu %s %.*s\n", link->line, link->column, KINDS[link->kind], (int)link->destination_length, destination);
    return 0;
}

int main(void)
{
    static unsigned char text[65536];
    size_t length = fread(text, 1, sizeof text, stdin);
    return markdown_links(text, length, MARKDOWN_GFM, print, NULL) != MARKDOWN_OK;
}
