/* Reads Markdown with the extensions of GitHub from standard input, and writes its table of contents to standard output: a line for
 * each heading, with its slug. */
#include <stdio.h>

#include "markdown.h"

static int print(const markdown_heading *heading, const char *text, const char *slug, void *context)
{
    (void)context;
    printf("%*s", 2 * (heading->rank - 1), "");
    for (size_t i = 0; i < heading->text_length; i++)
        putchar(text[i] == '\n' ? ' ' : text[i]);
    printf(" (#%.*s)\n", (int)heading->slug_length, slug);
    return 0;
}

int main(void)
{
    static unsigned char text[65536];
    size_t length = fread(text, 1, sizeof text, stdin);
    return markdown_outline(text, length, MARKDOWN_GFM | MARKDOWN_FRONTMATTER, print, NULL) != MARKDOWN_OK;
}
