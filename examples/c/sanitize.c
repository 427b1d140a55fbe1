/* Reads HTML of any origin from standard input, and writes what is kept of it to standard output: a page without scripts. */
#include <stdio.h>

#include "markdown.h"

int main(void)
{
    static unsigned char html[65536];
    unsigned char *page = NULL;
    size_t html_length = fread(html, 1, sizeof html, stdin), room = 0, length = 0;
    uint32_t status = markdown_sanitize_growing(html, html_length, &page, &room, &length);
    if (status == MARKDOWN_OK && fwrite(page, 1, length, stdout) < length)
        status = MARKDOWN_STOPPED;
    free(page);
    return status != MARKDOWN_OK;
}
