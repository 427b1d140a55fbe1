/* Reads Markdown from standard input, and writes the HTML that md4c makes of it; with --gfm, of GitHub's dialect. */
#include <md4c-html.h>
#include <stdio.h>
#include <stdlib.h>
#include <string.h>

struct page {
    char *bytes;
    size_t length, room;
};

static void append(const MD_CHAR *text, MD_SIZE length, void *data)
{
    struct page *page = data;
    if (page->room - page->length < length) {
        page->room = page->room + page->room / 2 + length;
        page->bytes = realloc(page->bytes, page->room);
        if (page->bytes == NULL)
            abort();
    }
    memcpy(page->bytes + page->length, text, length);
    page->length += length;
}

int main(int count, char **words)
{
    int is_gfm = count > 1 && strcmp(words[1], "--gfm") == 0;
    size_t length = 0, room = 65536, got;
    char *text = malloc(room);
    while ((got = fread(text + length, 1, room - length, stdin)) > 0) {
        length += got;
        if (length == room)
            text = realloc(text, room *= 2);
    }
    struct page page = {malloc(length + length / 8 + 64), 0, length + length / 8 + 64};
    int fault = md_html(text, length, append, &page, is_gfm ? MD_DIALECT_GITHUB : MD_DIALECT_COMMONMARK, 0);
    fwrite(page.bytes, 1, page.length, stdout);
    free(page.bytes);
    free(text);
    return fault;
}
