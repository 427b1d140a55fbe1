/* Reads Markdown from standard input, and reads it again and again by the C library: by `events` it finds its events, by `page` it
 * makes its page, by `count` it prints how many events there are.
 *
 *     parse events|page|count TIMES < FILE */
#include <stdio.h>
#include <stdlib.h>
#include <string.h>

#include "markdown.h"

static unsigned char text[1 << 24];

int main(int count, char **words)
{
    size_t length = fread(text, 1, sizeof text, stdin), room = length * 8 + 1024, found = 0;
    void *into = malloc(room * sizeof(markdown_event));
    int by_page = count > 1 && strcmp(words[1], "page") == 0;
    if (into == NULL || length == sizeof text)
        return 1;
    for (long times = count > 2 ? atol(words[2]) : 1; times > 0; times--) {
        uint32_t status = by_page ? markdown_convert(text, length, 0, into, room * sizeof(markdown_event), &found)
                                  : markdown_list_events(text, length, 0, into, room, &found);
        if (status != MARKDOWN_OK)
            return 1;
    }
    if (count > 1 && strcmp(words[1], "count") == 0)
        printf("%zu\n", found);
    free(into);
    return 0;
}
