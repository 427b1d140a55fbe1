/* Reads a page from standard input, made by any program. The exit status is 0 if it is a safe page, 1 if it isn't, and 2 if that
 * can't be told. */
#include <stdio.h>

#include "markdown.h"

int main(void)
{
    size_t room = 65536, length = 0;
    unsigned char *page = malloc(room);
    uint32_t is_safe = 0, status = MARKDOWN_MEMORY;
    while (page != NULL) {
        length += fread(page + length, 1, room - length, stdin);
        if (length < room)
            break;
        unsigned char *grown = realloc(page, room *= 2);
        if (grown == NULL)
            free(page);
        page = grown;
    }
    if (page != NULL && !ferror(stdin))
        status = markdown_check_page(page, length, &is_safe);
    free(page);
    return status != MARKDOWN_OK ? 2 : is_safe ? 0 : 1;
}
