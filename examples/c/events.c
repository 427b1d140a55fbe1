/* Reads Markdown with all extensions from standard input, and writes its events to standard output, one a line, as the program
 * markdown-events does. With a number N it stops after N events, and ends with status 3. */
#include <stdio.h>
#include <stdlib.h>

#include "markdown.h"

enum { FLAGS = MARKDOWN_GFM + MARKDOWN_FRONTMATTER + MARKDOWN_MATH + MARKDOWN_MARK };

static int print(const markdown_event *event, void *context)
{
    long *left = context;
    if (*left == 0)
        return 1;
    --*left;
    printf("%s %s %zu:%zu(%zu) %u\n", event->kind == MARKDOWN_ENTER ? "enter" : "exit", markdown_event_name(event->name),
           event->line, event->column, event->offset, event->columns);
    return 0;
}

int main(int count, char **words)
{
    static unsigned char text[65536];
    size_t length = fread(text, 1, sizeof text, stdin);
    long left = count > 1 ? atol(words[1]) : -1;
    uint32_t status = markdown_events(text, length, FLAGS, print, &left);
    return status == MARKDOWN_STOPPED ? 3 : status != MARKDOWN_OK;
}
