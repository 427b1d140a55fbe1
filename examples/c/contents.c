/* Reads Markdown from standard input, and writes a table of contents: a list of the headings, each with a link to its line.
 *
 *     contents FILE < FILE
 *
 * FILE is what the links begin with: `contents a.md` writes links such as a.md#L1. */
#include <stdio.h>
#include <stdlib.h>
#include <string.h>

#include "markdown.h"

struct contents {
    const unsigned char *text;
    const char *file;
    size_t line, start; /* of the heading, and of the last event */
    int rank, is_title; /* of the heading, and whether its text is open */
    int targets;        /* how many destinations and references are open */
    char *title;        /* the heading's text so far, as Markdown */
    size_t length, room;
};

/* Adds a byte to the title. Returns 0 if there is no memory. */
static int push(struct contents *contents, char byte)
{
    if (contents->length == contents->room) {
        size_t room = contents->room * 2 + 64;
        char *grown = realloc(contents->title, room);
        if (grown == NULL)
            return 0;
        contents->title = grown;
        contents->room = room;
    }
    contents->title[contents->length++] = byte;
    return 1;
}

/* Adds text to the title: with a backslash before punctuation, and a space for each line ending. */
static int push_text(struct contents *contents, const unsigned char *text, size_t length)
{
    for (size_t i = 0; i < length; i++) {
        if (text[i] == '\r' && i + 1 < length)
            continue;
        int is_ending = text[i] == '\r' || text[i] == '\n';
        int is_punctuation = text[i] != 0 && strchr("!\"#$%&'()*+,-./:;<=>?@[\\]^_`{|}~", text[i]) != NULL;
        if ((is_punctuation && !push(contents, '\\')) || !push(contents, is_ending ? ' ' : (char)text[i]))
            return 0;
    }
    return 1;
}

static void enter(struct contents *contents, const markdown_event *event)
{
    switch (event->name) {
    case MARKDOWN_EVENT_HEADING_ATX:
    case MARKDOWN_EVENT_HEADING_SETEXT:
        contents->line = event->line;
        contents->rank = 0;
        contents->length = 0;
        break;
    case MARKDOWN_EVENT_HEADING_ATX_TEXT:
    case MARKDOWN_EVENT_HEADING_SETEXT_TEXT:
        contents->is_title = 1;
        break;
    case MARKDOWN_EVENT_RESOURCE:
    case MARKDOWN_EVENT_REFERENCE:
        contents->targets++;
    }
    contents->start = event->offset;
}

/* Adds the bytes of an event to the title, if they are text. Returns 0 if there is no memory. */
static int push_event(struct contents *contents, uint32_t name, const unsigned char *bytes, size_t length)
{
    switch (name) {
    case MARKDOWN_EVENT_DATA:
    case MARKDOWN_EVENT_CODE_TEXT_DATA:
    case MARKDOWN_EVENT_CHARACTER_ESCAPE_VALUE:
    case MARKDOWN_EVENT_LINE_ENDING:
        return push_text(contents, bytes, length);
    case MARKDOWN_EVENT_CHARACTER_REFERENCE_MARKER: /* & */
    case MARKDOWN_EVENT_CHARACTER_REFERENCE_MARKER_NUMERIC:
    case MARKDOWN_EVENT_CHARACTER_REFERENCE_MARKER_HEXADECIMAL:
    case MARKDOWN_EVENT_CHARACTER_REFERENCE_VALUE:
    case MARKDOWN_EVENT_CHARACTER_REFERENCE_MARKER_SEMI:
        for (size_t i = 0; i < length; i++)
            if (!push(contents, (char)bytes[i]))
                return 0;
    }
    return 1;
}

/* Returns 0 if there is no memory. */
static int leave(struct contents *contents, const markdown_event *event)
{
    const unsigned char *bytes = contents->text + contents->start;
    switch (event->name) {
    case MARKDOWN_EVENT_RESOURCE:
    case MARKDOWN_EVENT_REFERENCE:
        contents->targets--;
        break;
    case MARKDOWN_EVENT_HEADING_ATX_SEQUENCE:
        if (contents->rank == 0) /* otherwise it is a closing sequence */
            contents->rank = (int)(event->offset - contents->start);
        break;
    case MARKDOWN_EVENT_HEADING_SETEXT_UNDERLINE_SEQUENCE:
        contents->rank = *bytes == '=' ? 1 : 2;
        break;
    case MARKDOWN_EVENT_HEADING_ATX_TEXT:
    case MARKDOWN_EVENT_HEADING_SETEXT_TEXT:
        contents->is_title = 0;
        break;
    case MARKDOWN_EVENT_HEADING_ATX:
    case MARKDOWN_EVENT_HEADING_SETEXT:
        printf("%*s- [%.*s](%s#L%zu)\n", 2 * (contents->rank - 1), "", (int)contents->length,
               contents->title == NULL ? "" : contents->title, contents->file, contents->line);
        break;
    default:
        if (contents->is_title && contents->targets == 0)
            return push_event(contents, event->name, bytes, event->offset - contents->start);
    }
    return 1;
}

/* Called for each event. */
static int add(const markdown_event *event, void *context)
{
    if (event->kind == MARKDOWN_EXIT)
        return !leave(context, event);
    enter(context, event);
    return 0;
}

/* Reads to the end into a buffer from malloc. Returns NULL if there is no memory, or reading fails. */
static unsigned char *read_all(FILE *input, size_t *length)
{
    size_t room = 65536;
    unsigned char *text = malloc(room);
    *length = 0;
    while (text != NULL) {
        *length += fread(text + *length, 1, room - *length, input);
        if (*length < room && !ferror(input))
            return text;
        unsigned char *grown = ferror(input) ? NULL : realloc(text, room *= 2);
        if (grown == NULL)
            free(text);
        text = grown;
    }
    return NULL;
}

int main(int count, char **words)
{
    size_t length;
    unsigned char *text = read_all(stdin, &length);
    if (text == NULL) {
        fputs("contents: cannot read\n", stderr);
        return 1;
    }
    struct contents contents = {.text = text, .file = count > 1 ? words[1] : ""};
    uint32_t status = markdown_events(text, length, MARKDOWN_GFM | MARKDOWN_FRONTMATTER, add, &contents);
    free(contents.title);
    free(text);
    if (status != MARKDOWN_OK)
        fprintf(stderr, "contents: %s\n", status == MARKDOWN_UTF8 ? "input is not UTF-8" : "out of memory");
    return status != MARKDOWN_OK;
}
