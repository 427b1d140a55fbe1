/* Reads Markdown from standard input, and writes its HTML to standard output.
 *
 *     convert [--gfm] [--dangerous] [--plain] [--math] [--frontmatter] [--mark] */
#include <stdio.h>
#include <string.h>

#include "markdown.h"

static const struct {
    const char *word;
    uint32_t flags;
} WORDS[] = {
    {"--gfm", MARKDOWN_GFM},
    {"--dangerous", MARKDOWN_DANGEROUS},
    {"--plain", MARKDOWN_PLAIN},
    {"--math", MARKDOWN_MATH},
    {"--frontmatter", MARKDOWN_FRONTMATTER},
    {"--mark", MARKDOWN_MARK},
};

/* The flags of a word, or 0 for one that isn't known. */
static uint32_t flags_of(const char *word)
{
    for (size_t i = 0; i < sizeof WORDS / sizeof *WORDS; i++)
        if (strcmp(word, WORDS[i].word) == 0)
            return WORDS[i].flags;
    return 0;
}

/* What a status says, as the program's faults do. */
static const char *fault(uint32_t status)
{
    switch (status) {
    case MARKDOWN_UTF8: return "input is not UTF-8";
    case MARKDOWN_SIZE: return "input is too large";
    case MARKDOWN_MEMORY: return "out of memory";
    default: return "wrong flags";
    }
}

/* Reads to the end into a buffer from malloc. NULL where there is no memory, or reading fails. */
static unsigned char *read_all(FILE *input, size_t *length)
{
    size_t room = 65536;
    unsigned char *text = malloc(room);
    *length = 0;
    while (text != NULL) {
        *length += fread(text + *length, 1, room - *length, input);
        if (ferror(input)) {
            free(text);
            return NULL;
        }
        if (*length < room)
            return text;
        unsigned char *grown = realloc(text, room *= 2);
        if (grown == NULL)
            free(text);
        text = grown;
    }
    return NULL;
}

int main(int count, char **words)
{
    uint32_t flags = 0;
    for (int i = 1; i < count; i++) {
        if (flags_of(words[i]) == 0) {
            fputs("convert: wrong command line\n", stderr);
            return 2;
        }
        flags |= flags_of(words[i]);
    }
    size_t text_length, length, room = 0;
    unsigned char *text = read_all(stdin, &text_length), *page = NULL;
    if (text == NULL) {
        fputs("convert: cannot read\n", stderr);
        return 1;
    }
    uint32_t status = markdown_convert_growing(text, text_length, flags, &page, &room, &length);
    free(text);
    int is_written = status == MARKDOWN_OK && fwrite(page, 1, length, stdout) == length && fflush(stdout) == 0;
    free(page);
    if (!is_written)
        fprintf(stderr, "convert: %s\n", status == MARKDOWN_OK ? "cannot write" : fault(status));
    return !is_written;
}
