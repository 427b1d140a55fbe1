/* Converts a million tiny texts, as comments are, in one process by the call of a library, and prints the nanoseconds of
 * a text, the best of so many rounds. The libraries run in turn, round for round.
 *
 *     tiny [TEXTS] [ROUNDS] */
#define _POSIX_C_SOURCE 200809L
#include <cmark.h>
#include <md4c-html.h>
#include <stdio.h>
#include <stdlib.h>
#include <string.h>
#include <time.h>

#include "markdown.h"

static const char *const TEXTS[] = {
    "Thanks, that works!",
    "ok",
    "I think *this* is what [the manual](https://example.com/manual#part-2) says.",
    "> Did you try `make clean`?\n\nYes, twice.",
    "1. open it\n2. read it\n3. **close** it",
    "It prints\n\n```\nerror: no such file\n```\n\nand stops :(",
    "See <https://example.com/a?b=c&d=e>, a < b &amp; c > d",
    "A longer comment, in two lines with nothing in them that a\nconverter would have to look at more than once.",
};
enum { COUNT = sizeof TEXTS / sizeof *TEXTS };

struct page {
    char bytes[4096];
    size_t length;
};

static void append(const MD_CHAR *text, MD_SIZE length, void *data)
{
    struct page *page = data;
    memcpy(page->bytes + page->length, text, length);
    page->length += length;
}

static size_t by_markdown(const char *text, size_t length)
{
    static unsigned char page[4096];
    size_t made;
    if (markdown_convert((const unsigned char *)text, length, 0, page, sizeof page, &made) != MARKDOWN_OK)
        abort();
    return made;
}

static size_t by_md4c(const char *text, size_t length)
{
    static struct page page;
    page.length = 0;
    if (md_html(text, length, append, &page, MD_DIALECT_COMMONMARK, 0) != 0)
        abort();
    return page.length;
}

static size_t by_cmark(const char *text, size_t length)
{
    char *page = cmark_markdown_to_html(text, length, CMARK_OPT_DEFAULT);
    size_t made = strlen(page);
    free(page);
    return made;
}

static const struct {
    const char *name;
    size_t (*convert)(const char *, size_t);
} LIBRARIES[] = {{"this library", by_markdown}, {"md4c", by_md4c}, {"cmark", by_cmark}};
enum { LIBRARY_COUNT = sizeof LIBRARIES / sizeof *LIBRARIES };

static double now(void)
{
    struct timespec time;
    clock_gettime(CLOCK_PROCESS_CPUTIME_ID, &time);
    return (double)time.tv_sec * 1e9 + (double)time.tv_nsec;
}

int main(int count, char **words)
{
    long texts = count > 1 ? atol(words[1]) : 1000000, rounds = count > 2 ? atol(words[2]) : 5;
    size_t lengths[COUNT], made = 0;
    double best[LIBRARY_COUNT];
    for (int i = 0; i < COUNT; i++)
        lengths[i] = strlen(TEXTS[i]);
    for (int i = 0; i < LIBRARY_COUNT; i++)
        best[i] = 1e300;
    for (long round = 0; round < rounds; round++)
        for (int i = 0; i < LIBRARY_COUNT; i++) {
            double start = now();
            for (long t = 0; t < texts; t++)
                made += LIBRARIES[i].convert(TEXTS[t % COUNT], lengths[t % COUNT]);
            if (now() - start < best[i])
                best[i] = now() - start;
        }
    for (int i = 0; i < LIBRARY_COUNT; i++)
        printf("| %ld tiny texts | %s | %.0f ns a text | %.2f | | |\n", texts, LIBRARIES[i].name, best[i] / (double)texts, best[i] / best[0]);
    return made == 0;
}
