/* Checks what no page shows: what a call leaves where it refuses, at the edges of a buffer, and where each request for
 * memory is refused in turn. It is linked with -Wl,--wrap=malloc -Wl,--wrap=realloc, and ends with the line of a check that
 * failed, on standard error. */
#include <stdio.h>
#include <string.h>

#include "markdown.h"

#define CHECK(holds) \
    do \
        if (!(holds)) { \
            fprintf(stderr, "refusals: line %d: %s\n", __LINE__, #holds); \
            return 1; \
        } \
    while (0)

void *__real_malloc(size_t size);
void *__real_realloc(void *block, size_t size);
static long left = -1; /* how many requests are still granted; below 0: all */

static int is_granted(void)
{
    return left < 0 || left-- > 0;
}

void *__wrap_malloc(size_t size)
{
    return is_granted() ? __real_malloc(size) : NULL;
}

void *__wrap_realloc(void *block, size_t size)
{
    return is_granted() ? __real_realloc(block, size) : NULL;
}

static const unsigned char TEXT[] = "# *a* & [b](c)\n\n- <b>d</b>\n- `e`\n\n[f]\n\n[f]: /g";
static const char PAGE[] = "<h1><em>a</em> &amp; <a href=\"c\">b</a></h1>\n<ul>\n<li>&lt;b&gt;d&lt;/b&gt;</li>\n<li><code>e</code></li>\n</ul>\n<p><a href=\"/g\">f</a></p>\n";
static unsigned char buffer[1024];
enum { LENGTH = sizeof PAGE - 1 };

static uint32_t convert(uint32_t flags, size_t room, size_t *length)
{
    memset(buffer, '?', sizeof buffer);
    return markdown_convert(TEXT, sizeof TEXT - 1, flags, buffer, room, length);
}

static int is_untouched_from(size_t at)
{
    while (at < sizeof buffer && buffer[at] == '?')
        at++;
    return at == sizeof buffer;
}

static int check_room(void)
{
    size_t length = 7;
    for (size_t room = 1; room < LENGTH; room++) {
        CHECK(convert(0, room, &length) == MARKDOWN_ROOM);
        CHECK(length == LENGTH && is_untouched_from(0));
    }
    for (size_t room = LENGTH; room < LENGTH + 3; room++) {
        CHECK(convert(0, room, &length) == MARKDOWN_OK && length == LENGTH);
        CHECK(memcmp(buffer, PAGE, LENGTH) == 0 && is_untouched_from(LENGTH));
    }
    return 0;
}

/* A call that asks for a length has no room, and a pointer that isn't NULL. */
static int check_measuring(void)
{
    unsigned char none[1] = {'?'};
    markdown_event event;
    markdown_link link;
    markdown_heading heading;
    markdown_options options = markdown_options_of(0);
    size_t length = 7, count = 0;
    CHECK(markdown_convert(TEXT, sizeof TEXT - 1, 0, none, 0, &length) == MARKDOWN_ROOM && length == LENGTH && none[0] == '?');
    CHECK(markdown_convert(TEXT, 0, 0, none, 0, &length) == MARKDOWN_OK && length == 0);
    CHECK(markdown_list_events(TEXT, sizeof TEXT - 1, 0, &event, 0, &count) == MARKDOWN_ROOM && count > 10);
    CHECK(markdown_list_links(TEXT, sizeof TEXT - 1, 0, &link, 0, &count, none, 0, &length) == MARKDOWN_ROOM);
    CHECK(count == 3 && length == 3 && none[0] == '?');
    CHECK(markdown_list_outline(TEXT, sizeof TEXT - 1, 0, &heading, 0, &count, none, 0, &length) == MARKDOWN_ROOM);
    CHECK(count == 1 && length == 9 && none[0] == '?');
    CHECK(markdown_sanitize_with(TEXT, sizeof TEXT - 1, &options, none, 0, &length) == MARKDOWN_ROOM && length > 40 && none[0] == '?');
    return 0;
}

static int check_refusals(void)
{
    size_t length = 7;
    CHECK(convert(2048, sizeof buffer, &length) == MARKDOWN_FLAGS && length == 0 && is_untouched_from(0));
    CHECK(convert(UINT32_MAX, sizeof buffer, &length) == MARKDOWN_FLAGS && length == 0 && is_untouched_from(0));
    CHECK(markdown_convert((const unsigned char *)"a\xff", 2, 0, buffer, sizeof buffer, &length) == MARKDOWN_UTF8);
    CHECK(length == 0 && is_untouched_from(0));
    CHECK(markdown_convert(TEXT, 0, 0, buffer, sizeof buffer, &length) == MARKDOWN_OK && length == 0);
    CHECK(convert(MARKDOWN_DANGEROUS, sizeof buffer, &length) == MARKDOWN_OK && strstr((char *)buffer, "<b>d</b>"));
    CHECK(convert(MARKDOWN_PLAIN, sizeof buffer, &length) == MARKDOWN_OK && memcmp(buffer, "<p># *a*", 8) == 0);
    CHECK(convert(MARKDOWN_PLAIN | MARKDOWN_DANGEROUS, sizeof buffer, &length) == MARKDOWN_OK && memcmp(buffer, "<p># *a*", 8) == 0);
    return 0;
}

static int check_memory(void)
{
    size_t length = 7;
    uint32_t status = MARKDOWN_MEMORY;
    long granted;
    for (granted = 0; status == MARKDOWN_MEMORY; granted++) {
        left = granted;
        status = convert(0, sizeof buffer, &length);
        left = -1;
        CHECK(status == MARKDOWN_MEMORY ? length == 0 && is_untouched_from(0) : status == MARKDOWN_OK);
    }
    CHECK(granted > 10 && memcmp(buffer, PAGE, LENGTH) == 0);
    return 0;
}

static int check_growing(void)
{
    size_t length, room = 0;
    unsigned char *page = NULL;
    CHECK(markdown_convert_growing(NULL, 0, 0, &page, &room, &length) == MARKDOWN_OK && length == 0);
    CHECK(markdown_convert_growing((const unsigned char *)"\"\"\"\"\"\"\"\"\"\"\"\"\"\"\"\"\"\"\"\"", 20, 0, &page, &room, &length) == MARKDOWN_OK);
    CHECK(length == 127 && room == 127 && memcmp(page, "<p>&quot;", 9) == 0);
    CHECK(markdown_convert_growing(TEXT, sizeof TEXT - 1, 0, &page, &room, &length) == MARKDOWN_OK && length == LENGTH);
    left = 0;
    CHECK(markdown_convert_growing(TEXT, 1, 0, &page, &room, &length) == MARKDOWN_MEMORY);
    left = -1;
    /* The buffer has what the call before has written. */
    CHECK(length == 0 && memcmp(page, PAGE, LENGTH) == 0);
    free(page);
    return 0;
}

static markdown_event array[256];

static uint32_t list_events(uint32_t flags, size_t room, size_t *count)
{
    memset(array, '?', sizeof array);
    return markdown_list_events(TEXT, sizeof TEXT - 1, flags, array, room, count);
}

static int is_array_untouched_from(size_t at)
{
    const unsigned char *byte = (const unsigned char *)&array[at], *end = (const unsigned char *)(array + 256);
    while (byte < end && *byte == '?')
        byte++;
    return byte == end;
}

static int check_events(void)
{
    size_t count = 7, wanted = 0;
    uint32_t status = MARKDOWN_MEMORY;
    CHECK(list_events(0, 256, &wanted) == MARKDOWN_OK && wanted > 50 && is_array_untouched_from(wanted));
    CHECK(array[0].name == MARKDOWN_EVENT_HEADING_ATX && array[0].kind == MARKDOWN_ENTER);
    CHECK(array[wanted - 1].kind == MARKDOWN_EXIT && array[wanted - 1].offset == sizeof TEXT - 1);
    for (size_t i = 1; i < wanted; i++)
        CHECK(array[i].offset >= array[i - 1].offset && array[i].line >= array[i - 1].line && array[i].columns == 0);
    for (size_t room = 0; room < wanted; room++)
        CHECK(list_events(0, room, &count) == MARKDOWN_ROOM && count == wanted && is_array_untouched_from(0));
    CHECK(list_events(0, wanted, &count) == MARKDOWN_OK && count == wanted && is_array_untouched_from(wanted));
    CHECK(list_events(2048, 256, &count) == MARKDOWN_FLAGS && count == 0 && is_array_untouched_from(0));
    CHECK(markdown_list_events((const unsigned char *)"a\xff", 2, 0, array, 256, &count) == MARKDOWN_UTF8 && count == 0);
    CHECK(markdown_list_events(TEXT, 0, 0, array, 256, &count) == MARKDOWN_OK && count == 0);
    for (long granted = 0; status == MARKDOWN_MEMORY; granted++) {
        left = granted;
        status = list_events(0, 256, &count);
        left = -1;
        CHECK(status == MARKDOWN_MEMORY ? count == 0 && is_array_untouched_from(0) : status == MARKDOWN_OK && count == wanted);
    }
    return 0;
}

static int count_events(const markdown_event *event, void *context)
{
    (void)event;
    return ++*(size_t *)context == 9;
}

static int check_callback(void)
{
    size_t count = 0;
    CHECK(markdown_events(NULL, 0, 0, count_events, &count) == MARKDOWN_OK && count == 0);
    CHECK(markdown_events(TEXT, sizeof TEXT - 1, 0, count_events, &count) == MARKDOWN_STOPPED && count == 9);
    CHECK(markdown_events(TEXT, sizeof TEXT - 1, 0, count_events, &count) == MARKDOWN_OK && count > 50);
    left = 0;
    CHECK(markdown_events(TEXT, 1, 0, count_events, &count) == MARKDOWN_MEMORY);
    left = -1;
    CHECK(markdown_event_name(MARKDOWN_EVENT_COUNT) == NULL);
    CHECK(strcmp(markdown_event_name(MARKDOWN_EVENT_THEMATIC_BREAK_SEQUENCE), "ThematicBreakSequence") == 0);
    return 0;
}

static int count_links(const markdown_link *link, const char *destination, void *context)
{
    size_t *count = context;
    if (link->destination_length != 2 - *count || memcmp(destination, "/g" + *count, 2 - *count) != 0)
        return 1;
    return ++*count == 2;
}

static int check_links(void)
{
    static const unsigned char LINKS[] = "[f] [a](g)\n\n[f]: /g";
    static markdown_link links[3];
    size_t count = 0, length = 7;
    uint32_t status = MARKDOWN_MEMORY;
    CHECK(markdown_list_links(LINKS, sizeof LINKS - 1, 0, links, 3, &count, buffer, 3, &length) == MARKDOWN_OK);
    CHECK(count == 3 && length == 3 && links[0].definition == 2 && links[1].definition == MARKDOWN_NO_DEFINITION);
    CHECK(links[0].kind == MARKDOWN_LINK && links[2].kind == MARKDOWN_DEFINITION && links[2].offset == 12);
    CHECK(markdown_list_links(LINKS, sizeof LINKS - 1, 0, links, 2, &count, buffer, 3, &length) == MARKDOWN_ROOM && count == 3);
    CHECK(markdown_list_links(LINKS, sizeof LINKS - 1, 0, links, 3, &count, buffer, 2, &length) == MARKDOWN_ROOM && length == 3);
    CHECK(markdown_list_links(LINKS, 2, 2048, links, 3, &count, buffer, 3, &length) == MARKDOWN_FLAGS && count == 0 && length == 0);
    count = 0;
    CHECK(markdown_links(NULL, 0, 0, count_links, &count) == MARKDOWN_OK && count == 0);
    CHECK(markdown_links(LINKS, sizeof LINKS - 1, 0, count_links, &count) == MARKDOWN_STOPPED && count == 2);
    for (long granted = 0; status == MARKDOWN_MEMORY; granted++) {
        left = granted;
        count = 0;
        status = markdown_links(LINKS, sizeof LINKS - 1, 0, count_links, &count);
        left = -1;
        CHECK(status == MARKDOWN_MEMORY ? count == 0 : status == MARKDOWN_STOPPED && count == 2);
    }
    return 0;
}

static int count_headings(const markdown_heading *heading, const char *text, const char *slug, void *context)
{
    size_t *count = context;
    if (heading->text_length != 2 || memcmp(text, "a!", 2) != 0 || heading->slug_length != 1 + 2 * *count || memcmp(slug, "a-1", heading->slug_length) != 0)
        return 1;
    return ++*count == 2;
}

static int check_outline(void)
{
    static const unsigned char HEADINGS[] = "# a!\n\na!\n---";
    static markdown_heading headings[2];
    size_t count = 0, length = 7;
    uint32_t status = MARKDOWN_MEMORY;
    CHECK(markdown_list_outline(HEADINGS, sizeof HEADINGS - 1, 0, headings, 2, &count, buffer, 8, &length) == MARKDOWN_OK);
    CHECK(count == 2 && length == 8 && headings[0].rank == 1 && headings[1].rank == 2 && headings[1].offset == 6 && headings[1].end_line == 4);
    CHECK(markdown_list_outline(HEADINGS, sizeof HEADINGS - 1, 0, headings, 1, &count, buffer, 8, &length) == MARKDOWN_ROOM && count == 2);
    CHECK(markdown_list_outline(HEADINGS, sizeof HEADINGS - 1, 0, headings, 2, &count, buffer, 7, &length) == MARKDOWN_ROOM && length == 8);
    CHECK(markdown_list_outline(HEADINGS, 2, 2048, headings, 2, &count, buffer, 8, &length) == MARKDOWN_FLAGS && count == 0 && length == 0);
    CHECK(markdown_list_outline((const unsigned char *)"\xff", 1, 0, headings, 2, &count, buffer, 8, &length) == MARKDOWN_UTF8 && count == 0);
    count = 0;
    CHECK(markdown_outline(NULL, 0, 0, count_headings, &count) == MARKDOWN_OK && count == 0);
    CHECK(markdown_outline(HEADINGS, sizeof HEADINGS - 1, 0, count_headings, &count) == MARKDOWN_STOPPED && count == 2);
    for (long granted = 0; status == MARKDOWN_MEMORY; granted++) {
        left = granted;
        count = 0;
        status = markdown_outline(HEADINGS, sizeof HEADINGS - 1, 0, count_headings, &count);
        left = -1;
        CHECK(status == MARKDOWN_MEMORY ? count == 0 : status == MARKDOWN_STOPPED && count == 2);
    }
    return 0;
}

static int check_sanitized(void)
{
    static const unsigned char HTML[] = "<p onclick=a>\"<script>";
    static const char KEPT[] = "<p>&quot;&lt;script&gt;</p>";
    size_t length = 7, room = 0;
    unsigned char *page = NULL;
    uint32_t status = MARKDOWN_MEMORY;
    markdown_options options = markdown_options_of(2048);
    CHECK(markdown_sanitize_with(HTML, sizeof HTML - 1, &options, buffer, sizeof buffer, &length) == MARKDOWN_FLAGS && length == 0);
    options = markdown_options_of(0);
    CHECK(markdown_sanitize_with((const unsigned char *)"\xff", 1, &options, buffer, sizeof buffer, &length) == MARKDOWN_UTF8 && length == 0);
    CHECK(markdown_sanitize_with(HTML, sizeof HTML - 1, &options, buffer, sizeof buffer, &length) == MARKDOWN_OK);
    CHECK(length == sizeof KEPT - 1 && memcmp(buffer, KEPT, length) == 0);
    CHECK(markdown_sanitize_growing(NULL, 0, &page, &room, &length) == MARKDOWN_OK && length == 0);
    for (long granted = 0; status == MARKDOWN_MEMORY; granted++) {
        left = granted;
        status = markdown_sanitize_growing(HTML, sizeof HTML - 1, &page, &room, &length);
        left = -1;
        CHECK(status == MARKDOWN_MEMORY ? length == 0 : status == MARKDOWN_OK && length == sizeof KEPT - 1);
    }
    CHECK(memcmp(page, KEPT, length) == 0);
    free(page);
    return 0;
}

/* Whether a sum of flags gives the same page by flags and by the options of these. */
static int check_options(void)
{
    static unsigned char other[sizeof buffer];
    CHECK(sizeof(markdown_options) == 168 && sizeof(markdown_event) == 32 && sizeof(markdown_link) == 88 && sizeof(markdown_heading) == 96);
    for (uint32_t flags = 0; flags < 2048; flags++) {
        markdown_options options = markdown_options_of(flags);
        size_t length = 7, other_length = 8;
        memset(other, '?', sizeof other);
        CHECK(convert(flags, sizeof buffer, &length) == MARKDOWN_OK);
        CHECK(markdown_convert_with(TEXT, sizeof TEXT - 1, &options, other, sizeof other, &other_length) == MARKDOWN_OK);
        CHECK(length == other_length && memcmp(buffer, other, sizeof buffer) == 0);
    }
    return 0;
}

static uint32_t convert_with(const markdown_options *options, size_t *length)
{
    memset(buffer, '?', sizeof buffer);
    return markdown_convert_with(TEXT, sizeof TEXT - 1, options, buffer, sizeof buffer, length);
}

static int check_options_refused(void)
{
    size_t length = 7, count = 7;
    markdown_options options = markdown_options_of(2048);
    CHECK(convert_with(&options, &length) == MARKDOWN_FLAGS && length == 0 && is_untouched_from(0));
    CHECK(markdown_list_events_with(TEXT, sizeof TEXT - 1, &options, array, 256, &count) == MARKDOWN_FLAGS && count == 0);
    options = markdown_options_of(0);
    options.size += 8;
    CHECK(convert_with(&options, &length) == MARKDOWN_FLAGS);
    options = markdown_options_of(0);
    options.constructs |= UINT64_C(1) << 30;
    CHECK(convert_with(&options, &length) == MARKDOWN_FLAGS);
    options = markdown_options_of(0);
    options.switches |= 1024;
    CHECK(convert_with(&options, &length) == MARKDOWN_FLAGS);
    options = markdown_options_of(0);
    options.default_line_ending = 3;
    CHECK(convert_with(&options, &length) == MARKDOWN_FLAGS);
    options = markdown_options_of(0);
    options.gfm_footnote_label = markdown_text_of("\xff");
    CHECK(convert_with(&options, &length) == MARKDOWN_FLAGS);
    options = markdown_options_of(0);
    options.link_base = markdown_text_of("\xff");
    CHECK(convert_with(&options, &length) == MARKDOWN_FLAGS);
    return 0;
}

/* Each request for memory refused in turn, with texts that are copied. */
static int check_options_memory(void)
{
    size_t length = 7;
    uint32_t status = MARKDOWN_MEMORY;
    long granted;
    markdown_options options = markdown_options_of(MARKDOWN_GFM);
    options.gfm_footnote_back_label = options.gfm_footnote_clobber_prefix = options.gfm_footnote_label = markdown_text_of("a");
    options.gfm_footnote_label_attributes = options.gfm_footnote_label_tag_name = markdown_text_of("b");
    for (granted = 0; status == MARKDOWN_MEMORY; granted++) {
        left = granted;
        status = convert_with(&options, &length);
        left = -1;
        CHECK(status == MARKDOWN_MEMORY ? length == 0 && is_untouched_from(0) : status == MARKDOWN_OK);
    }
    CHECK(granted > 15 && length == LENGTH && memcmp(buffer, PAGE, LENGTH) == 0);
    return 0;
}

static int check_safe_pages(void)
{
    static const unsigned char UNSAFE[] = "<p onclick=\"a\">b</p>";
    uint32_t is_safe = 7;
    CHECK(markdown_is_safe_page((const unsigned char *)PAGE, LENGTH) && markdown_is_safe_page(NULL, 0));
    CHECK(!markdown_is_safe_page(UNSAFE, sizeof UNSAFE - 1) && !markdown_is_safe_page((const unsigned char *)"\xff", 1));
    CHECK(markdown_check_page(UNSAFE, sizeof UNSAFE - 1, &is_safe) == MARKDOWN_OK && is_safe == 0);
    CHECK(markdown_check_page((const unsigned char *)PAGE, LENGTH, &is_safe) == MARKDOWN_OK && is_safe == 1);
    left = 0;
    CHECK(markdown_check_page((const unsigned char *)PAGE, LENGTH, &is_safe) == MARKDOWN_MEMORY && is_safe == 0);
    left = 0;
    CHECK(!markdown_is_safe_page((const unsigned char *)PAGE, LENGTH));
    left = -1;
    return 0;
}

int main(void)
{
    return check_room() || check_measuring() || check_refusals() || check_memory() || check_growing() || check_events() || check_callback() || check_links()
        || check_outline() || check_sanitized() || check_options() || check_options_refused() || check_options_memory() || check_safe_pages();
}
