/* Markdown to HTML, to its events, its links and its headings, and HTML to a safe page: the functions of libmarkdown-proved, for C
 * and C++. docs/LIBRARY.md says how to build and link it.
 *
 * Input and HTML are UTF-8. Lengths are in bytes; no terminating NUL is read or written. No function aborts or keeps state
 * between calls, so threads may call them at the same time. The functions of the library free all memory that they take from
 * malloc.
 *
 * The library is compiled for x86-64-v2 (SSE4.2 and POPCNT: processors since about 2009). The loader refuses the shared library
 * on an older one. A program with the static library can ask markdown_is_supported first.
 *
 * The number of a flag, a status or an event never changes; a new one gets a number of its own. Below 1.0 each minor version has
 * a soname of its own, since its functions may differ. */
#ifndef MARKDOWN_H
#define MARKDOWN_H

#include <stddef.h>
#include <stdint.h>
#include <stdlib.h>
#include <string.h>

/* The version of this header, as a text and as a number: major, minor and patch, a byte each. */
#define MARKDOWN_VERSION_TEXT "0.1.0"
#define MARKDOWN_VERSION 0x000100

#ifdef __cplusplus
extern "C" {
#endif

/* Flags, to be added up. Without flags the input is CommonMark and the HTML is safe: HTML in the input is escaped, and URLs
 * with a protocol that isn't allowed become empty. */
enum {
    /* Keep HTML and every protocol of the input. Only for input from trusted authors. */
    MARKDOWN_DANGEROUS = 1,
    /* Turn every construct off: the input is paragraphs. This wins over the flags below. */
    MARKDOWN_PLAIN = 2,
    /* ~~a~~ and ~a~ are struck through. */
    MARKDOWN_STRIKETHROUGH = 4,
    /* $a$ and $$a$$ are math, and so is a block between lines of $$. */
    MARKDOWN_MATH = 8,
    /* Skip metadata at the start of the input, between lines of --- or of +++. */
    MARKDOWN_FRONTMATTER = 16,
    /* An item that begins with [ ] or [x] has a check box. */
    MARKDOWN_TASK_LIST_ITEMS = 32,
    /* A row of delimiters below a line, as | - | - |, makes a table. */
    MARKDOWN_TABLES = 64,
    /* www.a.b, https://a.b and a@b.c are links. */
    MARKDOWN_AUTOLINK_LITERALS = 128,
    /* [^a] calls the footnote that [^a]: b defines. Called footnotes are printed at the end. */
    MARKDOWN_FOOTNOTES = 256,
    /* With MARKDOWN_DANGEROUS: escape < before the names title, textarea, style, xmp, iframe, noembed, noframes, script and
     * plaintext. */
    MARKDOWN_TAGFILTER = 512,
    /* ==a== is marked text. */
    MARKDOWN_MARK = 1024,
    /* GitHub Flavored Markdown: the sum of the flags that GitHub turns on. */
    MARKDOWN_GFM = MARKDOWN_STRIKETHROUGH + MARKDOWN_TASK_LIST_ITEMS + MARKDOWN_TABLES + MARKDOWN_AUTOLINK_LITERALS
        + MARKDOWN_FOOTNOTES + MARKDOWN_TAGFILTER
};

/* Constructs, to be added up. A construct that is off is text. MARKDOWN_COMMONMARK has those of CommonMark. */
enum {
    /* * and _ for emphasis and strong emphasis. */
    MARKDOWN_CONSTRUCT_ATTENTION = 1,
    /* Links in angle brackets, such as <https://a.b>. */
    MARKDOWN_CONSTRUCT_AUTOLINK = 2,
    /* Block quotes by >. */
    MARKDOWN_CONSTRUCT_BLOCK_QUOTE = 4,
    /* A backslash before punctuation. */
    MARKDOWN_CONSTRUCT_CHARACTER_ESCAPE = 8,
    /* Characters by name or number, such as &amp; and &#38;. */
    MARKDOWN_CONSTRUCT_CHARACTER_REFERENCE = 16,
    /* Code blocks by indentation. */
    MARKDOWN_CONSTRUCT_CODE_INDENTED = 32,
    /* Code blocks between fences of backticks or tildes. */
    MARKDOWN_CONSTRUCT_CODE_FENCED = 64,
    /* Code spans between backticks. */
    MARKDOWN_CONSTRUCT_CODE_TEXT = 128,
    /* Definitions of links, such as [a]: b. */
    MARKDOWN_CONSTRUCT_DEFINITION = 256,
    /* Metadata at the start, between lines of --- or +++. It is skipped. */
    MARKDOWN_CONSTRUCT_FRONTMATTER = 512,
    /* Bare links, such as www.a.b, https://a.b and a@b.c. */
    MARKDOWN_CONSTRUCT_GFM_AUTOLINK_LITERAL = 1024,
    /* Definitions of footnotes, such as [^a]: b. */
    MARKDOWN_CONSTRUCT_GFM_FOOTNOTE_DEFINITION = 2048,
    /* Calls of footnotes, such as [^a]. */
    MARKDOWN_CONSTRUCT_GFM_LABEL_START_FOOTNOTE = 4096,
    /* Strikethrough by ~~. */
    MARKDOWN_CONSTRUCT_GFM_STRIKETHROUGH = 8192,
    /* Tables. */
    MARKDOWN_CONSTRUCT_GFM_TABLE = 16384,
    /* Check boxes at the start of items, such as [x]. */
    MARKDOWN_CONSTRUCT_GFM_TASK_LIST_ITEM = 32768,
    /* Line breaks by a backslash. */
    MARKDOWN_CONSTRUCT_HARD_BREAK_ESCAPE = 65536,
    /* Line breaks by spaces at the end of a line. */
    MARKDOWN_CONSTRUCT_HARD_BREAK_TRAILING = 131072,
    /* Headings by #. */
    MARKDOWN_CONSTRUCT_HEADING_ATX = 262144,
    /* Headings with a line of = or - below. */
    MARKDOWN_CONSTRUCT_HEADING_SETEXT = 524288,
    /* HTML blocks. */
    MARKDOWN_CONSTRUCT_HTML_FLOW = 1048576,
    /* HTML in text. */
    MARKDOWN_CONSTRUCT_HTML_TEXT = 2097152,
    /* The start ![ of an image. */
    MARKDOWN_CONSTRUCT_LABEL_START_IMAGE = 4194304,
    /* The start [ of a link. */
    MARKDOWN_CONSTRUCT_LABEL_START_LINK = 8388608,
    /* The end ] of a link or an image. */
    MARKDOWN_CONSTRUCT_LABEL_END = 16777216,
    /* Lists. */
    MARKDOWN_CONSTRUCT_LIST_ITEM = 33554432,
    /* Marked text by ==. */
    MARKDOWN_CONSTRUCT_MARK = 67108864,
    /* Blocks of math between lines of $$. */
    MARKDOWN_CONSTRUCT_MATH_FLOW = 134217728,
    /* Math in text, between dollars. */
    MARKDOWN_CONSTRUCT_MATH_TEXT = 268435456,
    /* Breaks by a line of *, - or _. */
    MARKDOWN_CONSTRUCT_THEMATIC_BREAK = 536870912
};

/* The constructs of CommonMark, as a sum. */
enum { MARKDOWN_COMMONMARK = 603914751 };

/* Switches, to be added up. */
enum {
    /* Images may have any protocol. */
    MARKDOWN_SWITCH_ALLOW_ANY_IMG_SRC = 1,
    /* Keep HTML of the input. Only for input from trusted authors. */
    MARKDOWN_SWITCH_ALLOW_DANGEROUS_HTML = 2,
    /* Links and images may have any protocol, such as javascript. Only for input from trusted authors. */
    MARKDOWN_SWITCH_ALLOW_DANGEROUS_PROTOCOL = 4,
    /* In HTML that is kept: escape < before the names title, textarea, style, xmp, iframe, noembed, noframes, script and
     * plaintext. */
    MARKDOWN_SWITCH_GFM_TAGFILTER = 8,
    /* A reader may check the check boxes of items. */
    MARKDOWN_SWITCH_GFM_TASK_LIST_ITEM_CHECKABLE = 16,
    /* One tilde strikes text too, as in ~a~. */
    MARKDOWN_SWITCH_GFM_STRIKETHROUGH_SINGLE_TILDE = 32,
    /* One dollar makes math too, as in $a$. */
    MARKDOWN_SWITCH_MATH_TEXT_SINGLE_DOLLAR = 64,
    /* Headings have ids, as GitHub makes them. */
    MARKDOWN_SWITCH_HEADING_IDS = 128,
    /* Images have loading="lazy". */
    MARKDOWN_SWITCH_LAZY_IMAGES = 256,
    /* Keep HTML of the input by a list of elements and attributes, and escape the rest. With
     * MARKDOWN_SWITCH_ALLOW_DANGEROUS_HTML all of it is kept. Show the page in an element such as div, and not in p or span. */
    MARKDOWN_SWITCH_ALLOW_LISTED_HTML = 512
};

/* Line endings. */
enum { MARKDOWN_LINE_FEED = 0, MARKDOWN_CARRIAGE_RETURN = 1, MARKDOWN_CARRIAGE_RETURN_LINE_FEED = 2 };

/* Text in UTF-8: length bytes at start. start is never NULL, even if length is 0. */
typedef struct markdown_text {
    const unsigned char *start;
    size_t length;
} markdown_text;

/* Options: what can be asked of the functions that end in _with. markdown_options_of makes them; change its fields then. */
typedef struct markdown_options {
    /* How many bytes this struct has. Later versions may have a larger one. */
    size_t size;
    /* The sum of the constructs that are on. */
    uint64_t constructs;
    /* The sum of the switches that are on. */
    uint32_t switches;
    /* The line ending of the HTML if the input has none. */
    uint32_t default_line_ending;
    /* What screen readers say of the link from a footnote back to its call. By default "Back to content". */
    markdown_text gfm_footnote_back_label;
    /* What the ids of footnotes and of their calls begin with. By default "user-content-". Give each input on a page another
     * prefix. */
    markdown_text gfm_footnote_clobber_prefix;
    /* The heading above the footnotes. By default "Footnotes". */
    markdown_text gfm_footnote_label;
    /* The attributes of that heading, printed as they are. By default "class=\"sr-only\"". Never text of the input's author. */
    markdown_text gfm_footnote_label_attributes;
    /* The tag name of that heading, printed as it is. By default "h2". Never text of the input's author. */
    markdown_text gfm_footnote_label_tag_name;
    /* What the ids of headings, and links to fragments of the page, begin with if headings have ids. By default nothing. Give each
     * input on a page another prefix, and one that no id of your page begins with. */
    markdown_text heading_id_prefix;
    /* What is printed before the destinations of links that are relative paths. By default nothing. */
    markdown_text link_base;
    /* What is printed before the URLs of images that are relative paths. An empty text, as by default, stands for link_base. */
    markdown_text image_base;
    /* The rel of links, except those of footnotes. If it is empty, as by default, they have none. */
    markdown_text link_rel;
} markdown_options;

/* The status that a call returns. */
enum {
    /* The HTML is in the buffer, or the events, links or headings are in the array. */
    MARKDOWN_OK = 0,
    /* The buffer or the array is too small. *length or *count is what is needed. */
    MARKDOWN_ROOM = 1,
    /* The input isn't UTF-8. */
    MARKDOWN_UTF8 = 2,
    /* A flag or an option isn't known, a text of the options isn't UTF-8, or the options have another size. */
    MARKDOWN_FLAGS = 3,
    /* The input has more than SIZE_MAX / 8 bytes. */
    MARKDOWN_SIZE = 4,
    /* Out of memory. */
    MARKDOWN_MEMORY = 5,
    /* The callback of markdown_events, markdown_links or markdown_outline returned another number than 0. */
    MARKDOWN_STOPPED = 6
};

/* An event: something begins or ends at a point of the input. docs/EVENTS.md explains events, and has their grammar. */
typedef struct markdown_event {
    /* How many bytes of the input are before. */
    size_t offset;
    /* The line, from 1. */
    size_t line;
    /* The column, from 1. A byte takes one column, a tab goes to the next stop (5, 9, 13, ..). */
    size_t column;
    /* What begins or ends: MARKDOWN_EVENT_PARAGRAPH, .. */
    uint16_t name;
    /* MARKDOWN_ENTER or MARKDOWN_EXIT. */
    uint8_t kind;
    /* Within the tab at offset: how many of its columns are before. Otherwise 0. */
    uint8_t columns;
} markdown_event;

/* Kinds of events. */
enum { MARKDOWN_ENTER = 0, MARKDOWN_EXIT = 1 };

/* Returns the version of the library that is linked or loaded, to be compared with MARKDOWN_VERSION. */
uint32_t markdown_version(void);

/* Converts the text_length bytes at text into HTML, in the room bytes at buffer, and returns a status.
 *
 * *length becomes the length of the HTML if the status is MARKDOWN_OK or MARKDOWN_ROOM, otherwise 0. Only with MARKDOWN_OK is
 * the buffer written, from its start to the end of the HTML.
 *
 * No pointer may be NULL, even if it points to no bytes. buffer, length and text must not overlap. To ask for the length alone,
 * pass room 0 and any other pointer:
 *
 *     unsigned char none[1];
 *     size_t length;
 *     uint32_t status = markdown_convert(text, text_length, flags, none, 0, &length);
 *
 * The status is then MARKDOWN_ROOM, or MARKDOWN_OK if the HTML is empty. */
uint32_t markdown_convert(const unsigned char *text, size_t text_length, uint32_t flags, unsigned char *buffer,
                          size_t room, size_t *length);

/* Returns a text of a string that ends with NUL. */
static inline markdown_text markdown_text_of(const char *string)
{
    markdown_text text;
    text.start = (const unsigned char *)string;
    text.length = strlen(string);
    return text;
}

/* Returns the options of a sum of flags, to be changed: the constructs, switches and texts that markdown_convert takes for these
 * flags. With an unknown flag the size becomes 0, so that each call refuses the options with MARKDOWN_FLAGS. */
static inline markdown_options markdown_options_of(uint32_t flags)
{
    markdown_options options;
    options.size = flags < 2 * (uint32_t)MARKDOWN_MARK ? sizeof options : 0;
    options.constructs = MARKDOWN_COMMONMARK;
    if (flags & MARKDOWN_STRIKETHROUGH)
        options.constructs |= MARKDOWN_CONSTRUCT_GFM_STRIKETHROUGH;
    if (flags & MARKDOWN_MATH)
        options.constructs |= MARKDOWN_CONSTRUCT_MATH_FLOW | MARKDOWN_CONSTRUCT_MATH_TEXT;
    if (flags & MARKDOWN_FRONTMATTER)
        options.constructs |= MARKDOWN_CONSTRUCT_FRONTMATTER;
    if (flags & MARKDOWN_TASK_LIST_ITEMS)
        options.constructs |= MARKDOWN_CONSTRUCT_GFM_TASK_LIST_ITEM;
    if (flags & MARKDOWN_TABLES)
        options.constructs |= MARKDOWN_CONSTRUCT_GFM_TABLE;
    if (flags & MARKDOWN_AUTOLINK_LITERALS)
        options.constructs |= MARKDOWN_CONSTRUCT_GFM_AUTOLINK_LITERAL;
    if (flags & MARKDOWN_FOOTNOTES)
        options.constructs |= MARKDOWN_CONSTRUCT_GFM_FOOTNOTE_DEFINITION | MARKDOWN_CONSTRUCT_GFM_LABEL_START_FOOTNOTE;
    if (flags & MARKDOWN_MARK)
        options.constructs |= MARKDOWN_CONSTRUCT_MARK;
    if (flags & MARKDOWN_PLAIN)
        options.constructs = 0;
    options.switches = MARKDOWN_SWITCH_GFM_STRIKETHROUGH_SINGLE_TILDE | MARKDOWN_SWITCH_MATH_TEXT_SINGLE_DOLLAR;
    if (flags & MARKDOWN_DANGEROUS)
        options.switches |= MARKDOWN_SWITCH_ALLOW_DANGEROUS_HTML | MARKDOWN_SWITCH_ALLOW_DANGEROUS_PROTOCOL;
    if (flags & MARKDOWN_TAGFILTER)
        options.switches |= MARKDOWN_SWITCH_GFM_TAGFILTER;
    options.default_line_ending = MARKDOWN_LINE_FEED;
    options.gfm_footnote_back_label = markdown_text_of("Back to content");
    options.gfm_footnote_clobber_prefix = markdown_text_of("user-content-");
    options.gfm_footnote_label = markdown_text_of("Footnotes");
    options.gfm_footnote_label_attributes = markdown_text_of("class=\"sr-only\"");
    options.gfm_footnote_label_tag_name = markdown_text_of("h2");
    options.heading_id_prefix = markdown_text_of("");
    options.link_base = markdown_text_of("");
    options.image_base = markdown_text_of("");
    options.link_rel = markdown_text_of("");
    return options;
}

/* Converts the text_length bytes at text into HTML by options, as markdown_convert does by flags. Texts of the options that
 * aren't the default ones are copied while it runs. options and its texts must not overlap buffer and length. */
uint32_t markdown_convert_with(const unsigned char *text, size_t text_length, const markdown_options *options,
                               unsigned char *buffer, size_t room, size_t *length);

/* Converts the text_length bytes at text into HTML by numbers of options, with the default texts, as markdown_convert_with does.
 * It needs no struct: a sum of constructs, a sum of switches, and a line ending. The JavaScript module calls it. */
uint32_t markdown_convert_by_numbers(const unsigned char *text, size_t text_length, uint64_t constructs, uint32_t switches,
                                     uint32_t default_line_ending, unsigned char *buffer, size_t room, size_t *length);

/* A call that writes what it makes of a text by options into a buffer: markdown_convert_with or markdown_sanitize_with. */
typedef uint32_t (*markdown_writer)(const unsigned char *text, size_t text_length, const markdown_options *options,
                                    unsigned char *buffer, size_t room, size_t *length);

/* Writes what a call makes of a text into a buffer that it allocates or grows, as markdown_convert_growing_with does. */
static inline uint32_t markdown_write_growing(markdown_writer call, const unsigned char *text, size_t text_length,
                                              const markdown_options *options, unsigned char **buffer, size_t *room,
                                              size_t *length)
{
    static const unsigned char none[1] = {0};
    size_t wanted = text_length / 4 < SIZE_MAX - text_length - 64 ? text_length + text_length / 4 + 64 : text_length;
    uint32_t status = MARKDOWN_ROOM;
    *length = 0;
    while (status == MARKDOWN_ROOM) {
        if (*buffer == NULL || *room < wanted) {
            unsigned char *grown = (unsigned char *)realloc(*buffer, wanted);
            if (grown == NULL) {
                *length = 0;
                return MARKDOWN_MEMORY;
            }
            *buffer = grown;
            *room = wanted;
        }
        status = call(text == NULL ? none : text, text_length, options, *buffer, *room, length);
        wanted = *length;
    }
    return status;
}

/* Converts the text_length bytes at text into a buffer that it allocates or grows, and returns a status, never MARKDOWN_ROOM.
 *
 * *buffer is NULL or comes from malloc, and has *room bytes. Both are updated if the buffer grows. The caller frees the buffer,
 * whatever the status. text may be NULL if text_length is 0. A buffer that is used for call after call soon stops growing.
 *
 * With another status than MARKDOWN_OK *length is 0, and the buffer has what an earlier call has written, perhaps the HTML of
 * another input. So look at the status before the buffer. HTML doesn't end with NUL. options and its texts must not overlap
 * *buffer. */
static inline uint32_t markdown_convert_growing_with(const unsigned char *text, size_t text_length,
                                                     const markdown_options *options, unsigned char **buffer, size_t *room,
                                                     size_t *length)
{
    return markdown_write_growing(markdown_convert_with, text, text_length, options, buffer, room, length);
}

/* Converts by flags in place of options, otherwise as markdown_convert_growing_with does. */
static inline uint32_t markdown_convert_growing(const unsigned char *text, size_t text_length, uint32_t flags,
                                                unsigned char **buffer, size_t *room, size_t *length)
{
    markdown_options options = markdown_options_of(flags);
    return markdown_convert_growing_with(text, text_length, &options, buffer, room, length);
}

/* Finds the events of the text_length bytes at text, writes them into the array of room events, and returns a status. Flags for
 * the HTML make no difference.
 *
 * *count becomes the number of events if the status is MARKDOWN_OK or MARKDOWN_ROOM, otherwise 0. Only with MARKDOWN_OK is the
 * array written, from its start to the last event.
 *
 * No pointer may be NULL, even if it points to nothing. events, count and text must not overlap. To ask for the number alone,
 * pass room 0 and the address of any event. */
uint32_t markdown_list_events(const unsigned char *text, size_t text_length, uint32_t flags, markdown_event *events, size_t room,
                              size_t *count);

/* Finds the events of the text_length bytes at text by options, as markdown_list_events does by flags. Only the constructs and
 * the switches for one tilde and one dollar make a difference. */
uint32_t markdown_list_events_with(const unsigned char *text, size_t text_length, const markdown_options *options,
                                   markdown_event *events, size_t room, size_t *count);

/* Finds the events of the text_length bytes at text, calls back for each of them in order, and returns a status, never
 * MARKDOWN_ROOM.
 *
 * If the callback returns another number than 0, it isn't called again, and the status is MARKDOWN_STOPPED. It may do what it
 * likes: the library doesn't run meanwhile. With any other status than MARKDOWN_OK and MARKDOWN_STOPPED it wasn't called. text
 * may be NULL if text_length is 0. The events take 32 bytes each, from malloc, until the call returns. */
static inline uint32_t markdown_events_with(const unsigned char *text, size_t text_length, const markdown_options *options,
                                            int (*callback)(const markdown_event *event, void *context), void *context)
{
    static const unsigned char none[1] = {0};
    markdown_event *events = NULL;
    size_t room = text_length / 2 + 64, count = 0, i; /* READMEs have an event for three bytes */
    uint32_t status = MARKDOWN_ROOM;
    while (status == MARKDOWN_ROOM) {
        markdown_event *grown = NULL;
        if (room <= SIZE_MAX / sizeof *events)
            grown = (markdown_event *)realloc(events, room * sizeof *events);
        if (grown == NULL) {
            free(events);
            return MARKDOWN_MEMORY;
        }
        events = grown;
        status = markdown_list_events_with(text == NULL ? none : text, text_length, options, events, room, &count);
        room = count;
    }
    for (i = 0; i < count && status == MARKDOWN_OK; i++)
        if (callback(&events[i], context) != 0)
            status = MARKDOWN_STOPPED;
    free(events);
    return status;
}

/* Finds events by flags in place of options, otherwise as markdown_events_with does. */
static inline uint32_t markdown_events(const unsigned char *text, size_t text_length, uint32_t flags,
                                       int (*callback)(const markdown_event *event, void *context), void *context)
{
    markdown_options options = markdown_options_of(flags);
    return markdown_events_with(text, text_length, &options, callback, context);
}

/* A link, an image, or a definition of where a label leads. */
typedef struct markdown_link {
    /* Where it begins: how many bytes of the input are before, and the line and the column from 1, as in markdown_event. */
    size_t offset;
    size_t line;
    size_t column;
    /* Where it ends. */
    size_t end_offset;
    size_t end_line;
    size_t end_column;
    /* The index of its enter among the events of markdown_list_events. */
    size_t event;
    /* Where its destination begins in the buffer, and how many bytes it has. */
    size_t destination;
    size_t destination_length;
    /* For a link or an image by reference: the index in the array of the definition that its label leads to. Otherwise
     * MARKDOWN_NO_DEFINITION. */
    size_t definition;
    /* MARKDOWN_LINK, .. */
    uint8_t kind;
} markdown_link;

/* Kinds of links: [a](b), ![a](b), <https://a.b>, www.a.b, and [a]: b. A later version may have more. */
enum { MARKDOWN_LINK = 0, MARKDOWN_IMAGE = 1, MARKDOWN_AUTOLINK = 2, MARKDOWN_LITERAL = 3, MARKDOWN_DEFINITION = 4 };

/* The definition of a link that has none. */
#define MARKDOWN_NO_DEFINITION SIZE_MAX

/* Finds the links of the text_length bytes at text by options, writes them into the array of room links and their destinations
 * into the buffer_room bytes at buffer, and returns a status. Only the constructs and the switches for one tilde and one dollar
 * make a difference.
 *
 * *count becomes the number of links and *length that of the bytes of all destinations if the status is MARKDOWN_OK or
 * MARKDOWN_ROOM, otherwise both become 0. MARKDOWN_ROOM means that the array or the buffer is too small. Only with MARKDOWN_OK
 * are they written, from their starts.
 *
 * The destinations stand in the buffer side by side, in the order of their links, and nothing else is there. A destination is
 * what it stands for: escapes and character references are replaced, "mailto:" is before an email address, and
 * "http://" before "www.". It isn't percent-encoded. A reference has the destination of its definition.
 *
 * No pointer may be NULL, even if it points to nothing. What they point to must not overlap, except text and options. To ask
 * for the numbers alone, pass rooms of 0 with the addresses of any link and any byte. */
uint32_t markdown_list_links_with(const unsigned char *text, size_t text_length, const markdown_options *options,
                                  markdown_link *links, size_t room, size_t *count, unsigned char *buffer, size_t buffer_room,
                                  size_t *length);

/* Finds links by flags in place of options, otherwise as markdown_list_links_with does. */
static inline uint32_t markdown_list_links(const unsigned char *text, size_t text_length, uint32_t flags, markdown_link *links,
                                           size_t room, size_t *count, unsigned char *buffer, size_t buffer_room, size_t *length)
{
    markdown_options options = markdown_options_of(flags);
    return markdown_list_links_with(text, text_length, &options, links, room, count, buffer, buffer_room, length);
}

/* Finds the links of the text_length bytes at text, calls back for each of them in order with its destination, and returns a
 * status, never MARKDOWN_ROOM. The destination isn't ended by NUL; link->destination_length is its length.
 *
 * If the callback returns another number than 0, it isn't called again, and the status is MARKDOWN_STOPPED. With any other status
 * than MARKDOWN_OK and MARKDOWN_STOPPED it wasn't called. text may be NULL if text_length is 0. Links and destinations are in
 * memory from malloc until the call returns. */
static inline uint32_t markdown_links_with(const unsigned char *text, size_t text_length, const markdown_options *options,
                                           int (*callback)(const markdown_link *link, const char *destination, void *context),
                                           void *context)
{
    static const unsigned char none[1] = {0};
    markdown_link *links = NULL;
    unsigned char *buffer = NULL;
    size_t room = text_length / 64 + 16, count = 0, buffer_room = text_length / 2 + 64, length = 0, i;
    uint32_t status = MARKDOWN_ROOM;
    while (status == MARKDOWN_ROOM) {
        free(links);
        free(buffer);
        links = room <= SIZE_MAX / sizeof *links ? (markdown_link *)malloc(room * sizeof *links) : NULL;
        buffer = (unsigned char *)malloc(buffer_room);
        status = MARKDOWN_MEMORY;
        if (links != NULL && buffer != NULL)
            status = markdown_list_links_with(text == NULL ? none : text, text_length, options, links, room, &count, buffer,
                                              buffer_room, &length);
        if (count > room)
            room = count;
        if (length > buffer_room)
            buffer_room = length;
    }
    for (i = 0; i < count && status == MARKDOWN_OK; i++)
        if (callback(&links[i], (const char *)buffer + links[i].destination, context) != 0)
            status = MARKDOWN_STOPPED;
    free(links);
    free(buffer);
    return status;
}

/* Finds links by flags in place of options, otherwise as markdown_links_with does. */
static inline uint32_t markdown_links(const unsigned char *text, size_t text_length, uint32_t flags,
                                      int (*callback)(const markdown_link *link, const char *destination, void *context),
                                      void *context)
{
    markdown_options options = markdown_options_of(flags);
    return markdown_links_with(text, text_length, &options, callback, context);
}

/* A heading, with its text and its slug. */
typedef struct markdown_heading {
    /* Where it begins: how many bytes of the input are before, and the line and the column from 1, as in markdown_event. */
    size_t offset;
    size_t line;
    size_t column;
    /* Where it ends. */
    size_t end_offset;
    size_t end_line;
    size_t end_column;
    /* The index of its enter among the events of markdown_list_events. */
    size_t event;
    /* Where its text begins in the buffer, and how many bytes it has. */
    size_t text;
    size_t text_length;
    /* Where its slug begins in the buffer, and how many bytes it has. */
    size_t slug;
    size_t slug_length;
    /* Its rank, from 1 to 6. */
    uint8_t rank;
} markdown_heading;

/* Finds the headings of the text_length bytes at text by options, writes them into the array of room headings and their texts and
 * slugs into the buffer_room bytes at buffer, and returns a status. Only the constructs and the switches for one tilde and one
 * dollar make a difference.
 *
 * *count becomes the number of headings and *length that of the bytes of all texts and slugs if the status is MARKDOWN_OK or
 * MARKDOWN_ROOM, otherwise both become 0. MARKDOWN_ROOM means that the array or the buffer is too small. Only with MARKDOWN_OK
 * are they written, from their starts.
 *
 * The buffer has the text of the first heading, its slug, the text of the second, and so on, and nothing else. The headings are in
 * the order in which they start, those in quotes, items and footnotes too. A text is what the heading says: escapes and character
 * references are replaced, and images, tags of raw HTML, breaks and footnote calls say nothing. Neither text nor slug is encoded
 * for HTML.
 *
 * A slug is what GitHub's page uses as the id of the heading, and no other heading of the input has it: its text in small letters,
 * without punctuation, with `-` for each space, and with a number if it is taken. It may be empty. No standard has slugs.
 *
 * No pointer may be NULL, even if it points to nothing. What they point to must not overlap, except text and options. To ask
 * for the numbers alone, pass rooms of 0 with the addresses of any heading and any byte. */
uint32_t markdown_list_outline_with(const unsigned char *text, size_t text_length, const markdown_options *options,
                                    markdown_heading *headings, size_t room, size_t *count, unsigned char *buffer,
                                    size_t buffer_room, size_t *length);

/* Finds headings by flags in place of options, otherwise as markdown_list_outline_with does. */
static inline uint32_t markdown_list_outline(const unsigned char *text, size_t text_length, uint32_t flags,
                                             markdown_heading *headings, size_t room, size_t *count, unsigned char *buffer,
                                             size_t buffer_room, size_t *length)
{
    markdown_options options = markdown_options_of(flags);
    return markdown_list_outline_with(text, text_length, &options, headings, room, count, buffer, buffer_room, length);
}

/* Finds the headings of the text_length bytes at text, calls back for each of them in order with its text and its slug, and
 * returns a status, never MARKDOWN_ROOM. Neither is ended by NUL; heading->text_length and heading->slug_length are their lengths.
 *
 * If the callback returns another number than 0, it isn't called again, and the status is MARKDOWN_STOPPED. With any other status
 * than MARKDOWN_OK and MARKDOWN_STOPPED it wasn't called. text may be NULL if text_length is 0. Headings, texts and slugs are in
 * memory from malloc until the call returns. */
static inline uint32_t markdown_outline_with(const unsigned char *text, size_t text_length, const markdown_options *options,
                                             int (*callback)(const markdown_heading *heading, const char *text, const char *slug,
                                                             void *context),
                                             void *context)
{
    static const unsigned char none[1] = {0};
    markdown_heading *headings = NULL;
    unsigned char *buffer = NULL;
    size_t room = text_length / 64 + 16, count = 0, buffer_room = text_length / 4 + 64, length = 0, i;
    uint32_t status = MARKDOWN_ROOM;
    while (status == MARKDOWN_ROOM) {
        free(headings);
        free(buffer);
        headings = room <= SIZE_MAX / sizeof *headings ? (markdown_heading *)malloc(room * sizeof *headings) : NULL;
        buffer = (unsigned char *)malloc(buffer_room);
        status = MARKDOWN_MEMORY;
        if (headings != NULL && buffer != NULL)
            status = markdown_list_outline_with(text == NULL ? none : text, text_length, options, headings, room, &count, buffer,
                                                buffer_room, &length);
        if (count > room)
            room = count;
        if (length > buffer_room)
            buffer_room = length;
    }
    for (i = 0; i < count && status == MARKDOWN_OK; i++)
        if (callback(&headings[i], (const char *)buffer + headings[i].text, (const char *)buffer + headings[i].slug, context) != 0)
            status = MARKDOWN_STOPPED;
    free(headings);
    free(buffer);
    return status;
}

/* Finds headings by flags in place of options, otherwise as markdown_outline_with does. */
static inline uint32_t markdown_outline(const unsigned char *text, size_t text_length, uint32_t flags,
                                        int (*callback)(const markdown_heading *heading, const char *text, const char *slug,
                                                        void *context),
                                        void *context)
{
    markdown_options options = markdown_options_of(flags);
    return markdown_outline_with(text, text_length, &options, callback, context);
}

/* Writes what the text_length bytes at text stand for as a destination, a title or an info into the room bytes at buffer, and
 * returns a status: escapes and character references are replaced, and spaces and tabs around line endings are dropped.
 *
 * *length becomes its length if the status is MARKDOWN_OK or MARKDOWN_ROOM, otherwise 0. Only with MARKDOWN_OK is the buffer
 * written, from its start. No pointer may be NULL, and what they point to must not overlap. */
uint32_t markdown_decode(const unsigned char *text, size_t text_length, unsigned char *buffer, size_t room, size_t *length);

/* Writes the form in which a label matches others into the room bytes at buffer, and returns a status, as markdown_decode does: its
 * case folded, no white space at its ends, and one space for white space inside. The label is the bytes between its brackets. */
uint32_t markdown_normalize_label(const unsigned char *label, size_t label_length, unsigned char *buffer, size_t room,
                                  size_t *length);

/* Tests whether the length bytes at page, HTML of any origin, are a safe page, and returns MARKDOWN_OK or MARKDOWN_MEMORY.
 *
 * *is_safe becomes 1 if they are, and otherwise 0. A safe page is UTF-8, and has only tags of a fixed table, each void or closed,
 * whose links and images have a permitted protocol or none: no script, no style, no other attribute. The HTML that
 * markdown_convert makes without MARKDOWN_DANGEROUS is a safe page. page must not be NULL, even if length is 0, and must not
 * overlap is_safe. */
uint32_t markdown_check_page(const unsigned char *page, size_t length, uint32_t *is_safe);

/* Returns 1 if the length bytes at page are a safe page, as markdown_check_page tests it. Returns 0 if they aren't, or if memory
 * runs out. page may be NULL if length is 0. */
static inline int markdown_is_safe_page(const unsigned char *page, size_t length)
{
    static const unsigned char none[1] = {0};
    uint32_t is_safe = 0;
    return markdown_check_page(page == NULL ? none : page, length, &is_safe) == MARKDOWN_OK && is_safe == 1;
}

/* Writes what is kept of the html_length bytes at html, HTML of any origin, into the room bytes at buffer, and returns a status.
 *
 * Kept are the elements and attributes of a fixed list: text, links, images, lists, tables and the like. Other tags are printed as
 * text, comments are dropped, and elements that aren't closed are closed. A URL with a protocol that isn't allowed becomes empty.
 * Of the options only MARKDOWN_SWITCH_ALLOW_ANY_IMG_SRC and MARKDOWN_SWITCH_ALLOW_DANGEROUS_PROTOCOL make a difference; without
 * them the page has no script. Put it into a block, such as <div>, not into <p> or <span>.
 *
 * *length becomes the length of the page if the status is MARKDOWN_OK or MARKDOWN_ROOM, otherwise 0. Only with MARKDOWN_OK is the
 * buffer written, from its start to the end of the page. No pointer may be NULL, even if it points to no bytes. What they point
 * to must not overlap, except html and options. */
uint32_t markdown_sanitize_with(const unsigned char *html, size_t html_length, const markdown_options *options,
                                unsigned char *buffer, size_t room, size_t *length);

/* Sanitizes the html_length bytes at html into a buffer that it allocates or grows, and returns a status, never MARKDOWN_ROOM.
 * Otherwise it is as markdown_convert_growing_with. */
static inline uint32_t markdown_sanitize_growing_with(const unsigned char *html, size_t html_length,
                                                      const markdown_options *options, unsigned char **buffer, size_t *room,
                                                      size_t *length)
{
    return markdown_write_growing(markdown_sanitize_with, html, html_length, options, buffer, room, length);
}

/* Sanitizes without URLs of protocols that aren't allowed, otherwise as markdown_sanitize_growing_with does. */
static inline uint32_t markdown_sanitize_growing(const unsigned char *html, size_t html_length, unsigned char **buffer,
                                                 size_t *room, size_t *length)
{
    markdown_options options = markdown_options_of(0);
    return markdown_sanitize_growing_with(html, html_length, &options, buffer, room, length);
}

/* Returns whether this processor has what the library is compiled for. */
static inline int markdown_is_supported(void)
{
#if defined(__GNUC__) && defined(__x86_64__)
    return __builtin_cpu_supports("ssse3") && __builtin_cpu_supports("sse4.2") && __builtin_cpu_supports("popcnt");
#else
    return 0;
#endif
}

/* The names of events, in the order of their numbers. A number never changes; a new name gets the next one. */
#define MARKDOWN_EVENT_NAMES(EACH) \
    EACH(ATTENTION_SEQUENCE, "AttentionSequence", 0) \
    EACH(AUTOLINK, "Autolink", 1) \
    EACH(AUTOLINK_EMAIL, "AutolinkEmail", 2) \
    EACH(AUTOLINK_MARKER, "AutolinkMarker", 3) \
    EACH(AUTOLINK_PROTOCOL, "AutolinkProtocol", 4) \
    EACH(BLANK_LINE_ENDING, "BlankLineEnding", 5) \
    EACH(BLOCK_QUOTE, "BlockQuote", 6) \
    EACH(BLOCK_QUOTE_MARKER, "BlockQuoteMarker", 7) \
    EACH(BLOCK_QUOTE_PREFIX, "BlockQuotePrefix", 8) \
    EACH(BYTE_ORDER_MARK, "ByteOrderMark", 9) \
    EACH(CHARACTER_ESCAPE, "CharacterEscape", 10) \
    EACH(CHARACTER_ESCAPE_MARKER, "CharacterEscapeMarker", 11) \
    EACH(CHARACTER_ESCAPE_VALUE, "CharacterEscapeValue", 12) \
    EACH(CHARACTER_REFERENCE, "CharacterReference", 13) \
    EACH(CHARACTER_REFERENCE_MARKER, "CharacterReferenceMarker", 14) \
    EACH(CHARACTER_REFERENCE_MARKER_HEXADECIMAL, "CharacterReferenceMarkerHexadecimal", 15) \
    EACH(CHARACTER_REFERENCE_MARKER_NUMERIC, "CharacterReferenceMarkerNumeric", 16) \
    EACH(CHARACTER_REFERENCE_MARKER_SEMI, "CharacterReferenceMarkerSemi", 17) \
    EACH(CHARACTER_REFERENCE_VALUE, "CharacterReferenceValue", 18) \
    EACH(CODE_FENCED, "CodeFenced", 19) \
    EACH(CODE_FENCED_FENCE, "CodeFencedFence", 20) \
    EACH(CODE_FENCED_FENCE_INFO, "CodeFencedFenceInfo", 21) \
    EACH(CODE_FENCED_FENCE_META, "CodeFencedFenceMeta", 22) \
    EACH(CODE_FENCED_FENCE_SEQUENCE, "CodeFencedFenceSequence", 23) \
    EACH(CODE_FLOW_CHUNK, "CodeFlowChunk", 24) \
    EACH(CODE_INDENTED, "CodeIndented", 25) \
    EACH(CODE_TEXT, "CodeText", 26) \
    EACH(CODE_TEXT_DATA, "CodeTextData", 27) \
    EACH(CODE_TEXT_SEQUENCE, "CodeTextSequence", 28) \
    EACH(CONTENT, "Content", 29) \
    EACH(DATA, "Data", 30) \
    EACH(DEFINITION, "Definition", 31) \
    EACH(DEFINITION_DESTINATION, "DefinitionDestination", 32) \
    EACH(DEFINITION_DESTINATION_LITERAL, "DefinitionDestinationLiteral", 33) \
    EACH(DEFINITION_DESTINATION_LITERAL_MARKER, "DefinitionDestinationLiteralMarker", 34) \
    EACH(DEFINITION_DESTINATION_RAW, "DefinitionDestinationRaw", 35) \
    EACH(DEFINITION_DESTINATION_STRING, "DefinitionDestinationString", 36) \
    EACH(DEFINITION_LABEL, "DefinitionLabel", 37) \
    EACH(DEFINITION_LABEL_MARKER, "DefinitionLabelMarker", 38) \
    EACH(DEFINITION_LABEL_STRING, "DefinitionLabelString", 39) \
    EACH(DEFINITION_MARKER, "DefinitionMarker", 40) \
    EACH(DEFINITION_TITLE, "DefinitionTitle", 41) \
    EACH(DEFINITION_TITLE_MARKER, "DefinitionTitleMarker", 42) \
    EACH(DEFINITION_TITLE_STRING, "DefinitionTitleString", 43) \
    EACH(EMPHASIS, "Emphasis", 44) \
    EACH(EMPHASIS_SEQUENCE, "EmphasisSequence", 45) \
    EACH(EMPHASIS_TEXT, "EmphasisText", 46) \
    EACH(FRONTMATTER, "Frontmatter", 47) \
    EACH(FRONTMATTER_CHUNK, "FrontmatterChunk", 48) \
    EACH(FRONTMATTER_FENCE, "FrontmatterFence", 49) \
    EACH(FRONTMATTER_SEQUENCE, "FrontmatterSequence", 50) \
    EACH(GFM_AUTOLINK_LITERAL_EMAIL, "GfmAutolinkLiteralEmail", 51) \
    EACH(GFM_AUTOLINK_LITERAL_MAILTO, "GfmAutolinkLiteralMailto", 52) \
    EACH(GFM_AUTOLINK_LITERAL_PROTOCOL, "GfmAutolinkLiteralProtocol", 53) \
    EACH(GFM_AUTOLINK_LITERAL_WWW, "GfmAutolinkLiteralWww", 54) \
    EACH(GFM_AUTOLINK_LITERAL_XMPP, "GfmAutolinkLiteralXmpp", 55) \
    EACH(GFM_FOOTNOTE_CALL, "GfmFootnoteCall", 56) \
    EACH(GFM_FOOTNOTE_CALL_LABEL, "GfmFootnoteCallLabel", 57) \
    EACH(GFM_FOOTNOTE_CALL_MARKER, "GfmFootnoteCallMarker", 58) \
    EACH(GFM_FOOTNOTE_DEFINITION, "GfmFootnoteDefinition", 59) \
    EACH(GFM_FOOTNOTE_DEFINITION_LABEL, "GfmFootnoteDefinitionLabel", 60) \
    EACH(GFM_FOOTNOTE_DEFINITION_LABEL_MARKER, "GfmFootnoteDefinitionLabelMarker", 61) \
    EACH(GFM_FOOTNOTE_DEFINITION_LABEL_STRING, "GfmFootnoteDefinitionLabelString", 62) \
    EACH(GFM_FOOTNOTE_DEFINITION_MARKER, "GfmFootnoteDefinitionMarker", 63) \
    EACH(GFM_FOOTNOTE_DEFINITION_PREFIX, "GfmFootnoteDefinitionPrefix", 64) \
    EACH(GFM_STRIKETHROUGH, "GfmStrikethrough", 65) \
    EACH(GFM_STRIKETHROUGH_SEQUENCE, "GfmStrikethroughSequence", 66) \
    EACH(GFM_STRIKETHROUGH_TEXT, "GfmStrikethroughText", 67) \
    EACH(GFM_TABLE, "GfmTable", 68) \
    EACH(GFM_TABLE_BODY, "GfmTableBody", 69) \
    EACH(GFM_TABLE_CELL, "GfmTableCell", 70) \
    EACH(GFM_TABLE_CELL_DIVIDER, "GfmTableCellDivider", 71) \
    EACH(GFM_TABLE_CELL_TEXT, "GfmTableCellText", 72) \
    EACH(GFM_TABLE_DELIMITER_CELL, "GfmTableDelimiterCell", 73) \
    EACH(GFM_TABLE_DELIMITER_CELL_VALUE, "GfmTableDelimiterCellValue", 74) \
    EACH(GFM_TABLE_DELIMITER_FILLER, "GfmTableDelimiterFiller", 75) \
    EACH(GFM_TABLE_DELIMITER_MARKER, "GfmTableDelimiterMarker", 76) \
    EACH(GFM_TABLE_DELIMITER_ROW, "GfmTableDelimiterRow", 77) \
    EACH(GFM_TABLE_HEAD, "GfmTableHead", 78) \
    EACH(GFM_TABLE_ROW, "GfmTableRow", 79) \
    EACH(GFM_TASK_LIST_ITEM_CHECK, "GfmTaskListItemCheck", 80) \
    EACH(GFM_TASK_LIST_ITEM_MARKER, "GfmTaskListItemMarker", 81) \
    EACH(GFM_TASK_LIST_ITEM_VALUE_CHECKED, "GfmTaskListItemValueChecked", 82) \
    EACH(GFM_TASK_LIST_ITEM_VALUE_UNCHECKED, "GfmTaskListItemValueUnchecked", 83) \
    EACH(HARD_BREAK_ESCAPE, "HardBreakEscape", 84) \
    EACH(HARD_BREAK_TRAILING, "HardBreakTrailing", 85) \
    EACH(HEADING_ATX, "HeadingAtx", 86) \
    EACH(HEADING_ATX_SEQUENCE, "HeadingAtxSequence", 87) \
    EACH(HEADING_ATX_TEXT, "HeadingAtxText", 88) \
    EACH(HEADING_SETEXT, "HeadingSetext", 89) \
    EACH(HEADING_SETEXT_TEXT, "HeadingSetextText", 90) \
    EACH(HEADING_SETEXT_UNDERLINE, "HeadingSetextUnderline", 91) \
    EACH(HEADING_SETEXT_UNDERLINE_SEQUENCE, "HeadingSetextUnderlineSequence", 92) \
    EACH(HTML_FLOW, "HtmlFlow", 93) \
    EACH(HTML_FLOW_DATA, "HtmlFlowData", 94) \
    EACH(HTML_TEXT, "HtmlText", 95) \
    EACH(HTML_TEXT_DATA, "HtmlTextData", 96) \
    EACH(IMAGE, "Image", 97) \
    EACH(LABEL, "Label", 98) \
    EACH(LABEL_END, "LabelEnd", 99) \
    EACH(LABEL_IMAGE, "LabelImage", 100) \
    EACH(LABEL_IMAGE_MARKER, "LabelImageMarker", 101) \
    EACH(LABEL_LINK, "LabelLink", 102) \
    EACH(LABEL_MARKER, "LabelMarker", 103) \
    EACH(LABEL_TEXT, "LabelText", 104) \
    EACH(LINE_ENDING, "LineEnding", 105) \
    EACH(LINK, "Link", 106) \
    EACH(LIST_ITEM, "ListItem", 107) \
    EACH(LIST_ITEM_MARKER, "ListItemMarker", 108) \
    EACH(LIST_ITEM_PREFIX, "ListItemPrefix", 109) \
    EACH(LIST_ITEM_VALUE, "ListItemValue", 110) \
    EACH(LIST_ORDERED, "ListOrdered", 111) \
    EACH(LIST_UNORDERED, "ListUnordered", 112) \
    EACH(MARK, "Mark", 113) \
    EACH(MARK_SEQUENCE, "MarkSequence", 114) \
    EACH(MARK_TEXT, "MarkText", 115) \
    EACH(MATH_FLOW, "MathFlow", 116) \
    EACH(MATH_FLOW_CHUNK, "MathFlowChunk", 117) \
    EACH(MATH_FLOW_FENCE, "MathFlowFence", 118) \
    EACH(MATH_FLOW_FENCE_META, "MathFlowFenceMeta", 119) \
    EACH(MATH_FLOW_FENCE_SEQUENCE, "MathFlowFenceSequence", 120) \
    EACH(MATH_TEXT, "MathText", 121) \
    EACH(MATH_TEXT_DATA, "MathTextData", 122) \
    EACH(MATH_TEXT_SEQUENCE, "MathTextSequence", 123) \
    EACH(MDX_ESM, "MdxEsm", 124) \
    EACH(MDX_FLOW_EXPRESSION, "MdxFlowExpression", 125) \
    EACH(MDX_JSX_FLOW_TAG, "MdxJsxFlowTag", 126) \
    EACH(MDX_JSX_TEXT_TAG, "MdxJsxTextTag", 127) \
    EACH(MDX_TEXT_EXPRESSION, "MdxTextExpression", 128) \
    EACH(PARAGRAPH, "Paragraph", 129) \
    EACH(REFERENCE, "Reference", 130) \
    EACH(REFERENCE_MARKER, "ReferenceMarker", 131) \
    EACH(REFERENCE_STRING, "ReferenceString", 132) \
    EACH(RESOURCE, "Resource", 133) \
    EACH(RESOURCE_DESTINATION, "ResourceDestination", 134) \
    EACH(RESOURCE_DESTINATION_LITERAL, "ResourceDestinationLiteral", 135) \
    EACH(RESOURCE_DESTINATION_LITERAL_MARKER, "ResourceDestinationLiteralMarker", 136) \
    EACH(RESOURCE_DESTINATION_RAW, "ResourceDestinationRaw", 137) \
    EACH(RESOURCE_DESTINATION_STRING, "ResourceDestinationString", 138) \
    EACH(RESOURCE_MARKER, "ResourceMarker", 139) \
    EACH(RESOURCE_TITLE, "ResourceTitle", 140) \
    EACH(RESOURCE_TITLE_MARKER, "ResourceTitleMarker", 141) \
    EACH(RESOURCE_TITLE_STRING, "ResourceTitleString", 142) \
    EACH(SPACE_OR_TAB, "SpaceOrTab", 143) \
    EACH(STRONG, "Strong", 144) \
    EACH(STRONG_SEQUENCE, "StrongSequence", 145) \
    EACH(STRONG_TEXT, "StrongText", 146) \
    EACH(THEMATIC_BREAK, "ThematicBreak", 147) \
    EACH(THEMATIC_BREAK_SEQUENCE, "ThematicBreakSequence", 148)

/* MARKDOWN_EVENT_ATTENTION_SEQUENCE and so on, and how many there are. */
enum {
#define MARKDOWN_EVENT_CONSTANT(constant, name, number) MARKDOWN_EVENT_##constant = number,
    MARKDOWN_EVENT_NAMES(MARKDOWN_EVENT_CONSTANT)
#undef MARKDOWN_EVENT_CONSTANT
    MARKDOWN_EVENT_COUNT
};

/* Returns the name of an event by its number, as "Paragraph", or NULL if there is none. */
static inline const char *markdown_event_name(uint32_t number)
{
#define MARKDOWN_EVENT_TEXT(constant, name, number) name,
    static const char *const names[] = {MARKDOWN_EVENT_NAMES(MARKDOWN_EVENT_TEXT)};
#undef MARKDOWN_EVENT_TEXT
    return number < MARKDOWN_EVENT_COUNT ? names[number] : NULL;
}

#ifdef __cplusplus
}
#endif

#endif
