/* Converts comments, a file each, and writes them as articles of one page. The ids of the headings and footnotes of the second
 * comment begin with `comment-2-`, so that they differ from those of the first. Search engines don't follow its links, and its
 * images are loaded when they are seen.
 *
 *     comments FILE.. */
#include <stdio.h>

#include "markdown.h"

static unsigned char comment[65536];

/* Reads a file. Returns 0 if it can't be read, or is too large for a comment. */
static int read_comment(const char *path, size_t *length)
{
    FILE *file = fopen(path, "rb");
    if (file == NULL)
        return 0;
    *length = fread(comment, 1, sizeof comment, file);
    int is_read = !ferror(file) && *length < sizeof comment;
    fclose(file);
    return is_read;
}

int main(int count, char **paths)
{
    unsigned char *page = NULL;
    size_t room = 0, length, size;
    markdown_options options = markdown_options_of(MARKDOWN_GFM);
    options.switches &= ~(uint32_t)MARKDOWN_SWITCH_GFM_STRIKETHROUGH_SINGLE_TILDE;
    options.switches |= MARKDOWN_SWITCH_HEADING_IDS | MARKDOWN_SWITCH_LAZY_IMAGES;
    options.gfm_footnote_label = markdown_text_of("Notes");
    options.link_rel = markdown_text_of("nofollow ugc");
    for (int number = 1; number < count; number++) {
        char prefix[32];
        snprintf(prefix, sizeof prefix, "comment-%d-", number);
        options.gfm_footnote_clobber_prefix = options.heading_id_prefix = markdown_text_of(prefix);
        if (!read_comment(paths[number], &length)
            || markdown_convert_growing_with(comment, length, &options, &page, &room, &size) != MARKDOWN_OK) {
            fprintf(stderr, "comments: %s can't be converted\n", paths[number]);
            free(page);
            return 1;
        }
        printf("<article>\n%.*s</article>\n", (int)size, (const char *)page);
    }
    free(page);
    return fflush(stdout) != 0;
}
