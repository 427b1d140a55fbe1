// Reads Markdown from standard input, and writes its HTML to standard output.
//
//     convert [--gfm] [--dangerous] [--plain] [--math] [--frontmatter] [--mark] [--prefix=TEXT]
//
// The ids of footnotes begin with TEXT.
#include <cstddef>
#include <cstdint>
#include <exception>
#include <iostream>
#include <iterator>
#include <map>
#include <new>
#include <stdexcept>
#include <string>

#include "markdown.h"

static const unsigned char *bytes(const std::string &text)
{
    return reinterpret_cast<const unsigned char *>(text.data());
}

// Returns the HTML of `text`.
static std::string to_html(const std::string &text, const markdown_options &options)
{
    std::string html(text.size() + text.size() / 4 + 64, '\0');
    std::uint32_t status = MARKDOWN_ROOM;
    while (status == MARKDOWN_ROOM) {
        std::size_t length = 0;
        status = markdown_convert_with(bytes(text), text.size(), &options, reinterpret_cast<unsigned char *>(&html[0]),
                                       html.size(), &length);
        html.resize(length);
    }
    switch (status) {
    case MARKDOWN_OK: return html;
    case MARKDOWN_MEMORY: throw std::bad_alloc();
    case MARKDOWN_UTF8: throw std::invalid_argument("input is not UTF-8");
    case MARKDOWN_SIZE: throw std::length_error("input is too large");
    default: throw std::invalid_argument("wrong options");
    }
}

int main(int count, char **words)
{
    static const std::map<std::string, std::uint32_t> flags_of = {
        {"--gfm", MARKDOWN_GFM},   {"--dangerous", MARKDOWN_DANGEROUS},     {"--plain", MARKDOWN_PLAIN},
        {"--math", MARKDOWN_MATH}, {"--frontmatter", MARKDOWN_FRONTMATTER}, {"--mark", MARKDOWN_MARK},
    };
    try {
        const std::string prefix_is = "--prefix=";
        std::string prefix = "user-content-";
        std::uint32_t flags = 0;
        for (int i = 1; i < count; i++) {
            const std::string word = words[i];
            if (word.compare(0, prefix_is.size(), prefix_is) == 0)
                prefix = word.substr(prefix_is.size());
            else
                flags |= flags_of.at(word);
        }
        markdown_options options = markdown_options_of(flags);
        options.gfm_footnote_clobber_prefix = {bytes(prefix), prefix.size()};
        const std::string text{std::istreambuf_iterator<char>(std::cin), {}};
        std::cout << to_html(text, options) << std::flush;
        return std::cout ? 0 : 1;
    } catch (const std::exception &fault) {
        std::cerr << "convert: " << fault.what() << '\n';
        return 1;
    }
}
