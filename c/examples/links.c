/* links.c: prints the links of a page, one per line: the URL, a tab and the text, as they are in the page. hengaruto_page_links returns them
 * in one call.
 *
 *     cc links.c $(pkg-config --cflags --libs hengaruto) -o links
 *     ./links < page.html
 */
#include <hengaruto.h>
#include <stdio.h>
#include <stdlib.h>

#include "input.h"

static const unsigned char a[] = "a", href[] = "href";

static void print_links(const unsigned char *block, size_t length)
{
    for (uint32_t node = 0; (node = hengaruto_next_named(block, length, node, a, 1)) != HENGARUTO_NONE;) {
        size_t url, url_length, text, text_length;

        if (hengaruto_attribute(block, length, node, href, 4, &url, &url_length) == HENGARUTO_OK &&
            hengaruto_text(block, length, node, &text, &text_length) == HENGARUTO_OK) {
            printf("%.*s\t%.*s\n", (int)url_length, (const char *)block + url, (int)text_length, (const char *)block + text);
        }
    }
}

int main(void)
{
    size_t page_length, length;
    unsigned char *page = read_all(stdin, &page_length), *block;

    if (page == NULL || hengaruto_parse(page, page_length, 0, &block, &length) != HENGARUTO_OK) {
        fputs("links: cannot read the page\n", stderr);
        return EXIT_FAILURE;
    }
    print_links(block, length);
    free(block);
    free(page);
    return fflush(stdout) == 0 && !ferror(stdout) ? EXIT_SUCCESS : EXIT_FAILURE;
}
