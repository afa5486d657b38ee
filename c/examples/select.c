/* select.c: prints the elements of a page that a CSS selector matches: their texts, or with --html their HTML.
 *
 *     cc select.c $(pkg-config --cflags --libs hengaruto) -o select
 *     ./select 'ul > li' < page.html
 */
#include <hengaruto.h>
#include <stdbool.h>
#include <stdio.h>
#include <stdlib.h>
#include <string.h>

#include "input.h"

/* A tree: a block and its length. */
struct tree {
    unsigned char *block;
    size_t length;
};

/* The meaning of a status. */
static const char *reason(uint32_t status)
{
    switch (status) {
    case HENGARUTO_NO_MEMORY:
        return "out of memory";
    case HENGARUTO_NO_NODE:
        return "no such node";
    case HENGARUTO_BAD_BLOCK:
        return "not a tree";
    case HENGARUTO_BAD_ARGUMENT:
        return "the selector isn't UTF-8";
    default:
        return "unknown status";
    }
}

/* Decodes a number of 4 bytes, least significant byte first. */
static uint32_t word_at(const unsigned char *bytes)
{
    return (uint32_t)bytes[0] | (uint32_t)bytes[1] << 8 | (uint32_t)bytes[2] << 16 | (uint32_t)bytes[3] << 24;
}

static bool write_line(const unsigned char *bytes, size_t length)
{
    return fwrite(bytes, 1, length, stdout) == length && putchar('\n') != EOF;
}

static uint32_t print_text(const struct tree *tree, uint32_t node)
{
    size_t at, count;
    uint32_t status = hengaruto_text(tree->block, tree->length, node, &at, &count);

    if (status == HENGARUTO_OK) {
        write_line(tree->block + at, count);
    }
    return status;
}

static uint32_t print_html(const struct tree *tree, uint32_t node)
{
    unsigned char *html;
    size_t length;
    uint32_t status = hengaruto_html(tree->block, tree->length, node, 1, &html, &length);

    if (status == HENGARUTO_OK) {
        write_line(html, length);
        free(html);
    }
    return status;
}

/* Prints the elements below the document that the selector matches. If the selector is invalid, prints the library's message. */
static uint32_t print_matches(const struct tree *tree, const char *selector, bool as_html)
{
    unsigned char *found;
    size_t length;
    uint32_t status = hengaruto_select(tree->block, tree->length, 0, (const unsigned char *)selector, strlen(selector), &found, &length);

    if (status == HENGARUTO_BAD_SELECTOR) {
        /* A NUL follows the message. */
        fprintf(stderr, "select: %s\n", (const char *)found);
        free(found);
        return status;
    }
    if (status != HENGARUTO_OK) {
        fprintf(stderr, "select: %s\n", reason(status));
        return status;
    }
    for (size_t i = 0; i + 4 <= length && status == HENGARUTO_OK; i += 4) {
        uint32_t node = word_at(found + i);

        status = as_html ? print_html(tree, node) : print_text(tree, node);
    }
    free(found);
    if (status != HENGARUTO_OK) {
        fprintf(stderr, "select: %s\n", reason(status));
    }
    return status;
}

int main(int argc, char **argv)
{
    bool as_html = argc == 3 && strcmp(argv[2], "--html") == 0;
    struct tree tree;
    size_t length;

    if (argc != 2 && !as_html) {
        fputs("usage: select SELECTOR [--html] < PAGE\n", stderr);
        return 2;
    }
    unsigned char *page = read_all(stdin, &length);
    if (page == NULL) {
        perror("select: cannot read");
        return EXIT_FAILURE;
    }
    uint32_t status = hengaruto_parse(page, length, 0, &tree.block, &tree.length);
    free(page);
    if (status != HENGARUTO_OK) {
        fprintf(stderr, "select: %s\n", reason(status));
        return EXIT_FAILURE;
    }
    status = print_matches(&tree, argv[1], as_html);
    free(tree.block);
    if (status == HENGARUTO_OK && (fflush(stdout) != 0 || ferror(stdout))) {
        perror("select: cannot write");
        return EXIT_FAILURE;
    }
    return status == HENGARUTO_OK ? EXIT_SUCCESS : status == HENGARUTO_BAD_SELECTOR ? 2 : EXIT_FAILURE;
}
