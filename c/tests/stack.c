/* stack.c: each call on a page from a file, for a run with little stack. The second argument is a file with a selector, then only that is
 * tried. A call may return any status. */
#include "testing.h"

static const char POLICY[] = "elements = ['div', 'b', 'p', 'a']\nattributes = ['title', 'data-*']";

static unsigned char *contents_of(const char *name, size_t *length)
{
    FILE *file = fopen(name, "rb");
    unsigned char *bytes = malloc(1 << 24);

    REQUIRE(file != NULL && bytes != NULL);
    *length = fread(bytes, 1, 1 << 24, file);
    fclose(file);
    return bytes;
}

/* Frees the result of a call, if it has one. */
static void drop(uint32_t status, unsigned char **bytes)
{
    if (status == HENGARUTO_OK || status == HENGARUTO_BAD_SELECTOR || status == HENGARUTO_BAD_POLICY) {
        free(*bytes);
    }
    *bytes = NULL;
}

static void whole_pages(const unsigned char *page, size_t length)
{
    unsigned char *bytes;
    size_t count;

    drop(hengaruto_page_text(page, length, 0, &bytes, &count), &bytes);
    drop(hengaruto_page_text(page, length, 40, &bytes, &count), &bytes);
    drop(hengaruto_page_links(page, length, &bytes, &count), &bytes);
    drop(hengaruto_page_meta(page, length, &bytes, &count), &bytes);
    drop(hengaruto_page_outline(page, length, &bytes, &count), &bytes);
    drop(hengaruto_errors(page, length, &bytes, &count), &bytes);
    drop(hengaruto_clean(page, length, &bytes, &count), &bytes);
    drop(hengaruto_clean_by(page, length, bytes_of(POLICY), sizeof POLICY - 1, &bytes, &count), &bytes);
    drop(hengaruto_clean_by(page, length, page, length, &bytes, &count), &bytes);
    drop(hengaruto_encoding(page, length, bytes_of("gbk"), 3, &bytes, &count), &bytes);
    drop(hengaruto_decode(page, length, bytes_of("gbk"), 3, &bytes, &count), &bytes);
    drop(hengaruto_parse_bytes(page, length, bytes_of("gbk"), 3, 0, &bytes, &count), &bytes);
    drop(hengaruto_parse_bytes(page, length, bytes_of(""), 0, 0, &bytes, &count), &bytes);
    drop(hengaruto_parse_fragment(page, length, bytes_of("div"), 3, HENGARUTO_NS_HTML, 0, &bytes, &count), &bytes);
}

static void select_all(struct given tree, const unsigned char *selector, size_t length)
{
    unsigned char *bytes;
    size_t count;
    uint32_t last = hengaruto_node_count(tree.bytes, tree.length) - 1, status, number;

    drop(hengaruto_select(tree.bytes, tree.length, 0, selector, length, &bytes, &count), &bytes);
    drop(hengaruto_select_all(tree.bytes, tree.length, 0, selector, length, &bytes, &count), &bytes);
    drop(hengaruto_check_selector(selector, length, &bytes, &count), &bytes);
    status = hengaruto_select_first(tree.bytes, tree.length, 0, selector, length, &number);
    CHECK(status == hengaruto_matches(tree.bytes, tree.length, last, selector, length, &number));
    CHECK(status == hengaruto_closest(tree.bytes, tree.length, last, selector, length, &number));
}

static void reads_of(struct given tree, uint32_t node)
{
    uint32_t name = hengaruto_name(tree.bytes, tree.length, node), row;
    size_t at, count;

    hengaruto_kind(tree.bytes, tree.length, node);
    hengaruto_parent(tree.bytes, tree.length, node);
    hengaruto_first_child(tree.bytes, tree.length, node);
    hengaruto_next_sibling(tree.bytes, tree.length, node);
    hengaruto_template_contents(tree.bytes, tree.length, node);
    hengaruto_subtree_end(tree.bytes, tree.length, node);
    hengaruto_text(tree.bytes, tree.length, node, &at, &count);
    hengaruto_namespace(tree.bytes, tree.length, name);
    hengaruto_prefix(tree.bytes, tree.length, name);
    hengaruto_name_text(tree.bytes, tree.length, name, &at, &count);
    hengaruto_attribute_count(tree.bytes, tree.length, node);
    hengaruto_attribute_at(tree.bytes, tree.length, node, 0, &row, &at, &count);
    hengaruto_attribute(tree.bytes, tree.length, node, bytes_of("id"), 2, &at, &count);
}

static void trees(struct given tree)
{
    uint32_t node, nodes = hengaruto_node_count(tree.bytes, tree.length);
    unsigned char *bytes;
    size_t count;

    CHECK(hengaruto_check(tree.bytes, tree.length) == HENGARUTO_OK);
    hengaruto_quirks(tree.bytes, tree.length);
    hengaruto_version();
    hengaruto_next_named(tree.bytes, tree.length, 0, bytes_of("none"), 4);
    for (node = 0; node < nodes; node++) {
        reads_of(tree, node);
    }
    drop(hengaruto_html(tree.bytes, tree.length, 0, 1, &bytes, &count), &bytes);
    select_all(tree, bytes_of("div > :not(p)"), 13);
}

int main(int count, char **words)
{
    size_t length, selector_length;
    unsigned char *page, *selector;
    struct given tree;

    REQUIRE(count > 1);
    page = contents_of(words[1], &length);
    REQUIRE(hengaruto_parse(page, length, 0, &tree.bytes, &tree.length) == HENGARUTO_OK);
    if (count > 2) {
        selector = contents_of(words[2], &selector_length);
        select_all(tree, selector, selector_length);
        free(selector);
    } else {
        whole_pages(page, length);
        trees(tree);
    }
    free(tree.bytes);
    free(page);
    return failures != 0;
}
