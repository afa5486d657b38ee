/* hengaruto.h - parses, cleans and selects HTML.
 *
 * A tree is a BLOCK: one run of bytes, which a call allocates with malloc and the caller frees with free. It contains no pointers, so it
 * may be copied, written to a file, sent to another process or mapped into memory. The library never changes a block and keeps no state:
 * any number of threads may read one block, and parse other pages at the same time.
 *
 * A node is a number, from 0. Node 0 is the document, or the fragment. Nodes are numbered in tree order: the nodes below node n are n + 1
 * to hengaruto_subtree_end(n) - 1. So a walk over a tree is a loop over numbers, and the text below a node is one slice.
 *
 * Any bytes may be passed as a block, and any number as a node. If the bytes aren't a block, or the block has no such node, the call
 * returns a status, 0 or HENGARUTO_NONE. No call reads beyond the length of a block. hengaruto_first_child, hengaruto_next_sibling and
 * hengaruto_subtree_end return a greater number than the node's, hengaruto_parent a smaller one, or HENGARUTO_NONE; so every walk ends,
 * for any bytes. This is proved. The caller must ensure that no pointer is NULL (pass "" for no bytes), that lengths are correct, and that
 * nothing writes to the memory during a call.
 */
#ifndef HENGARUTO_H
#define HENGARUTO_H

#include <stddef.h>
#include <stdint.h>

/* The version of this header and of its library. */
#define HENGARUTO_VERSION "0.3.0"

#ifdef __cplusplus
extern "C" {
#endif

#if defined(__GNUC__)
#define HENGARUTO_NONNULL __attribute__((nonnull))
#define HENGARUTO_NONNULL_CHECKED __attribute__((nonnull, warn_unused_result))
#else
#define HENGARUTO_NONNULL
#define HENGARUTO_NONNULL_CHECKED
#endif

/* Statuses. Except with HENGARUTO_OK, and with HENGARUTO_BAD_SELECTOR of hengaruto_select, nothing is returned, and nothing has to be
 * freed. */
#define HENGARUTO_OK 0u
#define HENGARUTO_NO_MEMORY 1u    /* malloc failed, or the tree is too large for a block: 4 GiB, or 16,777,215 names */
#define HENGARUTO_NO_NODE 2u      /* no such node, row or name */
#define HENGARUTO_BAD_BLOCK 3u    /* the bytes aren't a block; hengaruto_select: or not one that a tree was packed into */
#define HENGARUTO_BAD_ARGUMENT 4u /* a name or selector that isn't UTF-8, a namespace other than HTML, MathML and SVG, an unknown label */
#define HENGARUTO_BAD_SELECTOR 5u /* an invalid selector */

#define HENGARUTO_NONE 0xffffffffu /* no node, no name */

/* Kinds of nodes: nodeType of the DOM standard; 0 if there is no such node. */
#define HENGARUTO_ELEMENT 1u
#define HENGARUTO_TEXT 3u
#define HENGARUTO_INSTRUCTION 7u
#define HENGARUTO_COMMENT 8u
#define HENGARUTO_DOCUMENT 9u
#define HENGARUTO_DOCTYPE 10u
#define HENGARUTO_FRAGMENT 11u /* node 0 of a fragment, and the contents of a template, which are its only child */

/* Namespaces. */
#define HENGARUTO_NS_NONE 0u
#define HENGARUTO_NS_HTML 1u
#define HENGARUTO_NS_MATHML 2u
#define HENGARUTO_NS_SVG 3u
#define HENGARUTO_NS_XLINK 4u
#define HENGARUTO_NS_XML 5u
#define HENGARUTO_NS_XMLNS 6u

/* Options; combine them with |. */
#define HENGARUTO_SCRIPTING 1u     /* the content of noscript is text, as in a browser that runs scripts */
#define HENGARUTO_IFRAME_SRCDOC 2u /* the page is the srcdoc of an iframe */

/* Results are allocated with malloc, and the caller frees them with free. A NUL follows each, which the length doesn't count. */

/* Parses a page in UTF-8 (HTML standard, section 13.2). Bytes that aren't UTF-8 become U+FFFD, as in a browser. */
uint32_t hengaruto_parse(const unsigned char *page, size_t page_length, uint32_t options, unsigned char **block, size_t *length)
    HENGARUTO_NONNULL_CHECKED;

/* The name of a page's encoding, in ASCII, as the Encoding Standard writes it. A byte order mark takes precedence, then the label, then
 * what the first 1,024 bytes declare (section 13.2.3.2). The label is that of the header Content-Type; pass "" if it has none. An unknown
 * label is ignored. If nothing determines the encoding, the name is empty. */
uint32_t hengaruto_encoding(const unsigned char *page, size_t page_length, const unsigned char *label, size_t label_length,
                            unsigned char **name, size_t *length) HENGARUTO_NONNULL_CHECKED;

/* Decodes bytes to UTF-8, which hengaruto_parse takes, from the encoding with this label or name. Each decoding error becomes U+FFFD; a
 * byte order mark is kept. Fails with HENGARUTO_BAD_ARGUMENT if the label is unknown. */
uint32_t hengaruto_decode(const unsigned char *bytes, size_t bytes_length, const unsigned char *label, size_t label_length,
                          unsigned char **text, size_t *length) HENGARUTO_NONNULL_CHECKED;

/* Parses a fragment (section 13.4), as innerHTML of an element with this name, such as "div", and this namespace does. */
uint32_t hengaruto_parse_fragment(const unsigned char *page, size_t page_length, const unsigned char *context, size_t context_length,
                                  uint32_t context_namespace, uint32_t options, unsigned char **block, size_t *length)
    HENGARUTO_NONNULL_CHECKED;

/* The HTML (section 13.3) of a node with all below it, or, if outer is 0, only of the nodes below it. */
uint32_t hengaruto_html(const unsigned char *block, size_t block_length, uint32_t node, uint32_t outer, unsigned char **html,
                        size_t *length) HENGARUTO_NONNULL_CHECKED;

/* The elements below a node that a CSS selector matches, each once, in tree order: their numbers, 4 bytes each, least significant byte
 * first. With HENGARUTO_BAD_SELECTOR the result is a message, which has to be freed, too: it says what is wrong, and at which character
 * offset. Each call makes a tree of the whole block again, which takes time and memory. */
uint32_t hengaruto_select(const unsigned char *block, size_t block_length, uint32_t node, const unsigned char *selector,
                          size_t selector_length, unsigned char **found, size_t *length) HENGARUTO_NONNULL_CHECKED;

/* The text of a page, laid out as a browser shows it without a style sheet. Scripting is off. Lines are wrapped at width columns; with
 * width 0 they are not wrapped. (The program differs: with --width 0 it prints one word per line.) */
uint32_t hengaruto_page_text(const unsigned char *page, size_t page_length, size_t width, unsigned char **text, size_t *length)
    HENGARUTO_NONNULL_CHECKED;

/* The links of a page, which are its elements a with an href: for each, its href, a NUL, its text and a NUL. URLs are not resolved, and
 * whitespace is not collapsed. Scripting is off. */
uint32_t hengaruto_page_links(const unsigned char *page, size_t page_length, unsigned char **links, size_t *length)
    HENGARUTO_NONNULL_CHECKED;

/* What the default policy allows of a fragment, as HTML: phrases, ruby annotations, links, images, headings, blocks, lists and tables,
 * without scripts, styles, forms and frames. URLs are relative, http or https, and in links also mailto. Cleaning the result again doesn't
 * change it. Put it into a page in UTF-8, where block elements are allowed, and not into a script, a style, an attribute or a comment. */
uint32_t hengaruto_clean(const unsigned char *html, size_t html_length, unsigned char **cleaned, size_t *length) HENGARUTO_NONNULL_CHECKED;

/* HENGARUTO_OK if the bytes have the structure of a block that hengaruto_parse makes, else HENGARUTO_BAD_BLOCK. Reads all of the block:
 * call it once for a block from elsewhere. Reads of any other bytes also end and stay inside of them, but may return anything. */
uint32_t hengaruto_check(const unsigned char *block, size_t block_length) HENGARUTO_NONNULL;

/* Reads. Each looks at a few words of the block, however large it is. */
uint32_t hengaruto_quirks(const unsigned char *block, size_t block_length) HENGARUTO_NONNULL; /* 0 no, 1 limited, 2 quirks */
uint32_t hengaruto_node_count(const unsigned char *block, size_t block_length) HENGARUTO_NONNULL;
uint32_t hengaruto_kind(const unsigned char *block, size_t block_length, uint32_t node) HENGARUTO_NONNULL;
uint32_t hengaruto_parent(const unsigned char *block, size_t block_length, uint32_t node) HENGARUTO_NONNULL;
uint32_t hengaruto_first_child(const unsigned char *block, size_t block_length, uint32_t node) HENGARUTO_NONNULL;
uint32_t hengaruto_next_sibling(const unsigned char *block, size_t block_length, uint32_t node) HENGARUTO_NONNULL;
uint32_t hengaruto_template_contents(const unsigned char *block, size_t block_length, uint32_t node) HENGARUTO_NONNULL; /* of a template */
/* The number of the first node after the subtree. */
uint32_t hengaruto_subtree_end(const unsigned char *block, size_t block_length, uint32_t node) HENGARUTO_NONNULL;

/* Names are numbers, too: in one block, two names are equal exactly if their numbers are. */
uint32_t hengaruto_name(const unsigned char *block, size_t block_length, uint32_t node) HENGARUTO_NONNULL;
uint32_t hengaruto_namespace(const unsigned char *block, size_t block_length, uint32_t name) HENGARUTO_NONNULL;
uint32_t hengaruto_prefix(const unsigned char *block, size_t block_length, uint32_t name) HENGARUTO_NONNULL; /* 1 xlink 2 xml 3 xmlns */

/* Texts are in the block: *count bytes of UTF-8, at block + *at. */
uint32_t hengaruto_name_text(const unsigned char *block, size_t block_length, uint32_t name, size_t *at, size_t *count) HENGARUTO_NONNULL;
/* The text of a text node; for any other node, the texts of all nodes below it, joined. */
uint32_t hengaruto_text(const unsigned char *block, size_t block_length, uint32_t node, size_t *at, size_t *count) HENGARUTO_NONNULL;
/* The rows of a node: the attributes of an element; the name, public and system identifier of a doctype; the text of a comment; the target
 * and text of an instruction. *name is HENGARUTO_NONE for a row that isn't an attribute. */
uint32_t hengaruto_attribute_count(const unsigned char *block, size_t block_length, uint32_t node) HENGARUTO_NONNULL;
uint32_t hengaruto_attribute_at(const unsigned char *block, size_t block_length, uint32_t node, uint32_t index, uint32_t *name, size_t *at,
                                size_t *count) HENGARUTO_NONNULL;

/* The layout of a block, for bindings that read it as arrays: words of 32 bits, least significant byte first.
 *   0 "HGT1"   1 length of the block   2 quirks   3 nodes n   4 rows m   5 names k   6 bytes of names   7 of values   8 of texts
 *   then  kind[n] (kind + 256 * name)    parent[n]    end[n]    text[n + 1] (where the node begins in the texts)
 *         row[n + 1] (the node's first row)    row_name[m]    row_end[m] (offset in the values)
 *         name_space[k] (namespace + 256 * prefix)    name_end[k] (offset in the names)
 *   then the bytes of names, of values and of texts. */

#ifdef __cplusplus
}
#endif
#endif
