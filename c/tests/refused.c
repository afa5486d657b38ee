/* refused.c: each allocation fails in turn. The call then returns HENGARUTO_NO_MEMORY and no result, and has freed what it allocated before.
 * Link it with libhengaruto.a and -Wl,--wrap=malloc,--wrap=realloc,--wrap=free. */
#include "testing.h"

void *__real_malloc(size_t size);
void *__real_realloc(void *memory, size_t size);
void __real_free(void *memory);
void *__wrap_malloc(size_t size);
void *__wrap_realloc(void *memory, size_t size);
void __wrap_free(void *memory);

/* How many requests succeed before all others fail. If it is negative, none fails. */
static long granted = -1;
/* The number of allocations that haven't been freed. */
static long live;

static int is_refused(void)
{
    if (granted > 0) {
        granted--;
        return 0;
    }
    return granted == 0;
}

void *__wrap_malloc(size_t size)
{
    void *memory = is_refused() ? NULL : __real_malloc(size);

    live += memory != NULL;
    return memory;
}

void *__wrap_realloc(void *memory, size_t size)
{
    void *grown = is_refused() ? NULL : __real_realloc(memory, size);

    live += memory == NULL && grown != NULL;
    return grown;
}

void __wrap_free(void *memory)
{
    live -= memory != NULL;
    __real_free(memory);
}

static const char PAGE[] = "<!doctype html><title>t</title><p class=a id=b>one <b>two</b><!--c--><svg xlink:href=x><a/></svg><x-y><table>"
                           "<td>q<template><i>x&amp;<a href=q>w</a></template><ul><li>1<li>2";
static const char SELECTOR[] = "p.a > b, li:nth-child(2)", NO_SELECTOR[] = "p > [a=";
static const char SELECTORS[] = "p.a > b\0li:nth-child(2)", NO_SELECTORS[] = "p\0p > [a=";
static const char POLICY[] = "elements = [\"p\", 'b']\nattributes = ['data-*']\nrel = \"a\"\n[attributes-of]\np = ['class']";
static const char NO_POLICY[] = "elements = ['p', 'script']", NO_TOML[] = "elements = ['p'";
static const char HEADINGS[] = "<h1>a<b>b</b></h1><h2>c</p>&x;<a =";
static const char DECLARED[] = "<p a=b><meta http-equiv=content-type content='text/html; charset=koi8-r'>\xf7";
/* The element b of the page. */
#define BOLD 9u
static struct given tree;

typedef uint32_t (*call)(struct given *given);

static uint32_t parse(struct given *given)
{
    return hengaruto_parse(bytes_of(PAGE), sizeof PAGE - 1, 0, &given->bytes, &given->length);
}

static uint32_t parse_fragment(struct given *given)
{
    return hengaruto_parse_fragment(bytes_of(PAGE), sizeof PAGE - 1, bytes_of("div"), 3, HENGARUTO_NS_HTML, 0, &given->bytes,
                                    &given->length);
}

static uint32_t html(struct given *given)
{
    return hengaruto_html(tree.bytes, tree.length, 0, 0, &given->bytes, &given->length);
}

static uint32_t selects(struct given *given)
{
    return hengaruto_select(tree.bytes, tree.length, 0, bytes_of(SELECTOR), sizeof SELECTOR - 1, &given->bytes, &given->length);
}

static uint32_t bad_selector(struct given *given)
{
    return hengaruto_select(tree.bytes, tree.length, 0, bytes_of(NO_SELECTOR), sizeof NO_SELECTOR - 1, &given->bytes, &given->length);
}

static uint32_t select_all(struct given *given)
{
    return hengaruto_select_all(tree.bytes, tree.length, 0, bytes_of(SELECTORS), sizeof SELECTORS - 1, &given->bytes, &given->length);
}

static uint32_t bad_selectors(struct given *given)
{
    return hengaruto_select_all(tree.bytes, tree.length, 0, bytes_of(NO_SELECTORS), sizeof NO_SELECTORS - 1, &given->bytes, &given->length);
}

static uint32_t check_selector(struct given *given)
{
    return hengaruto_check_selector(bytes_of(NO_SELECTOR), sizeof NO_SELECTOR - 1, &given->bytes, &given->length);
}

typedef uint32_t (*asking)(const unsigned char *block, size_t block_length, uint32_t node, const unsigned char *selector,
                           size_t selector_length, uint32_t *found);

/* A call that returns a number, which isn't 0. */
static uint32_t number_of(asking asks, uint32_t node, struct given *given)
{
    uint32_t found = 0, status = asks(tree.bytes, tree.length, node, bytes_of(SELECTOR), sizeof SELECTOR - 1, &found);

    given->length = found;
    return status;
}

static uint32_t select_first(struct given *given)
{
    return number_of(hengaruto_select_first, 0, given);
}

static uint32_t matches(struct given *given)
{
    return number_of(hengaruto_matches, BOLD, given);
}

static uint32_t closest(struct given *given)
{
    return number_of(hengaruto_closest, BOLD, given);
}

static uint32_t page_text(struct given *given)
{
    return hengaruto_page_text(bytes_of(PAGE), sizeof PAGE - 1, 0, &given->bytes, &given->length);
}

static uint32_t page_text_of_a_width(struct given *given)
{
    return hengaruto_page_text(bytes_of(PAGE), sizeof PAGE - 1, 10, &given->bytes, &given->length);
}

static uint32_t page_links(struct given *given)
{
    return hengaruto_page_links(bytes_of(PAGE), sizeof PAGE - 1, &given->bytes, &given->length);
}

static uint32_t clean(struct given *given)
{
    return hengaruto_clean(bytes_of(PAGE), sizeof PAGE - 1, &given->bytes, &given->length);
}

static uint32_t clean_by(struct given *given)
{
    return hengaruto_clean_by(bytes_of(PAGE), sizeof PAGE - 1, bytes_of(POLICY), sizeof POLICY - 1, &given->bytes, &given->length);
}

static uint32_t bad_policy(struct given *given)
{
    return hengaruto_clean_by(bytes_of(PAGE), sizeof PAGE - 1, bytes_of(NO_POLICY), sizeof NO_POLICY - 1, &given->bytes, &given->length);
}

static uint32_t no_toml(struct given *given)
{
    return hengaruto_clean_by(bytes_of(PAGE), sizeof PAGE - 1, bytes_of(NO_TOML), sizeof NO_TOML - 1, &given->bytes, &given->length);
}

static uint32_t encoding(struct given *given)
{
    return hengaruto_encoding(bytes_of(DECLARED), sizeof DECLARED - 1, bytes_of(""), 0, &given->bytes, &given->length);
}

static uint32_t decode(struct given *given)
{
    return hengaruto_decode(bytes_of(DECLARED), sizeof DECLARED - 1, bytes_of("koi8-r"), 6, &given->bytes, &given->length);
}

static uint32_t page_meta(struct given *given)
{
    return hengaruto_page_meta(bytes_of(PAGE), sizeof PAGE - 1, &given->bytes, &given->length);
}

static uint32_t page_outline(struct given *given)
{
    return hengaruto_page_outline(bytes_of(HEADINGS), sizeof HEADINGS - 1, &given->bytes, &given->length);
}

static uint32_t errors(struct given *given)
{
    return hengaruto_errors(bytes_of(HEADINGS), sizeof HEADINGS - 1, &given->bytes, &given->length);
}

static uint32_t parse_bytes(struct given *given)
{
    return hengaruto_parse_bytes(bytes_of(DECLARED), sizeof DECLARED - 1, bytes_of(""), 0, 0, &given->bytes, &given->length);
}

/* Makes the first request of a call fail, then the second, and so on until none fails. Returns the number of requests. */
static long refuse_each(const char *name, call made, uint32_t wanted)
{
    for (long request = 0;; request++) {
        struct given given = {NULL, 0};
        long before = live;

        granted = request;
        uint32_t status = made(&given);
        granted = -1;
        if (status == wanted) {
            CHECK(given.bytes != NULL || given.length > 0);
            free(given.bytes);
            CHECK(live == before);
            return request;
        }
        CHECK(status == HENGARUTO_NO_MEMORY);
        CHECK(given.bytes == NULL && given.length == 0);
        CHECK(live == before);
        if (status != HENGARUTO_NO_MEMORY || live != before) {
            fprintf(stderr, "%s, request %ld: status %u, %ld blocks left\n", name, request, (unsigned)status, live - before);
            return request;
        }
    }
}

int main(void)
{
    const struct {
        const char *name;
        call made;
        uint32_t wanted;
    } calls[] = {
        {"parse", parse, HENGARUTO_OK},
        {"encoding", encoding, HENGARUTO_OK},
        {"decode", decode, HENGARUTO_OK},
        {"parse_bytes", parse_bytes, HENGARUTO_OK},
        {"parse_fragment", parse_fragment, HENGARUTO_OK},
        {"html", html, HENGARUTO_OK},
        {"select", selects, HENGARUTO_OK},
        {"select, of a wrong selector", bad_selector, HENGARUTO_BAD_SELECTOR},
        {"select_all", select_all, HENGARUTO_OK},
        {"select_all, of a wrong selector", bad_selectors, HENGARUTO_BAD_SELECTOR},
        {"check_selector, of a wrong selector", check_selector, HENGARUTO_BAD_SELECTOR},
        {"select_first", select_first, HENGARUTO_OK},
        {"matches", matches, HENGARUTO_OK},
        {"closest", closest, HENGARUTO_OK},
        {"page_text", page_text, HENGARUTO_OK},
        {"page_text, of a width", page_text_of_a_width, HENGARUTO_OK},
        {"page_links", page_links, HENGARUTO_OK},
        {"page_meta", page_meta, HENGARUTO_OK},
        {"page_outline", page_outline, HENGARUTO_OK},
        {"errors", errors, HENGARUTO_OK},
        {"clean", clean, HENGARUTO_OK},
        {"clean_by", clean_by, HENGARUTO_OK},
        {"clean_by, of a wrong policy", bad_policy, HENGARUTO_BAD_POLICY},
        {"clean_by, of no TOML", no_toml, HENGARUTO_BAD_POLICY},
    };

    REQUIRE(parse(&tree) == HENGARUTO_OK);
    for (size_t i = 0; i < sizeof calls / sizeof *calls; i++) {
        printf("refused: %s, %ld requests\n", calls[i].name, refuse_each(calls[i].name, calls[i].made, calls[i].wanted));
    }
    free(tree.bytes);
    CHECK(live == 0);
    return ended("refused");
}
