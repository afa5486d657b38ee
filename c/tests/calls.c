/* calls.c: tests each call, with each status that it can return except HENGARUTO_NO_MEMORY. */
#include "testing.h"

#define SOME 0x5a5a5a5au

static const char PAGE[] = "<!DOCTYPE html PUBLIC \"p\" \"s\"><title>A</title><p class=a id=b>One <b>two</b><!--c-->"
                           "<template><i>x</i></template><svg xlink:href=y><a/></svg><math><mi>z</mi></math>";

/* The first element with this name, or HENGARUTO_NONE. */
static uint32_t element(struct given tree, const char *name)
{
    for (uint32_t node = 0; node < hengaruto_node_count(tree.bytes, tree.length); node++) {
        size_t at, count;

        if (hengaruto_kind(tree.bytes, tree.length, node) == HENGARUTO_ELEMENT &&
            hengaruto_name_text(tree.bytes, tree.length, hengaruto_name(tree.bytes, tree.length, node), &at, &count) == HENGARUTO_OK &&
            is_text(tree.bytes + at, count, name)) {
            return node;
        }
    }
    return HENGARUTO_NONE;
}

static uint32_t first_of(struct given tree, uint32_t kind)
{
    for (uint32_t node = 0; node < hengaruto_node_count(tree.bytes, tree.length); node++) {
        if (hengaruto_kind(tree.bytes, tree.length, node) == kind) {
            return node;
        }
    }
    return HENGARUTO_NONE;
}

static int has_text(struct given tree, uint32_t node, const char *text)
{
    size_t at, count;

    return hengaruto_text(tree.bytes, tree.length, node, &at, &count) == HENGARUTO_OK && is_text(tree.bytes + at, count, text);
}

/* Returns true if a row of a node has this name (NULL for none) and this value. */
static int has_row(struct given tree, uint32_t node, uint32_t index, const char *name, const char *value)
{
    uint32_t number;
    size_t at, count;

    if (hengaruto_attribute_at(tree.bytes, tree.length, node, index, &number, &at, &count) != HENGARUTO_OK ||
        !is_text(tree.bytes + at, count, value)) {
        return 0;
    }
    if (name == NULL) {
        return number == HENGARUTO_NONE;
    }
    return hengaruto_name_text(tree.bytes, tree.length, number, &at, &count) == HENGARUTO_OK && is_text(tree.bytes + at, count, name);
}

static struct given html_of(struct given tree, uint32_t node, uint32_t outer)
{
    struct given html;

    REQUIRE(hengaruto_html(tree.bytes, tree.length, node, outer, &html.bytes, &html.length) == HENGARUTO_OK);
    return html;
}

static void parse(void)
{
    struct given tree = parsed(PAGE, 0);

    CHECK(hengaruto_check(tree.bytes, tree.length) == HENGARUTO_OK);
    CHECK(tree.bytes[tree.length] == 0);
    CHECK(hengaruto_quirks(tree.bytes, tree.length) == 0);
    free(tree.bytes);

    tree = parsed("", 0);
    CHECK(hengaruto_node_count(tree.bytes, tree.length) == 4); /* the document, html, head, body */
    CHECK(hengaruto_quirks(tree.bytes, tree.length) == 2);
    free(tree.bytes);

    tree = parsed("<!DOCTYPE html PUBLIC \"-//W3C//DTD XHTML 1.0 Transitional//\" \"\">", 0);
    CHECK(hengaruto_quirks(tree.bytes, tree.length) == 1);
    free(tree.bytes);

    /* A byte that isn't UTF-8 becomes U+FFFD. */
    tree = parsed("<p>\xff", 0);
    CHECK(has_text(tree, element(tree, "p"), "\xef\xbf\xbd"));
    free(tree.bytes);
}

static void options(void)
{
    struct given tree = parsed("<noscript><p>x</p></noscript>", 0);

    CHECK(element(tree, "p") != HENGARUTO_NONE);
    free(tree.bytes);
    tree = parsed("<body><noscript><p>x</p></noscript>", HENGARUTO_SCRIPTING);
    CHECK(element(tree, "p") == HENGARUTO_NONE);
    CHECK(has_text(tree, element(tree, "noscript"), "<p>x</p>"));
    CHECK(gave(html_of(tree, element(tree, "noscript"), 0), "<p>x</p>"));
    free(tree.bytes);
    /* A text in noscript stays one: it is escaped again. */
    tree = parsed("<body><noscript>&lt;img src=x onerror=alert(1)&gt;</noscript>", 0);
    CHECK(gave(html_of(tree, element(tree, "noscript"), 0), "&lt;img src=x onerror=alert(1)&gt;"));
    free(tree.bytes);
    tree = parsed("<p>x", HENGARUTO_IFRAME_SRCDOC);
    CHECK(hengaruto_quirks(tree.bytes, tree.length) == 0);
    free(tree.bytes);
}

static struct given fragment_of(const char *page, const char *context, uint32_t space)
{
    struct given tree;

    REQUIRE(hengaruto_parse_fragment(bytes_of(page), strlen(page), bytes_of(context), strlen(context), space, 0, &tree.bytes,
                                     &tree.length) == HENGARUTO_OK);
    return tree;
}

static void fragments(void)
{
    struct given tree = fragment_of("<td>1", "tr", HENGARUTO_NS_HTML);
    struct given none = {NULL, SOME};

    CHECK(hengaruto_kind(tree.bytes, tree.length, 0) == HENGARUTO_FRAGMENT);
    CHECK(gave(html_of(tree, 0, 0), "<td>1</td>"));
    free(tree.bytes);
    tree = fragment_of("<td>1", "div", HENGARUTO_NS_HTML);
    CHECK(gave(html_of(tree, 0, 0), "1"));
    free(tree.bytes);
    tree = fragment_of("<path/>", "svg", HENGARUTO_NS_SVG);
    CHECK(hengaruto_namespace(tree.bytes, tree.length, hengaruto_name(tree.bytes, tree.length, 1)) == HENGARUTO_NS_SVG);
    free(tree.bytes);
    tree = fragment_of("<mi>", "math", HENGARUTO_NS_MATHML);
    CHECK(hengaruto_namespace(tree.bytes, tree.length, hengaruto_name(tree.bytes, tree.length, 1)) == HENGARUTO_NS_MATHML);
    free(tree.bytes);

    CHECK(hengaruto_parse_fragment(bytes_of("x"), 1, bytes_of("\xff"), 1, HENGARUTO_NS_HTML, 0, &none.bytes, &none.length) ==
          HENGARUTO_BAD_ARGUMENT);
    CHECK(hengaruto_parse_fragment(bytes_of("x"), 1, bytes_of("p"), 1, HENGARUTO_NS_NONE, 0, &none.bytes, &none.length) ==
          HENGARUTO_BAD_ARGUMENT);
    CHECK(hengaruto_parse_fragment(bytes_of("x"), 1, bytes_of("p"), 1, HENGARUTO_NS_XLINK, 0, &none.bytes, &none.length) ==
          HENGARUTO_BAD_ARGUMENT);
    CHECK(none.bytes == NULL && none.length == SOME);
}

static void html(void)
{
    struct given tree = parsed("<p title='a\"b'>x &lt; y<br></p>", 0), none = {NULL, SOME};
    uint32_t p = element(tree, "p");

    CHECK(gave(html_of(tree, 0, 0), "<html><head></head><body><p title=\"a&quot;b\">x &lt; y<br></p></body></html>"));
    CHECK(gave(html_of(tree, p, 1), "<p title=\"a&quot;b\">x &lt; y<br></p>"));
    CHECK(gave(html_of(tree, p, 0), "x &lt; y<br>"));
    CHECK(gave(html_of(tree, element(tree, "br"), 0), ""));
    CHECK(hengaruto_html(tree.bytes, tree.length, 1000, 1, &none.bytes, &none.length) == HENGARUTO_NO_NODE);
    CHECK(hengaruto_html(bytes_of(""), 0, 0, 1, &none.bytes, &none.length) == HENGARUTO_BAD_BLOCK);
    CHECK(none.bytes == NULL && none.length == SOME);
    free(tree.bytes);
}

static uint32_t select_of(struct given tree, uint32_t node, const char *selector, struct given *found)
{
    return hengaruto_select(tree.bytes, tree.length, node, bytes_of(selector), strlen(selector), &found->bytes, &found->length);
}

static void selects(void)
{
    struct given tree = parsed("<ul><li>1<li class=x>2<li>3</ul><p class=x>4", 0), found = {NULL, SOME};
    uint32_t item;

    CHECK(select_of(tree, 0, "li.x, p", &found) == HENGARUTO_OK);
    REQUIRE(found.length == 8);
    item = found.bytes[0] | (uint32_t)found.bytes[1] << 8;
    CHECK(has_text(tree, item, "2"));
    CHECK(found.bytes[4] == element(tree, "p") && found.bytes[5] + found.bytes[6] + found.bytes[7] == 0);
    free(found.bytes);

    CHECK(select_of(tree, element(tree, "ul"), ".x", &found) == HENGARUTO_OK && found.length == 4);
    free(found.bytes);
    CHECK(select_of(tree, 0, "table", &found) == HENGARUTO_OK && gave(found, ""));

    found = (struct given){NULL, SOME};
    CHECK(select_of(tree, 0, "li >", &found) == HENGARUTO_BAD_SELECTOR);
    REQUIRE(found.bytes != NULL);
    CHECK(found.length > 0 && strlen((const char *)found.bytes) == found.length);
    free(found.bytes);

    found = (struct given){NULL, SOME};
    free(tree.bytes);
}

/* The words of a result, one after the other. */
static int are_words(struct given found, const uint32_t *words, size_t count)
{
    int same = found.length == 4 * count;

    for (size_t i = 0; same && i < count; i++) {
        const unsigned char *at = found.bytes + 4 * i;

        same = words[i] == (at[0] | (uint32_t)at[1] << 8 | (uint32_t)at[2] << 16 | (uint32_t)at[3] << 24);
    }
    free(found.bytes);
    return same;
}

static uint32_t select_all_of(struct given tree, uint32_t node, const char *selectors, size_t length, struct given *found)
{
    return hengaruto_select_all(tree.bytes, tree.length, node, bytes_of(selectors), length, &found->bytes, &found->length);
}

static void selects_all(void)
{
    struct given tree = parsed("<ul><li>1<li class=x>2<li>3</ul><p class=x>4", 0), found = {NULL, SOME};
    uint32_t ul = element(tree, "ul"), p = element(tree, "p");
    const uint32_t lists[] = {2, ul + 3, p, 0, 3, ul + 1, ul + 3, ul + 5}, below[] = {1, ul + 3};

    CHECK(select_all_of(tree, 0, ".x\0b\0li", 7, &found) == HENGARUTO_OK && are_words(found, lists, 8));
    CHECK(select_all_of(tree, ul, ".x", 2, &found) == HENGARUTO_OK && are_words(found, below, 2));

    const struct {
        const char *selectors, *begin;
        size_t length;
    } wrong[] = {{"li >", "selector 1: at offset ", 4}, {"li\0p,\0b", "selector 2: at offset ", 7}, {"li\0", "selector 2: at offset 0: ", 3},
                 {"", "selector 1: at offset 0: ", 0}};
    for (size_t i = 0; i < sizeof wrong / sizeof *wrong; i++) {
        found = (struct given){NULL, SOME};
        CHECK(select_all_of(tree, 0, wrong[i].selectors, wrong[i].length, &found) == HENGARUTO_BAD_SELECTOR);
        REQUIRE(found.bytes != NULL);
        CHECK(strncmp((const char *)found.bytes, wrong[i].begin, strlen(wrong[i].begin)) == 0);
        CHECK(strlen((const char *)found.bytes) == found.length);
        free(found.bytes);
    }
    free(tree.bytes);
}

typedef uint32_t (*asking)(const unsigned char *block, size_t block_length, uint32_t node, const unsigned char *selector,
                           size_t selector_length, uint32_t *found);

static void numbers(void)
{
    struct given tree = parsed("<div class=x><p><b>1</b></p><b>2</b></div>", 0);
    uint32_t div = element(tree, "div"), p = element(tree, "p"), b = element(tree, "b"), found = SOME;
    const struct {
        asking asks;
        uint32_t node;
        const char *selector;
        uint32_t found;
    } calls[] = {
        {hengaruto_select_first, 0, "b", b},
        {hengaruto_select_first, 0, "div > b", b + 2},
        {hengaruto_select_first, b, "b", HENGARUTO_NONE},
        {hengaruto_select_first, b + 1, "*", HENGARUTO_NONE},
        {hengaruto_matches, b, "p > b", 1},
        {hengaruto_matches, b, "div > b", 0},
        {hengaruto_matches, b + 1, "*", 0},
        {hengaruto_matches, 0, "*", 0},
        {hengaruto_closest, b, "b", b},
        {hengaruto_closest, b, "p", p},
        {hengaruto_closest, b + 1, ".x", div},
        {hengaruto_closest, b, "table", HENGARUTO_NONE},
        {hengaruto_closest, 0, "*", HENGARUTO_NONE},
    };

    for (size_t i = 0; i < sizeof calls / sizeof *calls; i++) {
        const char *selector = calls[i].selector;

        CHECK(calls[i].asks(tree.bytes, tree.length, calls[i].node, bytes_of(selector), strlen(selector), &found) == HENGARUTO_OK);
        CHECK(found == calls[i].found);
    }
    free(tree.bytes);
}

/* A block that hengaruto_check rejects: its first node is an element. */
static struct given unsound(struct given tree)
{
    struct given block = {malloc(tree.length), tree.length};

    REQUIRE(block.bytes != NULL);
    memcpy(block.bytes, tree.bytes, tree.length);
    block.bytes[36] = HENGARUTO_ELEMENT;
    return block;
}

/* What the calls that select refuse, in the order of the checks: each row has all that the rows after it are refused for. */
static void refusals(void)
{
    struct given tree = parsed("<p>x", 0), wrong = unsound(tree), found = {NULL, SOME};
    const asking number_calls[] = {hengaruto_select_first, hengaruto_matches, hengaruto_closest};
    const struct {
        struct given block;
        uint32_t node;
        const char *selector;
        uint32_t status;
    } calls[] = {
        {{wrong.bytes, wrong.length - 1}, 1000, "\xff", HENGARUTO_BAD_BLOCK},
        {wrong, 1000, "\xff", HENGARUTO_NO_NODE},
        {wrong, 0, "\xff", HENGARUTO_BAD_BLOCK},
        {tree, 0, "\xff", HENGARUTO_BAD_ARGUMENT},
    };
    uint32_t number = SOME;

    CHECK(hengaruto_check(wrong.bytes, wrong.length) == HENGARUTO_BAD_BLOCK);
    for (size_t i = 0; i < sizeof calls / sizeof *calls; i++) {
        CHECK(select_of(calls[i].block, calls[i].node, calls[i].selector, &found) == calls[i].status);
        CHECK(select_all_of(calls[i].block, calls[i].node, calls[i].selector, 1, &found) == calls[i].status);
        for (size_t j = 0; j < 3; j++) {
            CHECK(number_calls[j](calls[i].block.bytes, calls[i].block.length, calls[i].node, bytes_of(calls[i].selector), 1, &number) ==
                  calls[i].status);
        }
    }
    for (size_t j = 0; j < 3; j++) {
        CHECK(number_calls[j](tree.bytes, tree.length, 0, bytes_of("p >"), 3, &number) == HENGARUTO_BAD_SELECTOR);
    }
    CHECK(hengaruto_check_selector(bytes_of("\xff"), 1, &found.bytes, &found.length) == HENGARUTO_BAD_ARGUMENT);
    CHECK(hengaruto_check_selector(bytes_of("p > a"), 5, &found.bytes, &found.length) == HENGARUTO_OK);
    CHECK(found.bytes == NULL && found.length == SOME && number == SOME);
    CHECK(hengaruto_check_selector(bytes_of("p >"), 3, &found.bytes, &found.length) == HENGARUTO_BAD_SELECTOR);
    CHECK(gave(found, "at offset 3: expected a selector"));
    free(wrong.bytes);
    free(tree.bytes);
}

static void pages(void)
{
    const char *page = "<title>t</title><p>one <a href='x?a&amp;b'>two</a><script>s</script><p>three";
    struct given given;

    CHECK(hengaruto_page_text(bytes_of(page), strlen(page), 0, &given.bytes, &given.length) == HENGARUTO_OK);
    CHECK(strstr((const char *)given.bytes, "one two") != NULL && strstr((const char *)given.bytes, "three") != NULL);
    CHECK(strlen((const char *)given.bytes) == given.length);
    free(given.bytes);
    CHECK(hengaruto_page_text(bytes_of("<p>one two three"), 16, 5, &given.bytes, &given.length) == HENGARUTO_OK);
    CHECK(strstr((const char *)given.bytes, "one\ntwo") != NULL);
    free(given.bytes);

    CHECK(hengaruto_page_links(bytes_of(page), strlen(page), &given.bytes, &given.length) == HENGARUTO_OK);
    CHECK(given.length == 10 && memcmp(given.bytes, "x?a&b\0two\0", 11) == 0);
    free(given.bytes);
    CHECK(hengaruto_page_links(bytes_of(""), 0, &given.bytes, &given.length) == HENGARUTO_OK && gave(given, ""));

    CHECK(hengaruto_clean(bytes_of("<p onclick=x>a<script>b</script>"), 32, &given.bytes, &given.length) == HENGARUTO_OK);
    CHECK(gave(given, "<p>a</p>"));
    CHECK(hengaruto_clean(bytes_of(""), 0, &given.bytes, &given.length) == HENGARUTO_OK && gave(given, ""));
}

typedef uint32_t (*listing)(const unsigned char *page, size_t page_length, unsigned char **items, size_t *length);

/* A page, and its items, whose values each have a bar after them in place of the NUL. */
static void listings(void)
{
    static const struct {
        listing call;
        const char *page, *items;
    } rows[] = {
        {hengaruto_page_meta, "<html lang=en><title> A\n b</title><meta name=x content='y z'><meta charset=gbk>",
         "lang|en|title|A b|x|y z|charset|gbk|"},
        {hengaruto_page_meta, "", ""},
        {hengaruto_page_outline, "<h1>a <b>b</b></h1><p>c<h6>d", "1|a b|6|d|"},
        {hengaruto_page_outline, "<p>", ""},
        {hengaruto_errors, "<!DOCTYPE html>\n<p>&nosuch;\n</section>",
         "2|11|26|unknown-named-character-reference||3|||unexpected-end-tag|</section> in insertion mode InBody|"},
        {hengaruto_errors, "<!DOCTYPE html><title>a</title>", ""},
    };
    struct given given;

    for (size_t i = 0; i < sizeof rows / sizeof *rows; i++) {
        REQUIRE(rows[i].call(bytes_of(rows[i].page), strlen(rows[i].page), &given.bytes, &given.length) == HENGARUTO_OK);
        for (size_t at = 0; at < given.length; at++) {
            given.bytes[at] = given.bytes[at] == 0 ? '|' : given.bytes[at];
        }
        CHECK(gave(given, rows[i].items));
    }
}

static uint32_t cleaned_by(const char *html, const char *policy, struct given *given)
{
    return hengaruto_clean_by(bytes_of(html), strlen(html), bytes_of(policy), strlen(policy), &given->bytes, &given->length);
}

/* A fragment, a policy, and what it leaves. */
static void policies(void)
{
    static const struct {
        const char *html, *policy, *cleaned;
    } rows[] = {
        {"<p>a<b>c</b><script>d</script>", "elements = []", "ac"},
        {"<p class=x title=y>a", "elements = [\"p\"]\nattributes = [\"title\"]", "<p title=\"y\">a</p>"},
        {"<a href=ftp:x>a<a href=https:y>b", "elements = ['a']\nschemes = ['https']\nattributes-of = { a = ['href'] }",
         "<a>a</a><a href=\"https:y\">b</a>"},
        {"<a href=x>a", "elements = ['a']\nrelative = false\nrel = 'nofollow'\n[attributes-of]\na = ['href']", "<a rel=\"nofollow\">a</a>"},
        {"<p id=x>a<p>b", "elements = ['p']\nattributes = ['id']\nprefix = 'u-'", "<p id=\"u-x\">a</p><p>b</p>"},
        {"<i>a</i><b>c</b>", "elements = ['b']\ndropped = ['i']", "<b>c</b>"},
        {"<p>a", "elements = ['p']\nplace = 'line'", "a"},
        {"", "elements = []", ""},
    };
    struct given given;

    for (size_t i = 0; i < sizeof rows / sizeof *rows; i++) {
        CHECK(cleaned_by(rows[i].html, rows[i].policy, &given) == HENGARUTO_OK && gave(given, rows[i].cleaned));
    }
}

/* A policy, and the message about it. */
static void bad_policies(void)
{
    static const struct {
        const char *policy, *message;
    } rows[] = {
        {"", "missing key `elements`"},
        {"elements = [\"script\"]", "line 1: element \"script\" can't be allowed"},
        {"elements = ['p']\nattributes = ['onclick']", "line 2: attribute \"onclick\" can't be allowed"},
        {"elements = []\n\nschemes = ['javascript']", "line 3: scheme \"javascript\" can't be allowed"},
        {"elements = []\ncolour = 1", "line 2: unknown key `colour`"},
    };
    struct given given;

    for (size_t i = 0; i < sizeof rows / sizeof *rows; i++) {
        CHECK(cleaned_by("<p>a", rows[i].policy, &given) == HENGARUTO_BAD_POLICY && gave(given, rows[i].message));
    }
    /* Neither is TOML. */
    given = (struct given){NULL, 0};
    CHECK(cleaned_by("<p>a", "elements = [", &given) == HENGARUTO_BAD_POLICY && strncmp((const char *)given.bytes, "line 1: ", 8) == 0);
    free(given.bytes);
    given = (struct given){NULL, 0};
    CHECK(cleaned_by("<p>a", "elements = ['\xff']", &given) == HENGARUTO_BAD_POLICY && given.length > 0);
    free(given.bytes);
}

static uint32_t encoding_of(const char *page, const char *label, struct given *given)
{
    return hengaruto_encoding(bytes_of(page), strlen(page), bytes_of(label), strlen(label), &given->bytes, &given->length);
}

static uint32_t decoded(const char *bytes, size_t count, const char *label, struct given *given)
{
    return hengaruto_decode(bytes_of(bytes), count, bytes_of(label), strlen(label), &given->bytes, &given->length);
}

static void encodings(void)
{
    struct given given;

    CHECK(encoding_of("<meta charset=koi8-r>", "", &given) == HENGARUTO_OK && gave(given, "KOI8-R"));
    CHECK(encoding_of("<meta charset=koi8-r>", " Latin1 ", &given) == HENGARUTO_OK && gave(given, "windows-1252"));
    CHECK(encoding_of("<meta charset=koi8-r>", "no-such", &given) == HENGARUTO_OK && gave(given, "KOI8-R"));
    CHECK(encoding_of("\xef\xbb\xbf", "latin1", &given) == HENGARUTO_OK && gave(given, "UTF-8"));
    CHECK(encoding_of("<p>", "", &given) == HENGARUTO_OK && gave(given, ""));

    CHECK(decoded("\xb1\xe2", 2, "euc-kr", &given) == HENGARUTO_OK && gave(given, "\xea\xb8\xb0"));
    CHECK(decoded("\xe9\x80", 2, "ISO-8859-1", &given) == HENGARUTO_OK && gave(given, "\xc3\xa9\xe2\x82\xac"));
    CHECK(decoded("a\0", 2, "utf-16le", &given) == HENGARUTO_OK && gave(given, "a"));
    CHECK(decoded("\x82", 1, "shift_jis", &given) == HENGARUTO_OK && gave(given, "\xef\xbf\xbd"));
    CHECK(decoded("", 0, "gb18030", &given) == HENGARUTO_OK && gave(given, ""));
    given = (struct given){NULL, SOME};
    CHECK(decoded("a", 1, "no-such", &given) == HENGARUTO_BAD_ARGUMENT);
    CHECK(given.bytes == NULL && given.length == SOME);
}

/* A page, its label, and the text of its body. */
static void bytes(void)
{
    static const struct {
        const char *page;
        size_t length;
        const char *label, *text;
    } rows[] = {
        {"<body>\xc3\xa9\xff", 9, "", "\xc3\xa9\xef\xbf\xbd"},
        {"<meta charset=koi8-r><body>\xf7", 28, "", "\xd0\x92"},
        {"<meta charset=koi8-r><body>\xe9", 28, " Latin1 ", "\xc3\xa9"},
        {"<body>\xe9", 7, "windows-1252", "\xc3\xa9"},
        {"\xef\xbb\xbf<body>\xc3\xa9", 11, "latin1", "\xc3\xa9"},
        {"\xff\xfe<\0b\0o\0d\0y\0>\0\xe9\0", 16, "utf-8", "\xc3\xa9"},
        {"<body>\x82", 7, "shift_jis", "\xef\xbf\xbd"},
        {"", 0, "gb18030", ""},
    };
    struct given tree = {NULL, SOME}, same;

    for (size_t i = 0; i < sizeof rows / sizeof *rows; i++) {
        REQUIRE(hengaruto_parse_bytes(bytes_of(rows[i].page), rows[i].length, bytes_of(rows[i].label), strlen(rows[i].label), 0, &tree.bytes,
                                      &tree.length) == HENGARUTO_OK);
        CHECK(has_text(tree, element(tree, "body"), rows[i].text));
        free(tree.bytes);
    }
    REQUIRE(hengaruto_parse_bytes(bytes_of(PAGE), sizeof PAGE - 1, bytes_of(""), 0, HENGARUTO_SCRIPTING, &tree.bytes, &tree.length) ==
            HENGARUTO_OK);
    same = parsed(PAGE, HENGARUTO_SCRIPTING);
    CHECK(tree.length == same.length && memcmp(tree.bytes, same.bytes, same.length) == 0);
    free(tree.bytes);
    free(same.bytes);
    tree = (struct given){NULL, SOME};
    CHECK(hengaruto_parse_bytes(bytes_of("<p>"), 3, bytes_of("no-such"), 7, 0, &tree.bytes, &tree.length) == HENGARUTO_BAD_ARGUMENT);
    CHECK(hengaruto_parse_bytes(bytes_of("<p>"), 3, bytes_of(" "), 1, 0, &tree.bytes, &tree.length) == HENGARUTO_BAD_ARGUMENT);
    CHECK(tree.bytes == NULL && tree.length == SOME);
}

static void places(void)
{
    struct given tree = parsed(PAGE, 0);
    uint32_t body = element(tree, "body"), p = element(tree, "p"), b = element(tree, "b"), contents, template = element(tree, "template");

    CHECK(hengaruto_kind(tree.bytes, tree.length, 0) == HENGARUTO_DOCUMENT);
    CHECK(hengaruto_parent(tree.bytes, tree.length, 0) == HENGARUTO_NONE);
    CHECK(hengaruto_parent(tree.bytes, tree.length, p) == body);
    CHECK(hengaruto_first_child(tree.bytes, tree.length, body) == p);
    CHECK(hengaruto_kind(tree.bytes, tree.length, p + 1) == HENGARUTO_TEXT);
    CHECK(hengaruto_next_sibling(tree.bytes, tree.length, p + 1) == b);
    CHECK(hengaruto_first_child(tree.bytes, tree.length, p + 1) == HENGARUTO_NONE);
    CHECK(hengaruto_subtree_end(tree.bytes, tree.length, b) == b + 2);
    CHECK(hengaruto_subtree_end(tree.bytes, tree.length, 0) == hengaruto_node_count(tree.bytes, tree.length));
    CHECK(hengaruto_next_sibling(tree.bytes, tree.length, 0) == HENGARUTO_NONE);
    contents = hengaruto_template_contents(tree.bytes, tree.length, template);
    CHECK(hengaruto_kind(tree.bytes, tree.length, contents) == HENGARUTO_FRAGMENT);
    CHECK(hengaruto_first_child(tree.bytes, tree.length, contents) == element(tree, "i"));
    CHECK(hengaruto_template_contents(tree.bytes, tree.length, p) == HENGARUTO_NONE);
    free(tree.bytes);
}

static void names(void)
{
    struct given tree = parsed(PAGE, 0);
    uint32_t p = element(tree, "p"), name = hengaruto_name(tree.bytes, tree.length, p), link;
    size_t at = SOME, count = SOME;

    CHECK(hengaruto_namespace(tree.bytes, tree.length, name) == HENGARUTO_NS_HTML);
    CHECK(hengaruto_prefix(tree.bytes, tree.length, name) == 0);
    name = hengaruto_name(tree.bytes, tree.length, element(tree, "svg"));
    CHECK(hengaruto_namespace(tree.bytes, tree.length, name) == HENGARUTO_NS_SVG);
    name = hengaruto_name(tree.bytes, tree.length, element(tree, "mi"));
    CHECK(hengaruto_namespace(tree.bytes, tree.length, name) == HENGARUTO_NS_MATHML);
    CHECK(hengaruto_name(tree.bytes, tree.length, p + 1) == HENGARUTO_NONE);
    CHECK(hengaruto_name_text(tree.bytes, tree.length, HENGARUTO_NONE, &at, &count) == HENGARUTO_NO_NODE);
    CHECK(hengaruto_name_text(bytes_of(""), 0, 0, &at, &count) == HENGARUTO_BAD_BLOCK);
    CHECK(hengaruto_attribute_at(tree.bytes, tree.length, element(tree, "svg"), 0, &link, &at, &count) == HENGARUTO_OK);
    CHECK(hengaruto_namespace(tree.bytes, tree.length, link) == HENGARUTO_NS_XLINK);
    CHECK(hengaruto_prefix(tree.bytes, tree.length, link) == 1);
    free(tree.bytes);
}

static void rows(void)
{
    struct given tree = parsed(PAGE, 0);
    uint32_t p = element(tree, "p"), number;
    size_t at, count;

    CHECK(hengaruto_attribute_count(tree.bytes, tree.length, p) == 2);
    CHECK(has_row(tree, p, 0, "class", "a"));
    CHECK(has_row(tree, p, 1, "id", "b"));
    CHECK(hengaruto_attribute_at(tree.bytes, tree.length, p, 2, &number, &at, &count) == HENGARUTO_NO_NODE);
    CHECK(hengaruto_attribute_at(bytes_of(""), 0, p, 0, &number, &at, &count) == HENGARUTO_BAD_BLOCK);
    CHECK(has_row(tree, first_of(tree, HENGARUTO_DOCTYPE), 0, NULL, "html"));
    CHECK(has_row(tree, first_of(tree, HENGARUTO_DOCTYPE), 1, NULL, "p"));
    CHECK(has_row(tree, first_of(tree, HENGARUTO_DOCTYPE), 2, NULL, "s"));
    CHECK(has_row(tree, first_of(tree, HENGARUTO_COMMENT), 0, NULL, "c"));
    CHECK(has_row(tree, element(tree, "svg"), 0, "href", "y"));
    free(tree.bytes);
}

static int has_attribute(struct given tree, uint32_t node, const char *name, const char *value)
{
    size_t at, count;
    uint32_t status = hengaruto_attribute(tree.bytes, tree.length, node, bytes_of(name), strlen(name), &at, &count);

    return status == HENGARUTO_OK && count == strlen(value) && memcmp(tree.bytes + at, value, count) == 0;
}

static uint32_t next_named(struct given tree, uint32_t node, const char *name)
{
    return hengaruto_next_named(tree.bytes, tree.length, node, bytes_of(name), strlen(name));
}

/* An attribute in a namespace isn't found, nor is the text of a comment, which has no name. */
static void by_name(void)
{
    struct given tree = parsed(PAGE, 0);
    uint32_t p = element(tree, "p"), comment = first_of(tree, HENGARUTO_COMMENT);
    size_t at = SOME, count = SOME;

    CHECK(hengaruto_version() == HENGARUTO_VERSION_NUMBER);
    CHECK(has_attribute(tree, p, "class", "a") && has_attribute(tree, p, "id", "b"));
    CHECK(hengaruto_attribute(tree.bytes, tree.length, p, bytes_of("i"), 1, &at, &count) == HENGARUTO_NO_NODE && at == SOME);
    CHECK(hengaruto_attribute(tree.bytes, tree.length, element(tree, "svg"), bytes_of("href"), 4, &at, &count) == HENGARUTO_NO_NODE);
    CHECK(hengaruto_attribute(tree.bytes, tree.length, comment, bytes_of(""), 0, &at, &count) == HENGARUTO_NO_NODE);
    CHECK(hengaruto_attribute(bytes_of(""), 0, p, bytes_of("id"), 2, &at, &count) == HENGARUTO_BAD_BLOCK);
    CHECK(next_named(tree, 0, "p") == p && next_named(tree, p - 1, "p") == p && next_named(tree, p, "p") > p);
    CHECK(next_named(tree, 0, "nothing") == HENGARUTO_NONE && next_named(tree, HENGARUTO_NONE, "p") == HENGARUTO_NONE);
    CHECK(hengaruto_next_named(bytes_of(""), 0, 0, bytes_of("p"), 1) == HENGARUTO_NONE);
    free(tree.bytes);
}

static void texts(void)
{
    struct given tree = parsed(PAGE, 0);
    size_t at, count;

    CHECK(has_text(tree, element(tree, "p"), "One twoxz"));
    CHECK(has_text(tree, element(tree, "b"), "two"));
    CHECK(has_text(tree, element(tree, "p") + 1, "One "));
    CHECK(has_text(tree, 0, "AOne twoxz"));
    CHECK(has_text(tree, first_of(tree, HENGARUTO_COMMENT), ""));
    CHECK(hengaruto_text(tree.bytes, tree.length, 1000, &at, &count) == HENGARUTO_NO_NODE);
    CHECK(hengaruto_text(bytes_of(""), 0, 0, &at, &count) == HENGARUTO_BAD_BLOCK);
    free(tree.bytes);
}

/* The result of each read if the bytes aren't a block, and if there is no such node. */
static void wrong(void)
{
    struct given tree = parsed(PAGE, 0);

    for (int i = 0; i < 2; i++) {
        const unsigned char *block = i == 0 ? bytes_of("") : tree.bytes;
        size_t length = i == 0 ? 0 : tree.length;

        CHECK(hengaruto_kind(block, length, 1000) == 0);
        CHECK(hengaruto_parent(block, length, 1000) == HENGARUTO_NONE);
        CHECK(hengaruto_first_child(block, length, 1000) == HENGARUTO_NONE);
        CHECK(hengaruto_next_sibling(block, length, 1000) == HENGARUTO_NONE);
        CHECK(hengaruto_subtree_end(block, length, 1000) == HENGARUTO_NONE);
        CHECK(hengaruto_template_contents(block, length, 1000) == HENGARUTO_NONE);
        CHECK(hengaruto_name(block, length, 1000) == HENGARUTO_NONE);
        CHECK(hengaruto_attribute_count(block, length, 1000) == 0);
        CHECK(hengaruto_namespace(block, length, HENGARUTO_NONE) == 0);
        CHECK(hengaruto_prefix(block, length, HENGARUTO_NONE) == 0);
    }
    CHECK(hengaruto_check(bytes_of(""), 0) == HENGARUTO_BAD_BLOCK);
    CHECK(hengaruto_check(tree.bytes, tree.length - 1) == HENGARUTO_BAD_BLOCK);
    CHECK(hengaruto_node_count(bytes_of(""), 0) == 0);
    CHECK(hengaruto_quirks(bytes_of(""), 0) == 0);
    free(tree.bytes);
}

#define NODES 4

/* Nodes that are elements, with the columns of a block. A kind of 0 ends them. */
struct nodes {
    const char *what;
    uint32_t kinds[NODES], parents[NODES], ends[NODES];
};

static size_t put(unsigned char *bytes, size_t at, uint32_t word)
{
    for (int i = 0; i < 4; i++) {
        bytes[at + i] = (unsigned char)(word >> 8 * i);
    }
    return at + 4;
}

/* A block of these nodes, in which the name of all elements is p. Returns its length. */
static size_t block_of(const struct nodes *nodes, unsigned char *bytes)
{
    size_t count = 0, at = 4;

    while (count < NODES && nodes->kinds[count] != 0) {
        count++;
    }
    memcpy(bytes, "HGT1", 4);
    at = put(bytes, at, (uint32_t)(4 * (13 + 5 * count) + 1));
    at = put(bytes, at, 0);
    at = put(bytes, at, (uint32_t)count);
    at = put(bytes, at, 0);
    at = put(bytes, at, 1);
    at = put(bytes, at, 1);
    at = put(bytes, at, 0);
    at = put(bytes, at, 0);
    for (size_t i = 0; i < count; i++) {
        at = put(bytes, at, nodes->kinds[i]);
    }
    for (size_t i = 0; i < count; i++) {
        at = put(bytes, at, nodes->parents[i]);
    }
    for (size_t i = 0; i < count; i++) {
        at = put(bytes, at, nodes->ends[i]);
    }
    for (size_t i = 0; i < 2 * (count + 1); i++) {
        at = put(bytes, at, 0);
    }
    at = put(bytes, at, HENGARUTO_NS_HTML);
    at = put(bytes, at, 1);
    bytes[at] = 'p';
    return at + 1;
}

/* Blocks whose columns fit, and whose nodes are a tree in tree order only in the first. */
static void trees(void)
{
    static const struct nodes blocks[] = {
        {"a tree", {9, 1, 1}, {HENGARUTO_NONE, 0, 1}, {3, 3, 3}},
        {"a parent that isn't the innermost node around", {9, 1, 1}, {HENGARUTO_NONE, 0, 0}, {3, 3, 3}},
        {"nodes that cross", {9, 1, 1, 1}, {HENGARUTO_NONE, 0, 0, 0}, {4, 3, 4, 4}},
        {"a text with a child", {9, 3, 1}, {HENGARUTO_NONE, 0, 1}, {3, 3, 3}},
        {"an unknown kind", {9, 5}, {HENGARUTO_NONE, 0}, {2, 2}},
        {"a fragment after an element", {9, 1, 11}, {HENGARUTO_NONE, 0, 0}, {3, 2, 3}},
    };
    unsigned char bytes[200];

    for (size_t i = 0; i < sizeof blocks / sizeof *blocks; i++) {
        size_t length = block_of(&blocks[i], bytes);
        uint32_t status = hengaruto_check(bytes, length);

        if (status != (i == 0 ? HENGARUTO_OK : HENGARUTO_BAD_BLOCK)) {
            printf("%s: status %u\n", blocks[i].what, status);
            CHECK(0);
        }
    }
}

int main(void)
{
    parse();
    trees();
    options();
    fragments();
    html();
    selects();
    selects_all();
    numbers();
    refusals();
    pages();
    listings();
    policies();
    bad_policies();
    encodings();
    bytes();
    places();
    names();
    rows();
    by_name();
    texts();
    wrong();
    return ended("calls");
}
