/* fuzz.c [FILE..]: makes the call of each case, with 96 kB of stack, and 192 kB for selectors. Without a file the cases come from standard
 * input, each after its length in 4 bytes, least significant first; a dot is printed after each.
 *
 * A case is a letter, which names the call, a byte of options, the length of an argument in 2 bytes, the argument, and a page or a block. The
 * bytes that a call reads end where the memory ends, so that a read after them ends the program. So does a status that the header doesn't
 * document for the call, and a case that takes longer than the seconds in SECONDS, 10 by default. */
#define _DEFAULT_SOURCE
#include "reads.h"
#include <pthread.h>
#include <sys/mman.h>
#include <unistd.h>

#define LARGEST (1u << 20)
#define STACK ((size_t)96 * 1024)
#define DEEP_STACK ((size_t)192 * 1024)
/* No more nodes of a tree are read. */
#define NODES 2000u

/* The bytes of a case, at the end of mapped memory. */
struct area {
    unsigned char *bytes, *start;
    size_t length, mapped;
};

static unsigned char letter, option;
static struct area argument, page;
static struct given tree;

static struct area area_of(const unsigned char *bytes, size_t length)
{
    size_t unit = (size_t)sysconf(_SC_PAGESIZE), used = (length / unit + 1) * unit;
    struct area area;

    area.length = length;
    area.mapped = used + unit;
    area.start = mmap(NULL, area.mapped, PROT_READ | PROT_WRITE, MAP_PRIVATE | MAP_ANONYMOUS, -1, 0);
    REQUIRE(area.start != MAP_FAILED && mprotect(area.start + used, unit, PROT_NONE) == 0);
    area.bytes = area.start + used - length;
    memcpy(area.bytes, bytes, length);
    return area;
}

static void drop(struct area area)
{
    munmap(area.start, area.mapped);
}

static void run_with(size_t stack, void *(*run)(void *))
{
    pthread_attr_t attributes;
    pthread_t thread;

    REQUIRE(pthread_attr_init(&attributes) == 0 && pthread_attr_setstacksize(&attributes, stack) == 0);
    REQUIRE(pthread_create(&thread, &attributes, run, NULL) == 0 && pthread_join(thread, NULL) == 0);
    pthread_attr_destroy(&attributes);
}

/* Reads the result of a call that succeeded, and frees it. */
static void take(struct given given)
{
    read_bytes(given.bytes, 0, given.length);
    REQUIRE(given.bytes[given.length] == 0);
    free(given.bytes);
}

static void write_node(const unsigned char *block, size_t length, uint32_t node)
{
    struct given html;
    uint32_t status = hengaruto_html(block, length, node, option & 1u, &html.bytes, &html.length);

    REQUIRE(status == HENGARUTO_OK || status == HENGARUTO_NO_NODE || status == HENGARUTO_BAD_BLOCK);
    if (status == HENGARUTO_OK) {
        take(html);
    }
}

/* The reads of a block of any bytes, also with numbers that no node has. */
static void read_block(const unsigned char *block, size_t length)
{
    uint32_t count = hengaruto_node_count(block, length);
    const uint32_t others[] = {count, count + 1, 0x3fffffffu, 0x40000000u, 0x7fffffffu, 0x80000000u, 0xfffffffeu, 0xffffffffu};

    sum += hengaruto_check(block, length);
    for (uint32_t node = 0; node < count && node < NODES; node++) {
        read_all_of(block, length, node);
        step(block, length, node);
    }
    for (size_t i = 0; i < sizeof others / sizeof *others; i++) {
        read_all_of(block, length, others[i]);
        step(block, length, others[i]);
    }
    write_node(block, length, 0);
    write_node(block, length, option);
    REQUIRE(failures == 0);
}

/* Makes the tree of the page: that of a document, or of a fragment in the context that the argument names. */
static void parse(void)
{
    uint32_t status, space = option % 8u;

    if (letter != 'f') {
        status = hengaruto_parse(page.bytes, page.length, option & 3u, &tree.bytes, &tree.length);
        REQUIRE(status == HENGARUTO_OK);
    } else {
        status = hengaruto_parse_fragment(page.bytes, page.length, argument.bytes, argument.length, space, option >> 3 & 3u, &tree.bytes,
                                          &tree.length);
        REQUIRE(status == HENGARUTO_OK || status == HENGARUTO_BAD_ARGUMENT);
    }
    if (status != HENGARUTO_OK) {
        tree.bytes = NULL;
        return;
    }
    REQUIRE(hengaruto_check(tree.bytes, tree.length) == HENGARUTO_OK && tree.bytes[tree.length] == 0);
}

/* Makes the page a block: with `b` it is one already, with `m` it is the block of the page, with changes that the argument lists. */
static void make_block(void)
{
    size_t kept = option & 128u ? 36 : 0;

    parse();
    drop(page);
    page = area_of(tree.bytes, tree.length);
    free(tree.bytes);
    for (size_t i = 0; i + 2 < argument.length; i += 3) {
        size_t at = (argument.bytes[i] + 256u * argument.bytes[i + 1]) % page.length;

        if (at >= kept) {
            page.bytes[at] = argument.bytes[i + 2];
        }
    }
    if (option & 64u && page.length > 0) {
        struct area shorter = area_of(page.bytes, page.length - 1 - option % 32u % page.length);

        drop(page);
        page = shorter;
    }
}

/* Cleaning the result again doesn't change it. */
static void clean(void)
{
    struct given once, twice;

    REQUIRE(hengaruto_clean(page.bytes, page.length, &once.bytes, &once.length) == HENGARUTO_OK);
    REQUIRE(hengaruto_clean(once.bytes, once.length, &twice.bytes, &twice.length) == HENGARUTO_OK);
    REQUIRE(once.length == twice.length && memcmp(once.bytes, twice.bytes, once.length) == 0);
    take(once);
    take(twice);
}

/* As above, by the policy that the argument has. */
static void clean_by(void)
{
    struct given once, twice;
    uint32_t status = hengaruto_clean_by(page.bytes, page.length, argument.bytes, argument.length, &once.bytes, &once.length);

    REQUIRE(status == HENGARUTO_OK || status == HENGARUTO_BAD_POLICY);
    if (status == HENGARUTO_OK) {
        REQUIRE(hengaruto_clean_by(once.bytes, once.length, argument.bytes, argument.length, &twice.bytes, &twice.length) == HENGARUTO_OK);
        REQUIRE(once.length == twice.length && memcmp(once.bytes, twice.bytes, once.length) == 0);
        take(twice);
    } else {
        REQUIRE(once.length > 0);
    }
    take(once);
}

/* The name of an encoding is a label, and ASCII. */
static void encoding(void)
{
    struct given name, text;

    REQUIRE(hengaruto_encoding(page.bytes, page.length, argument.bytes, argument.length, &name.bytes, &name.length) == HENGARUTO_OK);
    for (size_t i = 0; i < name.length; i++) {
        REQUIRE(name.bytes[i] > 32 && name.bytes[i] < 127);
    }
    if (name.length > 0) {
        REQUIRE(hengaruto_decode(page.bytes, page.length, name.bytes, name.length, &text.bytes, &text.length) == HENGARUTO_OK);
        take(text);
    }
    take(name);
}

/* The tree is that of the page's text. */
static void parse_bytes(void)
{
    static const unsigned char utf8[] = "utf-8";
    struct given name, text, same;
    uint32_t status = hengaruto_parse_bytes(page.bytes, page.length, argument.bytes, argument.length, option & 3u, &tree.bytes, &tree.length);

    REQUIRE(status == HENGARUTO_OK || status == HENGARUTO_BAD_ARGUMENT);
    if (status != HENGARUTO_OK) {
        tree.bytes = NULL;
        return;
    }
    REQUIRE(hengaruto_encoding(page.bytes, page.length, argument.bytes, argument.length, &name.bytes, &name.length) == HENGARUTO_OK);
    REQUIRE(hengaruto_decode(page.bytes, page.length, name.length > 0 ? name.bytes : utf8, name.length > 0 ? name.length : 5, &text.bytes,
                             &text.length) == HENGARUTO_OK);
    REQUIRE(hengaruto_parse(text.bytes, text.length, option & 3u, &same.bytes, &same.length) == HENGARUTO_OK);
    REQUIRE(tree.length == same.length && memcmp(tree.bytes, same.bytes, same.length) == 0);
    free(same.bytes);
    take(text);
    take(name);
}

static void decode(void)
{
    struct given text;
    uint32_t status = hengaruto_decode(page.bytes, page.length, argument.bytes, argument.length, &text.bytes, &text.length);

    REQUIRE(status == HENGARUTO_OK || status == HENGARUTO_BAD_ARGUMENT);
    if (status == HENGARUTO_OK) {
        take(text);
    }
}

/* The calls that make a text of a page. */
static void write_page(void)
{
    struct given text;

    REQUIRE(hengaruto_page_text(page.bytes, page.length, option, &text.bytes, &text.length) == HENGARUTO_OK);
    take(text);
    REQUIRE(hengaruto_page_links(page.bytes, page.length, &text.bytes, &text.length) == HENGARUTO_OK);
    take(text);
    REQUIRE(hengaruto_page_meta(page.bytes, page.length, &text.bytes, &text.length) == HENGARUTO_OK);
    take(text);
    REQUIRE(hengaruto_page_outline(page.bytes, page.length, &text.bytes, &text.length) == HENGARUTO_OK);
    take(text);
    REQUIRE(hengaruto_errors(page.bytes, page.length, &text.bytes, &text.length) == HENGARUTO_OK);
    take(text);
}

static void *call(void *nothing)
{
    tree.bytes = NULL;
    switch (letter) {
    case 'p':
    case 'f':
    case 's':
        parse();
        break;
    case 'm':
        make_block();
        break;
    case 'c':
        clean();
        break;
    case 'o':
        clean_by();
        break;
    case 'e':
        encoding();
        break;
    case 'd':
        decode();
        break;
    case 'y':
        parse_bytes();
        break;
    case 't':
        write_page();
        break;
    default:
        break;
    }
    if (tree.bytes != NULL && letter != 'm') {
        read_block(tree.bytes, tree.length);
    }
    if (letter == 'm' || letter == 'b') {
        read_block(page.bytes, page.length);
    }
    return nothing;
}

/* Elements are found once each, in the order of their numbers. */
static void check_found(struct given found, uint32_t count)
{
    uint32_t last = 0;

    REQUIRE(found.length % 4 == 0);
    for (size_t i = 0; i < found.length; i += 4) {
        uint32_t node = found.bytes[i] + 256u * found.bytes[i + 1] + 65536u * found.bytes[i + 2] + 16777216u * found.bytes[i + 3];

        REQUIRE(node > last && node < count);
        last = node;
    }
}

static void *select_elements(void *nothing)
{
    int is_tree = letter == 's';
    const unsigned char *block = is_tree ? tree.bytes : page.bytes, *selector = argument.bytes;
    size_t length = is_tree ? tree.length : page.length, selector_length = argument.length;
    uint32_t status, count = hengaruto_node_count(block, length);
    struct given found;

    if (letter == 'm') {
        selector = bytes_of("p b, :not(i), [id]");
        selector_length = 18;
    }
    status = hengaruto_select(block, length, option % (count + 1u), selector, selector_length, &found.bytes, &found.length);
    REQUIRE(status == HENGARUTO_OK || status == HENGARUTO_NO_NODE || status == HENGARUTO_BAD_SELECTOR || status == HENGARUTO_BAD_ARGUMENT ||
            (status == HENGARUTO_BAD_BLOCK && !is_tree));
    if (status == HENGARUTO_OK) {
        check_found(found, count);
    }
    if (status == HENGARUTO_OK || status == HENGARUTO_BAD_SELECTOR) {
        take(found);
    }
    return nothing;
}

static void run_case(const unsigned char *bytes, size_t length)
{
    size_t count;

    if (length < 4) {
        return;
    }
    letter = bytes[0];
    option = bytes[1];
    count = bytes[2] + 256u * bytes[3];
    count = count < length - 4 ? count : length - 4;
    argument = area_of(bytes + 4, count);
    page = area_of(bytes + 4 + count, length - 4 - count);
    run_with(STACK, call);
    if (letter == 's' || letter == 'm' || letter == 'b') {
        run_with(DEEP_STACK, select_elements);
    }
    if (letter != 'm') {
        free(tree.bytes);
    }
    drop(argument);
    drop(page);
}

static int run_all(FILE *cases, unsigned char *bytes, unsigned seconds)
{
    unsigned char head[4];

    while (fread(head, 1, 4, cases) == 4) {
        size_t length = head[0] + 256u * head[1] + 65536u * head[2];

        REQUIRE(head[3] == 0 && length <= LARGEST && fread(bytes, 1, length, cases) == length);
        alarm(seconds);
        run_case(bytes, length);
        alarm(0);
        REQUIRE(putchar('.') == '.' && fflush(stdout) == 0);
    }
    return EXIT_SUCCESS;
}

int main(int count, char **words)
{
    const char *given = getenv("SECONDS");
    unsigned seconds = given == NULL ? 10 : (unsigned)atoi(given);
    unsigned char *bytes = malloc(LARGEST);

    REQUIRE(bytes != NULL);
    if (count == 1) {
        count = run_all(stdin, bytes, seconds);
        free(bytes);
        return count;
    }
    for (int i = 1; i < count; i++) {
        FILE *file = fopen(words[i], "rb");

        REQUIRE(file != NULL);
        alarm(seconds);
        run_case(bytes, fread(bytes, 1, LARGEST, file));
        alarm(0);
        fclose(file);
    }
    free(bytes);
    return EXIT_SUCCESS;
}
