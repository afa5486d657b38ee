/* misuse.c [ROUNDS]: truncated, changed and foreign blocks, and wrong numbers. Every call returns, every walk ends, and nothing is read
 * outside of a block. Each block is allocated separately, so that valgrind sees a read outside of it. */
#include "reads.h"

static const char PAGE[] = "<!doctype html><title>t</title><p class=a id=b>one <b>two</b><!--c--><svg xlink:href=x><a/></svg>"
                           "<template><i>x</i></template><?y?><ul><li>1<li>2";

static const char SELECTOR[] = "p.a b, [id], li:nth-child(2n)";
static const char SELECTORS[] = "p.a b\0[id]\0li:nth-child(2n)";

static uint64_t state = 88172645463325252u;

/* Pseudorandom numbers, the same in each run. */
static uint32_t any(void)
{
    state ^= state << 13;
    state ^= state >> 7;
    state ^= state << 17;
    return (uint32_t)(state >> 16);
}

/* Reads the result of a call, which has this status. */
static void take(uint32_t status, uint32_t wanted, const struct given *given)
{
    CHECK(status == wanted);
    if (status == HENGARUTO_OK) {
        read_bytes(given->bytes, 0, given->length + 1);
        free(given->bytes);
    }
}

/* The calls that read a whole block. A call that selects also refuses a block that hengaruto_check rejects. */
static void look(const unsigned char *block, size_t length, uint32_t node)
{
    struct given given;
    uint32_t number = HENGARUTO_NONE, status = hengaruto_html(block, length, node, any() & 1, &given.bytes, &given.length);

    CHECK(status == HENGARUTO_OK || status == HENGARUTO_NO_NODE || status == HENGARUTO_BAD_BLOCK);
    take(status, status, &given);
    if (status == HENGARUTO_OK) {
        status = hengaruto_check(block, length);
    }
    take(hengaruto_select(block, length, node, bytes_of(SELECTOR), sizeof SELECTOR - 1, &given.bytes, &given.length), status, &given);
    take(hengaruto_select_all(block, length, node, bytes_of(SELECTORS), sizeof SELECTORS - 1, &given.bytes, &given.length), status, &given);
    CHECK(hengaruto_matches(block, length, node, bytes_of(SELECTOR), sizeof SELECTOR - 1, &number) == status);
    CHECK(hengaruto_select_first(block, length, node, bytes_of(SELECTOR), sizeof SELECTOR - 1, &number) == status);
    CHECK(hengaruto_closest(block, length, node, bytes_of(SELECTOR), sizeof SELECTOR - 1, &number) == status);
    CHECK(status != HENGARUTO_OK || number == HENGARUTO_NONE || hengaruto_kind(block, length, number) == HENGARUTO_ELEMENT);
}

static unsigned char *copied(const unsigned char *bytes, size_t length)
{
    unsigned char *copy = malloc(length > 0 ? length : 1);

    REQUIRE(copy != NULL);
    memcpy(copy, bytes, length);
    return copy;
}

static void wrong_numbers(struct given tree)
{
    const uint32_t numbers[] = {0xffffffffu, 0xfffffffeu, 0x80000000u, 0x7fffffffu, 1000000u, 0x40000000u, 0x3fffffffu, 0x33333333u};
    unsigned char *block = copied(tree.bytes, tree.length);
    uint32_t nodes = hengaruto_node_count(block, tree.length);

    for (uint32_t number = 0; number < nodes + 20; number++) {
        read_all_of(block, tree.length, number);
        step(block, tree.length, number);
        look(block, tree.length, number);
    }
    for (size_t i = 0; i < sizeof numbers / sizeof *numbers; i++) {
        struct given none;

        read_all_of(block, tree.length, numbers[i]);
        step(block, tree.length, numbers[i]);
        CHECK(hengaruto_html(block, tree.length, numbers[i], 1, &none.bytes, &none.length) == HENGARUTO_NO_NODE);
        CHECK(hengaruto_select(block, tree.length, numbers[i], bytes_of("p"), 1, &none.bytes, &none.length) == HENGARUTO_NO_NODE);
    }
    free(block);
}

static void cut_blocks(struct given tree)
{
    for (size_t length = 0; length < tree.length; length++) {
        unsigned char *block = copied(tree.bytes, length);

        CHECK(hengaruto_check(block, length) == HENGARUTO_BAD_BLOCK);
        read_all_of(block, length, any() % 40);
        step(block, length, any() % 40);
        look(block, length, any() % 40);
        free(block);
    }
}

static void changed_blocks(struct given tree, int rounds)
{
    int trees = 0;

    for (int round = 0; round < rounds; round++) {
        unsigned char *block = copied(tree.bytes, tree.length);

        for (uint32_t i = any() % 8 + 1; i > 0; i--) {
            block[any() % tree.length] = (unsigned char)any();
        }
        if (round % 2 == 1) {
            memcpy(block, tree.bytes, 36); /* the head is intact */
        }
        trees += hengaruto_check(block, tree.length) == HENGARUTO_OK;
        for (uint32_t number = 0; number < 40; number++) {
            read_all_of(block, tree.length, number);
            step(block, tree.length, number);
        }
        for (int i = 0; i < 3; i++) {
            look(block, tree.length, any() % 40);
        }
        free(block);
    }
    printf("misuse: %d of %d changed blocks are still trees\n", trees, rounds);
}

/* Bytes that no call made, but with the letters HGT1 and the right length. */
static void foreign_blocks(int rounds)
{
    for (int round = 0; round < rounds; round++) {
        size_t length = 36 + any() % 400;
        unsigned char *block = malloc(length);

        REQUIRE(block != NULL);
        for (size_t i = 0; i < length; i++) {
            block[i] = (unsigned char)(any() % 4 == 0 ? any() : 0);
        }
        memcpy(block, "HGT1", 4);
        for (int i = 0; i < 4; i++) {
            block[4 + i] = (unsigned char)(length >> 8 * i);
        }
        for (uint32_t number = 0; number < 10; number++) {
            read_all_of(block, length, number);
            step(block, length, number);
        }
        look(block, length, 0);
        free(block);
    }
}

int main(int argc, char **argv)
{
    int rounds = argc > 1 ? atoi(argv[1]) : 2000;
    struct given tree = parsed(PAGE, 0);

    wrong_numbers(tree);
    cut_blocks(tree);
    changed_blocks(tree, rounds);
    foreign_blocks(rounds);
    free(tree.bytes);
    printf("misuse: the sum is %llx\n", (unsigned long long)sum);
    return ended("misuse");
}
