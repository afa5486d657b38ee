/* testing.h: shared by the tests. */
#ifndef TESTS_TESTING_H
#define TESTS_TESTING_H

#include <hengaruto.h>
#include <stdio.h>
#include <stdlib.h>
#include <string.h>

static int failures;
static int checks;

/* Reports a condition that doesn't hold, and continues. Only the first twenty are reported. */
#define CHECK(condition)                                                              \
    do {                                                                              \
        checks++;                                                                     \
        if (!(condition)) {                                                           \
            failures++;                                                               \
            if (failures <= 20) {                                                     \
                fprintf(stderr, "%s:%d: %s\n", __FILE__, __LINE__, #condition);       \
            }                                                                         \
        }                                                                             \
    } while (0)

/* Ends the program if the condition doesn't hold: continuing makes no sense then. */
#define REQUIRE(condition)                                                            \
    do {                                                                              \
        if (!(condition)) {                                                           \
            fprintf(stderr, "%s:%d: %s\n", __FILE__, __LINE__, #condition);           \
            exit(EXIT_FAILURE);                                                       \
        }                                                                             \
    } while (0)

/* The result of a call. */
struct given {
    unsigned char *bytes;
    size_t length;
};

static const unsigned char *bytes_of(const char *text)
{
    return (const unsigned char *)text;
}

static inline struct given parsed(const char *page, uint32_t options)
{
    struct given tree;

    REQUIRE(hengaruto_parse(bytes_of(page), strlen(page), options, &tree.bytes, &tree.length) == HENGARUTO_OK);
    return tree;
}

/* Returns true if the bytes are this text. */
static inline int is_text(const unsigned char *bytes, size_t length, const char *text)
{
    return length == strlen(text) && memcmp(bytes, text, length) == 0;
}

/* Returns true if the result of a call is this text, followed by a NUL. Frees the result. */
static inline int gave(struct given given, const char *text)
{
    int same = is_text(given.bytes, given.length, text) && given.bytes[given.length] == 0;

    if (!same) {
        fprintf(stderr, "given: %.*s\nwanted: %s\n", (int)given.length, (const char *)given.bytes, text);
    }
    free(given.bytes);
    return same;
}

static inline int ended(const char *name)
{
    printf("%s: %d checks, %d failed\n", name, checks, failures);
    return failures == 0 && checks > 0 ? EXIT_SUCCESS : EXIT_FAILURE;
}

#endif
