/* faults.c: what once went wrong, in functions whose names say it. */
#include "testing.h"

/* The status of a selection of the document's elements, and how many there are. */
static uint32_t selected(const char *page, const char *selector, size_t *count)
{
    struct given tree = parsed(page, 0), found = {NULL, 0};
    uint32_t status = hengaruto_select(tree.bytes, tree.length, 0, bytes_of(selector), strlen(selector), &found.bytes, &found.length);

    *count = found.length / 4;
    if (status == HENGARUTO_BAD_SELECTOR) {
        CHECK(found.bytes != NULL && found.length > 0);
    }
    free(found.bytes);
    free(tree.bytes);
    return status;
}

/* Without scripting the content of a noscript is elements, so its texts are escaped (HTML standard, section 13.3). */
static void text_in_noscript_was_written_as_an_element(void)
{
    struct given tree = parsed("<body><noscript>&lt;img src=x onerror=alert(1)&gt;</noscript>", 0), html;

    REQUIRE(hengaruto_html(tree.bytes, tree.length, 0, 0, &html.bytes, &html.length) == HENGARUTO_OK);
    CHECK(gave(html, "<html><head></head><body><noscript>&lt;img src=x onerror=alert(1)&gt;</noscript></body></html>"));
    free(tree.bytes);
}

/* It is shown without scripting (section 15.3.1). */
static void content_of_noscript_was_missing_from_text_and_links(void)
{
    const char *page = "<body><noscript><a href=x>y</a></noscript>";
    struct given given;

    CHECK(hengaruto_page_text(bytes_of(page), strlen(page), 0, &given.bytes, &given.length) == HENGARUTO_OK && gave(given, "y\n"));
    REQUIRE(hengaruto_page_links(bytes_of(page), strlen(page), &given.bytes, &given.length) == HENGARUTO_OK);
    CHECK(given.length == 4 && memcmp(given.bytes, "x\0y\0", 4) == 0);
    free(given.bytes);
}

/* The end of the text closes them (CSS Syntax Module Level 3, sections 5.4.8, 5.4.9 and 4.3.5). */
static void open_brackets_and_strings_made_a_selector_invalid(void)
{
    size_t count;

    CHECK(selected("<p title=a>x", "[title", &count) == HENGARUTO_OK && count == 1);
    CHECK(selected("<p title=a>x", "p:not(b", &count) == HENGARUTO_OK && count == 1);
    CHECK(selected("<p title=a>x", "[title=\"a", &count) == HENGARUTO_OK && count == 1);
}

/* 32 levels are allowed, and matching a long selector needs no more stack than a short one. */
static void nested_and_long_selectors_overflowed_the_stack(void)
{
    char nested[499 * 6 + 2] = "", longest[499 * 2 + 2] = "";
    size_t count;

    for (int i = 0; i < 499; i++) {
        strcat(nested, ":not(");
        strcat(longest, "p>");
    }
    strcat(nested, "p");
    strcat(longest, "p");
    CHECK(selected("<p>x", nested, &count) == HENGARUTO_BAD_SELECTOR);
    CHECK(selected("<p>x", longest, &count) == HENGARUTO_OK && count == 0);
}

/* The item is removed, since its start tag would end an item of the page around it (section 13.2.6.4.7). */
static void cleaned_item_ended_an_item_of_the_page(void)
{
    struct given given;

    CHECK(hengaruto_clean(bytes_of("<li>a"), 5, &given.bytes, &given.length) == HENGARUTO_OK && gave(given, "a"));
}

int main(void)
{
    text_in_noscript_was_written_as_an_element();
    content_of_noscript_was_missing_from_text_and_links();
    open_brackets_and_strings_made_a_selector_invalid();
    nested_and_long_selectors_overflowed_the_stack();
    cleaned_item_ended_an_item_of_the_page();
    return ended("faults");
}
