/* clean.c: prints the HTML that the default policy allows of an untrusted fragment.
 *
 *     cc clean.c $(pkg-config --cflags --libs hengaruto) -o clean
 *     ./clean < comment.html
 */
#include <hengaruto.h>
#include <stdio.h>
#include <stdlib.h>

#include "input.h"

int main(void)
{
    size_t length, left;
    unsigned char *fragment = read_all(stdin, &length), *cleaned;

    if (fragment == NULL) {
        perror("clean: cannot read");
        return EXIT_FAILURE;
    }
    uint32_t status = hengaruto_clean(fragment, length, &cleaned, &left);
    free(fragment);
    if (status != HENGARUTO_OK) {
        fputs("clean: out of memory\n", stderr);
        return EXIT_FAILURE;
    }
    size_t written = fwrite(cleaned, 1, left, stdout);
    free(cleaned);
    if (written != left || fflush(stdout) != 0) {
        perror("clean: cannot write");
        return EXIT_FAILURE;
    }
    return EXIT_SUCCESS;
}
