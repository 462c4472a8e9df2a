/*
 * The example of a circuit that grows prints what stands beside it: run puts what examples/grow.c prints into target/c/grow.out, and this
 * must be examples/grow.out, byte by byte.
 */
#include <stdio.h>

#include "test.h"

static int same_files(const char *found_name, const char *expected_name)
{
    FILE *found = fopen(found_name, "rb"), *expected = fopen(expected_name, "rb");
    int same = found != NULL && expected != NULL, byte = 0;
    for (size_t count = 0; same && byte != EOF; count++) {
        byte = getc(expected);
        same = getc(found) == byte && (byte != EOF || count > 0);
    }
    if (found != NULL)
        fclose(found);
    if (expected != NULL)
        fclose(expected);
    return same;
}

void test_example(void)
{
    test("examples/grow.c prints examples/grow.out", same_files("target/c/grow.out", "examples/grow.out"));
}
