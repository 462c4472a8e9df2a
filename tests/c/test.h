/* What the test files of this folder share, in C and in C++. */
#ifndef TEST_H
#define TEST_H

#ifdef __cplusplus
extern "C" {
#endif

#define COUNT(list) (sizeof(list) / sizeof((list)[0]))

/* Prints the test's name and whether it passed, and counts it. */
void test(const char *name, int ok);

/* The tests of stack.c. */
void test_stack(void);

/* The tests of unread.c. */
void test_unread(void);

/* The tests of header.cpp. */
void test_header(void);

/* The test of example.c. */
void test_example(void);

#ifdef __cplusplus
}
#endif

#endif
