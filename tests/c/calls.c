/*
 * Every exported call on the square case of document 01, or on a small circuit where that leaves no room for what the call does, with the
 * words that it must give, and a refusal of each kind that a call has: its number, its position, and that it leaves the memory of its
 * results, the session and the circuit as they were, but for the verdict, which refused openings set to none. Prints a line for each
 * test and last the counts; exits with 1 where a test failed.
 */
#include "../../include/varuna.h" /* first, since it must need no other header */

#include <stdio.h>
#include <string.h>

#include "test.h"

#define P VARUNA_MODULUS

static int passed, failed;

void test(const char *name, int ok)
{
    printf("test %s: %s\n", name, ok ? "ok" : "FAILED");
    if (ok)
        passed++;
    else
        failed++;
}

static int same(const uint32_t *found, const uint32_t *expected, size_t count)
{
    return memcmp(found, expected, count * sizeof(uint32_t)) == 0;
}

/* A done call returns 0 and sets the position to 0; a refused one gives its number and position. */
#define NOWHERE ((size_t)99)

static int is_done(uint32_t number, size_t position)
{
    return number == VARUNA_DONE && position == 0;
}

static int is_refused(uint32_t number, size_t position, uint32_t expected_number, size_t expected_position)
{
    return number == expected_number && position == expected_position;
}

/* An empty list: a pointer that is not null. */
static uint32_t none[1];

/* The header's constants are document 01's numbers. */

static void test_constants(void)
{
    static const uint32_t refusals[] = {
        VARUNA_DONE,           VARUNA_REFUSED_TURN, VARUNA_REFUSED_END,   VARUNA_REFUSED_TRAILER, VARUNA_REFUSED_SIZE,
        VARUNA_REFUSED_LENGTH, VARUNA_REFUSED_WORD, VARUNA_REFUSED_ENTRY, VARUNA_REFUSED_MASK,    VARUNA_REFUSED_ASSIGNMENT,
        VARUNA_REFUSED_CHALLENGE, VARUNA_REFUSED_DECLARED, VARUNA_REFUSED_INVERSE, VARUNA_REFUSED_CONSTANT, VARUNA_REFUSED_PLACE,
        VARUNA_REFUSED_BLINDING,
    };
    static const uint32_t sections[VARUNA_SECTIONS] = {
        VARUNA_SECTION_W, VARUNA_SECTION_M,  VARUNA_SECTION_H0, VARUNA_SECTION_S,  VARUNA_SECTION_G1, VARUNA_SECTION_H1,
        VARUNA_SECTION_O, VARUNA_SECTION_GA, VARUNA_SECTION_GB, VARUNA_SECTION_GC, VARUNA_SECTION_H2,
    };
    char version[20];
    int in_order = COUNT(refusals) == 16;
    for (uint32_t i = 0; i < COUNT(refusals); i++)
        in_order = in_order && refusals[i] == i;
    test("the numbers of refusals", in_order);
    in_order = 1;
    for (uint32_t i = 0; i < COUNT(sections); i++)
        in_order = in_order && sections[i] == i;
    test("the numbers of sections", in_order);
    test("p and the bounds", VARUNA_MODULUS == (UINT32_C(15) << 27) + 1 && VARUNA_MAX_SIZE == 1024 && VARUNA_ENTRY_WORDS == 3 &&
                                 VARUNA_MAX_ENTRY_LIST == 3 * 1024 && VARUNA_MAX_COEFFICIENTS == 2048);
    test("the numbers of matrices", VARUNA_MATRIX_A == 0 && VARUNA_MATRIX_B == 1 && VARUNA_MATRIX_C == 2);
    test("the places of a circuit's words", VARUNA_CIRCUIT_WORDS == 12294 && VARUNA_TOTAL_PLACE(0) == 3 && VARUNA_COUNTS_PLACE(0) == 4 &&
                                                VARUNA_ENTRIES_PLACE(0) == 1028 && VARUNA_TOTAL_PLACE(1) == 4100 &&
                                                VARUNA_ENTRIES_PLACE(2) + VARUNA_MAX_ENTRY_LIST == VARUNA_CIRCUIT_WORDS);
    snprintf(version, sizeof version, "%d.%d.%d", VARUNA_VERSION_MAJOR, VARUNA_VERSION_MINOR, VARUNA_VERSION_PATCH);
    test("the version", strcmp(version, VARUNA_VERSION) == 0);
}

/* Field words. */

typedef uint32_t (*operation)(uint32_t, uint32_t, uint32_t *, size_t *);

static int gives_word(operation f, uint32_t a, uint32_t b, uint32_t expected)
{
    uint32_t result = 77;
    size_t position = NOWHERE;
    uint32_t number = f(a, b, &result, &position);
    return is_done(number, position) && result == expected;
}

static int refuses_as(operation f, uint32_t a, uint32_t b, uint32_t expected_number, size_t expected_position)
{
    uint32_t result = 77;
    size_t position = NOWHERE;
    uint32_t number = f(a, b, &result, &position);
    return is_refused(number, position, expected_number, expected_position) && result == 77;
}

static int refuses_word(operation f, uint32_t a, uint32_t b, size_t expected)
{
    return refuses_as(f, a, b, VARUNA_REFUSED_WORD, expected);
}

static uint32_t inverse_of(uint32_t a, uint32_t unused, uint32_t *result, size_t *position)
{
    (void)unused;
    return varuna_inverse(a, result, position);
}

static void test_words(void)
{
    test("add", gives_word(varuna_add, P - 1, 2, 1));
    test("add refuses word p", refuses_word(varuna_add, 1, P, 1) && refuses_word(varuna_add, P, P, 0));
    test("subtract", gives_word(varuna_subtract, 1, 2, P - 1));
    test("subtract refuses word p", refuses_word(varuna_subtract, 1, P, 1));
    test("multiply", gives_word(varuna_multiply, P - 1, P - 1, 1));
    test("multiply refuses word p", refuses_word(varuna_multiply, P, 1, 0));
    test("power", gives_word(varuna_power, 3, 4, 81) && gives_word(varuna_power, 2, UINT32_MAX, 1252951665));
    test("power refuses word p", refuses_word(varuna_power, P, 1, 0));
    test("inverse", gives_word(inverse_of, 2, 0, 1006632961) && gives_word(inverse_of, 1, 0, 1) && gives_word(inverse_of, P - 1, 0, P - 1));
    test("inverse refuses word p", refuses_word(inverse_of, P, 0, 0));
    test("inverse refuses 0", refuses_as(inverse_of, 0, 0, VARUNA_REFUSED_INVERSE, 0));
}

/* Domains and polynomials. */

static void test_domains(void)
{
    uint32_t elements[2] = {77, 78};
    const uint32_t kept[2] = {77, 78};
    const uint32_t expected[2] = {1, P - 1};
    size_t position = NOWHERE;
    uint32_t number = varuna_list_domain(3, elements, 2, &position);
    test("list_domain refuses size 3", is_refused(number, position, VARUNA_REFUSED_SIZE, 0) && same(elements, kept, 2));
    number = varuna_list_domain(1, elements, 2, &position);
    test("list_domain refuses a slice", is_refused(number, position, VARUNA_REFUSED_LENGTH, 0) && same(elements, kept, 2));
    number = varuna_list_domain(2, elements, 2, &position);
    test("list_domain", is_done(number, position) && same(elements, expected, 2));
}

static void test_evaluate(void)
{
    static uint32_t long_list[VARUNA_MAX_COEFFICIENTS + 1];
    const uint32_t m[4] = {1, 0, P - 1, 1};
    const uint32_t wrong[2] = {1, P};
    uint32_t result = 77;
    size_t position = NOWHERE;
    uint32_t number = varuna_evaluate(long_list, COUNT(long_list), 1, &result, &position);
    test("evaluate refuses 2049 words", is_refused(number, position, VARUNA_REFUSED_LENGTH, 0) && result == 77);
    number = varuna_evaluate(wrong, 2, 1, &result, &position);
    test("evaluate refuses a coefficient", is_refused(number, position, VARUNA_REFUSED_WORD, 1) && result == 77);
    number = varuna_evaluate(m, 4, P, &result, &position);
    test("evaluate refuses a point", is_refused(number, position, VARUNA_REFUSED_WORD, 4) && result == 77);
    number = varuna_evaluate(m, 4, 3, &result, &position);
    test("evaluate", is_done(number, position) && result == 19);
}

static int gives_part(uint32_t sum, uint32_t power, uint32_t point, const uint32_t *part, size_t part_length, uint32_t expected_sum,
                      uint32_t expected_power)
{
    uint32_t next_sum = 77, next_power = 78;
    size_t position = NOWHERE;
    uint32_t number = varuna_evaluate_part(sum, power, point, part, part_length, &next_sum, &next_power, &position);
    return is_done(number, position) && next_sum == expected_sum && next_power == expected_power;
}

static int refuses_part(uint32_t sum, uint32_t power, uint32_t point, const uint32_t *part, size_t part_length, uint32_t expected_number,
                        size_t expected_position)
{
    uint32_t next_sum = 77, next_power = 78;
    size_t position = NOWHERE;
    uint32_t number = varuna_evaluate_part(sum, power, point, part, part_length, &next_sum, &next_power, &position);
    return is_refused(number, position, expected_number, expected_position) && next_sum == 77 && next_power == 78;
}

/* The digits of 54,203, the lowest first. */
static const uint32_t digits[5] = {3, 0, 2, 4, 5};

static void test_evaluate_part(void)
{
    static uint32_t long_list[VARUNA_MAX_COEFFICIENTS + 1];
    const uint32_t wrong[2] = {1, P};
    for (size_t i = 0; i < COUNT(long_list); i++)
        long_list[i] = 1;
    test("evaluate_part", gives_part(0, 1, 10, digits, 3, 203, 1000) && gives_part(203, 1000, 10, digits + 3, 2, 54203, 100000));
    test("evaluate_part of an empty part", gives_part(5, 9, 10, none, 0, 5, 9) && gives_part(5, 9, 0, none, 0, 5, 9));
    test("evaluate_part at 0 and at p-1", gives_part(2, 5, 0, digits, 2, 17, 0) && gives_part(0, 1, P - 1, digits, 5, 6, P - 1));
    test("evaluate_part of 2048 words", gives_part(1, 2, 1, long_list, VARUNA_MAX_COEFFICIENTS, 4097, 2));
    test("evaluate_part refuses 2049 words", refuses_part(0, 1, 1, long_list, COUNT(long_list), VARUNA_REFUSED_LENGTH, 0) &&
                                                 refuses_part(P, P, P, long_list, COUNT(long_list), VARUNA_REFUSED_LENGTH, 0));
    test("evaluate_part refuses a sum", refuses_part(P, P, P, wrong, 2, VARUNA_REFUSED_WORD, 0));
    test("evaluate_part refuses a power", refuses_part(0, P, P, wrong, 2, VARUNA_REFUSED_WORD, 1));
    test("evaluate_part refuses a point", refuses_part(0, 1, P, wrong, 2, VARUNA_REFUSED_WORD, 2));
    test("evaluate_part refuses a coefficient", refuses_part(0, 1, 1, wrong, 2, VARUNA_REFUSED_WORD, 4) &&
                                                    refuses_part(0, 1, 1, wrong + 1, 1, VARUNA_REFUSED_WORD, 3));
}

/* A list in three parts, the second of them empty, with a refused one before each: sum and power stand in the same variables before and
 * after a call. */
static void test_parts(void)
{
    static const size_t starts[4] = {0, 3, 3, 5};
    static const uint32_t sums[3] = {203, 203, 54203}, powers[3] = {1000, 1000, 100000}, wrong[2] = {4, P};
    uint32_t sum = 0, power = 1, number, result = 77;
    size_t position = NOWHERE;
    int all = 1;
    for (size_t i = 0; i < 3; i++) {
        number = varuna_evaluate_part(sum, power, 10, wrong, 2, &sum, &power, &position);
        all = all && is_refused(number, position, VARUNA_REFUSED_WORD, 4);
        number = varuna_evaluate_part(sum, power, 10, digits + starts[i], starts[i + 1] - starts[i], &sum, &power, &position);
        all = all && is_done(number, position) && sum == sums[i] && power == powers[i];
    }
    number = varuna_evaluate(digits, 5, 10, &result, &position);
    test("a list in three parts", all && is_done(number, position) && result == sum);
}

/* 5,000 ones at 2, which are 2^5000 - 1: more words than a call takes at once. */
static void test_long_list(void)
{
    static uint32_t list[5000];
    uint32_t sum = 0, power = 1, number, expected = 77;
    size_t position = NOWHERE;
    int all = 1;
    for (size_t i = 0; i < COUNT(list); i++)
        list[i] = 1;
    for (size_t start = 0; start < COUNT(list); start += 1000) {
        number = varuna_evaluate_part(sum, power, 2, list + start, 1000, &sum, &power, &position);
        all = all && is_done(number, position);
    }
    number = varuna_power(2, 5000, &expected, &position);
    test("a list of 5000 words in parts", all && is_done(number, position) && power == expected && sum == expected - 1);
}

static void test_interpolate(void)
{
    const uint32_t values[2] = {9, 3};
    const uint32_t wrong[2] = {9, P};
    uint32_t coefficients[2] = {77, 78};
    const uint32_t kept[2] = {77, 78};
    const uint32_t expected[2] = {6, 3};
    size_t position = NOWHERE;
    uint32_t number = varuna_interpolate(2048, values, 2, coefficients, 2, &position);
    test("interpolate refuses size 2048", is_refused(number, position, VARUNA_REFUSED_SIZE, 0) && same(coefficients, kept, 2));
    number = varuna_interpolate(2, values, 1, coefficients, 2, &position);
    test("interpolate refuses a list", is_refused(number, position, VARUNA_REFUSED_LENGTH, 0) && same(coefficients, kept, 2));
    number = varuna_interpolate(2, values, 2, coefficients, 1, &position);
    test("interpolate refuses a slice", is_refused(number, position, VARUNA_REFUSED_LENGTH, 1) && same(coefficients, kept, 2));
    number = varuna_interpolate(2, wrong, 2, coefficients, 2, &position);
    test("interpolate refuses a word", is_refused(number, position, VARUNA_REFUSED_WORD, 1) && same(coefficients, kept, 2));
    number = varuna_interpolate(2, values, 2, coefficients, 2, &position);
    test("interpolate", is_done(number, position) && same(coefficients, expected, 2));
}

static int refuses_on_domain(uint32_t n, const uint32_t *coefficients, size_t coefficients_length, size_t values_length,
                             uint32_t expected_number, size_t expected_position)
{
    static uint32_t values[VARUNA_MAX_SIZE], kept[VARUNA_MAX_SIZE];
    size_t position = NOWHERE;
    for (size_t i = 0; i < VARUNA_MAX_SIZE; i++)
        values[i] = kept[i] = 77;
    uint32_t number = varuna_evaluate_on_domain(n, coefficients, coefficients_length, values, values_length, &position);
    return is_refused(number, position, expected_number, expected_position) && same(values, kept, VARUNA_MAX_SIZE);
}

/* Each refusal alone, and with those after it in the order. */
static void test_evaluate_on_domain(void)
{
    static uint32_t long_list[VARUNA_MAX_SIZE];
    const uint32_t coefficients[3] = {6, 3, 0};
    const uint32_t wrong[3] = {6, P, P};
    long_list[VARUNA_MAX_SIZE - 1] = P;
    test("evaluate_on_domain refuses size 2048", refuses_on_domain(2048, coefficients, 2, 2, VARUNA_REFUSED_SIZE, 0));
    test("evaluate_on_domain refuses sizes 0, 3 and 65538", refuses_on_domain(0, none, 0, 0, VARUNA_REFUSED_SIZE, 0) &&
                                                                refuses_on_domain(3, wrong, 2, 1, VARUNA_REFUSED_SIZE, 0) &&
                                                                refuses_on_domain(65538, coefficients, 2, 2, VARUNA_REFUSED_SIZE, 0));
    test("evaluate_on_domain refuses a list", refuses_on_domain(2, coefficients, 1, 2, VARUNA_REFUSED_LENGTH, 0) &&
                                                  refuses_on_domain(2, wrong, 3, 3, VARUNA_REFUSED_LENGTH, 0));
    test("evaluate_on_domain refuses a slice", refuses_on_domain(2, coefficients, 2, 1, VARUNA_REFUSED_LENGTH, 1) &&
                                                   refuses_on_domain(2, wrong, 2, 3, VARUNA_REFUSED_LENGTH, 1));
    test("evaluate_on_domain refuses a word", refuses_on_domain(2, wrong, 2, 2, VARUNA_REFUSED_WORD, 1) &&
                                                  refuses_on_domain(2, wrong + 1, 2, 2, VARUNA_REFUSED_WORD, 0) &&
                                                  refuses_on_domain(1, wrong + 2, 1, 1, VARUNA_REFUSED_WORD, 0));
    test("evaluate_on_domain refuses the last of 1024 words",
         refuses_on_domain(VARUNA_MAX_SIZE, long_list, VARUNA_MAX_SIZE, VARUNA_MAX_SIZE, VARUNA_REFUSED_WORD, VARUNA_MAX_SIZE - 1));
}

/* Either of the two calls between coefficients and values. */
typedef uint32_t (*transform)(uint32_t, const uint32_t *, size_t, uint32_t *, size_t, size_t *);

static int gives_words(transform f, uint32_t n, const uint32_t *words, const uint32_t *expected)
{
    static uint32_t found[VARUNA_MAX_SIZE + 2];
    size_t position = NOWHERE;
    for (size_t i = 0; i < n + 2; i++)
        found[i] = 77;
    uint32_t number = f(n, words, n, found + 1, n, &position);
    return is_done(number, position) && same(found + 1, expected, n) && found[0] == 77 && found[n + 1] == 77;
}

static int are_transforms(uint32_t n, const uint32_t *coefficients, const uint32_t *values)
{
    return gives_words(varuna_evaluate_on_domain, n, coefficients, values) && gives_words(varuna_interpolate, n, values, coefficients);
}

/* On 1 and -1 the values of 6 + 3Y are 6 + 3 and 6 - 3, those of 1 - Y are 0 and 2. On the domain of size 8 the squares are 1, i, -1, -i
 * twice, and Y^2 + 2Y^6 is 1 + 2, i - 2i, -1 - 2, -i + 2i, twice. On that of size 1,024 the sum of all powers of Y is 1,024 at 1 and 0
 * elsewhere, and Y has the elements as its values. */
static void test_transforms(void)
{
    const uint32_t i = 1728404513;
    const uint32_t seven[1] = {7}, coefficients[2] = {6, 3}, values[2] = {9, 3}, difference[2] = {1, P - 1}, difference_values[2] = {0, 2};
    const uint32_t even[8] = {0, 0, 1, 0, 0, 0, 2, 0}, even_values[8] = {3, P - i, P - 3, i, 3, P - i, P - 3, i};
    static uint32_t ones[VARUNA_MAX_SIZE], at_one[VARUNA_MAX_SIZE], y[VARUNA_MAX_SIZE], elements[VARUNA_MAX_SIZE];
    size_t position = NOWHERE;
    for (size_t place = 0; place < VARUNA_MAX_SIZE; place++)
        ones[place] = 1;
    at_one[0] = VARUNA_MAX_SIZE;
    y[1] = 1;
    uint32_t number = varuna_list_domain(VARUNA_MAX_SIZE, elements, VARUNA_MAX_SIZE, &position);
    test("transforms at size 1", are_transforms(1, seven, seven));
    test("transforms at size 2", are_transforms(2, coefficients, values) && are_transforms(2, difference, difference_values));
    test("transforms at size 8", are_transforms(8, even, even_values));
    test("transforms at size 1024", is_done(number, position) && are_transforms(VARUNA_MAX_SIZE, ones, at_one) &&
                                        are_transforms(VARUNA_MAX_SIZE, y, elements));
}

static int comes_back(transform first, transform then, uint32_t n, const uint32_t *words)
{
    static uint32_t there[VARUNA_MAX_SIZE];
    size_t position = NOWHERE;
    uint32_t number = first(n, words, n, there, n, &position);
    return is_done(number, position) && gives_words(then, n, there, words);
}

/* Squares counted down from p - 1 on, there and back in both orders at every size; the words given stay as they were. */
static void test_round_trips(void)
{
    static uint32_t words[VARUNA_MAX_SIZE], kept[VARUNA_MAX_SIZE];
    int back = 1, forth = 1;
    for (uint32_t i = 0; i < VARUNA_MAX_SIZE; i++)
        words[i] = kept[i] = P - 1 - i * i;
    for (uint32_t n = 1; n <= VARUNA_MAX_SIZE; n *= 2) {
        back = back && comes_back(varuna_interpolate, varuna_evaluate_on_domain, n, words);
        forth = forth && comes_back(varuna_evaluate_on_domain, varuna_interpolate, n, words);
    }
    test("evaluate_on_domain undoes interpolate at every size", back && same(words, kept, VARUNA_MAX_SIZE));
    test("interpolate undoes evaluate_on_domain at every size", forth && same(words, kept, VARUNA_MAX_SIZE));
}

/* The job of the square case; a refusal is tried by one change of it. */

struct job {
    uint32_t rows, columns, publics;
    uint32_t ea[3], eb[3], ec[3];
    size_t ea_length;
    uint32_t z[2], r, m[4];
    uint32_t alpha, eta[3], beta, delta[3], gamma;
    size_t lent;
};

static const struct job square = {
    .rows = 1,
    .columns = 2,
    .publics = 1,
    .ea = {0, 1, 1},
    .eb = {0, 1, 1},
    .ec = {0, 0, 9},
    .ea_length = 3,
    .z = {1, 3},
    .r = 1,
    .m = {1, 0, P - 1, 1},
    .alpha = 2,
    .eta = {1, 1, 2},
    .beta = 3,
    .delta = {1, 1, 1},
    .gamma = 5,
    .lent = 0,
};

/* What the indexer and the rounds write. */
struct results {
    uint32_t index[12][1];
    uint32_t witness[2], row_quotient[1], sums[3], line_remainder[1], line_quotient[2];
    uint32_t values[3], matrix_remainders[3][1], joined_quotient[1], openings[VARUNA_OPENINGS];
};

enum call { INDEX, FIRST, SECOND, THIRD, FOURTH, FIFTH, OPENINGS, CALLS };

static const char *const call_names[CALLS] = {"index", "first_round", "second_round", "third_round", "fourth_round", "fifth_round", "openings"};

#define CIRCUIT(j) j->rows, j->columns, j->publics, j->ea, j->ea_length, j->eb, 3, j->ec, 3
#define ASSIGNED(j) CIRCUIT(j), j->z, 2, j->r, j->m, 4

/* The last of a call's lent slices is `lent` words longer than it must be. */
static uint32_t run(enum call call, const struct job *j, struct results *o, size_t *position)
{
    switch (call) {
    case INDEX:
        return varuna_index(CIRCUIT(j), o->index[0], 1, o->index[1], 1, o->index[2], 1, o->index[3], 1, o->index[4], 1, o->index[5], 1,
                            o->index[6], 1, o->index[7], 1, o->index[8], 1, o->index[9], 1, o->index[10], 1, o->index[11], 1 + j->lent,
                            position);
    case FIRST:
        return varuna_first_round(ASSIGNED(j), o->witness, 2, o->row_quotient, j->lent, position);
    case SECOND:
        return varuna_second_round(ASSIGNED(j), j->alpha, o->sums, position);
    case THIRD:
        return varuna_third_round(ASSIGNED(j), j->alpha, j->eta, o->line_remainder, 1, o->line_quotient, 2 + j->lent, position);
    case FOURTH:
        return varuna_fourth_round(ASSIGNED(j), j->alpha, j->eta, j->beta, o->matrix_remainders[0], 0, o->matrix_remainders[1], 0,
                                   o->matrix_remainders[2], j->lent, o->values, position);
    case FIFTH:
        return varuna_fifth_round(ASSIGNED(j), j->alpha, j->eta, j->beta, j->delta, o->joined_quotient, j->lent, position);
    default:
        return varuna_openings(ASSIGNED(j), j->alpha, j->eta, j->beta, j->delta, j->gamma, o->openings, position);
    }
}

static int refuses_job(enum call call, const struct job *j, uint32_t expected_number, size_t expected_position)
{
    struct results found, kept;
    memset(&found, 0xAB, sizeof found);
    memset(&kept, 0xAB, sizeof kept);
    size_t position = NOWHERE;
    uint32_t number = run(call, j, &found, &position);
    return is_refused(number, position, expected_number, expected_position) && memcmp(&found, &kept, sizeof found) == 0;
}

static void test_job_refusal(enum call call, const char *what, const struct job *j, uint32_t number, size_t position)
{
    char name[80];
    snprintf(name, sizeof name, "%s refuses %s", call_names[call], what);
    test(name, refuses_job(call, j, number, position));
}

static void test_job_refusals(enum call call)
{
    static const size_t last_slice[CALLS] = {14, 6, 0, 6, 7, 5, 0};
    struct job j = square;
    j.rows = 3;
    test_job_refusal(call, "a size", &j, VARUNA_REFUSED_SIZE, 0);
    j = square;
    j.publics = 4;
    test_job_refusal(call, "|X| above |C|", &j, VARUNA_REFUSED_SIZE, 2);
    j = square;
    j.ea_length = 2;
    test_job_refusal(call, "an entry list", &j, VARUNA_REFUSED_LENGTH, 0);
    j = square;
    j.lent = 1;
    if (last_slice[call] != 0)
        test_job_refusal(call, "a lent slice", &j, VARUNA_REFUSED_LENGTH, last_slice[call]);
    j = square;
    j.eb[2] = P;
    test_job_refusal(call, "a word", &j, VARUNA_REFUSED_WORD, 1);
    j = square;
    j.ec[0] = 1;
    test_job_refusal(call, "an entry", &j, VARUNA_REFUSED_ENTRY, 2);
    if (call == INDEX)
        return;
    j = square;
    j.m[0] = 2;
    test_job_refusal(call, "a mask", &j, VARUNA_REFUSED_MASK, 0);
    j = square;
    j.z[1] = 4;
    test_job_refusal(call, "z = 1 4", &j, VARUNA_REFUSED_ASSIGNMENT, 0);
    if (call == FIRST)
        return;
    j = square;
    j.alpha = 1;
    test_job_refusal(call, "alpha = 1", &j, VARUNA_REFUSED_CHALLENGE, 0);
}

/* A z that does not begin with 1. The row holds where it is 0 0 or 4 6: 0 times 0 is 9 times 0, and 6 times 6 is 9 times 4. */
static void test_column_0(enum call call)
{
    struct job j = square;
    j.z[0] = j.z[1] = 0;
    test_job_refusal(call, "z = 0 0", &j, VARUNA_REFUSED_CONSTANT, 0);
    j.z[0] = 4;
    j.z[1] = 6;
    test_job_refusal(call, "z = 4 6", &j, VARUNA_REFUSED_CONSTANT, 0);
    j.m[0] = 2;
    test_job_refusal(call, "a mask before z = 4 6", &j, VARUNA_REFUSED_MASK, 0);
    j = square;
    j.z[0] = 4;
    j.alpha = j.beta = j.gamma = 1;
    test_job_refusal(call, "z = 4 3 before its row and challenges", &j, VARUNA_REFUSED_CONSTANT, 0);
}

static void test_later_challenges(void)
{
    struct job j = square;
    j.beta = P - 1;
    test_job_refusal(FOURTH, "beta = p-1", &j, VARUNA_REFUSED_CHALLENGE, 1);
    test_job_refusal(FIFTH, "beta = p-1", &j, VARUNA_REFUSED_CHALLENGE, 1);
    test_job_refusal(OPENINGS, "beta = p-1", &j, VARUNA_REFUSED_CHALLENGE, 1);
    j = square;
    j.gamma = 1;
    test_job_refusal(OPENINGS, "gamma = 1", &j, VARUNA_REFUSED_CHALLENGE, 2);
}

static const uint32_t expected_openings[VARUNA_OPENINGS] = {3, 19, 7, 28, 0, 0, 0, 0, 0, 1, P - 1, P - 1, P - 1, 1, P - 1, P - 1, P - 1, 1, 1, 1, 9};

static void test_jobs(void)
{
    struct results found, expected;
    memset(&found, 0xAB, sizeof found);
    memset(&expected, 0xAB, sizeof expected);
    memcpy(expected.index, expected_openings + 9, sizeof expected.index);
    memcpy(expected.witness, (uint32_t[]){0, 1}, sizeof expected.witness);
    memcpy(expected.sums, (uint32_t[]){3, 3, 9}, sizeof expected.sums);
    memcpy(expected.line_remainder, (uint32_t[]){7}, sizeof expected.line_remainder);
    memcpy(expected.line_quotient, (uint32_t[]){1, 9}, sizeof expected.line_quotient);
    memcpy(expected.values, (uint32_t[]){P - 1, P - 1, 18}, sizeof expected.values);
    memcpy(expected.openings, expected_openings, sizeof expected.openings);
    for (enum call call = INDEX; call < CALLS; call++) {
        size_t position = NOWHERE;
        uint32_t number = run(call, &square, &found, &position);
        test(call_names[call], is_done(number, position));
        test_job_refusals(call);
        if (call != INDEX)
            test_column_0(call);
    }
    test("the words of index, rounds and openings", memcmp(&found, &expected, sizeof found) == 0);
    test_later_challenges();
}

/* Circuits that grow. */

#define WORDS VARUNA_CIRCUIT_WORDS

/* Memory that a call changes, and what it must be then. */
static uint32_t circuit[WORDS], expected_circuit[WORDS];

/* The words of a circuit of 2 rows and 2 columns with these entries in A and none in B and C. */
static void expect_circuit(const uint32_t *entries, size_t count)
{
    static const uint32_t sizes[3] = {2, 2, 1};
    memset(expected_circuit, 0, sizeof expected_circuit);
    memcpy(expected_circuit, sizes, sizeof sizes);
    expected_circuit[VARUNA_TOTAL_PLACE(VARUNA_MATRIX_A)] = (uint32_t)count;
    for (size_t i = 0; i < count; i++)
        expected_circuit[VARUNA_COUNTS_PLACE(VARUNA_MATRIX_A) + entries[3 * i]]++;
    memcpy(expected_circuit + VARUNA_ENTRIES_PLACE(VARUNA_MATRIX_A), entries, 3 * count * sizeof(uint32_t));
}

static int begins(uint32_t rows, uint32_t columns, uint32_t publics)
{
    size_t position = NOWHERE;
    memset(circuit, 0xAB, sizeof circuit);
    uint32_t number = varuna_circuit_begin(circuit, rows, columns, publics, &position);
    return is_done(number, position);
}

static int adds(uint32_t matrix, uint32_t row, uint32_t column, uint32_t value)
{
    size_t position = NOWHERE;
    uint32_t number = varuna_circuit_add(circuit, matrix, row, column, value, &position);
    return is_done(number, position);
}

static int refuses_add(uint32_t matrix, uint32_t row, uint32_t column, uint32_t value, uint32_t expected_number)
{
    size_t position = NOWHERE;
    memcpy(expected_circuit, circuit, sizeof circuit);
    uint32_t number = varuna_circuit_add(circuit, matrix, row, column, value, &position);
    return is_refused(number, position, expected_number, 0) && same(circuit, expected_circuit, WORDS);
}

static int removes(uint32_t matrix, uint32_t row, uint32_t column)
{
    size_t position = NOWHERE;
    uint32_t number = varuna_circuit_remove(circuit, matrix, row, column, &position);
    return is_done(number, position);
}

static int refuses_remove(uint32_t matrix, uint32_t row, uint32_t column)
{
    size_t position = NOWHERE;
    memcpy(expected_circuit, circuit, sizeof circuit);
    uint32_t number = varuna_circuit_remove(circuit, matrix, row, column, &position);
    return is_refused(number, position, VARUNA_REFUSED_PLACE, 0) && same(circuit, expected_circuit, WORDS);
}

static int finds_row(uint32_t matrix, uint32_t row, size_t expected_start, size_t expected_length)
{
    size_t start = 77, length = 78, position = NOWHERE;
    uint32_t number = varuna_circuit_row(circuit, matrix, row, &start, &length, &position);
    return is_done(number, position) && start == expected_start && length == expected_length;
}

static int refuses_row(uint32_t matrix, uint32_t row)
{
    size_t start = 77, length = 78, position = NOWHERE;
    uint32_t number = varuna_circuit_row(circuit, matrix, row, &start, &length, &position);
    return is_refused(number, position, VARUNA_REFUSED_ENTRY, 0) && start == 77 && length == 78;
}

/* A beginning from A's list and B's of the square case and a list for C. */
static uint32_t begin_from(uint32_t rows, size_t b_length, const uint32_t *c, size_t c_length, size_t *position)
{
    memset(circuit, 0xAB, sizeof circuit);
    return varuna_circuit_begin_from(circuit, rows, 2, 1, square.ea, 3, square.eb, b_length, c, c_length, position);
}

static int refuses_begin_from(uint32_t rows, size_t b_length, const uint32_t *c, size_t c_length, uint32_t number, size_t expected)
{
    size_t position = NOWHERE;
    memset(expected_circuit, 0xAB, sizeof expected_circuit);
    uint32_t found = begin_from(rows, b_length, c, c_length, &position);
    return is_refused(found, position, number, expected) && same(circuit, expected_circuit, WORDS);
}

static int refuses_begin(uint32_t rows, uint32_t columns, uint32_t publics, size_t expected)
{
    size_t position = NOWHERE;
    memset(circuit, 0xAB, sizeof circuit);
    memset(expected_circuit, 0xAB, sizeof expected_circuit);
    uint32_t number = varuna_circuit_begin(circuit, rows, columns, publics, &position);
    return is_refused(number, position, VARUNA_REFUSED_SIZE, expected) && same(circuit, expected_circuit, WORDS);
}

static void test_beginnings(void)
{
    static const uint32_t word[3] = {0, 0, P}, past[6] = {0, 0, 1, 0, 2, 1}, unsorted[6] = {0, 1, 1, 0, 0, 1};
    static uint32_t long_list[VARUNA_MAX_ENTRY_LIST + VARUNA_ENTRY_WORDS];
    size_t position = NOWHERE;
    int done = begins(2, 2, 1);
    expect_circuit(none, 0);
    test("circuit_begin", done && same(circuit, expected_circuit, WORDS));
    test("circuit_begin refuses a size", refuses_begin(3, 5, 7, 0) && refuses_begin(1, 0, 1, 1) && refuses_begin(1, 2048, 1, 1));
    test("circuit_begin refuses |X| above |C|", refuses_begin(1, 2, 4, 2));
    uint32_t number = begin_from(1, 3, square.ec, 3, &position);
    expect_circuit(square.ea, 1);
    expected_circuit[0] = 1;
    memcpy(expected_circuit + VARUNA_TOTAL_PLACE(VARUNA_MATRIX_B), (uint32_t[]){1, 1}, 8);
    memcpy(expected_circuit + VARUNA_ENTRIES_PLACE(VARUNA_MATRIX_B), square.eb, 12);
    memcpy(expected_circuit + VARUNA_TOTAL_PLACE(VARUNA_MATRIX_C), (uint32_t[]){1, 1}, 8);
    memcpy(expected_circuit + VARUNA_ENTRIES_PLACE(VARUNA_MATRIX_C), square.ec, 12);
    test("circuit_begin_from", is_done(number, position) && same(circuit, expected_circuit, WORDS));
    test("circuit_begin_from refuses a size", refuses_begin_from(3, 2, word, 3, VARUNA_REFUSED_SIZE, 0));
    test("circuit_begin_from refuses a list", refuses_begin_from(1, 2, word, 3, VARUNA_REFUSED_LENGTH, 1) &&
                                                  refuses_begin_from(1, 3, long_list, COUNT(long_list), VARUNA_REFUSED_LENGTH, 2));
    test("circuit_begin_from refuses a word", refuses_begin_from(1, 3, word, 3, VARUNA_REFUSED_WORD, 2));
    test("circuit_begin_from refuses an entry", refuses_begin_from(1, 3, past, 6, VARUNA_REFUSED_ENTRY, 3) &&
                                                    refuses_begin_from(1, 3, unsorted, 6, VARUNA_REFUSED_ENTRY, 3));
}

/* The entries of A one by one, not in their order; each stands at its place at once. */
static void test_growing(void)
{
    static const uint32_t one[] = {1, 0, 7}, two[] = {0, 1, P - 1, 1, 0, 7}, three[] = {0, 0, 1, 0, 1, P - 1, 1, 0, 7};
    int all = begins(2, 2, 1) && adds(VARUNA_MATRIX_A, 1, 0, 7);
    expect_circuit(one, 1);
    all = all && same(circuit, expected_circuit, WORDS) && adds(VARUNA_MATRIX_A, 0, 1, P - 1);
    expect_circuit(two, 2);
    all = all && same(circuit, expected_circuit, WORDS) && adds(VARUNA_MATRIX_A, 0, 0, 1);
    expect_circuit(three, 3);
    test("circuit_add", all && same(circuit, expected_circuit, WORDS));
    size_t start = VARUNA_ENTRIES_PLACE(VARUNA_MATRIX_A);
    test("circuit_row", finds_row(VARUNA_MATRIX_A, 0, start, 6) && finds_row(VARUNA_MATRIX_A, 1, start + 6, 3) &&
                            finds_row(VARUNA_MATRIX_B, 1, VARUNA_ENTRIES_PLACE(VARUNA_MATRIX_B), 0));
    test("circuit_row refuses a row past its domain", refuses_row(VARUNA_MATRIX_A, 2) && refuses_row(VARUNA_MATRIX_C, UINT32_MAX));
    test("circuit_row refuses a matrix above 2", refuses_row(3, 0) && refuses_row(UINT32_MAX, 0));
    test("circuit_add refuses a matrix above 2", refuses_add(3, 0, 0, 1, VARUNA_REFUSED_LENGTH) &&
                                                     refuses_add(UINT32_MAX, 9, 9, P, VARUNA_REFUSED_LENGTH));
    test("circuit_add refuses word p", refuses_add(VARUNA_MATRIX_B, 0, 0, P, VARUNA_REFUSED_WORD) &&
                                           refuses_add(VARUNA_MATRIX_A, 2, 2, P, VARUNA_REFUSED_WORD));
    test("circuit_add refuses an entry", refuses_add(VARUNA_MATRIX_B, 2, 0, 1, VARUNA_REFUSED_ENTRY) &&
                                             refuses_add(VARUNA_MATRIX_B, 0, 2, 1, VARUNA_REFUSED_ENTRY) &&
                                             refuses_add(VARUNA_MATRIX_A, 0, 0, 0, VARUNA_REFUSED_ENTRY));
    test("circuit_add refuses an occupied place", refuses_add(VARUNA_MATRIX_A, 0, 1, 5, VARUNA_REFUSED_PLACE));
    test("circuit_remove refuses an empty place", refuses_remove(VARUNA_MATRIX_A, 1, 1) && refuses_remove(VARUNA_MATRIX_B, 0, 0));
    test("circuit_remove refuses a place off the matrix", refuses_remove(VARUNA_MATRIX_A, 2, 0) && refuses_remove(VARUNA_MATRIX_A, 0, 2) &&
                                                              refuses_remove(VARUNA_MATRIX_A, UINT32_MAX, UINT32_MAX));
    test("circuit_remove refuses a matrix above 2", refuses_remove(3, 0, 0) && refuses_remove(UINT32_MAX, 0, 0));
    all = removes(VARUNA_MATRIX_A, 0, 0);
    expect_circuit(two, 2);
    all = all && same(circuit, expected_circuit, WORDS) && removes(VARUNA_MATRIX_A, 0, 1);
    expect_circuit(one, 1);
    all = all && same(circuit, expected_circuit, WORDS) && removes(VARUNA_MATRIX_A, 1, 0);
    expect_circuit(none, 0);
    test("circuit_remove", all && same(circuit, expected_circuit, WORDS));
}

/* All 1,024 places of 32 rows and columns. */
static void test_full_matrix(void)
{
    int all = begins(64, 32, 1);
    for (uint32_t i = 0; i < VARUNA_MAX_SIZE; i++)
        all = all && adds(VARUNA_MATRIX_C, i / 32, i % 32, i + 1);
    test("circuit_add up to 1,024 entries", all && finds_row(VARUNA_MATRIX_C, 31, VARUNA_CIRCUIT_WORDS - 96, 96));
    test("circuit_add refuses an entry more", refuses_add(VARUNA_MATRIX_C, 32, 0, 1, VARUNA_REFUSED_LENGTH));
    test("circuit_add refuses a full matrix first", refuses_add(VARUNA_MATRIX_C, 0, 0, 1, VARUNA_REFUSED_LENGTH) &&
                                                        refuses_add(VARUNA_MATRIX_C, 99, 99, P, VARUNA_REFUSED_LENGTH));
    all = removes(VARUNA_MATRIX_C, 0, 0) && adds(VARUNA_MATRIX_C, 32, 0, 1);
    test("circuit_add after a removal", all && finds_row(VARUNA_MATRIX_C, 32, VARUNA_CIRCUIT_WORDS - 3, 3));
}

static uint32_t index_circuit(uint32_t i[12][1], size_t last_length, size_t *position)
{
    return varuna_circuit_index(circuit, i[0], 1, i[1], 1, i[2], 1, i[3], 1, i[4], 1, i[5], 1, i[6], 1, i[7], 1, i[8], 1, i[9], 1, i[10], 1,
                                i[11], last_length, position);
}

static void test_circuit_index(void)
{
    uint32_t found[12][1], kept[12][1];
    size_t position = NOWHERE;
    memset(found, 0xAB, sizeof found);
    memset(kept, 0xAB, sizeof kept);
    int grown = begins(1, 2, 1) && adds(VARUNA_MATRIX_C, 0, 0, 9) && adds(VARUNA_MATRIX_B, 0, 1, 1) && adds(VARUNA_MATRIX_A, 0, 1, 1);
    uint32_t number = index_circuit(found, 2, &position);
    test("circuit_index refuses a lent slice", grown && is_refused(number, position, VARUNA_REFUSED_LENGTH, 14) &&
                                                   memcmp(found, kept, sizeof found) == 0);
    number = index_circuit(found, 1, &position);
    test("circuit_index", is_done(number, position) && same(found[0], expected_openings + 9, 12));
    memset(found, 0xAB, sizeof found);
    circuit[VARUNA_ENTRIES_PLACE(VARUNA_MATRIX_C) + 2] = P;
    number = index_circuit(found, 1, &position);
    test("circuit_index refuses a word", is_refused(number, position, VARUNA_REFUSED_WORD, 2) && memcmp(found, kept, sizeof found) == 0);
    circuit[VARUNA_ENTRIES_PLACE(VARUNA_MATRIX_B)] = 1;
    circuit[VARUNA_ENTRIES_PLACE(VARUNA_MATRIX_C) + 2] = 9;
    number = index_circuit(found, 1, &position);
    test("circuit_index refuses an entry", is_refused(number, position, VARUNA_REFUSED_ENTRY, 1) && memcmp(found, kept, sizeof found) == 0);
    circuit[2] = 4;
    number = index_circuit(found, 1, &position);
    test("circuit_index refuses a size", is_refused(number, position, VARUNA_REFUSED_SIZE, 2) && memcmp(found, kept, sizeof found) == 0);
}

/* Words that no call made: all bits are set, so row 0 of each matrix has 1,024 entries, all at column 2^32 - 1. */
static void test_forged_circuit(void)
{
    size_t start = VARUNA_ENTRIES_PLACE(VARUNA_MATRIX_B), end = start + VARUNA_MAX_ENTRY_LIST;
    memset(circuit, 0xFF, sizeof circuit);
    test("circuit_row of words that no call made", finds_row(VARUNA_MATRIX_B, 0, start, VARUNA_MAX_ENTRY_LIST) &&
             finds_row(VARUNA_MATRIX_B, 1, end, 0) && finds_row(VARUNA_MATRIX_B, 1023, end, 0) && refuses_row(VARUNA_MATRIX_B, 1024));
    test("circuit_add to words that no call made", refuses_add(VARUNA_MATRIX_B, 0, 0, 1, VARUNA_REFUSED_LENGTH));
    test("circuit_remove refuses what is not in such words", refuses_remove(VARUNA_MATRIX_B, 0, 7) &&
             refuses_remove(VARUNA_MATRIX_B, 1, UINT32_MAX) && refuses_remove(VARUNA_MATRIX_B, 1024, UINT32_MAX));
    memcpy(expected_circuit, circuit, sizeof circuit);
    expected_circuit[VARUNA_TOTAL_PLACE(VARUNA_MATRIX_B)] = expected_circuit[VARUNA_COUNTS_PLACE(VARUNA_MATRIX_B)] = 1023;
    memset(expected_circuit + end - 3, 0, 12);
    int done = removes(VARUNA_MATRIX_B, 0, UINT32_MAX);
    test("circuit_remove from words that no call made", done && same(circuit, expected_circuit, WORDS));
    expected_circuit[VARUNA_TOTAL_PLACE(VARUNA_MATRIX_B)] = expected_circuit[VARUNA_COUNTS_PLACE(VARUNA_MATRIX_B)] = 1024;
    memset(expected_circuit + end - 3, 0xFF, 12);
    memcpy(expected_circuit + start, (uint32_t[]){0, 5, 6}, 12);
    done = adds(VARUNA_MATRIX_B, 0, 5, 6);
    test("circuit_add at the place that halving finds", done && same(circuit, expected_circuit, WORDS));
}

/* Blinding. */

/* The inputs: a circuit whose prover knows an x with x^3 + x + 5 = 35, and whose row 3 and columns 5, 6, 7 are free. A refusal is tried by
 * one change of it. */
struct blinding {
    uint32_t rows, columns, publics;
    uint32_t ea[15], eb[9], ec[9];
    size_t lengths[3];
    uint32_t z[8];
    size_t z_length;
    uint32_t rho[3];
    size_t lent[4];
};

static const struct blinding cubic = {
    .rows = 4,
    .columns = 8,
    .publics = 2,
    .ea = {0, 1, 1, 1, 2, 1, 2, 0, 5, 2, 1, 1, 2, 3, 1},
    .eb = {0, 1, 1, 1, 1, 1, 2, 0, 1},
    .ec = {0, 2, 1, 1, 3, 1, 2, 4, 1},
    .lengths = {15, 9, 9},
    .z = {1, 3, 9, 27, 35, 0, 0, 0},
    .z_length = 8,
    .rho = {17, 19, 323},
    .lent = {18, 12, 12, 8},
};

/* What the call writes, with room for a slice that is lent too long. */
struct blinded {
    uint32_t a[21], b[21], c[21], z[21];
};

static uint32_t blind(const struct blinding *g, struct blinded *o, size_t *position)
{
    memset(o, 0xAB, sizeof *o);
    return varuna_blind(g->rows, g->columns, g->publics, g->ea, g->lengths[0], g->eb, g->lengths[1], g->ec, g->lengths[2], g->z,
                        g->z_length, g->rho, o->a, g->lent[0], o->b, g->lent[1], o->c, g->lent[2], o->z, g->lent[3], position);
}

/* Whether the call is done, gives the lists with an entry more each in the last row at these columns, and z with rho there. */
static int blinds(const struct blinding *g, const uint32_t columns[3])
{
    struct blinded found, expected;
    uint32_t *const lists[3] = {expected.a, expected.b, expected.c};
    const uint32_t *const given[3] = {g->ea, g->eb, g->ec};
    size_t position = NOWHERE;
    uint32_t number = blind(g, &found, &position);
    memset(&expected, 0xAB, sizeof expected);
    memcpy(expected.z, g->z, g->columns * sizeof(uint32_t));
    for (size_t i = 0; i < 3; i++) {
        memcpy(lists[i], given[i], g->lengths[i] * sizeof(uint32_t));
        memcpy(lists[i] + g->lengths[i], (uint32_t[]){g->rows - 1, columns[i], 1}, 12);
        expected.z[columns[i]] = g->rho[i];
    }
    return is_done(number, position) && memcmp(&found, &expected, sizeof found) == 0;
}

static int refuses_blinding(const struct blinding *g, uint32_t expected_number, size_t expected_position)
{
    struct blinded found, kept;
    size_t position = NOWHERE;
    uint32_t number = blind(g, &found, &position);
    memset(&kept, 0xAB, sizeof kept);
    return is_refused(number, position, expected_number, expected_position) && memcmp(&found, &kept, sizeof found) == 0;
}

static void test_blinding(void)
{
    static const uint32_t last[3] = {5, 6, 7}, every_second[3] = {3, 5, 7}, of_four[3] = {1, 2, 3};
    struct blinding g = cubic;
    test("blind", blinds(&g, last));
    g.z[5] = g.z[6] = g.z[7] = P - 1;
    test("blind replaces any words of z", blinds(&g, last));
    g.z[1] = 4;
    g.rho[2] = 324;
    test("blind looks at no row", blinds(&g, last));
    g = cubic;
    g.publics = 4;
    g.ea[13] = 2; /* where x^3 stood, which is reserved now */
    g.ec[4] = 2;
    test("blind at every second column", blinds(&g, every_second));
    g = cubic;
    g.lengths[0] = g.lengths[1] = g.lengths[2] = 0;
    g.lent[0] = g.lent[1] = g.lent[2] = 3;
    g.rows = 1;
    test("blind with one row", blinds(&g, last));
    g.columns = g.z_length = g.lent[3] = 4;
    g.publics = 1;
    test("blind with four columns", blinds(&g, of_four));
}

static void test_blinding_refusals(void)
{
    struct blinding g = cubic;
    g.rows = 3;
    test("blind refuses a size", refuses_blinding(&g, VARUNA_REFUSED_SIZE, 0));
    g = cubic;
    g.publics = 16;
    test("blind refuses |X| above |C|", refuses_blinding(&g, VARUNA_REFUSED_SIZE, 2));
    int all = 1;
    for (size_t i = 0; i < 3; i++) {
        g = cubic;
        g.lengths[i] -= 1;
        all = all && refuses_blinding(&g, VARUNA_REFUSED_LENGTH, i);
    }
    test("blind refuses a list that is no whole entries", all);
    g = cubic;
    g.z_length = 7;
    test("blind refuses a length of z", refuses_blinding(&g, VARUNA_REFUSED_LENGTH, 3));
    all = 1;
    for (size_t i = 0; i < 4; i++) {
        g = cubic;
        g.lent[i] -= 1;
        all = all && refuses_blinding(&g, VARUNA_REFUSED_LENGTH, 4 + i);
        g.lent[i] += 4;
        all = all && refuses_blinding(&g, VARUNA_REFUSED_LENGTH, 4 + i);
    }
    test("blind refuses a lent slice", all);
    g = cubic;
    g.rho[2] = P;
    test("blind refuses a word of rho", refuses_blinding(&g, VARUNA_REFUSED_WORD, 21));
    g.z[7] = P;
    test("blind refuses a word of z", refuses_blinding(&g, VARUNA_REFUSED_WORD, 18));
    g.ec[8] = UINT32_MAX;
    test("blind refuses a value", refuses_blinding(&g, VARUNA_REFUSED_WORD, 10));
    g = cubic;
    g.ec[6] = 4;
    test("blind refuses an entry", refuses_blinding(&g, VARUNA_REFUSED_ENTRY, 10));
    g.ec[6] = 3;
    test("blind refuses an entry in the last row", refuses_blinding(&g, VARUNA_REFUSED_BLINDING, 0));
    g = cubic;
    all = 1;
    for (g.ec[7] = 5; g.ec[7] < 8; g.ec[7]++)
        all = all && refuses_blinding(&g, VARUNA_REFUSED_BLINDING, 0);
    test("blind refuses an entry in a reserved column", all);
    g = cubic;
    g.publics = 8;
    test("blind refuses too few columns", refuses_blinding(&g, VARUNA_REFUSED_BLINDING, 0));
    g.z[0] = 2;
    test("blind refuses too few columns before z = 2 ..", refuses_blinding(&g, VARUNA_REFUSED_BLINDING, 0));
    g.publics = 2;
    test("blind refuses z = 2 ..", refuses_blinding(&g, VARUNA_REFUSED_CONSTANT, 0));
}

/* Round 1 takes the blinded circuit where rho[0] * rho[1] = rho[2], and else says that the last row fails. */
static void test_blinded_round(void)
{
    static const uint32_t zeros[16];
    struct blinding g = cubic;
    for (uint32_t wrong = 0; wrong < 2; wrong++) {
        struct blinded o;
        uint32_t witness[7], row_quotient[3];
        size_t position = NOWHERE;
        g.rho[2] = 323 + wrong;
        uint32_t number = blind(&g, &o, &position);
        int done = is_done(number, position);
        number = varuna_first_round(4, 8, 2, o.a, 18, o.b, 12, o.c, 12, o.z, 8, 1, zeros, 16, witness, 7, row_quotient, 3, &position);
        test(wrong ? "first_round refuses a blinded row that fails" : "first_round of a blinded circuit",
             done && (wrong ? is_refused(number, position, VARUNA_REFUSED_ASSIGNMENT, 3) : is_done(number, position)));
    }
}

/* 1,023 entries in each list, and one more in the last. */
static void test_full_blinding(void)
{
    enum { N = VARUNA_MAX_SIZE, LENGTH = VARUNA_MAX_ENTRY_LIST };
    static uint32_t list[LENGTH], z[N] = {1}, blinded[3][LENGTH], longer[LENGTH + VARUNA_ENTRY_WORDS], blinded_z[N];
    const uint32_t rho[3] = {2, 3, 6};
    size_t position = NOWHERE;
    int all = 1;
    for (uint32_t i = 0; i < N; i++)
        memcpy(list + 3 * i, (uint32_t[]){i, i % (N - 3), P - 1}, 12);
    uint32_t number = varuna_blind(N, N, 1, list, LENGTH - 3, list, LENGTH - 3, list, LENGTH - 3, z, N, rho, blinded[0], LENGTH, blinded[1],
                                   LENGTH, blinded[2], LENGTH, blinded_z, N, &position);
    for (uint32_t i = 0; i < 3; i++) {
        all = all && same(blinded[i], list, LENGTH - 3) && blinded_z[N - 3 + i] == rho[i] &&
              same(blinded[i] + LENGTH - 3, (uint32_t[]){N - 1, N - 3 + i, 1}, 3);
    }
    test("blind with 1,023 entries in each list", is_done(number, position) && all && same(blinded_z, z, N - 3));
    number = varuna_blind(N, N, 1, list, LENGTH - 3, list, LENGTH - 3, list, LENGTH, z, N, rho, blinded[0], LENGTH, blinded[1], LENGTH,
                          longer, COUNT(longer), blinded_z, N, &position);
    test("blind refuses 1,024 entries", is_refused(number, position, VARUNA_REFUSED_LENGTH, 2) && longer[0] == 0 && longer[LENGTH] == 0);
}

/* The session. */

static const uint32_t square_sizes[VARUNA_SIZES] = {1, 2, 1, 1, 1, 1};
static const uint32_t square_x[1] = {1};

/* What the prover says, step by step, and the challenges; a test changes one word. */
struct conversation {
    uint32_t alpha, sums[3], eta[3], beta, values[3], remainders[3], delta[3], gamma, openings[VARUNA_OPENINGS];
};

static struct conversation honest(void)
{
    struct conversation t = {2, {3, 3, 9}, {1, 1, 2}, 3, {P - 1, P - 1, 18}, {0, 0, 0}, {1, 1, 1}, 5, {0}};
    memcpy(t.openings, expected_openings, sizeof t.openings);
    return t;
}

enum step { OPEN, ALPHA, ETA, BETA, DELTA, GAMMA, ASK, COMMIT, STEPS };

/* Asking for the verdict and committing take the openings, and give a verdict. */
static int takes_openings(enum step step)
{
    return step >= ASK;
}

static uint32_t take(enum step step, uint32_t *session, const struct conversation *t, uint32_t *verdict, size_t *position)
{
    switch (step) {
    case OPEN:
        return varuna_session_open(session, square_sizes, square_x, 1, position);
    case ALPHA:
        return varuna_session_alpha(session, 2, 4, 0, t->alpha, position);
    case ETA:
        return varuna_session_eta(session, t->sums, t->eta, position);
    case BETA:
        return varuna_session_beta(session, 1, 2, t->beta, position);
    case DELTA:
        return varuna_session_delta(session, t->values, t->remainders, t->delta, position);
    case GAMMA:
        return varuna_session_gamma(session, 0, t->gamma, position);
    case ASK:
        return varuna_session_ask(session, t->openings, verdict, position);
    default:
        return varuna_session_commit(session, t->openings, verdict, position);
    }
}

/* The session before a step; whether all steps up to it were taken. */
static int reach(enum step step, uint32_t *session)
{
    struct conversation t = honest();
    uint32_t verdict = 77;
    int taken = 1;
    varuna_session_new(session);
    for (enum step s = OPEN; s < step; s++) {
        size_t position = NOWHERE;
        uint32_t number = take(s, session, &t, &verdict, &position);
        taken = taken && is_done(number, position);
    }
    return taken;
}

/* Whether every step is taken, and both asking and committing give the verdict; the stage rises with every step but asking. */
static int plays_to(const struct conversation *t, uint32_t expected)
{
    uint32_t session[VARUNA_SESSION_WORDS];
    int all = 1;
    varuna_session_new(session);
    for (enum step s = OPEN; s < STEPS; s++) {
        uint32_t verdict = 77;
        size_t position = NOWHERE;
        uint32_t number = take(s, session, t, &verdict, &position);
        all = all && is_done(number, position) && session[0] == (uint32_t)(s < ASK ? s + 1 : s) &&
              verdict == (takes_openings(s) ? expected : 77);
    }
    return all;
}

static void test_verdicts(void)
{
    struct conversation t = honest();
    test("session to Accept", plays_to(&t, VARUNA_ACCEPT));
    t.sums[2] = 8;
    test("session to Fails Row", plays_to(&t, VARUNA_FAILS_ROW));
    t = honest();
    t.values[2] = 3;
    test("session to Fails Line", plays_to(&t, VARUNA_FAILS_LINE));
    t = honest();
    t.openings[12] = 1;
    test("session to Fails Matrix", plays_to(&t, VARUNA_FAILS_MATRIX));
}

/* Whether a step on a session is refused, leaves it as it was, and leaves no verdict where a verdict of before stood. */
static int refuses(uint32_t *session, enum step step, const struct conversation *t, uint32_t expected_number, size_t expected_position)
{
    static const uint32_t stale[] = {VARUNA_ACCEPT, VARUNA_FAILS_MATRIX, VARUNA_NO_VERDICT, 77};
    uint32_t kept[VARUNA_SESSION_WORDS];
    int all = 1;
    memcpy(kept, session, sizeof kept);
    for (size_t i = 0; i < COUNT(stale); i++) {
        uint32_t verdict = stale[i];
        size_t position = NOWHERE;
        uint32_t number = take(step, session, t, &verdict, &position);
        all = all && is_refused(number, position, expected_number, expected_position) && same(session, kept, VARUNA_SESSION_WORDS) &&
              verdict == (takes_openings(step) ? VARUNA_NO_VERDICT : stale[i]);
    }
    return all;
}

static int refuses_step(enum step before, enum step step, const struct conversation *t, uint32_t expected_number, size_t expected_position)
{
    uint32_t session[VARUNA_SESSION_WORDS];
    return reach(before, session) && refuses(session, step, t, expected_number, expected_position);
}

static void test_steps(void)
{
    struct conversation t = honest();
    static const char *const names[STEPS] = {"open", "alpha", "eta", "beta", "delta", "gamma", "ask", "commit"};
    for (enum step s = ALPHA; s < STEPS; s++) {
        char name[80];
        snprintf(name, sizeof name, "session %s refuses a step out of turn", names[s]);
        test(name, refuses_step(OPEN, s, &t, VARUNA_REFUSED_TURN, 0) && refuses_step(STEPS, s, &t, VARUNA_REFUSED_TURN, 0));
    }
    t.alpha = 1;
    test("session alpha refuses alpha = 1", refuses_step(ALPHA, ALPHA, &t, VARUNA_REFUSED_CHALLENGE, 0));
    t.alpha = P;
    test("session alpha refuses word p", refuses_step(ALPHA, ALPHA, &t, VARUNA_REFUSED_WORD, 0));
    t.eta[1] = P;
    test("session eta refuses word p", refuses_step(ETA, ETA, &t, VARUNA_REFUSED_WORD, 4));
    t.beta = P - 1;
    test("session beta refuses beta = p-1", refuses_step(BETA, BETA, &t, VARUNA_REFUSED_CHALLENGE, 1));
    t.beta = P;
    test("session beta refuses word p", refuses_step(BETA, BETA, &t, VARUNA_REFUSED_WORD, 0));
    t.remainders[2] = 1;
    test("session delta refuses a length", refuses_step(DELTA, DELTA, &t, VARUNA_REFUSED_DECLARED, 2));
    t.delta[0] = P;
    test("session delta refuses word p", refuses_step(DELTA, DELTA, &t, VARUNA_REFUSED_WORD, 3));
    t.gamma = 1;
    test("session gamma refuses gamma = 1", refuses_step(GAMMA, GAMMA, &t, VARUNA_REFUSED_CHALLENGE, 2));
    t.gamma = P;
    test("session gamma refuses word p", refuses_step(GAMMA, GAMMA, &t, VARUNA_REFUSED_WORD, 0));
    t.openings[20] = P;
    test("session ask refuses word p", refuses_step(ASK, ASK, &t, VARUNA_REFUSED_WORD, 20));
    test("session commit refuses word p", refuses_step(ASK, COMMIT, &t, VARUNA_REFUSED_WORD, 20) &&
             refuses_step(COMMIT, COMMIT, &t, VARUNA_REFUSED_WORD, 20));
}

/* Whether asking on a session gives the verdict and leaves every word of the session. */
static int asks(uint32_t *session, const struct conversation *t, uint32_t expected)
{
    uint32_t kept[VARUNA_SESSION_WORDS], verdict = 77;
    size_t position = NOWHERE;
    memcpy(kept, session, sizeof kept);
    uint32_t number = varuna_session_ask(session, t->openings, &verdict, &position);
    return is_done(number, position) && verdict == expected && same(session, kept, VARUNA_SESSION_WORDS);
}

/* Whether committing gives the verdict and leaves stage 7 with all other words as they were. */
static int commits(uint32_t *session, const struct conversation *t, uint32_t expected)
{
    uint32_t kept[VARUNA_SESSION_WORDS], verdict = 77;
    size_t position = NOWHERE;
    memcpy(kept, session, sizeof kept);
    uint32_t number = varuna_session_commit(session, t->openings, &verdict, &position);
    return is_done(number, position) && verdict == expected && session[0] == 7 && same(session + 1, kept + 1, VARUNA_SESSION_WORDS - 1);
}

static void test_asking(void)
{
    struct conversation good = honest(), bad = honest(), not_words = honest();
    uint32_t session[VARUNA_SESSION_WORDS];
    bad.openings[12] = 1;
    not_words.openings[0] = P;
    test("session commit without asking", reach(ASK, session) && commits(session, &good, VARUNA_ACCEPT));
    test("session ask again and with other openings", reach(ASK, session) && asks(session, &good, VARUNA_ACCEPT) &&
             asks(session, &bad, VARUNA_FAILS_MATRIX) && refuses(session, ASK, &not_words, VARUNA_REFUSED_WORD, 0) &&
             asks(session, &bad, VARUNA_FAILS_MATRIX) && asks(session, &good, VARUNA_ACCEPT));
    test("session commit of other openings than those asked about last", commits(session, &bad, VARUNA_FAILS_MATRIX));
    test("session commit of good openings after asking about others", reach(ASK, session) && asks(session, &bad, VARUNA_FAILS_MATRIX) &&
             commits(session, &good, VARUNA_ACCEPT));
    test("session closed by the commit", refuses(session, ASK, &not_words, VARUNA_REFUSED_TURN, 0) &&
             refuses(session, COMMIT, &not_words, VARUNA_REFUSED_TURN, 0));
}

static void test_opening(void)
{
    const uint32_t wrong_sizes[VARUNA_SIZES] = {1, 2, 4, 1, 1, 1};
    const uint32_t wrong_x[2] = {P, 0};
    const uint32_t not_one[] = {0, 2};
    uint32_t session[VARUNA_SESSION_WORDS], kept[VARUNA_SESSION_WORDS];
    size_t position = NOWHERE;
    int reached = reach(GAMMA, session);
    memcpy(kept, session, sizeof kept);
    uint32_t number = varuna_session_open(session, wrong_sizes, not_one, 1, &position);
    test("session open refuses |X| above |C|", reached && is_refused(number, position, VARUNA_REFUSED_SIZE, 2) &&
             same(session, kept, VARUNA_SESSION_WORDS));
    number = varuna_session_open(session, square_sizes, wrong_x, 2, &position);
    test("session open refuses a length", is_refused(number, position, VARUNA_REFUSED_LENGTH, 0) &&
             same(session, kept, VARUNA_SESSION_WORDS));
    number = varuna_session_open(session, square_sizes, wrong_x, 1, &position);
    test("session open refuses word p", is_refused(number, position, VARUNA_REFUSED_WORD, 0) && same(session, kept, VARUNA_SESSION_WORDS));
    for (size_t i = 0; i < COUNT(not_one); i++) {
        char name[80];
        position = NOWHERE;
        number = varuna_session_open(session, square_sizes, not_one + i, 1, &position);
        snprintf(name, sizeof name, "session open refuses x = %u", (unsigned)not_one[i]);
        test(name, is_refused(number, position, VARUNA_REFUSED_CONSTANT, 0) && same(session, kept, VARUNA_SESSION_WORDS));
    }
}

static void test_declared_lengths(void)
{
    uint32_t session[VARUNA_SESSION_WORDS], kept[VARUNA_SESSION_WORDS];
    size_t position = NOWHERE;
    int reached = reach(ALPHA, session);
    memcpy(kept, session, sizeof kept);
    uint32_t number = varuna_session_alpha(session, 2, 5, 0, 2, &position);
    test("session alpha refuses a length", reached && is_refused(number, position, VARUNA_REFUSED_DECLARED, 1) &&
             same(session, kept, VARUNA_SESSION_WORDS));
    reached = reach(BETA, session);
    memcpy(kept, session, sizeof kept);
    number = varuna_session_beta(session, 1, 3, 3, &position);
    test("session beta refuses a length", reached && is_refused(number, position, VARUNA_REFUSED_DECLARED, 1) &&
             same(session, kept, VARUNA_SESSION_WORDS));
    reached = reach(GAMMA, session);
    memcpy(kept, session, sizeof kept);
    number = varuna_session_gamma(session, 1, 5, &position);
    test("session gamma refuses a length", reached && is_refused(number, position, VARUNA_REFUSED_DECLARED, 0) &&
             same(session, kept, VARUNA_SESSION_WORDS));
}

/* Where x and the transcript stand among a session's words. */
enum { X = 7, TRANSCRIPT = 1031 };

/* A session's words: the stage, the sizes, x with zeros after it, and the transcript. */
static void test_session_words(void)
{
    static const uint32_t transcript[15] = {2, 3, 3, 9, 1, 1, 2, 3, P - 1, P - 1, 18, 1, 1, 1, 5};
    static const uint32_t zeros[VARUNA_SESSION_WORDS];
    uint32_t session[VARUNA_SESSION_WORDS], opened[VARUNA_SESSION_WORDS] = {1, 1, 2, 1, 1, 1, 1, 1};
    size_t position = NOWHERE;
    memset(session, 0xAB, sizeof session);
    uint32_t number = varuna_session_open(session, square_sizes, square_x, 1, &position);
    test("session open over any words", is_done(number, position) && same(session, opened, VARUNA_SESSION_WORDS));
    memset(session, 0xAB, sizeof session);
    varuna_session_new(session);
    test("session new", same(session, zeros, VARUNA_SESSION_WORDS));
    int reached = reach(STEPS, session);
    opened[0] = 7;
    test("the words of a session", reached && same(session, opened, TRANSCRIPT) && same(session + TRANSCRIPT, transcript, 15));
}

/* Sessions that no step made: the words of one whose openings are accepted, and one word changed. */
static void test_forged_sessions(void)
{
    static const struct {
        const char *what;
        size_t place;
        uint32_t word;
    } forged[] = {
        {"gamma inside K", TRANSCRIPT + 14, 1},
        {"beta inside C", TRANSCRIPT + 7, P - 1},
        {"alpha inside R", TRANSCRIPT, 1},
        {"a sum of p", TRANSCRIPT + 3, P},
        {"a public word of p", X, P},
        {"a first public word of 0", X, 0},
        {"a first public word of 2", X, 2},
        {"a word after the public ones", X + 1, 1},
        {"a last word of x", TRANSCRIPT - 1, 1},
        {"a size", 4, 3},
        {"a stage", 0, GAMMA},
    };
    struct conversation t = honest();
    for (size_t i = 0; i < COUNT(forged); i++) {
        char name[80];
        uint32_t session[VARUNA_SESSION_WORDS];
        int accepted = reach(ASK, session) && asks(session, &t, VARUNA_ACCEPT);
        session[forged[i].place] = forged[i].word;
        snprintf(name, sizeof name, "session ask and commit refuse %s that no step left", forged[i].what);
        test(name, accepted && refuses(session, ASK, &t, VARUNA_REFUSED_TURN, 0) && refuses(session, COMMIT, &t, VARUNA_REFUSED_TURN, 0));
    }
}

/* Records. */

#define RECORD_BYTES 132

static const uint32_t w[2] = {0, 1}, m[4] = {1, 0, P - 1, 1}, sums[3] = {3, 3, 9}, g1[1] = {7}, h1[2] = {1, 9}, values[3] = {P - 1, P - 1, 18};

static uint32_t write(const uint32_t *sizes, const uint32_t *first, uint8_t *bytes, size_t length, size_t *position)
{
    return varuna_write_record(sizes, first, 2, m, 4, none, 0, sums, 3, g1, 1, h1, 2, values, 3, none, 0, none, 0, none, 0, none, 0, bytes,
                               length, position);
}

static int refuses_write(const uint32_t *sizes, const uint32_t *first, size_t length, uint32_t expected_number, size_t expected_position)
{
    uint8_t bytes[RECORD_BYTES], kept[RECORD_BYTES];
    memset(bytes, 0xAB, sizeof bytes);
    memset(kept, 0xAB, sizeof kept);
    size_t position = NOWHERE;
    uint32_t number = write(sizes, first, bytes, length, &position);
    return is_refused(number, position, expected_number, expected_position) && memcmp(bytes, kept, sizeof bytes) == 0;
}

static uint32_t word_of(const uint8_t *bytes, size_t i)
{
    const uint8_t *b = bytes + 4 * i;
    return b[0] | (uint32_t)b[1] << 8 | (uint32_t)b[2] << 16 | (uint32_t)b[3] << 24;
}

static void test_writing(uint8_t *bytes)
{
    static const uint32_t expected[RECORD_BYTES / 4] = {0,  1,  1,  0,  P - 1, 1, 3, 3, 9, 7, 1, 9, P - 1, P - 1, 18, 0, 8,
                                                        24, 24, 36, 40, 48,    60, 60, 60, 60, 1, 2, 1, 1,     1,     1, 60};
    const uint32_t wrong_sizes[VARUNA_SIZES] = {1, 2, 1, 1, 3, 1};
    const uint32_t wrong_w[2] = {0, P};
    size_t position = NOWHERE;
    test("write_record refuses a size", refuses_write(wrong_sizes, w, RECORD_BYTES, VARUNA_REFUSED_SIZE, 4));
    test("write_record refuses a length", refuses_write(square_sizes, w, RECORD_BYTES - 4, VARUNA_REFUSED_LENGTH, 11));
    test("write_record refuses a word", refuses_write(square_sizes, wrong_w, RECORD_BYTES, VARUNA_REFUSED_WORD, 1));
    uint32_t number = write(square_sizes, w, bytes, RECORD_BYTES, &position);
    int all = is_done(number, position);
    for (size_t i = 0; i < COUNT(expected); i++)
        all = all && word_of(bytes, i) == expected[i];
    test("write_record", all);
}

static int refuses_read(const uint8_t *bytes, size_t length, uint32_t expected_number, size_t expected_position)
{
    uint32_t sizes[VARUNA_SIZES] = {77, 77, 77, 77, 77, 77};
    const uint32_t kept[VARUNA_SIZES] = {77, 77, 77, 77, 77, 77};
    size_t position = NOWHERE;
    uint32_t number = varuna_read_record(bytes, length, sizes, &position);
    return is_refused(number, position, expected_number, expected_position) && same(sizes, kept, VARUNA_SIZES);
}

static void test_reading(uint8_t *bytes)
{
    uint32_t sizes[VARUNA_SIZES] = {77, 77, 77, 77, 77, 77};
    size_t position = NOWHERE;
    uint32_t number = varuna_read_record(bytes, RECORD_BYTES, sizes, &position);
    test("read_record", is_done(number, position) && same(sizes, square_sizes, VARUNA_SIZES));
    test("read_record refuses an end", refuses_read(bytes, RECORD_BYTES - 1, VARUNA_REFUSED_END, 0) &&
             refuses_read(bytes, 71, VARUNA_REFUSED_END, 0));
    bytes[64] = 9;
    test("read_record refuses a start", refuses_read(bytes, RECORD_BYTES, VARUNA_REFUSED_TRAILER, 1));
    bytes[64] = 8;
    memset(bytes + 4, 0xFF, 4);
    test("read_record refuses a word", refuses_read(bytes, RECORD_BYTES, VARUNA_REFUSED_WORD, 1));
    memcpy(bytes + 4, (uint8_t[]){1, 0, 0, 0}, 4);
}

static int refuses_section(const uint8_t *bytes, size_t length, size_t k, uint32_t expected_number, size_t expected_position)
{
    size_t found_start = 77, found_length = 78, position = NOWHERE;
    uint32_t number = varuna_section(bytes, length, k, &found_start, &found_length, &position);
    return is_refused(number, position, expected_number, expected_position) && found_start == 77 && found_length == 78;
}

static void test_sections(uint8_t *bytes)
{
    static const size_t starts[VARUNA_SECTIONS] = {0, 8, 24, 24, 36, 40, 48, 60, 60, 60, 60};
    static const size_t lengths[VARUNA_SECTIONS] = {8, 16, 0, 12, 4, 8, 12, 0, 0, 0, 0};
    int all = 1;
    for (size_t k = 0; k < VARUNA_SECTIONS; k++) {
        size_t start = 77, length = 78, position = NOWHERE;
        uint32_t number = varuna_section(bytes, RECORD_BYTES, k, &start, &length, &position);
        all = all && is_done(number, position) && start == starts[k] && length == lengths[k];
    }
    test("section", all);
    test("section refuses a number above 10", refuses_section(bytes, RECORD_BYTES, 11, VARUNA_REFUSED_LENGTH, 11) &&
                                                  refuses_section(bytes, RECORD_BYTES, SIZE_MAX, VARUNA_REFUSED_LENGTH, SIZE_MAX));
    test("section refuses an end", refuses_section(bytes, RECORD_BYTES - 4, 1, VARUNA_REFUSED_END, 0) &&
             refuses_section(bytes, 71, 11, VARUNA_REFUSED_END, 0));
    bytes[64] = 9;
    test("section refuses a start", refuses_section(bytes, RECORD_BYTES, 0, VARUNA_REFUSED_TRAILER, 1) &&
             refuses_section(bytes, RECORD_BYTES, 11, VARUNA_REFUSED_TRAILER, 1));
    bytes[64] = 8;
    memset(bytes + 4, 0xFF, 4);
    test("section refuses a word", refuses_section(bytes, RECORD_BYTES, 10, VARUNA_REFUSED_WORD, 1) &&
             refuses_section(bytes, RECORD_BYTES, 11, VARUNA_REFUSED_LENGTH, 11));
}

int main(void)
{
    uint8_t bytes[RECORD_BYTES];
    test_constants();
    test_words();
    test_domains();
    test_evaluate();
    test_evaluate_part();
    test_parts();
    test_long_list();
    test_interpolate();
    test_evaluate_on_domain();
    test_transforms();
    test_round_trips();
    test_jobs();
    test_beginnings();
    test_growing();
    test_full_matrix();
    test_circuit_index();
    test_forged_circuit();
    test_blinding();
    test_blinding_refusals();
    test_blinded_round();
    test_full_blinding();
    test_session_words();
    test_forged_sessions();
    test_verdicts();
    test_steps();
    test_asking();
    test_opening();
    test_declared_lengths();
    test_writing(bytes);
    test_reading(bytes);
    test_sections(bytes);
    test_stack();
    test_unread();
    test_header();
    test_example();
    printf("%d passed, %d failed\n", passed, failed);
    return failed != 0;
}
