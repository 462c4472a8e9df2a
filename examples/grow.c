/*
 * A circuit that grows by the entry: that of README.md's "Write your own circuit", whose prover knows an x with x^3 + x + 5 = total.
 *
 *     rt staticlib varuna_c
 *     cc -I include -o grow examples/grow.c target/staticlib/libvaruna_c.a && ./grow
 *
 * prints what stands in grow.out.
 */
#include <stdio.h>
#include <stdlib.h>
#include <string.h>

#include "varuna.h"

enum { A = VARUNA_MATRIX_A, B = VARUNA_MATRIX_B, C = VARUNA_MATRIX_C };
enum { ONE, X, SQUARE, CUBE, TOTAL };

/* Matrix, row, column, value of each entry, in the order in which one may think of them; the circuit keeps them sorted. */
static const uint32_t entries[][4] = {
    {C, 2, TOTAL, 1}, {A, 2, CUBE, 1}, {A, 2, X, 1}, {A, 2, ONE, 5}, {B, 2, ONE, 1}, /* (5 * one + x + cube) * one = total */
    {A, 1, SQUARE, 1}, {B, 1, X, 1}, {C, 1, CUBE, 1},                                /* square * x = cube */
    {B, 0, X, 1}, {A, 0, X, 1}, {C, 0, SQUARE, 1},                                   /* x * x = square */
};

static uint32_t circuit[VARUNA_CIRCUIT_WORDS], before[VARUNA_CIRCUIT_WORDS];
static size_t position;

/* A refusal that is not expected ends the program. */
static void must(uint32_t number)
{
    if (number != VARUNA_DONE) {
        printf("refused %u %zu\n", (unsigned)number, position);
        exit(EXIT_FAILURE);
    }
}

static void print_entries(const char *name, const uint32_t *words, size_t length)
{
    printf("%s:", name);
    for (size_t i = 0; i < length; i += VARUNA_ENTRY_WORDS)
        printf("%s %u %u %u", i == 0 ? "" : ",", (unsigned)words[i], (unsigned)words[i + 1], (unsigned)words[i + 2]);
    printf("\n");
}

/* The entries of a matrix, as the indexer and the prover's calls take them. */
static void print_matrix(const char *name, uint32_t matrix)
{
    print_entries(name, circuit + VARUNA_ENTRIES_PLACE(matrix), VARUNA_ENTRY_WORDS * (size_t)circuit[VARUNA_TOTAL_PLACE(matrix)]);
}

static void print_row(const char *name, uint32_t matrix, uint32_t row)
{
    size_t start, length;
    must(varuna_circuit_row(circuit, matrix, row, &start, &length, &position));
    print_entries(name, circuit + start, length);
}

static void print_polynomial(const char *name, const uint32_t *words, size_t length)
{
    printf("%s:", name);
    for (size_t i = 0; i < length; i++)
        printf(" %u", (unsigned)words[i]);
    printf("\n");
}

int main(void)
{
    must(varuna_circuit_begin(circuit, 4, 8, 2, &position));
    for (size_t i = 0; i < sizeof entries / sizeof entries[0]; i++)
        must(varuna_circuit_add(circuit, entries[i][0], entries[i][1], entries[i][2], entries[i][3], &position));
    print_matrix("A", A);
    print_matrix("B", B);
    print_matrix("C", C);

    uint32_t number = varuna_circuit_add(circuit, A, 2, X, 7, &position);
    printf("7 x in row 2 of A, where x stands: refused %u %zu\n", (unsigned)number, position);

    print_row("row 2 of A", A, 2);
    memcpy(before, circuit, sizeof circuit);
    must(varuna_circuit_remove(circuit, A, 2, X, &position));
    print_row("row 2 of A without x", A, 2);
    must(varuna_circuit_add(circuit, A, 2, X, 1, &position));
    print_row("row 2 of A with x", A, 2);
    printf("the words are %s before\n", memcmp(before, circuit, sizeof circuit) == 0 ? "as" : "not as");

    /* A has 5 entries, so |K_A| = 8; B and C have 3 each, so |K_B| = |K_C| = 4. */
    uint32_t a[4][8], b[4][4], c[4][4];
    must(varuna_circuit_index(circuit, a[0], 8, a[1], 8, a[2], 8, a[3], 8, b[0], 4, b[1], 4, b[2], 4, b[3], 4, c[0], 4, c[1], 4, c[2], 4,
                              c[3], 4, &position));
    print_polynomial("row of A", a[0], 8);
    print_polynomial("col of A", a[1], 8);
    print_polynomial("rowcol of A", a[2], 8);
    print_polynomial("rowcolval of A", a[3], 8);
    print_polynomial("rowcolval of B", b[3], 4);
    print_polynomial("rowcolval of C", c[3], 4);
    return EXIT_SUCCESS;
}
