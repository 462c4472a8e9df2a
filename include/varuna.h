/*
 * Varuna for one R1CS circuit, over the field of p = 2,013,265,921 elements: the calls of libvaruna_c.a, for C and C++. This file is
 * enough to use them; docs/CALLS.md has the same calls as tables, and "document 01" is the specification behind both.
 *
 * A verifier is the steps of a session. It hears the prover's messages, draws each challenge after the messages before it, and learns the
 * openings from the commitments that the host checks. It may ask for the verdict on them, as often as it wishes, before it commits them and
 * so closes the session. With the words of document 01's square case, whose prover knows a square root of 9:
 *
 *     #include "varuna.h"
 *
 *     int accepts(void)
 *     {
 *         uint32_t session[VARUNA_SESSION_WORDS], verdict = VARUNA_NO_VERDICT;
 *         size_t position;
 *         const uint32_t sizes[VARUNA_SIZES] = {1, 2, 1, 1, 1, 1};
 *         const uint32_t x[1] = {1};
 *         const uint32_t sigma[3] = {3, 3, 9}, eta[3] = {1, 1, 2};
 *         const uint32_t omega[3] = {VARUNA_MODULUS - 1, VARUNA_MODULUS - 1, 18}, delta[3] = {1, 1, 1};
 *         const uint32_t g_lengths[3] = {0, 0, 0};
 *         const uint32_t openings[VARUNA_OPENINGS] = {
 *             3, 19, 7, 28, 0, 0, 0, 0, 0,
 *             1, VARUNA_MODULUS - 1, VARUNA_MODULUS - 1, VARUNA_MODULUS - 1,
 *             1, VARUNA_MODULUS - 1, VARUNA_MODULUS - 1, VARUNA_MODULUS - 1,
 *             1, 1, 1, 9,
 *         };
 *
 *         varuna_session_new(session);
 *         return varuna_session_open(session, sizes, x, 1, &position) == VARUNA_DONE
 *             && varuna_session_alpha(session, 2, 4, 0, 2, &position) == VARUNA_DONE
 *             && varuna_session_eta(session, sigma, eta, &position) == VARUNA_DONE
 *             && varuna_session_beta(session, 1, 2, 3, &position) == VARUNA_DONE
 *             && varuna_session_delta(session, omega, g_lengths, delta, &position) == VARUNA_DONE
 *             && varuna_session_gamma(session, 0, 5, &position) == VARUNA_DONE
 *             && varuna_session_ask(session, openings, &verdict, &position) == VARUNA_DONE
 *             && verdict == VARUNA_ACCEPT
 *             && varuna_session_commit(session, openings, &verdict, &position) == VARUNA_DONE
 *             && verdict == VARUNA_ACCEPT;
 *     }
 *
 * ANSWERS. Every call but varuna_session_new returns VARUNA_DONE, or the number of the first refusal that applies. It sets *position to
 * the refusal's position, and to 0 where it is done. A refusal changes no other memory: no result, no slice, no session and no circuit.
 * Only *verdict is set where openings are refused, too: to VARUNA_NO_VERDICT. No call keeps anything for the next one.
 *
 * NAMES are document 01's, everywhere:
 *
 *     rows, columns, publics          the sizes |R|, |C|, |X|: the numbers of rows, of columns and of public columns
 *     |K_A|, |K_B|, |K_C|, |K|        the smallest size not below the matrix's count of entries (1 for none); the largest of the three
 *     entries_a, entries_b, entries_c the entry lists of the matrices A, B, C
 *     circuit                         a circuit that grows by the entry, in memory
 *     x, z                            the public words; the assignment, a word for each column
 *     rho                             the blinding words, one each for A, B, C
 *     r, m                            the mask word; the mask polynomial
 *     w, h0, g1, h1, ga, gb, gc, h2   polynomials that the prover sends; w is document 01's w with a hat
 *     sigma, omega                    the claimed sums and the claimed matrix values, each for A, B, C
 *     alpha, beta, gamma, eta, delta  the challenges; eta and delta have one each for A, B, C
 *
 * WORDS. A field word is below VARUNA_MODULUS. A size is a power of two from 1 to VARUNA_MAX_SIZE, and |X| is at most |C|. A polynomial is
 * its coefficients, the constant first, in exactly the length named; zeros at its end stay. An entry list has three words for each entry,
 * row, column, value: at most 1,024 entries, 3,072 words, rising by row and then by column; a row is below |R|, a column below |C|, a
 * value from 1 to p - 1. Column i is public exactly when i is a multiple of |C|/|X|; x has the words of z there, in order. Column 0 is
 * the constant: z and x begin with 1. R, C and K are the domains of sizes |R|, |C| and |K|: element i of the domain of size n is g^i with
 * g = 31^((p-1)/n).
 *
 * MEMORY. A slice is a pointer and its length in elements: words, or bytes for a record. That many elements stand at the pointer. An array
 * parameter with a length in brackets has exactly that length. No pointer is null, also where the length is 0. Pointers to words are
 * aligned to 4 bytes, pointers to size_t to 8, pointers to bytes to 1. Memory that a call writes, *position included, overlaps nothing
 * else that it is given; memory that it only reads may overlap. While a call runs nothing else writes what it is given. A wrong length is
 * refused; a breach of this paragraph is not noticed.
 *
 * A CIRCUIT THAT GROWS is its words and nothing else: a copy of them is a circuit of its own, and equal words are the same circuit. Its
 * calls take any words and reach no memory past them. What they give for words that no call made is said above them.
 *
 * THE SESSION is the host's to guard. Its words are what the verifier knows, and whoever can write them can write a session that other
 * steps would have made: the verdict is then about those. The host answers, too, for what no call can see: that each challenge is drawn
 * after the messages before it and known to the prover no earlier, that an opening is the value of a polynomial of the declared length
 * that was fixed before the point, and that the index polynomials opened are those of the circuit meant.
 *
 * PLATFORM. The archive is one object for x86-64 with the System V calling convention, as on Linux; the toolchain builds for no other
 * target. It uses the base instruction set with SSE2 registers and the red zone below the stack pointer, is position independent, and has
 * no variables: calls that write separate memory may run at the same time. It calls memcpy and memset and nothing else: no heap, no files,
 * no system calls. The stack is measured, not proved: tests/c/stack.c runs every call on more than single words at the largest sizes.
 * varuna_fifth_round took the most, 76,308 bytes, then varuna_openings, 68,340; of a session's steps the commit took 17,248, asking 13,024
 * and opening 4,248.
 */
#ifndef VARUNA_H
#define VARUNA_H

#include <stddef.h>
#include <stdint.h>

#ifdef __cplusplus
extern "C" {
#endif

/* The version of what this file declares. The first number rises when a program that used the calls as described here has to change, the
 * second when calls or constants are added, the third when only text, speed or stack change. The archive belongs to the file it came with
 * and holds no version of its own. */
#define VARUNA_VERSION "4.0.1"
#define VARUNA_VERSION_MAJOR 4
#define VARUNA_VERSION_MINOR 0
#define VARUNA_VERSION_PATCH 1

/* p, the number of elements of the field. */
#define VARUNA_MODULUS UINT32_C(2013265921)

/* The largest size. */
#define VARUNA_MAX_SIZE 1024

/* The words of an entry, and the most words of an entry list. */
#define VARUNA_ENTRY_WORDS 3
#define VARUNA_MAX_ENTRY_LIST 3072

/* The most words that varuna_evaluate takes, and varuna_evaluate_part in one part. */
#define VARUNA_MAX_COEFFICIENTS 2048

/* The words of a circuit that grows; what they mean is said above its calls. The matrices by number, and the places among the circuit's
 * words of the total of matrix n, of its counts and of its entries. */
#define VARUNA_CIRCUIT_WORDS 12294
#define VARUNA_MATRIX_A 0
#define VARUNA_MATRIX_B 1
#define VARUNA_MATRIX_C 2
#define VARUNA_TOTAL_PLACE(n) (3 + 4097 * (size_t)(n))
#define VARUNA_COUNTS_PLACE(n) (VARUNA_TOTAL_PLACE(n) + 1)
#define VARUNA_ENTRIES_PLACE(n) (VARUNA_TOTAL_PLACE(n) + 1025)

/* The words of a session; what they mean is said above the session's calls. */
#define VARUNA_SESSION_WORDS 1046

/* The sizes of a session or a record: |R|, |C|, |X|, |K_A|, |K_B|, |K_C|. */
#define VARUNA_SIZES 6

/* The openings, in order: w, m, g1, h1 at beta; h0 at alpha; h2, ga, gb, gc at gamma; then row, col, rowcol, rowcolval at gamma for A, for
 * B and for C. The opening of a polynomial without words is 0. */
#define VARUNA_OPENINGS 21

/* The sections of a record, by number, and their lengths in words. */
#define VARUNA_SECTIONS 11
#define VARUNA_SECTION_W 0   /* |C| - |X| + 1 */
#define VARUNA_SECTION_M 1   /* 2|C| */
#define VARUNA_SECTION_H0 2  /* |R| - 1 */
#define VARUNA_SECTION_S 3   /* 3: sigma */
#define VARUNA_SECTION_G1 4  /* |C| - 1 */
#define VARUNA_SECTION_H1 5  /* |C| */
#define VARUNA_SECTION_O 6   /* 3: omega */
#define VARUNA_SECTION_GA 7  /* |K_A| - 1 */
#define VARUNA_SECTION_GB 8  /* |K_B| - 1 */
#define VARUNA_SECTION_GC 9  /* |K_C| - 1 */
#define VARUNA_SECTION_H2 10 /* |K| - 1 */

/* The bytes of a record's trailer, and of the longest record. */
#define VARUNA_TRAILER_BYTES 72
#define VARUNA_MAX_RECORD_BYTES 41032

/* What a call returns: VARUNA_DONE, or the number of its refusal. Where several apply, a call gives the first in the order that stands at
 * it. Positions count from 0 in the order of the call's inputs: sizes among the sizes; lists among the lists, with slices that the call
 * fills last; field words among the field words, which the values of entries are and sizes, counts, rows, columns, declared lengths and
 * exponents are not; entries on through A, B and C. */
#define VARUNA_DONE 0
#define VARUNA_REFUSED_TURN 1       /* a session's step out of turn; position 0 */
#define VARUNA_REFUSED_END 2        /* a record under 72 bytes, not of whole words, or whose last word is not its length less 72; 0 */
#define VARUNA_REFUSED_TRAILER 3    /* a record's size, then a start, then its total length: the trailer's word, 17 for the total */
#define VARUNA_REFUSED_SIZE 4       /* a size that is not allowed, or |X| above |C|: which size */
#define VARUNA_REFUSED_LENGTH 5     /* a slice of a wrong length or too long: which list; a section above 10: its number; full matrix: 0 */
#define VARUNA_REFUSED_WORD 6       /* a field word of p or more: which word */
#define VARUNA_REFUSED_ENTRY 7      /* row or column past its domain, value 0, or not above the entry before it: which entry */
#define VARUNA_REFUSED_MASK 8       /* m does not add to 0 over C; 0 */
#define VARUNA_REFUSED_ASSIGNMENT 9 /* z fails a row: the lowest such row */
#define VARUNA_REFUSED_CHALLENGE 10 /* a challenge in its forbidden domain: 0 for alpha, 1 for beta, 2 for gamma */
#define VARUNA_REFUSED_DECLARED 11  /* a declared length above the table of messages: which one of its step */
#define VARUNA_REFUSED_INVERSE 12   /* the inverse of 0; position 0 */
#define VARUNA_REFUSED_CONSTANT 13  /* z or x whose first word is not 1; position 0 */
#define VARUNA_REFUSED_PLACE 14     /* an entry added where one stands, or removed where none stands; position 0 */
#define VARUNA_REFUSED_BLINDING 15  /* fewer than three columns to reserve, or an entry in the reserved row or columns; position 0 */

/* Verdicts, and what stands where there is none: a variable that holds 0 is no Accept. A proof that fails several checks fails the first of
 * row, line, matrix. */
#define VARUNA_NO_VERDICT 0
#define VARUNA_ACCEPT 1
#define VARUNA_FAILS_ROW 2
#define VARUNA_FAILS_LINE 3
#define VARUNA_FAILS_MATRIX 4

/* Field words. */

/* *result = a + b, a - b, a * b in the field. Refusal 6 (a 0, b 1). */
uint32_t varuna_add(uint32_t a, uint32_t b, uint32_t *result, size_t *position);
uint32_t varuna_subtract(uint32_t a, uint32_t b, uint32_t *result, size_t *position);
uint32_t varuna_multiply(uint32_t a, uint32_t b, uint32_t *result, size_t *position);

/* *result = a to the power n, for every n; n is no field word. Refusal 6. */
uint32_t varuna_power(uint32_t a, uint32_t n, uint32_t *result, size_t *position);

/* *result = 1/a, for any a but 0. Refusals 6, 12. */
uint32_t varuna_inverse(uint32_t a, uint32_t *result, size_t *position);

/* Domains and polynomials. */

/* Fills elements (list 0, n words) with the domain of size n, in order. Refusals 4, 5. */
uint32_t varuna_list_domain(uint32_t n, uint32_t *elements, size_t elements_length, size_t *position);

/* *result = the value at the point of the polynomial with these coefficients (list 0, 0 to 2,048 words). Refusals 5, 6: the coefficients,
 * then the point. */
uint32_t varuna_evaluate(const uint32_t *coefficients, size_t coefficients_length, uint32_t point, uint32_t *result, size_t *position);

/* Evaluation taken up midway, with the next part of a list of coefficients (list 0, 0 to 2,048 words): *next_sum = sum + power * the
 * part's value at the point, and *next_power = power * the point once for each word of the part. Begun with sum 0 and power 1, and given
 * the parts of a list in order, each with what the one before it gave, it ends at the value of the whole list and at the point to the
 * power of its length, however the list is cut, empty parts included; so a list may have more than 2,048 words in all. sum and power are
 * passed by value: next_sum and next_power may point to the variables that hold them. Refusals 5, 6: sum 0, power 1, point 2, then the
 * part from 3 on; a refusal changes neither result. */
uint32_t varuna_evaluate_part(uint32_t sum, uint32_t power, uint32_t point, const uint32_t *part, size_t part_length, uint32_t *next_sum,
                              uint32_t *next_power, size_t *position);

/* Fills coefficients (list 1, n words) with the polynomial that has these values (list 0, n words) on the domain of size n, in order. This
 * call and varuna_evaluate_on_domain undo each other. Refusals 4, 5, 6. */
uint32_t varuna_interpolate(uint32_t n, const uint32_t *values, size_t values_length, uint32_t *coefficients, size_t coefficients_length,
                            size_t *position);

/* Fills values (list 1, n words) with the values of the polynomial with these coefficients (list 0, n words) on the domain of size n, in
 * order. This call and varuna_interpolate undo each other. Refusals 4, 5, 6. */
uint32_t varuna_evaluate_on_domain(uint32_t n, const uint32_t *coefficients, size_t coefficients_length, uint32_t *values,
                                   size_t values_length, size_t *position);

/* The indexer. */

/* Fills the twelve index polynomials of a circuit: row, col, rowcol, rowcolval of A (lists 3 to 6, |K_A| words each), of B (lists 7 to 10,
 * |K_B|) and of C (lists 11 to 14, |K_C|). entries_a, entries_b, entries_c are lists 0 to 2, three words for each entry, at most 3,072.
 * Refusals 4, 5, 6, 7. */
uint32_t varuna_index(uint32_t rows, uint32_t columns, uint32_t publics, const uint32_t *entries_a, size_t entries_a_length,
                      const uint32_t *entries_b, size_t entries_b_length, const uint32_t *entries_c, size_t entries_c_length,
                      uint32_t *row_a, size_t row_a_length, uint32_t *col_a, size_t col_a_length, uint32_t *rowcol_a,
                      size_t rowcol_a_length, uint32_t *rowcolval_a, size_t rowcolval_a_length, uint32_t *row_b, size_t row_b_length,
                      uint32_t *col_b, size_t col_b_length, uint32_t *rowcol_b, size_t rowcol_b_length, uint32_t *rowcolval_b,
                      size_t rowcolval_b_length, uint32_t *row_c, size_t row_c_length, uint32_t *col_c, size_t col_c_length,
                      uint32_t *rowcol_c, size_t rowcol_c_length, uint32_t *rowcolval_c, size_t rowcolval_c_length, size_t *position);

/*
 * Circuits that grow by the entry. A circuit is 12,294 words that the caller keeps, in this order:
 *
 *     0 to 2                    |R|, |C|, |X|
 *     3, 4100, 8197             the totals: how many entries A, B and C have
 *     from 4, 4101, 8198 on     the counts, 1,024 words each: how many entries each row has, and 0 past |R|
 *     from 1028, 5125, 9222 on  the entries, 3,072 words each: row, column, value of each, rising by row and then by column, and zeros
 *                               after the last
 *
 * VARUNA_TOTAL_PLACE, VARUNA_COUNTS_PLACE and VARUNA_ENTRIES_PLACE give these places for matrix n: 0 is A, 1 is B, 2 is C. So the entry
 * list that the indexer and the prover's calls take stands in the circuit itself, and
 *
 *     circuit + VARUNA_ENTRIES_PLACE(n), VARUNA_ENTRY_WORDS * (size_t)circuit[VARUNA_TOTAL_PLACE(n)]
 *
 * are its pointer and its length; circuit[0], circuit[1], circuit[2] are the sizes. Either beginning sets every word, whatever the words
 * were before; the lists that varuna_circuit_begin_from takes are not those of the circuit that it fills. The words depend on the sizes
 * and the entries alone, not on the order in which entries were added and removed. Rows, columns and the number of a matrix are no field
 * words.
 *
 * Words that no call made are taken as they stand. A matrix has as many entries as its total says, but at most 1,024. Row 0 begins at
 * entry 0, and each later row where the one before it ends: as many entries on as that one's count says, but not past the last entry. The
 * row that an entry names is not looked at. The place of a column in a row is found by halving: of k entries, entry k/2 (counted from 0,
 * rounded down) is compared; where its column is below, the search goes on among those after it, else among those before it; where none
 * is left, there is the place. An entry stands at this row and column where the place is in the row and its entry has the column. Adding
 * and removing set the total and the row's count to one more or one less than the numbers of entries found in this way, and move the
 * entries from the place up to the last by one. A row of 1,024 or more is past its domain, whatever |R| is; below that a removal does not
 * look at |R| and |C|. The indexer takes the entries up to the last. No call reads or writes past the words.
 */

/* A circuit without entries. Refusal 4. */
uint32_t varuna_circuit_begin(uint32_t circuit[VARUNA_CIRCUIT_WORDS], uint32_t rows, uint32_t columns, uint32_t publics, size_t *position);

/* A circuit with the entries of lists that the indexer takes: entries_a, entries_b, entries_c are lists 0 to 2, three words for each entry,
 * at most 3,072. Refusals 4, 5, 6, 7. */
uint32_t varuna_circuit_begin_from(uint32_t circuit[VARUNA_CIRCUIT_WORDS], uint32_t rows, uint32_t columns, uint32_t publics,
                                   const uint32_t *entries_a, size_t entries_a_length, const uint32_t *entries_b, size_t entries_b_length,
                                   const uint32_t *entries_c, size_t entries_c_length, size_t *position);

/* Puts an entry into a matrix. Refusals 5, 6, 7, 14, all at position 0: a matrix that has 1,024 entries, or a number above 2; a value of p
 * or more; a row not below |R|, a column not below |C|, or value 0; a place where an entry stands. */
uint32_t varuna_circuit_add(uint32_t circuit[VARUNA_CIRCUIT_WORDS], uint32_t matrix, uint32_t row, uint32_t column, uint32_t value,
                            size_t *position);

/* Takes an entry out of a matrix. Refusal 14, at position 0: no entry stands there, which is so off the matrix, too, and for a number above
 * 2. */
uint32_t varuna_circuit_remove(uint32_t circuit[VARUNA_CIRCUIT_WORDS], uint32_t matrix, uint32_t row, uint32_t column, size_t *position);

/* Sets where the entries of a row stand, by column: they are the *length words from circuit[*start] on, three for each entry. Refusal 7, at
 * position 0: a row not below |R|, or a number above 2. */
uint32_t varuna_circuit_row(const uint32_t circuit[VARUNA_CIRCUIT_WORDS], uint32_t matrix, uint32_t row, size_t *start, size_t *length,
                            size_t *position);

/* Fills the twelve index polynomials as varuna_index does for the circuit's sizes and entry lists, with its refusals and positions:
 * 4, 5, 6, 7, of which a circuit that calls made has 5 alone, for the slices that are filled (lists 3 to 14). */
uint32_t varuna_circuit_index(const uint32_t circuit[VARUNA_CIRCUIT_WORDS], uint32_t *row_a, size_t row_a_length, uint32_t *col_a,
                              size_t col_a_length, uint32_t *rowcol_a, size_t rowcol_a_length, uint32_t *rowcolval_a,
                              size_t rowcolval_a_length, uint32_t *row_b, size_t row_b_length, uint32_t *col_b, size_t col_b_length,
                              uint32_t *rowcol_b, size_t rowcol_b_length, uint32_t *rowcolval_b, size_t rowcolval_b_length,
                              uint32_t *row_c, size_t row_c_length, uint32_t *col_c, size_t col_c_length, uint32_t *rowcol_c,
                              size_t rowcol_c_length, uint32_t *rowcolval_c, size_t rowcolval_c_length, size_t *position);

/*
 * Blinding. The last row, |R| - 1, and the three highest columns that are not public are reserved: columns |C| - 5, |C| - 3, |C| - 1 where
 * |X| is |C|/2, and |C| - 3, |C| - 2, |C| - 1 where it is less. A, B and C get an entry of value 1 in that row, A's at the lowest of these
 * columns, B's at the middle one and C's at the highest, and z gets the three words of rho there. So the row says rho[0] * rho[1] = rho[2]
 * in the field. The blinded circuit is an ordinary one for every other call: the blinded z satisfies it exactly when z satisfies the
 * circuit given and that equation holds, and its public words are those of z. |K_A|, |K_B| and |K_C| are those of the longer lists. Whoever
 * blinds draws rho[0] and rho[1] at random and sets rho[2] to their product, anew for each proof. This alone does not hide a z that can be
 * guessed, since the sum of C follows from the other two and z. A circuit that has two rows more, u * one = u and w * 0 = 0, each with
 * a column of its own that is not public, hides z whole where u and w are drawn at random too: examples/blinded.txt has them.
 */

/* Fills blinded_a, blinded_b, blinded_c (lists 4 to 6, each three words longer than its list) and blinded_z (list 7, |C| words) with the
 * entry lists and the assignment after blinding. entries_a, entries_b, entries_c are lists 0 to 2, three words for each entry, at most
 * 3,069, since the added entry must fit; z is list 3, |C| words. The words of z at the reserved columns are replaced: they must be below p
 * and may be any. The field words, in order, are the values of the entries of A, B and C, then z, then rho. Refusals 4, 5, 6, 7, 15, 13,
 * and never 9: whether z satisfies the circuit, and whether the equation for rho holds, is not looked at. 15 is at position 0: |C| - |X| is
 * below 3, or an entry stands in the reserved row or in a reserved column. Where |R| is 1 the only row is reserved, so the lists must be
 * empty. */
uint32_t varuna_blind(uint32_t rows, uint32_t columns, uint32_t publics, const uint32_t *entries_a, size_t entries_a_length,
                      const uint32_t *entries_b, size_t entries_b_length, const uint32_t *entries_c, size_t entries_c_length,
                      const uint32_t *z, size_t z_length, const uint32_t rho[3], uint32_t *blinded_a, size_t blinded_a_length,
                      uint32_t *blinded_b, size_t blinded_b_length, uint32_t *blinded_c, size_t blinded_c_length, uint32_t *blinded_z,
                      size_t blinded_z_length, size_t *position);

/*
 * The prover. Each call begins with the same inputs:
 *
 *     rows, columns, publics              sizes 0 to 2
 *     entries_a, entries_b, entries_c     lists 0 to 2: three words for each entry, at most 3,072
 *     z                                   list 3: |C| words; z[0] is 1, and every row holds: (A z)(B z) = C z
 *     r                                   the mask word
 *     m                                   list 4: 2|C| words, whose values add to 0 over C: m[0] + m[|C|] is 0 or p
 *
 * The field words, in order, are the values of the entries of A, B and C, then z, r, m, then the challenges as they stand. Refusals are
 * 4, 5, 6, 7, 8, 13, 9 and, where there are challenges, 10: alpha is outside R, beta outside C, gamma outside K.
 */

/* Round 1 fills w (list 5, |C| - |X| + 1 words) and h0 (list 6, |R| - 1 words). z has |C| words, m 2|C|. Refusals 4 to 8, 13, 9. */
uint32_t varuna_first_round(uint32_t rows, uint32_t columns, uint32_t publics, const uint32_t *entries_a, size_t entries_a_length,
                            const uint32_t *entries_b, size_t entries_b_length, const uint32_t *entries_c, size_t entries_c_length,
                            const uint32_t *z, size_t z_length, uint32_t r, const uint32_t *m, size_t m_length, uint32_t *w,
                            size_t w_length, uint32_t *h0, size_t h0_length, size_t *position);

/* Round 2 sets sigma, the sums of A, B, C at alpha. z has |C| words, m 2|C|. Refusals 4 to 8, 13, 9, 10. */
uint32_t varuna_second_round(uint32_t rows, uint32_t columns, uint32_t publics, const uint32_t *entries_a, size_t entries_a_length,
                             const uint32_t *entries_b, size_t entries_b_length, const uint32_t *entries_c, size_t entries_c_length,
                             const uint32_t *z, size_t z_length, uint32_t r, const uint32_t *m, size_t m_length, uint32_t alpha,
                             uint32_t sigma[3], size_t *position);

/* Round 3 fills g1 (list 5, |C| - 1 words) and h1 (list 6, |C| words). z has |C| words, m 2|C|. Refusals 4 to 8, 13, 9, 10. */
uint32_t varuna_third_round(uint32_t rows, uint32_t columns, uint32_t publics, const uint32_t *entries_a, size_t entries_a_length,
                            const uint32_t *entries_b, size_t entries_b_length, const uint32_t *entries_c, size_t entries_c_length,
                            const uint32_t *z, size_t z_length, uint32_t r, const uint32_t *m, size_t m_length, uint32_t alpha,
                            const uint32_t eta[3], uint32_t *g1, size_t g1_length, uint32_t *h1, size_t h1_length, size_t *position);

/* Round 4 fills ga, gb, gc (lists 5 to 7, |K_A| - 1, |K_B| - 1 and |K_C| - 1 words) and sets omega, the values of A, B, C at alpha and
 * beta. z has |C| words, m 2|C|. Refusals 4 to 8, 13, 9, 10. */
uint32_t varuna_fourth_round(uint32_t rows, uint32_t columns, uint32_t publics, const uint32_t *entries_a, size_t entries_a_length,
                             const uint32_t *entries_b, size_t entries_b_length, const uint32_t *entries_c, size_t entries_c_length,
                             const uint32_t *z, size_t z_length, uint32_t r, const uint32_t *m, size_t m_length, uint32_t alpha,
                             const uint32_t eta[3], uint32_t beta, uint32_t *ga, size_t ga_length, uint32_t *gb, size_t gb_length,
                             uint32_t *gc, size_t gc_length, uint32_t omega[3], size_t *position);

/* Round 5 fills h2 (list 5, |K| - 1 words). z has |C| words, m 2|C|. Refusals 4 to 8, 13, 9, 10. */
uint32_t varuna_fifth_round(uint32_t rows, uint32_t columns, uint32_t publics, const uint32_t *entries_a, size_t entries_a_length,
                            const uint32_t *entries_b, size_t entries_b_length, const uint32_t *entries_c, size_t entries_c_length,
                            const uint32_t *z, size_t z_length, uint32_t r, const uint32_t *m, size_t m_length, uint32_t alpha,
                            const uint32_t eta[3], uint32_t beta, const uint32_t delta[3], uint32_t *h2, size_t h2_length,
                            size_t *position);

/* Sets the 21 openings of the proof and of the index polynomials, in the order that stands at VARUNA_OPENINGS. z has |C| words, m 2|C|.
 * Refusals 4 to 8, 13, 9, 10. */
uint32_t varuna_openings(uint32_t rows, uint32_t columns, uint32_t publics, const uint32_t *entries_a, size_t entries_a_length,
                         const uint32_t *entries_b, size_t entries_b_length, const uint32_t *entries_c, size_t entries_c_length,
                         const uint32_t *z, size_t z_length, uint32_t r, const uint32_t *m, size_t m_length, uint32_t alpha,
                         const uint32_t eta[3], uint32_t beta, const uint32_t delta[3], uint32_t gamma,
                         uint32_t openings[VARUNA_OPENINGS], size_t *position);

/*
 * The verifier. A session is 1,046 words that the caller keeps, in this order:
 *
 *     0             the stage: how many steps were taken, the commit being the seventh; asking does not count
 *     1 to 6        the six sizes
 *     7 to 1030     x: the |X| public words, of which the first is 1, and zeros after them
 *     1031 to 1045  the transcript: alpha, three sigma, three eta, beta, three omega, three delta, gamma
 *
 * In a new session all words are 0. Opening leaves stage 1, the sizes, x with zeros after it, and a transcript of zeros, whatever the words
 * were before. Each later step leaves the stage one higher, its own words of the transcript set (a commit has none), and all other words
 * as they were; asking leaves every word. A refused step leaves every word as it was and may be tried again. After a commit that gave a
 * verdict every step but opening is out of turn, asking too.
 *
 * Words that no step made are judged by what they hold. Every step but opening is out of turn (1) unless the stage is the number of the
 * steps before it and the sizes are allowed. Asking and committing are out of turn, too, unless the words are such as steps leave: the
 * public words and the transcript below p, the first word of x 1, those after the public ones 0, alpha outside R, beta outside C and gamma
 * outside K. So a verdict is given only for sessions that steps can make.
 *
 * A declared length is how many words the prover's polynomial has, as its commitment says: at most the length in the table of sections.
 */

/* A session before it is opened. Opening needs none: it takes any words. */
void varuna_session_new(uint32_t session[VARUNA_SESSION_WORDS]);

/* Step 1, the six sizes and the public words x (list 0, |X| words, the first of which is 1). Refusals 4, 5, 6, 13. */
uint32_t varuna_session_open(uint32_t session[VARUNA_SESSION_WORDS], const uint32_t sizes[VARUNA_SIZES], const uint32_t *x,
                             size_t x_length, size_t *position);

/* Step 2, the declared lengths of w (at most |C| - |X| + 1), m (2|C|) and h0 (|R| - 1), then alpha, outside R. Refusals 1, 6, 10, 11. */
uint32_t varuna_session_alpha(uint32_t session[VARUNA_SESSION_WORDS], uint32_t w_length, uint32_t m_length, uint32_t h0_length,
                              uint32_t alpha, size_t *position);

/* Step 3, the three sigma (words 0 to 2), then the three eta (3 to 5). Refusals 1, 6. */
uint32_t varuna_session_eta(uint32_t session[VARUNA_SESSION_WORDS], const uint32_t sigma[3], const uint32_t eta[3], size_t *position);

/* Step 4, the declared lengths of g1 (at most |C| - 1) and h1 (|C|), then beta, outside C. Refusals 1, 6, 10, 11. */
uint32_t varuna_session_beta(uint32_t session[VARUNA_SESSION_WORDS], uint32_t g1_length, uint32_t h1_length, uint32_t beta,
                             size_t *position);

/* Step 5, the three omega (words 0 to 2), the declared lengths of ga, gb, gc (at most |K_A| - 1, |K_B| - 1, |K_C| - 1), then the three
 * delta (words 3 to 5). Refusals 1, 6, 11. */
uint32_t varuna_session_delta(uint32_t session[VARUNA_SESSION_WORDS], const uint32_t omega[3], const uint32_t g_lengths[3],
                              const uint32_t delta[3], size_t *position);

/* Step 6, the declared length of h2 (at most |K| - 1), then gamma, outside K. Refusals 1, 6, 10, 11. */
uint32_t varuna_session_gamma(uint32_t session[VARUNA_SESSION_WORDS], uint32_t h2_length, uint32_t gamma, size_t *position);

/* Before step 7, as often as wished and with other openings if wished: asks for the verdict on the 21 openings, in the order that stands at
 * VARUNA_OPENINGS. *verdict is one of the four verdicts, and VARUNA_NO_VERDICT where they are refused. Refusals 1, 6. */
uint32_t varuna_session_ask(const uint32_t session[VARUNA_SESSION_WORDS], const uint32_t openings[VARUNA_OPENINGS], uint32_t *verdict,
                            size_t *position);

/* Step 7, the 21 openings: sets *verdict as asking does for these, whatever was asked about before, and a verdict closes the session. It
 * needs no asking before it. Refusals 1, 6. */
uint32_t varuna_session_commit(uint32_t session[VARUNA_SESSION_WORDS], const uint32_t openings[VARUNA_OPENINGS], uint32_t *verdict,
                               size_t *position);

/*
 * The proof record: little-endian words; the eleven sections without gaps, then a trailer of 18 words: the eleven starts of the sections in
 * bytes, the six sizes, and the start of the trailer in bytes.
 *
 * A record holds the whole witness: w times the vanishing polynomial of X, plus the polynomial of x, has z as its values on C, whatever r
 * and m were. It is the prover's own file: others get commitments and openings only.
 */

/* Fills bytes (list 11) with the record of eleven sections (lists 0 to 10); sigma is section s and omega section o. Each section is as long
 * as stands at its number above, and bytes is four for each of their words and 72 for the trailer. Refusals 4, 5, 6. */
uint32_t varuna_write_record(const uint32_t sizes[VARUNA_SIZES], const uint32_t *w, size_t w_length, const uint32_t *m, size_t m_length,
                             const uint32_t *h0, size_t h0_length, const uint32_t *sigma, size_t sigma_length, const uint32_t *g1,
                             size_t g1_length, const uint32_t *h1, size_t h1_length, const uint32_t *omega, size_t omega_length,
                             const uint32_t *ga, size_t ga_length, const uint32_t *gb, size_t gb_length, const uint32_t *gc,
                             size_t gc_length, const uint32_t *h2, size_t h2_length, uint8_t *bytes, size_t bytes_length,
                             size_t *position);

/* Sets the six sizes of a record of any length. Refusals 2, 3, 6: the words from the record's start. */
uint32_t varuna_read_record(const uint8_t *bytes, size_t bytes_length, uint32_t sizes[VARUNA_SIZES], size_t *position);

/* Sets where section k stands in a record of any length, k from 0 to 10: *start is the place of its first byte, *length its length in
 * bytes. Refusals 2, 3, 5, 6; a k above 10 is refused by 5, at position k. */
uint32_t varuna_section(const uint8_t *bytes, size_t bytes_length, size_t k, size_t *start, size_t *length, size_t *position);

#ifdef __cplusplus
}
#endif

#endif
