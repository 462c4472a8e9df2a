/*
 * The stack that a call uses at the largest sizes: 1,024 rows and columns, 1,024 entries in each matrix, a record of the greatest length.
 * Each call runs on a stack of its own that was filled with one byte before; what it wrote over is what it used. A call must be done, not
 * refused, and use less than 256 KiB. Calls on single words have no arrays and are left out.
 */
#define _XOPEN_SOURCE 700
#include <stdio.h>
#include <string.h>
#include <ucontext.h>

#include "../../include/varuna.h"
#include "test.h"

#define N VARUNA_MAX_SIZE
#define LIMIT ((size_t)256 * 1024)
#define SIZES N, N, 1
#define RECORD_BYTES VARUNA_MAX_RECORD_BYTES

/* A[i][i] = B[i][i] = C[i][i] = 1, z all 1: every row is 1 times 1 is 1. */
static uint32_t entries[3 * N], z[N], m[2 * N];
static const uint32_t alpha = 2, beta = 3, gamma_point = 5, eta[3] = {7, 8, 9}, delta[3] = {10, 11, 12};
#define CIRCUIT SIZES, entries, 3 * N, entries, 3 * N, entries, 3 * N
#define ASSIGNED CIRCUIT, z, N, 4, m, 2 * N

/* 1,023 entries in each list, outside the last row and the last three columns, and what blinding makes of them. */
#define FREE_WORDS (3 * (N - 1))
static uint32_t free_entries[FREE_WORDS], blinded[3][3 * N], blinded_z[N];
static const uint32_t rho[3] = {13, 14, 182};

static uint32_t index_polynomials[12][N], w[N], h0[N - 1], sums[3], g1[N - 1], h1[N], values[3], g[3][N - 1], h2[N - 1];
static uint32_t circuit[VARUNA_CIRCUIT_WORDS], other_circuit[VARUNA_CIRCUIT_WORDS], other_index[12][N];
static uint32_t openings[VARUNA_OPENINGS], session[VARUNA_SESSION_WORDS], other[VARUNA_SESSION_WORDS], verdict = 77;
static uint8_t record[RECORD_BYTES];
static const uint32_t sizes[VARUNA_SIZES] = {SIZES, N, N, N}, public_sizes[VARUNA_SIZES] = {N, N, N, N, N, N};

/* What the call under test returned. */
static uint32_t number;
static size_t position;

static void list_domain(void)
{
    number = varuna_list_domain(N, w, N, &position);
}

static void evaluate(void)
{
    uint32_t value;
    number = varuna_evaluate(m, 2 * N, 3, &value, &position);
}

static void evaluate_part(void)
{
    uint32_t next_sum, next_power;
    number = varuna_evaluate_part(1, 2, 3, m, 2 * N, &next_sum, &next_power, &position);
}

static void interpolate(void)
{
    number = varuna_interpolate(N, z, N, w, N, &position);
}

static void evaluate_on_domain(void)
{
    number = varuna_evaluate_on_domain(N, z, N, w, N, &position);
}

static void indexing(void)
{
    uint32_t(*i)[N] = index_polynomials;
    number = varuna_index(CIRCUIT, i[0], N, i[1], N, i[2], N, i[3], N, i[4], N, i[5], N, i[6], N, i[7], N, i[8], N, i[9], N, i[10], N,
                          i[11], N, &position);
}

static void circuit_begin(void)
{
    number = varuna_circuit_begin(circuit, SIZES, &position);
}

static void circuit_begin_from(void)
{
    number = varuna_circuit_begin_from(circuit, CIRCUIT, &position);
}

static void circuit_remove_first(void)
{
    number = varuna_circuit_remove(circuit, VARUNA_MATRIX_C, 0, 0, &position);
}

static void circuit_add_first(void)
{
    number = varuna_circuit_add(circuit, VARUNA_MATRIX_C, 0, 0, 1, &position);
}

static void circuit_remove_last(void)
{
    number = varuna_circuit_remove(circuit, VARUNA_MATRIX_C, N - 1, N - 1, &position);
}

static void circuit_add_last(void)
{
    number = varuna_circuit_add(circuit, VARUNA_MATRIX_C, N - 1, N - 1, 1, &position);
}

static void circuit_row(void)
{
    size_t start, length;
    number = varuna_circuit_row(circuit, VARUNA_MATRIX_C, N - 1, &start, &length, &position);
}

static void circuit_index(void)
{
    uint32_t(*i)[N] = other_index;
    number = varuna_circuit_index(circuit, i[0], N, i[1], N, i[2], N, i[3], N, i[4], N, i[5], N, i[6], N, i[7], N, i[8], N, i[9], N, i[10],
                                  N, i[11], N, &position);
}

static void blinding(void)
{
    number = varuna_blind(SIZES, free_entries, FREE_WORDS, free_entries, FREE_WORDS, free_entries, FREE_WORDS, z, N, rho, blinded[0], 3 * N,
                          blinded[1], 3 * N, blinded[2], 3 * N, blinded_z, N, &position);
}

static void first_round_blinded(void)
{
    number = varuna_first_round(SIZES, blinded[0], 3 * N, blinded[1], 3 * N, blinded[2], 3 * N, blinded_z, N, 4, m, 2 * N, w, N, h0, N - 1,
                                &position);
}

static void first_round(void)
{
    number = varuna_first_round(ASSIGNED, w, N, h0, N - 1, &position);
}

static void second_round(void)
{
    number = varuna_second_round(ASSIGNED, alpha, sums, &position);
}

static void third_round(void)
{
    number = varuna_third_round(ASSIGNED, alpha, eta, g1, N - 1, h1, N, &position);
}

static void fourth_round(void)
{
    number = varuna_fourth_round(ASSIGNED, alpha, eta, beta, g[0], N - 1, g[1], N - 1, g[2], N - 1, values, &position);
}

static void fifth_round(void)
{
    number = varuna_fifth_round(ASSIGNED, alpha, eta, beta, delta, h2, N - 1, &position);
}

static void opening(void)
{
    number = varuna_openings(ASSIGNED, alpha, eta, beta, delta, gamma_point, openings, &position);
}

static void session_new(void)
{
    varuna_session_new(session);
    number = VARUNA_DONE;
}

static void session_open(void)
{
    number = varuna_session_open(session, sizes, z, 1, &position);
}

static void session_open_public(void)
{
    number = varuna_session_open(other, public_sizes, z, N, &position);
}

static void session_alpha(void)
{
    number = varuna_session_alpha(session, N, 2 * N, N - 1, alpha, &position);
}

static void session_eta(void)
{
    number = varuna_session_eta(session, sums, eta, &position);
}

static void session_beta(void)
{
    number = varuna_session_beta(session, N - 1, N, beta, &position);
}

static void session_delta(void)
{
    const uint32_t remainders[3] = {N - 1, N - 1, N - 1};
    number = varuna_session_delta(session, values, remainders, delta, &position);
}

static void session_gamma(void)
{
    number = varuna_session_gamma(session, N - 1, gamma_point, &position);
}

static void session_ask(void)
{
    number = varuna_session_ask(session, openings, &verdict, &position);
}

static void session_commit(void)
{
    number = varuna_session_commit(session, openings, &verdict, &position);
}

static void write_record(void)
{
    number = varuna_write_record(sizes, w, N, m, 2 * N, h0, N - 1, sums, 3, g1, N - 1, h1, N, values, 3, g[0], N - 1, g[1], N - 1, g[2],
                                 N - 1, h2, N - 1, record, RECORD_BYTES, &position);
}

static void read_record(void)
{
    uint32_t read[VARUNA_SIZES];
    number = varuna_read_record(record, RECORD_BYTES, read, &position);
}

static void section(void)
{
    size_t start, length;
    number = varuna_section(record, RECORD_BYTES, VARUNA_SECTION_H2, &start, &length, &position);
}

#define STACK_BYTES (4 * LIMIT)
#define UNUSED 0xA5
static _Alignas(16) unsigned char stack[STACK_BYTES];

static size_t stack_used(void (*call)(void))
{
    ucontext_t here, there;
    memset(stack, UNUSED, sizeof stack);
    getcontext(&there);
    there.uc_stack.ss_sp = stack;
    there.uc_stack.ss_size = sizeof stack;
    there.uc_link = &here;
    makecontext(&there, call, 0);
    swapcontext(&here, &there);
    size_t unused = 0;
    while (unused < sizeof stack && stack[unused] == UNUSED)
        unused++;
    return sizeof stack - unused;
}

static const struct {
    const char *name;
    void (*call)(void);
} calls[] = {
    {"list_domain", list_domain},
    {"evaluate", evaluate},
    {"evaluate_part", evaluate_part},
    {"interpolate", interpolate},
    {"evaluate_on_domain", evaluate_on_domain},
    {"index", indexing},
    {"circuit_begin", circuit_begin},
    {"circuit_begin_from with 1,024 entries in each list", circuit_begin_from},
    {"circuit_remove at the first of 1,024 places", circuit_remove_first},
    {"circuit_add at the first of 1,024 places", circuit_add_first},
    {"circuit_remove at the last of 1,024 places", circuit_remove_last},
    {"circuit_add at the last of 1,024 places", circuit_add_last},
    {"circuit_row", circuit_row},
    {"circuit_index", circuit_index},
    {"blind with 1,023 entries in each list", blinding},
    {"first_round of what was blinded", first_round_blinded},
    {"first_round", first_round},
    {"second_round", second_round},
    {"third_round", third_round},
    {"fourth_round", fourth_round},
    {"fifth_round", fifth_round},
    {"openings", opening},
    {"session_new", session_new},
    {"session_open", session_open},
    {"session_open with 1,024 public words", session_open_public},
    {"session_alpha", session_alpha},
    {"session_eta", session_eta},
    {"session_beta", session_beta},
    {"session_delta", session_delta},
    {"session_gamma", session_gamma},
    {"session_ask", session_ask},
    {"session_commit", session_commit},
    {"write_record", write_record},
    {"read_record", read_record},
    {"section", section},
};

void test_stack(void)
{
    for (size_t i = 0; i < N; i++) {
        entries[3 * i] = entries[3 * i + 1] = (uint32_t)i;
        entries[3 * i + 2] = z[i] = 1;
    }
    for (size_t i = 0; i < N - 1; i++) {
        free_entries[3 * i] = (uint32_t)i;
        free_entries[3 * i + 1] = (uint32_t)(i % (N - 3));
        free_entries[3 * i + 2] = 1;
    }
    for (size_t i = 0; i < COUNT(calls); i++) {
        char name[100];
        number = 77;
        size_t used = stack_used(calls[i].call);
        snprintf(name, sizeof name, "stack of %s, %zu bytes", calls[i].name, used);
        test(name, number == VARUNA_DONE && used < LIMIT);
    }
    test("the proof of 1,024 rows is accepted", verdict == VARUNA_ACCEPT);
    number = varuna_circuit_begin_from(other_circuit, CIRCUIT, &position);
    test("the circuit of 1,024 entries removed and added again is as it was", memcmp(circuit, other_circuit, sizeof circuit) == 0);
    test("its index is that of the lists", memcmp(other_index, index_polynomials, sizeof other_index) == 0);
}
