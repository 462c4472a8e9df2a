/*
 * A refused call stops at its first refusal: slices of up to 2^31 words in memory that may not be read or written are refused by a size, a
 * length or a field word before them, so a call that looked at one of their words would end this program. And the calls on a circuit keep
 * to its words, whatever these are: it stands at the very beginning and at the very end of memory, with such memory before it and after it.
 */
#define _DEFAULT_SOURCE /* for MAP_ANONYMOUS and MAP_NORESERVE */
#include "../../include/varuna.h"

#include <stdio.h>
#include <string.h>
#include <sys/mman.h>
#include <unistd.h>

#include "test.h"

#define WORDS ((size_t)1 << 31)

static int refused(uint32_t number, size_t position, uint32_t expected_number, size_t expected_position)
{
    return number == expected_number && position == expected_position;
}

static void test_calls(uint32_t *huge)
{
    static const uint32_t allowed[VARUNA_SIZES] = {1, 2, 1, 1, 1, 1}, not_allowed[VARUNA_SIZES] = {3, 2, 1, 1, 1, 1};
    static const uint32_t rho[3] = {VARUNA_MODULUS, VARUNA_MODULUS, VARUNA_MODULUS};
    uint32_t session[VARUNA_SESSION_WORDS], result, power;
    size_t position = 99;
    varuna_session_new(session);
    uint32_t number = varuna_session_open(session, not_allowed, huge, WORDS, &position);
    test("opening with a bad size reads no x", refused(number, position, VARUNA_REFUSED_SIZE, 0));
    number = varuna_session_open(session, allowed, huge, WORDS, &position);
    test("opening with too long an x reads none of it", refused(number, position, VARUNA_REFUSED_LENGTH, 0));
    number = varuna_evaluate(huge, WORDS, VARUNA_MODULUS, &result, &position);
    test("evaluating too many words reads none", refused(number, position, VARUNA_REFUSED_LENGTH, 0));
    number = varuna_evaluate_part(VARUNA_MODULUS, VARUNA_MODULUS, VARUNA_MODULUS, huge, WORDS, &result, &power, &position);
    test("evaluating too long a part reads none of it", refused(number, position, VARUNA_REFUSED_LENGTH, 0));
    number = varuna_evaluate_part(0, 1, VARUNA_MODULUS, huge, 4, &result, &power, &position);
    test("evaluating a part at point p reads none of it", refused(number, position, VARUNA_REFUSED_WORD, 2));
    number = varuna_interpolate(3, huge, WORDS, huge, WORDS, &position);
    test("interpolating on no size reads nothing", refused(number, position, VARUNA_REFUSED_SIZE, 0));
    number = varuna_interpolate(2, huge, 2, huge, WORDS, &position);
    test("interpolating into a wrong length reads nothing", refused(number, position, VARUNA_REFUSED_LENGTH, 1));
    number = varuna_evaluate_on_domain(3, huge, WORDS, huge, WORDS, &position);
    test("evaluating on no domain reads nothing", refused(number, position, VARUNA_REFUSED_SIZE, 0));
    number = varuna_evaluate_on_domain(2, huge, WORDS, huge, 2, &position);
    test("evaluating too many words on a domain reads none", refused(number, position, VARUNA_REFUSED_LENGTH, 0));
    number = varuna_evaluate_on_domain(2, huge, 2, huge, WORDS, &position);
    test("evaluating on a domain into a wrong length reads nothing", refused(number, position, VARUNA_REFUSED_LENGTH, 1));
    number = varuna_list_domain(2, huge, WORDS, &position);
    test("listing into a wrong length writes nothing", refused(number, position, VARUNA_REFUSED_LENGTH, 0));
    number = varuna_circuit_begin(huge, 3, 2, 1, &position);
    test("beginning a circuit with a bad size writes nothing", refused(number, position, VARUNA_REFUSED_SIZE, 0));
    number = varuna_circuit_begin_from(huge, 1, 2, 4, huge, WORDS, huge, 3, huge, 3, &position);
    test("beginning a circuit from lists with a bad size reads nothing", refused(number, position, VARUNA_REFUSED_SIZE, 2));
    number = varuna_circuit_begin_from(huge, 1, 2, 1, huge, 3, huge, 3, huge, WORDS, &position);
    test("beginning a circuit from too long a list reads nothing", refused(number, position, VARUNA_REFUSED_LENGTH, 2));
    number = varuna_blind(2, 8, 16, huge, WORDS, huge, 3, huge, 3, huge, 8, rho, huge, WORDS, huge, 6, huge, 6, huge, 8, &position);
    test("blinding with a bad size reads nothing", refused(number, position, VARUNA_REFUSED_SIZE, 2));
    number = varuna_blind(2, 8, 2, huge, 3, huge, WORDS - 2, huge, 3, huge, 8, rho, huge, 6, huge, WORDS + 1, huge, 6, huge, 8, &position);
    test("blinding too long a list reads nothing", refused(number, position, VARUNA_REFUSED_LENGTH, 1));
    number = varuna_blind(2, 8, 2, huge, 3, huge, 3, huge, 3, huge, WORDS, rho, huge, 6, huge, 6, huge, 6, huge, WORDS, &position);
    test("blinding too long a z reads none of it", refused(number, position, VARUNA_REFUSED_LENGTH, 3));
    number = varuna_blind(2, 8, 2, huge, 3, huge, 3, huge, 3, huge, 8, rho, huge, 6, huge, 6, huge, 6, huge, WORDS, &position);
    test("blinding into a wrong length reads nothing", refused(number, position, VARUNA_REFUSED_LENGTH, 7));
    number = varuna_first_round(1, 2, 1, huge, 3, huge, 3, huge, 3, huge, 2, VARUNA_MODULUS, huge, 4, huge, 2, huge, 1, &position);
    test("a round with a wrong length reads nothing", refused(number, position, VARUNA_REFUSED_LENGTH, 6));
    number = varuna_write_record(allowed, huge, 2, huge, 4, huge, 0, huge, 3, huge, 1, huge, 2, huge, 3, huge, 0, huge, 0, huge, 0, huge, 0,
                                 (uint8_t *)huge, WORDS, &position);
    test("writing into a wrong length reads nothing", refused(number, position, VARUNA_REFUSED_LENGTH, 11));
    number = varuna_read_record((const uint8_t *)huge, WORDS + 1, session, &position);
    test("reading a record of no whole words reads nothing", refused(number, position, VARUNA_REFUSED_END, 0));
}

#define CIRCUIT_BYTES (VARUNA_CIRCUIT_WORDS * sizeof(uint32_t))

/* The first row, the last, and those past it; what is answered depends on the words, and that it is answered is what is tested. */
static const uint32_t rows[] = {0, 1, 511, 1022, 1023, 1024, 1025, UINT32_MAX};

static size_t look_at_rows(const uint32_t *circuit, uint32_t matrix)
{
    size_t inside = 0, start, length, position;
    for (size_t i = 0; i < COUNT(rows); i++) {
        start = length = 0;
        uint32_t number = varuna_circuit_row(circuit, matrix, rows[i], &start, &length, &position);
        inside += number == VARUNA_DONE ? start + length <= VARUNA_CIRCUIT_WORDS : start == 0 && length == 0;
    }
    return inside;
}

static uint32_t index_circuit(const uint32_t *circuit)
{
    static uint32_t p[12][VARUNA_MAX_SIZE];
    size_t n = VARUNA_MAX_SIZE, position;
    return varuna_circuit_index(circuit, p[0], n, p[1], n, p[2], n, p[3], n, p[4], n, p[5], n, p[6], n, p[7], n, p[8], n, p[9], n, p[10], n,
                                p[11], n, &position);
}

/* Every call on the circuit at this place, with every word of it the same at first. */
static int keeps_to(uint32_t *circuit, uint32_t word)
{
    size_t inside = 0, position;
    for (size_t i = 0; i < VARUNA_CIRCUIT_WORDS; i++)
        circuit[i] = word;
    int indexed = index_circuit(circuit) <= VARUNA_REFUSED_ENTRY;
    for (uint32_t matrix = 0; matrix <= 3; matrix++) {
        for (size_t i = 0; i < COUNT(rows); i++) {
            varuna_circuit_remove(circuit, matrix, rows[i], word, &position);
            varuna_circuit_add(circuit, matrix, rows[i], word / 2, 1, &position);
            varuna_circuit_add(circuit, matrix, rows[i], word - 1, 1, &position);
            varuna_circuit_remove(circuit, matrix, rows[i], 0, &position);
        }
        inside += look_at_rows(circuit, matrix);
    }
    return indexed && inside == 4 * COUNT(rows);
}

/* Full matrices at this place: begun from lists, emptied from the last place on, filled from the first on. */
static int fills(uint32_t *circuit)
{
    static uint32_t list[VARUNA_MAX_ENTRY_LIST], full[VARUNA_CIRCUIT_WORDS];
    const uint32_t n = VARUNA_MAX_SIZE;
    size_t position;
    int done = varuna_circuit_begin(circuit, n, n, n, &position) == VARUNA_DONE;
    for (uint32_t i = 0; i < n; i++) {
        list[3 * i] = list[3 * i + 1] = i;
        list[3 * i + 2] = i + 1;
    }
    done = done && varuna_circuit_begin_from(circuit, n, n, n, list, 3 * n, list, 3 * n, list, 3 * n, &position) == VARUNA_DONE;
    memcpy(full, circuit, CIRCUIT_BYTES);
    for (uint32_t matrix = 0; matrix < 3; matrix++) {
        for (uint32_t i = n; i-- > 0;)
            done = done && varuna_circuit_remove(circuit, matrix, i, i, &position) == VARUNA_DONE;
        for (uint32_t i = 0; i < n; i++)
            done = done && varuna_circuit_add(circuit, matrix, i, i, i + 1, &position) == VARUNA_DONE;
        done = done && varuna_circuit_add(circuit, matrix, 0, 1, 1, &position) == VARUNA_REFUSED_LENGTH;
        done = done && look_at_rows(circuit, matrix) == COUNT(rows);
    }
    return done && memcmp(full, circuit, CIRCUIT_BYTES) == 0;
}

/* Full matrices where nothing may be written: the calls that look are done. */
static int reads_only(uint32_t *circuit, void *memory, size_t bytes)
{
    int done = fills(circuit) && mprotect(memory, bytes, PROT_READ) == 0;
    done = done && index_circuit(circuit) == VARUNA_DONE && look_at_rows(circuit, VARUNA_MATRIX_A) == COUNT(rows);
    return mprotect(memory, bytes, PROT_READ | PROT_WRITE) == 0 && done;
}

static void test_circuit_at(const char *where, uint32_t *circuit)
{
    static const uint32_t words[] = {0, 1, 2, 3, 512, 1023, 1024, 1025, UINT32_C(1) << 31, UINT32_MAX};
    char name[80];
    int all = 1;
    for (size_t i = 0; i < COUNT(words); i++)
        all = keeps_to(circuit, words[i]) && all;
    snprintf(name, sizeof name, "calls on any words keep to them at the %s of memory", where);
    test(name, all);
    snprintf(name, sizeof name, "calls on full matrices keep to the circuit at the %s of memory", where);
    test(name, fills(circuit));
}

/* A circuit that ends where memory ends, and one that begins where it begins. */
static void test_circuits(void)
{
    size_t page = (size_t)sysconf(_SC_PAGESIZE), bytes = (CIRCUIT_BYTES + page - 1) / page * page;
    char *whole = mmap(NULL, bytes + 2 * page, PROT_NONE, MAP_PRIVATE | MAP_ANONYMOUS, -1, 0);
    int is_there = whole != MAP_FAILED && mprotect(whole + page, bytes, PROT_READ | PROT_WRITE) == 0;
    test("memory between what may not be touched", is_there);
    if (!is_there)
        return;
    uint32_t *first = (uint32_t *)(void *)(whole + page), *last = (uint32_t *)(void *)(whole + page + bytes - CIRCUIT_BYTES);
    test_circuit_at("beginning", first);
    test_circuit_at("end", last);
    test("calls that look at a circuit write none of it", reads_only(first, first, bytes) && reads_only(last, first, bytes));
    munmap(whole, bytes + 2 * page);
}

void test_unread(void)
{
    test_circuits();
    void *huge = mmap(NULL, WORDS * sizeof(uint32_t), PROT_NONE, MAP_PRIVATE | MAP_ANONYMOUS | MAP_NORESERVE, -1, 0);
    test("memory that may not be touched", huge != MAP_FAILED);
    if (huge == MAP_FAILED)
        return;
    test_calls(huge);
    munmap(huge, WORDS * sizeof(uint32_t));
}
