/*
 * The header in C++: the verifier that its opening comment shows, line by line, and a call of each other kind. What fails here at first
 * is the compiler, where the header is no C++, or the linker, where a call is not declared as C.
 */
#include "../../include/varuna.h"
#include "test.h"

static int accepts()
{
    uint32_t session[VARUNA_SESSION_WORDS], verdict = VARUNA_NO_VERDICT;
    size_t position;
    const uint32_t sizes[VARUNA_SIZES] = {1, 2, 1, 1, 1, 1};
    const uint32_t x[1] = {1};
    const uint32_t sigma[3] = {3, 3, 9}, eta[3] = {1, 1, 2};
    const uint32_t omega[3] = {VARUNA_MODULUS - 1, VARUNA_MODULUS - 1, 18}, delta[3] = {1, 1, 1};
    const uint32_t g_lengths[3] = {0, 0, 0};
    const uint32_t openings[VARUNA_OPENINGS] = {
        3, 19, 7, 28, 0, 0, 0, 0, 0,
        1, VARUNA_MODULUS - 1, VARUNA_MODULUS - 1, VARUNA_MODULUS - 1,
        1, VARUNA_MODULUS - 1, VARUNA_MODULUS - 1, VARUNA_MODULUS - 1,
        1, 1, 1, 9,
    };

    varuna_session_new(session);
    return varuna_session_open(session, sizes, x, 1, &position) == VARUNA_DONE
        && varuna_session_alpha(session, 2, 4, 0, 2, &position) == VARUNA_DONE
        && varuna_session_eta(session, sigma, eta, &position) == VARUNA_DONE
        && varuna_session_beta(session, 1, 2, 3, &position) == VARUNA_DONE
        && varuna_session_delta(session, omega, g_lengths, delta, &position) == VARUNA_DONE
        && varuna_session_gamma(session, 0, 5, &position) == VARUNA_DONE
        && varuna_session_ask(session, openings, &verdict, &position) == VARUNA_DONE
        && verdict == VARUNA_ACCEPT
        && varuna_session_commit(session, openings, &verdict, &position) == VARUNA_DONE
        && verdict == VARUNA_ACCEPT;
}

static int gives_and_refuses()
{
    uint32_t result = 77, elements[2] = {77, 78}, sizes[VARUNA_SIZES] = {};
    uint8_t bytes[VARUNA_TRAILER_BYTES - 1] = {};
    size_t position = 99;
    return varuna_inverse(2, &result, &position) == VARUNA_DONE && result == 1006632961
        && varuna_list_domain(2, elements, 2, &position) == VARUNA_DONE && elements[1] == VARUNA_MODULUS - 1
        && varuna_read_record(bytes, sizeof bytes, sizes, &position) == VARUNA_REFUSED_END && position == 0;
}

static int evaluates_in_parts()
{
    const uint32_t list[5] = {3, 0, 2, 4, 5};
    uint32_t sum = 0, power = 1;
    size_t position = 99;
    return varuna_evaluate_part(sum, power, 10, list, 3, &sum, &power, &position) == VARUNA_DONE && sum == 203 && power == 1000
        && varuna_evaluate_part(sum, VARUNA_MODULUS, 10, list + 3, 2, &sum, &power, &position) == VARUNA_REFUSED_WORD && position == 1
        && varuna_evaluate_part(sum, power, 10, list + 3, 2, &sum, &power, &position) == VARUNA_DONE && sum == 54203 && power == 100000;
}

static int transforms()
{
    const uint32_t coefficients[2] = {6, 3};
    uint32_t values[2] = {77, 78}, back[2] = {77, 78};
    size_t position = 99;
    return varuna_evaluate_on_domain(2, coefficients, 2, values, 1, &position) == VARUNA_REFUSED_LENGTH && position == 1 && values[0] == 77
        && varuna_evaluate_on_domain(2, coefficients, 2, values, 2, &position) == VARUNA_DONE && values[0] == 9 && values[1] == 3
        && varuna_interpolate(2, values, 2, back, 2, &position) == VARUNA_DONE && back[0] == 6 && back[1] == 3;
}

static int grows()
{
    static uint32_t circuit[VARUNA_CIRCUIT_WORDS];
    size_t start = 77, length = 78, position = 99;
    return varuna_circuit_begin(circuit, 1, 2, 1, &position) == VARUNA_DONE
        && varuna_circuit_add(circuit, VARUNA_MATRIX_C, 0, 0, 9, &position) == VARUNA_DONE
        && varuna_circuit_add(circuit, VARUNA_MATRIX_C, 0, 0, 9, &position) == VARUNA_REFUSED_PLACE
        && varuna_circuit_row(circuit, VARUNA_MATRIX_C, 0, &start, &length, &position) == VARUNA_DONE
        && start == VARUNA_ENTRIES_PLACE(VARUNA_MATRIX_C) && length == VARUNA_ENTRY_WORDS && circuit[start + 2] == 9
        && varuna_circuit_remove(circuit, VARUNA_MATRIX_C, 0, 0, &position) == VARUNA_DONE;
}

static int blinds()
{
    const uint32_t entry[VARUNA_ENTRY_WORDS] = {0, 0, 9}, z[4] = {1, 7, 7, 7}, rho[3] = {2, 3, 6};
    uint32_t a[3] = {}, b[3] = {}, c[6] = {}, blinded_z[4] = {};
    size_t position = 99;
    return varuna_blind(1, 4, 1, entry, 0, entry, 0, entry, 3, z, 4, rho, a, 3, b, 3, c, 6, blinded_z, 4, &position)
            == VARUNA_REFUSED_BLINDING && position == 0 && a[2] == 0 && blinded_z[0] == 0
        && varuna_blind(2, 4, 1, entry, 0, entry, 0, entry, 3, z, 4, rho, a, 3, b, 3, c, 6, blinded_z, 4, &position) == VARUNA_DONE
        && a[0] == 1 && a[1] == 1 && b[1] == 2 && c[2] == 9 && c[4] == 3 && c[5] == 1 && blinded_z[0] == 1 && blinded_z[3] == 6;
}

void test_header()
{
    test("the header's verifier, in C++", accepts());
    test("calls from C++", gives_and_refuses());
    test("a list in parts from C++", evaluates_in_parts());
    test("values on a domain and back from C++", transforms());
    test("a circuit that grows from C++", grows());
    test("blinding from C++", blinds());
}
