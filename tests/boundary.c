/* The header against the library, from C: the version, the numbers, the texts, every function called once with all that it may be lent, and
 * with null where the length is 0. Compiles as C99, as C11 and as C++17. Prints what is wrong; the exit status is 1 if anything is.
 *
 * tools/installed builds and runs it.
 */
#include <stdio.h>
#include <string.h>

#include "claspotter.h"

static int wrong = 0;

#define SAME(given, expected) same(__LINE__, #given, (long long)(given), (long long)(expected))

static void same(int line, const char *what, long long given, long long expected) {
    if (given != expected) {
        printf("boundary: line %d: %s is %lld, and not %lld\n", line, what, given, expected);
        wrong = 1;
    }
}

static void version_and_constants(void) {
    char text[40];
    snprintf(text, sizeof text, "%d.%d.%d", CLASPOTTER_VERSION_MAJOR, CLASPOTTER_VERSION_MINOR, CLASPOTTER_VERSION_PATCH);
    SAME(strcmp(text, CLASPOTTER_VERSION_STRING), 0);
    SAME(claspotter_version(), CLASPOTTER_VERSION);
    SAME(CLASPOTTER_VERSION, 1000000 * CLASPOTTER_VERSION_MAJOR + 1000 * CLASPOTTER_VERSION_MINOR + CLASPOTTER_VERSION_PATCH);
    SAME(CLASPOTTER_MAX_ORDER, 32);
    SAME(CLASPOTTER_MAX_RECORD_BYTES, (4 + 5 + 64 + 5 + 32 * CLASPOTTER_MAX_ORDER + 7) / 8);
}

static void texts(void) {
    uint32_t i, j;
    for (i = 0; i <= 12; i++) {
        SAME(strlen(claspotter_refusal_text(i)) > 0, 1);
        for (j = 0; j < i; j++) {
            SAME(strcmp(claspotter_refusal_text(i), claspotter_refusal_text(j)) != 0, 1);
        }
    }
    SAME(strcmp(claspotter_refusal_text(CLASPOTTER_NO_ROOM + 1), claspotter_refusal_text(UINT32_MAX)), 0);
}

/* For one width: a prediction by floor((4x + 3) / 4), which is the last sample; every way to decode; the same over bytes; a bias that only
 * 64 bits hold; and null wherever a length is 0. */
#define CODING(W, TYPE) \
    static void coding_##W(void) { \
        const int32_t weights[1] = {4}, none[6] = {0, 0, 0, 0, 0, 0}; \
        const uint8_t weight_bytes[4] = {4, 0, 0, 0}, none_bytes[24] = {0}; \
        const TYPE mid = (TYPE)((uint64_t)1 << (W - 1)); \
        TYPE samples[3] = {10, 12, 11}, state[1] = {0}, six[6] = {1, 2, 3, 4, 5, 6}, piece[1]; \
        uint8_t bytes[3 * W / 8], state_bytes[W / 8], six_bytes[6 * W / 8]; \
        size_t i; \
        SAME(claspotter_encode_u##W(1, 2, 3, weights, 1, samples, 3, state, 1), CLASPOTTER_DONE); \
        SAME(state[0], 10); \
        SAME(samples[0], (TYPE)(mid + 10)); \
        SAME(samples[1], (TYPE)(mid + 2)); \
        SAME(samples[2], (TYPE)(mid - 1)); \
        SAME(claspotter_decode_u##W(1, 2, 3, weights, 1, state, 1, samples + 1, 1), CLASPOTTER_DONE); \
        SAME(claspotter_decode_general_u##W(1, 2, 3, weights, 1, state, 1, samples + 2, 1), CLASPOTTER_DONE); \
        SAME(samples[1], 10); \
        SAME(samples[2], 12); \
        SAME(state[0], 11); \
        piece[0] = mid; \
        SAME(claspotter_decode_order_6_u##W(6, 3, 61, none, 6, six, 6, piece, 1), CLASPOTTER_DONE); \
        SAME(piece[0], 1); \
        SAME(six[5], 7); \
        memset(bytes, 0, sizeof bytes); \
        for (i = 0; i < 3; i++) { \
            bytes[i * (W / 8)] = (uint8_t)(10 + i); \
        } \
        memset(state_bytes, 0, sizeof state_bytes); \
        SAME(claspotter_encode_bytes_##W(1, 2, 3, weight_bytes, 4, bytes, sizeof bytes, state_bytes, W / 8), CLASPOTTER_DONE); \
        SAME(state_bytes[0], 10); \
        SAME(bytes[2 * W / 8 - 1], W == 8 ? 129 : 128); \
        SAME(claspotter_decode_bytes_##W(1, 2, 3, weight_bytes, 4, state_bytes, W / 8, bytes + W / 8, W / 8), CLASPOTTER_DONE); \
        SAME(claspotter_decode_general_bytes_##W(1, 2, 3, weight_bytes, 4, state_bytes, W / 8, bytes + 2 * W / 8, W / 8), CLASPOTTER_DONE); \
        SAME(bytes[W / 8], 10); \
        SAME(bytes[2 * W / 8], 11); \
        SAME(state_bytes[0], 12); \
        memset(six_bytes, 0, sizeof six_bytes); \
        memset(bytes, 0, sizeof bytes); \
        bytes[W / 8 - 1] = 128; \
        SAME(claspotter_decode_order_6_bytes_##W(6, 3, 61, none_bytes, 24, six_bytes, 6 * W / 8, bytes, W / 8), CLASPOTTER_DONE); \
        SAME(six_bytes[5 * W / 8], 7); \
        SAME(claspotter_encode_u##W(1, 2, INT64_MIN, weights, 1, samples, 3, state, 1), CLASPOTTER_OVERFLOWS); \
        SAME(claspotter_decode_u##W(1, 2, INT64_MIN, weights, 1, state, 1, samples, 3), CLASPOTTER_OVERFLOWS); \
        SAME(claspotter_decode_general_u##W(1, 2, INT64_MIN, weights, 1, state, 1, samples, 3), CLASPOTTER_OVERFLOWS); \
        SAME(claspotter_decode_order_6_u##W(6, 3, INT64_MIN, none, 6, six, 6, samples, 3), CLASPOTTER_OVERFLOWS); \
        SAME(claspotter_encode_bytes_##W(1, 2, INT64_MIN, weight_bytes, 4, bytes, W / 8, state_bytes, W / 8), CLASPOTTER_OVERFLOWS); \
        SAME(claspotter_decode_bytes_##W(1, 2, INT64_MIN, weight_bytes, 4, state_bytes, W / 8, bytes, W / 8), CLASPOTTER_OVERFLOWS); \
        SAME(claspotter_decode_general_bytes_##W(1, 2, INT64_MIN, weight_bytes, 4, state_bytes, W / 8, bytes, W / 8), CLASPOTTER_OVERFLOWS); \
        SAME(claspotter_decode_order_6_bytes_##W(6, 3, INT64_MIN, none_bytes, 24, six_bytes, 6 * W / 8, bytes, W / 8), CLASPOTTER_OVERFLOWS); \
        /* null, with length 0 */ \
        SAME(claspotter_admits_##W(0, NULL, 0), CLASPOTTER_DONE); \
        SAME(claspotter_admits_##W(INT64_MIN, NULL, 0), CLASPOTTER_OVERFLOWS); \
        SAME(claspotter_encode_u##W(0, 0, 0, NULL, 0, NULL, 0, NULL, 0), CLASPOTTER_BAD_ORDER); \
        SAME(claspotter_encode_u##W(1, 0, 0, NULL, 0, samples, 3, state, 1), CLASPOTTER_BAD_LENGTH); \
        SAME(claspotter_encode_u##W(1, 2, 3, weights, 1, samples, 3, NULL, 0), CLASPOTTER_BAD_LENGTH); \
        SAME(claspotter_encode_u##W(1, 2, 3, weights, 1, NULL, 0, state, 1), CLASPOTTER_TOO_FEW_SAMPLES); \
        SAME(claspotter_decode_u##W(1, 2, 3, weights, 1, state, 1, NULL, 0), CLASPOTTER_DONE); \
        SAME(claspotter_decode_u##W(6, 0, 0, none, 6, six, 6, NULL, 0), CLASPOTTER_DONE); \
        SAME(claspotter_decode_u##W(1, 0, 0, NULL, 0, NULL, 0, NULL, 0), CLASPOTTER_BAD_LENGTH); \
        SAME(claspotter_decode_general_u##W(1, 2, 3, weights, 1, state, 1, NULL, 0), CLASPOTTER_DONE); \
        SAME(claspotter_decode_general_u##W(1, 2, 3, weights, 1, NULL, 0, NULL, 0), CLASPOTTER_BAD_LENGTH); \
        SAME(claspotter_decode_order_6_u##W(6, 0, 0, none, 6, six, 6, NULL, 0), CLASPOTTER_DONE); \
        SAME(claspotter_decode_order_6_u##W(6, 0, 0, NULL, 0, NULL, 0, NULL, 0), CLASPOTTER_BAD_LENGTH); \
        SAME(claspotter_encode_bytes_##W(1, 0, 0, NULL, 0, NULL, 0, NULL, 0), CLASPOTTER_BAD_LENGTH); \
        SAME(claspotter_encode_bytes_##W(1, 2, 3, weight_bytes, 4, NULL, 0, state_bytes, W / 8), CLASPOTTER_TOO_FEW_SAMPLES); \
        SAME(claspotter_decode_bytes_##W(1, 2, 3, weight_bytes, 4, state_bytes, W / 8, NULL, 0), CLASPOTTER_DONE); \
        SAME(claspotter_decode_bytes_##W(6, 0, 0, none_bytes, 24, six_bytes, 6 * W / 8, NULL, 0), CLASPOTTER_DONE); \
        SAME(claspotter_decode_bytes_##W(1, 0, 0, NULL, 0, NULL, 0, NULL, 0), CLASPOTTER_BAD_LENGTH); \
        SAME(claspotter_decode_general_bytes_##W(1, 2, 3, weight_bytes, 4, state_bytes, W / 8, NULL, 0), CLASPOTTER_DONE); \
        SAME(claspotter_decode_general_bytes_##W(1, 0, 0, NULL, 0, NULL, 0, NULL, 0), CLASPOTTER_BAD_LENGTH); \
        SAME(claspotter_decode_order_6_bytes_##W(6, 0, 0, none_bytes, 24, six_bytes, 6 * W / 8, NULL, 0), CLASPOTTER_DONE); \
        SAME(claspotter_decode_order_6_bytes_##W(6, 0, 0, NULL, 0, NULL, 0, NULL, 0), CLASPOTTER_BAD_LENGTH); \
        SAME(state[0], 11); \
        SAME(six[5], 7); \
        SAME(state_bytes[0], 12); \
    }

CODING(8, uint8_t)
CODING(16, uint16_t)
CODING(32, uint32_t)

#define QUANTISING(W, SHIFT, WEIGHT) \
    static void quantising_##W(void) { \
        const double fitted[1] = {1.0}; \
        int32_t weights[1] = {9}; \
        uint32_t shift = 9; \
        int64_t bias = 9; \
        SAME(claspotter_quantise_##W(1, NULL, 0, 0.0, 100, NULL, 0, &shift, &bias), CLASPOTTER_BAD_LENGTH); \
        SAME(shift, 0); \
        SAME(bias, 0); \
        SAME(claspotter_quantise_##W(0, NULL, 0, 0.0, 100, NULL, 0, &shift, &bias), CLASPOTTER_BAD_ORDER); \
        SAME(claspotter_quantise_##W(1, fitted, 1, 1e308 * 10, 100, weights, 1, &shift, &bias), CLASPOTTER_NO_CONFIGURATION); \
        SAME(weights[0], 9); \
        SAME(claspotter_quantise_##W(1, fitted, 1, 1.5, 100, weights, 1, &shift, &bias), CLASPOTTER_DONE); \
        SAME(shift, SHIFT); \
        SAME(weights[0], WEIGHT); \
        SAME(bias, (int64_t)3 << (SHIFT - 1)); \
        SAME(claspotter_admits_##W(bias, weights, 1), CLASPOTTER_DONE); \
    }

QUANTISING(8, 5, 1 << 5)
QUANTISING(16, 13, 1 << 13)
QUANTISING(32, 29, 1 << 29)

static void records(void) {
    int32_t weights[CLASPOTTER_MAX_ORDER], back[CLASPOTTER_MAX_ORDER];
    uint8_t bytes[CLASPOTTER_MAX_RECORD_BYTES + 1];
    uint32_t variant = 9, window = 9, state = 9, flag = 9, shift = 9;
    size_t order = 9, bits = 9;
    int64_t bias = 9;
    int32_t i;
    for (i = 0; i < CLASPOTTER_MAX_ORDER; i++) {
        weights[i] = INT32_MIN + i;
        back[i] = 9;
    }
    memset(bytes, 0xFF, sizeof bytes);
    /* the longest record in just its bytes, and one byte too few */
    SAME(claspotter_write_record(CLASPOTTER_CONV1, 32, 9, 9, true, 31, INT64_MIN, weights, 32, bytes, CLASPOTTER_MAX_RECORD_BYTES - 1, &bits),
        CLASPOTTER_NO_ROOM);
    SAME(bits, 0);
    SAME(bytes[0], 0xFF);
    SAME(claspotter_write_record(CLASPOTTER_CONV1, 32, 9, 9, true, 31, INT64_MIN, weights, 32, bytes, CLASPOTTER_MAX_RECORD_BYTES, &bits),
        CLASPOTTER_DONE);
    SAME(bits, 1102);
    SAME(bytes[CLASPOTTER_MAX_RECORD_BYTES], 0xFF);
    SAME(claspotter_read_record(bytes, CLASPOTTER_MAX_RECORD_BYTES, true, &variant, &order, &window, &state, &flag, &shift, &bias, back, 32, &bits),
        CLASPOTTER_DONE);
    SAME(variant, CLASPOTTER_CONV1);
    SAME(order, 32);
    SAME(window, 0);
    SAME(state, 0);
    SAME(flag, 0);
    SAME(shift, 31);
    SAME(bias == INT64_MIN, 1);
    SAME(memcmp(back, weights, sizeof weights), 0);
    SAME(bits, 1102);
    /* null, with length 0 */
    SAME(claspotter_read_record(NULL, 0, true, &variant, &order, &window, &state, &flag, &shift, &bias, back, 32, &bits), CLASPOTTER_BYTES_END);
    SAME(variant, 0);
    SAME(order, 0);
    SAME(bias, 0);
    SAME(bits, 0);
    SAME(back[1], INT32_MIN + 1);
    SAME(claspotter_read_record(bytes, 9, true, &variant, &order, &window, &state, &flag, &shift, &bias, NULL, 0, &bits), CLASPOTTER_BAD_LENGTH);
    SAME(claspotter_write_record(CLASPOTTER_LOOKBACK, 0, 3, 2, true, 0, 0, NULL, 0, bytes, 2, &bits), CLASPOTTER_DONE);
    SAME(bits, 14);
    SAME(claspotter_read_record(bytes, 2, true, &variant, &order, &window, &state, &flag, &shift, &bias, back, 32, &bits), CLASPOTTER_DONE);
    SAME(variant, CLASPOTTER_LOOKBACK);
    SAME(window, 3);
    SAME(state, 2);
    SAME(flag, 1);
    SAME(back[1], 0);
    SAME(claspotter_write_record(CLASPOTTER_NOTHING, 0, 0, 0, false, 0, 0, NULL, 0, NULL, 0, &bits), CLASPOTTER_NO_ROOM);
    SAME(claspotter_write_record(CLASPOTTER_CONV1, 1, 0, 0, false, 0, 0, NULL, 0, NULL, 0, &bits), CLASPOTTER_BAD_LENGTH);
    SAME(claspotter_write_record(4, 0, 0, 0, false, 0, 0, NULL, 0, bytes, 2, &bits), CLASPOTTER_UNKNOWN_VARIANT);
    SAME(claspotter_write_record(CLASPOTTER_CONSECUTIVE, 0, 0, 0, false, 0, 0, NULL, 0, bytes, 2, &bits), CLASPOTTER_BAD_RECORD);
    SAME(claspotter_write_record(CLASPOTTER_CONSECUTIVE, 8, 0, 0, false, 0, 0, NULL, 0, bytes, 2, &bits), CLASPOTTER_UNFIT_FIELD);
}

int main(void) {
    const int32_t wide[1] = {129};
    uint8_t samples[2] = {1, 2}, state[1];
    version_and_constants();
    texts();
    coding_8();
    coding_16();
    coding_32();
    quantising_8();
    quantising_16();
    quantising_32();
    records();
    SAME(claspotter_encode_u8(1, 16, 0, wide, 1, samples, 2, state, 1), CLASPOTTER_BAD_SHIFT);
    SAME(claspotter_encode_u8(1, 15, 0, wide, 1, samples, 2, state, 1), CLASPOTTER_OVERFLOWS);
    if (!wrong) {
        printf("boundary: the header and the library belong together\n");
    }
    return wrong;
}
