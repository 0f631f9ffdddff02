/* Claspotter: residuals of wall traces, and the traces again.
 *
 * This header is the single description of the library's boundary; nothing else has to be read to use it.
 *
 * THE RULE
 *
 *   W    bits of a sample                      8       16            32
 *   M    the greatest sample, 2^W - 1          255     65535         4294967295
 *   MID  the centre of the residuals, 2^(W-1)  128     32768         2147483648
 *   A    bits of the accumulator, 2W           16      32            64
 *
 * A configuration is an order k, a shift q, a bias b and k weights w[0] to w[k-1]. It is admitted when
 *
 *   1 <= k <= 32,   q <= A-1,   |b| + M * (|w[0]| + ... + |w[k-1]|) <= 2^(A-1) - 1.
 *
 * The last is the accumulator rule: under it no sum leaves the accumulator, whatever the samples. For a trace x[0], x[1], ... and a place
 * i from k on, in whole numbers that never wrap,
 *
 *   s = b + w[0]*x[i-k] + w[1]*x[i-k+1] + ... + w[k-1]*x[i-1]     weight 0 goes with the oldest sample
 *   p = floor(max(s, 0) / 2^q) mod 2^W                            the prediction: clamped at 0, never at M
 *   r[i] = (x[i] - p + MID) mod 2^W                               the residual
 *   x[i] = (r[i] - MID + p) mod 2^W                               and the sample again
 *
 * Encoding turns x into the saved state, which is x[0] to x[k-1], and the residuals r[k], r[k+1], ... Decoding starts from a state.
 *
 * HOW TO CALL
 *
 * Every function of the library is proved to meet the promise that stands with it, for any numbers and any lengths. What no proof can see
 * is how it is called, which is up to the caller:
 *
 *   - A slice is a pointer and then a length, in entries. The pointer is aligned for its entries, and the length is the number of entries
 *     that may be read, or written where the pointer is not const. Where the length is 0 any pointer will do, a null pointer too.
 *   - A pointer with no length after it is to one number, which the call writes and never reads. It is never null, and it is aligned.
 *   - Slices and numbers that are lent to one call do not overlap.
 *   - Nothing is kept between calls and nothing is allocated. Calls on different slices may run at the same time, in any threads.
 *
 * Every function but claspotter_version answers a number of enum claspotter_refusal: 0 when it did its work. Any other answer is a refusal,
 * and then every slice is as it was and every number that the call writes is 0. Where several tests fail, the first counts: coding tests in
 * the order 1, 2, 4, 3, 5; quantising 1, 4, 6; the record's tests are given with its functions.
 */
#ifndef CLASPOTTER_H
#define CLASPOTTER_H

#ifndef __cplusplus
#include <stdbool.h>
#endif
#include <stddef.h>
#include <stdint.h>

/* The version of this header. A library of another major version must not be called by it. */
#define CLASPOTTER_VERSION_MAJOR 1
#define CLASPOTTER_VERSION_MINOR 0
#define CLASPOTTER_VERSION_PATCH 0
#define CLASPOTTER_VERSION_STRING "1.0.0"
/* As one number, in the form of claspotter_version: a million for each major version, a thousand for each minor one. */
#define CLASPOTTER_VERSION \
    (UINT32_C(1000000) * CLASPOTTER_VERSION_MAJOR + UINT32_C(1000) * CLASPOTTER_VERSION_MINOR + CLASPOTTER_VERSION_PATCH)

/* The greatest order, which is also the number of weights that reading a record is lent. */
#define CLASPOTTER_MAX_ORDER 32
/* The bytes of the longest record: Conv1 with 32 weights, 1102 bits. Every record fits a buffer of this length. */
#define CLASPOTTER_MAX_RECORD_BYTES 138

/* An answer is to be looked at: compilers that can warn where it is dropped do so. */
#if defined(__cplusplus)
#if __cplusplus >= 201703L
#define CLASPOTTER_ANSWER [[nodiscard]]
#endif
#elif defined(__STDC_VERSION__)
#if __STDC_VERSION__ >= 202311L
#define CLASPOTTER_ANSWER [[nodiscard]]
#endif
#endif
#ifndef CLASPOTTER_ANSWER
#if defined(__GNUC__)
#define CLASPOTTER_ANSWER __attribute__((warn_unused_result))
#else
#define CLASPOTTER_ANSWER
#endif
#endif

#ifdef __cplusplus
extern "C" {
#endif

/* The answers. */
enum claspotter_refusal {
    CLASPOTTER_DONE = 0,             /* the call did its work */
    CLASPOTTER_BAD_ORDER = 1,        /* the order is 0 or above 32; at the order-6 way, it is not 6 */
    CLASPOTTER_BAD_SHIFT = 2,        /* the shift is A or more */
    CLASPOTTER_OVERFLOWS = 3,        /* the accumulator rule does not hold */
    CLASPOTTER_BAD_LENGTH = 4,       /* the weights, or the places of a state, number other than the order; bytes do not divide into
                                        entries; the weights lent for reading a record number other than 32 */
    CLASPOTTER_TOO_FEW_SAMPLES = 5,  /* fewer samples than the order are to be encoded */
    CLASPOTTER_NO_CONFIGURATION = 6, /* quantising gives no configuration */
    CLASPOTTER_BYTES_END = 7,        /* the record goes on where the bytes have ended */
    CLASPOTTER_UNKNOWN_VARIANT = 8,  /* the record's variant is none of the four */
    CLASPOTTER_BAD_RECORD = 9,       /* Consecutive of order 0; a window log above 24; a state log above the window log */
    CLASPOTTER_UNFIT_FIELD = 10,     /* a field of the record has no room for the number to be written there */
    CLASPOTTER_NO_ROOM = 11          /* the record's bytes do not fit the buffer */
};

/* The variants of a delta record. */
enum claspotter_variant {
    CLASPOTTER_NOTHING = 0,
    CLASPOTTER_CONSECUTIVE = 1,
    CLASPOTTER_LOOKBACK = 2,
    CLASPOTTER_CONV1 = 3
};

/* A short text for an answer, for messages. It is never null and lasts as long as the program. (This is the header's own; the library has
 * numbers alone.) */
static inline const char *claspotter_refusal_text(uint32_t answer) {
    switch (answer) {
    case CLASPOTTER_DONE:
        return "done";
    case CLASPOTTER_BAD_ORDER:
        return "the order is not from 1 to 32, or not 6 at the order-6 way";
    case CLASPOTTER_BAD_SHIFT:
        return "the shift is not below the accumulator's bits";
    case CLASPOTTER_OVERFLOWS:
        return "the bias and weights can overflow the accumulator";
    case CLASPOTTER_BAD_LENGTH:
        return "a slice has the wrong length";
    case CLASPOTTER_TOO_FEW_SAMPLES:
        return "there are fewer samples than the order";
    case CLASPOTTER_NO_CONFIGURATION:
        return "quantising gives no configuration";
    case CLASPOTTER_BYTES_END:
        return "the bytes end inside the record";
    case CLASPOTTER_UNKNOWN_VARIANT:
        return "the record's variant is unknown";
    case CLASPOTTER_BAD_RECORD:
        return "the record's order or logs are out of range";
    case CLASPOTTER_UNFIT_FIELD:
        return "a number does not fit its field of the record";
    case CLASPOTTER_NO_ROOM:
        return "the record does not fit the buffer";
    default:
        return "no answer of this version";
    }
}

/* The version of the library that is linked or loaded, in the form of CLASPOTTER_VERSION. It is the header's own where the two belong
 * together; a program that loads a shared library can compare the millions, the major versions. */
uint32_t claspotter_version(void);

/* The accumulator rule alone: 0 where it admits the bias and the weights, else 3. It tests no order and no shift: no weight at all, or
 * more than 32, are added up like any other number of them, and it is the coder that refuses them. */
CLASPOTTER_ANSWER uint32_t claspotter_admits_8(int64_t bias, const int32_t *weights, size_t weights_len);
CLASPOTTER_ANSWER uint32_t claspotter_admits_16(int64_t bias, const int32_t *weights, size_t weights_len);
CLASPOTTER_ANSWER uint32_t claspotter_admits_32(int64_t bias, const int32_t *weights, size_t weights_len);

/* Encoding, in place. The first `order` samples go into the state, whose length is `order`. Then place i of the samples becomes
 * (sample i + MID) mod 2^W for i below `order`, and the residual r[i] from `order` on. What is kept of a trace is the state and the
 * places from `order` on; the first `order` places say nothing that the state does not. */
CLASPOTTER_ANSWER uint32_t claspotter_encode_u8(size_t order, uint32_t shift, int64_t bias, const int32_t *weights,
    size_t weights_len, uint8_t *samples, size_t samples_len, uint8_t *state, size_t state_len);
CLASPOTTER_ANSWER uint32_t claspotter_encode_u16(size_t order, uint32_t shift, int64_t bias, const int32_t *weights,
    size_t weights_len, uint16_t *samples, size_t samples_len, uint16_t *state, size_t state_len);
CLASPOTTER_ANSWER uint32_t claspotter_encode_u32(size_t order, uint32_t shift, int64_t bias, const int32_t *weights,
    size_t weights_len, uint32_t *samples, size_t samples_len, uint32_t *state, size_t state_len);

/* Decoding a piece of residuals, in place. The residuals give as many new samples. In the list of the state and then the new samples, the
 * first piece_len entries replace the piece and the last `order` are the new state, ready for the piece that follows. So what comes out
 * lags by `order`. Decode the pieces of a trace in their order, from the state that encoding gave: the joined pieces and then the last
 * state are the trace, however it was cut. A piece may be shorter than the order, and an empty one changes nothing.
 *
 * Nothing in a state or in residuals says which trace they belong to: the state of one trace decodes the residuals of another, without a
 * refusal, into samples that belong to neither. The caller keeps the two together. */
CLASPOTTER_ANSWER uint32_t claspotter_decode_u8(size_t order, uint32_t shift, int64_t bias, const int32_t *weights,
    size_t weights_len, uint8_t *state, size_t state_len, uint8_t *piece, size_t piece_len);
CLASPOTTER_ANSWER uint32_t claspotter_decode_u16(size_t order, uint32_t shift, int64_t bias, const int32_t *weights,
    size_t weights_len, uint16_t *state, size_t state_len, uint16_t *piece, size_t piece_len);
CLASPOTTER_ANSWER uint32_t claspotter_decode_u32(size_t order, uint32_t shift, int64_t bias, const int32_t *weights,
    size_t weights_len, uint32_t *state, size_t state_len, uint32_t *piece, size_t piece_len);

/* The same, by the general way at every order. claspotter_decode_* takes a quicker way at order 6; both give the same samples. */
CLASPOTTER_ANSWER uint32_t claspotter_decode_general_u8(size_t order, uint32_t shift, int64_t bias, const int32_t *weights,
    size_t weights_len, uint8_t *state, size_t state_len, uint8_t *piece, size_t piece_len);
CLASPOTTER_ANSWER uint32_t claspotter_decode_general_u16(size_t order, uint32_t shift, int64_t bias, const int32_t *weights,
    size_t weights_len, uint16_t *state, size_t state_len, uint16_t *piece, size_t piece_len);
CLASPOTTER_ANSWER uint32_t claspotter_decode_general_u32(size_t order, uint32_t shift, int64_t bias, const int32_t *weights,
    size_t weights_len, uint32_t *state, size_t state_len, uint32_t *piece, size_t piece_len);

/* The same, by the way of order 6 alone; any other order is refused with 1. */
CLASPOTTER_ANSWER uint32_t claspotter_decode_order_6_u8(size_t order, uint32_t shift, int64_t bias, const int32_t *weights,
    size_t weights_len, uint8_t *state, size_t state_len, uint8_t *piece, size_t piece_len);
CLASPOTTER_ANSWER uint32_t claspotter_decode_order_6_u16(size_t order, uint32_t shift, int64_t bias, const int32_t *weights,
    size_t weights_len, uint16_t *state, size_t state_len, uint16_t *piece, size_t piece_len);
CLASPOTTER_ANSWER uint32_t claspotter_decode_order_6_u32(size_t order, uint32_t shift, int64_t bias, const int32_t *weights,
    size_t weights_len, uint32_t *state, size_t state_len, uint32_t *piece, size_t piece_len);

/* All of these over bytes, for callers that hold no aligned slices: weights of 4 bytes, samples, residuals and states of W/8 bytes an
 * entry, the least significant byte first. `order` is in entries, lengths are in bytes. Bytes that do not divide into entries are refused
 * with 4, in that test's turn. */
CLASPOTTER_ANSWER uint32_t claspotter_encode_bytes_8(size_t order, uint32_t shift, int64_t bias, const uint8_t *weights,
    size_t weights_len, uint8_t *samples, size_t samples_len, uint8_t *state, size_t state_len);
CLASPOTTER_ANSWER uint32_t claspotter_encode_bytes_16(size_t order, uint32_t shift, int64_t bias, const uint8_t *weights,
    size_t weights_len, uint8_t *samples, size_t samples_len, uint8_t *state, size_t state_len);
CLASPOTTER_ANSWER uint32_t claspotter_encode_bytes_32(size_t order, uint32_t shift, int64_t bias, const uint8_t *weights,
    size_t weights_len, uint8_t *samples, size_t samples_len, uint8_t *state, size_t state_len);
CLASPOTTER_ANSWER uint32_t claspotter_decode_bytes_8(size_t order, uint32_t shift, int64_t bias, const uint8_t *weights,
    size_t weights_len, uint8_t *state, size_t state_len, uint8_t *piece, size_t piece_len);
CLASPOTTER_ANSWER uint32_t claspotter_decode_bytes_16(size_t order, uint32_t shift, int64_t bias, const uint8_t *weights,
    size_t weights_len, uint8_t *state, size_t state_len, uint8_t *piece, size_t piece_len);
CLASPOTTER_ANSWER uint32_t claspotter_decode_bytes_32(size_t order, uint32_t shift, int64_t bias, const uint8_t *weights,
    size_t weights_len, uint8_t *state, size_t state_len, uint8_t *piece, size_t piece_len);
CLASPOTTER_ANSWER uint32_t claspotter_decode_general_bytes_8(size_t order, uint32_t shift, int64_t bias, const uint8_t *weights,
    size_t weights_len, uint8_t *state, size_t state_len, uint8_t *piece, size_t piece_len);
CLASPOTTER_ANSWER uint32_t claspotter_decode_general_bytes_16(size_t order, uint32_t shift, int64_t bias, const uint8_t *weights,
    size_t weights_len, uint8_t *state, size_t state_len, uint8_t *piece, size_t piece_len);
CLASPOTTER_ANSWER uint32_t claspotter_decode_general_bytes_32(size_t order, uint32_t shift, int64_t bias, const uint8_t *weights,
    size_t weights_len, uint8_t *state, size_t state_len, uint8_t *piece, size_t piece_len);
CLASPOTTER_ANSWER uint32_t claspotter_decode_order_6_bytes_8(size_t order, uint32_t shift, int64_t bias, const uint8_t *weights,
    size_t weights_len, uint8_t *state, size_t state_len, uint8_t *piece, size_t piece_len);
CLASPOTTER_ANSWER uint32_t claspotter_decode_order_6_bytes_16(size_t order, uint32_t shift, int64_t bias, const uint8_t *weights,
    size_t weights_len, uint8_t *state, size_t state_len, uint8_t *piece, size_t piece_len);
CLASPOTTER_ANSWER uint32_t claspotter_decode_order_6_bytes_32(size_t order, uint32_t shift, int64_t bias, const uint8_t *weights,
    size_t weights_len, uint8_t *state, size_t state_len, uint8_t *piece, size_t piece_len);

/* Quantising: float weights to a configuration. What is given is a fit over samples less a centre, which is a number of width W:
 *
 *   x[i] - centre  ~  centred_bias + fitted[0]*(x[i-k] - centre) + ... + fitted[k-1]*(x[i-1] - centre)
 *
 * The six steps, each in single binary64 operations from left to right, except where they speak of whole numbers:
 *
 *   1. T is the sum of the fitted weights and S that of their absolute values, each from 0.0 on in the order of the places. Both must be
 *      finite.
 *   2. The float bias is (1.0 - T) * centre + centred_bias, and the divisor S * M + |float bias| + 1.0. It must be finite.
 *   3. x is 2^(A-1) - 1, which as a double is 2^63 at W = 32, over the divisor; e is the greatest whole number with 2^e <= x.
 *   4. The shift is the least of e-1, 31 and A-1. It must not be negative. (31 is the greatest that a record holds.)
 *   5. A weight is its fitted one times 2^shift, to the nearest whole number, halves away from 0. The bias is the float bias times
 *      2^shift, cut toward 0. The weights must fit 32 bits and the bias 64.
 *   6. The accumulator rule must hold.
 *
 * The integer weights fill the lent slice, and the shift and the bias are written. Any floats may be given, NaN and infinities too.
 * Refused with 1 where the order is 0 or above 32; with 4 where the fitted weights, or the places for the integer ones, number other than
 * the order; with 6 where a step's "must" fails.
 *
 * The floating-point environment is to be the usual one: rounding to nearest, subnormal numbers not flushed to 0, exceptions masked. In
 * another one the call may write numbers other than these steps give, and nothing is promised of them, not even that they are admitted;
 * where exceptions are not masked it may trap. Functions other than these three use no floats, and no environment changes what they do. */
CLASPOTTER_ANSWER uint32_t claspotter_quantise_8(size_t order, const double *fitted, size_t fitted_len, double centred_bias,
    uint8_t centre, int32_t *weights, size_t weights_len, uint32_t *shift, int64_t *bias);
CLASPOTTER_ANSWER uint32_t claspotter_quantise_16(size_t order, const double *fitted, size_t fitted_len, double centred_bias,
    uint16_t centre, int32_t *weights, size_t weights_len, uint32_t *shift, int64_t *bias);
CLASPOTTER_ANSWER uint32_t claspotter_quantise_32(size_t order, const double *fitted, size_t fitted_len, double centred_bias,
    uint32_t centre, int32_t *weights, size_t weights_len, uint32_t *shift, int64_t *bias);

/* The delta record. Its fields, as plain numbers:
 *
 *   variant               an enum claspotter_variant: 0 nothing, 1 Consecutive, 2 Lookback, 3 Conv1
 *   order                 of Consecutive, 1 to 7; of Conv1, 1 to 32
 *   window_n_log          of Lookback, 1 to 24
 *   state_n_log           of Lookback, 0 to 15 and not above window_n_log
 *   secondary_uses_delta  of Consecutive and Lookback
 *   quantization          of Conv1, its shift, 0 to 31
 *   bias, weights         of Conv1, any; as many weights as the order says
 *
 * A record knows no W: whether its configuration is admitted is tested where it codes.
 *
 * Reading: the record at the start of the bytes, and the bits that it takes. `variants` is false for files that hold only an order.
 * weights_len is CLASPOTTER_MAX_ORDER, any other is refused with 4 before the bytes are looked at. A field that the variant does not have
 * comes out as 0, and so do the weights past the order; secondary_uses_delta comes out as 0 or 1. Fields are read in order, each test as
 * soon as its fields are there: 7 at the first missing field, 8, 9. Bytes past the record are not looked at. */
CLASPOTTER_ANSWER uint32_t claspotter_read_record(const uint8_t *bytes, size_t bytes_len, bool variants, uint32_t *variant,
    size_t *order, uint32_t *window_n_log, uint32_t *state_n_log, uint32_t *secondary_uses_delta, uint32_t *quantization,
    int64_t *bias, int32_t *weights, size_t weights_len, size_t *bits);

/* Writing, always in the form with variants, from the buffer's first bit on, and the bits written. The unused bits of the last byte
 * are cleared and later bytes stay. A field that the variant does not have is not looked at, nor are the weights unless it is 3. The
 * tests: 8; for variant 3 the order, 1, and weights_len against the order, 4; then 9, 10, 11. */
CLASPOTTER_ANSWER uint32_t claspotter_write_record(uint32_t variant, size_t order, uint32_t window_n_log, uint32_t state_n_log,
    bool secondary_uses_delta, uint32_t quantization, int64_t bias, const int32_t *weights, size_t weights_len,
    uint8_t *bytes, size_t bytes_len, size_t *bits);

#ifdef __cplusplus
}
#endif

#endif
