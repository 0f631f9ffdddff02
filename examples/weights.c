/* Float weights become a configuration, the configuration becomes a record, and the record is read again and codes a trace. Compiles as C
 * and as C++.
 *
 *   cc examples/weights.c $(pkg-config --cflags --libs claspotter) -o weights && ./weights
 */
#include <stdio.h>
#include <string.h>

#include "claspotter.h"

#define COUNT 9
#define ORDER 2

static int done(const char *what, uint32_t answer) {
    if (answer != CLASPOTTER_DONE) {
        fprintf(stderr, "%s: refused %u: %s\n", what, (unsigned)answer, claspotter_refusal_text(answer));
    }
    return answer == CLASPOTTER_DONE;
}

int main(void) {
    /* A fit over samples less 3200: the last sample and 0.8 of the last step, 0.25 higher. */
    const double fitted[ORDER] = {-0.8, 1.8};
    const double centred_bias = 0.25;
    const uint16_t centre = 3200;
    const uint16_t trace[COUNT] = {3309, 3313, 3316, 3320, 3319, 3317, 3318, 3321, 3325};

    int32_t weights[ORDER], read_weights[CLASPOTTER_MAX_ORDER];
    uint32_t shift, variant, window_n_log, state_n_log, secondary_uses_delta, read_shift;
    int64_t bias, read_bias;
    size_t order, bits, read_bits;
    uint8_t bytes[CLASPOTTER_MAX_RECORD_BYTES];
    uint16_t coded[COUNT], state[ORDER];

    /* 1. Quantise: integer weights, a shift and a bias that the accumulator rule admits. */
    if (!done("quantise", claspotter_quantise_16(ORDER, fitted, ORDER, centred_bias, centre, weights, ORDER, &shift, &bias))
        || !done("admits", claspotter_admits_16(bias, weights, ORDER))) {
        return 1;
    }
    printf("shift %u, bias %lld, weights %ld %ld\n", (unsigned)shift, (long long)bias, (long)weights[0], (long)weights[1]);

    /* 2. Write the record. Fields of other variants are not looked at. */
    if (!done("write", claspotter_write_record(CLASPOTTER_CONV1, ORDER, 0, 0, false, shift, bias, weights, ORDER, bytes, sizeof bytes, &bits))) {
        return 1;
    }
    printf("a record of %u bits, %u bytes\n", (unsigned)bits, (unsigned)((bits + 7) / 8));

    /* 3. Read it again, from just its own bytes. */
    if (!done("read", claspotter_read_record(bytes, (bits + 7) / 8, true, &variant, &order, &window_n_log, &state_n_log,
                          &secondary_uses_delta, &read_shift, &read_bias, read_weights, CLASPOTTER_MAX_ORDER, &read_bits))) {
        return 1;
    }
    if (variant != CLASPOTTER_CONV1 || order != ORDER || read_shift != shift || read_bias != bias || read_bits != bits
        || memcmp(read_weights, weights, sizeof weights) != 0) {
        printf("the record that was read is another\n");
        return 1;
    }

    /* 4. A record that is cut short is refused, and every number is 0. */
    if (claspotter_read_record(bytes, (bits + 7) / 8 - 1, true, &variant, &order, &window_n_log, &state_n_log, &secondary_uses_delta,
            &read_shift, &read_bias, read_weights, CLASPOTTER_MAX_ORDER, &read_bits) != CLASPOTTER_BYTES_END
        || variant != 0 || order != 0 || read_bits != 0) {
        printf("a refusal was expected\n");
        return 1;
    }

    /* 5. Code with it. */
    memcpy(coded, trace, sizeof trace);
    if (!done("encode", claspotter_encode_u16(ORDER, shift, bias, read_weights, ORDER, coded, COUNT, state, ORDER))
        || !done("decode", claspotter_decode_u16(ORDER, shift, bias, read_weights, ORDER, state, ORDER, coded + ORDER, COUNT - ORDER))) {
        return 1;
    }
    if (memcmp(coded + ORDER, trace, (COUNT - ORDER) * sizeof trace[0]) != 0
        || memcmp(state, trace + COUNT - ORDER, sizeof state) != 0) {
        printf("BROKEN\n");
        return 1;
    }
    printf("whole: the %d samples came back\n", COUNT);
    return 0;
}
