/* The usual sequence of calls: a trace of 16-bit samples is encoded, its residuals are cut into pieces, the pieces are decoded in their
 * order, and the trace comes back. Every answer is looked at. Compiles as C and as C++.
 *
 *   cc examples/roundtrip.c $(pkg-config --cflags --libs claspotter) -o roundtrip && ./roundtrip
 */
#include <stdio.h>
#include <string.h>

#include "claspotter.h"

#define COUNT 12
#define ORDER 2

/* The next sample is taken to be the last one and half of the last step: (-1 * x[i-2] + 3 * x[i-1] + 1) / 2, rounded down. */
static const int32_t weights[ORDER] = {-1, 3};
static const uint32_t shift = 1;
static const int64_t bias = 1;

static const uint16_t trace[COUNT] = {1000, 1003, 1007, 1010, 1014, 1019, 1023, 1026, 1024, 1021, 1017, 1016};

/* Where the residuals are cut: pieces of 1, 4, 0 and 5. A piece may be empty, and may be shorter than the order. */
static const size_t pieces[] = {1, 4, 0, 5};

/* Says what was refused, if anything, and whether the call did its work. */
static int done(const char *what, uint32_t answer) {
    if (answer != CLASPOTTER_DONE) {
        fprintf(stderr, "%s: refused %u: %s\n", what, (unsigned)answer, claspotter_refusal_text(answer));
    }
    return answer == CLASPOTTER_DONE;
}

int main(void) {
    uint16_t coded[COUNT], state[ORDER], back[COUNT];
    size_t i, at = ORDER;

    /* 0. The library is one that this header describes. */
    if (claspotter_version() / 1000000 != CLASPOTTER_VERSION_MAJOR) {
        fprintf(stderr, "the library's version is %lu, the header's %s\n", (unsigned long)claspotter_version(), CLASPOTTER_VERSION_STRING);
        return 1;
    }

    /* 1. Encode in place. The state gets the first samples; the residuals are the places from ORDER on. */
    memcpy(coded, trace, sizeof trace);
    if (!done("encode", claspotter_encode_u16(ORDER, shift, bias, weights, ORDER, coded, COUNT, state, ORDER))) {
        return 1;
    }
    printf("state");
    for (i = 0; i < ORDER; i++) {
        printf(" %u", (unsigned)state[i]);
    }
    printf(", residuals less the centre");
    for (i = ORDER; i < COUNT; i++) {
        printf(" %d", (int)coded[i] - 32768);
    }
    printf("\n");

    /* 2. Decode the pieces in their order. Each call hands its state on to the next. */
    for (i = 0; i < sizeof pieces / sizeof pieces[0]; i++) {
        if (!done("decode", claspotter_decode_u16(ORDER, shift, bias, weights, ORDER, state, ORDER, coded + at, pieces[i]))) {
            return 1;
        }
        at += pieces[i];
    }

    /* 3. The joined pieces, and then the last state, are the trace. */
    memcpy(back, coded + ORDER, (COUNT - ORDER) * sizeof back[0]);
    memcpy(back + COUNT - ORDER, state, sizeof state);
    if (memcmp(back, trace, sizeof trace) != 0) {
        printf("BROKEN\n");
        return 1;
    }

    /* 4. A refusal has a number and leaves everything as it was: a state of one place does not go with order 2. */
    if (claspotter_decode_u16(ORDER, shift, bias, weights, ORDER, state, 1, coded, COUNT) != CLASPOTTER_BAD_LENGTH
        || memcmp(state, trace + COUNT - ORDER, sizeof state) != 0) {
        printf("a refusal was expected\n");
        return 1;
    }
    printf("whole: the %d samples came back\n", COUNT);
    return 0;
}
