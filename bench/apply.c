/* Plays N applies of frames of F samples, and nothing else, for a profile: apply F N */
#include "hall.h"
#include <stdio.h>
#include <stdlib.h>

int main(int argc, char **argv) {
    if (argc != 3) return 2;
    size_t frame = strtoul(argv[1], NULL, 10), frames = strtoul(argv[2], NULL, 10);
    float *store = calloc(HALL_STORE(frame), sizeof *store), *work = calloc(HALL_WORK(frame), sizeof *work);
    float *input = calloc(frame, sizeof *input), *output = calloc(frame, sizeof *output);
    float coefficients[HALL_COEFFICIENTS];
    for (size_t k = 0; k < 51; k++) { /* gain 1 at every frequency */
        float c = 0.1f + 0.01f * (float)k, five[5] = {c, 0, c, 1, 0};
        for (size_t j = 0; j < 5; j++) coefficients[5 * k + j] = five[j];
    }
    unsigned seed = 1;
    for (size_t i = 0; i < frame; i++) {
        seed = seed * 1664525u + 1013904223u;
        input[i] = (float)(seed >> 8) / 83886080.0f - 0.1f;
    }
    hall_answer a = hall_fresh(48000, frame, store, HALL_STORE(frame));
    for (size_t i = 0; i < frames && a.number == 0; i++)
        a = hall_apply(a.state, 0.5f, 0.5f, 0.5f, coefficients, HALL_COEFFICIENTS, input, frame,
                       store, HALL_STORE(frame), work, HALL_WORK(frame), output, frame);
    printf("%u %g\n", (unsigned)a.number, (double)output[0]);
    return a.number != 0;
}
