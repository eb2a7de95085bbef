/* The least time that one line's three bands can take: a band's output waits for the one before it through a product
   and two differences, in that order, whatever else is done beside. Plays these three chains alone, side by side, over
   16 rows of 1,024 samples, and prints the best of 200 rounds. */
#include <stdio.h>
#include <time.h>

static double now(void) {
    struct timespec t;
    clock_gettime(CLOCK_MONOTONIC, &t);
    return (double)t.tv_sec * 1e9 + (double)t.tv_nsec;
}

int main(void) {
    volatile float seed[3] = {0.1f, 0.01f, 0.3f};
    float a1 = seed[0], a2 = seed[1], in = seed[2], kept = 0;
    double best = 1e18;
    for (int round = 0; round < 200; round++) {
        float x1 = kept, x2 = 0.2f, y1 = 0.1f, y2 = 0.3f, z1 = 0.2f, z2 = 0.1f;
        double began = now();
        for (int t = 0; t < 16 * 1024; t++) {
            float x = (in - a1 * x1) - a2 * x2, y = (in - a1 * y1) - a2 * y2, z = (in - a1 * z1) - a2 * z2;
            x2 = x1, x1 = x, y2 = y1, y1 = y, z2 = z1, z1 = z;
        }
        double took = now() - began;
        if (took < best) best = took;
        kept += (x1 + y1 + z1) * 1e-9f;
    }
    printf("%.1f us, %.2f ns a sample (%g)\n", best / 1000, best / (16 * 1024), (double)kept);
    return 0;
}
