/* The library in a process of its own, for a machine whose code it isn't: run under an emulator, it plays what
 * src/remote.rs writes into the memory that both map. `player FILE`: for each byte on standard input one call, then one
 * byte back. */

#define _DEFAULT_SOURCE

#include "hall.h"

#include <fcntl.h>
#include <string.h>
#include <sys/mman.h>
#include <unistd.h>

/* The file: the function's name, its arguments, its answer, and the floats of all slices. */
enum { NAME = 0, ARGUMENTS = 64, ANSWER = 8192, FLOATS = 16384, ALL = 16 << 20 };

static unsigned char *shared, *next;

/* The next argument; each begins at a multiple of eight bytes. */
static void *take(size_t size) {
    void *argument = next;
    next += (size + 7) / 8 * 8;
    return argument;
}

#define TAKE(type) (*(type *)take(sizeof(type)))

/* A slice is passed as where its floats begin, and their count. */
typedef struct {
    float *p;
    size_t n;
} slice;

static slice take_slice(void) {
    float *p = (float *)(shared + FLOATS) + TAKE(size_t);
    size_t n = TAKE(size_t);
    return (slice){p, n};
}

/* A slice of bytes is passed as where in the floats it begins, and the count of its bytes. */
typedef struct {
    const uint8_t *p;
    size_t n;
} byte_slice;

static byte_slice take_bytes(void) {
    slice s = take_slice();
    return (byte_slice){(const uint8_t *)s.p, s.n};
}

static bool is(const char *name) {
    return strcmp((const char *)shared + NAME, name) == 0;
}

#define GIVE(type, value) (*(type *)(shared + ANSWER) = (value), true)

/* The calls that are given times, coefficients and input. */
static bool apply_call(void) {
    if (!is("hall_apply") && !is("hall_apply_frames") && !is("hall_open_apply")) return false;
    hall_state s = TAKE(hall_state);
    float t0 = TAKE(float), t1 = TAKE(float), t2 = TAKE(float);
    slice c = take_slice(), in = take_slice(), store = take_slice(), work = take_slice();
    if (is("hall_open_apply"))
        return GIVE(hall_answer, hall_open_apply(s, t0, t1, t2, c.p, c.n, in.p, in.n, store.p, store.n, work.p,
                                                 work.n));
    slice out = take_slice();
    if (is("hall_apply_frames"))
        return GIVE(hall_frames_answer, hall_apply_frames(s, t0, t1, t2, c.p, c.n, in.p, in.n, store.p, store.n,
                                                          work.p, work.n, out.p, out.n));
    return GIVE(hall_answer, hall_apply(s, t0, t1, t2, c.p, c.n, in.p, in.n, store.p, store.n, work.p, work.n,
                                        out.p, out.n));
}

/* The other calls that make or change a whole unit. */
static bool whole_call(void) {
    if (is("hall_fresh")) {
        uint32_t rate = TAKE(uint32_t);
        size_t frame = TAKE(size_t);
        slice store = take_slice();
        return GIVE(hall_answer, hall_fresh(rate, frame, store.p, store.n));
    }
    if (is("hall_tail") || is("hall_close")) {
        hall_state s = TAKE(hall_state);
        slice store = take_slice(), work = take_slice(), out = take_slice();
        return GIVE(hall_answer, (is("hall_tail") ? hall_tail : hall_close)(s, store.p, store.n, work.p, work.n, out.p,
                                                                            out.n));
    }
    if (is("hall_reset") || is("hall_abandon")) {
        hall_state s = TAKE(hall_state);
        slice memory = take_slice();
        return GIVE(hall_answer, (is("hall_reset") ? hall_reset : hall_abandon)(s, memory.p, memory.n));
    }
    if (is("hall_open_tail")) {
        hall_state s = TAKE(hall_state);
        slice store = take_slice(), work = take_slice();
        return GIVE(hall_answer, hall_open_tail(s, store.p, store.n, work.p, work.n));
    }
    return false;
}

static bool job(void) {
    if (is("hall_job_read")) {
        hall_state s = TAKE(hall_state);
        size_t line = TAKE(size_t);
        slice store = take_slice(), work = take_slice();
        return GIVE(hall_answer, hall_job_read(s, line, store.p, store.n, work.p, work.n));
    }
    if (is("hall_job_line")) {
        hall_state s = TAKE(hall_state);
        size_t line = TAKE(size_t);
        slice work = take_slice();
        return GIVE(hall_answer, hall_job_line(s, line, work.p, work.n));
    }
    if (is("hall_job_mix") || is("hall_job_output")) {
        hall_state s = TAKE(hall_state);
        slice work = take_slice();
        return GIVE(hall_answer, (is("hall_job_mix") ? hall_job_mix : hall_job_output)(s, work.p, work.n));
    }
    return false;
}

static bool ring_call(void) {
    if (strncmp((const char *)shared + NAME, "hall_ring_", 10) != 0) return false;
    slice ring = take_slice();
    hall_cursors c = TAKE(hall_cursors);
    if (is("hall_ring_get4")) return GIVE(hall_four_answer, hall_ring_get4(ring.p, ring.n, c));
    if (is("hall_ring_reset")) return GIVE(hall_ring_answer, hall_ring_reset(ring.p, ring.n, c));
    if (is("hall_ring_put4")) {
        float x0 = TAKE(float), x1 = TAKE(float), x2 = TAKE(float), x3 = TAKE(float);
        return GIVE(hall_ring_answer, hall_ring_put4(ring.p, ring.n, c, x0, x1, x2, x3));
    }
    slice xs = take_slice();
    if (is("hall_ring_get")) return GIVE(hall_ring_answer, hall_ring_get(ring.p, ring.n, c, xs.p, xs.n));
    return is("hall_ring_put") && GIVE(hall_ring_answer, hall_ring_put(ring.p, ring.n, c, xs.p, xs.n));
}

/* Filter, mix and delay values. */
static bool part(void) {
    if (is("hall_filter_run")) {
        hall_filter f = TAKE(hall_filter);
        slice xs = take_slice();
        return GIVE(hall_filter, hall_filter_run(f, xs.p, xs.n));
    }
    if (is("hall_mix16")) {
        slice x = take_slice(), y = take_slice();
        return GIVE(uint32_t, hall_mix16(x.p, x.n, y.p, y.n));
    }
    if (is("hall_delay_min") || is("hall_delay_value")) {
        float time = TAKE(float);
        uint32_t rate = TAKE(uint32_t);
        if (is("hall_delay_min")) return GIVE(hall_value, hall_delay_min(time, rate));
        uint16_t random = TAKE(uint16_t);
        size_t index = TAKE(size_t);
        return GIVE(hall_value, hall_delay_value(time, rate, random, index));
    }
    if (is("hall_prime_power")) {
        uint32_t x = TAKE(uint32_t);
        size_t index = TAKE(size_t);
        return GIVE(hall_value, hall_prime_power(x, index));
    }
    return false;
}

static bool buffer_call(void) {
    size_t channels = TAKE(size_t), samples = TAKE(size_t);
    if (is("hall_channel_number")) {
        size_t channel = TAKE(size_t), length = TAKE(size_t);
        return GIVE(uint32_t, hall_channel_number(channels, samples, channel, length));
    }
    if (is("hall_scale")) {
        float volume = TAKE(float);
        slice b = take_slice();
        return GIVE(uint32_t, hall_scale(channels, samples, volume, b.p, b.n));
    }
    slice a = take_slice();
    if (is("hall_make_silent")) return GIVE(uint32_t, hall_make_silent(channels, samples, a.p, a.n));
    slice b = take_slice();
    if (is("hall_interleave")) return GIVE(uint32_t, hall_interleave(channels, samples, a.p, a.n, b.p, b.n));
    if (is("hall_deinterleave")) return GIVE(uint32_t, hall_deinterleave(channels, samples, a.p, a.n, b.p, b.n));
    if (is("hall_buffer_mix")) return GIVE(uint32_t, hall_buffer_mix(channels, samples, a.p, a.n, b.p, b.n));
    return is("hall_downmix") && GIVE(uint32_t, hall_downmix(channels, samples, a.p, a.n, b.p, b.n));
}

static bool wave_call(void) {
    if (!is("hall_wave_read") && !is("hall_wave_samples")) return false;
    byte_slice bytes = take_bytes();
    if (is("hall_wave_read")) return GIVE(hall_wave, hall_wave_read(bytes.p, bytes.n));
    uint32_t tag = TAKE(uint32_t);
    slice out = take_slice();
    hall_wave_samples(bytes.p, bytes.n, tag, out.p, out.n);
    return true;
}

/* The powers of a prime near 0, 1, 2, .. at once: hall_prime_power as often as there is room. */
static bool all_powers(void) {
    if (!is("powers")) return false;
    size_t index = TAKE(size_t);
    slice powers = take_slice();
    for (uint32_t x = 0; x < powers.n; x++) {
        hall_value v = hall_prime_power(x, index);
        ((uint32_t *)powers.p)[x] = v.number ? 0 : v.value;
    }
    return GIVE(uint32_t, 0);
}

static bool play(void) {
    next = shared + ARGUMENTS;
    return apply_call() || whole_call() || job() || ring_call() || part() || wave_call() ||
           all_powers() || buffer_call();
}

int main(int count, char **words) {
    int file = count == 2 ? open(words[1], O_RDWR) : -1;
    shared = mmap(NULL, ALL, PROT_READ | PROT_WRITE, MAP_SHARED, file, 0);
    if (file < 0 || shared == MAP_FAILED) return 2;
    unsigned char turn;
    while (read(0, &turn, 1) == 1)
        if (!play() || write(1, &turn, 1) != 1) return 1;
    return 0;
}
