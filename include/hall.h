/* hall.h - the C face of the reverb: sixteen delay lines, a mixing matrix, filters, two allpasses.
 *
 * Link with libhall.a. The library keeps nothing and allocates nothing: the caller lends all memory, and
 * holds the unit's state, which each call takes by value and hands back in its answer. One frame of F
 * samples goes in, one comes out. A call is made whole (hall_apply, hall_tail) or as 34 jobs (hall_open_..,
 * hall_job_.., hall_close), which give the same, bit for bit, in any order that the rules below allow. Up to
 * 1,024 frames of input may be handed over together (hall_apply_frames). Beside the unit stand its parts, and a
 * reader of studio takes (hall_wave_read).
 *
 * A whole example: one click, then the tail until it has died away.
 *
 *     #include "hall.h"
 *     #include <stdio.h>
 *
 *     enum { RATE = 48000, FRAME = 128 };
 *     static float store[HALL_STORE(FRAME)], work[HALL_WORK(FRAME)];
 *     static float coefficients[HALL_COEFFICIENTS], input[FRAME], output[FRAME];
 *
 *     static void play(void) { printf("%g\n", (double)output[0]); }
 *
 *     int main(void) {
 *         for (size_t k = 0; k < 51; k++)            // every filter lets its input pass,
 *             coefficients[5 * k + 2] = 1.0f;
 *         for (size_t line = 0; line < 16; line++)   // but band 0 of each line halves it
 *             coefficients[15 * line + 2] = 0.5f;
 *
 *         hall_answer a = hall_fresh(RATE, FRAME, store, HALL_STORE(FRAME));
 *         if (a.number != 0) return 1;
 *
 *         input[0] = 1.0f;
 *         a = hall_apply(a.state, 0.1f, 0.1f, 0.1f, coefficients, HALL_COEFFICIENTS, input, FRAME,
 *                        store, HALL_STORE(FRAME), work, HALL_WORK(FRAME), output, FRAME);
 *         if (a.number != 0) return 1;
 *         play();
 *         while (a.remaining) {
 *             a = hall_tail(a.state, store, HALL_STORE(FRAME), work, HALL_WORK(FRAME), output, FRAME);
 *             if (a.number != 0) return 1;
 *             play();
 *         }
 *         return 0;
 *     }
 *
 * Every rule stands in docs/RULES.md, by number: R1.19 is the length of a store.
 *
 * THE NUMBER OF AN ANSWER (R2), of every call but hall_wave_read, whose table stands at it. Where several apply it
 * is the least, of hall_apply_frames that of the first frame refused: a 9 there hides an 8 in a later frame. A
 * refused call hands the state back as it was given and leaves every lent slice as it was, 9 aside. Of
 * hall_apply_frames that holds from the refused frame on: the frames before it stay done, and the state is the one
 * after them.
 *
 *   0  accepted.
 *   1  the state is out of range (R1.27): its rate or frame (see 2), a cursor that isn't below its ring's
 *      length, or, with no frame open, something kept for one. It isn't as a call of this HALL_VERSION gave it:
 *      begin again with hall_fresh. Of a ring alone: a cursor, be it the one that stays, isn't below the length.
 *   2  the rate isn't in 8,000 to 192,000, or the frame no multiple of 4 in 4 to 1,024. Choose others.
 *   3  a lent slice hasn't the length that stands at the call; one that is too long is refused too.
 *   4  a number of the request is out of range: line above 15; more than 1,024 frames at once; a ring's n of 0
 *      or above its length; channels 0 or above 16; samples above 65,536; channel not below the channels; x
 *      above 200,000; index above 15.
 *   5  out of turn: a job, close or abandon with no frame open; hall_reset, hall_apply, hall_apply_frames,
 *      hall_tail or an open with one open; a job done before, or before those that it waits for; a close before
 *      all 34 jobs. Make the missing jobs first, or hall_abandon. hall_fresh takes no state, so that it is never
 *      out of turn.
 *   6  a reverb time is no number from 0 to 100.
 *   7  a coefficient isn't finite. Design the filters again.
 *   8  an input sample isn't finite; `index` says which is the first. Mute it and ask again, after
 *      hall_apply_frames from frame `done` on.
 *   9  the frame came to a NaN or an infinity (R4.14). The state is the one from before the frame, store and
 *      output are as they were, work is all +0. Play silence. With gentler coefficients or input the
 *      next frame may be accepted. A 9 that repeats comes from the sound kept in the lines: every later frame
 *      would be refused as well, so call hall_reset.
 *
 * `index` is 0 but with 8. `remaining` is true when hall_apply, hall_apply_frames, hall_tail or hall_close was
 * accepted and the tail has frames left; else false.
 *
 * WHAT IS NOT ALLOWED. Every function takes any values of its numbers, all 64 bits of an index too. Four things
 * it can't see, and the caller must not do: lend slices that overlap, a misaligned pointer, NULL with a count
 * above 0 (an empty slice may be NULL), or a bool whose byte is neither 0 nor 1. A state in use must not be
 * changed between calls; one that was changed is refused only where a field is out of range.
 *
 * A STORE IS LENT AS STORE ALONE. That every kept number is finite holds from an accepted hall_fresh on, while
 * nothing but the unit's own calls writes its state and its store. A stretch of the store that is lent to a call
 * as work memory or as output is written as such: a job may leave an infinity there, and answer 0.
 *
 * A slice is a pointer and a count of what it points to: of floats, not of their bytes. A const slice is never
 * written. A state is 4,056 bytes and an answer 4,080, by value: leave room for a few of them on the stack. The
 * layouts below are those of x86-64 and of 64-bit Arm, which are the same. The library calls C's memcpy, memmove
 * and memset, and wants floats rounded to nearest and the smallest ones kept, as a C program begins.
 */
#ifndef HALL_H
#define HALL_H

#include <stdbool.h>
#include <stddef.h>
#include <stdint.h>

#ifdef __cplusplus
extern "C" {
#endif

/* Changes whenever a struct or a function below does. A state may only go to the version that gave it. */
#define HALL_VERSION 3

/* The floats to lend for frames of F samples, and for the filters. */
#define HALL_STORE(F) (7600 + 16 * (size_t)(F))
#define HALL_WORK(F) (34 * (size_t)(F) + 1348)
#define HALL_COEFFICIENTS 255

/* A ring's two cursors, in samples, each below the ring's length. */
typedef struct {
    size_t read, write;
} hall_cursors;

/* A filter (R3.21, R3.22): out is b0*x, plus b1*x1, plus b2*x2, minus a1*y1, minus a2*y2, rounded at each step. Then
 * x1 goes to x2 and x to x1, y1 to y2 and out to y1. */
typedef struct {
    float a1, a2, b0, b1, b2, x1, x2, y1, y2;
} hall_filter;

/* A unit between two calls. Only `rate`, `frame` and `count` are of use to a host; keep the rest as it is. */
typedef struct {
    uint32_t rate;
    size_t frame;                         /* F */
    hall_cursors lines[16], passes[4];    /* the lines; the allpass rings x0, y0, x1, y1 */
    int32_t count;                        /* frames of tail left */
    hall_filter filters[51];              /* line i band b at 3i + b, then tone 0 to 2 */
    bool busy, tail, marks[34];           /* a frame is open; it is a tail; jobs done: read, mix, line, output */
    int32_t next;                         /* the count that close sets */
    hall_filter before[51];               /* the filters from before the open */
} hall_state;

/* The number above; the first bad sample of an 8; the verdict; the state to go on with. */
typedef struct {
    uint32_t number;
    size_t index;
    bool remaining;
    hall_state state;
} hall_answer;

/* The same of several frames, and how many of them were done. */
typedef struct {
    uint32_t number;
    size_t index;
    int32_t done;
    bool remaining;
    hall_state state;
} hall_frames_answer;

typedef struct {
    uint32_t number;
    hall_cursors cursors;
} hall_ring_answer;

typedef struct {
    uint32_t number;
    hall_cursors cursors;
    float x[4];
} hall_four_answer;

/* A refused call's value is 0. */
typedef struct {
    uint32_t number;
    uint32_t value;
} hall_value;

/* What is read of a take. Its number is of a table of its own (see hall_wave_read). Where it isn't 0, all behind
 * `place` is 0. */
typedef struct {
    uint32_t number;
    size_t place;                    /* where the refused chunk's header begins, with 3, 4 and 6; else 0 */
    uint32_t rate, channels, tag;    /* tag 1: whole numbers of 16 bits; tag 3: floats of 32 */
    size_t data, data_len;           /* the data, as a stretch of the file: where it begins, and its bytes */
} hall_wave;

/* ---- Whole frames (R4). Store is HALL_STORE(F) floats, work HALL_WORK(F), input and output F each frame. ----
 * The store is kept from call to call. Work may hold anything before a call and is all +0 after one that was
 * accepted, unless it was of no frames. */

/* A unit with silent lines and no filters. Answers 2, 3; refused, the state is that of rate 8,000 and F 4. */
hall_answer hall_fresh(uint32_t rate, size_t frame, float *store, size_t store_len);

/* Silences all lines and rings and sets the count to 0; cursors and filters stay, so that a tail right after it
 * still uses the old filters. Answers 1, 3, 5. */
hall_answer hall_reset(hall_state s, float *store, size_t store_len);

/* One frame with sound. t0 to t2 are the reverb times of the three bands in seconds, 0 to 100. The coefficients
 * are a1, a2, b0, b1, b2 of each of the 51 filters, in the order of `filters`; the filters begin the frame with
 * no history. Answers 1, 3, 5 to 9. */
hall_answer hall_apply(hall_state s, float t0, float t1, float t2, const float *coefficients, size_t coefficients_len,
                       const float *input, size_t input_len, float *store, size_t store_len, float *work,
                       size_t work_len, float *output, size_t output_len);

/* n frames with sound at once, n from 0 to 1,024: what n times hall_apply would do, with one set of times and
 * coefficients (R10). Input and output are n times F long. Answers 1, 3 to 9: 3 also where the input is no whole
 * number of frames or the output isn't as long, 4 above 1,024 frames.
 * 1 to 7 are judged once, before the first frame: refused so, nothing changes and `done` is 0. Then each frame is
 * judged by 8 and 9, and the first that is refused ends the call. `done` frames stay done, with the state and the
 * store after them; the output is untouched from the refused frame on, and `index` counts within that frame. With 0
 * `done` is n. Go on with the answer's state, refused or not. After an 8 mend that frame, and hand over what is left
 * of input and output, from `done` times F on. After a 9 play silence for that frame, and hand over what is behind
 * it, from (`done` + 1) times F on; or see 9 above.
 * A refused call's `remaining` is false, though state.count may be above 0 after the frames done. Work is all +0
 * once a frame was done or a 9 was met, and else as it was. With no frames nothing changes, and `remaining` says
 * whether state.count is above 0. */
hall_frames_answer hall_apply_frames(hall_state s, float t0, float t1, float t2, const float *coefficients,
                                     size_t coefficients_len, const float *input, size_t input_len, float *store,
                                     size_t store_len, float *work, size_t work_len, float *output,
                                     size_t output_len);

/* One frame of tail, with the filters of the last apply and their history. Answers 1, 3, 5, 9. */
hall_answer hall_tail(hall_state s, float *store, size_t store_len, float *work, size_t work_len, float *output,
                      size_t output_len);

/* ---- The same as jobs (R5). ----
 * Open, then the 34 jobs, then close. Read 0 to 15, once each, in any order; the mix once, after all reads;
 * line 0 to 15, once each, after the mix; output once, after all reads, be the mix made or not. Close
 * comes after all 34. Store, output, cursors and count change at close and not before; the work memory carries
 * the frame and must not be touched until then. A refused job changes nothing, so it may be asked for again.
 * One call at a time: each is given the state that the one before it handed back, and is lent all of work. */

/* Answers 1, 3, 5 to 8. */
hall_answer hall_open_apply(hall_state s, float t0, float t1, float t2, const float *coefficients,
                            size_t coefficients_len, const float *input, size_t input_len, const float *store,
                            size_t store_len, float *work, size_t work_len);

/* Answers 1, 3, 5. */
hall_answer hall_open_tail(hall_state s, const float *store, size_t store_len, float *work, size_t work_len);

/* Answers 1, 3, 4, 5. */
hall_answer hall_job_read(hall_state s, size_t line, const float *store, size_t store_len, float *work,
                          size_t work_len);

/* Answers 1, 3, 5. */
hall_answer hall_job_mix(hall_state s, float *work, size_t work_len);

/* Answers 1, 3, 4, 5. */
hall_answer hall_job_line(hall_state s, size_t line, float *work, size_t work_len);

/* Answers 1, 3, 5. */
hall_answer hall_job_output(hall_state s, float *work, size_t work_len);

/* Answers 1, 3, 5, 9; the verdict is the frame's. After a 9 no frame is open. */
hall_answer hall_close(hall_state s, float *store, size_t store_len, float *work, size_t work_len, float *output,
                       size_t output_len);

/* Gives up an open frame: the state is that from before the open, work is all +0. Answers 1, 3, 5. */
hall_answer hall_abandon(hall_state s, float *work, size_t work_len);

/* ---- A ring alone (R3.6 to R3.20), of 1 to 65,536 samples of any floats. ----
 * Get n before put n, and what comes out was put in one ring's length earlier. n is the length of the other
 * slice, 1 to the ring's. All answer 3 for the ring's length, then 1 for its cursors; get and put 4 for n.
 * Refused, the cursors are those given and x is four +0. */

hall_ring_answer hall_ring_get(const float *ring, size_t ring_len, hall_cursors c, float *out, size_t out_len);
hall_ring_answer hall_ring_put(float *ring, size_t ring_len, hall_cursors c, const float *xs, size_t xs_len);

/* Four samples at once, on a ring of any length: below 4, get4 repeats samples and the last of put4's wins. */
hall_four_answer hall_ring_get4(const float *ring, size_t ring_len, hall_cursors c);
hall_ring_answer hall_ring_put4(float *ring, size_t ring_len, hall_cursors c, float x0, float x1, float x2, float x3);

/* Silences the ring; the cursors stay. */
hall_ring_answer hall_ring_reset(float *ring, size_t ring_len, hall_cursors c);

/* ---- A filter and the mix alone, on any floats. ---- */

/* Filters the samples in place and hands back the filter with its new history. Never refused. */
hall_filter hall_filter_run(hall_filter f, float *xs, size_t xs_len);

/* y[r] is the sum of x[0] to x[15], times 0.25; x[c] is subtracted where r and c, as bits, have an odd number of
 * ones in common (R3.26 to R3.28). Answers 3 unless both slices have 16 floats. */
uint32_t hall_mix16(const float *x, size_t x_len, float *y, size_t y_len);

/* ---- Delay values (R6), by sixteen primes: index 0 is 2, index 15 is 53. ---- */

/* The whole part of 0.15 * time * rate / 16. Answers 2, 6. */
hall_value hall_delay_min(float time, uint32_t rate);

/* The power of the prime that is nearest to x in ratio, x at most 200,000; 1 for x = 0. Answers 4. */
hall_value hall_prime_power(uint32_t x, size_t index);

/* The power that is nearest to hall_delay_min + (random mod 101). Answers 2, 4, 6. */
hall_value hall_delay_value(float time, uint32_t rate, uint16_t random, size_t index);

/* ---- Buffers (R7) of 1 to 16 channels, each of up to 65,536 samples, one behind the other, of any floats. ----
 * A slice is channels times samples long, the output of downmix samples long. All answer 4 for the counts,
 * then 3 for a length; downmix answers 3 for its output's length first where `samples` is in range. */

uint32_t hall_interleave(size_t channels, size_t samples, const float *buffer, size_t buffer_len, float *target,
                         size_t target_len);
uint32_t hall_deinterleave(size_t channels, size_t samples, const float *source, size_t source_len, float *buffer,
                           size_t buffer_len);
uint32_t hall_make_silent(size_t channels, size_t samples, float *buffer, size_t buffer_len);
uint32_t hall_scale(size_t channels, size_t samples, float volume, float *buffer, size_t buffer_len);

/* Adds the buffer to the other one. */
uint32_t hall_buffer_mix(size_t channels, size_t samples, const float *buffer, size_t buffer_len, float *other,
                         size_t other_len);

/* The mean of the channels: their sum in order, times 1 / channels. */
uint32_t hall_downmix(size_t channels, size_t samples, const float *buffer, size_t buffer_len, float *output,
                      size_t output_len);

/* 0 if `channel` lies in a buffer of `length` floats, where it begins at channel * samples. Answers 4 for the
 * counts, 3 for the length, 4 for the channel. */
uint32_t hall_channel_number(size_t channels, size_t samples, size_t channel, size_t length);

/* ---- Studio takes (R11): RIFF/WAVE files, in bytes that the caller lends. ---- */

/* Reads the headers of a file up to its first `data` chunk, and says where the data lies; it copies nothing, and what
 * is behind the data isn't looked at. The number:
 *
 *   0  accepted.
 *   1  the file has more than 1,048,576 bytes.
 *   2  it is no RIFF/WAVE, or has fewer than 12 bytes.
 *   3  a chunk runs past the file's end: it was cut short, or written to a pipe, where no size can be set.
 *   4  no `fmt ` chunk stands before the data.
 *   5  there is no data: fewer than 8 bytes are left.
 *   6  unsupported: a tag other than 1 with 16 bits and 3 with 32, channels 0 or above 16, a `fmt ` of fewer than 16
 *      bytes, or data that isn't whole samples of all channels. 24 bits are common, and so is tag 0xFFFE: ffmpeg
 *      writes it for floats and above 48,000 samples a second, sox and ffmpeg for more than two channels. The way
 *      out is `sox take.wav -e floating-point -b 32 out.wav`, for most takes with a 3 too. It clips floats at full
 *      scale, keeps the channels, and its file must be within 1,048,576 bytes in turn: twice those of 16 bits.
 *
 * The first chunk that is refused decides, at one chunk the least number. The rate may be any: hall_fresh judges it. */
hall_wave hall_wave_read(const uint8_t *file, size_t file_len);

/* Fills `out` with the floats of a take's data: of two bytes each where the tag is 1, divided by 32,768, else of four
 * bytes each. Past the last whole one it is +0. The channels lie sample by sample, as hall_deinterleave takes them,
 * up to 65,536 samples of each at a time. Never refused, whatever the bytes and the tag are; a float of 32 bits may be
 * a NaN or an infinity.
 *
 *     hall_wave w = hall_wave_read(file, file_len);
 *     if (w.number == 0)
 *         hall_wave_samples(file + w.data, w.data_len, w.tag, out, w.data_len / (w.tag == 1 ? 2 : 4)); */
void hall_wave_samples(const uint8_t *data, size_t data_len, uint32_t tag, float *out, size_t out_len);

#ifdef __cplusplus
}
#endif

#endif
