/* Tests of the C face: include/hall.h against libhall.a.
 *
 * That the two agree on the layout of every struct is checked by calls: each field of a state is given a value on
 * which an answer depends, and each answer is written to a place with a margin behind it. Then frames are played
 * whole, several at once and as jobs, every number of the table is met, and after each refusal the bytes of every lent
 * slice are compared, the payloads of NaNs too. */

#include "hall.h"

#include <stdio.h>
#include <stdlib.h>
#include <string.h>

/* ---- Checks ---- */

static size_t checks;

static void check(bool holds, const char *what, int line) {
    checks++;
    if (holds) return;
    printf("face.c:%d: %s\n", line, what);
    exit(1);
}

#define CHECK(condition) check(condition, #condition, __LINE__)

/* ---- Memory that is lent: five slices in a row, with margins between them that nobody may write to ---- */

/* The largest frame, and the largest input: 1,025 frames of 4 samples. */
enum { MOST = 1024, MOST_INPUT = 1025 * 4, MARGIN = 8, SLICES = 5 };
enum { COEFFICIENTS, INPUT, STORE, WORK, OUTPUT };

typedef struct {
    float cells[HALL_COEFFICIENTS + 2 * MOST_INPUT + HALL_STORE(MOST) + HALL_WORK(MOST) + (SLICES + 1) * MARGIN];
} memory;

static memory lent, earlier;
static size_t start[SLICES], in_use;

/* Where the slices for so many frames of F samples lie. */
static void lay_out(size_t frame, size_t frames) {
    size_t given = frames * frame;
    const size_t lengths[SLICES] = {HALL_COEFFICIENTS, given, HALL_STORE(frame), HALL_WORK(frame), given};
    in_use = MARGIN;
    for (size_t which = 0; which < SLICES; which++) {
        start[which] = in_use;
        in_use += lengths[which] + MARGIN;
    }
}

static float *slice(size_t which) {
    return lent.cells + start[which];
}

static void copy(memory *to, const memory *from) {
    memcpy(to, from, in_use * sizeof(float));
}

static bool same_bytes(const memory *a, const memory *b) {
    return memcmp(a, b, in_use * sizeof(float)) == 0;
}

static float float_of(uint32_t bits) {
    float x;
    memcpy(&x, &bits, sizeof x);
    return x;
}

static bool plus_zero(float x) {
    return memcmp(&x, &(float){0.0f}, sizeof x) == 0;
}

static bool all_plus_zero(const float *xs, size_t count) {
    for (size_t k = 0; k < count; k++)
        if (!plus_zero(xs[k])) return false;
    return true;
}

/* Lays out memory for so many frames of F samples and fills all of it, margins too, with NaNs of many payloads. */
static void fill_all_with_nans(size_t frame, size_t frames) {
    lay_out(frame, frames);
    for (size_t k = 0; k < in_use; k++)
        lent.cells[k] = float_of((k % 2 ? 0x7f800001u : 0xffc00000u) + (uint32_t)k);
}

/* The same for one frame at a time. */
static void fill_with_nans(size_t frame) {
    fill_all_with_nans(frame, 1);
}

static void fill(size_t which, size_t count, float x) {
    for (size_t k = 0; k < count; k++) slice(which)[k] = x;
}

static uint32_t noise_seed = 1;

static float noise(void) {
    noise_seed = noise_seed * 1664525u + 1013904223u;
    return (float)(noise_seed >> 8) / 8388608.0f - 1.0f;
}

/* ---- States and calls ---- */

static size_t line_length(size_t line, size_t frame) {
    static const size_t delays[4] = {225, 341, 441, 556};
    return delays[line % 4] + frame;
}

static const size_t pass_length[4] = {225, 341, 341, 441};

/* No frame open, silent filters; what lies between the fields isn't zero. */
static hall_state blank(size_t frame) {
    hall_state s;
    memset(&s, 0xa5, sizeof s);
    s.rate = 48000;
    s.frame = frame;
    memset(s.lines, 0, sizeof s.lines);
    memset(s.passes, 0, sizeof s.passes);
    memset(s.filters, 0, sizeof s.filters);
    memset(s.before, 0, sizeof s.before);
    memset(s.marks, 0, sizeof s.marks);
    s.busy = s.tail = false;
    s.count = s.next = 0;
    return s;
}

/* Field by field: the padding between fields holds anything. */
static bool same_state(const hall_state *a, const hall_state *b) {
    return a->rate == b->rate && a->frame == b->frame && a->count == b->count && a->busy == b->busy &&
           a->tail == b->tail && a->next == b->next && memcmp(a->lines, b->lines, sizeof a->lines) == 0 &&
           memcmp(a->passes, b->passes, sizeof a->passes) == 0 && memcmp(a->marks, b->marks, sizeof a->marks) == 0 &&
           memcmp(a->filters, b->filters, sizeof a->filters) == 0 &&
           memcmp(a->before, b->before, sizeof a->before) == 0;
}

typedef enum { RESET, APPLY, FRAMES, TAIL, OPEN_APPLY, OPEN_TAIL, READ, MIX, LINE, OUT, CLOSE, ABANDON, CALLS } call;

/* A call of the unit: its own arguments, and how much of each slice it is lent. */
typedef struct {
    call call;
    hall_state state;
    float times[3];
    size_t line;
    size_t length[SLICES];
} request;

static request request_of(call call, hall_state state) {
    size_t frame = state.frame;
    request r = {call, state, {0.1f, 0.1f, 0.1f}, 0,
                 {HALL_COEFFICIENTS, frame, HALL_STORE(frame), HALL_WORK(frame), frame}};
    return r;
}

/* How each call is lent each slice: 0 not at all, 1 to be read, 2 to be written. */
static int lending(call call, size_t which) {
    static const int table[CALLS][SLICES] = {
        [RESET] = {0, 0, 2, 0, 0}, [APPLY] = {1, 1, 2, 2, 2}, [FRAMES] = {1, 1, 2, 2, 2}, [TAIL] = {0, 0, 2, 2, 2},
        [OPEN_APPLY] = {1, 1, 1, 2, 0}, [OPEN_TAIL] = {0, 0, 1, 2, 0}, [READ] = {0, 0, 1, 2, 0},
        [MIX] = {0, 0, 0, 2, 0}, [LINE] = {0, 0, 0, 2, 0}, [OUT] = {0, 0, 0, 2, 0}, [CLOSE] = {0, 0, 2, 2, 2},
        [ABANDON] = {0, 0, 0, 2, 0},
    };
    return table[call][which];
}

static float *lent_slice(const request *r, size_t which) {
    return r->length[which] ? slice(which) : NULL; /* an empty slice may be NULL */
}

static hall_frames_answer frames_made(const request *r) {
    const float *t = r->times;
    return hall_apply_frames(r->state, t[0], t[1], t[2], lent_slice(r, COEFFICIENTS), r->length[COEFFICIENTS],
                             lent_slice(r, INPUT), r->length[INPUT], lent_slice(r, STORE), r->length[STORE],
                             lent_slice(r, WORK), r->length[WORK], lent_slice(r, OUTPUT), r->length[OUTPUT]);
}

/* How many frames the last call of several did. */
static int32_t frames_done;

/* Their answer but for that number. */
static hall_answer counted(hall_frames_answer a) {
    frames_done = a.done;
    return (hall_answer){a.number, a.index, a.remaining, a.state};
}

static hall_answer made(const request *r) {
    float *coefficients = lent_slice(r, COEFFICIENTS), *input = lent_slice(r, INPUT), *store = lent_slice(r, STORE);
    float *work = lent_slice(r, WORK), *output = lent_slice(r, OUTPUT);
    size_t nc = r->length[COEFFICIENTS], ni = r->length[INPUT], ns = r->length[STORE], nw = r->length[WORK];
    size_t no = r->length[OUTPUT];
    const float *t = r->times;
    switch (r->call) {
    case RESET: return hall_reset(r->state, store, ns);
    case APPLY:
        return hall_apply(r->state, t[0], t[1], t[2], coefficients, nc, input, ni, store, ns, work, nw, output, no);
    case FRAMES: return counted(frames_made(r));
    case TAIL: return hall_tail(r->state, store, ns, work, nw, output, no);
    case OPEN_APPLY:
        return hall_open_apply(r->state, t[0], t[1], t[2], coefficients, nc, input, ni, store, ns, work, nw);
    case OPEN_TAIL: return hall_open_tail(r->state, store, ns, work, nw);
    case READ: return hall_job_read(r->state, r->line, store, ns, work, nw);
    case MIX: return hall_job_mix(r->state, work, nw);
    case LINE: return hall_job_line(r->state, r->line, work, nw);
    case OUT: return hall_job_output(r->state, work, nw);
    case CLOSE: return hall_close(r->state, store, ns, work, nw, output, no);
    default: return hall_abandon(r->state, work, nw);
    }
}

/* Makes a call and checks that nothing changed but, at most, the slices that it may write, from end to end. */
static hall_answer ask(const request *r) {
    static memory then, now;
    copy(&then, &lent);
    hall_answer a = made(r);
    copy(&now, &lent);
    for (size_t which = 0; which < SLICES; which++)
        if (lending(r->call, which) == 2)
            memcpy(now.cells + start[which], then.cells + start[which], r->length[which] * sizeof(float));
    CHECK(same_bytes(&now, &then));
    return a;
}

/* A request that must be refused: nothing changes, not a byte. */
static void refused(const request *r, uint32_t number, size_t index) {
    copy(&earlier, &lent);
    hall_answer a = ask(r);
    CHECK(a.number == number);
    CHECK(a.index == index);
    CHECK(!a.remaining);
    CHECK(r->call != FRAMES || frames_done == 0);
    CHECK(same_state(&a.state, &r->state));
    CHECK(same_bytes(&lent, &earlier));
}

/* Only the number is looked at; the memory is put back. */
static uint32_t number_of(call call, hall_state s) {
    request r = request_of(call, s);
    copy(&earlier, &lent);
    uint32_t number = ask(&r).number;
    copy(&lent, &earlier);
    return number;
}

/* An open frame in which a call is in turn; for a call that opens or is whole, no frame open. */
static hall_state in_turn(call call, size_t frame) {
    hall_state s = blank(frame);
    s.count = 9;
    if (call <= OPEN_TAIL) return s;
    s.busy = true;
    if (call == MIX || call == OUT) memset(s.marks, 1, 16);
    if (call == LINE) s.marks[16] = true;
    if (call == CLOSE) memset(s.marks, 1, 34);
    return s;
}

/* Finite memory for so many frames of F samples, with gentle filters. */
static void fill_all_finite(size_t frame, size_t frames) {
    fill_all_with_nans(frame, frames);
    fill(COEFFICIENTS, HALL_COEFFICIENTS, 0.0f);
    for (size_t k = 0; k < 51; k++) slice(COEFFICIENTS)[5 * k + 2] = 0.9f;
    for (size_t k = 0; k < frames * frame; k++) slice(INPUT)[k] = noise();
    for (size_t k = 0; k < HALL_STORE(frame); k++) slice(STORE)[k] = noise();
    fill(WORK, HALL_WORK(frame), 0.5f);
}

/* The same for one frame at a time. */
static void fill_finite(size_t frame) {
    fill_all_finite(frame, 1);
}

/* ---- The layout of the structs ---- */

/* A state in range, every field of which is a value of its own. */
static hall_state numbered(size_t frame) {
    hall_state s = blank(frame);
    s.rate = 8123;
    for (size_t i = 0; i < 16; i++) s.lines[i] = (hall_cursors){2 * i + 1, 2 * i + 2};
    for (size_t i = 0; i < 4; i++) s.passes[i] = (hall_cursors){2 * i + 51, 2 * i + 52};
    s.count = 777;
    float *numbers = &s.filters[0].a1;
    for (size_t k = 0; k < 51 * 9; k++) numbers[k] = 1000.0f + (float)k;
    return s;
}

/* So many frames at once, of a unit that has lived, and finite memory for them. */
static request frames_of_noise(size_t frame, size_t frames) {
    fill_all_finite(frame, frames);
    request r = request_of(FRAMES, numbered(frame));
    r.length[INPUT] = r.length[OUTPUT] = frames * frame;
    return r;
}

/* A whole call that needs no float: all fields go in and come out. */
static void layout_goes_round(void) {
    fill_finite(8);
    request r = request_of(RESET, numbered(8));
    hall_answer a = ask(&r);
    CHECK(a.number == 0 && a.index == 0 && !a.remaining);
    r.state.count = 0;
    CHECK(same_state(&a.state, &r.state));
    hall_state open = numbered(8);
    open.busy = true;
    open.tail = true;
    open.next = -5;
    for (size_t k = 0; k < 34; k++) open.marks[k] = k % 3 == 1;
    float *before = &open.before[0].a1;
    for (size_t k = 0; k < 51 * 9; k++) before[k] = float_of(0x7fc00001u + (uint32_t)k);
    r = request_of(RESET, open);
    refused(&r, 5, 0);
}

/* Rate, frame and every cursor: one value in range, the next one out of it. */
static void layout_of_the_range(void) {
    fill_finite(8);
    hall_state s = numbered(8);
    CHECK(number_of(RESET, s) == 0);
    s.rate = 7999;
    CHECK(number_of(RESET, s) == 1);
    s = numbered(8);
    s.frame = 6;
    CHECK(number_of(RESET, s) == 1);
    for (size_t ring = 0; ring < 20; ring++)
        for (size_t write = 0; write < 2; write++) {
            size_t length = ring < 16 ? line_length(ring, 8) : pass_length[ring - 16];
            s = numbered(8);
            hall_cursors *c = ring < 16 ? &s.lines[ring] : &s.passes[ring - 16];
            size_t *cursor = write ? &c->write : &c->read;
            *cursor = length - 1;
            CHECK(number_of(RESET, s) == 0);
            *cursor = length;
            CHECK(number_of(RESET, s) == 1);
        }
}

/* What is held for an open frame must be blank while none is open; with one open it may be anything. */
static void layout_of_what_is_held(void) {
    fill_finite(8);
    for (size_t k = 0; k < 34; k++) {
        hall_state s = blank(8);
        s.marks[k] = true;
        CHECK(number_of(RESET, s) == 1);
        s.busy = true;
        CHECK(number_of(RESET, s) == 5);
    }
    for (size_t k = 0; k < 51 * 9; k++) {
        hall_state s = blank(8);
        (&s.before[0].a1)[k] = -0.0f;
        CHECK(number_of(RESET, s) == 1);
        s.busy = true;
        CHECK(number_of(RESET, s) == 5);
    }
    hall_state s = blank(8);
    s.tail = true;
    CHECK(number_of(RESET, s) == 1);
    s = blank(8);
    s.next = 1;
    CHECK(number_of(RESET, s) == 1);
}

/* Each mark stops its own job and no other, and is set by it. */
static void layout_of_the_marks(void) {
    fill_finite(8);
    for (size_t mark = 0; mark < 34; mark++) {
        call job = mark < 16 ? READ : mark == 16 ? MIX : mark < 33 ? LINE : OUT;
        request r = request_of(job, blank(8));
        r.state.busy = true;
        memset(r.state.marks, 1, sizeof r.state.marks);
        r.line = job == LINE ? mark - 17 : mark % 16;
        refused(&r, 5, 0);
        r.state.marks[mark] = false;
        hall_answer a = ask(&r);
        CHECK(a.number == 0);
        r.state.marks[mark] = true;
        CHECK(memcmp(a.state.marks, r.state.marks, sizeof a.state.marks) == 0);
        request close = request_of(CLOSE, a.state);
        close.state.marks[mark] = false;
        refused(&close, 5, 0);
    }
}

/* Line i is filtered by the filters 3i to 3i + 2, the output by 48 to 50: their b0 are all different. */
static void layout_of_the_filters(void) {
    for (size_t line = 0; line <= 16; line++) {
        fill_finite(4);
        request r = request_of(line < 16 ? LINE : OUT, in_turn(line < 16 ? LINE : OUT, 4));
        r.line = line % 16;
        r.state.tail = true;
        float product = 1.0f;
        for (size_t k = 0; k < 51; k++) r.state.filters[k].b0 = 1.0f + (float)k / 64.0f;
        for (size_t band = 0; band < 3; band++) product *= r.state.filters[3 * line + band].b0;
        fill(WORK, HALL_WORK(4), 0.0f);
        for (size_t k = 0; k < 4; k++)
            for (size_t row = 0; row < 16; row++) slice(WORK)[(line < 16 ? 17 : 1) * 4 + 4 * row + k] = 1.0f;
        hall_answer a = ask(&r);
        CHECK(a.number == 0);
        float first = slice(WORK)[line < 16 ? (17 + line) * 4 : 33 * 4];
        CHECK(first == (line < 16 ? product : 0.0625f * product)); /* two allpasses of a quarter each */
        for (size_t k = 0; k < 51; k++) {
            bool own = k / 3 == line;
            CHECK(own == (memcmp(&a.state.filters[k], &r.state.filters[k], sizeof a.state.filters[k]) != 0));
        }
    }
}

/* The nine numbers of a filter, each in its own place. */
static void layout_of_a_filter(void) {
    hall_filter f = {2.0f, 3.0f, 5.0f, 7.0f, 11.0f, 13.0f, 17.0f, 19.0f, 23.0f};
    float row[1] = {29.0f};
    hall_filter g = hall_filter_run(f, row, 1);
    CHECK(row[0] == 316.0f); /* 5*29 + 7*13 + 11*17 - 2*19 - 3*23 */
    CHECK(g.a1 == 2.0f && g.a2 == 3.0f && g.b0 == 5.0f && g.b1 == 7.0f && g.b2 == 11.0f);
    CHECK(g.x1 == 29.0f && g.x2 == 13.0f && g.y1 == 316.0f && g.y2 == 19.0f);
    hall_filter same = hall_filter_run(f, NULL, 0);
    CHECK(memcmp(&same, &f, sizeof f) == 0);
}

/* The kind, the two counts, the filters from before, and the cursors of a close. */
static void layout_of_an_open_frame(void) {
    fill_finite(4);
    request r = request_of(LINE, in_turn(LINE, 4));
    r.state.filters[0].b0 = r.state.filters[1].b0 = r.state.filters[2].b0 = 1.0f;
    fill(WORK, HALL_WORK(4), 1.0f);
    CHECK(ask(&r).number == 0 && slice(WORK)[17 * 4] == 2.0f); /* an apply adds its input */
    fill(WORK, HALL_WORK(4), 1.0f);
    r.state.tail = true;
    CHECK(ask(&r).number == 0 && slice(WORK)[17 * 4] == 1.0f);

    hall_state open = numbered(4);
    open.busy = true;
    open.next = 41;
    memset(open.marks, 1, sizeof open.marks);
    for (size_t k = 0; k < 51 * 9; k++) (&open.before[0].a1)[k] = -(float)k - 1.0f;
    r = request_of(ABANDON, open);
    hall_answer a = ask(&r);
    hall_state expected = numbered(4);
    memcpy(expected.filters, open.before, sizeof open.before);
    CHECK(a.number == 0 && same_state(&a.state, &expected));

    fill(WORK, HALL_WORK(4), 1.0f);
    r = request_of(CLOSE, open);
    a = ask(&r);
    expected = numbered(4);
    expected.count = 41;
    for (size_t k = 0; k < 20; k++) {
        hall_cursors *c = k < 16 ? &expected.lines[k] : &expected.passes[k - 16];
        c->read += 4;
        c->write += 4;
    }
    CHECK(a.number == 0 && a.remaining && same_state(&a.state, &expected));
}

/* A get goes by the read cursor and a put by the write cursor, in a ring alone and in the unit's lines. */
static void layout_of_the_cursors(void) {
    float ring[5] = {10, 11, 12, 13, 14}, out[2];
    hall_ring_answer g = hall_ring_get(ring, 5, (hall_cursors){1, 3}, out, 2);
    CHECK(g.number == 0 && g.cursors.read == 3 && g.cursors.write == 3 && out[0] == 11 && out[1] == 12);
    hall_ring_answer p = hall_ring_put(ring, 5, (hall_cursors){1, 3}, out, 2);
    CHECK(p.number == 0 && p.cursors.read == 1 && p.cursors.write == 0 && ring[3] == 11 && ring[4] == 12);
    hall_four_answer f = hall_ring_get4(ring, 5, (hall_cursors){3, 1});
    CHECK(f.number == 0 && f.cursors.read == 2 && f.cursors.write == 1);
    CHECK(f.x[0] == 11 && f.x[1] == 12 && f.x[2] == 10 && f.x[3] == 11);

    fill_finite(4);
    for (size_t k = 0; k < HALL_STORE(4); k++) slice(STORE)[k] = (float)k;
    request r = request_of(READ, in_turn(READ, 4));
    r.line = 1;
    r.state.lines[1] = (hall_cursors){10, 100};
    CHECK(ask(&r).number == 0 && slice(WORK)[2 * 4] == (float)(line_length(0, 4) + 10));
    r.call = CLOSE;
    memset(r.state.marks, 1, sizeof r.state.marks);
    fill(WORK, HALL_WORK(4), -1.0f);
    CHECK(ask(&r).number == 0 && slice(STORE)[line_length(0, 4) + 100] == -1.0f);
    CHECK(slice(STORE)[line_length(0, 4) + 10] == (float)(line_length(0, 4) + 10));
}

/* An answer too large for registers is written to a place that the caller names, and no C can say where: on x86-64 by a
 * hidden first argument, on Arm in a register of its own, x8. Here the place is named openly, with a margin behind it.
 * What hall_apply is given last lies on x86-64's stack behind the state, so that the frames played below would be refused
 * if the state's size were another; Arm's C passes where the state lies. */
enum { BEHIND = 64 };

typedef struct {
    hall_answer whole; /* the largest answer, for its alignment */
    unsigned char behind[BEHIND];
} place;

place answered;

/* The place; its bytes and those behind it are not zero. */
static void *room(void) {
    return memset(&answered, 0xa5, sizeof answered);
}

/* The answer ends at its size: its last four bytes before the padding were written, and none behind it. */
static bool ends_at(const void *given, size_t size, size_t padding) {
    const unsigned char *end = (const unsigned char *)&answered + size;
    for (size_t k = 0; k < BEHIND; k++)
        if (end[k] != 0xa5) return false;
    for (size_t k = 1; k <= 4; k++)
        if (*(end - padding - k) == 0xa5) return false;
    return given == &answered;
}

/* A function whose place is named. It goes through a variable, so that no compiler knows which it is. */
typedef void function(void);

static function *unknown(function *f) {
    function *volatile g = f;
    return g;
}

/* Calls a function of these types, and gives where it says that the answer is. */
#ifdef LIBRARY_FOR_ARM
function *chosen, to_place;
__asm__(".text\n"
        "to_place:\n" /* the chosen function, with the arguments as they are */
        "    adrp x8, answered\n"
        "    add x8, x8, :lo12:answered\n"
        "    adrp x16, chosen\n"
        "    ldr x16, [x16, :lo12:chosen]\n"
        "    br x16\n");
#define OPENLY(name, types, ...) \
    (room(), chosen = (function *)(name), ((void(*) types)unknown(to_place))(__VA_ARGS__), (void *)&answered)
#else
#define AFTER_PLACE(...) (void *, __VA_ARGS__)
#define OPENLY(name, types, ...) (((void *(*)AFTER_PLACE types)unknown((function *)(name)))(room(), __VA_ARGS__))
#endif

/* Number, index, done and verdict of several frames, each in its own place; all fields of the state go round. */
static void layout_of_a_frames_answer(void) {
    request r = frames_of_noise(8, 3);
    hall_frames_answer a = frames_made(&r);
    CHECK(a.number == 0 && a.index == 0 && a.done == 3 && a.remaining && a.state.rate == 8123 && a.state.frame == 8);
    r = frames_of_noise(8, 3);
    slice(INPUT)[2 * 8 + 5] = float_of(0x7f800000u);
    a = frames_made(&r);
    CHECK(a.number == 8 && a.index == 5 && a.done == 2 && !a.remaining && a.state.count > 0);
    r = frames_of_noise(8, 0);
    a = frames_made(&r);
    CHECK(a.number == 0 && a.index == 0 && a.done == 0 && a.remaining && same_state(&a.state, &r.state));
    CHECK(offsetof(hall_frames_answer, index) == 8 && offsetof(hall_frames_answer, done) == 16);
    CHECK(offsetof(hall_frames_answer, remaining) == 20 && offsetof(hall_frames_answer, state) == 24);
}

static void layout_of_the_sizes(void) {
    CHECK(sizeof(hall_state) == 4056 && sizeof(hall_answer) == 4080 && sizeof(hall_frames_answer) == 4080);
    float ring[5] = {0};
    const hall_cursors c = {1, 2};
    const hall_filter f = {0};
    void *given = OPENLY(hall_reset, (hall_state, float *, size_t), numbered(8), ring, 5);
    CHECK(ends_at(given, sizeof(hall_answer), 4) && answered.whole.number == 3);
    given = OPENLY(hall_apply_frames,
                   (hall_state, float, float, float, const float *, size_t, const float *, size_t, float *, size_t,
                    float *, size_t, float *, size_t),
                   numbered(8), 0.1f, 0.1f, 0.1f, NULL, 0, NULL, 0, ring, 5, NULL, 0, NULL, 0);
    CHECK(ends_at(given, sizeof(hall_frames_answer), 4) && answered.whole.number == 3);
    given = OPENLY(hall_ring_reset, (float *, size_t, hall_cursors), ring, 5, c);
    CHECK(ends_at(given, sizeof(hall_ring_answer), 0) && answered.whole.number == 0);
    given = OPENLY(hall_ring_get4, (const float *, size_t, hall_cursors), ring, 5, c);
    CHECK(ends_at(given, sizeof(hall_four_answer), 0) && answered.whole.number == 0);
    given = OPENLY(hall_wave_read, (const uint8_t *, size_t), (const uint8_t *)"RIFF", 4);
    CHECK(ends_at(given, sizeof(hall_wave), 0) && answered.whole.number == 2);
    given = OPENLY(hall_filter_run, (hall_filter, float *, size_t), f, ring, 5);
    CHECK(ends_at(given, sizeof(hall_filter), 0));
    hall_value v = hall_prime_power(3, 0);
    CHECK(sizeof v == 8 && v.number == 0 && v.value == 4);
}

static void layout(void) {
    layout_goes_round();
    layout_of_the_range();
    layout_of_what_is_held();
    layout_of_the_marks();
    layout_of_the_filters();
    layout_of_a_filter();
    layout_of_an_open_frame();
    layout_of_the_cursors();
    layout_of_a_frames_answer();
    layout_of_the_sizes();
}

/* ---- Refusals ---- */

/* 1: any call, for a state out of range. */
static void refused_states(void) {
    fill_with_nans(8);
    for (call c = 0; c < CALLS; c++) {
        request r = request_of(c, in_turn(c, 8));
        r.state.rate = 192001;
        refused(&r, 1, 0);
        r = request_of(c, in_turn(c, 8));
        r.state.frame = SIZE_MAX - 3;
        refused(&r, 1, 0);
        r.state.frame = 0;
        refused(&r, 1, 0);
        r = request_of(c, in_turn(c, 8));
        r.state.lines[15].write = SIZE_MAX;
        refused(&r, 1, 0);
    }
}

/* 3: each slice that a call is lent, too short, too long or empty. */
static void refused_lengths(void) {
    fill_with_nans(8);
    for (call c = 0; c < CALLS; c++)
        for (size_t which = 0; which < SLICES; which++) {
            request r = request_of(c, in_turn(c, 8));
            size_t right = r.length[which];
            if (!lending(c, which)) continue;
            r.length[which] = right - 1;
            refused(&r, 3, 0);
            r.length[which] = right + 1;
            refused(&r, 3, 0);
            r.length[which] = 0;
            refused(&r, 3, 0);
        }
}

/* 4: a line that isn't there, all 64 bits of it. */
static void refused_lines(void) {
    fill_with_nans(8);
    const size_t lines[] = {16, 17, 256, (size_t)1 << 32, (size_t)1 << 63, SIZE_MAX};
    for (size_t k = 0; k < sizeof lines / sizeof *lines; k++) {
        request r = request_of(READ, in_turn(READ, 8));
        r.line = lines[k];
        refused(&r, 4, 0);
        r = request_of(LINE, in_turn(LINE, 8));
        r.line = lines[k];
        refused(&r, 4, 0);
    }
}

/* 5: jobs, close and abandon with no frame open; open, whole calls and reset with one open; jobs before their turn. */
static void refused_turns(void) {
    fill_with_nans(8);
    for (call c = 0; c < CALLS; c++) {
        request r = request_of(c, blank(8));
        r.state.busy = c <= OPEN_TAIL;
        refused(&r, 5, 0);
    }
    for (size_t missing = 0; missing < 16; missing++) {
        request mix = request_of(MIX, in_turn(MIX, 8)), out = request_of(OUT, in_turn(OUT, 8));
        mix.state.marks[missing] = out.state.marks[missing] = false;
        refused(&mix, 5, 0);
        refused(&out, 5, 0);
        request line = request_of(LINE, in_turn(MIX, 8));
        line.line = missing;
        refused(&line, 5, 0);
    }
}

/* 6, 7, 8: times, coefficients, input; the index is that of the first bad sample. */
static void refused_floats(call c) {
    const float bad[] = {float_of(0x7f800000u), float_of(0xff800000u), float_of(0x7fc12345u), float_of(0xff800001u)};
    for (size_t k = 0; k < 4; k++) {
        for (size_t time = 0; time < 3; time++) {
            fill_finite(8);
            request r = request_of(c, blank(8));
            const float outside[] = {bad[k], -1.0e-45f, 100.00001f};
            for (size_t j = 0; j < 3; j++) {
                r.times[time] = outside[j];
                refused(&r, 6, 0);
            }
        }
        for (size_t at = 0; at < HALL_COEFFICIENTS; at += 127) {
            fill_finite(8);
            slice(COEFFICIENTS)[at] = bad[k];
            request r = request_of(c, blank(8));
            refused(&r, 7, 0);
        }
        for (size_t at = 0; at < 8; at++) {
            fill_finite(8);
            slice(INPUT)[at] = bad[k];
            slice(INPUT)[7] = bad[(k + 1) % 4];
            request r = request_of(c, blank(8));
            refused(&r, 8, at);
        }
    }
}

/* Everything wrong at once: the lowest number is given, then the next as each is mended. */
static void lowest_number_first(void) {
    fill_with_nans(8);
    request r = request_of(APPLY, blank(8));
    r.state.busy = true;
    r.state.rate = 0;
    r.length[OUTPUT] = 7;
    r.times[1] = -1.0f;
    refused(&r, 1, 0);
    r.state.rate = 48000;
    refused(&r, 3, 0);
    r.length[OUTPUT] = 8;
    refused(&r, 5, 0);
    r.state.busy = false;
    refused(&r, 6, 0);
    r.times[1] = 1.0f;
    refused(&r, 7, 0);
    fill(COEFFICIENTS, HALL_COEFFICIENTS, 1.0f);
    refused(&r, 8, 0);
    request job = request_of(READ, blank(8));
    job.line = 16;
    job.length[WORK]--;
    refused(&job, 3, 0);
    job.length[WORK]++;
    refused(&job, 4, 0);
    job.line = 15;
    refused(&job, 5, 0);
}

/* R2.19: 9. The state is that of before the frame, store and output stay, work is +0 throughout. */
static void refused_frames(call c) {
    fill_finite(8);
    hall_state s = numbered(8);
    if (c == APPLY || c == FRAMES) fill(COEFFICIENTS, HALL_COEFFICIENTS, 3.0e38f);
    if (c == TAIL) s.filters[50].y2 = float_of(0x7f800000u);
    if (c == CLOSE) {
        s.busy = true;
        s.next = 5;
        memset(s.marks, 1, sizeof s.marks);
        for (size_t k = 0; k < 51 * 9; k++) (&s.before[0].a1)[k] = (float)k;
        slice(WORK)[HALL_WORK(8) - 1] = float_of(0xff800000u);
    }
    request r = request_of(c, s);
    copy(&earlier, &lent);
    hall_answer a = ask(&r);
    CHECK(a.number == 9 && a.index == 0 && !a.remaining);
    hall_state expected = numbered(8);
    if (c == CLOSE) memcpy(expected.filters, s.before, sizeof s.before);
    if (c == TAIL) expected.filters[50].y2 = s.filters[50].y2;
    CHECK(same_state(&a.state, &expected));
    CHECK(all_plus_zero(slice(WORK), HALL_WORK(8)));
    memcpy(slice(WORK), earlier.cells + start[WORK], HALL_WORK(8) * sizeof(float));
    CHECK(same_bytes(&lent, &earlier));
}

/* 9 judges the filters, the rows put, the output and the four rings; not the input, the read rows or `before`. */
static void what_nine_judges(void) {
    const struct {
        size_t at;
        uint32_t number;
    } places[] = {{0, 0}, {8, 0}, {17 * 8 - 1, 0}, {17 * 8, 9}, {33 * 8 - 1, 9}, {33 * 8, 9}, {34 * 8 - 1, 9},
                  {34 * 8, 9}, {HALL_WORK(8) - 1, 9}};
    for (size_t k = 0; k < sizeof places / sizeof *places; k++) {
        fill_finite(8);
        slice(WORK)[places[k].at] = float_of(0x7f800000u);
        CHECK(number_of(CLOSE, in_turn(CLOSE, 8)) == places[k].number);
    }
    fill_finite(8);
    for (size_t k = 0; k < 51 * 9; k++) {
        hall_state s = in_turn(CLOSE, 8);
        (&s.before[0].a1)[k] = float_of(0x7fc00000u);
        CHECK(number_of(CLOSE, s) == 0);
        (&s.filters[0].a1)[k] = float_of(0xff800000u);
        CHECK(number_of(CLOSE, s) == 9);
    }
}

/* 2 and 3 of fresh: the store isn't touched, the state is that of rate 8,000 and F 4. */
static void refused_fresh(uint32_t rate, size_t frame, size_t length, uint32_t number) {
    fill_with_nans(MOST);
    copy(&earlier, &lent);
    hall_answer a = hall_fresh(rate, frame, slice(STORE), length);
    hall_state s = blank(4);
    s.rate = 8000;
    CHECK(a.number == number && a.index == 0 && !a.remaining && same_state(&a.state, &s));
    CHECK(same_bytes(&lent, &earlier));
}

static void refusals(void) {
    refused_states();
    refused_lengths();
    refused_lines();
    refused_turns();
    refused_floats(APPLY);
    refused_floats(FRAMES);
    refused_floats(OPEN_APPLY);
    lowest_number_first();
    refused_frames(APPLY);
    refused_frames(FRAMES);
    refused_frames(TAIL);
    refused_frames(CLOSE);
    what_nine_judges();
    refused_fresh(7999, 8, HALL_STORE(8), 2);
    refused_fresh(192001, 8, HALL_STORE(8), 2);
    refused_fresh(48000, 0, HALL_STORE(0), 2);
    refused_fresh(48000, 6, HALL_STORE(6), 2);
    refused_fresh(48000, 1028, HALL_STORE(MOST), 2);
    refused_fresh(48000, SIZE_MAX, 0, 2);
    refused_fresh(48000, 8, HALL_STORE(8) - 1, 3);
    refused_fresh(48000, 8, HALL_STORE(8) + 1, 3);
    refused_fresh(48000, 8, 0, 3);
}

/* ---- Frames, whole and as jobs ---- */

/* The job of a mark. */
static request job_of(size_t mark, hall_state s) {
    request r = request_of(mark < 16 ? READ : mark == 16 ? MIX : mark < 33 ? LINE : OUT, s);
    r.line = r.call == LINE ? mark - 17 : mark % 16;
    return r;
}

/* The 34 jobs in a random legal order; now and then one that is done, or not ready, is asked for. */
static hall_state all_jobs(hall_state s) {
    size_t done = 0;
    while (done < 34) {
        size_t mark = (size_t)(noise() * 17.0f + 17.0f) % 34;
        request r = job_of(mark, s);
        bool reads_done = memchr(s.marks, 0, 16) == NULL;
        bool ready = r.call == READ || (r.call == LINE ? s.marks[16] : reads_done);
        if (s.marks[mark] || !ready) {
            if (noise() > 0.9f) refused(&r, 5, 0);
            continue;
        }
        hall_answer a = ask(&r);
        CHECK(a.number == 0 && a.index == 0 && !a.remaining);
        s = a.state;
        done++;
    }
    return s;
}

/* One frame both ways, from the same state and memory: the same answer, state and bytes. */
static hall_answer both_ways(call whole, hall_state s) {
    size_t frame = s.frame;
    for (size_t k = 0; k < frame; k++) slice(INPUT)[k] = noise();
    static memory opening, result;
    copy(&opening, &lent);
    request r = request_of(whole, s);
    hall_answer a = ask(&r);
    CHECK(a.number == 0 && a.index == 0);
    CHECK(all_plus_zero(slice(WORK), HALL_WORK(frame)));
    copy(&result, &lent);
    copy(&lent, &opening);
    r.call = whole == APPLY ? OPEN_APPLY : OPEN_TAIL;
    hall_answer b = ask(&r);
    CHECK(b.number == 0 && b.state.busy && !b.remaining);
    r = request_of(CLOSE, all_jobs(b.state));
    CHECK(memcmp(slice(STORE), opening.cells + start[STORE], HALL_STORE(frame) * sizeof(float)) == 0);
    b = ask(&r);
    CHECK(b.number == a.number && b.index == a.index && b.remaining == a.remaining);
    CHECK(same_state(&a.state, &b.state));
    CHECK(same_bytes(&lent, &result));
    return a;
}

static void frames_of(size_t frame) {
    fill_finite(frame);
    hall_answer a = hall_fresh(48000, frame, slice(STORE), HALL_STORE(frame));
    hall_state s = blank(frame);
    CHECK(a.number == 0 && same_state(&a.state, &s) && all_plus_zero(slice(STORE), HALL_STORE(frame)));
    for (size_t k = 0; k < HALL_STORE(frame); k++) slice(STORE)[k] = noise();
    for (size_t k = 0; k < 48 / frame + 4; k++) {
        a = both_ways(k % 3 == 2 ? TAIL : APPLY, a.state);
        CHECK(a.remaining == (a.state.count > 0));
    }
    request r = request_of(RESET, a.state);
    s = a.state;
    s.count = 0;
    a = ask(&r);
    CHECK(a.number == 0 && same_state(&a.state, &s) && all_plus_zero(slice(STORE), HALL_STORE(frame)));
}

/* A frame that is given up leaves no trace. */
static void abandoned(void) {
    fill_finite(8);
    hall_state s = numbered(8);
    request r = request_of(OPEN_APPLY, s);
    hall_answer a = ask(&r);
    CHECK(a.number == 0 && a.state.busy);
    r = request_of(READ, a.state);
    a = ask(&r);
    CHECK(a.number == 0);
    r = request_of(ABANDON, a.state);
    a = ask(&r);
    CHECK(a.number == 0 && same_state(&a.state, &s) && all_plus_zero(slice(WORK), HALL_WORK(8)));
}

/* R9.27: where the first echoes of one sample fall. */
static void click(void) {
    fill_finite(128);
    for (size_t k = 0; k < 51; k++) slice(COEFFICIENTS)[5 * k + 2] = k < 48 && k % 3 == 0 ? 0.5f : 1.0f;
    fill(INPUT, 128, 0.0f);
    slice(INPUT)[0] = 1.0f;
    hall_answer a = hall_fresh(48000, 128, slice(STORE), HALL_STORE(128));
    static float played[77 * 128];
    request r = request_of(APPLY, a.state);
    size_t frames = 0;
    do {
        a = ask(&r);
        CHECK(a.number == 0);
        memcpy(played + 128 * frames++, slice(OUTPUT), 128 * sizeof(float));
        r = request_of(TAIL, a.state);
    } while (a.remaining);
    CHECK(frames == 77); /* an apply and 76 tails */
    CHECK(all_plus_zero(played, 353));
    CHECK(played[353] == 0.015625f && played[469] == 0.015625f);
}

/* A time of -0 is one of 0; the count stays at its least value. */
static void least_counts(void) {
    fill_finite(8);
    request r = request_of(APPLY, blank(8));
    r.times[0] = r.times[1] = r.times[2] = -0.0f;
    hall_answer a = ask(&r);
    CHECK(a.number == 0 && a.state.count == 0 && !a.remaining);
    r = request_of(TAIL, a.state);
    r.state.count = INT32_MIN;
    a = ask(&r);
    CHECK(a.number == 0 && a.state.count == INT32_MIN && !a.remaining);
}

static void frames(void) {
    frames_of(4);
    frames_of(100);
    frames_of(128);
    frames_of(1024);
    abandoned();
    click();
    least_counts();
}

/* ---- Several frames at once (R10) ---- */

/* The same frames by an apply each, up to the first that is refused. */
static hall_answer singly(const request *r) {
    size_t frame = r->state.frame;
    const float *t = r->times;
    hall_answer a = {0, 0, r->state.count > 0, r->state};
    frames_done = 0;
    for (size_t at = 0; at < r->length[INPUT] && a.number == 0; at += frame) {
        a = hall_apply(a.state, t[0], t[1], t[2], slice(COEFFICIENTS), HALL_COEFFICIENTS, slice(INPUT) + at, frame,
                       slice(STORE), HALL_STORE(frame), slice(WORK), HALL_WORK(frame), slice(OUTPUT) + at, frame);
        frames_done += a.number == 0;
    }
    return a;
}

/* A slice is what it was from a float on. */
static bool kept_from(const memory *before, size_t which, size_t from, size_t length) {
    return memcmp(slice(which) + from, before->cells + start[which] + from, (length - from) * sizeof(float)) == 0;
}

/* Frames at once that end with this number, and the same singly from the same state and memory: the same answer, state
 * and bytes. From the frame that was refused on no output is touched, and the verdict is false. Work is +0, or as it
 * was where no frame was done nor came to a 9. */
static hall_answer at_once(const request *r, uint32_t number, size_t index, size_t done) {
    static memory opening, result;
    copy(&opening, &lent);
    hall_answer a = ask(r);
    CHECK(a.number == number && a.index == index && frames_done == (int32_t)done);
    CHECK(a.remaining == (number == 0 && a.state.count > 0));
    CHECK(kept_from(&opening, OUTPUT, done * r->state.frame, r->length[OUTPUT]));
    if (done > 0 || number == 9) CHECK(all_plus_zero(slice(WORK), r->length[WORK]));
    else CHECK(kept_from(&opening, WORK, 0, r->length[WORK]));
    copy(&result, &lent);
    copy(&lent, &opening);
    hall_answer b = singly(r);
    CHECK(b.number == number && b.index == index && frames_done == (int32_t)done && b.remaining == a.remaining);
    CHECK(same_state(&a.state, &b.state));
    CHECK(same_bytes(&lent, &result));
    return a;
}

/* The tail that follows; a 9 repeats. */
static void then_tail(hall_answer a) {
    request r = request_of(TAIL, a.state);
    hall_answer tail = ask(&r);
    CHECK(tail.number == (a.number == 9 ? 9 : 0));
    CHECK(tail.state.count == a.state.count - (tail.number == 0 && a.state.count > INT32_MIN));
}

/* All frames are done: with a tail left, and with none. */
static void all_done(size_t frame, size_t frames) {
    request r = frames_of_noise(frame, frames);
    hall_answer a = at_once(&r, 0, 0, frames);
    CHECK(a.remaining);
    then_tail(a);
    r = frames_of_noise(frame, frames);
    r.times[0] = r.times[1] = r.times[2] = -0.0f;
    a = at_once(&r, 0, 0, frames);
    CHECK(!a.remaining && a.state.count == 0);
    then_tail(a);
}

/* No frames: nothing changes, and the verdict is that of the count kept. 1, 3, 5, 6 and 7 are judged all the same. */
static void no_frames(int32_t count) {
    request r = frames_of_noise(8, 0);
    r.state.count = count;
    copy(&earlier, &lent);
    hall_answer a = at_once(&r, 0, 0, 0);
    CHECK(a.remaining == (count > 0) && same_state(&a.state, &r.state) && same_bytes(&lent, &earlier));
    then_tail(a);
    request wrong = r;
    wrong.state.rate = 7999;
    refused(&wrong, 1, 0);
    for (size_t which = 0; which < SLICES; which++) {
        wrong = r;
        wrong.length[which]++;
        refused(&wrong, 3, 0);
    }
    wrong = r;
    wrong.state.busy = true;
    refused(&wrong, 5, 0);
    wrong = r;
    wrong.times[2] = 100.00001f;
    refused(&wrong, 6, 0);
    slice(COEFFICIENTS)[254] = float_of(0xff800000u);
    refused(&r, 7, 0);
}

/* 3: an input of no whole number of frames, though the output is as long; an output of another length, by whole frames
 * too; any other slice. It comes before 4 and 5. */
static void wrong_lengths(size_t frame, size_t frames) {
    request right = frames_of_noise(frame, frames);
    right.state.busy = true;
    for (size_t by = 1; by < frame; by++) {
        request r = right;
        r.length[INPUT] -= by;
        refused(&r, 3, 0);
        r.length[OUTPUT] -= by;
        refused(&r, 3, 0);
    }
    for (size_t which = 0; which < SLICES; which++) {
        const size_t lengths[] = {right.length[which] - 1, right.length[which] + 1, right.length[which] - frame,
                                  right.length[which] + frame, 0};
        for (size_t k = 0; k < sizeof lengths / sizeof *lengths; k++) {
            request r = right;
            r.length[which] = lengths[k];
            refused(&r, 3, 0);
        }
    }
}

/* Makes a sample of a frame bad. */
static void make_bad(size_t frame, size_t at, size_t sample) {
    slice(INPUT)[at * frame + sample] = float_of(sample % 2 ? 0x7f800000u : 0xffc54321u);
}

/* Puts a sample into every line that is so loud that the frame which reads it comes to a 9. */
static void make_loud(const hall_state *s, size_t at) {
    size_t ring = start[STORE];
    for (size_t line = 0; line < 16; line++) {
        lent.cells[ring + s->lines[line].read + at * s->frame + 1] = 3.0e38f;
        ring += line_length(line, s->frame);
    }
}

/* An 8 in a frame: alone, with an 8 and a 9 in each frame behind it, and with a 9 in the same frame. */
static void stopped_by_input(size_t frame, size_t frames, size_t at) {
    for (size_t sample = 0; sample < frame; sample++) {
        for (size_t worse = 0; worse < 3; worse++) {
            request r = frames_of_noise(frame, frames);
            make_bad(frame, at, sample);
            make_bad(frame, at, frame - 1);
            for (size_t later = at + 1; later < frames && worse == 1; later++) {
                make_bad(frame, later, 0);
                make_loud(&r.state, later);
            }
            if (worse == 2) make_loud(&r.state, at);
            hall_answer a = at_once(&r, 8, sample, at);
            CHECK(a.state.count > 0);
            if (worse == 0) then_tail(a);
        }
    }
}

/* A 9 in a frame: alone, and with an 8 in each frame behind it. */
static void stopped_by_sound(size_t frame, size_t frames, size_t at) {
    for (size_t worse = 0; worse < 2; worse++) {
        request r = frames_of_noise(frame, frames);
        make_loud(&r.state, at);
        for (size_t later = at + 1; later < frames && worse == 1; later++) make_bad(frame, later, 2);
        hall_answer a = at_once(&r, 9, 0, at);
        CHECK(a.state.count > 0);
        then_tail(a);
    }
}

/* A click so loud, or so loudly filtered, that the frame in which it is first heard comes to a 9: sample 353. */
static void stopped_by_click(bool filters) {
    request r = frames_of_noise(128, 5);
    r.state = blank(128);
    fill(STORE, HALL_STORE(128), 0.0f);
    fill(INPUT, 5 * 128, 0.0f);
    if (filters) fill(COEFFICIENTS, HALL_COEFFICIENTS, 3.0e38f);
    slice(INPUT)[0] = filters ? 1.0f : 3.0e38f;
    CHECK(at_once(&r, 9, 0, 2).state.count > 0);
}

/* 4: one frame too many, before 5 to 8. 1,024 are done, or all but the last where that has a bad sample. */
static void most_frames(void) {
    request r = frames_of_noise(4, 1024);
    then_tail(at_once(&r, 0, 0, 1024));
    r = frames_of_noise(4, 1024);
    make_bad(4, 1023, 3);
    then_tail(at_once(&r, 8, 3, 1023));
    r = frames_of_noise(4, 1025);
    refused(&r, 4, 0);
    r.state.busy = true;
    refused(&r, 4, 0);
    r.state.busy = false;
    r.times[0] = -1.0f;
    make_bad(4, 0, 0);
    fill(COEFFICIENTS, 1, float_of(0x7fc00000u));
    refused(&r, 4, 0);
    wrong_lengths(4, 1025);
}

/* Everything wrong at once: the lowest number is given, then the next as each is mended. */
static void lowest_number_of_frames(void) {
    request r = frames_of_noise(4, 1025);
    make_bad(4, 0, 2);
    make_loud(&r.state, 0);
    slice(COEFFICIENTS)[7] = float_of(0x7f800000u);
    r.times[1] = float_of(0x7fc00000u);
    r.state.busy = true;
    r.state.rate = 0;
    r.length[OUTPUT]--;
    refused(&r, 1, 0);
    r.state.rate = 8123;
    refused(&r, 3, 0);
    r.length[OUTPUT]++;
    refused(&r, 4, 0);
    r.length[INPUT] = r.length[OUTPUT] = 8;
    refused(&r, 5, 0);
    r.state.busy = false;
    refused(&r, 6, 0);
    r.times[1] = 0.1f;
    refused(&r, 7, 0);
    fill(COEFFICIENTS, HALL_COEFFICIENTS, 0.5f);
    refused(&r, 8, 2);
    slice(INPUT)[2] = slice(INPUT)[3] = 0.0f;
    at_once(&r, 9, 0, 0);
}

static void several_frames(void) {
    for (size_t frames = 1; frames <= 4; frames++) {
        all_done(4, frames);
        all_done(100, frames);
        all_done(1024, frames);
    }
    no_frames(9);
    no_frames(1);
    no_frames(0);
    no_frames(-1);
    no_frames(INT32_MIN);
    wrong_lengths(4, 3);
    wrong_lengths(8, 2);
    for (size_t frames = 1; frames <= 3; frames++)
        for (size_t at = 0; at < frames; at++) {
            stopped_by_input(4, frames, at);
            stopped_by_input(8, frames, at);
            stopped_by_sound(4, frames, at);
            stopped_by_sound(100, frames, at);
        }
    stopped_by_click(false);
    stopped_by_click(true);
    most_frames();
    lowest_number_of_frames();
}

/* ---- Rings, mix, values and buffers ---- */

static void ring_alone(void) {
    float ring[5] = {0}, got[9], put[9] = {1, 2, 3, 4, 5, 6, 7, 8, 9};
    const float expected[9] = {0, 0, 0, 0, 0, 1, 2, 3, 4};
    hall_cursors c = {0, 0};
    for (size_t k = 0; k < 9; k += 3) {
        c = hall_ring_get(ring, 5, c, got + k, 3).cursors;
        c = hall_ring_put(ring, 5, c, put + k, 3).cursors;
    }
    CHECK(memcmp(got, expected, sizeof got) == 0);
    CHECK(hall_ring_get(NULL, 0, c, got, 1).number == 3);
    CHECK(hall_ring_put(ring, 65537, (hall_cursors){SIZE_MAX, 0}, put, 1).number == 3);
    CHECK(hall_ring_get(ring, 5, (hall_cursors){0, 5}, got, 1).number == 1);
    CHECK(hall_ring_get4(ring, 5, (hall_cursors){5, 0}).number == 1);
    CHECK(hall_ring_put4(ring, 5, (hall_cursors){0, SIZE_MAX}, 1, 2, 3, 4).number == 1);
    CHECK(hall_ring_reset(ring, 5, (hall_cursors){5, 0}).number == 1);
    CHECK(hall_ring_get(ring, 5, c, NULL, 0).number == 4);
    CHECK(hall_ring_put(ring, 5, c, put, 6).number == 4);
    hall_ring_answer kept = hall_ring_put(ring, 5, (hall_cursors){7, 9}, put, 1);
    CHECK(kept.number == 1 && kept.cursors.read == 7 && kept.cursors.write == 9);
    hall_ring_answer four = hall_ring_put4(ring, 3, (hall_cursors){2, 1}, 1, 2, 3, 4);
    CHECK(four.number == 0 && four.cursors.read == 2 && four.cursors.write == 2);
    CHECK(ring[0] == 3 && ring[1] == 4 && ring[2] == 2);
    hall_ring_answer silent = hall_ring_reset(ring, 5, (hall_cursors){2, 1});
    CHECK(silent.number == 0 && silent.cursors.read == 2 && silent.cursors.write == 1 && all_plus_zero(ring, 5));
}

/* Every ring of up to 40 samples, from every place in it, so that four and n of them lie before its end, across it or
 * all round it, beside one sample after the other. Nothing before the ring and behind it may change. */
enum { LONGEST = 40 };

static void number_ring(float *ring, size_t length) {
    for (size_t i = 0; i < length + 2; i++) ring[i] = (float)i;
}

static bool margins_kept(const float *ring, size_t length) {
    return ring[0] == 0 && ring[length + 1] == (float)(length + 1);
}

static void ring_of(size_t length, size_t at, size_t n) {
    float ring[LONGEST + 2], got[LONGEST + 1], put[LONGEST];
    number_ring(ring, length);
    size_t other = length - 1 - at, end = (at + n) % length;
    got[n] = -1;
    hall_ring_answer g = hall_ring_get(ring + 1, length, (hall_cursors){at, other}, got, n);
    CHECK(g.number == 0 && g.cursors.read == end && g.cursors.write == other && got[n] == -1);
    for (size_t i = 0; i < n; i++) CHECK(got[i] == ring[1 + (at + i) % length]);
    for (size_t i = 0; i < n; i++) put[i] = 100 + (float)i;
    hall_ring_answer p = hall_ring_put(ring + 1, length, (hall_cursors){other, at}, put, n);
    CHECK(p.number == 0 && p.cursors.read == other && p.cursors.write == end && margins_kept(ring, length));
    for (size_t i = 0; i < n; i++) CHECK(ring[1 + (at + i) % length] == put[i]);
    for (size_t i = n; i < length; i++) CHECK(ring[1 + (at + i) % length] == (float)(1 + (at + i) % length));
}

static void four_of(size_t length, size_t at) {
    float ring[LONGEST + 2], expected[LONGEST + 2];
    number_ring(ring, length);
    number_ring(expected, length);
    size_t other = length - 1 - at, end = (at + 4) % length;
    hall_four_answer g = hall_ring_get4(ring + 1, length, (hall_cursors){at, other});
    CHECK(g.number == 0 && g.cursors.read == end && g.cursors.write == other);
    CHECK(g.x[0] == ring[1 + at] && g.x[1] == ring[1 + (at + 1) % length]);
    CHECK(g.x[2] == ring[1 + (at + 2) % length] && g.x[3] == ring[1 + (at + 3) % length]);
    hall_ring_answer p = hall_ring_put4(ring + 1, length, (hall_cursors){other, at}, 100, 101, 102, 103);
    for (size_t i = 0; i < 4; i++) expected[1 + (at + i) % length] = 100 + (float)i;
    CHECK(p.number == 0 && p.cursors.read == other && p.cursors.write == end);
    CHECK(memcmp(ring, expected, (length + 2) * sizeof(float)) == 0);
}

static void ring_in_runs(void) {
    for (size_t length = 1; length <= LONGEST; length++)
        for (size_t at = 0; at < length; at++) {
            four_of(length, at);
            for (size_t n = 1; n <= length; n++) ring_of(length, at, n);
        }
}

static void mix_alone(void) {
    float x[17] = {16}, y[17];
    CHECK(hall_mix16(x, 16, y, 16) == 0);
    for (size_t r = 0; r < 16; r++) CHECK(y[r] == 4.0f);
    memset(x, 0, sizeof x);
    x[3] = 4.0f;
    CHECK(hall_mix16(x, 16, y, 16) == 0 && y[3] == 1.0f && y[1] == -1.0f);
    CHECK(hall_mix16(x, 15, y, 16) == 3 && hall_mix16(x, 16, y, 17) == 3 && hall_mix16(NULL, 0, NULL, 0) == 3);
}

static bool gives(hall_value v, uint32_t number, uint32_t value) {
    return v.number == number && v.value == value;
}

static void values(void) {
    CHECK(gives(hall_prime_power(900, 0), 0, 1024) && gives(hall_prime_power(907, 3), 0, 343));
    CHECK(gives(hall_prime_power(908, 3), 0, 2401) && gives(hall_prime_power(0, 15), 0, 1));
    CHECK(gives(hall_prime_power(3, 0), 0, 4) && gives(hall_prime_power(900, 15), 0, 2809));
    CHECK(gives(hall_prime_power(200001, 0), 4, 0) && gives(hall_prime_power(1, 16), 4, 0));
    CHECK(gives(hall_prime_power(1, SIZE_MAX), 4, 0));
    CHECK(gives(hall_delay_min(2.0f, 48000), 0, 900) && gives(hall_delay_min(2.0f, 7999), 2, 0));
    CHECK(gives(hall_delay_min(-1.0f, 48000), 6, 0));
    CHECK(gives(hall_delay_value(2.0f, 48000, 0, 0), 0, 1024) && gives(hall_delay_value(2.0f, 48000, 109, 3), 0, 2401));
    CHECK(gives(hall_delay_value(-1.0f, 0, 0, 16), 2, 0) && gives(hall_delay_value(-1.0f, 8000, 0, 16), 4, 0));
    CHECK(gives(hall_delay_value(float_of(0x7fc00000u), 8000, 65535, 0), 6, 0));
}

static void buffers(void) {
    float a[8] = {1, 2, 3, 4}, b[8] = {0};
    CHECK(hall_deinterleave(2, 2, a, 4, b, 4) == 0 && b[0] == 1 && b[1] == 3 && b[2] == 2 && b[3] == 4);
    CHECK(hall_interleave(2, 2, b, 4, a, 4) == 0 && a[0] == 1 && a[1] == 2 && a[2] == 3 && a[3] == 4);
    CHECK(hall_buffer_mix(2, 2, a, 4, b, 4) == 0 && b[0] == 2 && b[1] == 5 && b[2] == 5 && b[3] == 8);
    CHECK(hall_scale(1, 4, 0.5f, b, 4) == 0 && b[3] == 4);
    CHECK(hall_make_silent(4, 1, b, 4) == 0 && all_plus_zero(b, 8));
    float four[4] = {1, 2, 3, 6};
    CHECK(hall_downmix(4, 1, four, 4, b, 1) == 0 && b[0] == 3);
    CHECK(hall_downmix(4, 1, four, 4, b, 2) == 3 && hall_downmix(0, 1, NULL, 0, b, 2) == 3);
    CHECK(hall_downmix(0, 1, NULL, 0, b, 1) == 4 && hall_downmix(4, 1, four, 3, b, 1) == 3);
    CHECK(hall_downmix(4, 65537, four, 4, b, 1) == 4);
    CHECK(hall_interleave(17, 1, a, 8, b, 8) == 4 && hall_interleave(2, 2, a, 4, b, 5) == 3);
    CHECK(hall_deinterleave(0, 1, a, 8, b, 8) == 4 && hall_deinterleave(2, 2, a, 3, b, 4) == 3);
    CHECK(hall_make_silent(SIZE_MAX, SIZE_MAX, a, 1) == 4 && hall_make_silent(16, 0, NULL, 0) == 0);
    CHECK(hall_scale(1, 65537, 1.0f, a, 1) == 4 && hall_scale(1, 4, 2.0f, a, 3) == 3);
    CHECK(hall_buffer_mix(1, 4, a, 4, b, 3) == 3 && hall_buffer_mix(1, (size_t)1 << 60, a, 4, b, 4) == 4);
    CHECK(hall_channel_number(2, 3, 1, 6) == 0 && hall_channel_number(2, 3, 2, 6) == 4);
    CHECK(hall_channel_number(2, 3, 2, 5) == 3 && hall_channel_number(17, 3, 0, 51) == 4);
    CHECK(hall_channel_number(16, 0, 15, 0) == 0 && hall_channel_number(2, SIZE_MAX, 0, 1) == 4);
}

int main(void) {
    layout();
    refusals();
    frames();
    several_frames();
    ring_alone();
    ring_in_runs();
    mix_alone();
    values();
    buffers();
    printf("face: %zu checks passed\n", checks);
    return 0;
}
