/* Tests of studio takes over the C face (R11): include/hall.h against libhall.a, run from the repository's folder.
 *
 * First the takes in tests/takes, which tools of the trade made. Each is answered by the seven numbers of takes.txt,
 * and its floats are those that the tools decode, bit for bit. Then files made here: each row of R11.18, what no tool
 * writes, and files and takes cut at every byte. Last the floats: every length, every tag that matters, all numbers of
 * 16 bits. */

#include "hall.h"

#include <inttypes.h>
#include <stdio.h>
#include <stdlib.h>
#include <string.h>

/* ---- Checks ---- */

static size_t checks;
static const char *tried = "a file made here"; /* or which take */

static void check(bool holds, const char *what, int line) {
    checks++;
    if (holds) return;
    printf("takes.c:%d: %s: %s\n", line, tried, what);
    exit(1);
}

#define CHECK(condition) check(condition, #condition, __LINE__)

/* ---- Answers ---- */

enum { MOST = 1048576 };

static hall_wave accepted(uint32_t rate, uint32_t channels, uint32_t tag, size_t data, size_t data_len) {
    return (hall_wave){0, 0, rate, channels, tag, data, data_len};
}

/* A refusal has its number, its place and nothing else. */
static hall_wave refused(uint32_t number, size_t place) {
    return (hall_wave){number, place, 0, 0, 0, 0, 0};
}

static bool same(const hall_wave *a, const hall_wave *b) {
    return a->number == b->number && a->place == b->place && a->rate == b->rate && a->channels == b->channels &&
           a->tag == b->tag && a->data == b->data && a->data_len == b->data_len;
}

static void say(const char *how, const hall_wave *a) {
    printf("%s: number %" PRIu32 " at %zu, rate %" PRIu32 ", channels %" PRIu32, how, a->number, a->place, a->rate,
           a->channels);
    printf(", tag %" PRIu32 ", data at %zu, %zu bytes\n", a->tag, a->data, a->data_len);
}

/* Reads a file: the answer is the one expected, and no byte of the file is another than before. */
static void read_and_check(const uint8_t *file, size_t length, hall_wave expected, int line) {
    static uint8_t kept[MOST + 1];
    if (length > 0) memcpy(kept, file, length);
    hall_wave a = hall_wave_read(file, length);
    if (!same(&a, &expected)) {
        say("answered", &a);
        say("expected", &expected);
    }
    check(same(&a, &expected), "not answered as expected", line);
    check(length == 0 || memcmp(kept, file, length) == 0, "a byte of the file was changed", line);
}

#define READ(file, length, expected) read_and_check(file, length, expected, __LINE__)

/* ---- Floats ---- */

static float float_of(uint32_t bits) {
    float x;
    memcpy(&x, &bits, sizeof x);
    return x;
}

/* The same bits, or both no number. */
static bool same_float(float x, float y) {
    return memcmp(&x, &y, sizeof x) == 0 || (x != x && y != y);
}

enum { LONGEST = 65536, MARGIN = 8 };

/* Floats to be filled, with margins that nobody may write to. */
static float room[MARGIN + LONGEST + MARGIN];
static float *const out = room + MARGIN;

static float blank(size_t k) {
    return float_of(0x7fa00000u + (uint32_t)k); /* a NaN, each with bits of its own */
}

static bool blank_from(size_t first, size_t end) {
    for (size_t k = first; k < end; k++)
        if (memcmp(&room[k], &(float){blank(k)}, sizeof(float)) != 0) return false;
    return true;
}

/* The floats of a stretch, in `out`: nothing outside them is written, and no byte of the stretch is changed. */
static void fill(const uint8_t *data, size_t data_len, uint32_t tag, size_t count) {
    static uint8_t kept[2 * LONGEST];
    if (data_len > 0) memcpy(kept, data, data_len);
    for (size_t k = 0; k < MARGIN + count + MARGIN; k++) room[k] = blank(k);
    hall_wave_samples(data, data_len, tag, count > 0 ? out : NULL, count);
    CHECK(blank_from(0, MARGIN) && blank_from(MARGIN + count, MARGIN + count + MARGIN));
    CHECK(data_len == 0 || memcmp(kept, data, data_len) == 0);
}

/* ---- The takes of the tools ---- */

/* What takes.txt has to hold, so that none is left out unseen. */
enum { TAKES = 81, ACCEPTED = 31 };

typedef struct {
    uint8_t bytes[8192];
    size_t length;
} stored;

/* A file of the folder, whole. */
static stored load(const char *name, const char *ending) {
    char path[128];
    static stored s;
    snprintf(path, sizeof path, "tests/takes/%s%s", name, ending);
    FILE *f = fopen(path, "rb");
    if (!f) {
        printf("takes.c: %s can't be read\n", path);
        exit(1);
    }
    s.length = fread(s.bytes, 1, sizeof s.bytes, f);
    CHECK(s.length < sizeof s.bytes && !ferror(f));
    fclose(f);
    return s;
}

/* The floats of an accepted take are those that the tools decode. */
static void decoded_alike(const char *name, const stored *take, const hall_wave *told) {
    stored floats = load(name, ".f32");
    size_t width = told->tag == 1 ? 2 : 4, count = told->data_len / width;
    CHECK(floats.length == 4 * count);
    fill(take->bytes + told->data, told->data_len, told->tag, count);
    for (size_t k = 0; k < count; k++) {
        float x;
        memcpy(&x, floats.bytes + 4 * k, sizeof x);
        CHECK(same_float(out[k], x));
    }
}

static void takes_of_the_tools(void) {
    char line[512], name[64];
    hall_wave told;
    size_t takes = 0, taken = 0;
    tried = "tests/takes/takes.txt, read from the repository's folder";
    FILE *table = fopen("tests/takes/takes.txt", "r");
    CHECK(table != NULL);
    while (fgets(line, sizeof line, table)) {
        if (line[0] == '#') continue;
        tried = name;
        CHECK(sscanf(line, "%63s %" SCNu32 " %zu %" SCNu32 " %" SCNu32 " %" SCNu32 " %zu %zu", name, &told.number,
                     &told.place, &told.rate, &told.channels, &told.tag, &told.data, &told.data_len) == 8);
        stored take = load(name, ".wav");
        READ(take.bytes, take.length, told);
        if (told.number == 0) decoded_alike(name, &take, &told);
        takes++;
        taken += told.number == 0;
    }
    fclose(table);
    tried = "takes.txt";
    CHECK(takes == TAKES && taken == ACCEPTED);
    tried = "a file made here";
}

/* ---- Files made here ---- */

typedef struct {
    uint8_t bytes[512];
    size_t length;
} file;

/* So many bytes of a number, the lowest first. */
static void add_number(file *f, uint32_t number, size_t count) {
    for (size_t k = 0; k < count; k++) f->bytes[f->length++] = (uint8_t)(number >> (8 * k));
}

static void add_name(file *f, const char *name) {
    memcpy(f->bytes + f->length, name, 4);
    f->length += 4;
}

/* The header of a chunk, and so many bytes behind it, none of them 0. */
static void add_chunk(file *f, const char *name, uint32_t size, size_t behind) {
    add_name(f, name);
    add_number(f, size, 4);
    memset(f->bytes + f->length, 'd', behind);
    f->length += behind;
}

/* RIFF and WAVE, with a size that says nothing. */
static file riff(void) {
    file f = {{0}, 0};
    add_name(&f, "RIFF");
    add_number(&f, 0xffffffffu, 4);
    add_name(&f, "WAVE");
    return f;
}

enum { RATE = 48000, SMALLEST = 44 };

/* A format chunk of 24 bytes; its byte rate and block align are wrong. */
static void add_format(file *f, uint32_t tag, uint32_t channels, uint32_t width) {
    add_chunk(f, "fmt ", 16, 0);
    add_number(f, tag, 2);
    add_number(f, channels, 2);
    add_number(f, RATE, 4);
    add_number(f, 0x77777777u, 4);
    add_number(f, 0x5555u, 2);
    add_number(f, width, 2);
}

/* A file that begins with a format chunk, at 12; the next chunk is at 36. */
static file formatted(uint32_t tag, uint32_t channels, uint32_t width) {
    file f = riff();
    add_format(&f, tag, channels, width);
    return f;
}

/* The smallest file that is accepted. */
static file smallest(void) {
    file f = formatted(1, 1, 16);
    add_chunk(&f, "data", 0, 0);
    return f;
}

/* ---- R11.18, row by row ---- */

static void not_a_take(void) {
    READ(NULL, 0, refused(2, 0));
    file f = smallest();
    READ(f.bytes, f.length, accepted(RATE, 1, 1, 44, 0));
    READ(f.bytes, 11, refused(2, 0));
    READ(f.bytes, 12, refused(5, 0));
    memcpy(f.bytes, "RIFX", 4);
    READ(f.bytes, f.length, refused(2, 0));
    memcpy(f.bytes, "RIFF", 4);
    memcpy(f.bytes + 8, "AVI ", 4);
    READ(f.bytes, f.length, refused(2, 0));
}

static void no_format_or_no_data(void) {
    file f = riff();
    add_chunk(&f, "data", 0, 0);
    READ(f.bytes, f.length, refused(4, 12));
    add_format(&f, 1, 1, 16);
    READ(f.bytes, f.length, refused(4, 12));
    add_chunk(&f, "data", 0, 0);
    READ(f.bytes, f.length, refused(4, 12));
    f = riff();
    add_chunk(&f, "data", 3, 4); /* no whole sample, if there were a format */
    READ(f.bytes, f.length, refused(4, 12));
    f = formatted(1, 1, 16);
    READ(f.bytes, f.length, refused(5, 0));
    add_chunk(&f, "note", 1, 1); /* its pad byte is missing */
    READ(f.bytes, f.length, refused(5, 0));
    f = formatted(1, 1, 16);
    add_chunk(&f, "note", 2, 2 + 7);
    READ(f.bytes, f.length, refused(5, 0));
}

static void past_the_end(void) {
    file f = riff();
    add_chunk(&f, "LIST", 200, 4);
    add_format(&f, 1, 1, 16);
    add_chunk(&f, "data", 0, 0);
    READ(f.bytes, f.length, refused(3, 12));
    f = formatted(1, 1, 16);
    add_chunk(&f, "LIST", 9, 0);
    add_chunk(&f, "data", 0, 0);
    READ(f.bytes, f.length, refused(3, 36));
    f = riff();
    add_chunk(&f, "data", 1, 0);
    READ(f.bytes, f.length, refused(3, 12)); /* not 4 */
    f = riff();
    add_format(&f, 2, 1, 16);
    READ(f.bytes, f.length - 1, refused(3, 12)); /* not 6 */
    f = formatted(1, 1, 16);
    add_chunk(&f, "data", 3, 2);
    READ(f.bytes, f.length, refused(3, 36)); /* not 6 */
    f = formatted(2, 1, 16);
    add_chunk(&f, "data", 3, 2);
    READ(f.bytes, f.length, refused(6, 12)); /* the first chunk decides */
}

static void unsupported_format(uint32_t tag, uint32_t channels, uint32_t width) {
    file f = formatted(tag, channels, width);
    READ(f.bytes, f.length, refused(6, 12)); /* where it is met, with nothing behind it */
    add_chunk(&f, "data", 0, 0);
    READ(f.bytes, f.length, refused(6, 12));
}

static void unsupported(void) {
    unsupported_format(2, 1, 16);
    unsupported_format(65534, 1, 16);
    unsupported_format(65534, 1, 32);
    unsupported_format(3, 1, 16);
    unsupported_format(1, 1, 32);
    unsupported_format(1, 1, 24);
    unsupported_format(1, 1, 8);
    unsupported_format(3, 1, 64);
    unsupported_format(1, 0, 16);
    unsupported_format(1, 17, 16);
    unsupported_format(3, 17, 32);
    for (uint32_t size = 0; size < 16; size++) {
        file f = riff();
        add_format(&f, 1, 1, 16);
        f.bytes[16] = (uint8_t)size;
        READ(f.bytes, f.length, refused(6, 12));
    }
    file f = formatted(1, 2, 16);
    add_chunk(&f, "data", 6, 6);
    READ(f.bytes, f.length, refused(6, 36));
}

static void further_chunks(void) {
    file f = formatted(1, 1, 16);
    add_format(&f, 2, 0, 5); /* passed over, but not its end */
    add_chunk(&f, "fmt ", 14, 14);
    add_chunk(&f, "data", 2, 2);
    READ(f.bytes, f.length, accepted(RATE, 1, 1, 90, 2));
    add_format(&f, 2, 0, 5); /* nothing behind the data is looked at */
    add_chunk(&f, "data", 1, 1);
    add_chunk(&f, "LIST", 0xffffffffu, 3);
    READ(f.bytes, f.length, accepted(RATE, 1, 1, 90, 2));
    f = formatted(1, 1, 16);
    add_chunk(&f, "fmt ", 14, 13);
    READ(f.bytes, f.length, refused(3, 36));
    f = formatted(1, 1, 16);
    add_format(&f, 3, 2, 32); /* the first counts, not the last */
    add_chunk(&f, "data", 2, 2);
    READ(f.bytes, f.length, accepted(RATE, 1, 1, 68, 2));
    f = riff();
    add_chunk(&f, "LIST", 3, 4);
    add_format(&f, 1, 1, 16);
    add_chunk(&f, "data", 0, 0);
    READ(f.bytes, f.length, accepted(RATE, 1, 1, 56, 0));
}

/* 1,048,576 bytes are accepted, one more is refused with 1, whatever they hold. */
static void largest(void) {
    static uint8_t big[MOST + 1];
    file f = formatted(1, 2, 16);
    add_chunk(&f, "data", MOST - SMALLEST, 0);
    memcpy(big, f.bytes, f.length);
    READ(big, MOST, accepted(RATE, 2, 1, SMALLEST, MOST - SMALLEST));
    READ(big, MOST - 1, refused(3, 36));
    READ(big, MOST + 1, refused(1, 0));
    big[0] = 'r';
    READ(big, MOST, refused(2, 0));
    READ(big, MOST + 1, refused(1, 0));
    hall_wave a = hall_wave_read(f.bytes, ((size_t)1 << 32) + f.length); /* all 64 bits of a length count; no byte is read */
    CHECK(a.number == 1);
    f = formatted(3, 16, 32);
    add_chunk(&f, "JUNK", MOST - 36 - 8 - 8, 0);
    memcpy(big, f.bytes, f.length);
    memcpy(big + MOST - 8, "data\0\0\0", 8);
    READ(big, MOST, accepted(RATE, 16, 3, MOST, 0));
    READ(big, MOST - 1, refused(5, 0));
    big[MOST - 4] = 1;
    READ(big, MOST, refused(3, MOST - 8));
    READ(big, MOST + 1, refused(1, 0));
    big[40]--; /* an odd size: the pad byte is the body's last, and the data stays where it is */
    big[MOST - 4] = 0;
    READ(big, MOST, accepted(RATE, 16, 3, MOST, 0));
    f = smallest();
    memset(big, 0, sizeof big);
    memcpy(big, f.bytes, f.length);
    READ(big, MOST, accepted(RATE, 1, 1, SMALLEST, 0));
}

/* ---- What no tool writes ---- */

/* The smallest file with one bit changed. A size of the format that isn't 16 is too small, goes past the end, or leads
 * the walk to where no header is left. */
static hall_wave spoilt(size_t at, uint32_t bit) {
    uint32_t in_four = bit << (8 * (at % 4)), in_two = bit << (8 * (at % 2));
    uint32_t size = 16 ^ in_four, channels = 1 ^ in_two, rate = RATE ^ in_four;
    if (at < 4 || (at >= 8 && at < 12)) return refused(2, 0);
    if (at < 12) return accepted(RATE, 1, 1, 44, 0);
    if (at < 16) return refused(4, 36);
    if (at < 20) return size < 16 ? refused(6, 12) : size > 24 ? refused(3, 12) : refused(5, 0);
    if (at < 22) return refused(6, 12);
    if (at < 24) return channels == 0 || channels > 16 ? refused(6, 12) : accepted(RATE, channels, 1, 44, 0);
    if (at < 28) return accepted(rate, 1, 1, 44, 0);
    if (at < 34) return accepted(RATE, 1, 1, 44, 0);
    if (at < 36) return refused(6, 12);
    return at < 40 ? refused(5, 0) : refused(3, 36);
}

static void every_bit(void) {
    for (size_t at = 0; at < SMALLEST; at++)
        for (uint32_t bit = 1; bit < 256; bit <<= 1) {
            file f = smallest();
            f.bytes[at] ^= (uint8_t)bit;
            READ(f.bytes, f.length, spoilt(at, bit));
        }
}

/* The RIFF size, the rate, the byte rate and the block align, of all zeros and of all ones. */
static void what_is_not_judged(void) {
    static const size_t places[4] = {4, 24, 28, 32}, sizes[4] = {4, 4, 4, 2};
    for (size_t k = 0; k < 4; k++)
        for (uint32_t ones = 0; ones < 2; ones++) {
            file f = smallest();
            memset(f.bytes + places[k], ones ? 0xff : 0, sizes[k]);
            READ(f.bytes, f.length, accepted(places[k] != 24 ? RATE : ones ? UINT32_MAX : 0, 1, 1, 44, 0));
        }
}

/* All numbers of two bytes as the tag, the channels and the width. */
static void every_format(void) {
    for (uint32_t n = 0; n < 65536; n++) {
        file f = formatted(n, 1, 16);
        add_chunk(&f, "data", 4, 4);
        READ(f.bytes, f.length, n == 1 ? accepted(RATE, 1, 1, 44, 4) : refused(6, 12));
        f.bytes[34] = 32;
        READ(f.bytes, f.length, n == 3 ? accepted(RATE, 1, 3, 44, 4) : refused(6, 12));
        f = formatted(3, n, 32);
        add_chunk(&f, "data", 0, 0);
        READ(f.bytes, f.length, n >= 1 && n <= 16 ? accepted(RATE, n, 3, 44, 0) : refused(6, 12));
        f = formatted(1, 2, n);
        add_chunk(&f, "data", 0, 0);
        READ(f.bytes, f.length, n == 16 ? accepted(RATE, 2, 1, 44, 0) : refused(6, 12));
        f.bytes[20] = 3;
        READ(f.bytes, f.length, n == 32 ? accepted(RATE, 2, 3, 44, 0) : refused(6, 12));
    }
}

/* Whole blocks, of all channels, whatever the block align says. */
static void every_block(void) {
    for (uint32_t tag = 1; tag <= 3; tag += 2)
        for (uint32_t channels = 1; channels <= 16; channels++)
            for (uint32_t size = 0; size <= 192; size++) {
                uint32_t block = channels * (tag == 1 ? 2 : 4);
                file f = formatted(tag, channels, tag == 1 ? 16 : 32);
                add_chunk(&f, "data", size, size);
                READ(f.bytes, f.length, size % block == 0 ? accepted(RATE, channels, tag, 44, size) : refused(6, 36));
            }
}

/* Chunks of all small sizes before the format, in it and behind it; a pad byte holds anything. */
static void every_padding(void) {
    for (uint32_t first = 0; first < 10; first++)
        for (uint32_t more = 0; more < 10; more++)
            for (uint32_t second = 0; second < 10; second++) {
                file f = riff();
                add_chunk(&f, "LIST", first, first + first % 2);
                add_format(&f, 1, 1, 16);
                f.bytes[f.length - 20] = (uint8_t)(16 + more);
                memset(f.bytes + f.length, 'd', more + more % 2);
                f.length += more + more % 2;
                add_chunk(&f, "fact", second, second + second % 2);
                size_t data = f.length + 8;
                add_chunk(&f, "data", 4, 4);
                READ(f.bytes, f.length, accepted(RATE, 1, 1, data, 4));
            }
}

/* Sizes whose sum with 8, with the place or with a pad byte goes round in 32 bits, and those just past the end. */
static void every_size(void) {
    static const uint32_t sizes[] = {0xffffffffu, 0xfffffffeu, 0xfffffff8u, 0xfffffff7u, 0xfffffff0u, 0xffffffe4u, 10,
                                     0xffffffd4u, 0x80000000u, 0x7fffffffu, 0x7ffff000u, 0x01000000u, 9};
    for (size_t k = 0; k < sizeof sizes / sizeof *sizes; k++) {
        file f = formatted(1, 1, 16);
        add_chunk(&f, "data", sizes[k], 8);
        READ(f.bytes, f.length, refused(3, 36));
        memcpy(f.bytes + 36, "LIST", 4);
        READ(f.bytes, f.length, refused(3, 36));
        memcpy(f.bytes + 36, "fmt ", 4);
        READ(f.bytes, f.length, refused(3, 36));
    }
    file f = formatted(1, 1, 16);
    add_chunk(&f, "data", 8, 8);
    READ(f.bytes, f.length, accepted(RATE, 1, 1, 44, 8));
    memcpy(f.bytes + 36, "LIST", 4);
    READ(f.bytes, f.length, refused(5, 0));
}

/* ---- Cut at every byte ---- */

typedef struct {
    size_t place, end; /* where its header begins, and where its body ends */
} chunk;

/* Fewer than 12 bytes are no take. Then the first chunk that isn't all there decides: 3 at it if its header is there,
 * else 5, be the pad byte before it there or not. With all of the data there the take is what it was. */
static hall_wave cut(const chunk *chunks, size_t count, size_t length, const hall_wave *whole) {
    if (length < 12) return refused(2, 0);
    for (size_t k = 0; k < count; k++) {
        if (length < chunks[k].place + 8) return refused(5, 0);
        if (length < chunks[k].end) return refused(3, chunks[k].place);
    }
    return *whole;
}

/* The bytes cut off stay where they are, so that a reader that goes past the end finds what it looks for. */
static void cut_everywhere(const uint8_t *bytes, size_t length, const chunk *chunks, size_t count, hall_wave whole) {
    CHECK(chunks[count - 1].end <= length && chunks[count - 1].end == whole.data + whole.data_len);
    for (size_t n = 0; n <= length; n++) READ(bytes, n, cut(chunks, count, n, &whole));
}

static void cut_takes(void) {
    static const chunk plain[] = {{12, 36}, {36, 444}}, floats[] = {{12, 38}, {38, 50}, {50, 418}};
    static const chunk odd[] = {{12, 36}, {36, 671}, {672, 980}}, listed[] = {{12, 36}, {36, 284}};
    static const chunk made[] = {{12, 23}, {24, 48}, {48, 57}, {58, 72}};
    stored take = load(tried = "sox_16_mono", ".wav");
    cut_everywhere(take.bytes, take.length, plain, 2, accepted(44100, 1, 1, 44, 400));
    take = load(tried = "scipy_float_three", ".wav");
    cut_everywhere(take.bytes, take.length, floats, 3, accepted(192000, 3, 3, 58, 360));
    take = load(tried = "ffmpeg_16_bext_odd", ".wav");
    cut_everywhere(take.bytes, take.length, odd, 3, accepted(44100, 1, 1, 680, 300));
    take = load(tried = "sndfile_16_text_behind", ".wav");
    cut_everywhere(take.bytes, take.length, listed, 2, accepted(48000, 2, 1, 44, 240));
    tried = "a file made here";
    file f = riff();
    add_chunk(&f, "LIST", 3, 4);
    add_format(&f, 1, 1, 16);
    add_chunk(&f, "note", 1, 2);
    add_chunk(&f, "data", 6, 6);
    add_chunk(&f, "data", 1, 1);
    cut_everywhere(f.bytes, f.length, made, 4, accepted(RATE, 1, 1, 66, 6));
}

/* ---- The floats ---- */

/* Sample k of a stretch by R11.13. */
static float sample(const uint8_t *data, size_t data_len, uint32_t tag, size_t k) {
    size_t width = tag == 1 ? 2 : 4;
    if (k >= data_len / width) return 0.0f;
    const uint8_t *b = data + k * width;
    int32_t low = b[0] + 256 * b[1];
    if (tag == 1) return (float)(low < 32768 ? low : low - 65536) * 0x1p-15f;
    return float_of((uint32_t)low + ((uint32_t)b[2] << 16) + ((uint32_t)b[3] << 24));
}

/* Every length of stretch and of floats, from every address, with tags that are 1 and that only look so. */
static void every_length(void) {
    static const uint32_t tags[] = {1, 3, 0, 2, 0x10001u, 0xfffeu, 0x101u, 0x80000001u, 0x1000001u, 0xffffffffu};
    static const uint8_t bytes[24] = {0x01, 0x80, 0xff, 0x7f, 0x00, 0x00, 0x80, 0x3f, 0x00, 0x00, 0x00, 0x80,
                                      0xff, 0xff, 0x7f, 0x00, 0x01, 0x00, 0xc0, 0xff, 0x34, 0x12, 0x56, 0xbe};
    for (size_t t = 0; t < sizeof tags / sizeof *tags; t++)
        for (size_t first = 0; first < 4; first++)
            for (size_t length = 0; length <= 20; length++)
                for (size_t count = 0; count <= 13; count++) {
                    fill(bytes + first, length, tags[t], count);
                    for (size_t k = 0; k < count; k++)
                        CHECK(same_float(out[k], sample(bytes + first, length, tags[t], k)));
                }
    for (size_t t = 0; t < sizeof tags / sizeof *tags; t++) {
        fill(NULL, 0, tags[t], 5);
        for (size_t k = 0; k < 5; k++) CHECK(same_float(out[k], 0.0f));
        fill(NULL, 0, tags[t], 0);
    }
}

/* All numbers of 16 bits: 32,768 times the float is the number, and of 0 it is +0. */
static void every_number(void) {
    static uint8_t bytes[2 * LONGEST];
    for (size_t k = 0; k < LONGEST; k++) {
        bytes[2 * k] = (uint8_t)k;
        bytes[2 * k + 1] = (uint8_t)(k >> 8);
    }
    fill(bytes, sizeof bytes, 1, LONGEST);
    for (int32_t k = 0; k < LONGEST; k++) CHECK((double)out[k] * 32768.0 == (k < 32768 ? k : k - 65536));
    CHECK(same_float(out[0], 0.0f) && out[32768] == -1.0f && out[32767] == 1.0f - 0x1p-15f);
}

/* Floats as they are: all that differ in the upper 16 bits, zeros, the smallest, infinities; of a NaN some NaN. */
static void every_float(void) {
    static uint8_t bytes[2 * LONGEST];
    for (uint32_t low = 0; low < 2; low++)
        for (size_t half = 0; half < 2; half++) {
            for (size_t k = 0; k < LONGEST / 2; k++) {
                uint32_t bits = (uint32_t)(half * 32768 + k) << 16 | low;
                for (size_t b = 0; b < 4; b++) bytes[4 * k + b] = (uint8_t)(bits >> (8 * b));
            }
            fill(bytes, sizeof bytes, 3, LONGEST / 2);
            for (size_t k = 0; k < LONGEST / 2; k++)
                CHECK(same_float(out[k], float_of((uint32_t)(half * 32768 + k) << 16 | low)));
        }
}

/* ---- The struct: each field by an answer in which no two are alike ---- */

static void layout(void) {
    CHECK(sizeof(hall_wave) == 48 && offsetof(hall_wave, number) == 0 && offsetof(hall_wave, place) == 8);
    CHECK(offsetof(hall_wave, rate) == 16 && offsetof(hall_wave, channels) == 20 && offsetof(hall_wave, tag) == 24);
    CHECK(offsetof(hall_wave, data) == 32 && offsetof(hall_wave, data_len) == 40);
    file f = formatted(3, 2, 32);
    add_chunk(&f, "LIST", 9, 10);
    add_chunk(&f, "data", 16, 16);
    READ(f.bytes, f.length, accepted(RATE, 2, 3, 62, 16));
    READ(f.bytes, f.length - 1, refused(3, 54));
}

int main(void) {
    layout();
    takes_of_the_tools();
    not_a_take();
    no_format_or_no_data();
    past_the_end();
    unsupported();
    further_chunks();
    largest();
    every_bit();
    what_is_not_judged();
    every_format();
    every_block();
    every_padding();
    every_size();
    cut_takes();
    every_length();
    every_number();
    every_float();
    printf("takes: %d takes of five tools, %zu checks passed\n", TAKES, checks);
    return 0;
}
