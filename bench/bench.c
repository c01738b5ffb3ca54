/* Times the library's calls against the same calls in plain C and, where it is there, against libltc. bench/run builds and runs this.
 *
 * The two sides of a row run the same loop over the same material, turn and turn about; only their ratio says much of another machine. */
#define _POSIX_C_SOURCE 200809L

#include "plain.h"

#include <stdio.h>
#include <stdlib.h>
#include <string.h>
#include <time.h>

#ifdef WITH_LIBLTC
#include <ltc.h>
#endif

/* How many words, lines, packets or pictures a pass goes over. Few enough to stay near the processor; fewer still where instructions are counted. */
#ifndef ITEMS
#define ITEMS 1024
#endif

enum { PAIRS = 31, MODE = SHX_MODE_30, DROP = 1, BITS = ITEMS * SHX_LTC_BITS };

#define BATCH_SECONDS 0.005

/* ---- The two sides. Where bench/run is given an earlier archive of the library, that has the names of the plain calls, but for
 * plain_vitc_read_by_eights, and makes the material too. */

struct calls {
    shx_number_answer_t (*number)(uint8_t, uint8_t, shx_picture_t);
    shx_second_answer_t (*number_in_second)(uint8_t, uint8_t, shx_picture_t);
    shx_picture_answer_t (*picture)(uint8_t, uint8_t, uint32_t);
    shx_distance_answer_t (*distance)(uint8_t, uint8_t, shx_picture_t, shx_picture_t);
    shx_picture_answer_t (*add)(uint8_t, uint8_t, shx_picture_t, int32_t);
    shx_word_answer_t (*ltc_read)(uint8_t, const uint8_t *, size_t);
    uint8_t (*ltc_write)(uint8_t, shx_record_t, uint8_t, size_t, uint8_t *, size_t);
    shx_line_answer_t (*vitc_read)(uint8_t, const uint8_t *, size_t);
    uint8_t (*vitc_write)(uint8_t, shx_record_t, size_t, uint8_t *, size_t);
    shx_packet_answer_t (*atc_read)(uint8_t, uint8_t, const uint16_t *, size_t);
    uint8_t (*atc_write)(uint8_t, uint8_t, shx_contents_t, size_t, uint16_t *, size_t);
    shx_reader_t (*fresh)(uint8_t, uint8_t);
    shx_step_answer_t (*step)(shx_reader_t, uint8_t);
    shx_block_answer_t (*block)(shx_reader_t, size_t, const uint8_t *, size_t);
};

static const struct calls LIBRARY = {
    shx_number,    shx_number_in_second, shx_picture,  shx_distance,  shx_add,   shx_ltc_read, shx_ltc_write,
    shx_vitc_read, shx_vitc_write,       shx_atc_read, shx_atc_write, shx_fresh, shx_step,     shx_block,
};

static const struct calls PLAIN = {
    plain_number,    plain_number_in_second, plain_picture,  plain_distance,  plain_add,   plain_ltc_read, plain_ltc_write,
    plain_vitc_read, plain_vitc_write,       plain_atc_read, plain_atc_write, plain_fresh, plain_step,     plain_block,
};

static const struct calls BY_EIGHTS = {.vitc_read = plain_vitc_read_by_eights};

/* ---- What both sides are given. */

struct material {
    shx_picture_t pictures[ITEMS], others[ITEMS];
    uint32_t numbers[ITEMS];
    int32_t counts[ITEMS];
    shx_record_t records[ITEMS];
    shx_contents_t contents[ITEMS];
    uint8_t noise[BITS], words[BITS], turned[BITS], ones[BITS];
    uint8_t lines[ITEMS * SHX_VITC_BITS], room[ITEMS * SHX_VITC_BITS];
    uint16_t packets[ITEMS * SHX_ATC_WORDS], packet_room[ITEMS * SHX_ATC_WORDS];
};

static struct material given;

static void give_up(const char *why)
{
    fprintf(stderr, "bench: %s\n", why);
    exit(1);
}

static uint32_t chance(void)
{
    static uint32_t state = 2463534242u;
    state ^= state << 13;
    state ^= state >> 17;
    state ^= state << 5;
    return state;
}

static shx_record_t record_of(shx_picture_t p)
{
    shx_record_t r = {p.hours, p.minutes, p.seconds, p.frames, DROP, 0, 0, 0, 0, 0, 0, 0, 0, 0, 0, 0, 0, 0, p.place};
    r.group1 = chance() % 16;
    r.group4 = chance() % 16;
    r.group8 = chance() % 16;
    return r;
}

/* Pictures that follow one another, as on a tape, and others from all over the day. */
static void make_pictures(void)
{
    const uint32_t first = 1080720, day = 2589408;
    for (uint32_t i = 0; i < ITEMS; i++) {
        given.numbers[i] = chance() % day;
        given.counts[i] = (int32_t)chance();
        given.others[i] = plain_picture(MODE, DROP, given.numbers[i]).picture;
        given.pictures[i] = plain_picture(MODE, DROP, first + i).picture;
        given.records[i] = record_of(given.pictures[i]);
        given.contents[i].record = given.records[i];
        given.contents[i].payload_type = 1;
        given.contents[i].second = 0;
    }
}

/* By the plain calls, so that a library that is wrong is found out and not followed. */
static void make_runs(void)
{
    unsigned refused = 0;
    for (size_t i = 0; i < ITEMS; i++) {
        refused |= plain_ltc_write(MODE, given.records[i], SHX_CORRECTED, i * SHX_LTC_BITS, given.words, sizeof given.words);
        refused |= plain_vitc_write(MODE, given.records[i], i * SHX_VITC_BITS, given.lines, sizeof given.lines);
        refused |= plain_atc_write(MODE, SHX_HIGH_DEFINITION, given.contents[i], i * SHX_ATC_WORDS, given.packets, ITEMS * SHX_ATC_WORDS);
    }
    for (size_t i = 0; i < BITS; i++) {
        given.noise[i] = chance() >> 7 & 1;
        given.ones[i] = 1;
        given.turned[i] = given.words[BITS - 1 - i];
    }
    if (refused) {
        give_up("the material could not be made");
    }
}

/* ---- One pass of each row. What it adds up keeps the calls from being left out, and is the same on both sides. */

typedef uint64_t pass_t(const struct calls *side);

static uint64_t fed(const struct calls *side, uint8_t ways, const uint8_t *run)
{
    shx_reader_t reader = side->fresh(MODE, ways);
    uint64_t total = 0;
    for (size_t at = 0; at < BITS;) {
        shx_block_answer_t answer = side->block(reader, BITS, run + at, BITS - at);
        total += answer.heard.code + answer.heard.record.frames + answer.taken;
        reader = answer.reader;
        at += answer.taken;
    }
    return total;
}

static uint64_t block_noise(const struct calls *side)
{
    return fed(side, SHX_FORWARD_ONLY, given.noise);
}

static uint64_t block_words(const struct calls *side)
{
    return fed(side, SHX_FORWARD_ONLY, given.words);
}

static uint64_t block_ones(const struct calls *side)
{
    return fed(side, SHX_FORWARD_ONLY, given.ones);
}

static uint64_t block_turned(const struct calls *side)
{
    return fed(side, SHX_BOTH_WAYS, given.turned);
}

static uint64_t step_words(const struct calls *side)
{
    shx_reader_t reader = side->fresh(MODE, SHX_FORWARD_ONLY);
    uint64_t total = 0;
    for (size_t i = 0; i < BITS; i++) {
        shx_step_answer_t answer = side->step(reader, given.words[i]);
        total += answer.heard.code + answer.heard.record.frames;
        reader = answer.reader;
    }
    return total;
}

static uint64_t ltc_read(const struct calls *side)
{
    uint64_t total = 0;
    for (size_t i = 0; i < ITEMS; i++) {
        shx_word_answer_t answer = side->ltc_read(MODE, given.words + i * SHX_LTC_BITS, SHX_LTC_BITS);
        total += (unsigned)(answer.code + answer.found + answer.record.frames + answer.record.group8);
    }
    return total;
}

static uint64_t ltc_write(const struct calls *side)
{
    uint64_t total = 0;
    for (size_t i = 0; i < ITEMS; i++) {
        size_t start = i * SHX_LTC_BITS;
        total += side->ltc_write(MODE, given.records[i], SHX_CORRECTED, start, given.room, sizeof given.room);
        total += given.room[start + i % SHX_LTC_BITS];
    }
    return total;
}

static uint64_t vitc_read(const struct calls *side)
{
    uint64_t total = 0;
    for (size_t i = 0; i < ITEMS; i++) {
        shx_line_answer_t answer = side->vitc_read(MODE, given.lines + i * SHX_VITC_BITS, SHX_VITC_BITS);
        total += (unsigned)(answer.code + answer.record.frames + answer.record.group8);
    }
    return total;
}

static uint64_t vitc_write(const struct calls *side)
{
    uint64_t total = 0;
    for (size_t i = 0; i < ITEMS; i++) {
        size_t start = i * SHX_VITC_BITS;
        total += side->vitc_write(MODE, given.records[i], start, given.room, sizeof given.room);
        total += given.room[start + i % SHX_VITC_BITS];
    }
    return total;
}

static uint64_t atc_read(const struct calls *side)
{
    uint64_t total = 0;
    for (size_t i = 0; i < ITEMS; i++) {
        shx_packet_answer_t answer = side->atc_read(MODE, SHX_HIGH_DEFINITION, given.packets + i * SHX_ATC_WORDS, SHX_ATC_WORDS);
        total += (unsigned)(answer.code + answer.contents.record.frames + answer.contents.payload_type);
    }
    return total;
}

static uint64_t atc_write(const struct calls *side)
{
    uint64_t total = 0;
    for (size_t i = 0; i < ITEMS; i++) {
        size_t start = i * SHX_ATC_WORDS;
        total += side->atc_write(MODE, SHX_HIGH_DEFINITION, given.contents[i], start, given.packet_room, ITEMS * SHX_ATC_WORDS);
        total += given.packet_room[start + i % SHX_ATC_WORDS];
    }
    return total;
}

static uint64_t number(const struct calls *side)
{
    uint64_t total = 0;
    for (size_t i = 0; i < ITEMS; i++) {
        shx_number_answer_t answer = side->number(MODE, DROP, given.others[i]);
        total += answer.code + answer.number;
    }
    return total;
}

static uint64_t number_in_second(const struct calls *side)
{
    uint64_t total = 0;
    for (size_t i = 0; i < ITEMS; i++) {
        shx_second_answer_t answer = side->number_in_second(MODE, DROP, given.others[i]);
        total += answer.code + answer.number;
    }
    return total;
}

static uint64_t picture(const struct calls *side)
{
    uint64_t total = 0;
    for (size_t i = 0; i < ITEMS; i++) {
        shx_picture_answer_t answer = side->picture(MODE, DROP, given.numbers[i]);
        total += (unsigned)(answer.code + answer.picture.hours + answer.picture.frames);
    }
    return total;
}

static uint64_t distance(const struct calls *side)
{
    uint64_t total = 0;
    for (size_t i = 0; i < ITEMS; i++) {
        shx_distance_answer_t answer = side->distance(MODE, DROP, given.pictures[i], given.others[i]);
        total += answer.code + (uint64_t)answer.pictures;
    }
    return total;
}

static uint64_t add(const struct calls *side)
{
    uint64_t total = 0;
    for (size_t i = 0; i < ITEMS; i++) {
        shx_picture_answer_t answer = side->add(MODE, DROP, given.others[i], given.counts[i]);
        total += (unsigned)(answer.code + answer.picture.hours + answer.picture.frames);
    }
    return total;
}

/* ---- libltc, which takes samples and packed frames where the library takes bits. */

#ifdef WITH_LIBLTC

enum { FEWEST = 2, USUAL = 20, LOW = 38, HIGH = 218 };

static ltcsnd_sample_t fewest_samples[BITS * FEWEST], usual_samples[BITS * USUAL];
static LTCDecoder *fewest_decoder, *usual_decoder;
static LTCFrame ltc_frames[ITEMS], ltc_room[ITEMS];
static SMPTETimecode ltc_times[ITEMS];

/* Biphase mark: the level turns at each bit's beginning and, in a one, at its middle. */
static void make_samples(ltcsnd_sample_t *samples, size_t to_a_bit)
{
    int level = LOW;
    for (size_t i = 0; i < BITS; i++) {
        level = LOW + HIGH - level;
        memset(samples, level, to_a_bit / 2);
        level = given.words[i] ? LOW + HIGH - level : level;
        memset(samples + to_a_bit / 2, level, to_a_bit / 2);
        samples += to_a_bit;
    }
}

static uint64_t decoded(LTCDecoder *decoder, ltcsnd_sample_t *samples, size_t to_a_bit)
{
    const size_t to_a_word = to_a_bit * SHX_LTC_BITS;
    uint64_t words = 0;
    LTCFrameExt heard;
    for (size_t i = 0; i < ITEMS; i++) {
        ltc_decoder_write(decoder, samples + i * to_a_word, to_a_word, (ltc_off_t)(i * to_a_word));
        while (ltc_decoder_read(decoder, &heard)) {
            words++;
        }
    }
    return words;
}

static uint64_t ltc_decoder_fewest(const struct calls *side)
{
    (void)side;
    return decoded(fewest_decoder, fewest_samples, FEWEST);
}

static uint64_t ltc_decoder_usual(const struct calls *side)
{
    (void)side;
    return decoded(usual_decoder, usual_samples, USUAL);
}

static uint64_t ltc_to_time(const struct calls *side)
{
    uint64_t total = 0;
    (void)side;
    for (size_t i = 0; i < ITEMS; i++) {
        SMPTETimecode time;
        ltc_frame_to_time(&time, &ltc_frames[i], 0);
        total += time.hours + (uint64_t)time.frame;
    }
    return total;
}

static uint64_t ltc_from_time(const struct calls *side)
{
    uint64_t total = 0;
    (void)side;
    for (size_t i = 0; i < ITEMS; i++) {
        ltc_time_to_frame(&ltc_room[i], &ltc_times[i], LTC_TV_525_60, 0);
        total += ltc_room[i].frame_units;
    }
    return total;
}

static void make_libltc(void)
{
    make_samples(fewest_samples, FEWEST);
    make_samples(usual_samples, USUAL);
    fewest_decoder = ltc_decoder_create(FEWEST * SHX_LTC_BITS, 8);
    usual_decoder = ltc_decoder_create(USUAL * SHX_LTC_BITS, 8);
    for (size_t i = 0; i < ITEMS; i++) {
        ltc_times[i].hours = given.records[i].hours;
        ltc_times[i].mins = given.records[i].minutes;
        ltc_times[i].secs = given.records[i].seconds;
        ltc_times[i].frame = given.records[i].frames;
        ltc_frame_reset(&ltc_frames[i]);
        ltc_time_to_frame(&ltc_frames[i], &ltc_times[i], LTC_TV_525_60, 0);
    }
    if (ltc_decoder_fewest(NULL) + 1 < ITEMS || ltc_decoder_usual(NULL) + 1 < ITEMS) {
        give_up("libltc did not hear the words that it was played");
    }
}

#endif

/* ---- Rows. */

struct row {
    const char *name, *unit;
    size_t units;   /* in a pass */
    pass_t *ours;
    pass_t *theirs;            /* NULL for the same pass with other calls */
    const struct calls *other; /* NULL for the plain ones */
};

static const struct row ROWS[] = {
    {"block, noise", "bit", BITS, block_noise, NULL},
    {"block, good words", "bit", BITS, block_words, NULL},
    {"block, all ones", "bit", BITS, block_ones, NULL},
    {"block, both ways, backward words", "bit", BITS, block_turned, NULL},
    {"step, good words", "bit", BITS, step_words, NULL},
    {"ltc read", "call", ITEMS, ltc_read, NULL},
    {"ltc write", "call", ITEMS, ltc_write, NULL},
    {"vitc read", "call", ITEMS, vitc_read, NULL},
    {"vitc read, C by eights", "call", ITEMS, vitc_read, NULL, &BY_EIGHTS},
    {"vitc write", "call", ITEMS, vitc_write, NULL},
    {"atc read", "call", ITEMS, atc_read, NULL},
    {"atc write", "call", ITEMS, atc_write, NULL},
    {"number", "call", ITEMS, number, NULL},
    {"number in second", "call", ITEMS, number_in_second, NULL},
    {"picture", "call", ITEMS, picture, NULL},
    {"distance", "call", ITEMS, distance, NULL},
    {"add", "call", ITEMS, add, NULL},
#ifdef WITH_LIBLTC
    {"libltc: block, good words (a)", "bit", BITS, block_words, ltc_decoder_fewest},
    {"libltc: block, good words (b)", "bit", BITS, block_words, ltc_decoder_usual},
    {"libltc: ltc read (c)", "call", ITEMS, ltc_read, ltc_to_time},
    {"libltc: ltc write (d)", "call", ITEMS, ltc_write, ltc_from_time},
#endif
};

enum { ROW_COUNT = sizeof ROWS / sizeof ROWS[0] };

static volatile uint64_t sink;

static uint64_t pass_ours(const struct row *row)
{
    return row->ours(&LIBRARY);
}

static uint64_t pass_theirs(const struct row *row)
{
    return row->theirs ? row->theirs(NULL) : row->ours(row->other ? row->other : &PLAIN);
}

typedef uint64_t side_t(const struct row *row);

static double now(void)
{
    struct timespec t;
    if (clock_gettime(CLOCK_THREAD_CPUTIME_ID, &t) != 0) {
        give_up("no clock of the thread's time");
    }
    return (double)t.tv_sec + 1e-9 * (double)t.tv_nsec;
}

static double timed(side_t *side, const struct row *row, size_t passes)
{
    double before = now();
    for (size_t i = 0; i < passes; i++) {
        sink += side(row);
    }
    return now() - before;
}

/* Also the warming up: passes are doubled until the slower side takes as long as a batch is to take. */
static size_t passes_for(const struct row *row)
{
    size_t passes = 1;
    while (timed(pass_ours, row, passes) < BATCH_SECONDS && timed(pass_theirs, row, passes) < BATCH_SECONDS) {
        passes *= 2;
    }
    timed(pass_theirs, row, passes);
    return passes;
}

static int by_size(const void *a, const void *b)
{
    double x = *(const double *)a, y = *(const double *)b;
    return (x > y) - (x < y);
}

struct middle {
    double low, median, high; /* the quartiles */
};

static struct middle middle_of(double *values)
{
    qsort(values, PAIRS, sizeof *values, by_size);
    struct middle m = {values[PAIRS / 4], values[PAIRS / 2], values[PAIRS - 1 - PAIRS / 4]};
    return m;
}

static void measure(const struct row *row)
{
    double ratios[PAIRS], own[PAIRS], others[PAIRS];
    size_t passes = passes_for(row);
    double scale = 1e9 / ((double)passes * (double)row->units);
    for (size_t i = 0; i < PAIRS; i++) {
        /* turn and turn about, so that neither side always comes after the other */
        double early = i % 2 ? timed(pass_theirs, row, passes) : 0;
        double ours = timed(pass_ours, row, passes);
        double theirs = i % 2 ? early : timed(pass_theirs, row, passes);
        ratios[i] = ours / theirs;
        own[i] = scale * ours;
        others[i] = scale * theirs;
    }
    struct middle ratio = middle_of(ratios);
    printf("%-34s %6.2f   %5.2f to %5.2f %9.2f %9.2f ns/%s\n", row->name, ratio.median, ratio.low, ratio.high, middle_of(own).median,
           middle_of(others).median, row->unit);
    fflush(stdout);
}

static void compare_answers(void)
{
    for (size_t i = 0; i < ROW_COUNT; i++) {
        if (ROWS[i].theirs == NULL && pass_ours(&ROWS[i]) != pass_theirs(&ROWS[i])) {
            fprintf(stderr, "bench: %s: ", ROWS[i].name);
            give_up("the two sides answer differently");
        }
    }
}

static void print_table(void)
{
    printf("%-34s %6s   %14s %9s %9s\n", "row", "ratio", "its quartiles", "library", "other");
    for (size_t i = 0; i < ROW_COUNT; i++) {
        measure(&ROWS[i]);
    }
}

static void print_rows(void)
{
    for (size_t i = 0; i < ROW_COUNT; i++) {
        printf("%zu|%s|%s\n", ROWS[i].units, ROWS[i].unit, ROWS[i].name);
    }
}

/* Whoever counts instructions finds this name in an emulator's log, before and after what is to be counted. */
static __attribute__((noinline)) void bench_mark(void)
{
    sink++;
}

/* The pass before the first mark is for what is done once: pages touched, names of shared libraries found. */
static void marked_pass(side_t *side, const struct row *row)
{
    sink += side(row);
    bench_mark();
    sink += side(row);
    bench_mark();
}

static void mark_rows(void)
{
    for (size_t i = 0; i < ROW_COUNT; i++) {
        marked_pass(pass_ours, &ROWS[i]);
        marked_pass(pass_theirs, &ROWS[i]);
    }
}

int main(int argc, char **argv)
{
    if (argc == 2 && strcmp(argv[1], "rows") == 0) {
        print_rows();
        return 0;
    }
    make_pictures();
    make_runs();
#ifdef WITH_LIBLTC
    make_libltc();
#endif
    if (argc == 2 && strcmp(argv[1], "marked") == 0) {
        mark_rows();
        return 0;
    }
    compare_answers();
    print_table();
    return 0;
}
