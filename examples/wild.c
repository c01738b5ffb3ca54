/* wild COUNT SEED: so many random calls, each put to the library and to bench/plain.c, and the two answers compared field by field.
 * The archive holds no sanitizer's code, so each run that is lent stands against a page that may not be touched: a step past its end, or before its
 * beginning, stops the program. Structs of bytes have no padding, and are compared as bytes. */
#define _DEFAULT_SOURCE
#include "plain.h"

#include <stdio.h>
#include <stdlib.h>
#include <string.h>
#include <sys/mman.h>
#include <unistd.h>

enum { LONGEST = 200, TRACK = 5 * SHX_LTC_BITS, FIELDS = 19, CODES = 256, ENOUGH_FOR_EACH_CODE = 1000000, MOST_SHOWN = 10 };

/* What a call is given; what it has no use for stays as it is. `run` is lent to us, and then gives way to `theirs`. */
typedef struct {
    uint8_t mode, drop, make, interface, ways, element;
    shx_picture_t picture, other;
    shx_contents_t contents;
    shx_reader_t reader;
    uint32_t number;
    int32_t pictures;
    size_t start, limit, length;
    void *run, *theirs;
} drawn_t;

static uint64_t chance, made, differences;
static uint8_t *our_page, *their_page;
static size_t page_size;

/* ---- Chance. */

static uint64_t random_number(void) {
    uint64_t z = chance += 0x9E3779B97F4A7C15u;
    z = (z ^ z >> 30) * 0xBF58476D1CE4E5B9u;
    z = (z ^ z >> 27) * 0x94D049BB133111EBu;
    return z ^ z >> 31;
}

static unsigned below(unsigned count) { return (unsigned)(random_number() % count); }
static int one_in(unsigned count) { return below(count) == 0; }

/* Mostly below the one, now and then below the other, and seldom any byte. */
static uint8_t some_byte(unsigned usual, unsigned far) { return (uint8_t)(one_in(128) ? random_number() : below(one_in(16) ? far : usual)); }
static uint8_t some_mode(unsigned known) { return some_byte(known, 13); }

/* In half of the cases up to three bits are turned, often the drop flag, and seldom one becomes no bit. */
static void spoil_bits(uint8_t *bits, unsigned count, unsigned drop) {
    unsigned times = one_in(2) ? 0 : 1 + below(3);
    for (; times > 0; times--) bits[one_in(4) ? drop : below(count)] ^= 1;
    if (one_in(64)) bits[below(count)] = (uint8_t)random_number();
}

/* In half of the cases up to two fields become the next number or the one before, and now and then one becomes anything. */
static void spoil_fields(uint8_t *fields) {
    unsigned times = one_in(2) ? 0 : 1 + below(2);
    for (; times > 0; times--) fields[below(FIELDS)] += one_in(2) ? 1 : 255;
    if (one_in(8)) fields[below(FIELDS)] = (uint8_t)random_number();
}

/* ---- Pages: one that is lent, between two that stop whoever touches them. */

static uint8_t *fenced_page(void) {
    uint8_t *pages = mmap(NULL, 3 * page_size, PROT_NONE, MAP_PRIVATE | MAP_ANONYMOUS, -1, 0);
    if (pages != MAP_FAILED && mprotect(pages + page_size, page_size, PROT_READ | PROT_WRITE) == 0) return pages + page_size;
    perror("wild");
    exit(2);
}

/* The two copies of a run end where their pages do, or begin where they do; an empty run is null, or either of these. */
static drawn_t lend(drawn_t d, const void *elements, size_t size) {
    size_t place = one_in(2) ? 0 : page_size - size;
    if (size == 0 && one_in(2)) return d;
    d.run = memcpy(our_page + place, elements, size);
    d.theirs = memcpy(their_page + place, elements, size);
    return d;
}

/* ---- Words, lines and packets that a write made of a good record, and how they are spoilt. */

/* The frames of a mode, its pictures to an address, and the second byte that names it; an unknown mode is given the row of 60. */
static const struct { uint8_t frames, pictures, second; } rows[] = {
    {24, 1, 0}, {25, 1, 0}, {30, 1, 0}, {24, 2, 0}, {25, 2, 0}, {30, 2, 0}, {24, 3, 0x03}, {24, 4, 0x04}, {25, 4, 0x24}, {24, 5, 0x05}, {30, 4, 0x44},
};
static unsigned row_of(uint8_t mode) { return mode <= SHX_MODE_120_30X4 ? mode : SHX_MODE_60; }

/* `whole` is for what can't say a place: a linear word, a packet of type 0. Skipped addresses are rare, so the beginning of a minute comes often. */
static shx_record_t some_record(uint8_t mode, int whole, int spoilt) {
    static const uint8_t limits[FIELDS] = {24, 60, 60, 30, 2, 2, 2, 2, 2, 2, 16, 16, 16, 16, 16, 16, 16, 16, 5};
    unsigned i, early = one_in(8), frames = rows[row_of(mode)].frames, pictures = rows[row_of(mode)].pictures;
    uint8_t f[FIELDS];
    shx_record_t record;
    for (i = 0; i < FIELDS; i++) f[i] = (uint8_t)below(limits[i]);
    if (early) f[2] = 0;
    f[3] %= early ? 3 : frames;
    f[4] &= frames == 30, f[5] &= frames > 24;
    f[18] = whole && mode < 6 ? 0 : f[18] % pictures;
    if (whole || pictures > 1) f[6] = f[18];
    if (mode > 5) memset(f + 5, 0, 5);
    if (spoilt) spoil_fields(f);
    memcpy(&record, f, sizeof record);
    return record;
}

static shx_picture_t some_picture(uint8_t mode) {
    shx_record_t r = some_record(mode, 0, 1);
    shx_picture_t picture = {r.hours, r.minutes, r.seconds, r.frames, one_in(16) ? some_byte(6, 8) : r.place};
    return picture;
}

static shx_contents_t some_contents(uint8_t mode, int spoilt) {
    int high = mode > 5 && mode < 11;
    shx_contents_t c;
    c.payload_type = (uint8_t)(one_in(32) ? random_number() : high ? 0x80 + below(16) : below(3));
    c.second = (uint8_t)(one_in(8) ? random_number() : high ? rows[mode].second : 7 + below(18));
    c.record = some_record(mode, c.payload_type == 0, spoilt);
    return c;
}

/* Words end to end, forward or all backward, some of them spoilt. */
static void make_track(uint8_t mode, uint8_t *bits) {
    unsigned i, k;
    for (i = 0; i < TRACK; i++) bits[i] = (uint8_t)below(2);
    for (i = 0; i < TRACK; i += SHX_LTC_BITS) {
        plain_ltc_write(mode, some_record(mode, 1, 0), (uint8_t)below(2), 0, bits + i, SHX_LTC_BITS);
        spoil_bits(bits + i, SHX_LTC_BITS, 10);
    }
    for (i = 0, k = one_in(3) ? TRACK - 1 : 0; i < k; i++, k--) {
        uint8_t bit = bits[i];
        bits[i] = bits[k], bits[k] = bit;
    }
}

/* Where the CRC is made anew, what is judged after it is reached; so with the checks of a packet, whose drop flag is b6 of the ninth word. */
static void make_line(uint8_t mode, uint8_t *line) {
    unsigned i, anew = one_in(2);
    for (i = 0; i < LONGEST; i++) line[i] = (uint8_t)below(2);
    plain_vitc_write(mode, some_record(mode, 0, 0), 0, line, SHX_VITC_BITS);
    spoil_bits(line, SHX_VITC_BITS, 14);
    if (anew) memset(line + 82, 0, 8);
    for (i = 0; anew && i < 82; i++) line[82 + (i + 6) % 8] ^= line[i];
}

static uint16_t with_opposite(unsigned nine) { return (uint16_t)((nine & 511) | (nine & 256 ? 0 : 512)); }

static void make_checks_anew(uint16_t *words) {
    unsigned i, k, sum = 0;
    for (i = 3; i < 22; i++) {
        unsigned eight = words[i] & 255, odd = 0;
        for (k = 0; k < 8; k++) odd ^= eight >> k & 1;
        if (i > 5) words[i] = with_opposite(eight | odd << 8);
        sum += words[i] & 511;
    }
    words[22] = with_opposite(sum);
}

static void make_packet(uint8_t mode, uint8_t interface, uint16_t *words) {
    unsigned i, times = one_in(2) ? 0 : 1 + below(3);
    for (i = 0; i < LONGEST; i++) words[i] = (uint16_t)(random_number() & 1023);
    plain_atc_write(mode, interface, some_contents(mode, 0), 0, words, SHX_ATC_WORDS);
    for (; times > 0; times--) words[one_in(16) ? below(6) : 6 + below(17)] ^= (uint16_t)(1 << (one_in(8) ? below(16) : 3 + below(5)));
    if (one_in(8)) words[8] ^= 1 << 6;
    if (one_in(2)) make_checks_anew(words);
}

/* ---- What the calls are given. */

static drawn_t counted(void) {
    drawn_t d = {0};
    d.mode = some_mode(11);
    d.drop = rows[row_of(d.mode)].frames == 30 || one_in(4) ? some_byte(2, 4) : 0;
    d.picture = some_picture(d.mode), d.other = some_picture(d.mode);
    d.number = one_in(8) ? (uint32_t)random_number() : below(86401u * rows[row_of(d.mode)].frames * rows[row_of(d.mode)].pictures);
    d.pictures = one_in(8) ? one_in(2) ? INT32_MIN : INT32_MAX : (int32_t)(below(UINT32_MAX) - (int64_t)INT32_MAX) / (1 << below(31));
    d.ways = some_byte(2, 4);
    return d;
}

/* Now and then it is read in another mode than it was made for: there the flags stand elsewhere. */
static drawn_t carried(unsigned elements, unsigned modes) {
    drawn_t d = {0};
    uint8_t bits[TRACK], mode = some_mode(modes);
    uint16_t words[LONGEST];
    d.mode = one_in(16) ? some_mode(modes) : mode;
    d.interface = some_byte(3, 5);
    d.length = one_in(8) ? below(LONGEST + 1) : one_in(16) ? elements - 1 + below(3) : elements;
    if (elements == SHX_LTC_BITS) make_track(mode, bits);
    if (elements == SHX_VITC_BITS) make_line(mode, bits);
    if (elements != SHX_ATC_WORDS) return lend(d, bits, d.length);
    make_packet(mode, d.interface, words);
    return lend(d, words, d.length * sizeof *words);
}

/* A start may lie so far up that the elements from there on would go round to 0. */
static drawn_t written(unsigned elements, unsigned modes) {
    drawn_t d = {0};
    uint16_t before[LONGEST];
    unsigned i, room;
    for (i = 0; i < LONGEST; i++) before[i] = (uint16_t)random_number();
    d.mode = some_mode(modes), d.make = some_byte(2, 4), d.interface = some_byte(3, 5);
    d.length = one_in(16) ? below(LONGEST + 1) : elements + below(LONGEST + 1 - elements);
    room = d.length < elements ? 0 : (unsigned)d.length - elements;
    d.start = one_in(32) ? (size_t)0 - below(LONGEST) : below(room + (one_in(8) ? 4 : 1));
    d.contents = some_contents(d.mode, 1);
    if (elements != SHX_ATC_WORDS) d.contents.record = some_record(d.mode, elements == SHX_LTC_BITS, 1);
    return lend(d, before, elements == SHX_ATC_WORDS ? d.length * sizeof *before : d.length);
}

/* A reader that was fed a part of a track, mostly up to the last bit of a word, and the rest; seldom its state is one that no feeding leaves. */
static drawn_t followed(void) {
    drawn_t d = {0};
    uint8_t track[TRACK], mode = some_mode(6);
    unsigned i, fed = one_in(2) ? 79 : below(2 * SHX_LTC_BITS);
    shx_reader_t r = {0, 0, one_in(16) ? some_mode(6) : mode, some_byte(2, 4), (uint8_t)(fed < 80 ? fed : 80)};
    make_track(mode, track);
    for (i = 0; i < fed; i++) {
        r.info = r.info >> 1 | (uint64_t)(r.sync & 1) << 63;
        r.sync = (uint16_t)(r.sync >> 1 | (track[i] & 1) << 15);
    }
    if (one_in(32)) r.held = (uint8_t)(one_in(2) ? random_number() : r.held + 255 + below(3));
    if (one_in(32)) r.info ^= random_number();
    d.reader = r, d.element = track[fed];
    d.limit = one_in(4) ? (size_t)random_number() : below(LONGEST + 20);
    d.length = below(LONGEST + 1);
    return lend(d, track + fed, d.length);
}

/* ---- The calls: the codes that have to come, what is given, the answer's type, its code, and whether ours, `a`, and theirs, `b`, are the same. */

#define BYTES(member) (memcmp(&a member, &b member, sizeof a member) == 0)
#define READER(member) (a member info == b member info && a member sync == b member sync && a member mode == b member mode \
    && a member ways == b member ways && a member held == b member held)
#define CALLS(TRY) \
    TRY(number, "0 2 3 8 9 10", counted(), shx_number_answer_t, .code, a.number == b.number, d.mode, d.drop, d.picture) \
    TRY(number_in_second, "0 2 3 8 9 10", counted(), shx_second_answer_t, .code, a.number == b.number, d.mode, d.drop, d.picture) \
    TRY(picture, "0 2 3 10 14", counted(), shx_picture_answer_t, .code, BYTES(.picture), d.mode, d.drop, d.number) \
    TRY(distance, "0 2 3 8 9 10", counted(), shx_distance_answer_t, .code, a.pictures == b.pictures, d.mode, d.drop, d.picture, d.other) \
    TRY(add, "0 2 3 8 9 10", counted(), shx_picture_answer_t, .code, BYTES(.picture), d.mode, d.drop, d.picture, d.pictures) \
    TRY(ltc_read, "1 2 3 4 5 8 9 10 100", carried(SHX_LTC_BITS, 6), shx_word_answer_t, .code, BYTES(), d.mode, d.run, d.length) \
    TRY(ltc_write, "0 2 3 8 9 10 11 12", written(SHX_LTC_BITS, 6), uint8_t, , 1, d.mode, d.contents.record, d.make, d.start, d.run, d.length) \
    TRY(vitc_read, "1 2 3 4 5 8 9 10 100", carried(SHX_VITC_BITS, 6), shx_line_answer_t, .code, BYTES(), d.mode, d.run, d.length) \
    TRY(vitc_write, "0 2 3 8 9 10 11 12", written(SHX_VITC_BITS, 6), uint8_t, , 1, d.mode, d.contents.record, d.start, d.run, d.length) \
    TRY(atc_read, "1 2 3 4 5 6 7 8 9 10 19 23 100", carried(SHX_ATC_WORDS, 11), shx_packet_answer_t, .code, BYTES(), \
        d.mode, d.interface, d.run, d.length) \
    TRY(atc_write, "0 2 3 7 8 9 10 11 12 19 23", written(SHX_ATC_WORDS, 11), uint8_t, , 1, \
        d.mode, d.interface, d.contents, d.start, d.run, d.length) \
    TRY(fresh, "0", counted(), shx_reader_t, .held, READER(.), d.mode, d.ways) \
    TRY(step, "0 2 3 5 8 9 10 13 100", followed(), shx_step_answer_t, .heard.code, BYTES(.heard) && READER(.reader.), d.reader, d.element) \
    TRY(block, "0 2 3 5 8 9 10 13 100", followed(), shx_block_answer_t, .heard.code, BYTES(.heard) && READER(.reader.) && a.taken == b.taken, \
        d.reader, d.limit, d.run, d.length)

/* The pages are compared whole, so that what a write should have left alone is seen too, and made alike again. */
static uint8_t judged(const char *call, uint8_t ours, uint8_t theirs, int same) {
    const char *runs = memcmp(our_page, their_page, page_size) == 0 ? "" : ", and the runs";
    if (ours == theirs && same && *runs == 0) return ours;
    if (differences++ < MOST_SHOWN) printf("call %lu, %s, differs: code %u, plain %u%s\n", (unsigned long)made, call, ours, theirs, runs);
    memcpy(our_page, their_page, page_size);
    return ours;
}

#define TRY_ONE(call, codes, draw, type, code, same, ...) \
    static uint8_t try_##call(void) { \
        drawn_t d = draw; \
        type a = shx_##call(__VA_ARGS__), b = (d.run = d.theirs, plain_##call(__VA_ARGS__)); \
        return judged(#call, a code, b code, same); \
    }
CALLS(TRY_ONE)

#define ROW(call, codes, ...) {#call, codes, try_##call},
static const struct { const char *name, *codes; uint8_t (*try_one)(void); } calls[] = {CALLS(ROW)};
enum { CALL_COUNT = sizeof calls / sizeof *calls };
static uint64_t came[CALL_COUNT][CODES];

/* How many of the codes that have to come did not. */
static unsigned told(unsigned call) {
    unsigned code, missing = 0;
    char *rest = (char *)calls[call].codes;
    printf("%-17s", calls[call].name);
    for (code = 0; code < CODES; code++)
        if (came[call][code] > 0) printf(" %u:%lu", code, (unsigned long)came[call][code]);
    while (*rest != 0) missing += came[call][strtoul(rest, &rest, 10)] == 0;
    printf("%s%s\n", missing > 0 ? ", and not all of " : "", missing > 0 ? calls[call].codes : "");
    return missing;
}

int main(int count, char **words) {
    uint64_t asked = count > 1 ? strtoull(words[1], NULL, 10) : 1000;
    unsigned call, missing = 0;
    chance = count > 2 ? strtoull(words[2], NULL, 10) : 1;
    page_size = (size_t)sysconf(_SC_PAGESIZE);
    our_page = fenced_page(), their_page = fenced_page();
    for (; made < asked; made++) {
        call = below(CALL_COUNT);
        came[call][calls[call].try_one()]++;
    }
    for (call = 0; call < CALL_COUNT; call++) missing += told(call);
    printf("%lu calls, %lu differences\n", (unsigned long)made, (unsigned long)differences);
    return differences > 0 || (missing > 0 && asked >= ENOUGH_FOR_EACH_CODE);
}
