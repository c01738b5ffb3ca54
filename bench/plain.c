/* The library's calls in plain C: its algorithms, step for step, as C is commonly written. Functions that judge give 0 for what is sound, else the
 * number of the refusal. */
#include "plain.h"

#include <stdbool.h>
#include <string.h>

/* ---- Modes. */

enum { MODES_ON_LINES = 6, MODES = 11 };

struct mode_row {
    uint8_t frames;   /* in a second */
    uint8_t pictures; /* to an address */
};

static const struct mode_row MODE_ROWS[MODES] = {
    {24, 1}, {25, 1}, {30, 1}, {24, 2}, {25, 2}, {30, 2}, {24, 3}, {24, 4}, {25, 4}, {24, 5}, {30, 4},
};

static inline bool is_unknown(uint8_t mode)
{
    return mode >= MODES_ON_LINES;
}

static inline bool is_uncounted(uint8_t mode)
{
    return mode >= MODES;
}

static inline bool is_high_rate(uint8_t mode)
{
    return is_unknown(mode) && !is_uncounted(mode);
}

static inline bool may_drop(const struct mode_row *row)
{
    return row->frames == 30;
}

/* Addresses in a day: drop-frame skips two in each minute but every tenth. */
static inline uint32_t frames_in_day(const struct mode_row *row, bool drop)
{
    return 86400u * row->frames - (drop && may_drop(row) ? 2592u : 0u);
}

/* ---- What a mode and a drop flag turn away. */

static inline bool is_outside(const struct mode_row *row, shx_picture_t p)
{
    return p.hours > 23 || p.minutes > 59 || p.seconds > 59 || p.frames >= row->frames;
}

static inline bool is_skipped(shx_picture_t p)
{
    return p.frames < 2 && p.seconds == 0 && p.minutes % 10 != 0;
}

static inline bool is_place_outside(const struct mode_row *row, uint8_t place)
{
    return row->pictures > 1 && place >= row->pictures;
}

static inline bool is_place_unused(const struct mode_row *row, uint8_t place)
{
    return row->pictures == 1 && place > 0;
}

static inline uint8_t verdict(const struct mode_row *row, bool drop, bool outside, bool skipped, bool unused)
{
    if (outside) {
        return SHX_OUTSIDE_THE_CLOCK;
    }
    if (drop && may_drop(row) && skipped) {
        return SHX_SKIPPED_ADDRESS;
    }
    if (unused || (drop && !may_drop(row))) {
        return SHX_UNUSED_BIT_SET;
    }
    return 0;
}

/* The address alone: the place is among what else makes 8 or 10 apply. */
static inline uint8_t judge_address(const struct mode_row *row, bool drop, shx_picture_t p, bool bad, bool unused)
{
    return verdict(row, drop, bad || is_outside(row, p), is_skipped(p), unused);
}

static inline uint8_t judge_picture(const struct mode_row *row, bool drop, shx_picture_t p)
{
    return judge_address(row, drop, p, is_place_outside(row, p.place), is_place_unused(row, p.place));
}

static inline uint8_t judge_two(const struct mode_row *row, bool drop, shx_picture_t p, shx_picture_t q)
{
    bool outside = is_place_outside(row, p.place) || is_place_outside(row, q.place) || is_outside(row, p) || is_outside(row, q);
    bool unused = is_place_unused(row, p.place) || is_place_unused(row, q.place);
    return verdict(row, drop, outside, is_skipped(p) || is_skipped(q), unused);
}

/* A mode in which nothing is counted, or a drop flag that is none. */
static inline uint8_t judge_counting(uint8_t mode, uint8_t drop)
{
    if (is_uncounted(mode)) {
        return SHX_UNKNOWN_MODE;
    }
    return drop > 1 ? SHX_ELEMENT_TOO_HIGH : 0;
}

/* ---- Counting. */

static inline uint32_t count(const struct mode_row *row, bool drop, shx_picture_t p)
{
    uint32_t minutes = 60u * p.hours + p.minutes;
    uint32_t address = (60u * minutes + p.seconds) * row->frames + p.frames;
    if (drop) {
        address -= 2 * (minutes - minutes / 10);
    }
    return row->pictures * address + p.place;
}

/* The place of an address's number on a clock that skips nothing. */
static inline uint32_t undropped(uint32_t number)
{
    uint32_t tens = number / 17982;
    uint32_t rest = number % 17982;
    return number + 18 * tens + (rest < 2 ? 0 : 2 * ((rest - 2) / 1798));
}

static inline shx_picture_t picture_at(const struct mode_row *row, bool drop, uint32_t number)
{
    uint32_t address = number / row->pictures;
    uint32_t place = drop ? undropped(address) : address;
    uint32_t seconds = place / row->frames;
    uint32_t minutes = seconds / 60;
    shx_picture_t p = {
        .hours = (uint8_t)(minutes / 60),
        .minutes = (uint8_t)(minutes % 60),
        .seconds = (uint8_t)(seconds % 60),
        .frames = (uint8_t)(place % row->frames),
        .place = (uint8_t)(number % row->pictures),
    };
    return p;
}

static inline uint32_t pictures_in_day(const struct mode_row *row, bool drop)
{
    return row->pictures * frames_in_day(row, drop);
}

/* Numbers of a day are below 2^24, and so none of these sums and differences goes past 32 bits. */
static inline int32_t distance(uint32_t day, uint32_t from, uint32_t to)
{
    uint32_t half = day / 2;
    if (to + half < from) {
        return (int32_t)(to + day - from);
    }
    if (from + half <= to) {
        return -(int32_t)(from + day - to);
    }
    return (int32_t)to - (int32_t)from;
}

static inline uint32_t sum(uint32_t day, uint32_t number, int32_t pictures)
{
    if (pictures < 0) {
        uint32_t back = 0u - (uint32_t)pictures;
        return (number + (day - back % day)) % day;
    }
    return (number + (uint32_t)pictures) % day;
}

shx_number_answer_t plain_number(uint8_t mode, uint8_t drop, shx_picture_t picture)
{
    shx_number_answer_t answer = {.code = judge_counting(mode, drop)};
    if (answer.code != 0) {
        return answer;
    }
    const struct mode_row *row = &MODE_ROWS[mode];
    answer.code = judge_picture(row, drop, picture);
    if (answer.code == 0) {
        answer.number = count(row, drop, picture);
    }
    return answer;
}

shx_second_answer_t plain_number_in_second(uint8_t mode, uint8_t drop, shx_picture_t picture)
{
    shx_second_answer_t answer = {.code = judge_counting(mode, drop)};
    if (answer.code != 0) {
        return answer;
    }
    const struct mode_row *row = &MODE_ROWS[mode];
    answer.code = judge_picture(row, drop, picture);
    if (answer.code == 0) {
        answer.number = (uint16_t)(row->pictures * picture.frames + picture.place);
    }
    return answer;
}

shx_picture_answer_t plain_picture(uint8_t mode, uint8_t drop, uint32_t number)
{
    shx_picture_answer_t answer = {.code = judge_counting(mode, drop)};
    if (answer.code != 0) {
        return answer;
    }
    const struct mode_row *row = &MODE_ROWS[mode];
    if (drop && !may_drop(row)) {
        answer.code = SHX_UNUSED_BIT_SET;
    } else if (number >= pictures_in_day(row, drop)) {
        answer.code = SHX_NUMBER_PAST_THE_DAY;
    } else {
        answer.picture = picture_at(row, drop, number);
    }
    return answer;
}

shx_distance_answer_t plain_distance(uint8_t mode, uint8_t drop, shx_picture_t from, shx_picture_t to)
{
    shx_distance_answer_t answer = {.code = judge_counting(mode, drop)};
    if (answer.code != 0) {
        return answer;
    }
    const struct mode_row *row = &MODE_ROWS[mode];
    answer.code = judge_two(row, drop, from, to);
    if (answer.code == 0) {
        answer.pictures = distance(pictures_in_day(row, drop), count(row, drop, from), count(row, drop, to));
    }
    return answer;
}

shx_picture_answer_t plain_add(uint8_t mode, uint8_t drop, shx_picture_t picture, int32_t pictures)
{
    shx_picture_answer_t answer = {.code = judge_counting(mode, drop)};
    if (answer.code != 0) {
        return answer;
    }
    const struct mode_row *row = &MODE_ROWS[mode];
    answer.code = judge_picture(row, drop, picture);
    if (answer.code == 0) {
        uint32_t number = sum(pictures_in_day(row, drop), count(row, drop, picture), pictures);
        answer.picture = picture_at(row, drop, number);
    }
    return answer;
}

/* ---- Records and the 64 information bits. */

static inline unsigned field(uint64_t info, unsigned low, unsigned width)
{
    return (unsigned)(info >> low) & ((1u << width) - 1);
}

static inline bool is_25(const struct mode_row *row)
{
    return row->frames == 25;
}

static inline unsigned mark_place(const struct mode_row *row)
{
    return is_25(row) ? 59 : 27;
}

static inline shx_picture_t picture_in(const shx_record_t *r)
{
    shx_picture_t p = {r->hours, r->minutes, r->seconds, r->frames, r->place};
    return p;
}

static inline bool has_flag_above_1(const shx_record_t *r)
{
    return (r->drop | r->colour | r->mark | r->bgf0 | r->bgf1 | r->bgf2) > 1;
}

static inline bool has_high_group(const shx_record_t *r)
{
    return (r->group1 | r->group2 | r->group3 | r->group4 | r->group5 | r->group6 | r->group7 | r->group8) > 15;
}

static inline bool has_bad_digit(uint64_t info)
{
    return field(info, 0, 4) > 9 || field(info, 16, 4) > 9 || field(info, 32, 4) > 9 || field(info, 48, 4) > 9;
}

static inline uint8_t number_held(uint64_t info, unsigned units, unsigned width_of_tens)
{
    return (uint8_t)(field(info, units, 4) + 10 * field(info, units + 8, width_of_tens));
}

static inline shx_record_t record_held(const struct mode_row *row, uint64_t info)
{
    bool at25 = is_25(row);
    shx_record_t r = {
        .hours = number_held(info, 48, 2),
        .minutes = number_held(info, 32, 3),
        .seconds = number_held(info, 16, 3),
        .frames = number_held(info, 0, 2),
        .drop = (uint8_t)field(info, 10, 1),
        .colour = (uint8_t)field(info, 11, 1),
        .mark = (uint8_t)field(info, mark_place(row), 1),
        .bgf0 = (uint8_t)field(info, at25 ? 27 : 43, 1),
        .bgf1 = (uint8_t)field(info, 58, 1),
        .bgf2 = (uint8_t)field(info, at25 ? 43 : 59, 1),
        .group1 = (uint8_t)field(info, 4, 4),
        .group2 = (uint8_t)field(info, 12, 4),
        .group3 = (uint8_t)field(info, 20, 4),
        .group4 = (uint8_t)field(info, 28, 4),
        .group5 = (uint8_t)field(info, 36, 4),
        .group6 = (uint8_t)field(info, 44, 4),
        .group7 = (uint8_t)field(info, 52, 4),
        .group8 = (uint8_t)field(info, 60, 4),
    };
    return r;
}

static inline bool is_unused_colour(const struct mode_row *row, uint8_t colour)
{
    return row->frames == 24 && colour;
}

static inline uint8_t unpack(const struct mode_row *row, uint64_t info, shx_record_t *record)
{
    *record = record_held(row, info);
    return judge_address(row, record->drop, picture_in(record), has_bad_digit(info), is_unused_colour(row, record->colour));
}

/* Sixteen bits: units, a group, tens and two flags, a group. */
static inline uint64_t quarter(uint8_t number, uint8_t low, uint8_t first, uint8_t second, uint8_t high)
{
    unsigned tens = number / 10u + 4u * first + 8u * second;
    return number % 10u | (unsigned)low << 4 | tens << 8 | (unsigned)high << 12;
}

static inline uint64_t packed(const struct mode_row *row, const shx_record_t *r)
{
    bool at25 = is_25(row);
    uint8_t at27 = at25 ? r->bgf0 : r->mark;
    uint8_t at43 = at25 ? r->bgf2 : r->bgf0;
    uint8_t at59 = at25 ? r->mark : r->bgf2;
    return quarter(r->frames, r->group1, r->drop, r->colour, r->group2) | quarter(r->seconds, r->group3, 0, at27, r->group4) << 16
         | quarter(r->minutes, r->group5, 0, at43, r->group6) << 32 | quarter(r->hours, r->group7, r->bgf1, at59, r->group8) << 48;
}

/* Which picture of an address is shown: in modes 0 to 5 the mark says it, unless it is always the first. */
static inline uint8_t place_shown(const struct mode_row *row, bool by_mark, uint8_t mark)
{
    return by_mark && row->pictures > 1 ? mark : 0;
}

static inline uint8_t unpack_picture(const struct mode_row *row, bool by_mark, uint64_t info, shx_record_t *record)
{
    uint8_t code = unpack(row, info, record);
    record->place = place_shown(row, by_mark, record->mark);
    return code;
}

static inline uint8_t pack_picture(const struct mode_row *row, bool by_mark, const shx_record_t *r, uint64_t *info)
{
    bool bad = is_place_outside(row, r->place) || has_high_group(r);
    bool unused = is_place_unused(row, r->place) || is_unused_colour(row, r->colour);
    uint8_t code = judge_address(row, r->drop, picture_in(r), bad, unused);
    if (code != 0) {
        return code;
    }
    if (r->place != place_shown(row, by_mark, r->mark)) {
        return SHX_MARK_SET;
    }
    *info = packed(row, r);
    return 0;
}

/* ---- Super-frames, modes 6 to 10: sub-frame 1 stands where the mark does, 2 where the colour flag does, 3 where BGF0 does. */

static inline bool has_two_bits(const struct mode_row *row)
{
    return row->pictures <= 4;
}

static inline uint8_t unpack_super(const struct mode_row *row, uint64_t info, shx_record_t *record)
{
    shx_record_t held = record_held(row, info);
    unsigned three = 4u * held.mark + 2u * held.colour + held.bgf0;
    uint8_t place = (uint8_t)(has_two_bits(row) ? three / 2 : three);
    bool unused = (has_two_bits(row) && held.bgf0) || held.bgf1 || held.bgf2;
    bool bad = has_bad_digit(info) || is_place_outside(row, place);
    held.colour = held.mark = held.bgf0 = held.bgf1 = held.bgf2 = 0;
    held.place = place;
    *record = held;
    return judge_address(row, held.drop, picture_in(&held), bad, unused);
}

static inline uint8_t pack_super(const struct mode_row *row, const shx_record_t *r, uint64_t *info)
{
    bool bad = is_place_outside(row, r->place) || has_high_group(r);
    bool unused = r->colour || r->mark || r->bgf0 || r->bgf1 || r->bgf2;
    uint8_t code = judge_address(row, r->drop, picture_in(r), bad, unused);
    if (code != 0) {
        return code;
    }
    unsigned three = has_two_bits(row) ? 2u * r->place : r->place;
    shx_record_t spread = *r;
    spread.mark = three >> 2 & 1;
    spread.colour = three >> 1 & 1;
    spread.bgf0 = three & 1;
    *info = packed(row, &spread);
    return 0;
}

/* The second byte that names a mode. */
static inline unsigned name_of(const struct mode_row *row)
{
    unsigned frames = row->frames == 24 ? 0 : row->frames == 25 ? 1 : 2;
    return 32 * frames + row->pictures;
}

/* ---- Lent runs. */

static inline bool lacks_room(size_t size, size_t start, size_t length)
{
    return start > length || length - start < size;
}

/* The number that a run of at most 64 bits stands for, low bit first. False where an element is no bit. */
static inline bool gather(const uint8_t *run, size_t length, uint64_t *number)
{
    uint64_t gathered = 0;
    for (size_t i = length; i > 0; i--) {
        uint8_t bit = run[i - 1];
        if (bit > 1) {
            return false;
        }
        gathered = gathered << 1 | bit;
    }
    *number = gathered;
    return true;
}

static inline void scatter(uint64_t number, uint8_t *run, size_t length)
{
    for (size_t i = 0; i < length; i++) {
        run[i] = number & 1;
        number >>= 1;
    }
}

/* ---- Linear words. */

enum { SYNC = 0xbffc, SYNC_TURNED = 0x3ffd };

/* The sync word has three zeros, so that the word has 67 less the ones of its 64 bits. */
static inline bool has_odd_zeros(uint64_t info)
{
    return __builtin_popcountll(info) % 2 == 0;
}

/* What 64 bits are heard as, once the sync word has been seen. */
static inline uint8_t read_info(uint8_t mode, uint64_t info, uint8_t *found, shx_record_t *record)
{
    const struct mode_row *row = &MODE_ROWS[mode];
    bool odd = has_odd_zeros(info);
    if (odd && field(info, mark_place(row), 1)) {
        return SHX_WRONG_CHECK;
    }
    uint8_t code = unpack(row, info, record);
    if (code != 0) {
        return code;
    }
    record->mark = 0;
    *found = odd ? SHX_UNCORRECTED : SHX_CORRECTED;
    return SHX_ACCEPTED;
}

static inline uint8_t judge_word(uint8_t mode, const uint8_t *word, size_t length, uint64_t *info)
{
    uint64_t sync;
    if (length != SHX_LTC_BITS) {
        return SHX_WRONG_LENGTH;
    }
    if (is_unknown(mode)) {
        return SHX_UNKNOWN_MODE;
    }
    if (!gather(word, 64, info) || !gather(word + 64, 16, &sync)) {
        return SHX_ELEMENT_TOO_HIGH;
    }
    return sync == SYNC ? 0 : SHX_WRONG_SYNC;
}

shx_word_answer_t plain_ltc_read(uint8_t mode, const uint8_t *word, size_t length)
{
    uint64_t info;
    uint8_t found;
    shx_record_t record;
    shx_word_answer_t answer = {.code = judge_word(mode, word, length, &info)};
    if (answer.code != 0) {
        return answer;
    }
    answer.code = read_info(mode, info, &found, &record);
    if (answer.code == SHX_ACCEPTED) {
        answer.found = found;
        answer.record = record;
    }
    return answer;
}

static inline uint8_t judge_line_write(uint8_t mode, const shx_record_t *record, uint8_t make)
{
    if (is_unknown(mode)) {
        return SHX_UNKNOWN_MODE;
    }
    return has_flag_above_1(record) || make > 1 ? SHX_ELEMENT_TOO_HIGH : 0;
}

uint8_t plain_ltc_write(uint8_t mode, shx_record_t record, uint8_t make, size_t start, uint8_t *run, size_t length)
{
    uint64_t info = 0;
    uint8_t code = judge_line_write(mode, &record, make);
    if (code != 0) {
        return code;
    }
    const struct mode_row *row = &MODE_ROWS[mode];
    code = pack_picture(row, false, &record, &info);
    if (code != 0) {
        return code;
    }
    if (record.mark) {
        return SHX_MARK_SET;
    }
    if (lacks_room(SHX_LTC_BITS, start, length)) {
        return SHX_NO_ROOM;
    }
    if (make == SHX_CORRECTED && has_odd_zeros(info)) {
        info |= (uint64_t)1 << mark_place(row);
    }
    scatter(info, run + start, 64);
    scatter(SYNC, run + start + 64, 16);
    return SHX_DONE;
}

/* ---- Vertical interval lines. */

static inline bool has_high_element(const uint8_t *line)
{
    for (size_t i = 0; i < SHX_VITC_BITS; i++) {
        if (line[i] > 1) {
            return true;
        }
    }
    return false;
}

static inline bool has_wrong_pair(const uint8_t *line)
{
    for (size_t i = 0; i < SHX_VITC_BITS; i += 10) {
        if (line[i] != 1 || line[i + 1] != 0) {
            return true;
        }
    }
    return false;
}

/* 1 where the places that have this one's remainder by 8 hold an odd number of ones. */
static inline uint8_t parity(size_t place, const uint8_t *run, size_t length)
{
    uint8_t odd = 0;
    for (size_t at = place % 8; at < length; at += 8) {
        odd ^= run[at];
    }
    return odd;
}

static inline bool has_wrong_crc(const uint8_t *line)
{
    for (size_t remainder = 0; remainder < 8; remainder++) {
        if (parity(remainder, line, SHX_VITC_BITS)) {
            return true;
        }
    }
    return false;
}

typedef uint8_t form_t(const uint8_t *line);

/* What is wrong with the form of 90 elements, or 0: a pass for each remainder. */
static inline uint8_t form_by_remainders(const uint8_t *line)
{
    if (has_high_element(line)) {
        return SHX_ELEMENT_TOO_HIGH;
    }
    if (has_wrong_pair(line)) {
        return SHX_WRONG_SYNC;
    }
    return has_wrong_crc(line) ? SHX_WRONG_CHECK : 0;
}

/* The same, eight elements at once: each byte of the two sums belongs to one remainder. */
static inline uint8_t form_by_eights(const uint8_t *line)
{
    uint64_t all = 0, odd = 0;
    for (size_t at = 0; at < SHX_VITC_BITS; at += 8) {
        uint64_t eight = 0;
        memcpy(&eight, line + at, at + 8 <= SHX_VITC_BITS ? 8 : SHX_VITC_BITS % 8);
        all |= eight;
        odd ^= eight;
    }
    if (all & UINT64_C(0xfefefefefefefefe)) {
        return SHX_ELEMENT_TOO_HIGH;
    }
    if (has_wrong_pair(line)) {
        return SHX_WRONG_SYNC;
    }
    return odd != 0 ? SHX_WRONG_CHECK : 0;
}

static inline uint8_t judge_line(uint8_t mode, const uint8_t *line, size_t length, form_t *form)
{
    if (length != SHX_VITC_BITS) {
        return SHX_WRONG_LENGTH;
    }
    if (is_unknown(mode)) {
        return SHX_UNKNOWN_MODE;
    }
    return form(line);
}

static inline uint64_t info_on_line(const uint8_t *line)
{
    uint64_t info = 0;
    for (size_t n = 64; n-- > 0;) {
        info = info << 1 | line[n + 2 + 2 * (n / 8)];
    }
    return info;
}

static inline shx_line_answer_t read_line(uint8_t mode, const uint8_t *line, size_t length, form_t *form)
{
    shx_record_t record;
    shx_line_answer_t answer = {.code = judge_line(mode, line, length, form)};
    if (answer.code != 0) {
        return answer;
    }
    answer.code = unpack_picture(&MODE_ROWS[mode], true, info_on_line(line), &record);
    if (answer.code == 0) {
        answer.code = SHX_ACCEPTED;
        answer.record = record;
    }
    return answer;
}

shx_line_answer_t plain_vitc_read(uint8_t mode, const uint8_t *line, size_t length)
{
    return read_line(mode, line, length, form_by_remainders);
}

shx_line_answer_t plain_vitc_read_by_eights(uint8_t mode, const uint8_t *line, size_t length)
{
    return read_line(mode, line, length, form_by_eights);
}

/* Eight groups of ten, the ninth pair, and the CRC of those 82. */
static inline void store_line(uint64_t info, uint8_t *line)
{
    for (size_t group = 0; group < 8; group++) {
        scatter(1 + 4 * (info >> 8 * group & 0xff), line + 10 * group, 10);
    }
    line[80] = 1;
    line[81] = 0;
    for (size_t place = 82; place < SHX_VITC_BITS; place++) {
        line[place] = parity(place, line, 82);
    }
}

uint8_t plain_vitc_write(uint8_t mode, shx_record_t record, size_t start, uint8_t *run, size_t length)
{
    uint64_t info = 0;
    uint8_t code = judge_line_write(mode, &record, 0);
    if (code != 0) {
        return code;
    }
    code = pack_picture(&MODE_ROWS[mode], true, &record, &info);
    if (code != 0) {
        return code;
    }
    if (lacks_room(SHX_VITC_BITS, start, length)) {
        return SHX_NO_ROOM;
    }
    store_line(info, run + start);
    return SHX_DONE;
}

/* ---- Ancillary packets. */

static inline uint16_t fifth_word(uint8_t mode)
{
    return is_high_rate(mode) ? 0x161 : 0x260;
}

static inline uint16_t with_opposite(unsigned nine)
{
    return (uint16_t)(nine < 256 ? nine + 512 : nine);
}

static inline uint16_t data_word(unsigned nibble, unsigned bit)
{
    unsigned byte = nibble << 4 | bit << 3;
    unsigned odd = (unsigned)__builtin_popcountll(byte) & 1;
    return with_opposite(byte | odd << 8);
}

static inline bool is_wrong_word(uint16_t word)
{
    return __builtin_popcountll(word & 0x1ffu) % 2 != 0 || ((word >> 9 ^ word >> 8) & 1) == 0;
}

static inline bool has_high_word(const uint16_t *words)
{
    for (size_t i = 0; i < SHX_ATC_WORDS; i++) {
        if (words[i] > 1023) {
            return true;
        }
    }
    return false;
}

static inline bool is_headed(uint8_t mode, const uint16_t *words)
{
    return words[0] == 0x000 && words[1] == 0x3ff && words[2] == 0x3ff && words[3] == 0x260 && words[4] == fifth_word(mode) && words[5] == 0x110;
}

static inline bool has_wrong_word(const uint16_t *data)
{
    for (size_t i = 0; i < 16; i++) {
        if (is_wrong_word(data[i])) {
            return true;
        }
    }
    return false;
}

static inline bool has_low_bits(const uint16_t *data)
{
    for (size_t i = 0; i < 16; i++) {
        if (data[i] & 7) {
            return true;
        }
    }
    return false;
}

/* Over words 4 to 22 of a packet, counting from 1. */
static inline uint16_t checksum(const uint16_t *words)
{
    unsigned total = 0;
    for (size_t i = 3; i < 22; i++) {
        total += words[i] & 0x1ffu;
    }
    return with_opposite(total & 0x1ff);
}

static inline uint8_t judge_packet(uint8_t mode, uint8_t interface, const uint16_t *words, size_t length)
{
    if (length != SHX_ATC_WORDS) {
        return SHX_WRONG_LENGTH;
    }
    if (is_uncounted(mode)) {
        return SHX_UNKNOWN_MODE;
    }
    if (interface > SHX_HIGH_DEFINITION || has_high_word(words)) {
        return SHX_ELEMENT_TOO_HIGH;
    }
    if (!is_headed(mode, words)) {
        return SHX_WRONG_SYNC;
    }
    if (has_wrong_word(words + 6) || words[22] != checksum(words)) {
        return SHX_WRONG_CHECK;
    }
    return has_low_bits(words + 6) ? SHX_LOW_BITS_SET : 0;
}

static inline bool is_unknown_type(uint8_t mode, uint8_t payload_type)
{
    return is_high_rate(mode) ? payload_type >> 4 != 8 : payload_type > 2;
}

/* A column of Table 4 in source document 000: its head says what b5 is, and it has an entry for each number from `first` to `last`. */
static inline bool has_entry(uint8_t second, unsigned b5, unsigned first, unsigned last)
{
    unsigned number = second & 31u;
    return (second >> 5 & 1u) == b5 && first <= number && number <= last;
}

static inline bool lacks_entry(uint8_t interface, uint8_t second)
{
    switch (interface) {
    case SHX_LINES_525:
        return !has_entry(second, 0, 10, 20) && !has_entry(second, 1, 10, 18);
    case SHX_LINES_625:
        return !has_entry(second, 0, 6, 22) && !has_entry(second, 1, 6, 20);
    default:
        return false;
    }
}

static inline uint8_t judge_payload(uint8_t mode, uint8_t interface, uint8_t payload_type, uint8_t second)
{
    if (is_unknown_type(mode, payload_type)) {
        return SHX_UNKNOWN_TYPE;
    }
    if ((payload_type == 1 || payload_type == 2) && lacks_entry(interface, second)) {
        return SHX_IMPOSSIBLE_LINE;
    }
    if (is_high_rate(mode) && second != name_of(&MODE_ROWS[mode])) {
        return SHX_MISNAMED_MODE;
    }
    return 0;
}

static inline uint64_t info_in(const uint16_t *data)
{
    uint64_t info = 0;
    for (size_t i = 16; i > 0; i--) {
        info = info << 4 | (data[i - 1] >> 4 & 15u);
    }
    return info;
}

/* The byte that eight data words carry in b3. */
static inline uint8_t byte_in(const uint16_t *data)
{
    unsigned byte = 0;
    for (size_t i = 8; i > 0; i--) {
        byte = byte << 1 | (data[i - 1] >> 3 & 1u);
    }
    return (uint8_t)byte;
}

static inline uint8_t unpack_payload(uint8_t mode, uint8_t payload_type, uint64_t info, shx_record_t *record)
{
    const struct mode_row *row = &MODE_ROWS[mode];
    return is_high_rate(mode) ? unpack_super(row, info, record) : unpack_picture(row, payload_type != 0, info, record);
}

shx_packet_answer_t plain_atc_read(uint8_t mode, uint8_t interface, const uint16_t *words, size_t length)
{
    shx_contents_t contents;
    shx_packet_answer_t answer = {.code = judge_packet(mode, interface, words, length)};
    if (answer.code != 0) {
        return answer;
    }
    contents.payload_type = byte_in(words + 6);
    contents.second = byte_in(words + 14);
    answer.code = judge_payload(mode, interface, contents.payload_type, contents.second);
    if (answer.code != 0) {
        return answer;
    }
    answer.code = unpack_payload(mode, contents.payload_type, info_in(words + 6), &contents.record);
    if (answer.code == 0) {
        answer.code = SHX_ACCEPTED;
        answer.contents = contents;
    }
    return answer;
}

static inline uint8_t pack_payload(uint8_t mode, const shx_contents_t *contents, uint64_t *info)
{
    const struct mode_row *row = &MODE_ROWS[mode];
    return is_high_rate(mode) ? pack_super(row, &contents->record, info) : pack_picture(row, contents->payload_type != 0, &contents->record, info);
}

static inline uint8_t judge_packet_write(uint8_t mode, uint8_t interface, const shx_contents_t *contents)
{
    if (is_uncounted(mode)) {
        return SHX_UNKNOWN_MODE;
    }
    if (has_flag_above_1(&contents->record) || interface > SHX_HIGH_DEFINITION) {
        return SHX_ELEMENT_TOO_HIGH;
    }
    return judge_payload(mode, interface, contents->payload_type, contents->second);
}

static inline void store_packet(uint8_t mode, uint64_t info, unsigned carried, uint16_t *run)
{
    run[0] = 0x000;
    run[1] = 0x3ff;
    run[2] = 0x3ff;
    run[3] = 0x260;
    run[4] = fifth_word(mode);
    run[5] = 0x110;
    for (size_t k = 0; k < 16; k++) {
        run[6 + k] = data_word(field(info, 4 * (unsigned)k, 4), carried >> k & 1);
    }
    run[22] = checksum(run);
}

uint8_t plain_atc_write(uint8_t mode, uint8_t interface, shx_contents_t contents, size_t start, uint16_t *run, size_t length)
{
    uint64_t info = 0;
    uint8_t code = judge_packet_write(mode, interface, &contents);
    if (code != 0) {
        return code;
    }
    code = pack_payload(mode, &contents, &info);
    if (code != 0) {
        return code;
    }
    if (lacks_room(SHX_ATC_WORDS, start, length)) {
        return SHX_NO_ROOM;
    }
    store_packet(mode, info, contents.payload_type | (unsigned)contents.second << 8, run + start);
    return SHX_DONE;
}

/* ---- A reader of the linear track. */

shx_reader_t plain_fresh(uint8_t mode, uint8_t ways)
{
    shx_reader_t reader = {.mode = mode, .ways = ways};
    return reader;
}

/* How many places at the bottom of the register are zero before the first one. */
static inline unsigned blank_places(const shx_reader_t *reader)
{
    if (reader->info != 0) {
        return (unsigned)__builtin_ctzll(reader->info);
    }
    return 64 + (reader->sync != 0 ? (unsigned)__builtin_ctzll(reader->sync) : 16);
}

static inline bool is_unreached(const shx_reader_t *reader)
{
    return reader->held > 80 || blank_places(reader) < 80u - reader->held;
}

static inline uint8_t judge_reader(const shx_reader_t *reader)
{
    if (is_unknown(reader->mode)) {
        return SHX_UNKNOWN_MODE;
    }
    if (is_unreached(reader)) {
        return SHX_STATE_NOT_REACHED;
    }
    return reader->ways > 1 ? SHX_ELEMENT_TOO_HIGH : 0;
}

/* A new bit enters at the top of `sync`, the oldest leaves at the bottom of `info`. */
static inline void push(shx_reader_t *reader, uint8_t bit)
{
    reader->info = reader->info >> 1 | (uint64_t)(reader->sync & 1) << 63;
    reader->sync = (uint16_t)(reader->sync >> 1 | bit << 15);
    if (reader->held < 80) {
        reader->held++;
    }
}

static inline uint64_t turned(uint64_t number)
{
    uint64_t round = 0;
    for (int places = 64; places > 0; places--) {
        round = round << 1 | (number & 1);
        number >>= 1;
    }
    return round;
}

static inline bool is_turned_synced(const shx_reader_t *reader)
{
    return reader->ways == SHX_BOTH_WAYS && (reader->info & 0xffff) == SYNC_TURNED;
}

static inline bool is_synced(const shx_reader_t *reader)
{
    return reader->sync == SYNC || is_turned_synced(reader);
}

static shx_heard_t heard_as(uint8_t mode, uint64_t info, uint8_t way)
{
    uint8_t found;
    shx_record_t record;
    shx_heard_t heard = {.code = read_info(mode, info, &found, &record)};
    if (heard.code == SHX_ACCEPTED) {
        heard.found = found;
        heard.way = way;
        heard.record = record;
    }
    return heard;
}

/* Forward first: only a word that ends in the forward sync word is complained of, and a bad reversed one is passed over. The reader comes by value,
 * so that the loop of a block need not keep its own in memory. */
static shx_heard_t heard_in(shx_reader_t reader)
{
    const shx_heard_t nothing = {.code = SHX_NOTHING};
    if (reader.held < 80) {
        return nothing;
    }
    if (reader.sync == SYNC) {
        return heard_as(reader.mode, reader.info, SHX_FORWARD);
    }
    uint64_t info = turned(reader.info >> 16 | (uint64_t)reader.sync << 48);
    shx_heard_t backward = heard_as(reader.mode, info, SHX_BACKWARD);
    return backward.code == SHX_ACCEPTED ? backward : nothing;
}

shx_step_answer_t plain_step(shx_reader_t reader, uint8_t element)
{
    shx_step_answer_t answer = {.heard.code = judge_reader(&reader), .reader = reader};
    if (answer.heard.code != 0) {
        return answer;
    }
    if (element > 1) {
        answer.heard.code = SHX_ELEMENT_TOO_HIGH;
        return answer;
    }
    push(&answer.reader, element);
    if (is_synced(&answer.reader)) {
        answer.heard = heard_in(answer.reader);
    }
    return answer;
}

/* The bits of a run up to an end, from a reader that has been found sound. */
static inline shx_block_answer_t feed(shx_reader_t now, size_t end, const uint8_t *run)
{
    shx_heard_t heard = {.code = SHX_NOTHING};
    size_t taken = 0;
    while (taken < end) {
        uint8_t element = run[taken];
        if (element > 1) {
            heard.code = SHX_ELEMENT_TOO_HIGH;
            break;
        }
        push(&now, element);
        taken++;
        if (!is_synced(&now)) {
            continue;
        }
        heard = heard_in(now);
        if (heard.code != SHX_NOTHING) {
            break;
        }
    }
    shx_block_answer_t answer = {.heard = heard, .reader = now, .taken = taken};
    return answer;
}

shx_block_answer_t plain_block(shx_reader_t reader, size_t limit, const uint8_t *run, size_t length)
{
    uint8_t code = judge_reader(&reader);
    if (code != 0) {
        shx_block_answer_t refused = {.heard.code = code, .reader = reader};
        return refused;
    }
    return feed(reader, limit < length ? limit : length, run);
}
