/* Shonduxihi: SMPTE time code for hosts in C and C++. Link libshonduxihi.a; nothing else is needed.
 *
 * Every call answers for whatever numbers it is given: it ends, and what is bad is turned away with a number of the table below. What it answers is proved, in crates/host, of the
 * source that the archive is built from. Nothing is allocated, nothing is kept between calls, no call waits: from two threads at once they do not meet, unless a run is lent to both.
 *
 * What no proof can ask of C, so that a caller has to see to it:
 *   - a length is true: a run that is lent with length n has n elements that may be read, and by a write written, and stands where elements of its type may stand;
 *   - a run that is lent to a write overlaps nothing else that is in use while the call runs;
 *   - a null pointer is lent only with length 0;
 *   - the machine is an x86-64 with its C convention (System V), and structs are laid out by it: the sizes and places at the end of this file.
 *
 * Bits stand one to an element, 0 or 1, in the order in which they run, bit 0 of a word or a line first; the words of a packet ten bits to an element, from the first of its opening words
 * (000 hex) to its checksum. Flags are bytes, 0 for no and 1 for yes. Compare structs field by field and not byte by byte: what stands in the gaps of those that have gaps is not
 * determined. */
#ifndef SHONDUXIHI_H
#define SHONDUXIHI_H

#include <stddef.h>
#include <stdint.h>

#ifdef __cplusplus
extern "C" {
#endif

/* ---- Codes. Each answer has one: these three, or the number of a refusal. On a refusal, and where nothing was heard, all that stands beside the code in its own struct is 0; what
 * becomes of a reader, and of `taken`, is said at shx_step and shx_block. */

#define SHX_DONE 0       /* counted, or written */
#define SHX_NOTHING 0    /* of a reader: no word has ended here */
#define SHX_ACCEPTED 100 /* a word, a line or a packet was accepted, and its record stands beside the code */

/* ---- Numbers for what is turned away. Where several apply, the lowest is given, except that 13 comes straight after 2, and 19 and 23 straight after 7. */

#define SHX_WRONG_LENGTH 1         /* read: not exactly 80, 90 or 23 elements */
#define SHX_UNKNOWN_MODE 2         /* mode above 10; for linear words, interval lines and readers above 5 */
#define SHX_ELEMENT_TOO_HIGH 3     /* read or fed: element above 1 (bits) or above 1,023 (words); a flag above 1, or an interface, make or ways that is none of those below */
#define SHX_WRONG_SYNC 4           /* sync word, a sync pair, or one of the first six packet words is wrong */
#define SHX_WRONG_CHECK 5          /* odd zeros with the polarity bit 1 (LTC), CRC, b8 or b9 of a data word, packet checksum word */
#define SHX_LOW_BITS_SET 6         /* b0 to b2 of a data word not zero */
#define SHX_UNKNOWN_TYPE 7         /* payload type above 2; in modes 6 to 10, other than 80 to 8F hex */
#define SHX_OUTSIDE_THE_CLOCK 8    /* digit above 9, or hour, minute, second, frame outside the clock; a group above 15; in modes 3 to 10, a place not below the pictures to an address */
#define SHX_SKIPPED_ADDRESS 9      /* mode 2, 5 or 10, drop set, one of the skipped addresses */
#define SHX_UNUSED_BIT_SET 10      /* unused bit set (in a record: colour in modes 0 and 3), or drop asked for where nothing is dropped; in modes 0 to 2, a place other than 0; in
                                      modes 6 to 10, a sub-frame bit that the mode does not use and, in a record, a flag besides drop */
#define SHX_MARK_SET 11            /* LTC write with mark 1; in modes 3 to 5, a line or a packet of type 1 or 2 whose mark and place differ, and a second picture for LTC or type 0 */
#define SHX_NO_ROOM 12             /* write: fewer than 80, 90 or 23 elements from the start given, or start past the end */
#define SHX_STATE_NOT_REACHED 13   /* reader state that no feeding reaches */
#define SHX_NUMBER_PAST_THE_DAY 14 /* number not below the day's count */
#define SHX_IMPOSSIBLE_LINE 19     /* types 1 and 2 on interfaces of 525 or 625 lines: a second byte whose low six bits have no entry in Table 4 of ST 12-2 */
#define SHX_MISNAMED_MODE 23       /* in modes 6 to 10, a second byte that does not name the mode */

/* ---- Modes: the rate of addresses, and how many pictures share one. Drop-frame is a flag beside the mode, in modes 2, 5 and 10. */

#define SHX_MODE_24 0
#define SHX_MODE_25 1
#define SHX_MODE_30 2
#define SHX_MODE_48 3        /* 24 x 2 */
#define SHX_MODE_50 4        /* 25 x 2 */
#define SHX_MODE_60 5        /* 30 x 2; with drop 59.94 */
#define SHX_MODE_72 6        /* 24 x 3, and from here on for counting and packets only */
#define SHX_MODE_96 7        /* 24 x 4 */
#define SHX_MODE_100 8       /* 25 x 4 */
#define SHX_MODE_120_24X5 9
#define SHX_MODE_120_30X4 10 /* with drop 120 drop */

/* ---- Other numbers that a call takes or gives. */

#define SHX_CORRECTED 0       /* found in a linear word, or to be made: its polarity is corrected */
#define SHX_UNCORRECTED 1     /* or is not */
#define SHX_FORWARD_ONLY 0    /* the ways of a reader: it hears words that run forward */
#define SHX_BOTH_WAYS 1       /* or those that run backward as well */
#define SHX_FORWARD 0         /* the way that a word ran */
#define SHX_BACKWARD 1
#define SHX_LINES_525 0       /* the interface that a packet travels on */
#define SHX_LINES_625 1
#define SHX_HIGH_DEFINITION 2
#define SHX_SECOND_72 0x03    /* the second byte of a packet in modes 6 to 10, which names the mode */
#define SHX_SECOND_96 0x04
#define SHX_SECOND_100 0x24
#define SHX_SECOND_24X5 0x05
#define SHX_SECOND_30X4 0x44
#define SHX_LTC_BITS 80       /* elements of a linear word, an interval line and a packet */
#define SHX_VITC_BITS 90
#define SHX_ATC_WORDS 23

/* ---- What is handed over and given back. */

/* An address, and its place among the pictures that share it, 0 the first. */
typedef struct shx_picture_t {
    uint8_t hours, minutes, seconds, frames;
    uint8_t place;
} shx_picture_t;

/* What a word, a line or a packet carries: a picture, six flags and the binary groups 1 to 8. `mark` is the field mark: in modes 3 to 5, on a line and in a packet of type 1 or 2, it has to be
 * the place. */
typedef struct shx_record_t {
    uint8_t hours, minutes, seconds, frames;
    uint8_t drop, colour, mark, bgf0, bgf1, bgf2;
    uint8_t group1, group2, group3, group4, group5, group6, group7, group8;
    uint8_t place;
} shx_record_t;

/* What a packet carries: the record, the payload type and the second byte. The type is 0 (LTC), 1 or 2 (VITC) in modes 0 to 5, and 80 to 8F hex in modes 6 to 10. The second byte has the line
 * for types 1 and 2 on 525 and 625 lines, and is one of SHX_SECOND_.. in modes 6 to 10. */
typedef struct shx_contents_t {
    shx_record_t record;
    uint8_t payload_type, second;
} shx_contents_t;

/* A reader: its last 80 bits, its mode, the ways in which it hears, and how many bits it holds. Made by shx_fresh, and kept by the host between calls. `info` has the older 64 of
 * the 80 places, the oldest in its lowest bit, and `sync` the newer 16, the newest in its highest; while fewer than 80 are held, the places below them are 0. */
typedef struct shx_reader_t {
    uint64_t info;
    uint16_t sync;
    uint8_t mode, ways, held;
} shx_reader_t;

/* The number of a picture of the day. */
typedef struct shx_number_answer_t {
    uint8_t code;
    uint32_t number;
} shx_number_answer_t;

/* The number of a picture within its second: a struct of its own, so that the two are not mixed by accident. */
typedef struct shx_second_answer_t {
    uint8_t code;
    uint16_t number;
} shx_second_answer_t;

typedef struct shx_picture_answer_t {
    uint8_t code;
    shx_picture_t picture;
} shx_picture_answer_t;

typedef struct shx_distance_answer_t {
    uint8_t code;
    int32_t pictures;
} shx_distance_answer_t;

/* What a linear word holds, and what was found: SHX_CORRECTED or SHX_UNCORRECTED. */
typedef struct shx_word_answer_t {
    uint8_t code, found;
    shx_record_t record;
} shx_word_answer_t;

typedef struct shx_line_answer_t {
    uint8_t code;
    shx_record_t record;
} shx_line_answer_t;

typedef struct shx_packet_answer_t {
    uint8_t code;
    shx_contents_t contents;
} shx_packet_answer_t;

/* What a reader answers: nothing, the record that it accepted with what was found and the way, or a refusal. */
typedef struct shx_heard_t {
    uint8_t code, found, way;
    shx_record_t record;
} shx_heard_t;

typedef struct shx_step_answer_t {
    shx_heard_t heard;
    shx_reader_t reader;
} shx_step_answer_t;

typedef struct shx_block_answer_t {
    shx_heard_t heard;
    shx_reader_t reader;
    size_t taken;
} shx_block_answer_t;

/* ---- Counting, in modes 0 to 10. */

/* The number of a picture of the day: 0 at midnight, and one more with each picture. */
shx_number_answer_t shx_number(uint8_t mode, uint8_t drop, shx_picture_t picture);

/* The number of a picture within its second: at 60 up to 59. */
shx_second_answer_t shx_number_in_second(uint8_t mode, uint8_t drop, shx_picture_t picture);

/* The picture of a number of the day. */
shx_picture_answer_t shx_picture(uint8_t mode, uint8_t drop, uint32_t number);

/* The signed count of pictures from one to another, from minus half a day up to, and not including, plus half a day. */
shx_distance_answer_t shx_distance(uint8_t mode, uint8_t drop, shx_picture_t from, shx_picture_t to);

/* The picture so many on, or back where it is negative, round midnight either way. */
shx_picture_answer_t shx_add(uint8_t mode, uint8_t drop, shx_picture_t picture, int32_t pictures);

/* ---- Linear words (LTC), 80 bits, and vertical interval lines (VITC), 90 bits, in modes 0 to 5. A write fills its own elements from the start given, and touches no other; one
 * that is turned away changes none. */

/* The record that a linear word holds, with mark 0, and whether its polarity was found corrected. */
shx_word_answer_t shx_ltc_read(uint8_t mode, const uint8_t *word, size_t length);

/* A linear word into the middle of a run, corrected or not as `make` says; the code is the answer. */
uint8_t shx_ltc_write(uint8_t mode, shx_record_t record, uint8_t make, size_t start, uint8_t *run, size_t length);

/* The record that a line holds, of the picture that its mark shows. */
shx_line_answer_t shx_vitc_read(uint8_t mode, const uint8_t *line, size_t length);

/* A line into the middle of a run; the code is the answer. */
uint8_t shx_vitc_write(uint8_t mode, shx_record_t record, size_t start, uint8_t *run, size_t length);

/* ---- Ancillary packets (ATC), 23 words of ten bits, in modes 0 to 10. A write fills and leaves elements as those above do. */

/* What a packet on this interface carries. */
shx_packet_answer_t shx_atc_read(uint8_t mode, uint8_t interface, const uint16_t *words, size_t length);

/* A packet into the middle of a run; the code is the answer. */
uint8_t shx_atc_write(uint8_t mode, uint8_t interface, shx_contents_t contents, size_t start, uint16_t *run, size_t length);

/* ---- A reader of the linear track, in modes 0 to 5: feed it bits, and put `reader` of each answer in the place of the one that was fed. */

/* A reader that has had no bit. Its mode and ways are judged when it is fed. */
shx_reader_t shx_fresh(uint8_t mode, uint8_t ways);

/* One bit: nothing, or the record or the refusal of the 80 bits that end with it. Refused with 2, 3 or 13 the reader comes back as it was; another number is of the word, and its last
 * bit has been taken. */
shx_step_answer_t shx_step(shx_reader_t reader, uint8_t element);

/* Bits of a run up to the first answer, the limit (at most so many are taken), an element that is no bit, or the end; `taken` is how many of them it took, and the host goes on behind
 * them. Before an element that is no bit, with limit left, it answers 3: the bits before it have been taken and it has not, so that the host has to pass it. A reader that is turned away
 * itself (2, 13, or 3 for its ways) comes back as it was, with `taken` 0, even at limit 0 or with an empty run. */
shx_block_answer_t shx_block(shx_reader_t reader, size_t limit, const uint8_t *run, size_t length);

/* ---- Sizes and places, in bytes, as they must be for the library. Nothing proves a header: examples/host.c compares a copy of this table with what the compiler makes of the structs above.
 *
 *   struct                  size   places
 *   shx_picture_t              5   hours 0, minutes 1, seconds 2, frames 3, place 4
 *   shx_record_t              19   hours 0, minutes 1, seconds 2, frames 3, drop 4, colour 5, mark 6, bgf0 7, bgf1 8, bgf2 9, group1 10 to group8 17, place 18
 *   shx_contents_t            21   record 0, payload_type 19, second 20
 *   shx_reader_t              16   info 0, sync 8, mode 10, ways 11, held 12
 *   shx_number_answer_t        8   code 0, number 4
 *   shx_second_answer_t        4   code 0, number 2
 *   shx_picture_answer_t       6   code 0, picture 1
 *   shx_distance_answer_t      8   code 0, pictures 4
 *   shx_word_answer_t         21   code 0, found 1, record 2
 *   shx_line_answer_t         20   code 0, record 1
 *   shx_packet_answer_t       22   code 0, contents 1
 *   shx_heard_t               22   code 0, found 1, way 2, record 3
 *   shx_step_answer_t         40   heard 0, reader 24
 *   shx_block_answer_t        48   heard 0, reader 24, taken 40 */

#ifdef __cplusplus
}
#endif

#endif
