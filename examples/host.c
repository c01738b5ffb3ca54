/* A host of the library, to copy from. `host read [FILE]` tells what a linear track says, line for line as the program readout does; `host write`
 * counts, and writes a word, a line and a packet; `host places` holds the structs, as this compiler lays them out, to the header's last table.
 *   cc -std=c99 -Iinclude examples/host.c target/library/lib/libshonduxihi.a -o host */
#include <fcntl.h>
#include <stdio.h>
#include <string.h>
#include <unistd.h>
#include "shonduxihi.h"

enum { PIECE = 4096, MOST_CHARACTERS = 16777216, MODE = SHX_MODE_30, DROP = 1, START = 10 };

static void print_heard(size_t bits, shx_heard_t heard) {
    shx_record_t r = heard.record;
    if (heard.code != SHX_ACCEPTED) { printf("%zu refused %d\n", bits, heard.code); return; }
    printf("%zu %02d:%02d:%02d%c%02d ", bits, r.hours, r.minutes, r.seconds, r.drop ? ';' : ':', r.frames);
    printf("%X%X%X%X%X%X%X%X\n", r.group1, r.group2, r.group3, r.group4, r.group5, r.group6, r.group7, r.group8);
}

/* Puts bits in the place of the characters that stand for them. After a character that ends the reading, none is left to come. */
static size_t sift(uint8_t *piece, size_t count, size_t *left) {
    size_t bits = 0;
    *left -= count;
    for (size_t i = 0; i < count; i++) {
        if (piece[i] == ' ' || piece[i] == '\n') continue;
        if (piece[i] != '0' && piece[i] != '1') { *left = 0; break; }
        piece[bits++] = (uint8_t)(piece[i] - '0');
    }
    return bits;
}

/* A block ends with an answer, so the rest of the run goes to the reader that came back with it. */
static size_t follow(shx_reader_t *reader, size_t bits, const uint8_t *run, size_t length) {
    size_t at = 0;
    while (at < length) {
        shx_block_answer_t answer = shx_block(*reader, length, run + at, length - at);
        if (answer.taken == 0) break; /* 2, 3 or 13: bits and a fresh reader of mode 2 never meet them, but to ask again would be to ask for ever */
        *reader = answer.reader;
        at += answer.taken;
        if (answer.heard.code != SHX_NOTHING) print_heard(bits + at, answer.heard);
    }
    return bits + at;
}

/* read(2) gives what is there and does not wait for a full piece, so a line comes as soon as its last bit. A read that fails ends the track. */
static int host_read(int input) {
    uint8_t piece[PIECE];
    shx_reader_t reader = shx_fresh(MODE, SHX_FORWARD_ONLY);
    size_t bits = 0, left = MOST_CHARACTERS;
    ssize_t count;
    if (input < 0) { fputs("host: there is no such file, or it may not be read\n", stderr); return 1; }
    while (left > 0 && (count = read(input, piece, left < sizeof piece ? left : sizeof piece)) > 0) {
        bits = follow(&reader, bits, piece, sift(piece, (size_t)count, &left));
        if (fflush(stdout) != 0) return 1;
    }
    printf("end %zu\n", bits);
    return fflush(stdout) != 0;
}

static int tell(int so, const char *what) {
    return printf("%s%s\n", so ? "" : "NOT SO: ", what) < 0 || !so;
}

static int host_write(void) {
    const shx_picture_t picture = {10, 1, 0, 2, 0};
    const shx_record_t made = {10, 1, 0, 2, DROP, 0, 0, 0, 0, 0, 0, 0, 0, 0, 0, 0, 0, 0, 0};
    const shx_contents_t sent = {made, 1, 0};
    uint8_t run[START + SHX_VITC_BITS + START] = {0}, before[sizeof run];
    uint16_t words[START + SHX_ATC_WORDS + START] = {0};
    shx_number_answer_t number = shx_number(MODE, DROP, picture);
    shx_picture_answer_t on = shx_add(MODE, DROP, picture, 1);
    shx_distance_answer_t back = shx_distance(MODE, DROP, on.picture, picture);
    int wrong = tell(number.code == SHX_DONE && number.number == 1080720, "10:01:00;02 is picture 1080720 of the day");
    wrong += tell(on.code == SHX_DONE && on.picture.seconds == 0 && on.picture.frames == 3, "one picture on is 10:01:00;03");
    wrong += tell(back.code == SHX_DONE && back.pictures == -1, "from there back it is -1");

    uint8_t code = shx_ltc_write(MODE, made, SHX_CORRECTED, START, run, sizeof run);
    shx_word_answer_t word = shx_ltc_read(MODE, run + START, SHX_LTC_BITS);
    for (size_t i = START; i < START + SHX_LTC_BITS; i++) putchar('0' + run[i]);
    putchar('\n');
    int same = word.found == SHX_CORRECTED && memcmp(&word.record, &made, sizeof made) == 0;
    wrong += tell(code == SHX_DONE && word.code == SHX_ACCEPTED && same, "word as it was made");

    code = shx_vitc_write(MODE, made, START, run, sizeof run);
    shx_line_answer_t line = shx_vitc_read(MODE, run + START, SHX_VITC_BITS);
    wrong += tell(code == SHX_DONE && line.code == SHX_ACCEPTED && memcmp(&line.record, &made, sizeof made) == 0, "line as it was made");

    code = shx_atc_write(MODE, SHX_HIGH_DEFINITION, sent, START, words, sizeof words / sizeof words[0]);
    shx_packet_answer_t packet = shx_atc_read(MODE, SHX_HIGH_DEFINITION, words + START, SHX_ATC_WORDS);
    wrong += tell(code == SHX_DONE && packet.code == SHX_ACCEPTED && memcmp(&packet.contents, &sent, sizeof sent) == 0, "packet as it was made");

    memcpy(before, run, sizeof run);
    code = shx_ltc_write(MODE, made, SHX_CORRECTED, sizeof run - SHX_LTC_BITS + 1, run, sizeof run);
    return wrong + tell(code == SHX_NO_ROOM && memcmp(before, run, sizeof run) == 0, "without room refused 12, and the run as it was") > 0;
}

#define SIZE(name, size) {"shx_" #name "_t", sizeof(shx_##name##_t), size}
#define AT(name, field, place) {"shx_" #name "_t." #field, offsetof(shx_##name##_t, field), place}
#define ANSWER(name, size, field, place) SIZE(name##_answer, size), AT(name##_answer, code, 0), AT(name##_answer, field, place)
static const struct { const char *name; size_t found, wanted; } places[] = {
    SIZE(picture, 5), AT(picture, hours, 0), AT(picture, minutes, 1), AT(picture, seconds, 2), AT(picture, frames, 3), AT(picture, place, 4),
    SIZE(record, 19), AT(record, hours, 0), AT(record, minutes, 1), AT(record, seconds, 2), AT(record, frames, 3), AT(record, drop, 4),
    AT(record, colour, 5), AT(record, mark, 6), AT(record, bgf0, 7), AT(record, bgf1, 8), AT(record, bgf2, 9), AT(record, group1, 10),
    AT(record, group2, 11), AT(record, group3, 12), AT(record, group4, 13), AT(record, group5, 14), AT(record, group6, 15), AT(record, group7, 16),
    AT(record, group8, 17), AT(record, place, 18), SIZE(contents, 21), AT(contents, record, 0), AT(contents, payload_type, 19),
    AT(contents, second, 20), SIZE(reader, 16), AT(reader, info, 0), AT(reader, sync, 8), AT(reader, mode, 10), AT(reader, ways, 11),
    AT(reader, held, 12), ANSWER(number, 8, number, 4), ANSWER(second, 4, number, 2), ANSWER(picture, 6, picture, 1),
    ANSWER(distance, 8, pictures, 4), ANSWER(word, 21, record, 2), AT(word_answer, found, 1), ANSWER(line, 20, record, 1),
    ANSWER(packet, 22, contents, 1), SIZE(heard, 22), AT(heard, code, 0), AT(heard, found, 1), AT(heard, way, 2), AT(heard, record, 3),
    SIZE(step_answer, 40), AT(step_answer, heard, 0), AT(step_answer, reader, 24), SIZE(block_answer, 48), AT(block_answer, heard, 0),
    AT(block_answer, reader, 24), AT(block_answer, taken, 40)};

static int host_places(void) {
    size_t count = sizeof places / sizeof places[0], wrong = 0;
    for (size_t i = 0; i < count; i++) {
        if (places[i].found == places[i].wanted) continue;
        printf("%s is %zu and must be %zu\n", places[i].name, places[i].found, places[i].wanted);
        wrong++;
    }
    if (wrong == 0) printf("%zu places as they must be\n", count);
    return wrong > 0;
}

int main(int count, char **arguments) {
    const char *what = count > 1 ? arguments[1] : "";
    if (count < 4 && strcmp(what, "read") == 0) return host_read(count < 3 ? STDIN_FILENO : open(arguments[2], O_RDONLY));
    if (count == 2 && strcmp(what, "write") == 0) return host_write();
    if (count == 2 && strcmp(what, "places") == 0) return host_places();
    fputs("usage: host read [FILE], or host write, or host places\n", stderr);
    return 2;
}
