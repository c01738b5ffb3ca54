/* spoil COUNT SEED: a linear track of so many words of random addresses, flags and groups, end to end, a line each, as characters 0 and 1. Half of
 * the words are as shx_ltc_write made them; the others have a bit turned, left out or doubled, or noise for their information or behind them. */
#include "shonduxihi.h"

#include <stdio.h>
#include <stdlib.h>
#include <string.h>

enum { INFORMATION_BITS = 64, ROOM = 2 * SHX_LTC_BITS };

typedef struct {
    uint8_t bits[ROOM];
    size_t length;
} piece_t;

static uint64_t chance;

static unsigned below(unsigned count) {
    chance ^= chance << 13;
    chance ^= chance >> 7;
    chance ^= chance << 17;
    return (unsigned)((chance >> 16) % count);
}

/* Addresses that are skipped are drawn too: shx_ltc_write turns them away, and another record is drawn. */
static shx_record_t drawn_record(void) {
    static const uint8_t limits[sizeof(shx_record_t)] = {24, 60, 60, 30, 2, 2, 1, 2, 2, 2, 16, 16, 16, 16, 16, 16, 16, 16, 1};
    uint8_t fields[sizeof(shx_record_t)];
    shx_record_t record;
    size_t i;
    for (i = 0; i < sizeof fields; i++) fields[i] = (uint8_t)below(limits[i]);
    memcpy(&record, fields, sizeof record);
    return record;
}

static void write_word(piece_t *piece) {
    uint8_t make = below(2) == 0 ? SHX_CORRECTED : SHX_UNCORRECTED;
    piece->length = SHX_LTC_BITS;
    while (shx_ltc_write(SHX_MODE_30, drawn_record(), make, 0, piece->bits, piece->length) != SHX_DONE) continue;
}

static void put_noise(piece_t *piece, size_t from, size_t to) {
    for (; from < to; from++) piece->bits[from] = (uint8_t)below(2);
}

static void turn(piece_t *piece) {
    piece->bits[below(SHX_LTC_BITS)] ^= 1;
}

static void leave_out(piece_t *piece) {
    size_t at = below(SHX_LTC_BITS);
    piece->length--;
    memmove(piece->bits + at, piece->bits + at + 1, piece->length - at);
}

static void repeat(piece_t *piece) {
    size_t at = below(SHX_LTC_BITS);
    memmove(piece->bits + at + 1, piece->bits + at, piece->length - at);
    piece->length++;
}

/* With its sync word the piece is still judged, and by whatever its information happens to be. */
static void garble(piece_t *piece) {
    put_noise(piece, below(INFORMATION_BITS), INFORMATION_BITS);
}

static void lengthen(piece_t *piece) {
    piece->length += 1 + below(ROOM - SHX_LTC_BITS);
    put_noise(piece, SHX_LTC_BITS, piece->length);
}

static void (*const damages[])(piece_t *) = {turn, leave_out, repeat, garble, lengthen};

static void print_piece(const piece_t *piece) {
    char line[ROOM + 1];
    size_t i;
    for (i = 0; i < piece->length; i++) line[i] = (char)('0' + piece->bits[i]);
    line[i++] = '\n';
    fwrite(line, 1, i, stdout);
}

int main(int count, char **words) {
    unsigned long left = count > 1 ? strtoul(words[1], NULL, 10) : 1000;
    piece_t piece;
    chance = 88172645463325252u + (count > 2 ? strtoull(words[2], NULL, 10) : 0);
    for (; left > 0; left--) {
        write_word(&piece);
        if (below(2) == 0) damages[below(sizeof damages / sizeof *damages)](&piece);
        print_piece(&piece);
    }
    return fflush(stdout) != 0;
}
