/* The rehearsal of docs/REHEARSAL.md over the calls that the library exports: a request a line comes in, its answer a line goes out, as with the
 * program `rehearsal`. So what a host links is held to the answers that were worked out for that program. What is quoted is docs/REHEARSAL.md. */
#include "shonduxihi.h"

#include <inttypes.h>
#include <stdio.h>
#include <string.h>

enum { LONGEST_LINE = 2000, MOST_NUMBERS = 25, LONGEST_WRITE = 400, REGISTER_BITS = 80 };

/* ---- A line, taken apart. */

/* What is left of a line: `more` while another field has to follow, `sound` while each field was what it must be. */
typedef struct {
    const char *at, *end;
    int more, sound;
} rest_t;

typedef struct {
    const char *start;
    size_t length;
} text_t;

/* The fields of a request: its numbers in their order, the elements of its run, and the reader that HELD describes. */
typedef struct {
    uint64_t numbers[MOST_NUMBERS];
    uint8_t bits[LONGEST_LINE];
    uint16_t words[LONGEST_LINE];
    size_t length;
    shx_reader_t reader;
} asked_t;

/* "Single spaces divide the fields": behind a space a field has to come, if only an empty one, which no form takes. */
static text_t take_field(rest_t *rest)
{
    text_t field = {rest->at, 0};
    if (!rest->more) {
        rest->sound = 0;
        return field;
    }
    while (rest->at < rest->end && *rest->at != ' ')
        rest->at++;
    field.length = (size_t)(rest->at - field.start);
    rest->more = rest->at < rest->end;
    rest->at += rest->more;
    return field;
}

static int is_same(text_t text, const char *word)
{
    return text.length == strlen(word) && memcmp(text.start, word, text.length) == 0;
}

/* The text behind its first character. */
static text_t behind_first(text_t text)
{
    text.start++;
    text.length--;
    return text;
}

static unsigned digit_of(char character)
{
    if ('0' <= character && character <= '9')
        return (unsigned)(character - '0');
    if ('A' <= character && character <= 'F')
        return (unsigned)(character - 'A') + 10;
    return 16;
}

static int number_in(text_t text, unsigned base, uint64_t most, uint64_t *number)
{
    size_t i;
    *number = 0;
    for (i = 0; i < text.length; i++) {
        unsigned digit = digit_of(text.start[i]);
        if (digit >= base || digit > most || *number > (most - digit) / base)
            return 0;
        *number = base * *number + digit;
    }
    return text.length > 0;
}

/* "COUNT is any signed 32-bit number", kept in the 64 bits of its two's complement. */
static int count_in(text_t text, uint64_t *number)
{
    int sound;
    if (text.length == 0 || text.start[0] != '-')
        return number_in(text, 10, INT32_MAX, number);
    sound = number_in(behind_first(text), 10, (uint64_t)INT32_MAX + 1, number);
    *number = 0 - *number;
    return sound;
}

static int bits_in(text_t text, size_t most, uint8_t *bits, size_t *length)
{
    size_t i;
    *length = is_same(text, "-") ? 0 : text.length;
    if (text.length == 0 || *length > most)
        return 0;
    for (i = 0; i < *length; i++) {
        unsigned digit = digit_of(text.start[i]);
        if (digit > 9)
            return 0;
        bits[i] = (uint8_t)digit;
    }
    return 1;
}

static size_t length_before(text_t text, char divider)
{
    size_t i = 0;
    while (i < text.length && text.start[i] != divider)
        i++;
    return i;
}

static int words_in(text_t text, uint16_t *words, size_t *length)
{
    uint64_t word;
    text_t part = text;
    *length = 0;
    if (is_same(text, "-"))
        return 1;
    for (;;) {
        part.length = length_before(text, ',');
        if (part.length < 3 || !number_in(part, 16, UINT16_MAX, &word))
            return 0;
        words[(*length)++] = (uint16_t)word;
        if (part.length == text.length)
            return 1;
        part.start += part.length + 1;
        text.length -= part.length + 1;
        text.start = part.start;
    }
}

/* HELD: the bits are fed in mode 2 and forward only, since the mode of the request may be one that takes none. */
static int reader_in(text_t text, shx_reader_t *reader)
{
    static const text_t unreached = {"-!81", 4};
    uint8_t bits[REGISTER_BITS];
    shx_block_answer_t fed;
    uint64_t claimed;
    size_t length;
    text_t head = is_same(text, "!") ? unreached : text;
    text_t tail = head;
    head.length = length_before(head, '!');
    if (!bits_in(head, REGISTER_BITS, bits, &length))
        return 0;
    fed = shx_block(shx_fresh(SHX_MODE_30, SHX_FORWARD_ONLY), REGISTER_BITS, bits, length);
    *reader = fed.reader;
    if (head.length == tail.length)
        return fed.taken == length;
    tail.start += head.length;
    tail.length -= head.length;
    if (!number_in(behind_first(tail), 10, UINT8_MAX, &claimed))
        return 0;
    reader->held = (uint8_t)claimed;
    return fed.taken == length;
}

/* The highest number that a field may hold, by its letter in a form: a flag, an interface, a byte, LENGTH, N, or START and LIMIT. */
static uint64_t highest(char letter)
{
    switch (letter) {
    case 'f': return 1;
    case 'i': return 2;
    case 'b': return UINT8_MAX;
    case 'l': return LONGEST_WRITE;
    case 'n': return UINT32_MAX;
    default: return UINT64_MAX;
    }
}

/* A field of the form's letter: B for BITS, W for WORDS, H for HELD, c for COUNT, and else a number. */
static int field_in(char letter, text_t field, asked_t *asked, size_t *numbers)
{
    switch (letter) {
    case 'B': return bits_in(field, LONGEST_LINE, asked->bits, &asked->length);
    case 'W': return words_in(field, asked->words, &asked->length);
    case 'H': return reader_in(field, &asked->reader);
    case 'c': return count_in(field, &asked->numbers[(*numbers)++]);
    default: return number_in(field, 10, highest(letter), &asked->numbers[(*numbers)++]);
    }
}

static int take_form(const char *form, rest_t *rest, asked_t *asked)
{
    size_t numbers = 0;
    for (; *form != 0 && rest->sound; form++) {
        text_t field = take_field(rest);
        rest->sound = rest->sound && field_in(*form, field, asked, &numbers);
    }
    return rest->sound && !rest->more;
}

/* ---- What a request hands over. */

static uint8_t byte_of(uint64_t number)
{
    return (uint8_t)number;
}

static shx_picture_t picture_of(const uint64_t *n)
{
    shx_picture_t picture = {byte_of(n[0]), byte_of(n[1]), byte_of(n[2]), byte_of(n[3]), byte_of(n[4])};
    return picture;
}

static shx_record_t record_of(const uint64_t *n)
{
    shx_record_t record;
    record.hours = byte_of(n[0]), record.minutes = byte_of(n[1]), record.seconds = byte_of(n[2]), record.frames = byte_of(n[3]);
    record.drop = byte_of(n[4]), record.colour = byte_of(n[5]), record.mark = byte_of(n[6]);
    record.bgf0 = byte_of(n[7]), record.bgf1 = byte_of(n[8]), record.bgf2 = byte_of(n[9]);
    record.group1 = byte_of(n[10]), record.group2 = byte_of(n[11]), record.group3 = byte_of(n[12]), record.group4 = byte_of(n[13]);
    record.group5 = byte_of(n[14]), record.group6 = byte_of(n[15]), record.group7 = byte_of(n[16]), record.group8 = byte_of(n[17]);
    record.place = byte_of(n[18]);
    return record;
}

static int32_t count_of(uint64_t number)
{
    return number > INT32_MAX ? -(int32_t)(0 - number - 1) - 1 : (int32_t)number;
}

static shx_reader_t reader_of(const asked_t *asked)
{
    shx_reader_t reader = asked->reader;
    reader.mode = byte_of(asked->numbers[0]);
    reader.ways = byte_of(asked->numbers[1]);
    return reader;
}

/* ---- Answers in words. */

static void put_refused(unsigned code)
{
    printf("refused %u", code);
}

static void put_number(uint8_t code, uint32_t number)
{
    if (code == SHX_DONE)
        printf("number %" PRIu32, number);
    else
        put_refused(code);
}

static void put_picture(shx_picture_answer_t answer)
{
    shx_picture_t p = answer.picture;
    if (answer.code == SHX_DONE)
        printf("address %u %u %u %u %u", p.hours, p.minutes, p.seconds, p.frames, p.place);
    else
        put_refused(answer.code);
}

static void put_record(shx_record_t r)
{
    printf("record %u %u %u %u %u %u %u %u %u %u", r.hours, r.minutes, r.seconds, r.frames, r.drop, r.colour, r.mark, r.bgf0, r.bgf1, r.bgf2);
    printf(" %u %u %u %u %u %u %u %u %u", r.group1, r.group2, r.group3, r.group4, r.group5, r.group6, r.group7, r.group8, r.place);
}

static void put_bits(const uint8_t *bits, size_t length)
{
    size_t i;
    printf(length > 0 ? " " : " -");
    for (i = 0; i < length; i++)
        putchar('0' + bits[i] % 10);
}

static void put_words(const uint16_t *words, size_t length)
{
    size_t i;
    if (length == 0)
        printf(" -");
    for (i = 0; i < length; i++)
        printf("%c%03X", i > 0 ? ',' : ' ', words[i]);
}

static void put_written(uint8_t code)
{
    if (code == SHX_DONE)
        printf("wrote");
    else
        put_refused(code);
}

/* The register from its oldest place, which is the lowest of `info`, to its newest, the highest of `sync`. */
static void places_of(shx_reader_t reader, uint8_t *places)
{
    size_t i;
    for (i = 0; i < 64; i++)
        places[i] = reader.info >> i & 1;
    for (i = 64; i < REGISTER_BITS; i++)
        places[i] = reader.sync >> (i - 64) & 1;
}

/* "`BITS!N` where a one stands below the held bits, BITS from the lowest one on". */
static void put_held(shx_reader_t reader)
{
    uint8_t places[REGISTER_BITS];
    size_t lowest_one = 0, first_held;
    if (reader.held > REGISTER_BITS) {
        printf(" !");
        return;
    }
    places_of(reader, places);
    first_held = (size_t)REGISTER_BITS - reader.held;
    while (lowest_one < first_held && places[lowest_one] == 0)
        lowest_one++;
    put_bits(places + lowest_one, REGISTER_BITS - lowest_one);
    if (lowest_one < first_held)
        printf("!%u", reader.held);
}

static void put_heard(shx_heard_t heard, shx_reader_t reader)
{
    if (heard.code == SHX_ACCEPTED) {
        put_record(heard.record);
        printf(" %u %u", heard.found, heard.way);
    } else if (heard.code == SHX_NOTHING) {
        printf("nothing");
    } else {
        put_refused(heard.code);
    }
    put_held(reader);
}

/* ---- The calls. */

static void answer_number(asked_t *asked)
{
    const uint64_t *n = asked->numbers;
    shx_number_answer_t answer = shx_number(byte_of(n[0]), byte_of(n[1]), picture_of(n + 2));
    put_number(answer.code, answer.number);
}

static void answer_in_second(asked_t *asked)
{
    const uint64_t *n = asked->numbers;
    shx_second_answer_t answer = shx_number_in_second(byte_of(n[0]), byte_of(n[1]), picture_of(n + 2));
    put_number(answer.code, answer.number);
}

static void answer_address(asked_t *asked)
{
    const uint64_t *n = asked->numbers;
    put_picture(shx_picture(byte_of(n[0]), byte_of(n[1]), (uint32_t)n[2]));
}

static void answer_distance(asked_t *asked)
{
    const uint64_t *n = asked->numbers;
    shx_distance_answer_t answer = shx_distance(byte_of(n[0]), byte_of(n[1]), picture_of(n + 2), picture_of(n + 7));
    if (answer.code == SHX_DONE)
        printf("distance %" PRId32, answer.pictures);
    else
        put_refused(answer.code);
}

static void answer_add(asked_t *asked)
{
    const uint64_t *n = asked->numbers;
    put_picture(shx_add(byte_of(n[0]), byte_of(n[1]), picture_of(n + 2), count_of(n[7])));
}

static void answer_ltc_read(asked_t *asked)
{
    shx_word_answer_t answer = shx_ltc_read(byte_of(asked->numbers[0]), asked->bits, asked->length);
    if (answer.code != SHX_ACCEPTED) {
        put_refused(answer.code);
        return;
    }
    put_record(answer.record);
    printf(" %u", answer.found);
}

static void answer_vitc_read(asked_t *asked)
{
    shx_line_answer_t answer = shx_vitc_read(byte_of(asked->numbers[0]), asked->bits, asked->length);
    if (answer.code == SHX_ACCEPTED)
        put_record(answer.record);
    else
        put_refused(answer.code);
}

static void answer_atc_read(asked_t *asked)
{
    const uint64_t *n = asked->numbers;
    shx_packet_answer_t answer = shx_atc_read(byte_of(n[0]), byte_of(n[1]), asked->words, asked->length);
    if (answer.code != SHX_ACCEPTED) {
        put_refused(answer.code);
        return;
    }
    put_record(answer.contents.record);
    printf(" %u %u", answer.contents.payload_type, answer.contents.second);
}

static void answer_ltc_write(asked_t *asked)
{
    const uint64_t *n = asked->numbers;
    size_t length = (size_t)n[2];
    memset(asked->bits, 7, length);
    put_written(shx_ltc_write(byte_of(n[0]), record_of(n + 3), byte_of(n[22]), (size_t)n[1], asked->bits, length));
    put_bits(asked->bits, length);
}

static void answer_vitc_write(asked_t *asked)
{
    const uint64_t *n = asked->numbers;
    size_t length = (size_t)n[2];
    memset(asked->bits, 7, length);
    put_written(shx_vitc_write(byte_of(n[0]), record_of(n + 3), (size_t)n[1], asked->bits, length));
    put_bits(asked->bits, length);
}

static void answer_atc_write(asked_t *asked)
{
    const uint64_t *n = asked->numbers;
    size_t length = (size_t)n[3], i;
    shx_contents_t contents;
    for (i = 0; i < length; i++)
        asked->words[i] = 0x777;
    contents.record = record_of(n + 4);
    contents.payload_type = byte_of(n[23]);
    contents.second = byte_of(n[24]);
    put_written(shx_atc_write(byte_of(n[0]), byte_of(n[1]), contents, (size_t)n[2], asked->words, length));
    put_words(asked->words, length);
}

static void answer_step(asked_t *asked)
{
    shx_step_answer_t answer = shx_step(reader_of(asked), byte_of(asked->numbers[2]));
    put_heard(answer.heard, answer.reader);
}

static void answer_block(asked_t *asked)
{
    shx_block_answer_t answer = shx_block(reader_of(asked), (size_t)asked->numbers[2], asked->bits, asked->length);
    put_heard(answer.heard, answer.reader);
    printf(" %" PRIu64, (uint64_t)answer.taken);
}

/* ---- Which request a line is. */

#define RECORD "bbbbffffffbbbbbbbbb"

/* A request without a call is one of `rehearsal` that the library does not export. */
static const struct {
    const char *name, *form;
    void (*answer)(asked_t *asked);
} requests[] = {
    {"number", "bfbbbbb", answer_number},
    {"in-second", "bfbbbbb", answer_in_second},
    {"address", "bfn", answer_address},
    {"distance", "bfbbbbbbbbbb", answer_distance},
    {"add", "bfbbbbbc", answer_add},
    {"ltc-read", "bB", answer_ltc_read},
    {"vitc-read", "bB", answer_vitc_read},
    {"atc-read", "biW", answer_atc_read},
    {"ltc-write", "bsl" RECORD "f", answer_ltc_write},
    {"vitc-write", "bsl" RECORD, answer_vitc_write},
    {"atc-write", "bisl" RECORD "bb", answer_atc_write},
    {"step", "bfHb", answer_step},
    {"block", "bfHsB", answer_block},
    {"fields", "", NULL},
    {"kind-number", "", NULL},
    {"kind-fields", "", NULL},
    {"pair-number", "", NULL},
    {"pair-fields", "", NULL},
    {"high-number", "", NULL},
    {"high-fields", "", NULL},
};

static void answer_line(const char *line, size_t length)
{
    static asked_t asked;
    rest_t rest = {line, line + length, 1, 1};
    text_t name = take_field(&rest);
    size_t i = 0;
    while (i < sizeof requests / sizeof *requests && !is_same(name, requests[i].name))
        i++;
    if (i < sizeof requests / sizeof *requests && requests[i].answer == NULL)
        printf("not exported");
    else if (i < sizeof requests / sizeof *requests && take_form(requests[i].form, &rest, &asked))
        requests[i].answer(&asked);
    else
        printf("unknown");
    putchar('\n');
}

/* A line that is longer than a request can be is no request, whatever its first characters are. */
static void answer_kept(const char *line, size_t came)
{
    if (came > LONGEST_LINE)
        puts("unknown");
    else
        answer_line(line, came);
    fflush(stdout);
}

int main(void)
{
    static char line[LONGEST_LINE];
    size_t came = 0;
    int character;
    while ((character = getchar()) != EOF) {
        if (character == '\n') {
            answer_kept(line, came);
            came = 0;
            continue;
        }
        if (came < LONGEST_LINE)
            line[came] = (char)character;
        came += came <= LONGEST_LINE;
    }
    if (came > 0)
        answer_kept(line, came);
    return ferror(stdin) || ferror(stdout);
}
