/* The calls of shonduxihi.h once more, in plain C: what the benchmark sets the library against, and a second opinion for tests.
 * Nothing of this is proved.
 *
 * Each call takes what the call of the same name takes, and gives the same answer for every input, refusals and their order too. */
#ifndef SHONDUXIHI_PLAIN_H
#define SHONDUXIHI_PLAIN_H

#include "shonduxihi.h"

#ifdef __cplusplus
extern "C" {
#endif

shx_number_answer_t plain_number(uint8_t mode, uint8_t drop, shx_picture_t picture);

shx_second_answer_t plain_number_in_second(uint8_t mode, uint8_t drop, shx_picture_t picture);

shx_picture_answer_t plain_picture(uint8_t mode, uint8_t drop, uint32_t number);

shx_distance_answer_t plain_distance(uint8_t mode, uint8_t drop, shx_picture_t from, shx_picture_t to);

shx_picture_answer_t plain_add(uint8_t mode, uint8_t drop, shx_picture_t picture, int32_t pictures);

shx_word_answer_t plain_ltc_read(uint8_t mode, const uint8_t *word, size_t length);

uint8_t plain_ltc_write(uint8_t mode, shx_record_t record, uint8_t make, size_t start, uint8_t *run, size_t length);

shx_line_answer_t plain_vitc_read(uint8_t mode, const uint8_t *line, size_t length);

/* plain_vitc_read once more: elements above 1 and the CRC in one pass, eight elements at once; then the pairs. */
shx_line_answer_t plain_vitc_read_by_eights(uint8_t mode, const uint8_t *line, size_t length);

uint8_t plain_vitc_write(uint8_t mode, shx_record_t record, size_t start, uint8_t *run, size_t length);

shx_packet_answer_t plain_atc_read(uint8_t mode, uint8_t interface, const uint16_t *words, size_t length);

uint8_t plain_atc_write(uint8_t mode, uint8_t interface, shx_contents_t contents, size_t start, uint16_t *run, size_t length);

shx_reader_t plain_fresh(uint8_t mode, uint8_t ways);

shx_step_answer_t plain_step(shx_reader_t reader, uint8_t element);

shx_block_answer_t plain_block(shx_reader_t reader, size_t limit, const uint8_t *run, size_t length);

#ifdef __cplusplus
}
#endif

#endif
