/* The plain codec: the functions of v91.h with another prefix, written apart from the proved ones. */
#ifndef PLAIN_H
#define PLAIN_H

#include <stdbool.h>
#include <stddef.h>
#include <stdint.h>

uint32_t plain_read_cp(const uint8_t *cp, size_t cp_len, size_t bit_count,
                       uint8_t *record, size_t record_len);
uint32_t plain_write_cp(const uint8_t *record, size_t record_len, uint8_t *cp, size_t cp_len);
uint32_t plain_send(const uint8_t *record, size_t record_len, bool a_law, size_t frames, bool control, uint64_t sequence,
                    const uint8_t *bits, size_t bits_len, uint8_t *octets, size_t octets_len,
                    uint8_t *state, size_t state_len);
uint32_t plain_receive(const uint8_t *record, size_t record_len, bool a_law, size_t frames, bool control,
                       const uint8_t *octets, size_t octets_len, uint8_t *bits, size_t bits_len,
                       uint8_t *marks, size_t marks_len, uint8_t *heard, size_t heard_len,
                       uint8_t *state, size_t state_len);
uint32_t plain_linear(bool a_law, const uint8_t *octets, size_t octets_len,
                      int32_t *samples, size_t samples_len);
uint32_t plain_send_dil(bool a_law, uint8_t *octets, size_t octets_len);
uint32_t plain_send_cp(const uint8_t *record, size_t record_len, bool a_law, uint8_t *octets, size_t octets_len,
                       uint8_t *state, size_t state_len);
uint32_t plain_find_state(const uint8_t *octets, size_t octets_len, uint8_t *state, size_t state_len);
uint32_t plain_plan(uint32_t k, bool a_law, uint32_t spacing, uint64_t ceiling, uint8_t *plan, size_t plan_len);
uint32_t plain_put(const uint8_t *file, size_t file_len, uint16_t junction, const uint8_t *record, size_t record_len,
                   uint8_t *out, size_t out_len);
uint32_t plain_go_back(const uint8_t *file, size_t file_len, uint16_t junction, uint8_t *out, size_t out_len);
uint32_t plain_look_up(const uint8_t *file, size_t file_len, uint16_t junction, uint8_t *record, size_t record_len);

#endif
