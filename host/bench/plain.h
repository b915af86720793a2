/* The same jobs as drive_bounds, drive_set and drive_speed in plain C: the same parameters, the same numbers, the same bytes. */
#ifndef PLAIN_H
#define PLAIN_H

#include <stddef.h>
#include <stdint.h>

#ifdef __cplusplus
extern "C" {
#endif
uint32_t plain_bounds(const uint8_t *sheet, size_t sheet_length, uint32_t demand, uint32_t allowance, uint8_t *list,
                      size_t list_length, uint8_t *answer, size_t answer_length);
uint32_t plain_set(const uint8_t *sheet, size_t sheet_length, const uint8_t *demands, size_t demands_length, uint32_t allowance,
                   uint8_t *list, size_t list_length, uint8_t *shares, size_t shares_length, uint8_t *answer, size_t answer_length);
uint32_t plain_speed(const uint8_t *sheet, size_t sheet_length, uint32_t target, uint32_t allowance, uint8_t *list,
                     size_t list_length, uint8_t *answer, size_t answer_length);
#ifdef __cplusplus
}
#endif
#endif
