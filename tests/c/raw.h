/*
 * The exported functions that answer with more than two words, or set a struct that the caller holds, as the archive has
 * them and without the header.
 */
#ifndef RAW_H
#define RAW_H

#include <stddef.h>
#include <stdint.h>

/* The answer's place comes before the arguments, and is returned. */
typedef uint64_t *raw_1(uint64_t *answer, uint64_t);
typedef uint64_t *raw_2(uint64_t *answer, uint64_t, uint64_t);
typedef uint64_t *raw_6(uint64_t *answer, uint64_t, uint64_t, uint64_t, uint64_t, uint64_t, uint64_t);
typedef uint64_t *raw_rows(uint64_t *answer, uint64_t, const uint8_t *, size_t, uint64_t);
typedef uint64_t *raw_named_rows(uint64_t *answer, uint64_t, const uint8_t *, size_t, const uint8_t *, size_t, uint64_t);
typedef uint64_t *raw_step(uint64_t *answer, uint64_t *walker, const uint8_t *, size_t);
/* These answer with a number. */
typedef uint64_t raw_begin(uint64_t *walker, uint64_t, const uint8_t *, size_t);
typedef uint64_t raw_set(uint64_t *record, uint64_t, uint64_t);
typedef uint64_t raw_move(uint64_t *record);

extern raw_1 *const raw_day_to_julian, *const raw_day_to_gregorian, *const raw_new_year, *const raw_new_year_rhodes,
    *const raw_year, *const raw_kind, *const raw_day_to_hebrew;
extern raw_2 *const raw_molad, *const raw_notice, *const raw_stretch;
extern raw_6 *const raw_charge_start;
extern raw_rows *const raw_sheet_rows;
extern raw_named_rows *const raw_sheets_rows;
extern raw_begin *const raw_walk_begin;
extern raw_step *const raw_walk_next;
extern raw_set *const raw_record_set;
extern raw_move *const raw_record_next, *const raw_record_back;

#endif
