/*
 * A reader of loaded sheets of the tests' own, by document 02, and the archive's answers held against it. It shares the
 * layout and the calendar with the archive and nothing else. Bytes fit the layout if their header and index, written anew
 * from the years and the counts that stand there, are the bytes that stand there. They are the calendar's if each year has
 * the length that bd_year tells and the rows that bd_stretches lists; the tests before these hold both against a calendar
 * of their own. A year's rows are found by counting those before it.
 */
#ifndef READER_H
#define READER_H

#include "check.h"

enum { HEADER = 16, ENTRY = 8, ROW = 6 };

/* 0, or 15 to 19. */
uint64_t read_refusal(uint64_t wing, const uint8_t *sheet, size_t length);
bd_rows_answer read_rows(uint64_t wing, const uint8_t *sheet, size_t length, uint64_t year);
/* What a walker of this number is given on any bytes. */
bd_row read_row(const uint8_t *sheet, size_t length, uint64_t number);

/* Writes a sheet by the archive, and returns how many bytes it has. */
size_t write_sheet(uint8_t *out, size_t room, uint64_t wing, uint64_t first_year, uint64_t years);
/* Names the sheet that is asked about next: what it is, and its number among these. */
void sheet_is(const char *what, uint64_t number);
void same_answer(const char *question, bd_rows_answer got, uint64_t refusal, uint64_t offset, uint64_t length);

/* Each of these asks the archive; its answer must be the reader's. The first two return the refusal. */
uint64_t same_rows(uint64_t wing, const uint8_t *sheet, size_t length, uint64_t year);
uint64_t same_named_rows(uint64_t named, const uint8_t *sheet_1, size_t length_1, const uint8_t *sheet_2, size_t length_2,
                         uint64_t year);
/* A step of a walker, however it was made; returns whether there was a row. */
uint64_t same_step(bd_walker *walker, const uint8_t *sheet, size_t length);
/* A walk from its beginning, past its end or for so many steps. */
#define ALL_STEPS UINT64_MAX
void same_walk(uint64_t wing, const uint8_t *sheet, size_t length, uint64_t steps);
/* Refused so for a wing, whatever year is asked: alone, as the one of two that is named, and walking. */
void same_refusal(uint64_t wing, const uint8_t *sheet, size_t length, uint64_t refusal);

#endif
