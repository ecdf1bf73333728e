/* What the walk over years leaves for the walk over days, and both for the sheets. */
#ifndef WALK_H
#define WALK_H

#include <bournedrouth.h>

/* FASTLESS: the days of the range after its last fast. */
enum { YEARS = 9999, KINDS = 14, WINGS = 2, MOST_DAYS = 385, FASTLESS = 50 };

int leap(uint64_t year);
/* 1 to 10,000. */
uint64_t new_year_of(uint64_t year);
/* 1 to 9999. */
uint64_t year_length(uint64_t year);
uint64_t kind_of(uint64_t year);
/* The first year of a kind. */
uint64_t first_of_kind(uint64_t kind);
/*
 * Leaves first day and length of each stretch of a wing that begins in a year, 1 to 9999, rising, and returns how many
 * entries that is. A stretch on every day would find room.
 */
uint64_t find_stretches(uint64_t wing, uint64_t year, uint64_t list[2 * MOST_DAYS]);
/* Notes a day if it is a fast, by its date and weekday; on a year's last day holds the year's list against those noted. */
void note_fast(uint64_t day, uint64_t year, uint64_t month, uint64_t date, uint64_t weekday);
/* Once every day was noted: finds each day's next fast. */
void find_fasts(void);
/* A record tells the next fast that was found, or none. */
void record_fast(const bd_record *record);

#endif
