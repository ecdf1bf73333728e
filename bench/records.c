/*
 * What moving a day record takes, against setting it: every day of a year of each kind, in both wings, in one process,
 * the two by turns. Prints the median of the rounds' ratios, and the least and the largest.
 */
#define _POSIX_C_SOURCE 199309L /* for clock_gettime */
#include <stdint.h>
#include <stdio.h>
#include <stdlib.h>
#include <time.h>

#include <bournedrouth.h>

enum { ROUNDS = 31, TURNS = 20, KINDS = 14 };

static double now(void)
{
    struct timespec t;
    clock_gettime(CLOCK_MONOTONIC, &t);
    return (double)t.tv_sec + 1e-9 * (double)t.tv_nsec;
}

static uint64_t sum; /* of all that is told, so that no call is left out */

/* Sets a record to each day of the year; or sets it to the day before and moves it on to each. */
static void each_day(uint64_t wing, const bd_year_answer *year, int moving)
{
    bd_record record = {0};
    if (moving) sum += bd_record_set(&record, wing, year->new_year - 1);
    for (uint64_t i = 0; i < year->length; ++i) {
        sum += moving ? bd_record_next(&record) : bd_record_set(&record, wing, year->new_year + i);
        sum += record.first + record.date + record.remaining;
    }
}

static double taken(const bd_year_answer *years, int moving)
{
    double begun = now();
    for (int turn = 0; turn < TURNS; ++turn)
        for (int i = 0; i < KINDS; ++i)
            for (uint64_t wing = BD_WING_1; wing <= BD_GUEST_WING; ++wing) each_day(wing, &years[i], moving);
    return now() - begun;
}

static int by_size(const void *a, const void *b)
{
    double x = *(const double *)a, y = *(const double *)b;
    return (x > y) - (x < y);
}

int main(void)
{
    bd_year_answer years[KINDS] = {{0}};
    double ratios[ROUNDS];
    for (uint64_t year = 5700; year < 6000; ++year) years[bd_kind(year).kind - 1] = bd_year(year);
    taken(years, 0), taken(years, 1);
    for (int round = 0; round < ROUNDS; ++round) {
        double setting = taken(years, 0), moving = taken(years, 1);
        ratios[round] = moving / setting;
    }
    qsort(ratios, ROUNDS, sizeof *ratios, by_size);
    printf("a move on takes %.3f of a setting (%.3f to %.3f in %d rounds; told %llu)\n", ratios[ROUNDS / 2], ratios[0],
           ratios[ROUNDS - 1], ROUNDS, (unsigned long long)sum);
    return ratios[ROUNDS / 2] * 3 <= 1 ? 0 : 1;
}
