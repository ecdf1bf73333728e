/* Hebrew months and dates. */
#include "check.h"

typedef struct {
    uint64_t year, days[13]; /* 0: the year has no such month */
} length_row;

/* A year of each of the six lengths: 353, 354, 355, 383, 384 and 385 days. */
static const length_row LENGTHS[] = {
    {5753, {30, 29, 29, 29, 30, 0, 29, 30, 29, 30, 29, 30, 29}},
    {5751, {30, 29, 30, 29, 30, 0, 29, 30, 29, 30, 29, 30, 29}},
    {5750, {30, 30, 30, 29, 30, 0, 29, 30, 29, 30, 29, 30, 29}},
    {5757, {30, 29, 29, 29, 30, 30, 29, 30, 29, 30, 29, 30, 29}},
    {5755, {30, 29, 30, 29, 30, 30, 29, 30, 29, 30, 29, 30, 29}},
    {5752, {30, 30, 30, 29, 30, 30, 29, 30, 29, 30, 29, 30, 29}},
};

typedef struct {
    uint64_t day, year, month, date, new_year, length, day_of_year;
} date_row;

static const date_row DATES[] = {
    {347998, 1, 1, 1, 347998, 355, 1},
    {347999, 1, 1, 2, 347998, 355, 2},
    {348352, 1, 13, 29, 347998, 355, 355},
    {348353, 2, 1, 1, 348353, 355, 1},
    {1507231, 3174, 12, 9, 1506928, 354, 304},
    {1720227, 3758, 1, 1, 1720227, 353, 1},
    {2440588, 5730, 4, 23, 2440478, 383, 111},
    {2451545, 5760, 4, 23, 2451433, 385, 113},
    {2452171, 5762, 1, 1, 2452171, 354, 1},
    {2452185, 5762, 1, 15, 2452171, 354, 15},
    {2452347, 5762, 7, 29, 2452171, 354, 177},
    {2452362, 5762, 8, 15, 2452171, 354, 192},
    {2452412, 5762, 10, 6, 2452171, 354, 242},
    {2452524, 5762, 13, 29, 2452171, 354, 354},
    {2452525, 5763, 1, 1, 2452525, 385, 1},
    {2452584, 5763, 2, 30, 2452525, 385, 60},
    {2452614, 5763, 3, 30, 2452525, 385, 90},
    {2452703, 5763, 6, 30, 2452525, 385, 179},
    {2452704, 5763, 7, 1, 2452525, 385, 180},
    {2452732, 5763, 7, 29, 2452525, 385, 208},
    {2456926, 5775, 1, 1, 2456926, 354, 1},
    {2456928, 5775, 1, 3, 2456926, 354, 3},
    {2460375, 5784, 6, 25, 2460204, 383, 172},
    {3999723, 9999, 1, 1, 3999723, 353, 1},
    {4000075, 9999, 13, 29, 3999723, 353, 353},
};

static const date_row NO_DATE = {0, 0, 0, 0, 0, 0, 0};

typedef struct {
    uint64_t year, month, day, refusal;
} bad_row;

/* Where several apply the smallest is given. */
static const bad_row BAD_DATES[] = {
    {0, 0, 0, 1},
    {10000, 1, 1, 1},
    {UINT64_MAX, 14, 31, 1},
    {(UINT64_C(1) << 32) + 5762, 1, 1, 1},
    {5762, 0, 0, 2},
    {5762, 14, 40, 2},
    {5762, 6, 1, 2},
    {5762, 6, 0, 2},
    {5762, (UINT64_C(1) << 32) + 1, 1, 2},
    {5762, UINT64_MAX, 1, 2},
    {5762, 1, 0, 3},
    {5762, 1, 31, 3},
    {5762, 2, 30, 3},
    {5762, 13, 30, 3},
    {5753, 3, 30, 3},
    {5763, 6, 31, 3},
    {5763, 7, 30, 3},
    {5762, 1, (UINT64_C(1) << 32) + 1, 3},
    {5762, 1, UINT64_MAX, 3},
};

static void month_length(uint64_t year, uint64_t month, uint64_t refusal, uint64_t want)
{
    bd_month_answer got = bd_month_length(year, month);
    asking("bd_month_length(%" PRIu64 ", %" PRIu64 ")", year, month);
    same("refusal", got.refusal, refusal);
    same("days", got.days, want);
}

static void to_day(uint64_t year, uint64_t month, uint64_t date, uint64_t refusal, uint64_t want)
{
    bd_hebrew_day got = bd_hebrew_to_day(year, month, date);
    asking("bd_hebrew_to_day(%" PRIu64 ", %" PRIu64 ", %" PRIu64 ")", year, month, date);
    same("refusal", got.refusal, refusal);
    same("day", got.day, want);
}

static void to_hebrew(uint64_t day, uint64_t refusal, const date_row *want)
{
    bd_hebrew_date got = bd_day_to_hebrew(day);
    asking("bd_day_to_hebrew(%" PRIu64 ")", day);
    same("refusal", got.refusal, refusal);
    same("year", got.year, want->year), same("month", got.month, want->month), same("day", got.day, want->date);
    same("new_year", got.new_year, want->new_year), same("length", got.length, want->length);
    same("day_of_year", got.day_of_year, want->day_of_year);
}

void hebrew_dates(void)
{
    begin("Hebrew months and dates");
    for (const length_row *l = LENGTHS; l < LENGTHS + COUNT(LENGTHS); ++l) {
        for (uint64_t month = 1; month <= 13; ++month) {
            uint64_t days = l->days[month - 1];
            month_length(l->year, month, days == 0 ? BD_BAD_MONTH : BD_DONE, days);
        }
        month_length(l->year, 0, BD_BAD_MONTH, 0);
        month_length(l->year, 14, BD_BAD_MONTH, 0);
        month_length(l->year, (UINT64_C(1) << 32) + 1, BD_BAD_MONTH, 0);
    }
    month_length(0, 1, BD_BAD_YEAR, 0);
    month_length(10000, 14, BD_BAD_YEAR, 0);
    month_length(UINT64_MAX, 1, BD_BAD_YEAR, 0);
    for (const date_row *d = DATES; d < DATES + COUNT(DATES); ++d) {
        to_hebrew(d->day, 0, d);
        to_day(d->year, d->month, d->date, 0, d->day);
    }
    for (const bad_row *b = BAD_DATES; b < BAD_DATES + COUNT(BAD_DATES); ++b) to_day(b->year, b->month, b->day, b->refusal, 0);
    to_day(5762, BD_KISLEV, 30, 0, 2452259);
    to_hebrew(BD_FIRST_DAY - 1, BD_DAY_OUT_OF_RANGE, &NO_DATE);
    to_hebrew(BD_LAST_DAY + 1, BD_DAY_OUT_OF_RANGE, &NO_DATE);
    to_hebrew(0, BD_DAY_OUT_OF_RANGE, &NO_DATE);
    to_hebrew(UINT64_MAX, BD_DAY_OUT_OF_RANGE, &NO_DATE);
    end();
}
