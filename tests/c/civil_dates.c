/* Day numbers, weekdays and civil dates. */
#include "check.h"

typedef struct {
    uint64_t day, weekday;
    int64_t julian_year;
    uint64_t julian_month, julian_day;
    int64_t gregorian_year;
    uint64_t gregorian_month, gregorian_day;
} row;

/* The ends of the range, leap days of both calendars on both sides of year 0, and days of the sources. */
static const row ROWS[] = {
    {347998, 2, -3760, 10, 7, -3760, 9, 7},
    {347999, 3, -3760, 10, 8, -3760, 9, 8},
    {349238, 3, -3756, 2, 29, -3756, 1, 30},
    {369721, 4, -3700, 3, 29, -3700, 2, 28},
    {369722, 5, -3700, 3, 30, -3700, 3, 1},
    {406246, 3, -3600, 3, 29, -3600, 2, 29},
    {1507224, 7, -586, 7, 22, -586, 7, 16},
    {1719658, 5, -4, 3, 2, -4, 2, 29},
    {1720227, 7, -3, 9, 22, -3, 9, 20},
    {1721057, 4, -1, 12, 31, -1, 12, 29},
    {1721059, 6, 0, 1, 2, -1, 12, 31},
    {1721060, 7, 0, 1, 3, 0, 1, 1},
    {1721117, 1, 0, 2, 29, 0, 2, 27},
    {1721119, 3, 0, 3, 2, 0, 2, 29},
    {1721426, 2, 1, 1, 3, 1, 1, 1},
    {1722578, 6, 4, 2, 29, 4, 2, 27},
    {1757642, 7, 100, 2, 29, 100, 2, 27},
    {1902489, 3, 496, 9, 24, 496, 9, 25},
    {2183000, 3, 1264, 9, 23, 1264, 9, 30},
    {2299160, 5, 1582, 10, 4, 1582, 10, 14},
    {2299161, 6, 1582, 10, 5, 1582, 10, 15},
    {2342032, 2, 1700, 2, 19, 1700, 3, 1},
    {2378556, 7, 1800, 2, 18, 1800, 3, 1},
    {2415080, 5, 1900, 2, 17, 1900, 3, 1},
    {2415092, 3, 1900, 2, 29, 1900, 3, 13},
    {2440588, 5, 1969, 12, 19, 1970, 1, 1},
    {2451545, 7, 1999, 12, 19, 2000, 1, 1},
    {2451604, 3, 2000, 2, 16, 2000, 2, 29},
    {2452171, 3, 2001, 9, 5, 2001, 9, 18},
    {2456928, 7, 2014, 9, 14, 2014, 9, 27},
    {2488129, 2, 2100, 2, 16, 2100, 3, 1},
    {2597701, 3, 2400, 2, 13, 2400, 2, 29},
    {3912574, 3, 6000, 1, 17, 6000, 2, 29},
    {3949142, 3, 6100, 2, 29, 6100, 4, 13},
    {4000075, 4, 6239, 8, 11, 6239, 9, 25},
};

static const uint64_t OUTSIDE[] = {0, 1, 347997, 4000076, UINT64_C(1) << 32, (UINT64_C(1) << 32) + 2452171, UINT64_MAX};

typedef struct {
    int64_t year;
    uint64_t month, day, julian, gregorian; /* the refusals */
} bad_date;

/* Where several apply the smallest is given. */
static const bad_date BAD_DATES[] = {
    {-3761, 0, 0, 5, 5},
    {-3761, 10, 7, 5, 5},
    {6240, 1, 1, 5, 5},
    {INT64_MIN, 1, 1, 5, 5},
    {INT64_MAX, 1, 1, 5, 5},
    {(INT64_C(1) << 32) + 2014, 9, 27, 5, 5},
    {-3760, 0, 0, 6, 6},
    {2014, 13, 40, 6, 6},
    {2014, UINT64_MAX, 1, 6, 6},
    {2014, (UINT64_C(1) << 32) + 9, 27, 6, 6},
    {-3760, 9, 0, 7, 7},
    {6239, 9, 31, 7, 7},
    {2014, 9, UINT64_MAX, 7, 7},
    {2014, 2, 29, 7, 7},
    {2014, 4, 31, 7, 7},
    {-3760, 9, 6, 8, 8},
    {-3760, 1, 1, 8, 8},
    {6239, 9, 26, 8, 8},
    {6239, 12, 31, 8, 8},
};

static void date(const char *call, bd_civil_date got, uint64_t day, uint64_t refusal, int64_t year, uint64_t month, uint64_t date)
{
    asking("%s(%" PRIu64 ")", call, day);
    same("refusal", got.refusal, refusal);
    same_signed("year", got.year, year);
    same("month", got.month, month);
    same("day", got.day, date);
}

static void day(const char *call, bd_civil_day got, int64_t year, uint64_t month, uint64_t date, uint64_t refusal, uint64_t want)
{
    asking("%s(%" PRId64 ", %" PRIu64 ", %" PRIu64 ")", call, year, month, date);
    same("refusal", got.refusal, refusal);
    same("day", got.day, want);
}

static void weekday(uint64_t day, uint64_t refusal, uint64_t want)
{
    bd_weekday_answer got = bd_weekday(day);
    asking("bd_weekday(%" PRIu64 ")", day);
    same("refusal", got.refusal, refusal);
    same("weekday", got.weekday, want);
}

static void julian(int64_t year, uint64_t month, uint64_t date, uint64_t refusal, uint64_t want)
{
    day("bd_julian_to_day", bd_julian_to_day(year, month, date), year, month, date, refusal, want);
}

static void gregorian(int64_t year, uint64_t month, uint64_t date, uint64_t refusal, uint64_t want)
{
    day("bd_gregorian_to_day", bd_gregorian_to_day(year, month, date), year, month, date, refusal, want);
}

void civil_dates(void)
{
    begin("weekdays and civil dates");
    for (const row *r = ROWS; r < ROWS + COUNT(ROWS); ++r) {
        weekday(r->day, 0, r->weekday);
        date("bd_day_to_julian", bd_day_to_julian(r->day), r->day, 0, r->julian_year, r->julian_month, r->julian_day);
        date("bd_day_to_gregorian", bd_day_to_gregorian(r->day), r->day, 0, r->gregorian_year, r->gregorian_month,
             r->gregorian_day);
        julian(r->julian_year, r->julian_month, r->julian_day, 0, r->day);
        gregorian(r->gregorian_year, r->gregorian_month, r->gregorian_day, 0, r->day);
    }
    for (size_t i = 0; i < COUNT(OUTSIDE); ++i) {
        weekday(OUTSIDE[i], BD_DAY_OUT_OF_RANGE, 0);
        date("bd_day_to_julian", bd_day_to_julian(OUTSIDE[i]), OUTSIDE[i], BD_DAY_OUT_OF_RANGE, 0, 0, 0);
        date("bd_day_to_gregorian", bd_day_to_gregorian(OUTSIDE[i]), OUTSIDE[i], BD_DAY_OUT_OF_RANGE, 0, 0, 0);
    }
    for (const bad_date *b = BAD_DATES; b < BAD_DATES + COUNT(BAD_DATES); ++b) {
        julian(b->year, b->month, b->day, b->julian, 0);
        gregorian(b->year, b->month, b->day, b->gregorian, 0);
    }
    /* What one calendar has and the other has not. */
    gregorian(1900, 2, 29, BD_BAD_CIVIL_DAY, 0);
    gregorian(-3700, 2, 29, BD_BAD_CIVIL_DAY, 0);
    julian(-3760, 10, 6, BD_CIVIL_DATE_OUT_OF_RANGE, 0);
    julian(6239, 8, 12, BD_CIVIL_DATE_OUT_OF_RANGE, 0);
    end();
}
