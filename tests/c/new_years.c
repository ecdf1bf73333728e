/* The molad, its notice, and the years. */
#include "check.h"

typedef struct {
    uint64_t year, month, day, hour, part, shown, weekday, clock_hour, minute, over;
} molad_row;

/* A molad, then its notice. Those at the hours 0 to 5 are shown on the civil evening before. */
static const molad_row MOLADS[] = {
    {1, 1, 347998, 5, 204, 347997, 1, 23, 11, 6},
    {1, 2, 348027, 17, 997, 348027, 3, 11, 55, 7},
    {2, 1, 348352, 14, 0, 348352, 6, 8, 0, 0},
    {3, 6, 348854, 14, 521, 348854, 4, 8, 28, 17},
    {3, 7, 348884, 3, 234, 348883, 5, 21, 13, 0},
    {3247, 1, 1533562, 23, 535, 1533562, 4, 17, 29, 13},
    {5762, 1, 2452171, 4, 106, 2452170, 2, 22, 5, 16},
    {5762, 5, 2452289, 7, 38, 2452289, 2, 1, 2, 2},
    {5762, 7, 2452318, 19, 831, 2452318, 3, 13, 46, 3},
    {5762, 13, 2452496, 0, 189, 2452495, 5, 18, 10, 9},
    {5763, 6, 2452673, 4, 627, 2452672, 7, 22, 34, 15},
    {5763, 7, 2452702, 17, 340, 2452702, 2, 11, 18, 16},
    {5763, 8, 2452732, 6, 53, 2452732, 4, 0, 2, 17},
    {5775, 1, 2456925, 14, 339, 2456925, 4, 8, 18, 15},
    {5784, 6, 2460351, 3, 527, 2460350, 6, 21, 29, 5},
    {5784, 13, 2460557, 20, 678, 2460557, 3, 14, 37, 12},
    {9999, 1, 3999721, 22, 1031, 3999721, 7, 16, 57, 5},
    {9999, 13, 4000046, 19, 34, 4000046, 3, 13, 1, 16},
};

typedef struct {
    uint64_t year, day, weekday, molad_day, molad_hour, molad_part, length, months, delay, cause;
} year_row;

/* Document 01's days to check, New Years of the sources under each of the delays, and the first year of each cause. */
static const year_row YEARS[] = {
    {1, 347998, 2, 347998, 5, 204, 355, 12, 0, 0},
    {2, 348353, 7, 348352, 14, 0, 355, 12, 1, 2},
    {3, 348708, 5, 348706, 22, 876, 383, 13, 2, 3},
    {4, 349091, 3, 349090, 20, 385, 354, 12, 1, 1},
    {7, 350185, 5, 350183, 11, 566, 354, 12, 2, 4},
    {19, 354555, 7, 354554, 0, 210, 383, 13, 1, 2},
    {75, 375019, 3, 375018, 17, 39, 354, 12, 1, 5},
    {247, 437830, 3, 437830, 6, 870, 384, 13, 0, 0},
    {3041, 1458348, 5, 1458348, 13, 364, 355, 12, 0, 0},
    {3174, 1506928, 5, 1506926, 9, 209, 354, 12, 2, 4},
    {3758, 1720227, 7, 1720225, 20, 808, 353, 12, 2, 3},
    {4257, 1902489, 3, 1902488, 16, 644, 354, 12, 1, 5},
    {4602, 2028496, 3, 2028495, 17, 735, 354, 12, 1, 5},
    {5025, 2183000, 3, 2182999, 19, 351, 354, 12, 1, 1},
    {5253, 2266276, 7, 2266276, 1, 1011, 355, 12, 0, 0},
    {5393, 2317395, 5, 2317393, 12, 1014, 354, 12, 2, 4},
    {5741, 2444494, 5, 2444493, 5, 206, 383, 13, 1, 2},
    {5745, 2445971, 5, 2445969, 17, 976, 354, 12, 2, 4},
    {5762, 2452171, 3, 2452171, 4, 106, 354, 12, 0, 0},
    {5763, 2452525, 7, 2452525, 12, 982, 385, 13, 0, 0},
    {5766, 2453648, 3, 2453647, 16, 876, 354, 12, 1, 5},
    {5769, 2454740, 3, 2454740, 7, 1057, 354, 12, 0, 0},
    {5775, 2456926, 5, 2456925, 14, 339, 354, 12, 1, 2},
    {5816, 2471899, 5, 2471897, 14, 630, 354, 12, 2, 4},
    {9998, 3999369, 5, 3999367, 14, 155, 354, 12, 2, 4},
    {9999, 3999723, 2, 3999721, 22, 1031, 353, 12, 2, 3},
};

typedef struct {
    uint64_t year, kind, weekday, length;
} kind_row;

/* The first year of each kind, and the last year of all. */
static const kind_row KINDS[] = {
    {15, 1, 2, 353},  {1, 2, 2, 355},  {8, 3, 2, 383},   {14, 4, 2, 385},
    {4, 5, 3, 354},   {27, 6, 3, 384},
    {7, 7, 5, 354},   {23, 8, 5, 355}, {3, 9, 5, 383},   {6, 10, 5, 385},
    {26, 11, 7, 353}, {2, 12, 7, 355}, {19, 13, 7, 383}, {25, 14, 7, 385},
    {9999, 1, 2, 353},
};

static const year_row NEXT = {10000, 4000076, 5, 4000076, 7, 827, 0, 0, 0, BD_CAUSE_NONE};
static const year_row NONE = {0, 0, 0, 0, 0, 0, 0, 0, 0, 0};
static const kind_row NO_KIND = {0, 0, 0, 0};
static const molad_row NO_MOLAD = {0, 0, 0, 0, 0, 0, 0, 0, 0, 0};

static const uint64_t NO_YEARS[] = {0, 10001, UINT64_C(1) << 32, (UINT64_C(1) << 32) + 5762, UINT64_MAX};

static void molad(uint64_t year, uint64_t month, uint64_t refusal, const molad_row *want)
{
    bd_molad_answer got = bd_molad(year, month);
    asking("bd_molad(%" PRIu64 ", %" PRIu64 ")", year, month);
    same("refusal", got.refusal, refusal);
    same("day", got.day, want->day), same("hour", got.hour, want->hour), same("part", got.part, want->part);

    bd_notice_answer notice = bd_notice(year, month);
    asking("bd_notice(%" PRIu64 ", %" PRIu64 ")", year, month);
    same("refusal", notice.refusal, refusal);
    same("day", notice.day, want->shown), same("weekday", notice.weekday, want->weekday);
    same("hour", notice.hour, want->clock_hour), same("minute", notice.minute, want->minute);
    same("part", notice.part, want->over);
}

static void new_year(const char *call, bd_new_year_answer got, uint64_t year, uint64_t refusal, const year_row *want)
{
    asking("%s(%" PRIu64 ")", call, year);
    same("refusal", got.refusal, refusal);
    same("day", got.day, want->day), same("weekday", got.weekday, want->weekday);
    same("molad_day", got.molad_day, want->molad_day), same("molad_hour", got.molad_hour, want->molad_hour);
    same("molad_part", got.molad_part, want->molad_part);
    same("delay", got.delay, want->delay), same("cause", got.cause, want->cause);
}

static void both_routes(uint64_t year, uint64_t refusal, const year_row *want)
{
    new_year("bd_new_year", bd_new_year(year), year, refusal, want);
    new_year("bd_new_year_rhodes", bd_new_year_rhodes(year), year, refusal, want);
}

static void whole_year(uint64_t year, uint64_t refusal, const year_row *want)
{
    bd_year_answer got = bd_year(year);
    asking("bd_year(%" PRIu64 ")", year);
    same("refusal", got.refusal, refusal);
    same("new_year", got.new_year, want->day), same("weekday", got.weekday, want->weekday);
    same("length", got.length, want->length), same("months", got.months, want->months);
    same("delay", got.delay, want->delay), same("cause", got.cause, want->cause);
}

static void kind(uint64_t year, uint64_t refusal, const kind_row *want)
{
    bd_kind_answer got = bd_kind(year);
    asking("bd_kind(%" PRIu64 ")", year);
    same("refusal", got.refusal, refusal), same("kind", got.kind, want->kind);
    same("weekday", got.weekday, want->weekday), same("length", got.length, want->length);
}

static void year_of_day(uint64_t day, uint64_t refusal, uint64_t want)
{
    bd_year_of_day_answer got = bd_year_of_day(day);
    asking("bd_year_of_day(%" PRIu64 ")", day);
    same("refusal", got.refusal, refusal);
    same("year", got.year, want);
}

void new_years(void)
{
    begin("the molad, the notice and the years");
    for (const molad_row *m = MOLADS; m < MOLADS + COUNT(MOLADS); ++m) molad(m->year, m->month, 0, m);
    for (const year_row *y = YEARS; y < YEARS + COUNT(YEARS); ++y) {
        both_routes(y->year, 0, y);
        whole_year(y->year, 0, y);
        year_of_day(y->day, 0, y->year);
        year_of_day(y->day + y->length - 1, 0, y->year);
    }
    for (const kind_row *k = KINDS; k < KINDS + COUNT(KINDS); ++k) kind(k->year, 0, k);
    both_routes(10000, 0, &NEXT);
    whole_year(10000, BD_BAD_YEAR, &NONE);
    kind(10000, BD_BAD_YEAR, &NO_KIND);
    molad(10000, 1, BD_BAD_YEAR, &NO_MOLAD);
    for (size_t i = 0; i < COUNT(NO_YEARS); ++i) {
        both_routes(NO_YEARS[i], BD_BAD_YEAR, &NONE);
        whole_year(NO_YEARS[i], BD_BAD_YEAR, &NONE);
        kind(NO_YEARS[i], BD_BAD_YEAR, &NO_KIND);
        molad(NO_YEARS[i], 1, BD_BAD_YEAR, &NO_MOLAD);
        molad(NO_YEARS[i], 14, BD_BAD_YEAR, &NO_MOLAD);
    }
    molad(5762, 0, BD_BAD_MONTH, &NO_MOLAD);
    molad(5762, BD_ADAR_I, BD_BAD_MONTH, &NO_MOLAD);
    molad(5763, 14, BD_BAD_MONTH, &NO_MOLAD);
    molad(5763, (UINT64_C(1) << 32) + 1, BD_BAD_MONTH, &NO_MOLAD);
    molad(5763, UINT64_MAX, BD_BAD_MONTH, &NO_MOLAD);
    year_of_day(BD_FIRST_DAY - 1, BD_DAY_OUT_OF_RANGE, 0);
    year_of_day(BD_LAST_DAY + 1, BD_DAY_OUT_OF_RANGE, 0);
    year_of_day(0, BD_DAY_OUT_OF_RANGE, 0);
    year_of_day(UINT64_MAX, BD_DAY_OUT_OF_RANGE, 0);
    end();
}
