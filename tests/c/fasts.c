/*
 * The fasts of a year, and the buffers that are lent for them; and every fast of the range, noted on a walk from day to day
 * (every_day.c) by a rule of this file's own.
 */
#include "check.h"

#include "lists.h"
#include "walk.h"

typedef struct {
    uint64_t year, days[BD_FASTS_ROOM];
} fast_row;

/*
 * 5784, whose 13 Adar II is a Saturday; 5785, whose 3 Tishri is; 5782, whose 17 Tammuz and 9 Av are; 5762, in which none
 * is moved; the first year and the last.
 */
static const fast_row ROWS[] = {
    {5784, {2460206, 2460301, 2460391, 2460515, 2460536}}, {5785, {2460590, 2460686, 2460748, 2460870, 2460891}},
    {5782, {2459467, 2459563, 2459655, 2459778, 2459799}}, {5762, {2452173, 2452269, 2452331, 2452453, 2452474}},
    {1, {348000, 348097, 348159, 348281, 348302}},         {9999, {3999725, 3999820, 3999880, 4000004, 4000025}},
};

static bd_list_answer of_year(uint64_t wing, uint64_t year, uint64_t *out, size_t length)
{
    (void)wing;
    return bd_fasts(year, out, length);
}

static const lister FASTS = {"bd_fasts", of_year, 1};

void fasts(void)
{
    begin("fasts and lent buffers");
    for (size_t i = 0; i < COUNT(ROWS); ++i)
        every_length(&FASTS, 0, ROWS[i].year, BD_FASTS_ROOM, ROWS[i].days, BD_FASTS_ROOM);
    for (size_t i = 0; i < COUNT(BAD_YEARS); ++i) refused_list(&FASTS, 0, BAD_YEARS[i], BD_BAD_YEAR);
    end();
}

enum { FIRST = 347998, LAST = 4000075 };

static unsigned char month_of[LAST - FIRST + 1]; /* of a day that is a fast, its month code */
static uint32_t next_of[LAST - FIRST + 1]; /* the day of the next fast, on the day or later; 0 where there is none */

/* Each fast's month code and day, and the day of that month, with its weekday, on which it is kept instead of a Saturday. */
static const unsigned char TABLE[BD_FASTS_ROOM][4] = {
    {1, 3, 4, BD_SUNDAY}, {4, 10, 0, 0}, {7, 13, 11, BD_THURSDAY}, {11, 17, 18, BD_SUNDAY}, {12, 9, 10, BD_SUNDAY},
};

static int is_fast(uint64_t month, uint64_t date, uint64_t weekday)
{
    for (size_t i = 0; i < COUNT(TABLE); ++i) {
        if (TABLE[i][0] != month) continue;
        if (date == TABLE[i][1]) return weekday != BD_SATURDAY;
        return date == TABLE[i][2] && weekday == TABLE[i][3];
    }
    return 0;
}

void note_fast(uint64_t day, uint64_t year, uint64_t month, uint64_t date, uint64_t weekday)
{
    static uint64_t list[BD_FASTS_ROOM], count;
    uint64_t out[BD_FASTS_ROOM];
    if (is_fast(month, date, weekday)) {
        same("a fast beyond BD_FASTS_ROOM", count >= BD_FASTS_ROOM, 0);
        month_of[day - FIRST] = (unsigned char)month;
        list[count++] = day;
    }
    if (month != BD_ELUL || date != 29) return;
    asking("bd_fasts(%" PRIu64 ", out, %zu)", year, COUNT(out));
    bd_list_answer got = bd_fasts(year, out, COUNT(out));
    same("refusal", got.refusal, BD_DONE), same("count", got.count, count), same("fasts of the year", count, BD_FASTS_ROOM);
    for (size_t i = 0; i < count; ++i) same("entry", out[i], list[i]);
    got = bd_fasts(year, NULL, 0);
    same("refusal without a buffer", got.refusal, BD_BUFFER_TOO_SHORT), same("entries wanted", got.count, count);
    count = 0;
}

void find_fasts(void)
{
    uint32_t next = 0;
    for (uint64_t day = LAST + 1; day-- > FIRST;) {
        if (month_of[day - FIRST] != 0) next = (uint32_t)day;
        next_of[day - FIRST] = next;
    }
    asking("the last fast of the range");
    same("day", next_of[LAST - FASTLESS - FIRST], LAST - FASTLESS);
    same("the next day's", next_of[LAST - FASTLESS + 1 - FIRST], 0);
}

void record_fast(const bd_record *record)
{
    uint64_t next = next_of[record->day - FIRST];
    same("month of the record's fast", record->fast_month, next == 0 ? 0 : month_of[next - FIRST]);
    same("days left until the record's fast", record->fast_left, next == 0 ? 0 : next - record->day);
    same("flag of the record's fast", record->no_fast, next == 0);
}
