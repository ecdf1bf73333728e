/*
 * The header's structs against what the archive returns.
 *
 * The calling convention of x86-64 gives a struct of more than two words back through a pointer that comes before the
 * arguments. So the archive can be called with a plain array of words for the answer, with guard words around it, whatever
 * the header says: the words that it writes are the struct's true size and order. A struct of two words comes back in two
 * registers, and its words are those that the header's own call gives. A walker and a record are the caller's own, and the
 * archive is given words for them with guard words around them.
 *
 * Each question is one whose numbers all differ, so that exchanged fields show.
 */
#include "check.h"

#include "raw.h"

enum { AROUND = 8, MOST = 13 };

static uint64_t room[AROUND + MOST + AROUND];

static uint64_t *fresh(void)
{
    for (size_t i = 0; i < COUNT(room); ++i) room[i] = GUARD;
    return room + AROUND;
}

static void placed(const uint64_t *answer)
{
    same("place of the answer", (uint64_t)(answer - room), AROUND);
}

/* The archive wrote `want` into the room and no word more, and a struct of the header has as many. */
static void written(const char *name, size_t header_size, const uint64_t *want, size_t words)
{
    asking("the words of %s", name);
    same("size", header_size, 8 * words);
    for (size_t i = 0; i < COUNT(room); ++i) {
        int inside = i >= AROUND && i < AROUND + words;
        same(inside ? "word" : "word around it", room[i], inside ? want[i - AROUND] : GUARD);
    }
}

/* A field is a whole word, at its place. */
#define AT(type, field, word) \
    (same(#type "." #field ", its place", offsetof(type, field), 8 * (word)), \
     same(#type "." #field ", its size", sizeof((type *)0)->field, 8))
#define WORDS(type, ...) \
    do { \
        const uint64_t want[] = {__VA_ARGS__}; \
        written(#type, sizeof(type), want, COUNT(want)); \
    } while (0)

static void large_structs(void)
{
    placed(raw_day_to_gregorian(fresh(), 2456928));
    WORDS(bd_civil_date, 0, 2014, 9, 27);
    AT(bd_civil_date, year, 1), AT(bd_civil_date, month, 2), AT(bd_civil_date, day, 3);
    placed(raw_day_to_julian(fresh(), 348353));
    WORDS(bd_civil_date, 0, (uint64_t)INT64_C(-3759), 9, 27);

    placed(raw_molad(fresh(), 5762, 1));
    WORDS(bd_molad_answer, 0, 2452171, 4, 106);
    AT(bd_molad_answer, day, 1), AT(bd_molad_answer, hour, 2), AT(bd_molad_answer, part, 3);

    placed(raw_notice(fresh(), 5775, 1));
    WORDS(bd_notice_answer, 0, 2456925, 4, 8, 18, 15);
    AT(bd_notice_answer, day, 1), AT(bd_notice_answer, weekday, 2), AT(bd_notice_answer, hour, 3);
    AT(bd_notice_answer, minute, 4), AT(bd_notice_answer, part, 5);

    placed(raw_new_year(fresh(), 5775));
    WORDS(bd_new_year_answer, 0, 2456926, 5, 2456925, 14, 339, 1, 2);
    placed(raw_new_year_rhodes(fresh(), 5775));
    WORDS(bd_new_year_answer, 0, 2456926, 5, 2456925, 14, 339, 1, 2);
    AT(bd_new_year_answer, day, 1), AT(bd_new_year_answer, weekday, 2), AT(bd_new_year_answer, molad_day, 3);
    AT(bd_new_year_answer, molad_hour, 4), AT(bd_new_year_answer, molad_part, 5);
    AT(bd_new_year_answer, delay, 6), AT(bd_new_year_answer, cause, 7);

    placed(raw_year(fresh(), 5745));
    WORDS(bd_year_answer, 0, 2445971, 5, 354, 12, 2, 4);
    AT(bd_year_answer, new_year, 1), AT(bd_year_answer, weekday, 2), AT(bd_year_answer, length, 3);
    AT(bd_year_answer, months, 4), AT(bd_year_answer, delay, 5), AT(bd_year_answer, cause, 6);

    placed(raw_kind(fresh(), 5745));
    WORDS(bd_kind_answer, 0, 7, 5, 354);
    AT(bd_kind_answer, kind, 1), AT(bd_kind_answer, weekday, 2), AT(bd_kind_answer, length, 3);

    placed(raw_day_to_hebrew(fresh(), 2452362));
    WORDS(bd_hebrew_date, 0, 5762, 8, 15, 2452171, 354, 192);
    AT(bd_hebrew_date, year, 1), AT(bd_hebrew_date, month, 2), AT(bd_hebrew_date, day, 3);
    AT(bd_hebrew_date, new_year, 4), AT(bd_hebrew_date, length, 5), AT(bd_hebrew_date, day_of_year, 6);

    placed(raw_stretch(fresh(), BD_WING_1, 2456928));
    WORDS(bd_stretch_answer, 0, 2456926, 3, (uint64_t)INT64_C(-2));
    placed(raw_stretch(fresh(), BD_GUEST_WING, 2456941));
    WORDS(bd_stretch_answer, 0, 2456940, 3, (uint64_t)INT64_C(-1));
    AT(bd_stretch_answer, first, 1), AT(bd_stretch_answer, length, 2), AT(bd_stretch_answer, days_left, 3);
    placed(raw_stretch(fresh(), BD_WING_1, 0));
    WORDS(bd_stretch_answer, 4, 0, 0, 0);
    placed(raw_stretch(fresh(), 0, 0));
    WORDS(bd_stretch_answer, 15, 0, 0, 0);

    placed(raw_charge_start(fresh(), BD_GUEST_WING, 2456942, 32000, 96000, 1000, 0));
    WORDS(bd_charge_answer, 0, 58966632, 96, 2456947, 3);
    placed(raw_charge_start(fresh(), BD_WING_1, 2452188, 24000, 30000, 1000, 30001));
    WORDS(bd_charge_answer, 12, 0, 0, 0, 0);
    AT(bd_charge_answer, start, 1), AT(bd_charge_answer, hours, 2), AT(bd_charge_answer, first, 3);
    AT(bd_charge_answer, length, 4);

    asking("the numbers that can be below zero");
    same("days_left", bd_stretch(BD_WING_1, 2456928).days_left < 0, 1);
    same("year of a Julian date", bd_day_to_julian(BD_FIRST_DAY).year < 0, 1);
}

/* On the guest wing's sheet of 5774, which has 58 rows, and 5775. */
static void sheet_structs(void)
{
    uint8_t sheet[686];
    uint64_t walker = 58;

    asking("bd_sheet_write(BD_GUEST_WING, 5774, 2, sheet, %zu)", sizeof sheet);
    same("count", bd_sheet_write(BD_GUEST_WING, 5774, 2, sheet, sizeof sheet).count, sizeof sheet);

    placed(raw_sheet_rows(fresh(), BD_GUEST_WING, sheet, sizeof sheet, 5775));
    WORDS(bd_rows_answer, 0, 380, 306);
    placed(raw_sheets_rows(fresh(), 2, NULL, 0, sheet, sizeof sheet, 5775));
    WORDS(bd_rows_answer, 0, 380, 306);
    placed(raw_sheets_rows(fresh(), 2, NULL, 0, sheet, sizeof sheet, 5776));
    WORDS(bd_rows_answer, 1, 0, 0);
    placed(raw_sheets_rows(fresh(), 1, sheet, sizeof sheet, NULL, 0, 5775));
    WORDS(bd_rows_answer, 19, 0, 0);
    AT(bd_rows_answer, offset, 1), AT(bd_rows_answer, length, 2);

    placed(raw_walk_next(fresh(), &walker, sheet, sizeof sheet));
    WORDS(bd_row, 1, 2456926, 3, 2);
    placed(raw_walk_next(fresh(), &walker, sheet, 0));
    WORDS(bd_row, 0, 0, 0, 0);
    AT(bd_row, more, 0), AT(bd_row, first, 1), AT(bd_row, length, 2), AT(bd_row, wing, 3);
    same("row of the walker", walker, 59);

    uint64_t answer[4];
    same("refusal of a sheet", raw_walk_begin(fresh(), BD_GUEST_WING, sheet, sizeof sheet), 0);
    WORDS(bd_walker, 0);
    raw_walk_next(answer, room + AROUND, sheet, sizeof sheet);
    WORDS(bd_walker, 1);
    same("refusal of 15 bytes", raw_walk_begin(fresh(), BD_GUEST_WING, sheet, 15), 16);
    WORDS(bd_walker, UINT64_MAX);
    AT(bd_walker, row, 0);
}

/* Three days of the guest wing, 15 to 17 Tishri 5775, and the last day. */
static void record_struct(void)
{
    same("refusal of a record set", raw_record_set(fresh(), BD_GUEST_WING, 2456942), 0);
    WORDS(bd_record, 2456942, 2, 5775, 1, 17, 2456940, 3, (uint64_t)INT64_C(-2), 0, 337, 4, 82, 0);
    same("refusal of a record moved back", raw_record_back(room + AROUND), 0);
    WORDS(bd_record, 2456941, 2, 5775, 1, 16, 2456940, 3, (uint64_t)INT64_C(-1), 0, 338, 4, 83, 0);
    same("refusal of a record moved on", raw_record_next(room + AROUND), 0);
    WORDS(bd_record, 2456942, 2, 5775, 1, 17, 2456940, 3, (uint64_t)INT64_C(-2), 0, 337, 4, 82, 0);
    same("refusal of the last day", raw_record_set(room + AROUND, BD_WING_1, BD_LAST_DAY), 0);
    WORDS(bd_record, BD_LAST_DAY, 1, 9999, 13, 29, 0, 0, 0, 1, 0, 0, 0, 1);
    same("refusal behind the last day", raw_record_next(room + AROUND), 4);
    same("refusal of wing 3", raw_record_set(room + AROUND, 3, 2456942), 15);
    WORDS(bd_record, BD_LAST_DAY, 1, 9999, 13, 29, 0, 0, 0, 1, 0, 0, 0, 1);
    AT(bd_record, day, 0), AT(bd_record, wing, 1), AT(bd_record, year, 2), AT(bd_record, month, 3), AT(bd_record, date, 4);
    AT(bd_record, first, 5), AT(bd_record, length, 6), AT(bd_record, days_left, 7), AT(bd_record, none, 8);
    AT(bd_record, remaining, 9), AT(bd_record, fast_month, 10), AT(bd_record, fast_left, 11), AT(bd_record, no_fast, 12);
}

/* The header's own call. */
#define PAIR(type, field, call, number) \
    do { \
        const type answer = call; \
        asking("the words of " #type); \
        same("size", sizeof(type), 16); \
        AT(type, refusal, 0), AT(type, field, 1); \
        same("refusal", answer.refusal, 0); \
        same(#field, answer.field, number); \
    } while (0)

void layout(void)
{
    begin("sizes and offsets");
    large_structs();
    sheet_structs();
    record_struct();
    AT(bd_civil_date, refusal, 0), AT(bd_molad_answer, refusal, 0), AT(bd_notice_answer, refusal, 0);
    AT(bd_new_year_answer, refusal, 0), AT(bd_year_answer, refusal, 0), AT(bd_kind_answer, refusal, 0);
    AT(bd_hebrew_date, refusal, 0), AT(bd_stretch_answer, refusal, 0), AT(bd_rows_answer, refusal, 0);
    AT(bd_charge_answer, refusal, 0);

    uint64_t entries[BD_REST_DAYS_ROOM];
    PAIR(bd_weekday_answer, weekday, bd_weekday(2452171), 3);
    PAIR(bd_civil_day, day, bd_gregorian_to_day(2001, 9, 18), 2452171);
    PAIR(bd_civil_day, day, bd_julian_to_day(2001, 9, 5), 2452171);
    PAIR(bd_year_of_day_answer, year, bd_year_of_day(2452171), 5762);
    PAIR(bd_month_answer, days, bd_month_length(5762, 1), 30);
    PAIR(bd_hebrew_day, day, bd_hebrew_to_day(5762, 8, 15), 2452362);
    PAIR(bd_list_answer, count, bd_rest_days(BD_GUEST_WING, 5762, entries, COUNT(entries)), 13);
    PAIR(bd_list_answer, count, bd_fasts(5784, entries, COUNT(entries)), 5);
    end();
}
