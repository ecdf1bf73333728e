/* The tests' own reader of sheets, and what the archive answers beside it. */
#include "reader.h"

#include <stdio.h>
#include <string.h>

#include "bytes.h"

/* The count of rows in an index entry. */
static uint64_t count_of(const uint8_t *sheet, uint64_t entry) { return number_at(sheet + HEADER + ENTRY * entry + 4, 2); }

/* What a sheet of a wing has for a year besides offsets: the index's count and length, and the rows. */
typedef struct {
    uint8_t told[4], rows[ROW * BD_STRETCHES_ROOM / 2];
    size_t size;
} year_content;

/* Worked out when it is first asked for, and kept. */
static const year_content *content_of(uint64_t wing, uint64_t year)
{
    static year_content kept[2][10000];
    year_content *content = &kept[wing - 1][year];
    if (content->size > 0) return content;
    uint64_t list[BD_STRETCHES_ROOM];
    bd_list_answer stretches = bd_stretches(wing, year, list, COUNT(list));
    bd_year_answer days = bd_year(year);
    same("refusal of the year's list", stretches.refusal, BD_DONE), same("refusal of the year", days.refusal, BD_DONE);
    uint64_t count = stretches.count;
    put_number(put_number(content->told, count, 2), days.length, 2);
    uint8_t *out = content->rows;
    for (uint64_t i = 0; i < count; ++i)
        out = put_number(put_number(put_number(out, list[2 * i], 4), list[2 * i + 1], 1), wing, 1);
    content->size = ROW * count;
    return content;
}

/* Whether a sheet that fits the layout is the calendar's: where the counts are, all rows stand inside it. */
static int is_calendars(uint64_t wing, const uint8_t *sheet, uint64_t first_year, uint64_t years)
{
    const uint8_t *rows = sheet + HEADER + ENTRY * years;
    for (uint64_t i = 0; i < years; ++i) {
        const year_content *content = content_of(wing, first_year + i);
        if (memcmp(sheet + HEADER + ENTRY * i + 4, content->told, sizeof content->told) != 0) return 0;
        if (memcmp(rows, content->rows, content->size) != 0) return 0;
        rows += content->size;
    }
    return 1;
}

/* Whether the bytes fit the layout of so many years. */
static int fits(const uint8_t *sheet, size_t length, uint64_t first_year, uint64_t years)
{
    uint8_t anew[HEADER + ENTRY * BD_SHEET_YEARS], *out = anew + HEADER;
    uint64_t rows_offset = HEADER + ENTRY * years, rows = 0;
    if (length < rows_offset) return 0;
    for (uint64_t i = 0; i < years; ++i) {
        out = put_number(out, rows_offset + ROW * rows, 4);
        out = put_number(out, count_of(sheet, i), 2);
        out = put_number(out, number_at(sheet + HEADER + ENTRY * i + 6, 2), 2);
        rows += count_of(sheet, i);
    }
    out = put_number(put_number(put_number(anew, years, 2), first_year, 2), rows, 4);
    put_number(put_number(out, HEADER, 4), rows_offset, 4);
    return memcmp(anew, sheet, rows_offset) == 0 && length == rows_offset + ROW * rows;
}

uint64_t read_refusal(uint64_t wing, const uint8_t *sheet, size_t length)
{
    if (wing != BD_WING_1 && wing != BD_GUEST_WING) return BD_BAD_WING;
    if (length < HEADER) return BD_SHEET_TOO_SHORT;
    uint64_t years = number_at(sheet, 2), first_year = number_at(sheet + 2, 2);
    if (years < 1 || years > BD_SHEET_YEARS) return BD_BAD_SHEET_YEARS;
    if (first_year < 1 || first_year + years - 1 > 9999) return BD_BAD_SHEET_YEARS;
    if (!fits(sheet, length, first_year, years)) return BD_BAD_SHEET_LAYOUT;
    return is_calendars(wing, sheet, first_year, years) ? BD_DONE : BD_BAD_SHEET_CONTENT;
}

bd_rows_answer read_rows(uint64_t wing, const uint8_t *sheet, size_t length, uint64_t year)
{
    bd_rows_answer answer = {read_refusal(wing, sheet, length), 0, 0};
    if (answer.refusal != BD_DONE) return answer;
    uint64_t years = number_at(sheet, 2), first_year = number_at(sheet + 2, 2);
    if (year < first_year || year > first_year + years - 1) {
        answer.refusal = BD_BAD_YEAR;
        return answer;
    }
    answer.offset = HEADER + ENTRY * years;
    for (uint64_t i = 0; i < year - first_year; ++i) answer.offset += ROW * count_of(sheet, i);
    answer.length = ROW * count_of(sheet, year - first_year);
    return answer;
}

bd_row read_row(const uint8_t *sheet, size_t length, uint64_t number)
{
    bd_row row = {0, 0, 0, 0};
    if (length < HEADER || number >= number_at(sheet + 4, 4)) return row;
    uint64_t offset = HEADER + ENTRY * number_at(sheet, 2) + ROW * number;
    if (offset + ROW > length) return row;
    row.more = 1;
    row.first = number_at(sheet + offset, 4);
    row.length = sheet[offset + 4];
    row.wing = sheet[offset + 5];
    return row;
}

size_t write_sheet(uint8_t *out, size_t room, uint64_t wing, uint64_t first_year, uint64_t years)
{
    bd_list_answer answer = bd_sheet_write(wing, first_year, years, out, room);
    asking("bd_sheet_write(%" PRIu64 ", %" PRIu64 ", %" PRIu64 ", out, %zu)", wing, first_year, years, room);
    same("refusal", answer.refusal, BD_DONE);
    sheet_is("the sheet from", first_year);
    return answer.count;
}

static const char *sheet_name;
static uint64_t sheet_number;

void sheet_is(const char *what, uint64_t number)
{
    sheet_name = what;
    sheet_number = number;
}

void same_answer(const char *question, bd_rows_answer got, uint64_t refusal, uint64_t offset, uint64_t length)
{
    asking("%s %" PRIu64 ": %s", sheet_name, sheet_number, question);
    same("refusal", got.refusal, refusal), same("offset", got.offset, offset), same("length", got.length, length);
}

/* There are millions of these: a question is put into words, and its fields are told apart, where the answer differs. */
static uint64_t as_read(const char *call, uint64_t named, uint64_t year, bd_rows_answer got, bd_rows_answer want)
{
    int differs = memcmp(&got, &want, sizeof got) != 0;
    if (differs) {
        char question[80];
        snprintf(question, sizeof question, "%s %" PRIu64 " for %" PRIu64, call, named, year);
        same_answer(question, got, want.refusal, want.offset, want.length);
    }
    same("answer differs", (uint64_t)differs, 0);
    return got.refusal;
}

uint64_t same_rows(uint64_t wing, const uint8_t *sheet, size_t length, uint64_t year)
{
    return as_read("bd_sheet_rows, wing", wing, year, bd_sheet_rows(wing, sheet, length, year),
                   read_rows(wing, sheet, length, year));
}

uint64_t same_named_rows(uint64_t named, const uint8_t *sheet_1, size_t length_1, const uint8_t *sheet_2, size_t length_2,
                         uint64_t year)
{
    bd_rows_answer want = {BD_BAD_WING, 0, 0};
    if (named == 1) want = read_rows(BD_WING_1, sheet_1, length_1, year);
    if (named == 2) want = read_rows(BD_GUEST_WING, sheet_2, length_2, year);
    return as_read("bd_sheets_rows, sheet", named, year,
                   bd_sheets_rows(named, sheet_1, length_1, sheet_2, length_2, year), want);
}

uint64_t same_step(bd_walker *walker, const uint8_t *sheet, size_t length)
{
    uint64_t number = walker->row;
    bd_row want = read_row(sheet, length, number), got = bd_walk_next(walker, sheet, length);
    int differs = memcmp(&got, &want, sizeof got) != 0 || walker->row != number + want.more;
    if (differs) {
        asking("%s %" PRIu64 ", %zu bytes: bd_walk_next at row %" PRIu64, sheet_name, sheet_number, length, number);
        same("more", got.more, want.more), same("first", got.first, want.first), same("length", got.length, want.length);
        same("wing", got.wing, want.wing), same("row of the walker", walker->row, number + want.more);
    }
    same("row differs", (uint64_t)differs, 0);
    return got.more;
}

void same_walk(uint64_t wing, const uint8_t *sheet, size_t length, uint64_t steps)
{
    bd_walker walker = {GUARD};
    uint64_t refusal = bd_walk_begin(&walker, wing, sheet, length), want = read_refusal(wing, sheet, length);
    uint64_t first = want == BD_DONE ? 0 : UINT64_MAX;
    if (refusal != want || walker.row != first)
        asking("%s %" PRIu64 ", %zu bytes: bd_walk_begin, wing %" PRIu64, sheet_name, sheet_number, length, wing);
    same("refusal", refusal, want), same("row of the walker", walker.row, first);

    uint64_t rows = want == BD_DONE ? (length - HEADER - ENTRY * number_at(sheet, 2)) / ROW : 0;
    for (uint64_t i = 0; i < steps && i < rows + 3; ++i)
        same("a row is handed out", same_step(&walker, sheet, length), i < rows);
}

void same_refusal(uint64_t wing, const uint8_t *sheet, size_t length, uint64_t refusal)
{
    uint64_t year = length < HEADER ? 5787 : number_at(sheet + 2, 2); /* a first year, if it is one */
    const uint8_t *one = wing == 2 ? NULL : sheet, *two = wing == 2 ? sheet : NULL;
    size_t n = wing == 2 ? 0 : length, m = wing == 2 ? length : 0;
    asking("%s %" PRIu64 ", %zu bytes, wing %" PRIu64, sheet_name, sheet_number, length, wing);
    same("the reader's refusal", read_refusal(wing, sheet, length), refusal);
    same_answer("its first year", bd_sheet_rows(wing, sheet, length, year), refusal, 0, 0);
    same_answer("the year before", bd_sheet_rows(wing, sheet, length, year - 1), refusal, 0, 0);
    same_answer("the largest year", bd_sheet_rows(wing, sheet, length, UINT64_MAX), refusal, 0, 0);
    same_answer("of two, its first year", bd_sheets_rows(wing, one, n, two, m, year), refusal, 0, 0);
    same_answer("of two, year 0", bd_sheets_rows(wing, one, n, two, m, 0), refusal, 0, 0);
    same_walk(wing, sheet, length, ALL_STEPS);
}
