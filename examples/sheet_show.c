/*
 * A panel's sheet in words, to start from where one is loaded: its years, and under each year its rows, the stretches
 * through which the bank carries the load.
 *
 *     sheet_show 1 panel.sheet
 *
 * The sheet stays the bytes that were loaded. A walk that is begun on it for a wing refuses whatever is not, byte for
 * byte, that wing's sheet. So header and index can be believed from there on, and each day of a row has a date. A panel
 * that wants the rows of one year asks bd_sheet_rows, which looks at the whole sheet each time.
 */
#include <errno.h>
#include <inttypes.h>
#include <stdint.h>
#include <stdio.h>
#include <string.h>

#include <bournedrouth.h>
#include <bournedrouth_names.h>

/* The bytes of a header and of an index entry. */
enum { HEADER = 16, ENTRY = 8 };

/* The number in so many bytes of a sheet, the lowest first. */
static uint64_t number_at(const uint8_t *place, int bytes)
{
    uint64_t number = 0;
    while (bytes > 0) number = 256 * number + place[--bytes];
    return number;
}

/* A number of up to 19 figures, which 64 bits hold; whether it is a wing is the library's to say. Other text is 0. */
static uint64_t read_wing(const char *text)
{
    uint64_t wing = 0;
    size_t figures = strspn(text, "0123456789");
    if (figures > 19 || text[figures] != '\0') return 0;
    while (*text != '\0') wing = 10 * wing + (uint64_t)(*text++ - '0');
    return wing;
}

/* A day's Gregorian date and weekday, "2026-09-12 Saturday". */
enum { DAY_TEXT = 60 };

static void put_day(char text[DAY_TEXT], uint64_t day)
{
    bd_civil_date date = bd_day_to_gregorian(day);
    snprintf(text, DAY_TEXT, "%" PRId64 "-%02" PRIu64 "-%02" PRIu64 " %s", date.year, date.month, date.day,
             bd_weekday_name(bd_weekday(day).weekday));
}

/* The first day and, where there are more, the last. */
static void show_row(bd_row row)
{
    char first[DAY_TEXT], last[DAY_TEXT] = "";
    put_day(first, row.first);
    if (row.length > 1) put_day(last, row.first + row.length - 1);
    printf("  %-21s %s %-21s %" PRIu64 " %s  wing %" PRIu64 "\n", first, row.length > 1 ? "to" : "  ", last, row.length,
           row.length == 1 ? "day " : "days", row.wing);
}

/* A walk that has begun goes through all rows, year after year. */
static void show(bd_walker walker, const uint8_t *sheet, size_t length)
{
    uint64_t years = number_at(sheet, 2), first_year = number_at(sheet + 2, 2), all_rows = number_at(sheet + 4, 4);
    printf("years %" PRIu64 " to %" PRIu64 ", %" PRIu64 " rows\n", first_year, first_year + years - 1, all_rows);
    printf("a day begins at sunset the evening before its date\n");
    for (uint64_t i = 0; i < years; ++i) {
        const uint8_t *entry = sheet + HEADER + ENTRY * i;
        uint64_t rows = number_at(entry + 4, 2), days = number_at(entry + 6, 2);
        printf("%" PRIu64 ": %" PRIu64 " days, %" PRIu64 " rows\n", first_year + i, days, rows);
        for (; rows > 0; --rows) show_row(bd_walk_next(&walker, sheet, length));
    }
}

/* Says why; and where the sheet would be accepted for the other wing, that it is that one's. */
static void refused(uint64_t wing, const char *file, const uint8_t *sheet, size_t length, uint64_t refusal)
{
    bd_walker walker;
    uint64_t other = wing == BD_WING_1 ? BD_GUEST_WING : BD_WING_1;
    fprintf(stderr, "sheet_show: %s: %s (refusal %" PRIu64 ")\n", file, bd_refusal_name(refusal), refusal);
    if (refusal == BD_BAD_SHEET_CONTENT && bd_walk_begin(&walker, other, sheet, length) == BD_DONE)
        fprintf(stderr, "sheet_show: %s: it is the sheet of wing %" PRIu64 "\n", file, other);
}

int main(int argc, char **argv)
{
    /* a byte more than any written sheet has: a longer file is cut here, and refused */
    static uint8_t sheet[BD_SHEET_ROOM + 1];
    if (argc != 3 || *argv[2] == '\0') {
        fprintf(stderr, "usage: sheet_show WING FILE\n"
                        "WING is 1 or, for the guest wing, 2;\n"
                        "FILE is that wing's sheet that a panel loads, as make sheet writes it\n");
        return 2;
    }
    const char *typed = argv[1], *name = argv[2];
    FILE *file = fopen(name, "rb");
    size_t length = file == NULL ? 0 : fread(sheet, 1, sizeof sheet, file);
    if (file == NULL || ferror(file)) {
        fprintf(stderr, "sheet_show: %s: cannot be read: %s\n", name, strerror(errno));
        return 1;
    }
    fclose(file);
    bd_walker walker;
    uint64_t wing = read_wing(typed), refusal = bd_walk_begin(&walker, wing, sheet, length);
    if (refusal == BD_DONE)
        show(walker, sheet, length);
    else if (refusal == BD_BAD_WING)
        fprintf(stderr, "sheet_show: '%s' is refused: a wing is 1 or 2, in figures alone (refusal %" PRIu64 ")\n", typed,
                refusal);
    else
        refused(wing, name, sheet, length, refusal);
    if (fflush(stdout) != 0) {
        fprintf(stderr, "sheet_show: cannot be printed: %s\n", strerror(errno));
        return 1;
    }
    return refusal == BD_DONE ? 0 : 1;
}
