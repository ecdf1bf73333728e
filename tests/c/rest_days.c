/* Rest days and stretches, and the buffers that are lent for them. */
#include <stdlib.h>

#include "check.h"

#include "lists.h"

typedef struct {
    uint64_t day, first, length;
    int64_t days_left;
} stretch_row;

static const stretch_row WING_1[] = {
    {347998, 347998, 2, 0},    {347999, 347998, 2, -1},   {348000, 348003, 1, 3},    {2452171, 2452171, 2, 0},
    {2452172, 2452171, 2, -1}, {2452173, 2452175, 1, 2},  {2452175, 2452175, 1, 0},  {2452176, 2452180, 1, 4},
    {2452411, 2452412, 2, 1},  {2452412, 2452412, 2, 0},  {2452413, 2452412, 2, -1}, {2452414, 2452420, 1, 6},
    {2456925, 2456926, 3, 1},  {2456926, 2456926, 3, 0},  {2456927, 2456926, 3, -1}, {2456928, 2456926, 3, -2},
    {2456929, 2456935, 1, 6},  {2456934, 2456935, 1, 1},  {2456935, 2456935, 1, 0},  {2456936, 2456940, 1, 4},
    {2456940, 2456940, 1, 0},  {2456941, 2456942, 1, 1},  {2457288, 2457289, 1, 1},  {3999722, 3999723, 2, 1},
    {3999723, 3999723, 2, 0},  {4000064, 4000064, 1, 0},  {4000065, 4000071, 1, 6},  {4000070, 4000071, 1, 1},
    {4000071, 4000071, 1, 0},
};

static const stretch_row GUEST_WING[] = {
    {347998, 347998, 2, 0},    {347999, 347998, 2, -1},   {348000, 348003, 1, 3},    {348012, 348012, 2, 0},
    {348013, 348012, 2, -1},   {348014, 348017, 1, 3},    {2452184, 2452185, 2, 1},  {2452185, 2452185, 2, 0},
    {2452186, 2452185, 2, -1}, {2452187, 2452189, 1, 2},  {2452192, 2452192, 2, 0},  {2452193, 2452192, 2, -1},
    {2452194, 2452196, 1, 2},  {2452362, 2452362, 3, 0},  {2452363, 2452362, 3, -1}, {2452364, 2452362, 3, -2},
    {2452365, 2452368, 2, 3},  {2452412, 2452412, 2, 0},  {2452413, 2452412, 2, -1}, {2452414, 2452420, 1, 6},
    {2456926, 2456926, 3, 0},  {2456928, 2456926, 3, -2}, {2456929, 2456935, 1, 6},  {2456939, 2456940, 3, 1},
    {2456940, 2456940, 3, 0},  {2456941, 2456940, 3, -1}, {2456942, 2456940, 3, -2}, {2456943, 2456947, 3, 4},
    {2456947, 2456947, 3, 0},  {2456948, 2456947, 3, -1}, {2456949, 2456947, 3, -2}, {2456950, 2456956, 1, 6},
    {2457117, 2457117, 2, 0},  {2457118, 2457117, 2, -1}, {2457119, 2457123, 2, 4},  {2457123, 2457123, 2, 0},
    {2457124, 2457123, 2, -1}, {2457125, 2457131, 1, 6},  {2457165, 2457166, 3, 1},  {2457166, 2457166, 3, 0},
    {2457167, 2457166, 3, -1}, {2457168, 2457166, 3, -2}, {2457169, 2457173, 1, 4},  {4000065, 4000071, 1, 6},
    {4000070, 4000071, 1, 1},  {4000071, 4000071, 1, 0},
};

static const stretch_row NO_STRETCH = {0, 0, 0, 0};

/* The rest days of 5762 as document 01 prints them, and those of a year whose New Year is on a Thursday. */
static const uint64_t REST_5762[] = {2452171, 2452172, 2452180, 2452185, 2452192, 2452362, 2452368, 2452412};
static const uint64_t REST_5775[] = {2456926, 2456927, 2456935, 2456940, 2456947, 2457117, 2457123, 2457167};

/* The guest wing's of the same years. */
static const uint64_t GUEST_REST_5762[] = {2452171, 2452172, 2452180, 2452185, 2452186, 2452192, 2452193,
                                           2452362, 2452363, 2452368, 2452369, 2452412, 2452413};
static const uint64_t GUEST_REST_5775[] = {2456926, 2456927, 2456935, 2456940, 2456941, 2456947, 2456948,
                                           2457117, 2457118, 2457123, 2457124, 2457167, 2457168};

/* All stretches of 5762 in wing 1, and of 5775 in the guest wing. */
static const uint64_t STRETCHES_5762[] = {
    2452171, 2, 2452175, 1, 2452180, 1, 2452182, 1, 2452185, 1, 2452189, 1, 2452192, 1, 2452196, 1,
    2452203, 1, 2452210, 1, 2452217, 1, 2452224, 1, 2452231, 1, 2452238, 1, 2452245, 1, 2452252, 1,
    2452259, 1, 2452266, 1, 2452273, 1, 2452280, 1, 2452287, 1, 2452294, 1, 2452301, 1, 2452308, 1,
    2452315, 1, 2452322, 1, 2452329, 1, 2452336, 1, 2452343, 1, 2452350, 1, 2452357, 1, 2452362, 1,
    2452364, 1, 2452368, 1, 2452371, 1, 2452378, 1, 2452385, 1, 2452392, 1, 2452399, 1, 2452406, 1,
    2452412, 2, 2452420, 1, 2452427, 1, 2452434, 1, 2452441, 1, 2452448, 1, 2452455, 1, 2452462, 1,
    2452469, 1, 2452476, 1, 2452483, 1, 2452490, 1, 2452497, 1, 2452504, 1, 2452511, 1, 2452518, 1,
};
static const uint64_t GUEST_STRETCHES_5775[] = {
    2456926, 3, 2456935, 1, 2456940, 3, 2456947, 3, 2456956, 1, 2456963, 1, 2456970, 1, 2456977, 1,
    2456984, 1, 2456991, 1, 2456998, 1, 2457005, 1, 2457012, 1, 2457019, 1, 2457026, 1, 2457033, 1,
    2457040, 1, 2457047, 1, 2457054, 1, 2457061, 1, 2457068, 1, 2457075, 1, 2457082, 1, 2457089, 1,
    2457096, 1, 2457103, 1, 2457110, 1, 2457117, 2, 2457123, 2, 2457131, 1, 2457138, 1, 2457145, 1,
    2457152, 1, 2457159, 1, 2457166, 3, 2457173, 1, 2457180, 1, 2457187, 1, 2457194, 1, 2457201, 1,
    2457208, 1, 2457215, 1, 2457222, 1, 2457229, 1, 2457236, 1, 2457243, 1, 2457250, 1, 2457257, 1,
    2457264, 1, 2457271, 1, 2457278, 1,
};

static void stretch(uint64_t wing, uint64_t day, uint64_t refusal, const stretch_row *want)
{
    bd_stretch_answer got = bd_stretch(wing, day);
    asking("bd_stretch(%" PRIu64 ", %" PRIu64 ")", wing, day);
    same("refusal", got.refusal, refusal);
    same("first", got.first, want->first), same("length", got.length, want->length);
    same_signed("days_left", got.days_left, want->days_left);
}

/* A wing's rows, the days after its last stretch, and days that are refused. */
static void stretch_rows(uint64_t wing, const stretch_row *rows, size_t count)
{
    for (size_t i = 0; i < count; ++i) stretch(wing, rows[i].day, BD_DONE, &rows[i]);
    for (uint64_t day = 4000072; day <= BD_LAST_DAY; ++day) stretch(wing, day, BD_NO_STRETCH, &NO_STRETCH);
    for (size_t i = 0; i < COUNT(BAD_DAYS); ++i) stretch(wing, BAD_DAYS[i], BD_DAY_OUT_OF_RANGE, &NO_STRETCH);
}

static const lister REST_DAYS = {"bd_rest_days", bd_rest_days, 0}, STRETCHES = {"bd_stretches", bd_stretches, 0};

static void bad_years(uint64_t wing, uint64_t refusal)
{
    for (size_t i = 0; i < COUNT(BAD_YEARS); ++i) {
        refused_list(&REST_DAYS, wing, BAD_YEARS[i], refusal);
        refused_list(&STRETCHES, wing, BAD_YEARS[i], refusal);
    }
}

/* A bad wing comes before every other refusal. */
static void bad_wing(uint64_t wing)
{
    stretch(wing, 2456928, BD_BAD_WING, &NO_STRETCH);
    stretch(wing, BD_LAST_DAY, BD_BAD_WING, &NO_STRETCH);
    for (size_t i = 0; i < COUNT(BAD_DAYS); ++i) stretch(wing, BAD_DAYS[i], BD_BAD_WING, &NO_STRETCH);
    refused_list(&REST_DAYS, wing, 5762, BD_BAD_WING);
    refused_list(&STRETCHES, wing, 5762, BD_BAD_WING);
    bad_years(wing, BD_BAD_WING);
}

/* The header's example: ask for the room, then for the list. */
static void asked_for(void)
{
    bd_list_answer wanted = bd_stretches(BD_WING_1, 5762, NULL, 0);
    asking("bd_stretches(BD_WING_1, 5762, NULL, 0)");
    same("refusal", wanted.refusal, BD_BUFFER_TOO_SHORT), same("count", wanted.count, 112);
    uint64_t *out = malloc(wanted.count * sizeof *out);
    same("no memory", out == NULL, 0);
    bd_list_answer list = bd_stretches(BD_WING_1, 5762, out, wanted.count);
    asking("bd_stretches(BD_WING_1, 5762, out, 112)");
    same("refusal", list.refusal, BD_DONE), same("count", list.count, 56);
    for (size_t i = 0; i < COUNT(STRETCHES_5762); ++i) same("entry", out[i], STRETCHES_5762[i]);
    free(out);
}

void rest_days(void)
{
    begin("rest days, stretches and lent buffers");
    stretch_rows(BD_WING_1, WING_1, COUNT(WING_1));
    stretch_rows(BD_GUEST_WING, GUEST_WING, COUNT(GUEST_WING));
    every_length(&REST_DAYS, BD_WING_1, 5762, 8, REST_5762, COUNT(REST_5762));
    every_length(&REST_DAYS, BD_WING_1, 5775, 8, REST_5775, COUNT(REST_5775));
    every_length(&REST_DAYS, BD_GUEST_WING, 5762, 13, GUEST_REST_5762, COUNT(GUEST_REST_5762));
    every_length(&REST_DAYS, BD_GUEST_WING, 5775, 13, GUEST_REST_5775, COUNT(GUEST_REST_5775));
    every_length(&STRETCHES, BD_WING_1, 5762, 56, STRETCHES_5762, COUNT(STRETCHES_5762));
    every_length(&STRETCHES, BD_GUEST_WING, 5775, 51, GUEST_STRETCHES_5775, COUNT(GUEST_STRETCHES_5775));
    for (uint64_t wing = BD_WING_1; wing <= BD_GUEST_WING; ++wing) bad_years(wing, BD_BAD_YEAR);
    for (size_t i = 0; i < COUNT(BAD_WINGS); ++i) bad_wing(BAD_WINGS[i]);
    asked_for();
    end();
}
