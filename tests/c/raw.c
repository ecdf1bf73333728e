/* Declares the functions as the calling convention of x86-64 has them; this file must not see the header. */
#include "raw.h"

raw_1 bd_day_to_julian, bd_day_to_gregorian, bd_new_year, bd_new_year_rhodes, bd_year, bd_kind, bd_day_to_hebrew;
raw_2 bd_molad, bd_notice, bd_stretch;
raw_6 bd_charge_start;
raw_rows bd_sheet_rows;
raw_named_rows bd_sheets_rows;
raw_begin bd_walk_begin;
raw_step bd_walk_next;
raw_set bd_record_set;
raw_move bd_record_next, bd_record_back;

raw_1 *const raw_day_to_julian = bd_day_to_julian, *const raw_day_to_gregorian = bd_day_to_gregorian,
             *const raw_new_year = bd_new_year, *const raw_new_year_rhodes = bd_new_year_rhodes,
             *const raw_year = bd_year, *const raw_kind = bd_kind, *const raw_day_to_hebrew = bd_day_to_hebrew;
raw_2 *const raw_molad = bd_molad, *const raw_notice = bd_notice, *const raw_stretch = bd_stretch;
raw_6 *const raw_charge_start = bd_charge_start;
raw_rows *const raw_sheet_rows = bd_sheet_rows;
raw_named_rows *const raw_sheets_rows = bd_sheets_rows;
raw_begin *const raw_walk_begin = bd_walk_begin;
raw_step *const raw_walk_next = bd_walk_next;
raw_set *const raw_record_set = bd_record_set;
raw_move *const raw_record_next = bd_record_next, *const raw_record_back = bd_record_back;
