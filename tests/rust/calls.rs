//! The archive called from Rust, against a calendar of this file's own: months counted one by one, the four delays, and
//! dates found by walking a year's months.

use std::collections::BTreeSet;

#[repr(C)]
struct NewYear {
    refusal: u64,
    day: u64,
    weekday: u64,
    molad_day: u64,
    molad_hour: u64,
    molad_part: u64,
    delay: u64,
    cause: u64,
}

#[repr(C)]
struct Notice {
    refusal: u64,
    day: u64,
    weekday: u64,
    hour: u64,
    minute: u64,
    part: u64,
}

#[repr(C)]
struct Kind {
    refusal: u64,
    kind: u64,
    weekday: u64,
    length: u64,
}

#[repr(C)]
struct HebrewDate {
    refusal: u64,
    year: u64,
    month: u64,
    day: u64,
    new_year: u64,
    length: u64,
    day_of_year: u64,
}

#[repr(C)]
struct Pair {
    refusal: u64,
    number: u64,
}

#[repr(C)]
struct Stretch {
    refusal: u64,
    first: u64,
    length: u64,
    days_left: i64,
}

#[repr(C)]
#[derive(Debug, PartialEq)]
struct Charge {
    refusal: u64,
    start: u64,
    hours: u64,
    first: u64,
    length: u64,
}

#[repr(C)]
#[derive(Clone, Copy, Debug, Default, PartialEq)]
struct Record {
    day: u64,
    wing: u64,
    year: u64,
    month: u64,
    date: u64,
    first: u64,
    length: u64,
    days_left: i64,
    none: u64,
    remaining: u64,
    fast_month: u64,
    fast_left: u64,
    no_fast: u64,
}

#[repr(C)]
struct Rows {
    refusal: u64,
    offset: u64,
    length: u64,
}

#[repr(C)]
struct Walker {
    row: u64,
}

#[repr(C)]
struct Row {
    more: u64,
    first: u64,
    length: u64,
    wing: u64,
}

extern "C" {
    fn bd_new_year(year: u64) -> NewYear;
    fn bd_new_year_rhodes(year: u64) -> NewYear;
    fn bd_notice(year: u64, month: u64) -> Notice;
    fn bd_kind(year: u64) -> Kind;
    fn bd_day_to_hebrew(day: u64) -> HebrewDate;
    fn bd_hebrew_to_day(year: u64, month: u64, day: u64) -> Pair;
    fn bd_month_length(year: u64, month: u64) -> Pair;
    fn bd_stretch(wing: u64, day: u64) -> Stretch;
    fn bd_charge_start(wing: u64, day: u64, draw: u64, capacity: u64, rate: u64, charge: u64) -> Charge;
    fn bd_record_set(record: *mut Record, wing: u64, day: u64) -> u64;
    fn bd_record_next(record: *mut Record) -> u64;
    fn bd_record_back(record: *mut Record) -> u64;
    fn bd_fasts(year: u64, out: *mut u64, length: usize) -> Pair;
    fn bd_stretches(wing: u64, year: u64, out: *mut u64, length: usize) -> Pair;
    fn bd_sheet_write(wing: u64, first_year: u64, years: u64, out: *mut u8, length: usize) -> Pair;
    fn bd_sheet_rows(wing: u64, sheet: *const u8, length: usize, year: u64) -> Rows;
    fn bd_sheets_rows(
        named: u64,
        sheet_1: *const u8,
        length_1: usize,
        sheet_2: *const u8,
        length_2: usize,
        year: u64,
    ) -> Rows;
    fn bd_walk_begin(walker: *mut Walker, wing: u64, sheet: *const u8, length: usize) -> u64;
    fn bd_walk_next(walker: *mut Walker, sheet: *const u8, length: usize) -> Row;
}

const HOUR: u64 = 1080;
const DAY: u64 = 24 * HOUR;
const MONTH: u64 = 29 * DAY + 12 * HOUR + 793;
const FIRST_DAY: u64 = 347_998;
/// Month and day of each fast.
const FAST_TABLE: [(u64, u64); 5] = [(1, 3), (4, 10), (7, 13), (11, 17), (12, 9)];
/// Month, day and the first wing that keeps it: wing 2 keeps those of wing 1 too.
const REST_TABLE: [(u64, u64, u64); 13] = [
    (1, 1, 1),
    (1, 2, 1),
    (1, 10, 1),
    (1, 15, 1),
    (1, 16, 2),
    (1, 22, 1),
    (1, 23, 2),
    (8, 15, 1),
    (8, 16, 2),
    (8, 21, 1),
    (8, 22, 2),
    (10, 6, 1),
    (10, 7, 2),
];

fn leap(year: u64) -> bool {
    matches!(year % 19, 0 | 3 | 6 | 8 | 11 | 14 | 17)
}

fn weekday(day: u64) -> u64 {
    (day + 1) % 7 + 1
}

/// The days from a molad of Tishri on a day at a time to New Year, and the cause.
fn delayed(year: u64, day: u64, time: u64) -> (u64, u64) {
    let before_noon = time < 18 * HOUR;
    match weekday(day) {
        3 if !leap(year) && time >= 9 * HOUR + 204 && before_noon => return (2, 4),
        2 if year > 1 && leap(year - 1) && time >= 15 * HOUR + 589 && before_noon => return (1, 5),
        _ => {}
    }
    let noon = if before_noon { 0 } else { 1 };
    let closed = if matches!(weekday(day + noon), 1 | 4 | 6) { 1 } else { 0 };
    (noon + closed, noon + 2 * closed)
}

/// A year's New Year, with the molad of Tishri in parts from the first day.
struct Begins {
    molad: u64,
    delay: u64,
    cause: u64,
    day: u64,
}

/// Years 1 to 10,000, the first at entry 0.
fn count_years() -> Vec<Begins> {
    let (mut years, mut molad) = (Vec::new(), 5 * HOUR + 204);
    for year in 1..=10_000 {
        let day = FIRST_DAY + molad / DAY;
        let (delay, cause) = delayed(year, day, molad % DAY);
        years.push(Begins { molad, delay, cause, day: day + delay });
        for _ in 0..if leap(year) { 13 } else { 12 } {
            molad += MONTH;
        }
    }
    years
}

/// The months of a year that has so many days: code and length.
fn months(year: u64, length: u64) -> Vec<(u64, u64)> {
    (1..=13)
        .filter(|&code| code != 6 || leap(year))
        .map(|code| {
            let days = match code {
                2 if length % 10 == 5 => 30,
                3 if length % 10 == 3 => 29,
                6 => 30,
                1..=5 => 29 + code % 2,
                _ => 30 - code % 2,
            };
            (code, days)
        })
        .collect()
}

/// Every New Year by both routes; returns how many were asked.
fn new_years(years: &[Begins]) -> u64 {
    for (year, begins) in (1u64..).zip(years) {
        let Begins { molad, delay, cause, day } = *begins;
        let molad = (FIRST_DAY + molad / DAY, molad % DAY / HOUR, molad % HOUR);
        for got in unsafe { [bd_new_year(year), bd_new_year_rhodes(year)] } {
            assert_eq!((got.refusal, got.day, got.weekday), (0, day, weekday(day)), "New Year {year}");
            assert_eq!((got.molad_day, got.molad_hour, got.molad_part), molad, "molad of New Year {year}");
            assert_eq!((got.delay, got.cause), (delay, cause), "delay of New Year {year}");
        }
    }
    for year in [0, 10_001, u64::MAX] {
        for got in unsafe { [bd_new_year(year), bd_new_year_rhodes(year)] } {
            assert_eq!((got.refusal, got.day, got.molad_part, got.delay, got.cause), (1, 0, 0, 0, 0), "New Year {year}");
        }
    }
    2 * years.len() as u64
}

/// Every month's notice, from the molad's parts since midnight; returns how many were asked.
fn notices(years: &[Begins]) -> u64 {
    let mut asked = 0;
    for (year, pair) in (1u64..).zip(years.windows(2)) {
        let molads = (pair[0].molad..).step_by(MONTH as usize);
        for ((month, _), molad) in months(year, pair[1].day - pair[0].day).into_iter().zip(molads) {
            let parts = FIRST_DAY * DAY + molad - 6 * HOUR;
            let (day, clock) = (parts / DAY, parts % DAY);
            let want = (0, day, weekday(day), clock / HOUR, clock % HOUR / 18, clock % 18);
            let got = unsafe { bd_notice(year, month) };
            let got = (got.refusal, got.day, got.weekday, got.hour, got.minute, got.part);
            assert_eq!(got, want, "notice of {year} {month}");
            asked += 1;
        }
    }
    for (year, month, refusal) in [(0, 1, 1), (10_000, 0, 1), (5762, 6, 2), (5763, 14, 2), (1, u64::MAX, 2)] {
        let got = unsafe { bd_notice(year, month) };
        let got = (got.refusal, got.day, got.weekday, got.hour, got.minute, got.part);
        assert_eq!(got, (refusal, 0, 0, 0, 0, 0), "notice of {year} {month}");
    }
    asked
}

/// Every year's kind: the place of its weekday and length among those that years have, in rising order; returns how
/// many kinds there are.
fn kinds(years: &[Begins]) -> usize {
    let weekday_and_length = |pair: &[Begins]| (weekday(pair[0].day), pair[1].day - pair[0].day);
    let kinds: BTreeSet<(u64, u64)> = years.windows(2).map(weekday_and_length).collect();
    for (year, pair) in (1u64..).zip(years.windows(2)) {
        let want = weekday_and_length(pair);
        let kind = kinds.range(..=want).count() as u64;
        let got = unsafe { bd_kind(year) };
        assert_eq!((got.refusal, got.kind, (got.weekday, got.length)), (0, kind, want), "kind of {year}");
    }
    for year in [0, 10_000, 1 << 32 | 5762, u64::MAX] {
        let got = unsafe { bd_kind(year) };
        assert_eq!((got.refusal, got.kind, got.weekday, got.length), (1, 0, 0, 0), "kind of {year}");
    }
    assert_eq!(kinds.len(), 14, "kinds of year");
    kinds.len()
}

/// The first wing in which a day rests, if it does in one.
fn rests_from(day: u64, month: u64, date: u64) -> Option<u64> {
    if weekday(day) == 7 {
        return Some(1);
    }
    REST_TABLE.iter().find(|row| (row.0, row.1) == (month, date)).map(|row| row.2)
}

/// Every day of a year there and back, and the days that rest, each with the first wing in which it does; returns how many
/// days it has.
fn dates(year: u64, new_year: u64, length: u64, rest: &mut Vec<(u64, u64)>) -> u64 {
    let mut day = new_year;
    for (month, days) in months(year, length) {
        let got = unsafe { bd_month_length(year, month) };
        assert_eq!((got.refusal, got.number), (0, days), "length of month {month} of {year}");
        for date in 1..=days {
            let got = unsafe { bd_day_to_hebrew(day) };
            let got = (got.refusal, got.year, got.month, got.day, got.new_year, got.length, got.day_of_year);
            assert_eq!(got, (0, year, month, date, new_year, length, day - new_year + 1), "day {day}");
            let got = unsafe { bd_hebrew_to_day(year, month, date) };
            assert_eq!((got.refusal, got.number), (0, day), "{year} {month} {date}");
            rest.extend(rests_from(day, month, date).map(|wing| (day, wing)));
            day += 1;
        }
    }
    assert_eq!(day, new_year + length, "days of {year}");
    length
}

/// A year's stretches in a wing, as a list and day by day; returns them, first day and length of each. The days of `rest`
/// are those of this year, rising.
fn stretches(wing: u64, year: u64, new_year: u64, rest: &[(u64, u64)]) -> Vec<(u64, u64)> {
    let mut runs: Vec<(u64, u64)> = Vec::new();
    for &(day, _) in rest.iter().filter(|&&(_, from)| from <= wing) {
        match runs.last_mut() {
            Some((first, length)) if *first + *length == day => *length += 1,
            _ => runs.push((day, 1)),
        }
    }
    let mut out = [u64::MAX; 130];
    let got = unsafe { bd_stretches(wing, year, out.as_mut_ptr(), out.len()) };
    assert_eq!((got.refusal, got.number), (0, runs.len() as u64), "stretches of {year}, wing {wing}");
    let list: Vec<u64> = runs.iter().flat_map(|&(first, length)| [first, length]).collect();
    assert_eq!(out[..list.len()], list, "stretches of {year}, wing {wing}");
    let beyond = &out[list.len()..];
    assert!(beyond.iter().all(|&entry| entry == u64::MAX), "stretches of {year}, wing {wing}: an entry beyond the list");
    let mut day = new_year;
    for &(first, length) in &runs {
        while day < first + length {
            let got = unsafe { bd_stretch(wing, day) };
            let want = (0, first, length, first as i64 - day as i64);
            assert_eq!((got.refusal, got.first, got.length, got.days_left), want, "stretch for {day}, wing {wing}");
            day += 1;
        }
    }
    runs
}

/// When charging must begin on every day of a wing, by the stretch that begins next and the one before it: for a bank that
/// bears two days, and chargers that take more and less than a day. Returns how many were asked.
fn charges(wing: u64, told: &[(u64, Vec<(u64, u64)>)]) -> u64 {
    let refused = |refusal: u64| Charge { refusal, start: 0, hours: 0, first: 0, length: 0 };
    let stretches: Vec<(u64, u64)> = told.iter().flat_map(|(_, runs)| runs.iter().copied()).collect();
    let mut asked = 0;
    for pair in stretches.windows(2) {
        let ((begun, days), (first, length)) = (pair[0], pair[1]);
        for day in begun..first {
            let room = 24 * (first - day.max(begun + days));
            for (rate, charge) in [(1000, 0), (999, 0), (417, 4000), (1, 20_000), (1_000_000, 40_000)] {
                let missing = (20_000 * length).saturating_sub(charge);
                let hours = missing / rate + u64::from(missing % rate > 0);
                let want = match (length, hours) {
                    (3, _) => refused(13),
                    (_, hours) if hours > room => refused(14),
                    _ => Charge { refusal: 0, start: 24 * first - hours, hours, first, length },
                };
                let got = unsafe { bd_charge_start(wing, day, 20_000, 40_000, rate, charge) };
                assert_eq!(got, want, "charging on {day}, wing {wing}, at {rate} from {charge}");
                asked += 1;
            }
        }
    }
    for day in 4_000_071..=4_000_075 {
        assert_eq!(unsafe { bd_charge_start(wing, day, 20_000, 40_000, 1000, 0) }, refused(9), "charging on {day}");
    }
    let bad = [
        (FIRST_DAY - 1, 1, 40_000, 4),
        (4_000_076, 0, 40_000, 4),
        (4_000_071, 0, 40_000, 12),
        (FIRST_DAY, 1_000_001, 40_000, 12),
        (FIRST_DAY, 1, 0, 12),
        (FIRST_DAY, 1, 1_000_001, 12),
        (FIRST_DAY, 1, 1 << 32 | 40_000, 12),
    ];
    for (day, draw, capacity, refusal) in bad {
        assert_eq!(unsafe { bd_charge_start(wing, day, draw, capacity, 1000, 0) }, refused(refusal), "charging on {day}");
    }
    for no_wing in [0, 3, 1 << 32 | wing, u64::MAX] {
        assert_eq!(unsafe { bd_charge_start(no_wing, 0, 0, 0, 0, 1) }, refused(15), "charging, wing {no_wing}");
    }
    asked
}

/// Every year's fasts: the day of each, and its month. A Saturday's is kept on the day after, but Adar's two days before.
fn fasts(years: &[Begins]) -> Vec<Vec<(u64, u64)>> {
    let mut all = Vec::new();
    for (year, pair) in (1u64..).zip(years.windows(2)) {
        let (new_year, length) = (pair[0].day, pair[1].day - pair[0].day);
        let (mut first, mut want) = (new_year, Vec::new());
        for (month, days) in months(year, length) {
            if let Some(&(_, date)) = FAST_TABLE.iter().find(|row| row.0 == month) {
                let day = first + date - 1;
                let kept = if weekday(day) < 7 { day } else if month == 7 { day - 2 } else { day + 1 };
                assert!((first..first + days).contains(&kept), "the fast of month {month} of {year} leaves it");
                assert!(month != 4 || kept == day, "the fast of Tevet {year} is moved");
                want.push((kept, month));
            }
            first += days;
        }
        let mut out = [u64::MAX; 7];
        let got = unsafe { bd_fasts(year, out.as_mut_ptr(), out.len()) };
        assert_eq!((got.refusal, got.number), (0, 5), "fasts of {year}");
        assert!(out.iter().copied().eq(want.iter().map(|fast| fast.0).chain([u64::MAX; 2])), "fasts of {year}: {out:?}");
        let mut four = [u64::MAX; 4];
        let got = unsafe { bd_fasts(year, four.as_mut_ptr(), four.len()) };
        assert_eq!((got.refusal, got.number, four), (10, 5, [u64::MAX; 4]), "fasts of {year} into four entries");
        all.push(want);
    }
    for year in [0, 10_000, 1 << 32 | 5762, u64::MAX] {
        let got = unsafe { bd_fasts(year, std::ptr::null_mut(), 0) };
        assert_eq!((got.refusal, got.number), (1, 0), "fasts of {year}");
    }
    all
}

/// What a wing's record tells on each day of a year, of which `ahead` and `fasts` are the stretches and the fasts, and the
/// first of each of the next year.
fn records_of(wing: u64, year: u64, new_year: u64, length: u64, ahead: &[(u64, u64)], fasts: &[(u64, u64)]) -> Vec<Record> {
    let dates = months(year, length).into_iter().flat_map(|(month, days)| (1..=days).map(move |date| (month, date)));
    let tell = |(day, (month, date)): (u64, (u64, u64))| {
        let remaining = new_year + length - 1 - day;
        let told = Record { day, wing, year, month, date, remaining, ..Record::default() };
        let told = match fasts.iter().find(|fast| day <= fast.0) {
            Some(&(kept, fast_month)) => Record { fast_month, fast_left: kept - day, ..told },
            None => Record { no_fast: 1, ..told },
        };
        match ahead.iter().find(|&&(first, length)| day < first + length) {
            Some(&(first, length)) => Record { first, length, days_left: first as i64 - day as i64, ..told },
            None => Record { none: 1, ..told },
        }
    };
    (new_year..).zip(dates).map(tell).collect()
}

/// A wing's record, set to the first day and moved on to the last; from each year's end back to the year before; and refused
/// at both ends and for bad numbers, which alters nothing. Returns how many moves were made.
fn records(wing: u64, told: &[(u64, Vec<(u64, u64)>)], fasts: &[Vec<(u64, u64)>]) -> u64 {
    let mut record = Record::default();
    let (mut day, mut moves, mut year_before) = (FIRST_DAY, 0, None);
    let refused = |record: &Record, refusal: u64, call: &dyn Fn(*mut Record) -> u64| {
        let mut lent = *record;
        assert_eq!((call(&mut lent), lent), (refusal, *record), "a record that is refused");
    };
    refused(&record, 4, &|r| unsafe { bd_record_next(r) });
    refused(&record, 4, &|r| unsafe { bd_record_back(r) });
    assert_eq!(unsafe { bd_record_set(&mut record, wing, day) }, 0, "a record set to {day}, wing {wing}");
    refused(&record, 4, &|r| unsafe { bd_record_back(r) });
    for (year, (length, runs)) in (1u64..).zip(told) {
        let next = told.get(year as usize).map(|(_, runs)| runs[0]);
        let ahead: Vec<(u64, u64)> = runs.iter().copied().chain(next).collect();
        let next = fasts.get(year as usize).map(|fasts| fasts[0]);
        let fasts: Vec<(u64, u64)> = fasts[year as usize - 1].iter().copied().chain(next).collect();
        let want = records_of(wing, year, day, *length, &ahead, &fasts);
        for (i, want) in want.iter().enumerate() {
            if year > 1 || i > 0 {
                assert_eq!(unsafe { bd_record_next(&mut record) }, 0, "a record moved on to {}", want.day);
            }
            assert_eq!(record, *want, "a record moved on");
        }
        let mut back = record;
        for want in want.iter().rev().skip(1).chain(&year_before) {
            assert_eq!(unsafe { bd_record_back(&mut back) }, 0, "a record moved back to {}", want.day);
            assert_eq!(back, *want, "a record moved back");
        }
        day += length;
        moves += 2 * length;
        year_before = Some(record);
    }
    refused(&record, 4, &|r| unsafe { bd_record_next(r) });
    for record in [Record::default(), record] {
        for day in [0, FIRST_DAY - 1, 4_000_076, u64::MAX] {
            refused(&record, 4, &|r| unsafe { bd_record_set(r, wing, day) });
        }
        for day in [0, 2_456_928, u64::MAX] {
            for no_wing in [0, 3, 1 << 32 | wing, u64::MAX] {
                refused(&record, 15, &|r| unsafe { bd_record_set(r, no_wing, day) });
            }
        }
    }
    moves - 2
}

/// A wing's sheet, byte by byte, of years that are told as length and stretches; returns its bytes.
fn sheet(wing: u64, first_year: u64, years: &[(u64, Vec<(u64, u64)>)]) -> Vec<u8> {
    let count = years.len() as u64;
    let rows = years.iter().map(|(_, runs)| runs.len() as u64).sum();
    let mut offset = 16 + 8 * count;
    let mut want = Vec::new();
    let mut put = |fields: &[(u64, usize)]| {
        for &(number, bytes) in fields {
            want.extend_from_slice(&number.to_le_bytes()[..bytes]);
        }
    };
    put(&[(count, 2), (first_year, 2), (rows, 4), (16, 4), (offset, 4)]);
    for (length, runs) in years {
        put(&[(offset, 4), (runs.len() as u64, 2), (*length, 2)]);
        offset += 6 * runs.len() as u64;
    }
    for &(first, length) in years.iter().flat_map(|(_, runs)| runs) {
        put(&[(first, 4), (length, 1), (wing, 1)]);
    }
    let mut out = vec![u8::MAX; want.len() + 10];
    let got = unsafe { bd_sheet_write(wing, first_year, count, out.as_mut_ptr(), out.len()) };
    let name = format!("sheet of {count} years from {first_year}, wing {wing}");
    assert_eq!((got.refusal, got.number), (0, want.len() as u64), "{name}");
    assert_eq!(out[..want.len()], want, "{name}");
    assert!(out[want.len()..].iter().all(|&byte| byte == u8::MAX), "{name}: a byte beyond it");
    want
}

/// The refusal of a wing's sheet's rows of a year, and where they stand.
fn rows(wing: u64, sheet: &[u8], year: u64) -> (u64, u64, u64) {
    let got = unsafe { bd_sheet_rows(wing, sheet.as_ptr(), sheet.len(), year) };
    (got.refusal, got.offset, got.length)
}

/// The same of two sheets.
fn named_rows(named: u64, sheets: [&[u8]; 2], year: u64) -> (u64, u64, u64) {
    let [one, two] = sheets;
    let got = unsafe { bd_sheets_rows(named, one.as_ptr(), one.len(), two.as_ptr(), two.len(), year) };
    (got.refusal, got.offset, got.length)
}

/// A walk that is begun on a wing's sheet: its refusal and its walker.
fn begin(wing: u64, sheet: &[u8]) -> (u64, Walker) {
    let mut walker = Walker { row: 5787 };
    let refusal = unsafe { bd_walk_begin(&mut walker, wing, sheet.as_ptr(), sheet.len()) };
    (refusal, walker)
}

/// The walker's next row: its stretch and its wing, if there is one.
fn next(walker: &mut Walker, sheet: &[u8]) -> Option<((u64, u64), u64)> {
    let got = unsafe { bd_walk_next(walker, sheet.as_ptr(), sheet.len()) };
    match (got.more, (got.first, got.length), got.wing) {
        (1, stretch, wing) => Some((stretch, wing)),
        (more, stretch, wing) => {
            assert_eq!((more, stretch, wing), (0, (0, 0), 0), "no more");
            None
        }
    }
}

/// A wing's sheet read back by year and row by row, against the stretches that it was written from; returns how many rows
/// it has.
fn read_back(wing: u64, first_year: u64, years: &[(u64, Vec<(u64, u64)>)], sheet: &[u8]) -> u64 {
    let (mut offset, mut count) = (16 + 8 * years.len() as u64, 0);
    let (refusal, mut walker) = begin(wing, sheet);
    assert_eq!((refusal, walker.row), (0, 0), "a walk from {first_year}");
    for (year, (_, runs)) in (first_year..).zip(years) {
        let length = 6 * runs.len() as u64;
        assert_eq!(rows(wing, sheet, year), (0, offset, length), "rows of {year}, wing {wing}");
        assert_eq!(named_rows(wing, [sheet, sheet], year), (0, offset, length), "rows of {year} of sheet {wing}");
        for &run in runs {
            assert_eq!(next(&mut walker, sheet), Some((run, wing)), "a row of {year}, wing {wing}");
        }
        offset += length;
        count += runs.len() as u64;
    }
    assert_eq!(offset, sheet.len() as u64, "the end of the rows");
    for _ in 0..3 {
        assert_eq!(next(&mut walker, sheet), None, "behind the last row");
        assert_eq!(walker.row, count, "behind the last row");
    }
    for year in [0, first_year - 1, first_year + years.len() as u64, 1 << 32 | first_year, u64::MAX] {
        assert_eq!(rows(wing, sheet, year), (1, 0, 0), "rows of {year}");
    }
    count
}

/// Bytes that are not the wing's sheet, each with its refusal, beside the sheet itself and for what is no wing.
fn refused_sheets(wing: u64, sheet: &[u8], year: u64) {
    let with = |place: usize, byte: u8| {
        let mut bytes = sheet.to_vec();
        bytes[place] = byte;
        bytes
    };
    let longer = [sheet, &[0; 6]].concat();
    let (no_years, other_rows, other_index) = (with(0, 0), with(4, !sheet[4]), with(8, 0));
    let last = sheet.len() - 1;
    let (other_years, other_length) = (with(2, sheet[2] - 1), with(22, sheet[22] ^ 1));
    let (other_day, other_wing) = (with(last - 5, sheet[last - 5] ^ 1), with(last, 3 - sheet[last]));
    let cases: [(&[u8], u64); 13] = [
        (&[], 16),
        (&sheet[..15], 16),
        (&no_years[..16], 17),
        (&no_years, 17),
        (&sheet[..16], 18),
        (&sheet[..last], 18),
        (&longer, 18),
        (&other_rows, 18),
        (&other_index, 18),
        (&other_years, 19),
        (&other_length, 19),
        (&other_day, 19),
        (&other_wing, 19),
    ];
    let refused = |named: u64, bytes: &[u8], refusal: u64| {
        let name = format!("{} bytes, wing {named}", bytes.len());
        for year in [0, year, u64::MAX] {
            assert_eq!(rows(named, bytes, year), (refusal, 0, 0), "{name}, year {year}");
            assert_eq!(named_rows(named, [bytes, bytes], year), (refusal, 0, 0), "{name}, year {year}, of two");
        }
        let (got, mut walker) = begin(named, bytes);
        assert_eq!((got, walker.row), (refusal, u64::MAX), "a walk on {name}");
        assert_eq!(next(&mut walker, bytes), None, "a walk on {name}");
    };
    for (bytes, refusal) in cases {
        refused(wing, bytes, refusal);
        let beside = if wing == 1 { [sheet, bytes] } else { [bytes, sheet] };
        assert_eq!(named_rows(wing, beside, year).0, 0, "beside {} bytes", bytes.len());
        for no_wing in [0, 3, 1 << 32 | wing, u64::MAX] {
            refused(no_wing, bytes, 15);
        }
    }
    refused(3 - wing, sheet, 19);
}

/// A bad wing is refused before a good year or day, and before a bad one.
fn bad_wings() {
    for wing in [0, 3, 1 << 32 | 1, u64::MAX] {
        for number in [0, 5762, 2_456_928, u64::MAX] {
            let got = unsafe { bd_stretch(wing, number) };
            let got = (got.refusal, got.first, got.length, got.days_left);
            assert_eq!(got, (15, 0, 0, 0), "stretch for {number}, wing {wing}");
            let got = unsafe { bd_stretches(wing, number, std::ptr::null_mut(), 0) };
            assert_eq!((got.refusal, got.number), (15, 0), "stretches of {number}, wing {wing}");
            let got = unsafe { bd_sheet_write(wing, number, number, std::ptr::null_mut(), 0) };
            assert_eq!((got.refusal, got.number), (15, 0), "sheet of {number} years from {number}, wing {wing}");
        }
    }
}

fn main() {
    let years = count_years();
    println!("Rust calls: every New Year: {} answers", new_years(&years));
    println!("Rust calls: every month's notice: {} answers", notices(&years));
    println!("Rust calls: every year's kind: {} kinds", kinds(&years));
    let mut days = 0;
    let mut told = [Vec::new(), Vec::new()];
    for (year, pair) in (1u64..).zip(years.windows(2)) {
        let (new_year, next) = (pair[0].day, pair[1].day);
        let mut rest = Vec::new();
        days += dates(year, new_year, next - new_year, &mut rest);
        for (wing, told) in (1u64..).zip(&mut told) {
            told.push((next - new_year, stretches(wing, year, new_year, &rest)));
        }
    }
    bad_wings();
    println!("Rust calls: Hebrew dates, months and both wings' stretches: {days} days");
    let charges: u64 = (1u64..).zip(&told).map(|(wing, told)| charges(wing, told)).sum();
    println!("Rust calls: when charging must begin, on every day of both wings: {charges} answers");
    let fasts = fasts(&years);
    println!("Rust calls: every year's fasts: {} days", fasts.iter().map(Vec::len).sum::<usize>());
    let moves: u64 = (1u64..).zip(&told).map(|(wing, told)| records(wing, told, &fasts)).sum();
    println!("Rust calls: both wings' records on every day: {moves} moves");
    let (mut bytes, mut read) = (0, 0);
    for (wing, told) in (1u64..).zip(&told) {
        for (first_year, years) in [(5787, &told[5786..][..20]), (9900, &told[9899..])] {
            let sheet = sheet(wing, first_year, years);
            bytes += sheet.len();
            read += read_back(wing, first_year, years, &sheet);
            refused_sheets(wing, &sheet, first_year);
        }
    }
    println!("Rust calls: two sheets of each wing: {bytes} bytes, and {read} rows read back");
}
