//! Measures the library and the plain implementation side by side in one run: medians of 401 rounds, each a batch of
//! about 20 µs of the one, then of the other, and the ratio of the medians. Every number of every answer is compared
//! first. Journals of mixed lengths, usual seasons, those torn and pairs to write are 32 each, taken in turn; a bank
//! has 40 blocks, no two alike. Role 3 opens, role 2 records and role 1 asks the rest, which neither implementation
//! knows before the call.
//!
//!     cargo run --release --manifest-path harness/Cargo.toml --bin bench
use balladsky::{self as library, Out, LOOK, MEND, OUT, RECORD};
use harness::banks::{self, Bank, Block};
use harness::plain::book::{bytes, Entry};
use harness::random::{self, Dice, Fields, Sheets};
use harness::{numbers, plain};
use std::hint::black_box;
use std::time::Instant;

type Run<'a> = Box<dyn FnMut() + 'a>;

struct Line<'a> { name: String, ours: Run<'a>, plain: Run<'a>, batch: u32, times: [Vec<f64>; 2] }

fn line<'a>(name: impl Into<String>, ours: impl FnMut() + 'a, plain: impl FnMut() + 'a) -> Line<'a> {
    Line { name: name.into(), ours: Box::new(ours), plain: Box::new(plain), batch: 1, times: [Vec::new(), Vec::new()] }
}

/// Nanoseconds a call, over a batch.
fn timed(run: &mut Run, batch: u32) -> f64 {
    run(); // warms the predictors
    let t = Instant::now();
    for _ in 0..batch {
        run();
    }
    t.elapsed().as_nanos() as f64 / batch as f64
}

/// A season of 275 days, the longest.
fn season(eto: u32, rain: u32, available: u32, (sown, full): (u32, u32), fraction: u32) -> Fields {
    let mut f = [0; 41];
    f[..9].copy_from_slice(&[3, 21, 45, 70, 90, 70, 35, 115, 60]);
    for m in 0..12 {
        f[9 + m] = eto + 20 * m as u32;
        f[21 + m] = rain + 300 * m as u32;
    }
    f[33..].copy_from_slice(&[available, sown, full, fraction, 75, 0, 127, 28]);
    f
}

/// An area of 8,192 bytes with these entries, as many as leave so many bytes.
fn area(entries: impl IntoIterator<Item = Entry>, left: usize) -> Vec<u8> {
    let mut area = Vec::new();
    for entry in entries {
        let b = bytes(entry);
        if area.len() + b.len() > 8_192 - left {
            break;
        }
        area.extend(b);
    }
    area.resize(8_192, 0xff);
    area
}

fn water(kind: u32, v: u32) -> Entry {
    if kind == 0 { Entry::Rain(v) } else { Entry::Irrigation(v) }
}

/// A few small entries of rain and irrigation.
fn two_byte(left: usize) -> Vec<u8> {
    area((0..4_096).map(|i| water(i * i % 7 % 2, 1 + i % 100)), left)
}

/// At most 14 four-byte entries fit a day, so closes stand among them.
fn four_byte(left: usize) -> Vec<u8> {
    let day = |day| (0..14).map(move |i| water((day * i) % 3 % 2, 16_384 + (31 * day + i) % 700)).chain([Entry::Close(day)]);
    area((1..=275).flat_map(day), left)
}

fn closed_days(days: u32) -> Vec<u8> {
    area((1..=days).map(Entry::Close), 0)
}

/// Ten entries a day of two, three and four bytes, in no order, to the close of a day.
fn mixed_days(g: &mut Dice, days: u32) -> Vec<Entry> {
    let mut entries = Vec::new();
    for day in 1..=days {
        for _ in 0..10 {
            let (least, most) = g.pick(&[(1, 127), (128, 16_383), (16_384, 24_000)]);
            entries.push(water(g.of(0, 1), g.of(least, most)));
        }
        entries.push(Entry::Close(day));
    }
    entries
}

fn mixed(journal: u64, left: usize) -> Vec<u8> {
    area(mixed_days(&mut Dice(journal), 275), left)
}

/// As many entries as an area takes with 138 days left: those of 137 days, then small ones of the open day.
fn half_way(journal: u64) -> Vec<u8> {
    let mut g = Dice(journal);
    let mut entries = mixed_days(&mut g, 137);
    entries.extend((0..4_096).map(|_| water(g.of(0, 1), g.of(1, 90))));
    area(entries, 0)
}

/// A usual season: one day in three has water, half a millimetre to sixty, and every day is closed.
fn usual(journal: u64, days: u32) -> Vec<u8> {
    let mut g = Dice(journal);
    let mut entries = Vec::new();
    for day in 1..=days {
        if g.one_in(3) {
            entries.push(water(g.of(0, 1), g.of(50, 6_000)));
        }
        entries.push(Entry::Close(day));
    }
    area(entries, 0)
}

/// The same with 274 days, and rain of 300 behind them that was cut after two of its three stores.
fn torn(journal: u64) -> Vec<u8> {
    let mut area = usual(journal, 274);
    let place = area.iter().rposition(|&b| b != 0xff).unwrap() + 1;
    area[place..place + 2].copy_from_slice(&bytes(Entry::Rain(300))[..2]);
    area
}

/// Thirty-two journals of a kind.
fn journals(make: impl Fn(u64) -> Vec<u8>) -> Vec<Vec<u8>> {
    (1..=32).map(make).collect()
}

/// The whole of `out` is the plain answer's numbers, of which the first is the one given, and what it held beyond them.
fn same(name: &str, number: u32, out: &Out, want: &[u32]) {
    assert_eq!((&out[..want.len()], &out[want.len()..]), (want, &[NOISE; OUT][want.len()..]), "{name}");
    assert_eq!(out[0], number, "{name}");
}

const NOISE: u32 = 0x5eed;

/// Calls on journals or pairs in turn: with many of them a branch can't be foretold from the round before.
fn in_turn<'a, T>(each: &'a [T], mut call: impl FnMut(&T) + 'a) -> impl FnMut() + 'a {
    let mut next = 0;
    move || {
        call(black_box(&each[next]));
        next = if next + 1 < each.len() { next + 1 } else { 0 };
    }
}

/// The climate sheet and the block sheet, not known before the call.
fn hidden(s: &Sheets) -> (&[u8], &[u8]) {
    black_box(s.pair())
}

/// A call by a role on journals, by the library and by the plain implementation; `number` is what it answers first.
fn journal_line<'a, A>(
    name: String, number: u32, role: u32, s: &'a Sheets, areas: &'a [Vec<u8>],
    ours: impl Fn(u32, &[u8], &[u8], &[u8], &mut Out) + 'a, plain: impl Fn(u32, &[u8], &[u8], &[u8]) -> A + 'a,
    numbers: fn(A) -> Vec<u32>,
) -> Line<'a> {
    let mut out = [NOISE; OUT];
    for area in areas {
        out = [NOISE; OUT];
        ours(role, &s.climate, &s.block, area, &mut out);
        same(&name, number, &out, &numbers(plain(role, &s.climate, &s.block, area)));
    }
    line(
        name,
        in_turn(areas, move |area| {
            let (climate, block) = hidden(s);
            ours(black_box(role), climate, block, area, black_box(&mut out))
        }),
        in_turn(areas, move |area| {
            let (climate, block) = hidden(s);
            black_box(plain(black_box(role), climate, block, area));
        }),
    )
}

/// Openings that find the journals clean, or torn: 0 or 10.
fn open_line<'a>(name: &str, found: u32, s: &'a Sheets, areas: &'a [Vec<u8>]) -> Line<'a> {
    journal_line(format!("open: {name}"), found, MEND, s, areas, library::open, plain::open, numbers::opened)
}

fn rain_line<'a>(name: &str, s: &'a Sheets, areas: &'a [Vec<u8>]) -> Line<'a> {
    journal_line(
        format!("rain on: {name}"), library::ACCEPTED, RECORD, s, areas,
        |role, climate, block, area, out| library::rain(role, climate, block, area, black_box(20), out),
        |role, climate, block, area| plain::rain(role, climate, block, area, black_box(20)), numbers::recorded,
    )
}

fn loss_line<'a>(name: &str, s: &'a Sheets, areas: &'a [Vec<u8>]) -> Line<'a> {
    journal_line(
        format!("loss: {name}"), library::ACCEPTED, LOOK, s, areas,
        |role, climate, block, area, out| library::loss(role, climate, block, area, black_box(105), out),
        |role, climate, block, area| plain::loss(role, climate, block, area, black_box(105)), numbers::lost,
    )
}

/// Both probes give a content.
fn probe_line<'a>(name: &str, s: &'a Sheets, areas: &'a [Vec<u8>]) -> Line<'a> {
    let given = || black_box(((1, 0.19), (1, 0.23), 3_000));
    journal_line(
        format!("probe: {name}"), library::ACCEPTED, LOOK, s, areas,
        move |role, climate, block, area, out| {
            let (shallow, deep, f) = given();
            library::probe_of_any_kind(role, climate, block, area, shallow, deep, f, out)
        },
        move |role, climate, block, area| {
            let (shallow, deep, f) = given();
            plain::probe(role, climate, block, area, shallow, deep, f)
        },
        numbers::probed,
    )
}

fn plan_line<'a>(name: &str, s: &'a Sheets, area: &'a [u8]) -> Line<'a> {
    let (mut out, mut ours, mut theirs) = ([NOISE; OUT], [0; 275], [0; 275]);
    library::plan(LOOK, &s.climate, &s.block, area, &mut ours, &mut out);
    same(name, library::ACCEPTED, &out, &numbers::planned(plain::plan(LOOK, &s.climate, &s.block, area, &mut theirs)));
    assert_eq!(ours, theirs, "{name}");
    line(
        format!("plan: 275 days, {name}, {} waterings", out[2]),
        move || {
            let (climate, block) = hidden(s);
            library::plan(black_box(LOOK), climate, block, black_box(area), black_box(&mut ours), black_box(&mut out))
        },
        move || {
            let (climate, block) = hidden(s);
            black_box(plain::plan(black_box(LOOK), climate, block, black_box(area), black_box(&mut theirs)));
        },
    )
}

/// Forty blocks of 275 days with soils and turns of their own, on the climate of such a season, and journals.
fn bank(season: &Fields, limit: u32, journal: impl Fn(u64) -> Vec<u8>) -> Bank {
    let mut g = Dice(40);
    let mut block = |k: u64| {
        let soil = [(34, g.of(100, 180)), (35, g.of(30, 60)), (36, g.of(100, 200)), (37, g.of(40, 65))];
        let f = random::with(random::with(*season, &soil), &[(38, g.of(60, 90)), (40, g.pick(&[127, 126, 95, 63]))]);
        Block { sheet: random::sheets(&f).block, area: journal(k), room: 275 }
    };
    Bank::of(&random::sheets(season).climate, limit, &(1..=40).map(&mut block).collect::<Vec<_>>())
}

/// All of them are planned where the limit allows it.
fn bank_line<'a>(name: &str, b: &'a Bank) -> Line<'a> {
    let name = format!("bank: 40 blocks of 275 days, limit {}, {name}", b.limit);
    let (before, mut ours) = (b.before(NOISE), b.before(NOISE));
    let mut theirs = before.clone();
    let lent: &mut [u32; plain::ANSWERS] = ours.1.1.as_mut_slice().try_into().unwrap();
    let (blocks, limit) = (b.blocks, b.limit);
    library::bank(LOOK, &b.climate, blocks, limit, &b.lengths, &b.sheets, &b.areas, &mut ours.1.0, lent, &mut ours.0);
    banks::by_plain(b, LOOK, &mut theirs);
    assert_eq!(ours, theirs, "{name}");
    let planned = ours.1.1.chunks(5).filter(|five| five[0] == 0).count();
    assert!(ours.0[0] == library::ACCEPTED && (planned == 40) == (limit == 40), "{name}: {planned} planned");
    let given = move || black_box((&b.climate[..], blocks, limit, &b.lengths[..], &b.sheets[..], &b.areas[..]));
    let (mut ours, mut out, mut answers) = (before.1.0.clone(), before.0, [0; plain::ANSWERS]);
    let (mut theirs, mut numbers) = (before.1.0, [0; plain::ANSWERS]);
    line(
        name,
        move || {
            let (climate, blocks, limit, lengths, sheets, areas) = given();
            let (depths, answers, out) = black_box((&mut ours[..], &mut answers, &mut out));
            library::bank(black_box(LOOK), climate, blocks, limit, lengths, sheets, areas, depths, answers, out)
        },
        move || {
            let (climate, blocks, limit, lengths, sheets, areas) = given();
            let (depths, answers) = black_box((&mut theirs[..], &mut numbers));
            black_box(plain::bank(black_box(LOOK), climate, blocks, limit, lengths, sheets, areas, depths, answers));
        },
    )
}

fn table_line(s: &Sheets) -> Line<'_> {
    let (mut out, mut ours, mut theirs) = ([NOISE; OUT], [0; 174], [0; 174]);
    library::table(LOOK, &s.climate, &s.block, &mut ours, &mut out);
    same("table", library::ACCEPTED, &out, &numbers::tabled(plain::table(LOOK, &s.climate, &s.block, &mut theirs)));
    assert_eq!(ours, theirs, "table");
    line(
        format!("table: 275 days, {} rows", out[2]),
        move || {
            let (climate, block) = hidden(s);
            library::table(black_box(LOOK), climate, block, black_box(&mut ours), black_box(&mut out))
        },
        move || {
            let (climate, block) = hidden(s);
            black_box(plain::table(black_box(LOOK), climate, block, black_box(&mut theirs)));
        },
    )
}

/// A pair: its climate sheet, then its block sheet.
fn write_line(pairs: &[(plain::Climate, plain::Block)]) -> Line<'_> {
    let (mut out, mut ours, mut theirs) = ([NOISE; OUT], ([0xee; 60], [0xee; 27]), ([0xee; 60], [0xee; 27]));
    for (climate, block) in pairs {
        out = [NOISE; OUT];
        library::write_climate(LOOK, climate, &mut ours.0, &mut out);
        let want = plain::write_climate(LOOK, climate, &mut theirs.0);
        same("write climate", library::ACCEPTED, &out, &numbers::written(want));
        out = [NOISE; OUT];
        library::write_block(LOOK, block, &mut ours.1, &mut out);
        same("write block", library::ACCEPTED, &out, &numbers::written(plain::write_block(LOOK, block, &mut theirs.1)));
        assert_eq!(ours, theirs, "write");
    }
    line(
        "write both sheets",
        in_turn(pairs, move |(climate, block)| {
            library::write_climate(black_box(LOOK), climate, black_box(&mut ours.0), black_box(&mut out));
            library::write_block(black_box(LOOK), block, black_box(&mut ours.1), black_box(&mut out))
        }),
        in_turn(pairs, move |(climate, block)| {
            black_box(plain::write_climate(black_box(LOOK), climate, black_box(&mut theirs.0)));
            black_box(plain::write_block(black_box(LOOK), block, black_box(&mut theirs.1)));
        }),
    )
}

fn main() {
    let usual_season = season(300, 2_000, 140, (30, 150), 50);
    let sheets = random::sheets(&usual_season);
    let few = random::sheets(&season(300, 2_000, 140, (200, 300), 60));
    let many = random::sheets(&season(500, 100, 100, (15, 20), 60));
    let mut leap = sheets.clone();
    leap.block.push(29);
    let (two, four, closed, blank) = ([two_byte(0)], [four_byte(0)], [closed_days(275)], [vec![0xff; 8_192]]);
    let (two_left, four_left, closed_left) = ([two_byte(8)], [four_byte(8)], [closed_days(274)]);
    let (uneven, season) = (journals(|j| mixed(j, 0)), journals(|j| usual(j, 275)));
    let (uneven_left, season_left) = (journals(|j| mixed(j, 8)), journals(|j| usual(j, 274)));
    let other_season = journals(|j| usual(32 + j, 275)); // opening's would be foretold from the lines before
    let cut_season = journals(|j| torn(64 + j));
    let open_season = journals(|j| usual(96 + j, 274));
    let empty = [Vec::new()];
    let on_blank = [1, 40].map(|limit| bank(&usual_season, limit, |_| vec![0xff; 8_192]));
    let on_full = [1, 40].map(|limit| bank(&usual_season, limit, |k| half_way(128 + k)));
    let mut g = Dice(1);
    let fields = (0..32).map(|_| random::ordinary(&mut g, 275));
    let pairs: Vec<_> = fields.map(|f| (random::climate_of(&f), random::block_of(&f))).collect();
    let mut lines = vec![
        open_line("8,192 bytes of four-byte entries", library::ACCEPTED, &sheets, &four),
        open_line("8,192 bytes of two-byte entries", library::ACCEPTED, &sheets, &two),
        open_line("8,192 bytes of mixed lengths", library::ACCEPTED, &sheets, &uneven),
        open_line("8,192 bytes, 275 closed days", library::ACCEPTED, &sheets, &closed),
        open_line("8,192 bytes, a usual season", library::ACCEPTED, &sheets, &season),
        open_line("8,192 bytes, a usual season, torn", library::TORN, &sheets, &cut_season),
        open_line("8,192 bytes, blank", library::ACCEPTED, &sheets, &blank),
        rain_line("four-byte entries", &sheets, &four_left),
        rain_line("two-byte entries", &sheets, &two_left),
        rain_line("mixed lengths", &sheets, &uneven_left),
        rain_line("274 closed days", &sheets, &closed_left),
        rain_line("a usual season", &sheets, &season_left),
        loss_line("8,192 bytes, a usual season", &sheets, &other_season),
        probe_line("8,192 bytes, a usual season", &sheets, &open_season),
        plan_line("few", &few, &blank[0][..64]),
        plan_line("many", &many, &blank[0][..64]),
        bank_line("blank", &on_blank[0]),
        bank_line("blank", &on_blank[1]),
        bank_line("full", &on_full[0]),
        bank_line("full", &on_full[1]),
        table_line(&sheets),
        open_line("no area (reads the sheet)", library::ACCEPTED, &sheets, &empty),
        open_line("no area, forty-one numbers", library::ACCEPTED, &leap, &empty),
        write_line(&pairs),
    ];
    for l in &mut lines {
        let each = (0..300).map(|_| timed(&mut l.ours, 1)).fold(f64::MAX, f64::min).max(1.0);
        l.batch = (20_000.0 / each).clamp(1.0, 2_000.0) as u32;
    }
    for _ in 0..401 {
        for l in &mut lines {
            let pair = [timed(&mut l.ours, l.batch), timed(&mut l.plain, l.batch)];
            l.times[0].push(pair[0]);
            l.times[1].push(pair[1]);
        }
    }
    println!("{:<44} {:>9} {:>9} {:>6}", "median of 401, ns", "library", "plain", "ratio");
    for l in &mut lines {
        for t in &mut l.times {
            t.sort_by(f64::total_cmp);
        }
        let [ours, plain] = [l.times[0][200], l.times[1][200]];
        println!("{:<44} {ours:>9.0} {plain:>9.0} {:>6.2}", l.name, ours / plain);
    }
}
