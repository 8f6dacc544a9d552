//! Checks the plain implementation itself: against the documents' own numbers, a second reader and writer of sheets,
//! also of the one sheet that a pair was, a list of the year's days, water contents by their decimals, slow rules,
//! every choice of waterings in small seasons, also on the turn days that a pump leaves, the book, and a literal
//! reading of what an opening finds; banks against the plans of their blocks by the slow rules; each role's answers
//! against role 3's, which are the answers without roles. It takes some minutes; 10 percent of the rounds take seconds.
//! Status 1 at a mismatch.
//!
//!     cargo run --release --manifest-path harness/Cargo.toml --bin selfcheck [SEED [PERCENT OF THE ROUNDS]]
use harness::asks::{by_plain, by_rule, noisy, written_by_plain, Answer, Ask, Made, Right};
use harness::banks::{self, Bank, Banked};
use harness::plain::book::{self, Book, Call};
use harness::plain::{self, *};
use harness::random::{self, sheets, small, with, Dice, Fields, Probes, Sheets, Writer};
use harness::{cases, numbers};
use std::ops::RangeInclusive;

struct Tally { compared: u64, wrong: u64 }

impl Tally {
    fn same<T: PartialEq + std::fmt::Debug>(&mut self, what: impl FnOnce() -> String, got: T, want: T) {
        self.compared += 1;
        if got != want {
            self.wrong += 1;
            if self.wrong <= 40 {
                println!("MISMATCH {}: got {:?}, want {:?}", what(), got, want);
            }
        }
    }
    fn report(self, name: &str) -> (u64, u64) {
        println!("{name}: {} compared, {} mismatches", self.compared, self.wrong);
        (self.compared, self.wrong)
    }
}

fn tally() -> Tally {
    Tally { compared: 0, wrong: 0 }
}

const FF: [u8; 8_192] = [0xff; 8_192];

type Range = RangeInclusive<u32>;
/// A refusal's number and the number returned with it.
type Refusal = (u32, usize);

// ------------------------------------------------------------------ the calls on a pair of sheets, by role 3

fn open(s: &Sheets, area: &[u8]) -> Opened {
    plain::open(3, &s.climate, &s.block, area)
}

fn rain(s: &Sheets, area: &[u8], amount: u32) -> Recorded {
    plain::rain(3, &s.climate, &s.block, area, amount)
}

fn close(s: &Sheets, area: &[u8]) -> Recorded {
    plain::close(3, &s.climate, &s.block, area)
}

fn loss(s: &Sheets, area: &[u8], ky: u32) -> Lost {
    plain::loss(3, &s.climate, &s.block, area, ky)
}

fn probe(s: &Sheets, area: &[u8], p: Probes) -> Probed {
    plain::probe(3, &s.climate, &s.block, area, p.shallow, p.deep, p.capacity)
}

fn plan(s: &Sheets, area: &[u8], depths: &mut [u32]) -> Planned {
    plain::plan(3, &s.climate, &s.block, area, depths)
}

fn table(s: &Sheets, rows: &mut [u32]) -> Tabled {
    plain::table(3, &s.climate, &s.block, rows)
}

// ------------------------------------------------------------------ document 01's own numbers

fn printed(s: &Sheets) -> String {
    let mut rows = [0; 6 * ROWS];
    let t = table(s, &mut rows);
    if t.number != 0 {
        return format!("{} {}\n", t.number, t.value);
    }
    rows[..6 * t.rows].chunks(6).map(|r| r.iter().map(u32::to_string).collect::<Vec<_>>().join(" ") + "\n").collect()
}

fn closes(days: u32) -> Vec<u8> {
    (1..=days).flat_map(|d| book::bytes(book::Entry::Close(d))).collect()
}

fn opened_after(f: &Fields, entries: &[u8]) -> Ledger {
    let mut area = entries.to_vec();
    area.resize(entries.len() + 9, 0xff);
    match open(&sheets(f), &area).opening {
        Opening::Clean(l) => l,
        other => panic!("{other:?}"),
    }
}

fn daggers() -> (u64, u64) {
    let mut t = tally();
    // Numbers in the sheet's form: field 39 has room for each of them.
    let s = sheets(&small(127));
    for (v, bytes) in [(300, &[0xac, 2][..]), (127, &[0x7f]), (128, &[0x80, 1]), (120_000, &[0xc0, 0xa9, 7])] {
        let block = sheets(&with(small(127), &[(39, v)])).block;
        t.same(|| format!("bytes of {v}"), &block[block.len() - 1 - bytes.len()..block.len() - 1], bytes);
        let deep = sheets(&with(small(127), &[(34, 400), (35, 300), (36, 300), (39, v)]));
        t.same(|| format!("{v} read back"), deep.season().opening, v);
        let r = rain(&s, &FF[..9], v);
        t.same(|| format!("rain {v}"), &r.bytes[1..r.count], bytes);
    }
    let at = s.block.len() - 2;
    let longer = [&s.block[..at], &[0x80, 0], &s.block[at + 1..]].concat();
    t.same(|| "80 00".into(), read_sheets(&s.climate, &longer).err(), Some((2, at + 1)));
    let without_stores = |opening| Opened { opening, count: 0, places: [0; 3] };
    t.same(|| "01 80 00".into(), open(&s, &[1, 0x80, 0, 255, 255]), without_stores(Opening::Refused(9, 0)));
    // Crop need, seen as the first days' use from a full, deep soil.
    let deep = [(34, 400), (35, 300), (36, 300)];
    let kc = |dev: (u32, u32), late: u32| {
        let f = with(with(small(127), &deep), &[(4, 30), (6, 30), (7, dev.0), (8, dev.1), (9, late)]);
        with(f, &(10..=21).map(|i| (i, 450)).collect::<Vec<_>>())
    };
    let need = |f: &Fields, day| opened_after(f, &closes(day)).used - opened_after(f, &closes(day - 1)).used;
    t.same(|| "development day 10".into(), need(&kc((30, 115), 115), 11), 263);
    t.same(|| "late day 1".into(), need(&kc((120, 120), 35), 33), 527);
    t.same(|| "falling development day 1".into(), need(&kc((120, 35), 35), 2), 527);
    // Effective rain, as a whole month's rain in the table.
    for (q, e) in [(10_000, 8_400), (25_000, 15_000), (25_001, 15_000), (60_000, 18_500)] {
        t.same(|| format!("effective {q}"), effective(q), e);
        let f = with(small(127), &[(2, 1), (3, 10), (4, 10), (5, 10), (22, q)]);
        let mut rows = [0; 6 * ROWS];
        let made = table(&sheets(&f), &mut rows);
        t.same(|| format!("January {q}"), (made.rows, rows[3] + rows[9] + rows[15]), (3, e));
    }
    let hundred = [(22, 101)];
    let mut rows = [0; 6 * ROWS];
    table(&sheets(&with(with(small(127), &hundred), &[(1, 12), (2, 29)])), &mut rows);
    t.same(|| "rain of 1 January".into(), &rows[6..10], &[1, 1, rows[8], 3][..]);
    table(&sheets(&with(with(small(127), &hundred), &[(2, 31)])), &mut rows);
    t.same(|| "rain of 31 January".into(), &rows[..4], &[1, 3, rows[2], 4][..]);
    for (d1, u) in [(1_000, 500), (1_001, 499), (1_500, 250)] {
        t.same(|| format!("use at {d1}"), crop_use(500, 2_000, 1_000, d1), u);
        let f = with(small(127), &[(7, 100), (39, d1)]);
        t.same(|| format!("closed from {d1}"), opened_after(&f, &[3, 1]).used, u);
    }
    t.same(|| "gross at 45".into(), gross(6_280, 45), 13_956);
    t.same(|| "gross at 75".into(), gross(6_280, 75), 8_374);
    // The torn and the damaged journal.
    let blank = Ledger { day: 1, ..Ledger::default() };
    let torn = |l, place, count, places| Opened { opening: Opening::Torn(l, place), count, places };
    t.same(|| "01 AC FF FF".into(), open(&s, &[1, 0xac, 255, 255]), torn(blank, 0, 2, [1, 0, 0]));
    t.same(|| "FF AC FF FF".into(), open(&s, &[255, 0xac, 255, 255]), without_stores(Opening::Refused(9, 0)));
    // Document 02, T-05: a torn part with a gap, as its stores are done.
    let seven = Ledger { waiting_rain: 7, rain: 7, place: 2, ..blank };
    let cut = [1, 7, 2, 255, 0x80, 255, 255];
    t.same(|| "01 07 02 FF 80".into(), open(&s, &cut), torn(seven, 2, 2, [4, 2, 0]));
    t.same(|| "01 07 02 FF".into(), open(&s, &[&cut[..4], &FF[..9]].concat()), torn(seven, 2, 1, [2, 0, 0]));
    t.same(|| "01 07".into(), open(&s, &[&cut[..2], &FF[..9]].concat()), without_stores(Opening::Clean(seven)));
    // The small pair.
    t.same(|| "C by day".into(), [1, 2, 3, 4].map(|d| need(&with(small(127), &deep), d)), [200, 500, 500, 300]);
    let planned = |turns| {
        let mut depths = [7; 6];
        let p = plan(&sheets(&small(turns)), &FF[..20], &mut depths);
        (p.number, p.value, p.waterings, p.net, p.gross, depths)
    };
    t.same(|| "turns 127".into(), planned(127), (0, 0, 1, 700, 934, [0, 0, 700, 0, 7, 7]));
    t.same(|| "turns 2".into(), planned(2), (16, 4, 0, 0, 0, [7; 6]));
    t.same(|| "turns 10".into(), planned(10), (0, 0, 2, 1_200, 1_600, [0, 200, 0, 1_000, 7, 7]));
    t.same(|| "turns 1".into(), planned(1), (16, 3, 0, 0, 0, [7; 6]));
    t.same(|| "printed".into(), printed(&s), "1 1 700 0 700 934\n1 2 800 0 800 1067\n".into());
    t.same(|| "printed, no sheets".into(), printed(&Sheets::new(&[], &[])), "1 0\n".into());
    t.report("document 01's numbers")
}

// ------------------------------------------------------------------ lost yield

/// The greatest number of at most 10,000 that times F is no more than 100 × Ky × (F − U); 0 where F is 0.
fn slow_loss(ky: u32, need: u32, used: u32) -> u32 {
    let most = 100 * ky as u64 * (need - used) as u64;
    (1..=10_000).rev().find(|&v| need > 0 && v as u64 * need as u64 <= most).unwrap_or(0)
}

/// The loss call by the list of refusals, on what an opening finds.
fn slow_losses(found: Opening, ky: u32) -> Lost {
    match found {
        Opening::Refused(number, value) => Lost { number, value, ..Lost::default() },
        _ if ky == 0 || ky > 200 => Lost { number: 17, ..Lost::default() },
        Opening::Torn(_, value) => Lost { number: 10, value, ..Lost::default() },
        Opening::Clean(l) => {
            let stages = l.stages.map(|s| slow_loss(ky, s.need, s.used));
            Lost { number: 0, value: 0, season: slow_loss(ky, l.need, l.used), stages }
        }
    }
}

/// The stage sums add up to the season's, and no use is above its need.
fn adds_up(l: &Ledger) -> bool {
    let sums = l.stages.iter().fold((0, 0), |sums, s| (sums.0 + s.need, sums.1 + s.used));
    sums == (l.need, l.used) && l.used <= l.need && l.stages.iter().all(|s| s.used <= s.need)
}

/// Need and use of each stage.
fn stages(sums: [u32; 8]) -> [Stage; 4] {
    std::array::from_fn(|i| Stage { need: sums[2 * i], used: sums[2 * i + 1] })
}

/// Rape by source document 002: the sheet of Tables 34, 35 and 40, and a journal of the season that Table 79 waters.
const RAPE: Fields = [
    1, 15, 20, 20, 30, 50, 70, 100, 95, 570, 540, 450, 370, 290, 230, 250, 340, 470, 560, 560, 530, 9_200, 8_600, 7_700,
    2_500, 1_200, 400, 200, 300, 800, 2_900, 6_800, 8_700, 140, 20, 40, 50, 75, 0, 127, 28,
];
const RAPE_JOURNAL: &str = "\
    0301030201980c030303040305030602c00c0307030801ed0b0309030a030b030c01ed0b02a20c030d030e030f031002a20c031103120313\
    01bf0b031403150316031701bf0b03180319031a031b031c029012031d01a00b031e031f0320032101a00b0322032303240325032602ac16\
    032701ec0a03280329032a032b01ec0a032c032d032e032f01fa0a033003310332033301fa0a02881803340335033603370338033901ea0a\
    028416033a033b033c033d01ea0a033e033f034003410342034301a70802f417034403450346034701a70803480349034a034b034c034d02\
    ba18034e018405034f0350035103520184050353035403550356035702ac16035801c4020359035a035b035c01c402035d035e035f036003\
    6102fc160362019b020363036403650366019b02036703680369036a036b036c01880202d617036d036e036f037001880203710372037303\
    740375037601bc0103770378";

/// Document 02's cases of T-03, the losses that source document 002 prints, and a whole season by a separate reading.
fn losses() -> (u64, u64) {
    let mut t = tally();
    let (wet, dry, needless) = (small(127), with(small(127), &[(39, 1_500)]), with(small(127), &[(10, 0)]));
    let twos = with(dry, &[(3, 2), (4, 2), (5, 2), (6, 2)]);
    // So many days closed without water: F, U and the stages; then the losses by each Ky.
    let cases: [(Fields, u32, [u32; 2], [u32; 8], &[(u32, [u32; 5])]); 8] = [
        (wet, 0, [0, 0], [0; 8], &[(200, [0; 5])]),
        (wet, 4, [1_500, 1_440], [200, 200, 500, 500, 500, 500, 300, 240], &[
            (1, [4, 0, 0, 0, 20]), (100, [400, 0, 0, 0, 2_000]), (200, [800, 0, 0, 0, 4_000]),
        ]),
        (dry, 0, [0, 0], [0; 8], &[(200, [0; 5])]),
        (dry, 1, [200, 100], [200, 100, 0, 0, 0, 0, 0, 0], &[(100, [5_000, 5_000, 0, 0, 0])]),
        (dry, 4, [1_500, 430], [200, 100, 500, 200, 500, 100, 300, 30], &[
            (100, [7_133, 5_000, 6_000, 8_000, 9_000]), (125, [8_916, 6_250, 7_500, 10_000, 10_000]),
            (150, [10_000, 7_500, 9_000, 10_000, 10_000]),
        ]),
        (twos, 2, [400, 180], [400, 180, 0, 0, 0, 0, 0, 0], &[(100, [5_500, 5_500, 0, 0, 0])]),
        (twos, 3, [750, 292], [400, 180, 350, 112, 0, 0, 0, 0], &[(100, [6_106, 5_500, 6_800, 0, 0])]),
        (needless, 4, [0, 0], [0; 8], &[(200, [0; 5])]),
    ];
    for (f, days, season, by_stage, by_ky) in cases {
        let l = opened_after(&f, &closes(days));
        t.same(|| format!("{days} days of {f:?}"), ([l.need, l.used], l.stages), (season, stages(by_stage)));
        for &(ky, [season, a, b, c, d]) in by_ky {
            let want = Lost { number: 0, value: 0, season, stages: [a, b, c, d] };
            t.same(|| format!("Ky {ky}, {days} days of {f:?}"), loss(&sheets(&f), &closes(days), ky), want);
        }
    }
    let four = [3, 1, 3, 2, 3, 3, 3, 4];
    let want = Ledger {
        day: 5, depletion: 1_440, used: 1_440, place: 8, need: 1_500,
        stages: stages([200, 200, 500, 500, 500, 500, 300, 240]), ..Ledger::default()
    };
    t.same(|| "four days without water".into(), opened_after(&wet, &four), want);
    // Refusals.
    let (torn, torn_later, damaged) = ([1, 0xac, 255, 255], [3, 1, 1, 0xac, 255], [255, 0xac, 255, 255]);
    let (s, long) = (sheets(&wet), [0xff; 8_193]);
    let block = |length: usize, behind: &[u8]| Sheets::new(&s.climate, &[&s.block[..length], behind].concat());
    let climate = |length: usize, behind: &[u8]| Sheets::new(&[&s.climate[..length], behind].concat(), &[]);
    let refused: [(&Sheets, &[u8], u32, u32, usize); 16] = [
        (&s, &torn, 0, 17, 0), (&s, &torn, 1, 10, 0), (&s, &torn_later, 201, 17, 0), (&s, &torn_later, 200, 10, 2),
        (&s, &damaged, 0, 9, 0), (&s, &[3, 1, 4], 0, 9, 2), (&s, &long, 201, 8, 0), (&s, &four, 201, 17, 0),
        (&s, &four, 0, 17, 0), (&s, &[], u32::MAX, 17, 0), (&block(15, &[]), &[4], 0, 1, 15),
        (&block(0, &[]), &long, 0, 1, 0), (&block(16, &[9]), &torn, 201, 4, 41),
        (&block(16, &[29, 9]), &torn, 201, 3, 17), (&climate(24, &[]), &long, 0, 1, 24),
        (&climate(25, &[0]), &torn, 201, 3, 25),
    ];
    for (sheets, area, ky, number, value) in refused {
        let want = Lost { number, value, ..Lost::default() };
        t.same(|| format!("Ky {ky} on {area:02x?} of {sheets:02x?}"), loss(sheets, area, ky), want);
    }
    // Example 11, Tables 77 to 79, document 02's half of the need, Equation 29; one floor; products past 32 bits.
    let printed = [
        (105, 82_000, 73_800, 1_050), (110, 16_000, 11_200, 3_300), (105, 70_180, 70_180, 0), (105, 63_630, 63_630, 0),
        (105, 48_570, 48_570, 0), (100, 20_000, 10_000, 5_000), (100, 82_000, 73_800, 1_000), (1, 1_500, 1_440, 4),
        (99, 825_000, 0, 9_900), (200, 825_000, 412_500, 10_000), (200, 825_000, 412_501, 9_999),
    ];
    for (ky, need, used, want) in printed {
        t.same(|| format!("Ky {ky}, {used} of {need}"), [lost(ky, need, used), slow_loss(ky, need, used)], [want; 2]);
    }
    let rape = sheets(&RAPE);
    let area: Vec<u8> = (0..348).map(|i| u8::from_str_radix(&RAPE_JOURNAL[2 * i..][..2], 16).unwrap()).collect();
    let want = Ledger {
        day: 121, depletion: 2_874, waiting_rain: 0, waiting_irrigation: 0, rain: 24_112, irrigation: 30_840,
        used: 48_524, percolation: 9_302, place: 348, need: 48_565,
        stages: stages([7_917, 7_917, 9_262, 9_262, 13_950, 13_950, 17_436, 17_395]),
    };
    t.same(|| "rape".into(), open(&rape, &area).opening, Opening::Clean(want));
    let want = Lost { number: 0, value: 0, season: 8, stages: [0, 0, 0, 24] };
    t.same(|| "rape's loss".into(), loss(&rape, &area, 105), want);
    t.report("lost yield, document 02's numbers")
}

// ------------------------------------------------------------------ soil probes

/// A content's ten-thousandths: all its decimals, cut behind the fourth. None where it is no number from 0 to 1.
fn slow_content(value: f32) -> Option<u32> {
    if value.is_nan() || value < 0.0 || value > 1.0 {
        return None;
    }
    format!("{:.149}", value.abs())[..6].replace('.', "").parse().ok()
}

/// The greatest depth that the growth so far allows, centimetre by centimetre.
fn slow_depth(s: &Season, day: u32) -> u32 {
    let growing = s.stages[0] + s.stages[1];
    let grown = |z: &u32| (z - s.sown) * growing <= (s.full - s.sown) * growing.min(day);
    (s.sown..=s.full).rev().find(grown).unwrap()
}

/// The probe call by the list of refusals, on what an opening finds.
fn slow_probe(s: &Season, found: Opening, p: Probes) -> Probed {
    let refused = |number, value| Probed { number, value, ..Probed::default() };
    let l = match found {
        Opening::Refused(number, value) => return refused(number, value),
        Opening::Torn(_, place) => return refused(10, place),
        Opening::Clean(l) if l.day > s.days => return refused(11, 0),
        Opening::Clean(l) => l,
    };
    let (mut sum, mut contents) = (0, 0);
    for (kind, value) in [p.shallow, p.deep] {
        match slow_content(value) {
            Some(v) if kind == 1 => (sum, contents) = (sum + v, contents + 1),
            None if kind == 1 => return refused(18, 0),
            _ => {}
        }
    }
    if p.capacity == 0 || p.capacity > 6_000 {
        return refused(18, 0);
    }
    if contents == 0 {
        return refused(19, 0);
    }
    let v = (sum - sum % contents) / contents;
    let depth = slow_depth(s, l.day);
    let points = if v < p.capacity { (p.capacity - v) * depth } else { 0 };
    let total = s.available * depth;
    let measured = if points >= 10 * total { total } else { (points - points % 10) / 10 };
    Probed { number: 0, value: 0, depletion: l.depletion, measured }
}

/// Cases of T-07 by a separate reading, contents against their decimals, random probes on every day of long seasons.
fn probes(g: &mut Dice, percent: u32) -> (u64, u64) {
    let mut t = tally();
    let by_plain = |value| content((1, value)).unwrap_or(None);
    for (bits, v) in cases::CONTENTS {
        let value = f32::from_bits(bits);
        t.same(|| format!("content {bits:08x}"), [by_plain(value), book::content(value), slow_content(value)], [v; 3]);
    }
    for case in cases::PROBES {
        let got = numbers::probed(probe(&sheets(&with(small(127), case.changes)), case.area, case.probes));
        t.same(|| format!("{:?} on {:02x?}", case.probes, case.area), &got[..], case.want);
    }
    let mut any_bits = || if g.one_in(2) { g.next() as u32 } else { g.of(0x3800_0000, 0x3f80_0009) };
    let any: Vec<f32> = (0..5_000 * percent).map(|_| f32::from_bits(any_bits())).collect();
    let beside = (0..=10_000).flat_map(|v| (-3..=3).map(move |above| random::beside(v, above)));
    for value in beside.chain(any).flat_map(|v| [v, -v]) {
        let want = slow_content(value);
        t.same(|| format!("content {:08x}", value.to_bits()), [by_plain(value), book::content(value)], [want; 2]);
    }
    let mut seen = [0u32; 20];
    for _ in 0..20 * percent {
        let f = random::fields(g, DAYS as u32);
        let sheets = sheets(&f);
        let s = sheets.season();
        for closed in 0..=s.days {
            let (area, p) = (closes(closed), random::probes(g));
            let want = slow_probe(&s, Opening::Clean(opened_after(&f, &area)), p);
            seen[want.number as usize] += 1;
            t.same(|| format!("{p:?}, {closed} days of {f:?}"), probe(&sheets, &area, p), want);
        }
    }
    println!("probes by answer, 0 accepted: {seen:?}");
    t.report("soil probes")
}

// ------------------------------------------------------------------ the days of February

/// Document 02's cases of T-06, then tables and needs from every date by a list of the year's days.
fn februaries() -> (u64, u64) {
    let mut t = tally();
    // Bytes behind the sixteenth number of the small block, some fields changed.
    let (day, last, none) = ([(1, 2), (2, 29)], [(1, 2), (2, 28)], []);
    let behind: [(&[(usize, u32)], &[u8], (u32, usize)); 26] = [
        (&none, &[], (0, 0)), (&none, &[0x1d], (0, 0)), (&none, &[0x1c], (4, 41)), (&none, &[0x1e], (4, 41)),
        (&none, &[0], (4, 41)), (&none, &[0x9d, 1], (4, 41)), (&none, &[0x9d], (1, 17)), (&none, &[0x9d, 0], (2, 17)),
        (&none, &[0x80, 0x80], (1, 18)), (&none, &[0x80, 0x80, 0x80], (2, 18)), (&none, &[0x1d, 0], (3, 17)),
        (&none, &[0x1e, 0], (3, 17)), (&none, &[0xff], (1, 17)), (&none, &[0xff; 2], (1, 18)),
        (&none, &[0xff; 3], (2, 18)),
        (&day, &[], (4, 2)), (&day, &[28], (4, 2)), (&day, &[30], (4, 2)), (&day, &[0xc8, 1], (4, 2)), (&day, &[29], (0, 0)),
        (&last, &[28], (4, 41)), (&last, &[30], (4, 41)), (&[(1, 2), (2, 30)], &[29], (4, 2)),
        (&[(1, 13), (2, 29)], &[30], (4, 1)), (&[(40, 128)], &[30], (4, 40)), (&[(35, 21)], &[30], (4, 41)),
    ];
    for (changes, bytes, want) in behind {
        let mut pair = sheets(&with(small(127), changes));
        pair.block.extend(bytes);
        both_readers(&mut t, &pair, want);
    }
    // A season from 27 February: rows, depths and totals, and the depletion after each close without water.
    let seasons = [
        (28, "2 3 700 600 100 134\n3 1 1600 541 1059 1412\n", [0, 0, 230, 729, 7], (2, 959, 1_279), [200, 700, 1_700, 1_880]),
        (29, "2 3 1200 869 331 442\n3 1 600 270 330 440\n", [0, 0, 0, 440, 7], (1, 440, 587), [200, 700, 1_200, 1_680]),
    ];
    for (february, rows, depths, totals, depletions) in seasons {
        let (f, mut got) = (random::leap(february), [7; 5]);
        let p = plan(&sheets(&f), &FF[..20], &mut got);
        t.same(|| format!("table, {february}"), printed(&sheets(&f)), rows.into());
        t.same(|| format!("plan, {february}"), (p.number, (p.waterings, p.net, p.gross), got), (0, totals, depths));
        let after = [1, 2, 3, 4].map(|days| opened_after(&f, &closes(days)).depletion);
        t.same(|| format!("depletions, {february}"), after, depletions);
    }
    // ETo is the month's number, Kc 1 and rain unlike in each month.
    for february in [28, 29] {
        let lengths = [31, february, 31, 30, 31, 30, 31, 31, 30, 31, 30, 31];
        let year: Vec<(u32, u32)> = (1..).zip(lengths).flat_map(|(month, days)| (1..=days).map(move |date| (month, date))).collect();
        for (start, &(month, date)) in year.iter().enumerate() {
            let mut f = with(small(127), &[(1, month), (2, date), (3, 45), (4, 70), (5, 90), (6, 70), (41, february)]);
            f[6..9].fill(100);
            for m in 0..12 {
                (f[9 + m], f[21 + m]) = (m as u32 + 1, 777 * (m as u32 + 1));
            }
            let s = sheets(&f).season();
            let (mut want, mut needs) = (Vec::<[u32; 4]>::new(), 0);
            for day in 1..=275 {
                let (month, date) = year[(start + day as usize - 1) % year.len()];
                let (decade, e) = ((date + 9) / 10, effective(777 * month));
                let row = [month, decade.min(3)];
                if want.last().is_none_or(|last| last[..2] != row) {
                    want.push([row[0], row[1], 0, 0]);
                }
                let last = want.last_mut().unwrap();
                last[2] += month;
                last[3] += e * date / lengths[month as usize - 1] - e * (date - 1) / lengths[month as usize - 1];
                needs += month;
                let found = book::calendar(&s, day);
                t.same(|| format!("day {day} of {f:?}"), (found.0 as u32 + 1, found.1), (month, date));
            }
            let mut rows = [0; 6 * ROWS];
            let made = table(&sheets(&f), &mut rows);
            let got: Vec<[u32; 4]> = rows[..6 * made.rows].chunks(6).map(|r| [r[0], r[1], r[2], r[3]]).collect();
            t.same(|| format!("rows of {f:?}"), got, want);
            t.same(|| format!("needs of {f:?}"), opened_after(&f, &closes(275)).need, needs);
        }
    }
    t.report("the days of February")
}

// ------------------------------------------------------------------ random sheets

/// A sheet's numbers read a second time, byte by byte: so many, and no more than so many.
fn slow_numbers(sheet: &[u8], least: usize, most: usize) -> Result<Vec<u32>, Refusal> {
    let (mut numbers, mut value, mut shift) = (Vec::new(), 0, 0);
    for (at, &b) in sheet.iter().enumerate() {
        if numbers.len() == most {
            return Err((3, at));
        }
        value += (b as u32 % 128) << shift;
        if b >= 0x80 {
            if shift == 14 {
                return Err((2, at));
            }
            shift += 7;
        } else {
            if b == 0 && shift > 0 {
                return Err((2, at));
            }
            numbers.push(value);
            (value, shift) = (0, 0);
        }
    }
    if numbers.len() < least || shift > 0 { Err((1, sheet.len())) } else { Ok(numbers) }
}

/// The lowest of some fields that is outside its range; February may have these days.
fn slow_ranges(f: &Fields, fields: impl Iterator<Item = usize>, february: Range) -> Result<(), Refusal> {
    for i in fields {
        let range = match i {
            1 => 1..=12,
            2 => match (f[0], f[40]) {
                (2, 29) => 1..=29,
                (2, _) => 1..=28,
                (4 | 6 | 9 | 11, _) => 1..=30,
                _ => 1..=31,
            },
            3..=6 => 1..=200,
            7..=9 => 10..=200,
            10..=21 => 0..=1_500,
            22..=33 => 0..=60_000,
            34 => 1..=400,
            35 | 36 => 10..=300,
            37 => 5..=80,
            38 => 1..=100,
            39 => 0..=120_000,
            40 => 0..=127,
            _ => february.clone(),
        };
        if !range.contains(&f[i - 1]) {
            return Err((4, i));
        }
    }
    Ok(())
}

/// Refusals 5 to 7.
fn slow_rules(f: &Fields) -> Result<(), Refusal> {
    let grown = f[2] + f[3];
    if f[2] + f[3] + f[4] + f[5] > 275 {
        Err((5, 0))
    } else if f[34] > f[35] {
        Err((6, 0))
    } else if f[38] > f[33] * (f[34] + (f[35] - f[34]) / grown) {
        Err((7, 0))
    } else {
        Ok(())
    }
}

/// The block's numbers by the list of refusals, 4 to 7.
fn slow_block(f: &Fields, february: Range) -> Result<(), Refusal> {
    slow_ranges(f, (1..=9).chain(34..=41), february)?;
    slow_rules(f)
}

/// The days of February, 28 where the sheet has none, and what they may be.
fn slow_february(last: Option<&u32>) -> (u32, Range) {
    last.map_or((28, 28..=28), |&v| (v, 29..=29))
}

/// A pair read a second time by the list of refusals.
fn slow_sheets(s: &Sheets) -> Result<Fields, Refusal> {
    let mut f = [0; 41];
    f[9..33].copy_from_slice(&slow_numbers(&s.climate, 24, 24)?);
    slow_ranges(&f, 10..=33, 28..=29)?;
    let block = slow_numbers(&s.block, 16, 17)?;
    f[..9].copy_from_slice(&block[..9]);
    f[33..40].copy_from_slice(&block[9..16]);
    let (last, february) = slow_february(block.get(16));
    f[40] = last;
    slow_block(&f, february).map(|()| f)
}

/// The one sheet of before T-08, likewise.
fn slow_one_sheet(sheet: &[u8]) -> Result<Fields, Refusal> {
    let numbers = slow_numbers(sheet, 40, 41)?;
    let (last, february) = slow_february(numbers.get(40));
    let mut f = [last; 41];
    f[..40].copy_from_slice(&numbers[..40]);
    slow_ranges(&f, 1..=41, february)?;
    slow_rules(&f).map(|()| f)
}

/// A season's numbers, in the order of the fields.
fn fields_of(s: Season) -> Fields {
    let soil = [s.available, s.sown, s.full, s.fraction, s.efficiency, s.opening, s.turns, s.february];
    let fields = [&[s.month as u32 + 1, s.date][..], &s.stages, &s.kc, &s.eto, &s.rain, &soil].concat();
    assert_eq!(s.days, s.stages.iter().sum());
    fields.try_into().unwrap()
}

fn read(s: &Sheets) -> Result<Fields, Refusal> {
    read_sheets(&s.climate, &s.block).map(fields_of)
}

/// A pair by the reader and by the second one, which both must refuse so or, with (0, 0), accept.
fn both_readers(t: &mut Tally, s: &Sheets, want: Refusal) {
    let by = [read(s), slow_sheets(s)].map(|answer| answer.map_or_else(|e| e, |_| (0, 0)));
    t.same(|| format!("both readers, {s:02x?}"), by, [want; 2]);
}

/// Pairs by document 02, then any pairs, and their bytes as one sheet, against the second reader. What is accepted as a
/// pair is accepted as one sheet with the same numbers, and the other way round, and its bytes are what they make.
fn sheet_bytes(g: &mut Dice, percent: u32) -> (u64, u64) {
    let mut t = tally();
    t.same(|| "the small pair".into(), sheets(&small(127)), Sheets::new(&cases::CLIMATE, &cases::BLOCK));
    for (pair, [number, value]) in cases::pairs().into_iter().flatten() {
        both_readers(&mut t, &pair, (number, value as usize));
    }
    let (mut seen, mut by_climate) = ([0u32; 8], [0u32; 5]);
    let (mut leap, mut of_41, mut leap_days) = (0, 0, 0);
    for _ in 0..6_000 * percent {
        let days = g.pick(&[4, 30, DAYS as u32]);
        let pair = random::any_sheets(g, days);
        let want = slow_sheets(&pair);
        let number = want.map_or_else(|e| e.0, |_| 0) as usize;
        seen[number] += 1;
        if slow_sheets(&Sheets::new(&pair.climate, &cases::BLOCK)).is_err() {
            by_climate[number] += 1;
        }
        leap += want.is_ok_and(|f| f[40] == 29) as u32;
        leap_days += want.is_ok_and(|f| f[..2] == [2, 29]) as u32;
        of_41 += (want == Err((4, 41))) as u32;
        t.same(|| format!("{pair:02x?}"), read(&pair), want);
        let one = one_sheet::of(&pair.climate, &pair.block);
        let whole = slow_one_sheet(&one);
        t.same(|| format!("one sheet {one:02x?}"), one_sheet::read(&one).map(fields_of), whole);
        if let Ok(f) = want {
            let made = write_sheet(if f[40] == 28 { &f[..40] } else { &f });
            t.same(|| format!("{pair:02x?} as one sheet"), (&one, whole), (&made, want));
            t.same(|| format!("{pair:02x?} written again"), &sheets(&f), &pair);
        }
        if let Ok(f) = whole {
            t.same(|| format!("{one:02x?} as two sheets"), read(&sheets(&f)), whole);
        }
    }
    println!("pairs by refusal, 0 accepted: {:?}; 1 to 4 for the climate sheet: {:?}", seen, &by_climate[1..]);
    println!("accepted with 29 days of February: {leap}, of which {leap_days} start on the last; {of_41} refused 4 41");
    t.report("sheet bytes, second reader")
}

/// The bytes of a number by division, lowest group first.
fn slow_bytes(v: u32) -> Vec<u8> {
    let (low, rest) = ((v % 128) as u8, v / 128);
    if rest == 0 { vec![low] } else { [vec![0x80 + low], slow_bytes(rest)].concat() }
}

/// The writers: document 02's cases, then any fields and buffers against a second writer and the second reader.
fn writers(g: &mut Dice, percent: u32) -> (u64, u64) {
    let mut t = tally();
    let mut longest = [0; 41];
    longest[..9].copy_from_slice(&[12, 31, 128, 128, 10, 9, 200, 200, 200]);
    longest[9..21].fill(1_500);
    longest[21..33].fill(60_000);
    longest[33..].copy_from_slice(&[400, 300, 300, 80, 100, 120_000, 127, 28]);
    let mut shortest = [0; 41];
    shortest[..9].copy_from_slice(&[1, 1, 1, 1, 1, 1, 10, 10, 10]);
    shortest[33..].copy_from_slice(&[1, 10, 10, 5, 1, 0, 0, 28]);
    let changed = |changes: &[(usize, u32)]| with(small(127), changes);
    let leap_day = |february| changed(&[(1, 2), (2, 29), (41, february)]);
    let climates = [
        (small(127), 25, (0, 0, 25)), (small(127), 50, (0, 0, 25)), (small(127), 24, (15, 0, 0)),
        (changed(&[(10, u32::MAX)]), 0, (4, 10, 0)), (changed(&[(10, 1_501)]), 50, (4, 10, 0)),
        (changed(&[(33, 60_001)]), 50, (4, 33, 0)), (changed(&[(20, 1_501), (33, 60_001), (1, 13)]), 50, (4, 20, 0)),
        (changed(&[(1, 13), (34, 0), (41, 30)]), 25, (0, 0, 25)), (longest, 60, (0, 0, 60)), (longest, 59, (15, 0, 0)),
        (shortest, 24, (0, 0, 24)), (shortest, 23, (15, 0, 0)),
    ];
    let blocks = [
        (small(127), 16, (0, 0, 16)), (small(127), 50, (0, 0, 16)), (small(127), 15, (15, 0, 0)),
        (changed(&[(2, 32)]), 0, (4, 2, 0)), (changed(&[(10, u32::MAX)]), 16, (0, 0, 16)),
        (changed(&[(34, 0)]), 50, (4, 34, 0)), (changed(&[(9, 9), (34, 0)]), 50, (4, 9, 0)),
        (changed(&[(3, 76), (4, 100), (5, 50), (6, 50)]), 0, (5, 0, 0)),
        (changed(&[(35, 21)]), 0, (6, 0, 0)), (changed(&[(39, 2_001)]), 0, (7, 0, 0)),
        (longest, 26, (0, 0, 26)), (longest, 25, (15, 0, 0)), (shortest, 16, (0, 0, 16)), (shortest, 15, (15, 0, 0)),
        (with(longest, &[(41, 29)]), 27, (0, 0, 27)), (with(longest, &[(41, 29)]), 26, (15, 0, 0)),
        (changed(&[(41, 29)]), 50, (0, 0, 17)), (changed(&[(41, 29)]), 16, (15, 0, 0)),
        (changed(&[(41, 30)]), 0, (4, 41, 0)), (changed(&[(41, 0)]), 50, (4, 41, 0)),
        (changed(&[(41, u32::MAX)]), 50, (4, 41, 0)), (changed(&[(40, 128), (41, 30)]), 50, (4, 40, 0)),
        (changed(&[(35, 21), (41, 30)]), 50, (4, 41, 0)), (leap_day(28), 50, (4, 2, 0)), (leap_day(30), 50, (4, 2, 0)),
        (leap_day(29), 50, (0, 0, 17)),
    ];
    let both = climates.map(|c| (Writer::Climate, c)).into_iter().chain(blocks.map(|b| (Writer::Block, b)));
    for (writer, (f, room, (number, value, bytes))) in both {
        let mut sheet = vec![0xee; room];
        let made = writer.write(3, &writer.fields(&f), &mut sheet);
        t.same(|| format!("{writer:?} of {f:?} in {room}"), made, Written { number, value, bytes });
        t.same(|| format!("beyond {bytes} of {room}"), &sheet[bytes..], &vec![0xee; room - bytes][..]);
        if f == small(127) && number == 0 {
            let small = Sheets::new(&cases::CLIMATE, &cases::BLOCK);
            t.same(|| format!("the small pair's {writer:?}"), &sheet[..bytes], writer.sheet(&small));
        }
    }
    let mut seen = [[0u32; 16]; 2];
    for _ in 0..1_400 * percent {
        let days = g.pick(&[4, 30, DAYS as u32]);
        let f = random::any_fields(g, days);
        for writer in Writer::BOTH {
            let fields = writer.fields(&f);
            let count = if fields.get(16..) == Some(&[28]) { 16 } else { fields.len() };
            let made: Vec<u8> = fields[..count].iter().flat_map(|&v| slow_bytes(v)).collect();
            let judged = match writer {
                Writer::Climate => slow_ranges(&f, 10..=33, 28..=29),
                Writer::Block => slow_block(&f, 28..=29),
            };
            let [most, more] = writer.rooms();
            for room in [made.len() - 1, made.len(), most, more] {
                let noise = g.next() as u8;
                let (mut got, mut want) = (vec![noise; room], vec![noise; room]);
                let w = match judged {
                    Err((number, value)) => Written { number, value, bytes: 0 },
                    Ok(()) if room < made.len() => Written { number: 15, value: 0, bytes: 0 },
                    Ok(()) => {
                        want[..made.len()].copy_from_slice(&made);
                        let back = slow_sheets(&writer.beside(&made)).map(|f| writer.fields(&f));
                        t.same(|| format!("{writer:?} read back {f:?}"), back, Ok(fields.clone()));
                        Written { number: 0, value: 0, bytes: made.len() }
                    }
                };
                seen[writer as usize][w.number as usize] += 1;
                let answer = writer.write(3, &fields, &mut got);
                t.same(|| format!("{writer:?} of {f:?} in {room}"), (answer, got), (w, want));
            }
        }
    }
    println!("sheets written, by refusal, 0 made: climates {:?}, blocks {:?}", seen[0], seen[1]);
    t.report("the writers, second writer and reader")
}

/// Tables, plans, stage sums, losses and probes of long seasons by the slow rules.
fn long_seasons(g: &mut Dice, percent: u32) -> (u64, u64) {
    let mut t = tally();
    let (mut refused, mut stressed) = (0, 0);
    for _ in 0..30 * percent {
        let f = random::fields(g, DAYS as u32);
        let sheets = sheets(&f);
        let s = sheets.season();
        let mut rows: Vec<[u32; 6]> = Vec::new();
        for day in 1..=s.days {
            let (month, date, ..) = book::calendar(&s, day);
            let decade = if date <= 10 { 1 } else if date <= 20 { 2 } else { 3 };
            if day == 1 || date == 1 || date == 11 || date == 21 {
                rows.push([month as u32 + 1, decade, 0, 0, 0, 0]);
            }
            let row = rows.last_mut().unwrap();
            row[2] += book::need(&s, day);
            row[3] += book::planned_rain(&s, day);
        }
        for row in &mut rows {
            row[4] = row[2].max(row[3]) - row[3];
            row[5] = (row[4] * 100 + s.efficiency - 1) / s.efficiency;
        }
        let mut got = [0; 6 * ROWS];
        let made = table(&sheets, &mut got);
        t.same(|| format!("table {f:?}"), (made.rows, &got[..6 * made.rows]), (rows.len(), rows.as_flattened()));
        // The plan as the document tells it: find the failing day from the start, each time anew.
        let (area, l) = random::journal(g, &sheets, 4_000);
        let mut got = [9; DAYS + 1];
        let p = plan(&sheets, &area, &mut got);
        // A lone 01 after the last entry: torn, or damaged once all days are closed. Then the refusals' order.
        let mut spoilt = area.clone();
        spoilt[l.place] = 1;
        let refusal = |area: &[u8], room: usize| {
            let mut buffer = [9; DAYS];
            let p = plan(&sheets, area, &mut buffer[..room]);
            (p.number, p.value, p.waterings + p.net + p.gross, buffer == [9; DAYS])
        };
        let ended = l.day > s.days;
        t.same(|| format!("spoilt plan {f:?}"), refusal(&spoilt, 0), (if ended { 9 } else { 10 }, l.place, 0, true));
        t.same(|| "long area".into(), refusal(&[0; 8_193], 0), (8, 0, 0, true));
        // A close counts in the stage of the day that it closes.
        let mut needs = [0; 4];
        for day in 1..l.day {
            let ends = [f[2], f[2] + f[3], f[2] + f[3] + f[4]];
            needs[ends.iter().filter(|&&end| end < day).count()] += book::need(&s, day);
        }
        t.same(|| format!("needs {f:?}"), (l.stages.map(|s| s.need), l.need), (needs, needs.iter().sum()));
        t.same(|| format!("sums {f:?}"), adds_up(&l), true);
        let ky = random::ky(g);
        let found = if ended { Opening::Refused(9, l.place) } else { Opening::Torn(l, l.place) };
        t.same(|| format!("spoilt loss {ky} {f:?}"), loss(&sheets, &spoilt, ky), slow_losses(found, ky));
        t.same(|| format!("loss {ky} {f:?}"), loss(&sheets, &area, ky), slow_losses(Opening::Clean(l), ky));
        let given = random::probes(g);
        t.same(|| format!("spoilt {given:?} {f:?}"), probe(&sheets, &spoilt, given), slow_probe(&s, found, given));
        t.same(|| format!("{given:?} {f:?}"), probe(&sheets, &area, given), slow_probe(&s, Opening::Clean(l), given));
        stressed += (l.used < l.need) as u32;
        if ended {
            t.same(|| format!("closed plan {f:?}"), refusal(&area, 0), (11, 0, 0, true));
            continue;
        }
        t.same(|| format!("short buffer {f:?}"), refusal(&area, (s.days - l.day) as usize), (15, 0, 0, true));
        let (number, value, depths) = slow_plan(&s, &l, |i| is_turn(&s, l.day + i as u32));
        refused += (number == 16) as u32;
        t.same(|| format!("plan {f:?}"), (p.number, p.value), (number, value));
        let mut want = [9; DAYS + 1];
        if number == 0 {
            want[..depths.len()].copy_from_slice(&depths);
            let net: u32 = depths.iter().sum();
            let count = depths.iter().filter(|&&d| d > 0).count() as u32;
            t.same(|| "totals".into(), (p.waterings, p.net, p.gross), (count, net, (net * 100 + s.efficiency - 1) / s.efficiency));
        }
        t.same(|| format!("depths {f:?}"), got, want);
    }
    println!("long plans refused: {refused}; journals with stress: {stressed}");
    t.report("long seasons, slow rules")
}

/// Day after day with the given depths: the first failing day's index, and each day's max(0, D − w) before its depth.
fn walk_days(s: &Season, l: &Ledger, depths: &[u32], before: &mut Vec<u32>) -> Option<usize> {
    before.clear();
    let mut d = l.depletion;
    for (i, depth) in depths.iter().enumerate() {
        let day = l.day + i as u32;
        let rain = if i == 0 { l.waiting_rain + l.waiting_irrigation } else { book::planned_rain(s, day) };
        before.push(d.saturating_sub(rain));
        d = d.saturating_sub(rain + depth) + book::need(s, day);
        if d > book::soil(s, day).1 {
            return Some(i);
        }
    }
    None
}

fn is_turn(s: &Season, day: u32) -> bool {
    s.turns >> ((day - 1) % 7) & 1 == 1
}

/// On the turn days given, by their place from the open day.
fn slow_plan(s: &Season, l: &Ledger, is_turn: impl Fn(usize) -> bool) -> (u32, usize, Vec<u32>) {
    let mut depths = vec![0; (s.days - l.day + 1) as usize];
    let (mut last, mut before) = (None, Vec::new());
    while let Some(failing) = walk_days(s, l, &depths, &mut before) {
        let first = last.map_or(0, |i: usize| i + 1);
        let turn = (first..=failing).rev().find(|&i| is_turn(i));
        match turn {
            Some(i) if before[i] > 0 => (depths[i], last) = (before[i], Some(i)),
            _ => return (16, l.day as usize + failing, Vec::new()),
        }
    }
    (0, 0, depths)
}

// ------------------------------------------------------------------ the planner by brute force

/// Depth 0 or fill is enough. Take any choice x that holds, S its irrigated days, and let y bring
/// max(0, D − w) to zero with the smallest depth on each day of S, and give nothing elsewhere. Then
/// y's depletion is never above x's: on a day of S it is C, the least there is; elsewhere the day's
/// rule max(0, D − w) + C rises with D, and both have the same w. So y holds wherever x does, and
/// its irrigated days are among S (a fill may be 0), so up to each day they are no more than x's.
/// Every least count and every first hopeless day is thus found among subsets of turn days, filled.
/// Given each day's water, need and ready water and the turn days' places, answers the fewest irrigated days to each
/// day among choices that hold to the end, and how many days a choice holds at most.
fn all_choices(depletion: u32, numbers: &[(i64, i64, i64)], turns: &[usize]) -> (Vec<u32>, usize) {
    let (mut least, mut reach) = (vec![u32::MAX; numbers.len()], 0);
    for subset in 0u32..1 << turns.len() {
        let (mut d, mut count, mut counts, mut ok) = (depletion as i64, 0, vec![0; numbers.len()], true);
        for (i, &(w, c, r)) in numbers.iter().enumerate() {
            d = (d - w).max(0);
            if turns.iter().position(|&x| x == i).is_some_and(|b| subset >> b & 1 == 1) && d > 0 {
                d = 0;
                count += 1;
            }
            d += c;
            counts[i] = count;
            if d > r {
                ok = false;
                break;
            }
            reach = reach.max(i + 1);
        }
        if ok {
            least.iter_mut().zip(&counts).for_each(|(a, b)| *a = (*a).min(*b));
        }
    }
    (least, reach)
}

/// A plan, and three on one pump, against every choice. Random depths are thrown in as well, to try the argument
/// itself.
fn brute(g: &mut Dice, percent: u32) -> (u64, u64) {
    let mut t = tally();
    let (mut held, mut refused, mut tried, mut loose) = (0, 0, 0u64, 0u64);
    let (mut many, mut behind) = (0, [0; 2]);
    for _ in 0..250 * percent {
        let f = random::thirsty(g, 13);
        let sheets = sheets(&f);
        let s = sheets.season();
        let (area, l) = random::journal(g, &sheets, 80);
        if l.day > s.days {
            continue;
        }
        let days = (s.days - l.day + 1) as usize;
        let numbers: Vec<(i64, i64, i64)> = (0..days).map(|i| {
            let day = l.day + i as u32;
            let w = if i == 0 { l.waiting_rain + l.waiting_irrigation } else { book::planned_rain(&s, day) };
            (w as i64, book::need(&s, day) as i64, book::soil(&s, day).1 as i64)
        }).collect();
        let turns: Vec<usize> = (0..days).filter(|&i| is_turn(&s, l.day + i as u32)).collect();
        let (least, reach) = all_choices(l.depletion, &numbers, &turns);
        tried += 1 << turns.len();
        // The block three times on one pump, the others with more turns, or fewer: each on the turn days left to it.
        let blocks = [0, 1, 2].map(|k| {
            let f = if k == 0 { f } else { with(f, &[(40, g.of(0, 127) | g.of(0, 127))]) };
            banks::Block { sheet: random::sheets(&f).block, area: area.clone(), room: days }
        });
        let bank = Bank::of(&sheets.climate, g.of(1, 2), &blocks);
        let mut got = bank.before(9);
        let part_before = got.1.0.clone();
        banks::by_plain(&bank, 3, &mut got);
        t.same(|| format!("bank of {bank:02x?}"), got.0[0], 0);
        let mut used = vec![0; days];
        for (k, block) in blocks.iter().enumerate() {
            let season = Sheets::new(&sheets.climate, &block.sheet).season();
            let left: Vec<usize> =
                (0..days).filter(|&i| is_turn(&season, l.day + i as u32) && used[i] < bank.limit).collect();
            let (least, reach) = all_choices(l.depletion, &numbers, &left);
            let (answer, part) = (&got.1.1[5 * k..][..5], &got.1.0[days * k..][..days]);
            let what = || format!("block {k} of {bank:02x?}");
            behind[(answer[0] == 0) as usize] += 1;
            if reach < days {
                let day = l.day + reach as u32;
                t.same(what, (answer, part), (&[16, day, 0, 0, 0][..], &part_before[days * k..][..days]));
                continue;
            }
            let counts: Vec<u32> = part.iter().scan(0, |n, &d| { *n += (d > 0) as u32; Some(*n) }).collect();
            t.same(what, (&answer[..4], &counts), (&[0, 0, counts[days - 1], part.iter().sum()][..], &least));
            t.same(what, walk_days(&season, &l, part, &mut Vec::new()), None);
            for (i, &depth) in part.iter().enumerate() {
                t.same(what, depth == 0 || left.contains(&i), true);
                used[i] += (depth > 0) as u32;
            }
        }
        let mut depths = vec![9; days];
        let p = plan(&sheets, &area, &mut depths);
        if reach < days {
            refused += 1;
            t.same(|| format!("no choice {f:?} {area:02x?}"), (p.number, p.value), (16, l.day as usize + reach));
            t.same(|| "unaltered".into(), depths.iter().all(|&d| d == 9), true);
        } else {
            held += 1;
            many += (p.waterings > 1) as u32;
            t.same(|| format!("a choice {f:?} {area:02x?}"), (p.number, p.value), (0, 0));
            t.same(|| format!("holds {f:?}"), walk_days(&s, &l, &depths, &mut Vec::new()), None);
            t.same(|| format!("turns {f:?}"), depths.iter().enumerate().all(|(i, &d)| d == 0 || turns.contains(&i)), true);
            let mut count = 0;
            for j in 0..days {
                count += (depths[j] > 0) as u32;
                t.same(|| format!("fewest to {j} {f:?}"), count, least[j]);
            }
            t.same(|| "count and net".into(), (p.waterings, p.net), (count, depths.iter().sum()));
        }
        for _ in 0..20 {
            let mut x = vec![0; days];
            for &i in &turns {
                if g.one_in(2) {
                    x[i] = g.of(0, 4_000);
                }
            }
            let fails = walk_days(&s, &l, &x, &mut Vec::new());
            loose += 1;
            t.same(|| format!("random depths reach {f:?}"), fails.unwrap_or(days) <= reach, true);
            if fails.is_none() {
                let mut count = 0;
                let fewer = (0..days).any(|j| {
                    count += (x[j] > 0) as u32;
                    count < least[j]
                });
                t.same(|| format!("random depths beat the plan {f:?}"), fewer, false);
            }
        }
    }
    println!("small seasons: {held} held ({many} with two waterings or more), {refused} refused; {tried} fill choices, {loose} random choices");
    println!("their blocks on one pump: {} held, {} refused", behind[1], behind[0]);
    t.report("planner by brute force")
}

// ------------------------------------------------------------------ banks

/// A bank word for word: refusals in document 02's order, each block's by the calls on that block alone, then each
/// block planned by the slow rules, where a day on which `limit` of the plans before it water is no turn day.
fn slow_bank(b: &Bank, before: &Banked) -> Banked {
    let mut answer = before.clone();
    let refused = |number: u32, value: usize| {
        let mut answer = before.clone();
        answer.0[..2].copy_from_slice(&[number, value as u32]);
        answer
    };
    let in_range = (1..=40).contains(&b.blocks) && (1..=40).contains(&b.limit);
    let sum = |column: usize| b.lengths.chunks(3).take(b.blocks as usize).map(|l| l[column] as u128).sum::<u128>();
    let buffers = [b.sheets.len(), b.areas.len(), b.depths];
    if !in_range || (b.lengths.len() as u64) < 3 * b.blocks as u64 || (0..3).any(|i| sum(i) > buffers[i] as u128) {
        return refused(22, 0);
    }
    if let Err((number, value)) = slow_sheets(&Sheets::new(&b.climate, &cases::BLOCK)) {
        return refused(number, value);
    }
    let mut blocks = Vec::new();
    for (block, at) in b.parts().unwrap() {
        let pair = Sheets::new(&b.climate, &block.sheet);
        let p = plan(&pair, &block.area, &mut vec![0; block.room]);
        match open(&pair, &block.area).opening {
            Opening::Clean(l) if [0, 16].contains(&p.number) => blocks.push((pair.season(), l, at)),
            _ => return refused(p.number, p.value),
        }
    }
    let common: Vec<[u32; 4]> = blocks.iter().map(|(s, l, _)| [s.month as u32, s.date, s.february, l.day]).collect();
    if common.iter().any(|c| c != &common[0]) {
        return refused(23, 0);
    }
    answer.0[..2].copy_from_slice(&[0, 0]);
    let mut plans: Vec<Vec<u32>> = Vec::new();
    for (k, (s, l, at)) in blocks.into_iter().enumerate() {
        let watering = |i: usize| plans.iter().filter(|p| p.get(i).is_some_and(|&d| d > 0)).count();
        let left = |i: usize| is_turn(&s, l.day + i as u32) && watering(i) < b.limit as usize;
        let (number, value, depths) = slow_plan(&s, &l, left);
        let net: u32 = depths.iter().sum();
        let count = depths.iter().filter(|&&d| d > 0).count() as u32;
        let five = [number, value as u32, count, net, (net * 100 + s.efficiency - 1) / s.efficiency];
        answer.1.1[5 * k..][..5].copy_from_slice(&five);
        answer.1.0[at..][..depths.len()].copy_from_slice(&depths);
        plans.push(depths);
    }
    answer
}

/// Document 02's cases of T-10, then any banks against the slow one, by each role. No day has more waterings than the
/// limit, and where that is no less than the blocks, each has the plan that it has alone.
fn bank_calls(g: &mut Dice, percent: u32) -> (u64, u64) {
    let mut t = tally();
    let asked = |bank: &Bank, role: u32, before: &Banked| {
        let mut answer = before.clone();
        banks::by_plain(bank, role, &mut answer);
        answer
    };
    for (bank, want) in cases::banks() {
        let before = (noisy(7), (vec![7; bank.depths], vec![7; ANSWERS]));
        let mut want = (before.0, want);
        want.0[..2].copy_from_slice(&[0, 0]);
        for role in 1..=3 {
            t.same(|| format!("role {role}, {bank:02x?}"), &asked(&bank, role, &before), &want);
        }
        t.same(|| format!("slowly {bank:02x?}"), &slow_bank(&bank, &before), &want);
    }
    for (role, bank, want) in cases::refused_banks() {
        let before = bank.before(7);
        let mut all = before.clone();
        all.0[..2].copy_from_slice(&want);
        t.same(|| format!("role {role}, {bank:02x?}"), &asked(&bank, role, &before), &all);
        if role <= 3 && role > 0 {
            t.same(|| format!("slowly {bank:02x?}"), &slow_bank(&bank, &before), &all);
        }
    }
    let (mut seen, mut made, mut refused, mut moved, mut most) = ([0u32; 24], 0, 0, 0, 0);
    for _ in 0..800 * percent {
        let bank = random::bank(g);
        let before = bank.before(g.next() as u32);
        let third = asked(&bank, 3, &before);
        seen[third.0[0] as usize] += 1;
        t.same(|| format!("{bank:02x?}"), &third, &slow_bank(&bank, &before));
        for role in random::ROLES {
            let want = by_rule(role, Right::Look, &third, &before);
            t.same(|| format!("by role {role}: {bank:02x?}"), asked(&bank, role, &before), want);
        }
        if third.0[0] != 0 {
            continue;
        }
        let mut used = [0; DAYS];
        for (k, (block, at)) in bank.parts().unwrap().into_iter().enumerate() {
            let mut depths = before.1.0[at..][..block.room].to_vec();
            let p = plan(&Sheets::new(&bank.climate, &block.sheet), &block.area, &mut depths);
            let alone = [p.number, p.value as u32, p.waterings, p.net, p.gross];
            let (answer, part) = (&third.1.1[5 * k..][..5], &third.1.0[at..][..block.room]);
            if bank.limit >= bank.blocks {
                t.same(|| format!("block {k} alone: {bank:02x?}"), (answer, part), (&alone[..], &depths[..]));
            }
            moved += (answer != alone) as u32;
            if answer[0] == 0 {
                made += 1;
                // What stands behind a plan's days is what stood there before.
                for (i, _) in part.iter().zip(&before.1.0[at..]).enumerate().filter(|(_, (a, b))| a != b && **a > 0) {
                    used[i] += 1;
                }
            } else {
                refused += 1;
            }
        }
        let busiest = used.into_iter().max().unwrap();
        most = most.max(busiest);
        t.same(|| format!("waterings on a day: {bank:02x?}"), busiest <= bank.limit, true);
    }
    println!("banks by answer, 0 accepted: {seen:?}");
    println!("their blocks: {made} planned, {refused} refused 16, {moved} of both otherwise than alone");
    println!("most waterings of a bank on one day: {most}");
    t.report("banks, slow rules")
}

// ------------------------------------------------------------------ roles

/// Document 02's cases of T-09; then any pairs, areas and fields, each call by each role against what the rule makes of
/// role 3's answer, `out` and lent buffers over noise.
fn roles(g: &mut Dice, percent: u32) -> (u64, u64) {
    let mut t = tally();
    let answered = |pair: &Sheets, area: &[u8], role: u32, ask: Ask, before: &Answer| {
        let mut answer = before.clone();
        by_plain(pair.pair(), area, (role, ask), &mut answer.0, &mut answer.1);
        answer
    };
    for case in cases::BY_ROLE {
        let (pair, ask) = (Sheets::new(case.climate, &cases::BLOCK), Ask::from(case.call));
        let got = answered(&pair, case.area, case.role, ask, &ask.before(7)).0;
        let mut want = noisy(7);
        want[..case.want.len()].copy_from_slice(case.want);
        t.same(|| format!("{ask:?} by role {} on {:02x?}", case.role, case.area), got, want);
    }
    let mut seen = [[0u32; 22]; 6];
    for round in 0..400 * percent {
        // One pair in two is accepted, and its journal clean, torn or damaged.
        let days = g_days(round);
        let (pair, area) = if round % 2 == 0 {
            let pair = sheets(&random::fields(g, days));
            let area = random::any_journal(g, &pair, 1_300);
            (pair, area)
        } else {
            (random::any_sheets(g, days), vec![0xff; g.pick(&[0, 8, 64, 8_193])])
        };
        let (amount, ky, probes) = (random::amount(g), random::ky(g), random::probes(g));
        let (depths, rows) = (g.pick(&[0, 11, DAYS]), g.pick(&[0, 12, 6 * ROWS]));
        let asks = [
            Ask::Open, Ask::Rain(amount), Ask::Irrigation(amount), Ask::Close, Ask::Loss(ky), Ask::Probe(probes),
            Ask::Plan(depths), Ask::Table(rows),
        ];
        for ask in asks {
            let before = ask.before(g.next() as u32);
            let third = answered(&pair, &area, 3, ask, &before);
            for (role, seen) in random::ROLES.into_iter().zip(&mut seen) {
                let got = answered(&pair, &area, role, ask, &before);
                let want = by_rule(role, ask.right(), &third, &before);
                seen[got.0[0] as usize] += 1;
                t.same(|| format!("{ask:?} by role {role} on {area:02x?} of {pair:02x?}"), got, want);
            }
        }
        let f = random::any_fields(g, days);
        for (writer, room) in Writer::BOTH.into_iter().flat_map(|w| [(w, 15), (w, w.rooms()[0])]) {
            let (fields, noise) = (writer.fields(&f), g.next() as u32);
            let before: Made = (noisy(noise), vec![noise as u8; room]);
            let written = |role: u32| {
                let mut made = before.clone();
                written_by_plain(writer, role, &fields, &mut made.1, &mut made.0);
                made
            };
            let third = written(3);
            for role in random::ROLES {
                let want = by_rule(role, Right::Look, &third, &before);
                t.same(|| format!("{writer:?} by role {role} of {f:?} in {room}"), written(role), want);
            }
        }
    }
    for (role, seen) in random::ROLES.into_iter().zip(seen) {
        println!("role {role}, calls on sheets by answer, 0 accepted: {seen:?}");
    }
    t.report("roles, by the rule")
}

// ------------------------------------------------------------------ histories against the book

fn asked(s: &Sheets, area: &[u8], role: u32, call: Call) -> book::Answer {
    let (climate, block) = s.pair();
    let stores = |r: Recorded| {
        assert!(r.bytes[r.count..].iter().all(|&b| b == 0) && (r.number == 0 || r.start == 0 && r.count == 0));
        let stores = (0..r.count).map(|i| (r.start + i, r.bytes[i])).collect();
        book::Answer { number: r.number, value: r.value, ledger: None, stores }
    };
    match call {
        Call::Rain(v) => stores(plain::rain(role, climate, block, area, v)),
        Call::Irrigation(v) => stores(plain::irrigation(role, climate, block, area, v)),
        Call::Close => stores(plain::close(role, climate, block, area)),
        Call::Open => plain::open(role, climate, block, area).into(),
    }
}

fn histories(g: &mut Dice, percent: u32) -> (u64, u64) {
    let mut t = tally();
    let (mut calls, mut histories, mut cuts, mut longest, mut fullest) = (0u64, 0, 0u64, 0, 0);
    let (mut seen, mut torn_openings, mut cut_openings) = ([0u64; 22], 0u64, 0u64);
    while calls < 4_500 * percent as u64 {
        histories += 1;
        let (long, fill) = (histories % 16 == 0, histories % 160 == 0);
        let f = random::fields(g, if long { DAYS as u32 } else { 12 });
        let sheets = sheets(&f);
        let length = if fill { 8_192 } else if long { g.pick(&[900, 1_500, 8_192]) } else { g.of(0, 90) as usize };
        let mut area = vec![0xff; length];
        let mut book = Book::new(sheets.season(), length);
        let calm = g.one_in(2);
        for _ in 0..if fill { 6_000 } else if long { 1_800 } else { 60 } {
            calls += 1;
            let torn = matches!(open(&sheets, &area).opening, Opening::Torn(..));
            let amount = random::amount(g);
            let call = match g.of(0, 9) {
                _ if torn && !g.one_in(4) => Call::Open,
                0 | 1 | 2 => Call::Rain(amount),
                3 | 4 => Call::Irrigation(amount),
                5 if g.one_in(2) => Call::Open,
                _ if fill && !g.one_in(4) => Call::Rain(g.of(16_384, 17_000)),
                _ => Call::Close,
            };
            let (role, ky) = (random::role(g, call), random::ky(g));
            let answer = asked(&sheets, &area, role, call);
            let what = || format!("{call:?} by role {role} on {area:02x?} of {f:?}");
            t.same(what, answer.clone(), book.answer(role, call));
            seen[answer.number as usize] += 1;
            let all = answer.stores.len();
            // Every cut, then one of them is what happened.
            for done in 0..=all {
                let (mut a, mut b) = (area.clone(), book.clone());
                for &(place, byte) in &answer.stores[..done] {
                    a[place] = byte;
                }
                b.call(role, call, done);
                cuts += 1;
                torn_openings += matches!(b.open(3).opening, Opening::Torn(..)) as u64;
                cut_openings += (call == Call::Open && done > 0 && done < all) as u64;
                t.same(|| format!("opening after {done} of {call:?}: {a:02x?} of {f:?}"), open(&sheets, &a), b.open(3));
                if long {
                    continue;
                }
                // What each call would answer next, on the cut journal, role 3 and any.
                let (climate, block) = sheets.pair();
                for role in [3, g.pick(&random::ROLES)] {
                    for next in [Call::Open, Call::Close, Call::Rain(amount)] {
                        let what = || format!("{next:?} by role {role} after {done} of {call:?}: {a:02x?}");
                        t.same(what, asked(&sheets, &a, role, next), b.answer(role, next));
                    }
                    let what = || format!("loss {ky} by role {role} after {done} of {call:?}: {a:02x?}");
                    t.same(what, plain::loss(role, climate, block, &a, ky), b.loss(role, ky));
                    let p = random::probes(g);
                    let what = || format!("{p:?} by role {role} after {done} of {call:?}: {a:02x?} of {f:?}");
                    let got = plain::probe(role, climate, block, &a, p.shallow, p.deep, p.capacity);
                    t.same(what, got, b.probe(role, p.shallow, p.deep, p.capacity));
                }
            }
            // Where there are no stores, the book is told of some that are done all the same.
            let most = if all == 0 { 4 } else { all };
            let done = if g.one_in(if calm { 12 } else { 3 }) { g.of(0, most as u32) as usize } else { most };
            for &(place, byte) in answer.stores.iter().take(done) {
                area[place] = byte;
            }
            book.call(role, call, done);
        }
        let l = book.ledger();
        longest = longest.max(l.day);
        fullest = fullest.max(l.place);
        t.same(|| "last opening".into(), open(&sheets, &area), book.open(3));
        t.same(|| format!("sums {l:?}"), adds_up(&l), true);
        for ky in random::KYS {
            t.same(|| format!("last loss {ky}: {area:02x?} of {f:?}"), loss(&sheets, &area, ky), book.loss(3, ky));
            let p = random::probes(g);
            let what = || format!("last {p:?}: {area:02x?} of {f:?}");
            t.same(what, probe(&sheets, &area, p), book.probe(3, p.shallow, p.deep, p.capacity));
        }
    }
    println!("{histories} histories, {calls} calls, {cuts} cuts opened, {torn_openings} of them torn, {cut_openings} within an opening's stores; latest open day {longest}, longest journal {fullest}");
    println!("calls by answer, 0 accepted: {:?}", seen);
    t.report("histories against the book")
}

/// Any bytes, opened literally: the longest run of accepted entries by asking the book for each, then every
/// entry that could be begun, one after another.
fn any_bytes(g: &mut Dice, percent: u32) -> (u64, u64) {
    let mut t = tally();
    let mut seen = [0u32; 3];
    let amounts: Vec<Vec<u8>> = (1..=120_000).map(|v| book::bytes(book::Entry::Rain(v))).collect();
    for round in 0..200 * percent {
        let f = random::fields(g, g_days(round));
        let sheets = sheets(&f);
        let s = sheets.season();
        let area = random::any_journal(g, &sheets, 1_300);
        let room = area.len();
        let mut book = Book::new(s.clone(), room);
        let mut place = 0;
        let rest = loop {
            let rest = &area[place..];
            let end = rest.iter().skip(1).position(|&b| b < 0x80).map(|i| i + 2);
            let v = end.map(|e| rest[1..e].iter().rev().fold(0u64, |v, &b| v.saturating_mul(128) + (b & 0x7f) as u64)).unwrap_or(0);
            let call = match rest.first() {
                Some(1) => Call::Rain(v.min(1 << 31) as u32),
                Some(2) => Call::Irrigation(v.min(1 << 31) as u32),
                Some(3) => Call::Close,
                _ => break rest,
            };
            let answer = book.answer(3, call);
            let bytes: Vec<u8> = answer.stores.iter().map(|x| x.1).collect();
            if answer.number != 0 || !rest.starts_with(&bytes) {
                break rest;
            }
            book.call(3, call, 9);
            place += bytes.len();
        };
        let l = book.ledger();
        let waiting = l.waiting_rain + l.waiting_irrigation;
        let stands = |e: &[u8]| {
            e.len() <= rest.len() && (1..e.len()).any(|m| rest[..m] == e[..m] && rest[m..].iter().all(|&b| b == 0xff))
        };
        let begun = |tag: u8| match tag {
            1 | 2 => amounts[..120_000.min(240_000 - waiting as usize)].iter().any(|e| {
                let mut e = e.clone();
                e[0] = tag;
                stands(&e)
            }),
            3 => stands(&book::bytes(book::Entry::Close(l.day))),
            _ => false,
        };
        let want = if rest.iter().all(|&b| b == 0xff) {
            seen[0] += 1;
            Opening::Clean(l)
        } else if l.day <= s.days && begun(rest[0]) {
            seen[1] += 1;
            Opening::Torn(l, l.place)
        } else {
            seen[2] += 1;
            Opening::Refused(9, l.place)
        };
        let mut places: Vec<usize> = match want {
            Opening::Torn(..) => (place..room).rev().filter(|&p| area[p] != 0xff).collect(),
            _ => Vec::new(),
        };
        let count = places.len();
        places.resize(3, 0);
        let whole = Opened { opening: want, count, places: places.try_into().unwrap() };
        t.same(|| format!("any bytes {area:02x?} of {f:?}"), open(&sheets, &area), whole);
        t.same(|| format!("sums {l:?}"), adds_up(&l), true);
        let ky = random::ky(g);
        t.same(|| format!("loss {ky} of {area:02x?} of {f:?}"), loss(&sheets, &area, ky), slow_losses(want, ky));
        let p = random::probes(g);
        t.same(|| format!("{p:?} on {area:02x?} of {f:?}"), probe(&sheets, &area, p), slow_probe(&s, want, p));
    }
    println!("any bytes: clean {}, torn {}, damaged {}", seen[0], seen[1], seen[2]);
    t.same(|| "8,193 bytes".into(), open(&sheets(&small(1)), &[0xff; 8_193]).opening, Opening::Refused(8, 0));
    // Cuts after one and after two stores of 01 FF 01 leave the same area and different loose bytes.
    let (one, mut area) = (sheets(&small(1)), [0xff; 8]);
    area[0] = 1;
    for done in 1..=2 {
        let mut b = Book::new(one.season(), 8);
        b.call(3, Call::Rain(255), done);
        t.same(|| "01 FF".into(), open(&one, &area), b.open(3));
        for call in [Call::Rain(255), Call::Close, Call::Open] {
            for role in random::ROLES {
                t.same(|| format!("01 FF, role {role}"), asked(&one, &area, role, call), b.answer(role, call));
            }
        }
    }
    t.same(|| "no bytes".into(), close(&one, &[]).number, 14);
    t.report("any bytes, literal opening")
}

fn g_days(round: u32) -> u32 {
    if round % 4 == 0 { DAYS as u32 } else { 12 }
}

fn main() {
    let seed = std::env::args().nth(1).map_or(20_261_115, |s| s.parse().unwrap());
    let percent = std::env::args().nth(2).map_or(100, |s| s.parse().unwrap());
    println!("seed {seed}, {percent} percent");
    let mut g = Dice(seed);
    let parts = [daggers(), losses(), februaries(), sheet_bytes(&mut g, percent), writers(&mut g, percent),
        probes(&mut g, percent), long_seasons(&mut g, percent), brute(&mut g, percent), bank_calls(&mut g, percent),
        roles(&mut g, percent), histories(&mut g, percent), any_bytes(&mut g, percent)];
    let (compared, wrong) = parts.iter().fold((0, 0), |a, p| (a.0 + p.0, a.1 + p.1));
    println!("in all: {compared} compared, {wrong} mismatches");
    std::process::exit((wrong > 0) as i32);
}
