//! Compares the static library with the plain implementation on random cases: pairs of sheets valid, cut, exchanged,
//! damaged and written, journals clean, torn and damaged, areas of 0 to 8,193 bytes, histories with a cut after every
//! store, water contents of any bits, banks of 1 to 40 blocks. The whole of `out` and of each lent buffer is compared,
//! noise beyond the answer included. What role 3 asks is asked again, but for most water contents, by a role drawn from
//! 0 to 4 and 4,294,967,295, which must be answered as document 02 makes it of role 3's answer. Each accepted pair is
//! read as one sheet too, histories with roles are compared with the book, and banks, roles, pairs, openings, lost
//! yield, soil probes and seventeenth numbers with document 02's cases. In every case each buffer that the library is
//! given ends before a guard page or begins behind one, so that a read or write past it is a fault, and sheets, areas,
//! lengths and fields must be as they were. Then lengths from 2^16 to 2^32 and a little more, which are other lengths
//! to whoever keeps fewer bits. Each refusal of each call must have come up, 1 to 4 for either sheet, and of a bank
//! each block's own for the first block and for a later one. Prints its seed; stops with status 1 at the first
//! difference or fault.
//!
//!     cargo run --release --manifest-path harness/Cargo.toml [SEED]
use balladsky::{self as library, Out, OUT};
use harness::asks::{by_plain, by_rule, noisy, written_by_plain, Answer, Ask, Asked, Made, Pair, Right};
use harness::banks::{self, Bank, Banked};
use harness::memory::{self, Guarded, Side};
use harness::plain::book::{self, Book, Call};
use harness::plain::{self, one_sheet, Opening, Reading, ANSWERS};
use harness::random::{self, Dice, Fields, Probes, Sheets, Writer};
use harness::{cases, numbers};
use std::ops::RangeInclusive;

fn by_library((climate, block): Pair, area: &[u8], (role, ask): Asked, out: &mut Out, lent: &mut [u32]) {
    let call = || format!("the library's {ask:?} by role {role}");
    let message = || format!("{} touched what it was not given\n{}", call(), given((climate, block), area));
    memory::watched(&message, || match ask {
        Ask::Open => library::open(role, climate, block, area, out),
        Ask::Rain(v) => library::rain(role, climate, block, area, v, out),
        Ask::Irrigation(v) => library::irrigation(role, climate, block, area, v, out),
        Ask::Close => library::close(role, climate, block, area, out),
        Ask::Loss(ky) => library::loss(role, climate, block, area, ky, out),
        Ask::Probe(p) => library::probe_of_any_kind(role, climate, block, area, p.shallow, p.deep, p.capacity, out),
        Ask::Plan(_) => library::plan(role, climate, block, area, lent, out),
        Ask::Table(_) => library::table(role, climate, block, lent, out),
    })
}

fn written_by_library(writer: Writer, role: u32, fields: &[u32], sheet: &mut [u8], out: &mut Out) {
    let room = sheet.len();
    let call = || format!("the library's {writer:?} writer by role {role}");
    let message = || format!("{} touched what it was not given\n{fields:?}, {room} bytes", call());
    memory::watched(&message, || match writer {
        Writer::Climate => library::write_climate(role, fields.try_into().unwrap(), sheet, out),
        Writer::Block => library::write_block(role, fields.try_into().unwrap(), sheet, out),
    })
}

/// What a bank is given, in the library's order.
type Given<'a> = (&'a [u8], u32, u32, &'a [u32], &'a [u8], &'a [u8]);

fn banked_by_library(given: Given, role: u32, depths: &mut [u32], answers: &mut [u32; ANSWERS], out: &mut Out) {
    let (climate, blocks, limit, lengths, sheets, areas) = given;
    let message = || format!("the library's bank by role {role} touched what it was not given\n{}", shown_bank(given));
    memory::watched(&message, || {
        library::bank(role, climate, blocks, limit, lengths, sheets, areas, depths, answers, out)
    })
}

/// The calls by kind, and the answers of each: 0, its refusals, and 10 from open. All must come up, and no others.
const CALLS: [(&str, &[RangeInclusive<usize>]); 11] = [
    ("open", &[0..=10, 20..=20]), ("rain", &[0..=14, 20..=21]), ("irrigation", &[0..=14, 20..=21]),
    ("close", &[0..=11, 14..=14, 20..=21]), ("loss", &[0..=10, 17..=17, 20..=20]), ("probe", &[0..=11, 18..=20]),
    ("plan", &[0..=11, 15..=16, 20..=20]), ("table", &[0..=7, 15..=15, 20..=20]),
    ("bank", &[0..=11, 15..=15, 20..=20, 22..=23]), ("write climate", &[0..=0, 4..=4, 15..=15, 20..=20]),
    ("write block", &[0..=0, 4..=7, 15..=15, 20..=20]),
];

/// At most 8,193 bytes are shown.
fn hex(bytes: &[u8]) -> String {
    bytes.iter().take(8_193).map(|b| format!("{b:02x}")).collect()
}

fn given((climate, block): Pair, area: &[u8]) -> String {
    let shown = |name, bytes: &[u8]| format!("{name} ({} bytes) {}", bytes.len(), hex(bytes));
    [shown("climate", climate), shown("block", block), shown("area", area)].join("\n")
}

fn shown_bank((climate, blocks, limit, lengths, sheets, areas): Given) -> String {
    let shown = |name, bytes: &[u8]| format!("{name} ({} bytes) {}", bytes.len(), hex(bytes));
    let bytes = [shown("climate", climate), shown("sheets", sheets), shown("areas", areas)].join("\n");
    let first = &lengths[..lengths.len().min(130)];
    format!("{blocks} blocks, limit {limit}, {} lengths {first:?}\n{bytes}", lengths.len())
}

fn differ_banked(what: &str, bank: &Bank, role: u32, left: &Banked, right: &Banked) -> ! {
    println!("DIFFERENCE: {what}, bank by role {role}, {} depths\n{}", bank.depths, shown_bank(parameters(bank)));
    println!("library {:?}\nother   {:?}", left.0, right.0);
    for (name, left, right) in [("answers", &left.1.1, &right.1.1), ("depths", &left.1.0, &right.1.0)] {
        if let Some(i) = (0..left.len()).find(|&i| left[i] != right[i]) {
            println!("{name}, number {i}: library {}, other {}", left[i], right[i]);
        }
    }
    std::process::exit(1)
}

fn parameters(b: &Bank) -> Given<'_> {
    (&b.climate, b.blocks, b.limit, &b.lengths, &b.sheets, &b.areas)
}

fn differ(what: &str, pair: Pair, area: &[u8], (role, ask): Asked, left: &Answer, right: &Answer) -> ! {
    println!("DIFFERENCE: {what}, {ask:?} by role {role}\n{}", given(pair, area));
    println!("library {:?}\nother   {:?}", left.0, right.0);
    if let Some(i) = (0..left.1.len()).find(|&i| left.1[i] != right.1[i]) {
        println!("lent buffer, number {i}: library {}, other {}", left.1[i], right.1[i]);
    }
    std::process::exit(1)
}

fn differ_written(what: &str, writer: Writer, role: u32, fields: &[u32], left: &Made, right: &Made) -> ! {
    println!("DIFFERENCE: {what}, {writer:?} writer by role {role}, {} bytes, fields {fields:?}", left.1.len());
    println!("library {:?} {}\nother   {:?} {}", left.0, hex(&left.1), right.0, hex(&right.1));
    std::process::exit(1)
}

/// A place beside guard pages for each buffer that the library is given, and how many ended before one and began behind
/// one.
struct Guards {
    climate: Guarded, block: Guarded, area: Guarded, out: Guarded, lent: Guarded, lengths: Guarded, answers: Guarded,
    ended: u64, began: u64,
}

impl Guards {
    fn new() -> Guards {
        let room = || Guarded::new(8_193);
        let large = || Guarded::new(41 * 8_193); // forty areas, or as many parts
        Guards {
            climate: room(), block: room(), area: large(), out: room(), lent: large(), lengths: room(), answers: room(),
            ended: 0, began: 0,
        }
    }

    /// Counts the buffers of a call. A bit of `sides` for each, from the lowest, says which end is at a guard page.
    fn count(&mut self, sides: u32, buffers: u32) {
        let began = (sides & ((1 << buffers) - 1)).count_ones();
        self.began += began as u64;
        self.ended += (buffers - began) as u64;
    }

    /// The library's answer over `before`.
    fn ask(&mut self, (climate, block): Pair, area: &[u8], asked: Asked, before: &Answer, sides: u32) -> Answer {
        self.count(sides, 5);
        let side = |bit: u32| if sides >> bit & 1 == 0 { Side::Ends } else { Side::Begins };
        let (c, b) = (self.climate.bytes(climate, side(0)), self.block.bytes(block, side(1)));
        let (a, out) = (self.area.bytes(area, side(2)), self.out.numbers(&before.0, side(3)));
        let lent = self.lent.numbers(&before.1, side(4));
        let out: &mut Out = out.try_into().unwrap();
        by_library((c, b), a, asked, out, lent);
        let answer = (*out, lent.to_vec());
        if (&*c, &*b, &*a) != (climate, block, area) {
            differ("a sheet or the area was written", (climate, block), area, asked, &answer, before);
        }
        answer
    }

    /// A writer's answer over `before`, likewise.
    fn write(&mut self, writer: Writer, role: u32, fields: &[u32], before: &Made, sides: u32) -> Made {
        self.count(sides, 3);
        let side = |bit: u32| if sides >> bit & 1 == 0 { Side::Ends } else { Side::Begins };
        let (f, s) = (self.lent.numbers(fields, side(0)), self.block.bytes(&before.1, side(1)));
        let out: &mut Out = self.out.numbers(&before.0, side(2)).try_into().unwrap();
        written_by_library(writer, role, f, s, out);
        assert_eq!(f, fields, "the fields were written");
        (*out, s.to_vec())
    }

    /// A bank's answer over `before`, likewise.
    fn bank(&mut self, b: &Bank, role: u32, before: &Banked, sides: u32) -> Banked {
        self.count(sides, 7);
        let side = |bit: u32| if sides >> bit & 1 == 0 { Side::Ends } else { Side::Begins };
        let (c, l) = (self.climate.bytes(&b.climate, side(0)), self.lengths.numbers(&b.lengths, side(1)));
        let (s, a) = (self.block.bytes(&b.sheets, side(2)), self.area.bytes(&b.areas, side(3)));
        let depths = self.lent.numbers(&before.1.0, side(4));
        let answers: &mut [u32; ANSWERS] = self.answers.numbers(&before.1.1, side(5)).try_into().unwrap();
        let out: &mut Out = self.out.numbers(&before.0, side(6)).try_into().unwrap();
        banked_by_library((c, b.blocks, b.limit, l, s, a), role, depths, answers, out);
        let answer = (*out, (depths.to_vec(), answers.to_vec()));
        if (&*c, &*l, &*s, &*a) != (&b.climate[..], &b.lengths[..], &b.sheets[..], &b.areas[..]) {
            differ_banked("what is only read was written", b, role, &answer, before);
        }
        answer
    }
}

/// Of the banks: each refusal of a block, the first's and a later one's; blocks planned, refused 16, and those of
/// either kind that are answered otherwise than alone.
#[derive(Default)]
struct Blocks { first: [u64; 16], later: [u64; 16], planned: u64, refused: u64, moved: u64 }

/// Answers by call and number, how many of 1 to 4 were the climate sheet's, and how often an accepted pair was read as
/// one sheet too.
struct Tally {
    cases: u64, answers: [[u64; 24]; 11], by_climate: [[u64; 5]; 9], blocks: Blocks, as_one: u64, guards: Guards,
}

impl Tally {
    /// Two cases: role 3, whose answer comes back, then any role.
    fn same(&mut self, g: &mut Dice, sheets: &Sheets, area: &[u8], ask: Ask) -> Out {
        let role = g.pick(&random::ROLES);
        self.roles(g, sheets, area, (role, ask))
    }

    /// Role 3, whose answer comes back, and then that role, over the same noise and with each buffer's other end at a
    /// guard page.
    fn roles(&mut self, g: &mut Dice, sheets: &Sheets, area: &[u8], (role, ask): Asked) -> Out {
        let noise = g.next() as u32;
        let before = ask.before(noise);
        let third = self.case(sheets, area, (3, ask), &before, noise >> 27);
        let other = self.case(sheets, area, (role, ask), &before, !noise >> 27);
        let want = by_rule(role, ask.right(), &third, &before);
        if other != want {
            differ("document 02's rule of roles", sheets.pair(), area, (role, ask), &other, &want);
        }
        third.0
    }

    /// One case by one role, over noise.
    fn asked(&mut self, g: &mut Dice, sheets: &Sheets, area: &[u8], asked: Asked) -> Out {
        let noise = g.next() as u32;
        self.case(sheets, area, asked, &asked.1.before(noise), noise >> 27).0
    }

    /// One case: both are asked the same, with the same noise in what is lent.
    fn case(&mut self, sheets: &Sheets, area: &[u8], asked: Asked, before: &Answer, sides: u32) -> Answer {
        let (pair, ask, mut right) = (sheets.pair(), asked.1, before.clone());
        let left = self.guards.ask(pair, area, asked, before, sides);
        by_plain(pair, area, asked, &mut right.0, &mut right.1);
        if left != right {
            differ("plain implementation", pair, area, asked, &left, &right);
        }
        let number = left.0[0];
        match number {
            1..=4 => {
                let at_fault = plain::read_sheets(&sheets.climate, &cases::BLOCK).is_err();
                self.by_climate[ask.kind()][number as usize] += at_fault as u64;
            }
            5..=7 | 20 | 21 => {}
            _ => self.as_one_sheet(pair),
        }
        self.cases += 1;
        self.answers[ask.kind()][number as usize] += 1;
        left
    }

    /// An accepted pair is the season that its numbers were in one sheet, and the plain answers are made of that alone.
    fn as_one_sheet(&mut self, pair: Pair) {
        let sheet = one_sheet::of(pair.0, pair.1);
        let (season, whole) = (plain::read_sheets(pair.0, pair.1), one_sheet::read(&sheet));
        if season.is_err() || season != whole {
            println!("DIFFERENCE: as one sheet\n{}\npair {season:?}\none  {whole:?}", given(pair, &[]));
            std::process::exit(1)
        }
        self.as_one += 1;
    }

    /// A writer, into so many bytes of noise: two cases, as with `same`.
    fn written(&mut self, g: &mut Dice, writer: Writer, f: &Fields, room: usize) -> Made {
        let role = g.pick(&random::ROLES);
        self.written_by(g, writer, role, f, room)
    }

    fn written_by(&mut self, g: &mut Dice, writer: Writer, role: u32, f: &Fields, room: usize) -> Made {
        let (noise, fields) = (g.next() as u32, writer.fields(f));
        let before: Made = (noisy(noise), (0..room).map(|i| noise as u8 ^ i as u8).collect());
        let third = self.write(writer, 3, &fields, &before, noise >> 27);
        let other = self.write(writer, role, &fields, &before, !noise >> 27);
        let want = by_rule(role, Right::Look, &third, &before);
        if other != want {
            differ_written("document 02's rule of roles", writer, role, &fields, &other, &want);
        }
        third
    }

    /// One case of a writer.
    fn write(&mut self, writer: Writer, role: u32, fields: &[u32], before: &Made, sides: u32) -> Made {
        let (left, mut right) = (self.guards.write(writer, role, fields, before, sides), before.clone());
        written_by_plain(writer, role, fields, &mut right.1, &mut right.0);
        if left != right {
            differ_written("plain implementation", writer, role, fields, &left, &right);
        }
        self.cases += 1;
        self.answers[9 + writer as usize][left.0[0] as usize] += 1;
        left
    }

    /// A bank, over noise: role 3, whose answer comes back, then that role with each buffer's other end at a guard
    /// page.
    fn bank(&mut self, g: &mut Dice, bank: &Bank, role: u32) -> Banked {
        let noise = g.next() as u32;
        let before = bank.before(noise);
        let third = self.banked(bank, 3, &before, noise >> 25);
        let other = self.banked(bank, role, &before, !noise >> 25);
        let want = by_rule(role, Right::Look, &third, &before);
        if other != want {
            differ_banked("document 02's rule of roles", bank, role, &other, &want);
        }
        self.blocks_of(bank, &before, &third);
        third
    }

    /// One case of a bank.
    fn banked(&mut self, bank: &Bank, role: u32, before: &Banked, sides: u32) -> Banked {
        let (left, mut right) = (self.guards.bank(bank, role, before, sides), before.clone());
        banks::by_plain(bank, role, &mut right);
        if left != right {
            differ_banked("plain implementation", bank, role, &left, &right);
        }
        let number = left.0[0] as usize;
        if (1..=4).contains(&number) {
            self.by_climate[8][number] += plain::read_sheets(&bank.climate, &cases::BLOCK).is_err() as u64;
        }
        self.cases += 1;
        self.answers[8][number] += 1;
        left
    }

    /// A bank's blocks, each asked for the plan that it has alone: the first refusal but 16 is the bank's, and with a
    /// limit no less than the blocks their answers and parts are the same.
    fn blocks_of(&mut self, bank: &Bank, before: &Banked, answer: &Banked) {
        let number = answer.0[0] as usize;
        match number {
            1..=4 if plain::read_sheets(&bank.climate, &cases::BLOCK).is_err() => return,
            20.. => return,
            _ => {}
        }
        for (k, (block, at)) in bank.parts().unwrap().into_iter().enumerate() {
            let mut depths = before.1.0[at..at + block.room].to_vec();
            let p = plain::plan(1, &bank.climate, &block.sheet, &block.area, &mut depths);
            if ![0, 16].contains(&p.number) {
                assert_eq!(answer.0[..2], [p.number, p.value as u32], "block {k} of {bank:02x?}");
                let seen = if k == 0 { &mut self.blocks.first } else { &mut self.blocks.later };
                seen[number] += 1;
                return;
            }
            if number != 0 {
                continue;
            }
            let alone = [p.number, p.value as u32, p.waterings, p.net, p.gross];
            let (five, part) = (&answer.1.1[5 * k..5 * k + 5], &answer.1.0[at..at + block.room]);
            let same = (five, part) == (&alone, &depths);
            assert!(same || bank.limit < bank.blocks, "block {k} is not as it is alone: {bank:02x?}");
            self.blocks.moved += !same as u64;
            self.blocks.planned += (five[0] == 0) as u64;
            self.blocks.refused += (five[0] == 16) as u64;
        }
    }

    /// All calls on a pair of sheets.
    fn all(&mut self, g: &mut Dice, sheets: &Sheets, area: &[u8]) {
        let (depths, rows) = (g.pick(&[0, 1, 5, 11, 274, 275, 276]), g.pick(&[0, 5, 6, 11, 12, 167, 168, 173, 174, 175]));
        let (a, b, ky, probes) = (random::amount(g), random::amount(g), random::ky(g), random::probes(g));
        let on_journal = [Ask::Open, Ask::Rain(a), Ask::Irrigation(b), Ask::Close, Ask::Loss(ky), Ask::Probe(probes)];
        for ask in on_journal.into_iter().chain([Ask::Plan(depths), Ask::Table(rows)]) {
            self.same(g, sheets, area, ask);
        }
    }
}

/// Pairs of sheets valid, cut, exchanged and damaged, on short areas.
fn pairs(t: &mut Tally, g: &mut Dice) {
    for _ in 0..130_000 {
        let days = g.pick(&[4, 30, plain::DAYS as u32]);
        let sheets = random::any_sheets(g, days);
        let area = vec![0xff; g.of(0, 12) as usize];
        t.all(g, &sheets, &area);
    }
    for length in 0..200 {
        let bytes = vec![g.pick(&[1, 0x80, 0xff]); length];
        for (climate, block) in [(&bytes[..], &cases::BLOCK[..]), (&cases::CLIMATE, &bytes), (&bytes, &bytes)] {
            t.all(g, &Sheets::new(climate, block), &[]);
        }
    }
}

/// Bytes behind a sheet.
const BEHIND: [&[u8]; 9] = [&[0], &[0x1c], &[0x1d], &[0x80], &[0xff], &[0x1d, 0], &[0; 2], &[0xff; 2], &[0xff; 3]];

/// A few pairs at every place: both sheets as one run that is cut there, one sheet or both cut there, with a byte left
/// out or another; bytes behind a sheet. Then the two exchanged, and one given twice.
fn places(t: &mut Tally, g: &mut Dice) {
    for _ in 0..60 {
        let sheets = random::sheets(&random::fields(g, 12));
        let Sheets { climate, block } = &sheets;
        let run = [&climate[..], block].concat();
        for at in 0..=run.len() {
            t.all(g, &Sheets::new(&run[..at], &run[at..]), &[0xff; 8]);
        }
        let spoilt = |sheet: &[u8]| {
            let mut spoilt = BEHIND.map(|behind| [sheet, behind].concat()).to_vec();
            for (at, &byte) in sheet.iter().enumerate() {
                let (before, after) = (&sheet[..at], &sheet[at + 1..]);
                spoilt.extend([before.to_vec(), [before, after].concat()]);
                spoilt.extend([byte ^ 0x80, byte ^ 1, 0, 0xff].map(|other| [before, &[other], after].concat()));
            }
            spoilt
        };
        let (climates, blocks) = (spoilt(climate), spoilt(block));
        let one = climates.iter().map(|c| (c, block)).chain(blocks.iter().map(|b| (climate, b)));
        let exchanged = [(block, climate), (climate, climate), (block, block)];
        for (climate, block) in one.chain(climates.iter().zip(&blocks)).chain(exchanged) {
            t.all(g, &Sheets::new(climate, block), &[0xff; 8]);
        }
    }
}

/// Pairs by document 02, T-08; then those that the climate decides with every block of them and an area that is too
/// long.
fn pairs_by_document(t: &mut Tally, g: &mut Dice) {
    assert_eq!(random::sheets(&random::small(127)), Sheets::new(&cases::CLIMATE, &cases::BLOCK), "the small pair");
    let every = || ON_JOURNAL.into_iter().chain([Ask::Table(12)]);
    let [by_climate, by_block] = cases::pairs();
    for (sheets, want) in by_climate.iter().chain(&by_block) {
        for ask in every().chain([Ask::Plan(plain::DAYS), Ask::Table(6 * plain::ROWS)]) {
            let out = t.same(g, sheets, &[0xff; 8], ask);
            // A season of 275 days asks for more than four depths and two rows.
            let short = want == &[0, 0] && out[..2] == [15, 0] && ask.lent() < plain::ROWS;
            assert!(out[..2] == *want || short, "{ask:?} on {sheets:02x?}: {out:?}");
        }
    }
    let blocks: Vec<&Vec<u8>> = by_climate.iter().chain(&by_block).map(|(sheets, _)| &sheets.block).collect();
    for ((sheets, want), block) in by_climate.iter().flat_map(|case| blocks.iter().map(move |block| (case, block))) {
        let sheets = Sheets::new(&sheets.climate, block);
        for ask in every() {
            let out = t.same(g, &sheets, &[0xff; 8_193], ask);
            assert_eq!(out[..2], *want, "{ask:?} on {sheets:02x?}");
        }
    }
}

/// Sheets written: any fields, into a byte too few, just enough, the most that such a sheet takes, and more. What is
/// made is opened, beside a sheet of the small pair and, where both are made, as a pair.
fn writers(t: &mut Tally, g: &mut Dice) {
    for _ in 0..60_000 {
        let days = g.pick(&[4, 30, plain::DAYS as u32]);
        let f = random::any_fields(g, days);
        let sheets = random::sheets(&f);
        let mut made = [false; 2];
        for writer in Writer::BOTH {
            let [most, more] = writer.rooms();
            let size = writer.sheet(&sheets).len();
            for room in [size - 1, size, most, more] {
                let (out, bytes) = t.written(g, writer, &f, room);
                if out[0] == library::ACCEPTED {
                    assert_eq!(out[2] as usize, size, "bytes of a sheet");
                    let out = t.same(g, &writer.beside(&bytes[..size]), &[0xff; 8], Ask::Open);
                    assert_eq!(out[0], 0, "what is written is read");
                    made[writer as usize] = true;
                }
            }
        }
        if made == [true; 2] {
            assert_eq!(t.same(g, &sheets, &[0xff; 8], Ask::Open)[0], 0, "the pair that is written is read");
        }
    }
    let cases: [(Writer, &[(usize, u32)], usize, &[u32]); 14] = [
        (Writer::Climate, &[], 25, &[0, 0, 25]), (Writer::Climate, &[], 24, &[15, 0]),
        (Writer::Climate, &[(10, u32::MAX)], 0, &[4, 10]), (Writer::Climate, &[(33, 60_001)], 60, &[4, 33]),
        (Writer::Climate, &[(1, 13), (20, 1_501)], 60, &[4, 20]), (Writer::Climate, &[(1, 13)], 60, &[0, 0, 25]),
        (Writer::Block, &[(10, 1_501)], 16, &[0, 0, 16]), (Writer::Block, &[], 15, &[15, 0]),
        (Writer::Block, &[(2, 32)], 0, &[4, 2]), (Writer::Block, &[(9, 9), (34, 0)], 27, &[4, 9]),
        (Writer::Block, &[(34, 0)], 27, &[4, 34]), (Writer::Block, &[(3, 73), (4, 101), (5, 51), (6, 51)], 0, &[5, 0]),
        (Writer::Block, &[(35, 21)], 0, &[6, 0]), (Writer::Block, &[(39, 2_001)], 0, &[7, 0]),
    ];
    for (writer, changes, room, want) in cases {
        let (out, _) = t.written(g, writer, &random::with(random::small(127), changes), room);
        assert_eq!(out[..want.len()], *want, "{writer:?} with {changes:?} into {room}");
    }
    // The longest sheets: a climate of 60 bytes, a block of 26 and, with the seventeenth number, 27.
    let mut longest = [0; 41];
    longest[..9].copy_from_slice(&[12, 31, 128, 128, 10, 9, 200, 200, 200]);
    longest[9..21].fill(1_500);
    longest[21..33].fill(60_000);
    longest[33..].copy_from_slice(&[400, 300, 300, 80, 100, 120_000, 127, 28]);
    let leap = random::with(longest, &[(41, 29)]);
    let blocks = [(Writer::Block, &longest, 26), (Writer::Block, &leap, library::BLOCK)];
    for (writer, f, size) in blocks.into_iter().chain([(Writer::Climate, &longest, library::CLIMATE)]) {
        assert_eq!(t.written(g, writer, f, size - 1).0[..2], [15, 0], "the longest {writer:?} in a byte too few");
        let ((out, bytes), sheets) = (t.written(g, writer, f, size), random::sheets(f));
        let want = (&[0, 0, size as u32][..], writer.sheet(&sheets));
        assert_eq!((&out[..3], &bytes[..]), want, "the longest {writer:?}");
    }
    for f in [longest, leap] {
        assert_eq!(t.same(g, &random::sheets(&f), &[], Ask::Open)[0], 0, "the longest pair is read");
    }
}

/// Seventeenth numbers by document 02, T-06: the bytes behind the sixteenth number of the small block with some fields
/// changed, the writer's last number, and a season over the end of February with 28 days and with 29.
fn februaries(t: &mut Tally, g: &mut Dice) {
    let (blank, leap_day) = ([0xff; 64], [(1, 2), (2, 29)]);
    let every = || ON_JOURNAL.into_iter().chain([Ask::Table(12)]);
    let behind: [(&[(usize, u32)], &[u8], [u32; 2]); 34] = [
        (&[], &[], [0, 0]), (&[], &[0x1d], [0, 0]),
        (&[], &[0x1c], [4, 41]), (&[], &[0x1e], [4, 41]), (&[], &[0], [4, 41]), (&[], &[0x9d, 1], [4, 41]),
        (&[], &[0x9d], [1, 17]), (&[], &[0x9d, 0], [2, 17]), (&[], &[0x80; 2], [1, 18]), (&[], &[0x80; 3], [2, 18]),
        (&[], &[0x1d, 0], [3, 17]), (&[], &[0x1e, 0], [3, 17]), (&[], &[0x1d, 0xff], [3, 17]),
        (&[], &[0x9d, 1, 9], [3, 18]), (&[], &[0; 2], [3, 17]), (&[], &[0; 46], [3, 17]),
        (&[], &[0xff], [1, 17]), (&[], &[0xff; 2], [1, 18]), (&[], &[0xff; 3], [2, 18]), (&[], &[0xff; 46], [2, 18]),
        (&leap_day, &[], [4, 2]), (&leap_day, &[28], [4, 2]), (&leap_day, &[30], [4, 2]), (&leap_day, &[0xc8, 1], [4, 2]),
        (&leap_day, &[29], [0, 0]), (&leap_day, &[29, 29], [3, 17]),
        (&[(1, 2), (2, 28)], &[28], [4, 41]), (&[(1, 2), (2, 28)], &[30], [4, 41]), (&[(1, 2), (2, 28)], &[29], [0, 0]),
        (&[(1, 2), (2, 30)], &[29], [4, 2]), (&[(1, 13), (2, 29)], &[30], [4, 1]), (&[(40, 128)], &[30], [4, 40]),
        (&[(35, 21)], &[30], [4, 41]), (&[(35, 21)], &[29], [6, 0]),
    ];
    for (changes, bytes, want) in behind {
        let mut sheets = random::sheets(&random::with(random::small(127), changes));
        sheets.block.extend(bytes);
        for ask in every() {
            assert_eq!(t.same(g, &sheets, &blank, ask)[..2], want, "{ask:?}, {changes:?}, then {bytes:02x?}");
        }
    }
    // The writer: so many bytes are lent, and it answers so many where it accepts.
    let lent: [(&[(usize, u32)], u32, usize, &[u32]); 19] = [
        (&[], 28, 16, &[0, 0, 16]), (&[], 28, 15, &[15, 0]), (&[], 29, 17, &[0, 0, 17]), (&[], 29, 16, &[15, 0]),
        (&[], 0, 27, &[4, 41]), (&[], 27, 27, &[4, 41]), (&[], 30, 0, &[4, 41]), (&[], 157, 27, &[4, 41]),
        (&[], 285, 27, &[4, 41]), (&[], 65_565, 27, &[4, 41]), (&[], 0x8000_001c, 27, &[4, 41]),
        (&[], u32::MAX, 27, &[4, 41]), (&leap_day, 28, 27, &[4, 2]), (&leap_day, 30, 27, &[4, 2]),
        (&leap_day, 29, 27, &[0, 0, 17]), (&[(1, 2), (2, 30)], 29, 27, &[4, 2]), (&[(1, 2), (2, 28)], 30, 27, &[4, 41]),
        (&[(40, 128)], 30, 27, &[4, 40]), (&[(35, 21)], 30, 27, &[4, 41]),
    ];
    for (changes, february, room, want) in lent {
        let fields = random::with(random::with(random::small(127), changes), &[(41, february)]);
        let (out, made) = t.written(g, Writer::Block, &fields, room);
        assert_eq!(out[..want.len()], *want, "{changes:?} and {february} written into {room}");
        if out[0] == library::ACCEPTED {
            let block = random::sheets(&fields).block;
            assert_eq!(made[..out[2] as usize], block, "{changes:?} and {february} written into {room}");
        }
    }
    // Rows, depths, waterings with the net and the gross total, and the depletion after each close without water.
    let seasons: [(u32, [u32; 12], [u32; 4], [u32; 3], [u32; 4]); 2] = [
        (28, [2, 3, 700, 600, 100, 134, 3, 1, 1_600, 541, 1_059, 1_412], [0, 0, 230, 729], [2, 959, 1_279], [200, 700, 1_700, 1_880]),
        (29, [2, 3, 1_200, 869, 331, 442, 3, 1, 600, 270, 330, 440], [0, 0, 0, 440], [1, 440, 587], [200, 700, 1_200, 1_680]),
    ];
    for (february, rows, depths, totals, depletions) in seasons {
        let fields = random::leap(february);
        let sheets = random::sheets(&fields);
        for writer in Writer::BOTH {
            let (out, made) = t.written(g, writer, &fields, writer.rooms()[0]);
            assert_eq!((out[0], &made[..out[2] as usize]), (0, writer.sheet(&sheets)), "February {february}");
        }
        for ask in every() {
            assert_eq!(t.same(g, &sheets, &blank, ask)[..2], [0, 0], "February {february}, {ask:?}");
        }
        for answer in [by_library, by_plain] {
            let (mut out, mut lent) = ([7; OUT], [7; 13]);
            answer(sheets.pair(), &[], (1, Ask::Table(13)), &mut out, &mut lent);
            assert_eq!((&out[..4], &lent[..12], lent[12]), (&[0, 0, 2, 7][..], &rows[..], 7), "rows, February {february}");
            answer(sheets.pair(), &blank, (1, Ask::Plan(5)), &mut out, &mut lent[8..]);
            assert_eq!((&out[2..5], &lent[8..12], lent[12]), (&totals[..], &depths[..], 7), "plan, February {february}");
        }
        let mut area = Vec::new();
        for (day, depletion) in (1..).zip(depletions) {
            area.extend(book::bytes(book::Entry::Close(day)));
            assert_eq!(t.same(g, &sheets, &area, Ask::Open)[..4], [0, 0, day + 1, depletion], "February {february}");
        }
    }
}

/// The longest season and one a day longer, from every date with 28 days of February and with 29, with one number too
/// few, enough and one more. With 29 no table has 29 rows: 27 whole decades and a day on either side are 276 days or more.
fn longest(t: &mut Tally, g: &mut Dice) {
    for (february, months, most) in [(28, plain::MONTHS, 29), (29, plain::LEAP_MONTHS, 28)] {
        let mut rows = 0;
        for (days, month) in [275, 276].into_iter().flat_map(|n| (1..=12).map(move |m| (n, m))) {
            for date in 1..=months[month as usize - 1] {
                let mut f = random::with(random::fields(g, 275), &[(1, month), (2, date), (39, 0), (41, february)]);
                f[2..6].copy_from_slice(&random::stages(g, days));
                let sheets = random::sheets(&f);
                for (depths, numbers) in [(274, 173), (275, 174), (276, 175)] {
                    t.same(g, &sheets, &[0xff; 8], Ask::Plan(depths));
                    let out = t.same(g, &sheets, &[], Ask::Table(numbers));
                    assert_eq!(out[0] == library::SEASON_TOO_LONG, days == 276);
                    rows = if out[0] == 0 { rows.max(out[2]) } else { rows };
                }
            }
        }
        assert_eq!(rows, most, "the most rows of a table, February {february}");
    }
}

/// Areas of every length from 0 to 8,193: full of entries as far as they go, blank, or blank but for the last byte. Each
/// in a season from any date, and in one over February with 28 days and with 29.
fn lengths(t: &mut Tally, g: &mut Dice) {
    let f = random::with(random::fields(g, 275), &[(3, 45), (4, 70), (5, 90), (6, 70), (39, 0)]);
    let over = |february| random::with(f, &[(1, 1), (2, 20), (41, february)]);
    let seasons = [f, over(28), over(29)].map(|f| random::sheets(&f));
    let mut full = Vec::new();
    for day in 1..=275 {
        for _ in 0..g.of(6, 14) {
            full.extend(book::bytes(book::Entry::Irrigation(g.of(1, 17_000))));
        }
        full.extend(book::bytes(book::Entry::Close(day)));
    }
    assert!(full.len() > 8_192, "the entries do not fill an area");
    full.truncate(8_193);
    for length in 0..=8_193 {
        let mut area = match length % 4 {
            0 => vec![0xff; length],
            _ => full[..length].to_vec(),
        };
        if length % 8 == 7 {
            area[length - 1] = g.next() as u8;
        }
        for sheets in &seasons {
            t.all(g, sheets, &area);
        }
    }
}

/// Journals clean, torn and damaged.
fn journals(t: &mut Tally, g: &mut Dice) {
    for round in 0..41_000 {
        let sheets = random::sheets(&random::fields(g, if round % 4 == 0 { plain::DAYS as u32 } else { 12 }));
        let area = random::any_journal(g, &sheets, 1_300);
        t.all(g, &sheets, &area);
    }
}

/// Banks by document 02, T-10, over sevens and over noise, by every role; then any, also of 40 blocks in long seasons.
fn bank_calls(t: &mut Tally, g: &mut Dice) {
    for (bank, want) in cases::banks() {
        let before = (noisy(7), (vec![7; bank.depths], vec![7; ANSWERS]));
        for (role, sides) in (1..=3).flat_map(|role| [(role, 0), (role, u32::MAX)]) {
            let got = t.banked(&bank, role, &before, sides);
            let mut want = (before.0, want.clone());
            want.0[..2].copy_from_slice(&[0, 0]);
            if got != want {
                differ_banked("document 02", &bank, role, &got, &want);
            }
        }
        for role in random::ROLES {
            t.bank(g, &bank, role);
            // A limit above the blocks, then lengths, bytes and depths behind the last block's.
            t.bank(g, &Bank { limit: 40, ..bank.clone() }, role);
            let mut more = bank.clone();
            more.lengths.extend([u32::MAX; 3]);
            more.sheets.push(1);
            more.areas.push(0);
            more.depths += 1;
            let behind = t.bank(g, &more, role);
            assert_eq!((&behind.0[..2], &behind.1.1[..5]), (&[0, 0][..], &want.1[..5]), "{more:02x?}");
        }
    }
    for (role, bank, want) in cases::refused_banks() {
        let noise = g.next() as u32;
        let before = bank.before(noise);
        let got = t.banked(&bank, role, &before, noise >> 25);
        assert_eq!((&got.0[..2], &got.1), (&want[..], &before.1), "role {role}, {bank:02x?}");
        for role in random::ROLES {
            t.bank(g, &bank, role);
        }
    }
    for _ in 0..150_000 {
        let (bank, role) = (random::bank(g), g.pick(&random::ROLES));
        t.bank(g, &bank, role);
    }
}

/// Openings of the small pair by document 02, T-05, over noise: the first numbers of `out`, and its last four.
fn openings(t: &mut Tally, g: &mut Dice) {
    let sheets = random::sheets(&random::small(127));
    let cut: [&[u8]; 3] = [&[1, 7, 2, 0xff, 0x80], &[1, 7, 2, 0xff], &[1, 7]];
    let cases: [(&[u8], usize, &[u32], Option<[u32; 4]>); 7] = [
        (&[1, 0xac], 4, &[10, 0, 1, 0, 0, 0, 0, 0, 0, 0, 0], Some([2, 1, 0, 0])),
        (&[0xff, 0xac], 4, &[9, 0], None),
        (&[1, 0xff, 0x80], 4, &[10, 0, 1, 0, 0, 0, 0, 0, 0, 0, 0], Some([2, 2, 0, 0])),
        (cut[0], 64, &[10, 2, 1, 0, 7, 0, 7, 0, 0, 0, 2], Some([2, 4, 2, 0])),
        (cut[1], 64, &[10, 2, 1, 0, 7, 0, 7, 0, 0, 0, 2], Some([1, 2, 0, 0])),
        (cut[2], 64, &[0, 0, 1, 0, 7, 0, 7, 0, 0, 0, 2], Some([0; 4])),
        (&[], 8_193, &[8, 0], None),
    ];
    for (bytes, length, first, places) in cases {
        let mut area = bytes.to_vec();
        area.resize(length, 0xff);
        let out = t.same(g, &sheets, &area, Ask::Open);
        assert_eq!(out[..first.len()], *first, "{bytes:02x?} in {length}");
        if let Some(places) = places {
            assert_eq!((&out[11..20], &out[20..]), (&[0; 9][..], &places[..]), "{bytes:02x?} in {length}");
        }
    }
}

/// Roles by document 02, T-09; then every call by every role, also by those that are one of the three to whoever keeps
/// 8, 16 or 31 bits, on pairs and areas of every kind, and the writers on fields of every kind, into enough bytes and
/// too few.
fn roles(t: &mut Tally, g: &mut Dice) {
    for case in cases::BY_ROLE {
        let (sheets, asked) = (Sheets::new(case.climate, &cases::BLOCK), (case.role, case.call.into()));
        let out = t.asked(g, &sheets, case.area, asked);
        assert_eq!(out[..case.want.len()], *case.want, "{asked:?} on {:02x?} of {sheets:02x?}", case.area);
    }
    let near = [257, 258, 259, 65_537, 65_538, 65_539, 0x8000_0001, 0x8000_0002, 0x8000_0003];
    let every: Vec<u32> = random::ROLES.into_iter().chain(near).collect();
    let silent = Probes { shallow: (0, 0.0), deep: (0, 0.0), capacity: 0 };
    let refused = [Ask::Rain(0), Ask::Irrigation(120_001), Ask::Loss(0), Ask::Probe(silent), Ask::Plan(0)];
    let asks = || ON_JOURNAL.into_iter().chain(refused).chain([Ask::Table(12), Ask::Table(11)]);
    let (pairs, areas) = (every_pair(), every_area());
    for (sheets, area) in pairs.iter().flat_map(|s| areas.iter().map(move |a| (s, a))) {
        for (ask, &role) in asks().flat_map(|ask| every.iter().map(move |role| (ask, role))) {
            t.roles(g, sheets, area, (role, ask));
        }
    }
    for (writer, &role) in Writer::BOTH.into_iter().flat_map(|w| every.iter().map(move |role| (w, role))) {
        for changes in [&[][..], &[(10, 1_501), (34, 0)], &[(41, 30)], &[(35, 21)]] {
            for room in [0, 15, 16, 24, 25, 60] {
                t.written_by(g, writer, role, &random::with(random::small(127), changes), room);
            }
        }
    }
}

/// The journal of so many days closed without water.
fn closes(days: u32) -> Vec<u8> {
    (1..=days).flat_map(|d| book::bytes(book::Entry::Close(d))).collect()
}

/// A pair of each refusal, 1 to 4 of the climate and then 1 to 7 of the block, and three accepted.
fn every_pair() -> [Sheets; 14] {
    let spoilt = |changes: &[(usize, u32)]| random::sheets(&random::with(random::small(127), changes));
    let climate = |at: usize, behind: &[u8]| Sheets::new(&[&cases::CLIMATE[..at], behind].concat(), &cases::BLOCK);
    let block = |at: usize, behind: &[u8]| Sheets::new(&cases::CLIMATE, &[&cases::BLOCK[..at], behind].concat());
    [
        climate(0, &[]), climate(24, &[0x80, 0]), climate(25, &[29]), spoilt(&[(10, 1_501)]),
        block(0, &[]), block(15, &[0x80, 0]), block(16, &[29, 0]), spoilt(&[(2, 32)]),
        spoilt(&[(3, 200), (4, 76)]), spoilt(&[(35, 21)]), spoilt(&[(39, 2_001)]), spoilt(&[(39, 2_000)]),
        spoilt(&[(41, 29)]), spoilt(&[]),
    ]
}

/// Areas of those pairs: none, blank, torn at 0 and at 2, damaged, too long, four days closed, three closed.
fn every_area() -> [Vec<u8>; 8] {
    let torn = |before: &[u8]| [before, &[1, 0xac, 0xff, 0xff]].concat();
    [
        vec![], vec![0xff; 8], torn(&[]), torn(&[3, 1]), vec![0xff, 0xac, 0xff, 0xff], vec![0xff; 8_193], closes(4),
        closes(3),
    ]
}

/// Lost yield: document 02's cases, the largest sums, and every Ky at an edge on journals and pairs of every kind.
fn losses(t: &mut Tally, g: &mut Dice) {
    let small = random::small(127);
    let dry = random::with(small, &[(39, 1_500)]);
    let twos = random::with(dry, &[(3, 2), (4, 2), (5, 2), (6, 2)]);
    let needless = random::with(small, &[(10, 0)]);
    // So many dry days closed: F, need and use of each stage, and the losses by each Ky.
    let cases: [(Fields, u32, [u32; 9], &[(u32, [u32; 5])]); 6] = [
        (small, 0, [0; 9], &[(200, [0; 5])]),
        (small, 4, [1_500, 200, 200, 500, 500, 500, 500, 300, 240], &[
            (1, [4, 0, 0, 0, 20]), (100, [400, 0, 0, 0, 2_000]), (200, [800, 0, 0, 0, 4_000]),
        ]),
        (dry, 1, [200, 200, 100, 0, 0, 0, 0, 0, 0], &[(100, [5_000, 5_000, 0, 0, 0])]),
        (dry, 4, [1_500, 200, 100, 500, 200, 500, 100, 300, 30], &[
            (100, [7_133, 5_000, 6_000, 8_000, 9_000]), (125, [8_916, 6_250, 7_500, 10_000, 10_000]),
            (150, [10_000, 7_500, 9_000, 10_000, 10_000]),
        ]),
        (twos, 3, [750, 400, 180, 350, 112, 0, 0, 0, 0], &[(100, [6_106, 5_500, 6_800, 0, 0])]),
        (needless, 4, [0; 9], &[(200, [0; 5])]),
    ];
    for (fields, days, sums, by_ky) in cases {
        let (sheets, mut area) = (random::sheets(&fields), closes(days));
        area.resize(area.len() + g.of(0, 9) as usize, 0xff);
        assert_eq!(t.same(g, &sheets, &area, Ask::Open)[11..20], sums, "document 02's sums, {days} days of {fields:?}");
        for &(ky, want) in by_ky {
            let out = t.same(g, &sheets, &area, Ask::Loss(ky));
            assert_eq!((&out[..2], &out[2..7]), (&[0, 0][..], &want[..]), "document 02's losses, Ky {ky}, {fields:?}");
        }
    }
    let (pairs, areas) = (every_pair(), every_area());
    let [none, blank, torn, torn_later, damaged, long, closed, _] = &areas;
    let refused = [
        (torn, 0, [17, 0]), (torn, 1, [10, 0]), (torn_later, 201, [17, 0]), (torn_later, 200, [10, 2]),
        (damaged, 0, [9, 0]), (long, 201, [8, 0]), (closed, 201, [17, 0]), (closed, 0, [17, 0]),
        (blank, u32::MAX, [17, 0]), (none, 0, [17, 0]),
    ];
    let sheets = random::sheets(&small);
    for (area, ky, want) in refused {
        assert_eq!(t.same(g, &sheets, area, Ask::Loss(ky))[..2], want, "Ky {ky} on {area:02x?}");
    }
    // 275 days of need 3,000 and no use: 100 × Ky × F passes 32 bits from Ky 53 on.
    let mut most = random::with(small, &[(3, 45), (4, 70), (5, 90), (6, 70), (34, 1), (35, 10), (36, 10), (39, 10)]);
    most[6..9].fill(200);
    most[9..21].fill(1_500);
    let (most, area) = (random::sheets(&most), closes(275));
    let sums = [825_000, 135_000, 0, 210_000, 0, 270_000, 0, 210_000, 0];
    assert_eq!(t.same(g, &most, &area, Ask::Open)[11..20], sums, "the largest sums");
    for ky in 1..=200 {
        let out = t.same(g, &most, &area, Ask::Loss(ky));
        assert_eq!(out[2..7], [(100 * ky).min(10_000); 5], "no use at all, Ky {ky}");
    }
    for (number, sheets) in [1, 2, 3, 4, 1, 2, 3, 4, 5, 6, 7].into_iter().zip(&pairs) {
        assert_eq!(t.same(g, sheets, long, Ask::Loss(0))[0], number, "the sheets are judged first");
    }
    for (sheets, area) in pairs.iter().flat_map(|s| areas.iter().map(move |a| (s, a))) {
        for ky in random::KYS {
            t.same(g, sheets, area, Ask::Loss(ky));
        }
    }
}

/// Soil probes: cases by a separate reading of document 02, every value, kind and capacity at an edge on journals and
/// pairs of every kind, then random ones in seasons of all lengths.
fn probes(t: &mut Tally, g: &mut Dice) {
    for case in cases::PROBES {
        let sheets = random::sheets(&random::with(random::small(127), case.changes));
        let out = t.same(g, &sheets, case.area, Ask::Probe(case.probes));
        assert_eq!(out[..case.want.len()], *case.want, "{:?} on {:02x?}", case.probes, case.area);
    }
    let (pairs, areas) = (every_pair(), every_area());
    let values = cases::CONTENTS.map(|(bits, _)| f32::from_bits(bits));
    let readings: Vec<Reading> = random::KINDS.iter().flat_map(|&k| values.map(|v| (k, v))).collect();
    for (sheets, area) in pairs.iter().flat_map(|s| areas.iter().map(move |a| (s, a))) {
        for (&reading, capacity) in readings.iter().flat_map(|r| random::CAPACITIES.map(move |c| (r, c))) {
            let other = (g.of(0, 2), 0.25);
            let (shallow, deep) = if g.one_in(2) { (reading, other) } else { (other, reading) };
            t.same(g, sheets, area, Ask::Probe(Probes { shallow, deep, capacity }));
        }
    }
    for round in 0..41_000 {
        let sheets = random::sheets(&random::fields(g, if round % 4 == 0 { plain::DAYS as u32 } else { 12 }));
        let (clean, _) = random::journal(g, &sheets, 1_300);
        let spoilt = random::any_journal(g, &sheets, 1_300);
        for area in [&clean, &clean, &clean, &clean, &spoilt] {
            let probes = random::probes(g);
            t.same(g, &sheets, area, Ask::Probe(probes));
        }
    }
}

/// Asks that show a content's v where the measured depletion is f − v, at most 4,000: alone with f 4,000, which shows
/// it below 4,000, and with f 6,000; beside v 0 and beside v 1 with f 6,000, which show it from 4,000 on as the sum of
/// both means.
fn showing(value: f32) -> [Probes; 4] {
    let (silent, water) = ((0, value), (1, value));
    [(water, silent, 4_000), (silent, water, 6_000), (water, (1, 0.0), 6_000), ((1, 0.00015), water, 6_000)]
        .map(|(shallow, deep, capacity)| Probes { shallow, deep, capacity })
}

/// Contents by their bits: both sides of every ten-thousandth and the edges, with either sign, where the library must
/// show each v from 0 to 10,000; then ten million, one in four of any bits, the others from 0.0001 to a little above 1,
/// each by one of the three roles.
fn contents(t: &mut Tally, g: &mut Dice) {
    let sheets = random::sheets(&random::with(random::small(127), &[(34, 400), (35, 10), (36, 10)]));
    let mut shown = [false; 10_001];
    let beside = (0..=10_000).flat_map(|v| (-3..=3).map(move |above| random::beside(v, above)));
    let edges = cases::CONTENTS.map(|(bits, _)| f32::from_bits(bits));
    for value in beside.chain(edges).flat_map(|v| [v, -v]) {
        let outs = showing(value).map(|p| t.same(g, &sheets, &[0xff; 8], Ask::Probe(p)));
        let v = match outs.map(|out| (out[0], out[3])) {
            [(0, low @ 1..), ..] => Some(4_000 - low),
            [(0, _), (0, _), (0, a), (0, b)] => Some(12_000 - a - b),
            _ => None,
        };
        assert_eq!(v, book::content(value), "content {:08x}: {outs:?}", value.to_bits());
        if let Some(v) = v {
            shown[v as usize] = true;
        }
    }
    assert_eq!(shown.iter().position(|s| !s), None, "a v that no content has shown");
    let (least, most) = (0.0001f32.to_bits(), 1f32.to_bits() + 9);
    for _ in 0..10_000_000 {
        let bits = if g.one_in(4) { g.next() as u32 } else { g.of(least, most) };
        let (role, probes) = (g.of(1, 3), g.pick(&showing(f32::from_bits(bits))));
        t.asked(g, &sheets, &[0xff; 8], (role, Ask::Probe(probes)));
    }
}

/// Plans, tables, losses and probes of long seasons, on clean journals.
fn plans(t: &mut Tally, g: &mut Dice) {
    for _ in 0..20_600 {
        let sheets = random::sheets(&random::fields(g, plain::DAYS as u32));
        let (area, l) = random::journal(g, &sheets, 4_000);
        let left = (sheets.season().days + 1 - l.day) as usize;
        for room in [left, left.saturating_sub(1), plain::DAYS] {
            t.same(g, &sheets, &area, Ask::Plan(room));
        }
        t.same(g, &sheets, &[], Ask::Table(6 * plain::ROWS));
        let (ky, probes) = (g.of(1, 200), random::probes(g));
        t.same(g, &sheets, &area, Ask::Loss(ky));
        t.same(g, &sheets, &area, Ask::Probe(probes));
    }
}

/// The stores that an answer hands back, in order.
fn stores(call: Call, out: &Out) -> Vec<(usize, u8)> {
    match call {
        Call::Open if [library::ACCEPTED, library::TORN].contains(&out[0]) => {
            out[21..][..out[20] as usize].iter().map(|&place| (place as usize, 0xff)).collect()
        }
        _ if out[0] != library::ACCEPTED => Vec::new(),
        _ => (0..out[3] as usize).map(|i| (out[2] as usize + i, out[4 + i] as u8)).collect(),
    }
}

/// What the library answered must begin as the book's answer does.
fn as_the_book(sheets: &Sheets, area: &[u8], asked: Asked, out: Out, want: &[u32]) {
    if out[..want.len()] != *want {
        not_the_book(sheets, area, asked, out, format!("{want:?}"));
    }
}

fn not_the_book(sheets: &Sheets, area: &[u8], asked: Asked, out: Out, want: String) -> ! {
    println!("the book answers {want}");
    differ("the book", sheets.pair(), area, asked, &(out, Vec::new()), &([0; OUT], Vec::new()))
}

/// Opening, loss and the depletion by the probes, which must be those of the book: by role 3 and by any.
fn looks(t: &mut Tally, g: &mut Dice, (sheets, area): (&Sheets, &[u8]), book: &Book, ky: u32) {
    for role in [3, g.pick(&random::ROLES)] {
        let p = random::probes(g);
        let asks = [
            (Ask::Open, numbers::opened(book.open(role))), (Ask::Loss(ky), numbers::lost(book.loss(role, ky))),
            (Ask::Probe(p), numbers::probed(book.probe(role, p.shallow, p.deep, p.capacity))),
        ];
        for (ask, want) in asks {
            let out = t.asked(g, sheets, area, (role, ask));
            as_the_book(sheets, area, (role, ask), out, &want);
        }
    }
}

/// What came up in the histories: calls, those by a role that is handed no stores, torn openings, and cuts within an
/// opening's stores.
#[derive(Default)]
struct Seen { calls: u64, kept: u64, torn: u64, cut: u64 }

/// Histories, one call in three by any role: after every call each cut is opened, and asked what comes next; then one
/// of the cuts is what happened. Losses and probes are asked after each cut, by one Ky, and after the last call by each
/// at an edge.
fn histories(t: &mut Tally, g: &mut Dice) -> Seen {
    let mut seen = Seen::default();
    for history in 1..=2_800 {
        let (long, fill) = (history % 16 == 0, history % 200 == 0);
        let sheets = random::sheets(&random::fields(g, if long { plain::DAYS as u32 } else { 12 }));
        let length = if fill { 8_192 } else if long { g.pick(&[900, 1_500, 8_192]) } else { g.of(0, 90) as usize };
        let mut area = vec![0xff; length];
        let mut book = Book::new(sheets.season(), length);
        let calm = g.one_in(2);
        for _ in 0..if fill { 2_250 } else if long { 450 } else { 60 } {
            seen.calls += 1;
            let now = matches!(book.open(3).opening, Opening::Torn(..));
            let amount = random::amount(g);
            let call = match g.of(0, 9) {
                _ if now && !g.one_in(4) => Call::Open,
                0 | 1 | 2 => Call::Rain(amount),
                3 | 4 => Call::Irrigation(amount),
                5 if g.one_in(2) => Call::Open,
                _ if fill && !g.one_in(4) => Call::Rain(g.of(16_384, 17_000)),
                _ => Call::Close,
            };
            let role = random::role(g, call);
            let asked = (role, call.into());
            let out = t.asked(g, &sheets, &area, asked);
            let handed = stores(call, &out);
            let want = book.answer(role, call);
            if (want.number, want.value as u32, &want.stores) != (out[0], out[1], &handed) {
                not_the_book(&sheets, &area, asked, out, format!("{want:?}"));
            }
            if call == Call::Open {
                as_the_book(&sheets, &area, asked, out, &numbers::opened(book.open(role)));
            }
            if role != 3 && (role != 2 || call == Call::Open) {
                assert!(handed.is_empty(), "{asked:?} hands back stores");
                seen.kept += 1;
            }
            let ky = random::ky(g);
            for done in 0..=handed.len() {
                let (mut cut, mut after) = (area.clone(), book.clone());
                for &(place, byte) in &handed[..done] {
                    cut[place] = byte;
                }
                after.call(role, call, done);
                seen.torn += matches!(after.open(3).opening, Opening::Torn(..)) as u64;
                seen.cut += (call == Call::Open && 0 < done && done < handed.len()) as u64;
                looks(t, g, (&sheets, &cut), &after, ky);
                for next in [Ask::Close, Ask::Rain(amount), Ask::Irrigation(amount)] {
                    t.same(g, &sheets, &cut, next);
                }
            }
            // Where there are no stores, the book is told of some that are done all the same.
            let all = if handed.is_empty() { 4 } else { handed.len() };
            let done = if g.one_in(if calm { 12 } else { 3 }) { g.of(0, all as u32) as usize } else { all };
            for &(place, byte) in handed.iter().take(done) {
                area[place] = byte;
            }
            book.call(role, call, done);
        }
        t.same(g, &sheets, &area, Ask::Plan(plain::DAYS));
        for ky in random::KYS {
            looks(t, g, (&sheets, &area), &book, ky);
        }
    }
    seen
}

/// How many numbers at either end of a long buffer are noise before a call and compared after it.
const ENDS: usize = 400;

fn ends(lent: &[u32]) -> Vec<u32> {
    let k = lent.len().min(ENDS);
    [&lent[..k], &lent[lent.len() - k..]].concat()
}

/// The small pair, with 28 days of February or 29, a blank area, a bank's lengths and two lent buffers, one for each
/// implementation, with room for 2^32 elements and more. To whoever keeps fewer bits of such a length a sheet is whole
/// or ends early, and the area, the lengths and the lent buffer are short.
struct Long {
    climate: &'static mut [u8], block: &'static mut [u8], february: u32, area: &'static mut [u8],
    lengths: &'static mut [u32], lent: [&'static mut [u32]; 2], cases: u64,
}

/// How long a bank's climate, lengths, sheets, areas and depths are.
#[derive(Clone, Copy, Debug)]
struct Sizes { climate: usize, lengths: usize, sheets: usize, areas: usize, depths: usize }

/// A bank's verdict and answers, and what the depths begin and end with.
type Wanted<'a> = ([u32; 2], &'a [u32], &'a [u32], &'a [u32]);

/// The calls on a journal; a plan of the small pair takes four numbers.
const ON_JOURNAL: [Ask; 7] = [
    Ask::Open, Ask::Rain(300), Ask::Irrigation(700), Ask::Close, Ask::Loss(100),
    Ask::Probe(Probes { shallow: (1, 0.25), deep: (1, 0.35), capacity: 3_500 }), Ask::Plan(4),
];

impl Long {
    fn new() -> Long {
        let most = (1 << 32) + 8_192;
        let [climate, block, area] = [(); 3].map(|()| memory::long_bytes(most));
        climate[..cases::CLIMATE.len()].copy_from_slice(&cases::CLIMATE);
        block[..cases::BLOCK.len()].copy_from_slice(&cases::BLOCK);
        area[..8_192].fill(0xff);
        let lent = [memory::long_numbers(most), memory::long_numbers(most)];
        Long { climate, block, february: 28, area, lengths: memory::long_numbers(most), lent, cases: 0 }
    }

    /// Behind the small block's sixteen numbers stands 00, or 29 days of February and then 00.
    fn set(&mut self, february: u32) {
        self.february = february;
        self.block[cases::BLOCK.len()] = if february == 29 { 29 } else { 0 };
    }

    /// The lengths of the sheets themselves.
    fn whole(&self) -> (usize, usize) {
        (cases::CLIMATE.len(), cases::BLOCK.len() + (self.february == 29) as usize)
    }

    /// What one of the implementations answers, and what stood there before: noise.
    fn answer(&mut self, which: usize, sheets: (usize, usize), area: usize, asked: Asked) -> (Answer, Answer) {
        let (lent, mut out) = (&mut self.lent[which][..asked.1.lent()], noisy(7));
        let k = lent.len().min(ENDS);
        lent[..k].fill(8);
        lent.iter_mut().rev().take(k).for_each(|v| *v = 9);
        let before = (out, ends(lent));
        let pair = (&self.climate[..sheets.0], &self.block[..sheets.1]);
        [by_library, by_plain][which](pair, &self.area[..area], asked, &mut out, lent);
        ((out, ends(lent)), before)
    }

    /// One case by each role. Document 01 has `out` and `numbers` for the first numbers of `out` and of the lent buffer
    /// where role 3 asks.
    fn case(&mut self, sheets: (usize, usize), area: usize, ask: Ask, out: &[u32], numbers: &[u32]) {
        for role in random::ROLES {
            let [(left, before), (right, _)] = [0, 1].map(|which| self.answer(which, sheets, area, (role, ask)));
            let mut third = before.clone();
            third.0[..out.len()].copy_from_slice(out);
            third.1[..numbers.len()].copy_from_slice(numbers);
            let want = by_rule(role, ask.right(), &third, &before);
            for (what, other) in [("plain implementation", right), ("the documents", want)] {
                if left != other {
                    let pair = (&self.climate[..sheets.0], &self.block[..sheets.1]);
                    differ(what, pair, &self.area[..area], (role, ask), &left, &other);
                }
            }
            self.cases += 1;
        }
    }

    /// Sheets of such lengths: bytes follow the last number of one of them.
    fn sheets(&mut self, lengths: (usize, usize), place: u32) {
        for ask in ON_JOURNAL.into_iter().chain([Ask::Table(12)]) {
            self.case(lengths, 64, ask, &[3, place], &[]);
        }
    }

    /// The area is longer than 8,192.
    fn areas(&mut self, length: usize) {
        for ask in ON_JOURNAL {
            self.case(self.whole(), length, ask, &[8, 0], &[]);
        }
    }

    /// A writer by each role, where its small sheet stands: into so many bytes, noise at the start and at the end. Then
    /// the sheet stands there again.
    fn writer(&mut self, writer: Writer, length: usize) {
        let f = random::with(random::small(127), &[(41, self.february)]);
        let (small, fields) = (writer.sheet(&random::sheets(&f)).to_vec(), writer.fields(&f));
        let whole = small.len();
        let before = (noisy(7), [[8; ENDS], [9; ENDS]].concat());
        let mut third = before.clone();
        third.0[..3].copy_from_slice(&[0, 0, whole as u32]);
        third.1[..whole].copy_from_slice(&small);
        let sheet = match writer {
            Writer::Climate => &mut self.climate[..length],
            Writer::Block => &mut self.block[..length],
        };
        for role in random::ROLES {
            for answer in [written_by_library, written_by_plain] {
                let mut out = noisy(7);
                sheet[..ENDS].fill(8);
                sheet[length - ENDS..].fill(9);
                answer(writer, role, &fields, sheet, &mut out);
                let made = (out, [&sheet[..ENDS], &sheet[length - ENDS..]].concat());
                let want = by_rule(role, Right::Look, &third, &before);
                assert!(made == want, "{writer:?} writer by role {role}, {length} bytes");
            }
            self.cases += 1;
        }
        sheet[..whole].copy_from_slice(&small);
        sheet[whole..ENDS].fill(0);
        sheet[length - ENDS..].fill(0);
    }

    /// A bank with such lengths by each role.
    fn bank(&mut self, lengths: &[u32], n: Sizes, (verdict, answers, first, last): Wanted) {
        self.lengths[..lengths.len()].copy_from_slice(lengths);
        let blocks = lengths.len() as u32 / 3;
        let before: Banked = (noisy(7), ([[8; ENDS], [9; ENDS]].concat(), vec![7; ANSWERS]));
        let mut third = before.clone();
        third.0[..2].copy_from_slice(&verdict);
        third.1.0[..first.len()].copy_from_slice(first);
        third.1.0[2 * ENDS - last.len()..].copy_from_slice(last);
        third.1.1[..answers.len()].copy_from_slice(answers);
        for role in random::ROLES {
            let (climate, lengths) = (&self.climate[..n.climate], &self.lengths[..n.lengths]);
            let (sheets, areas) = (&self.block[..n.sheets], &self.area[..n.areas]);
            let want = by_rule(role, Right::Look, &third, &before);
            for (which, name) in ["library", "plain implementation"].into_iter().enumerate() {
                let (mut out, mut made) = (noisy(7), [7; ANSWERS]);
                let depths = &mut self.lent[which][..n.depths];
                depths[..ENDS].fill(8);
                depths[n.depths - ENDS..].fill(9);
                if which == 0 {
                    banked_by_library((climate, blocks, 1, lengths, sheets, areas), role, depths, &mut made, &mut out);
                } else {
                    let v = plain::bank(role, climate, blocks, 1, lengths, sheets, areas, depths, &mut made);
                    out[..2].copy_from_slice(&[v.number, v.value as u32]);
                }
                let got = (out, (ends(depths), made.to_vec()));
                assert!(got == want, "{name}, bank by role {role}, {:?}, {n:?}: {:?}", &lengths[..3], got.0);
            }
            self.cases += 1;
        }
    }

    /// One small block in buffers of which one is so long; a sheet, a journal or a part that is so long itself, as far
    /// as a length goes; and a second block whose part stands behind such a part.
    fn banks(&mut self, length: usize) {
        let (climate, block) = self.whole();
        let n = Sizes { climate, lengths: 3, sheets: block, areas: 64, depths: 1_000 };
        let (sheet, most) = (block as u32, u32::try_from(length).unwrap_or(u32::MAX));
        let part = most as usize;
        let (small, planned) = ([sheet, 64, 5], ([0, 0], &[0, 0, 1, 700, 934][..], &[0, 0, 700, 0][..], &[][..]));
        let refused = |number, value| ([number, value], &[][..], &[][..], &[][..]);
        self.bank(&small, Sizes { climate: length, ..n }, refused(3, 25));
        self.bank(&small, Sizes { lengths: length, ..n }, planned);
        self.bank(&small, Sizes { sheets: length, ..n }, planned);
        self.bank(&small, Sizes { areas: length, ..n }, planned);
        self.bank(&small, Sizes { depths: length, ..n }, planned);
        self.bank(&[most, 64, 5], Sizes { sheets: length, ..n }, refused(3, 17));
        self.bank(&[most, 64, 5], Sizes { sheets: part - 1, ..n }, refused(22, 0));
        self.bank(&[sheet, most, 5], Sizes { areas: length, ..n }, refused(8, 0));
        self.bank(&[sheet, most, 5], Sizes { areas: part - 1, ..n }, refused(22, 0));
        self.bank(&[sheet, 64, most], Sizes { depths: part, ..n }, planned);
        self.bank(&[sheet, 64, most], Sizes { depths: part - 1, ..n }, refused(22, 0));
        self.block.copy_within(..block, block);
        let two = Sizes { lengths: 6, sheets: 2 * block, areas: 72, depths: part + 5, ..n };
        let lengths = [sheet, 64, most, sheet, 8, 5];
        let answers = [0, 0, 1, 700, 934, 0, 0, 2, 1_200, 1_600];
        self.bank(&lengths, two, ([0, 0], &answers, &[0, 0, 700, 0], &[0, 200, 0, 1_000, 9]));
        self.bank(&lengths, Sizes { depths: part + 4, ..two }, refused(22, 0));
        self.bank(&lengths, Sizes { depths: 1_000, ..two }, refused(22, 0));
        self.block[block..2 * block].fill(0);
    }

    /// The plan and the table of the small pair, as document 01 prints them.
    fn buffers(&mut self, count: usize) {
        let rows = [1, 1, 700, 0, 700, 934, 1, 2, 800, 0, 800, 1_067];
        self.case(self.whole(), 64, Ask::Plan(count), &[0, 0, 1, 700, 934], &[0, 0, 700, 0]);
        self.case(self.whole(), 64, Ask::Table(count), &[0, 0, 2], &rows);
    }
}

/// Lengths of 2^16, 2^31 and 2^32 and a little more, with 28 days of February and with 29.
fn long_lengths() -> u64 {
    let mut long = Long::new();
    for (base, february) in [1 << 16, 1 << 31, 1 << 32].into_iter().flat_map(|b| [(b, 28), (b, 29)]) {
        long.set(february);
        let (climate, block) = long.whole();
        for more in [0, 24, 25, 26] {
            long.sheets((base + more, block), 25);
        }
        for more in [0, 15, 16, 17] {
            long.sheets((climate, base + more), 17);
            long.sheets((base + more, base + more), 25);
        }
        for more in [0, 24, 25, 26] {
            long.writer(Writer::Climate, base + more);
        }
        for more in [0, 15, 16, 17] {
            long.writer(Writer::Block, base + more);
        }
        for more in [0, 9, 8_192] {
            long.areas(base + more);
        }
        for more in [0, 3] {
            long.buffers(base + more);
        }
        for more in [0, 5, 16, 17, 64] {
            long.banks(base + more);
        }
    }
    long.cases
}

fn main() {
    let seed = std::env::args().nth(1).map_or(20_261_115, |s| s.parse().expect("the seed is a number"));
    println!("seed {seed}");
    let mut g = Dice(seed);
    let mut t = Tally {
        cases: 0, answers: [[0; 24]; 11], by_climate: [[0; 5]; 9], blocks: Blocks::default(), as_one: 0,
        guards: Guards::new(),
    };
    memory::report_faults();
    let parts: [(&str, fn(&mut Tally, &mut Dice)); 15] = [
        ("pairs of sheets, valid and damaged", pairs), ("pairs cut, changed and extended at every place", places),
        ("pairs by document 02", pairs_by_document), ("sheets written", writers),
        ("roles by document 02, every call by every role", roles),
        ("seventeenth numbers by document 02", februaries),
        ("the longest season and a day more, from every date", longest),
        ("areas of 0 to 8,193 bytes", lengths), ("journals clean, torn and damaged", journals),
        ("openings by document 02", openings),
        ("lost yield, document 02's cases and every Ky at an edge", losses),
        ("soil probes, cases by a separate reading and every value at an edge", probes),
        ("water contents by their bits", contents),
        ("plans, tables, losses and probes of long seasons", plans),
        ("banks by document 02, and of 1 to 40 blocks", bank_calls),
    ];
    for (name, part) in parts {
        let before = t.cases;
        part(&mut t, &mut g);
        println!("{name}: {} cases", t.cases - before);
    }
    let before = t.cases;
    let Seen { calls, kept, torn, cut } = histories(&mut t, &mut g);
    println!("histories with roles, a cut after every store: {} cases", t.cases - before);
    println!("{calls} calls, {kept} of them by a role that is handed no stores");
    println!("{torn} torn openings, {cut} cuts within an opening's stores");
    println!("accepted pairs read as one sheet too: {} times", t.as_one);
    println!("guard pages: {} buffers ended before one, {} began behind one", t.guards.ended, t.guards.began);
    println!("lengths of 2^16, 2^31 and 2^32 and more: {} cases beside those counted below", long_lengths());
    for ((name, given), seen) in CALLS.iter().zip(t.answers) {
        let came: Vec<String> = (0..).zip(seen).filter(|(_, n)| *n > 0).map(|(k, n)| format!("{k}: {n}")).collect();
        println!("{name}, answers by number: {}", came.join(", "));
        for (number, count) in seen.into_iter().enumerate() {
            let gives = given.iter().any(|numbers| numbers.contains(&number));
            assert_eq!(count > 0, gives, "{name}, answer {number}: {count} times");
        }
    }
    for (((name, _), by_climate), seen) in CALLS.iter().zip(t.by_climate).zip(t.answers) {
        println!("{name}, answers 1 to 4 for the climate sheet: {:?}", &by_climate[1..]);
        for number in 1..=4 {
            let (climate, both) = (by_climate[number], seen[number]);
            assert!(0 < climate && climate < both, "{name}, {number} for the climate sheet: {climate} of {both}");
        }
    }
    let Blocks { first, later, planned, refused, moved } = t.blocks;
    println!("banks' blocks: {planned} planned, {refused} refused 16, {moved} of both otherwise than alone");
    assert!(planned > 0 && refused > 0 && moved > 0, "banks' blocks");
    for (name, seen) in [("the first block", first), ("a later block", later)] {
        println!("banks refused for {name}, 1 to 11: {:?}, 15: {}", &seen[1..=11], seen[15]);
        assert!((1..=11).chain([15]).all(|number| seen[number] > 0), "a refusal of {name} that did not come up");
    }
    println!("{} cases, library and plain implementation agree on every number", t.cases);
}
