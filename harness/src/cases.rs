//! Banks, roles, pairs of sheets and soil probes by a separate reading of document 02, T-10, T-09, T-08 and T-07: what
//! the library and the plain implementation are held against.
use crate::banks::{Bank, Block};
use crate::plain::book::Call;
use crate::plain::{Reading, ANSWERS};
use crate::random::{self, Probes, Sheets};

/// The small sheet of document 01 as a pair.
pub const CLIMATE: [u8; 25] = [0xf4, 3, 0, 0, 0, 0, 0, 0, 0, 0, 0, 0, 0, 0, 0, 0, 0, 0, 0, 0, 0, 0, 0, 0, 0];
pub const BLOCK: [u8; 16] = [1, 9, 1, 1, 1, 1, 0x28, 0x64, 0x3c, 0x64, 0x14, 0x14, 0x32, 0x4b, 0, 0x7f];

/// A pair, the refusal's number and the number returned with it.
pub type Pair = (Sheets, [u32; 2]);

/// Pairs made of the small one: those that the climate sheet decides, whatever the block sheet is, and those that the
/// block sheet does.
pub fn pairs() -> [Vec<Pair>; 2] {
    let pair = Sheets::new;
    let changed = |changes: &[(usize, u32)]| random::sheets(&random::with(random::small(127), changes));
    let longer = [&CLIMATE[..], &[0]].concat();
    let block = |behind: &[u8]| pair(&CLIMATE, &[&BLOCK, behind].concat());
    let field_20 = changed(&[(20, 1_501)]).climate;
    let leap_day = changed(&[(1, 2), (2, 29)]).block;
    let by_climate = vec![
        (pair(&[], &[]), [1, 0]),
        (pair(&CLIMATE[..24], &BLOCK), [1, 24]),
        (pair(&longer, &BLOCK), [3, 25]),
        (pair(&longer, &[]), [3, 25]),
        (changed(&[(10, 1_501)]), [4, 10]),
        (changed(&[(33, 60_001)]), [4, 33]),
        (changed(&[(20, 1_501), (1, 13)]), [4, 20]),
        (pair(&field_20, &[]), [4, 20]),
        (pair(&[0x80, 0], &[0x80, 0]), [2, 1]),
        (pair(&BLOCK, &CLIMATE), [1, 16]),
    ];
    let by_block = vec![
        (pair(&CLIMATE, &[]), [1, 0]),
        (pair(&CLIMATE, &BLOCK[..15]), [1, 15]),
        (pair(&CLIMATE, &[1, 0x80, 0]), [2, 2]),
        (changed(&[(40, 128)]), [4, 40]),
        (changed(&[(34, 0)]), [4, 34]),
        (changed(&[(9, 9), (34, 0)]), [4, 9]),
        (block(&[0x1d]), [0, 0]),
        (block(&[0x1c]), [4, 41]),
        (block(&[0x9d]), [1, 17]),
        (block(&[0x1d, 0]), [3, 17]),
        (pair(&CLIMATE, &leap_day), [4, 2]),
        (pair(&CLIMATE, &[&leap_day[..], &[0x1d]].concat()), [0, 0]),
        (changed(&[(3, 73), (4, 101), (5, 51), (6, 51)]), [5, 0]),
        (changed(&[(3, 73), (4, 100), (5, 51), (6, 51)]), [0, 0]),
        (changed(&[(35, 21)]), [6, 0]),
        (changed(&[(39, 2_001)]), [7, 0]),
        (pair(&CLIMATE, &BLOCK), [0, 0]),
    ];
    [by_climate, by_block]
}

/// The bits of an f32 and its v; none where it is no number from 0 to 1.
pub const CONTENTS: [(u32, Option<u32>); 28] = [
    (0x0000_0000, Some(0)), (0x8000_0000, Some(0)), (0x0000_0001, Some(0)), (0x007f_ffff, Some(0)),
    (0x0080_0000, Some(0)), (0x38d1_b717, Some(0)), (0x38d1_b718, Some(1)), (0x3951_b717, Some(1)),
    (0x3e99_999a, Some(3_000)), (0x3eb3_3333, Some(3_499)), (0x3f00_0000, Some(5_000)), (0x3f33_3333, Some(6_999)),
    (0x3f7f_ffff, Some(9_999)), (0x3f80_0000, Some(10_000)),
    (0x3f80_0001, None), (0x4000_0000, None), (0x7f7f_ffff, None), (0x7f80_0000, None), (0x7fa0_0000, None),
    (0x7fc0_0000, None), (0x7fff_ffff, None), (0x8000_0001, None), (0x8080_0000, None), (0xbf00_0000, None),
    (0xbf80_0000, None), (0xff80_0000, None), (0xffc0_0000, None), (0xffff_ffff, None),
];

/// A call on the small sheet with some fields changed, and the first numbers of `out`.
pub struct Case {
    pub changes: &'static [(usize, u32)], pub area: &'static [u8], pub probes: Probes, pub want: &'static [u32],
}

const fn case(
    changes: &'static [(usize, u32)], area: &'static [u8], shallow: Reading, deep: Reading, capacity: u32,
    want: &'static [u32],
) -> Case {
    Case { changes, area, probes: Probes { shallow, deep, capacity }, want }
}

const SILENT: Reading = (0, 0.0);
const LOW: Reading = (2, f32::NAN);
const NO_NUMBER: Reading = (1, f32::NAN);

/// A content.
const fn water(value: f32) -> Reading {
    (1, value)
}

const BLANK: &[u8] = &[0xff; 8];
const TORN: &[u8] = &[1, 0xac, 0xff, 0xff];
const TORN_LATER: &[u8] = &[3, 1, 1, 0xac, 0xff, 0xff];
const DAMAGED: &[u8] = &[0xff, 0xac, 0xff, 0xff];
const CLOSED: &[u8] = &[3, 1, 3, 2, 3, 3, 3, 4];
const LONG: &[u8] = &[0xff; 8_193];
/// A root depth of 21 cm; one of 30 cm on day 1 and 40 from day 2 on.
const DEEPER: &[(usize, u32)] = &[(35, 21), (36, 21)];
const GROWING: &[(usize, u32)] = &[(36, 40)];

pub const PROBES: [Case; 41] = [
    // Z 20, T 2,000.
    case(&[], BLANK, water(0.25), SILENT, 3_000, &[0, 0, 0, 1_000]),
    case(&[], BLANK, SILENT, water(0.25), 3_000, &[0, 0, 0, 1_000]),
    case(&[], BLANK, water(0.25), water(0.5), 3_000, &[0, 0, 0, 0]),
    case(&[], BLANK, water(0.25), water(0.5), 3_750, &[0, 0, 0, 0]),
    case(&[], BLANK, water(0.25), water(0.5), 3_751, &[0, 0, 0, 2]),
    case(&[], BLANK, water(0.35), water(0.35), 3_500, &[0, 0, 0, 2]),
    case(&[], BLANK, water(0.0), SILENT, 6_000, &[0, 0, 0, 2_000]),
    case(&[], BLANK, water(0.0), SILENT, 1_001, &[0, 0, 0, 2_000]),
    case(&[], BLANK, water(0.0), SILENT, 999, &[0, 0, 0, 1_998]),
    case(&[], BLANK, water(-0.0), SILENT, 1, &[0, 0, 0, 2]),
    case(&[], BLANK, water(1.0), SILENT, 6_000, &[0, 0, 0, 0]),
    case(&[(39, 1_500)], BLANK, water(0.25), SILENT, 3_000, &[0, 0, 1_500, 1_000]),
    case(&[(39, 1_500)], &[1, 7, 2, 9, 0xff], water(0.25), SILENT, 3_000, &[0, 0, 1_500, 1_000]),
    case(&[], &[3, 1, 3, 2, 3, 3], water(0.25), SILENT, 3_000, &[0, 0, 1_200, 1_000]),
    // 501 × 21 / 10 is 1,052.1.
    case(DEEPER, BLANK, SILENT, water(0.25), 3_001, &[0, 0, 0, 1_052]),
    case(GROWING, BLANK, water(0.25), SILENT, 3_000, &[0, 0, 0, 1_500]),
    case(GROWING, &[3, 1], water(0.25), SILENT, 3_000, &[0, 0, 200, 2_000]),
    // The v are 1 and 0, their mean 0.
    case(GROWING, &[3, 1], water(0.0002), water(0.0001), 10, &[0, 0, 200, 40]),
    // What is no content is not judged.
    case(&[], BLANK, LOW, water(0.5), 3_000, &[0, 0, 0, 0]),
    case(&[], BLANK, LOW, water(0.25), 3_000, &[0, 0, 0, 1_000]),
    case(&[], BLANK, water(0.25), (2, 0.5), 3_000, &[0, 0, 0, 1_000]),
    case(&[], BLANK, (3, f32::NAN), water(0.25), 3_000, &[0, 0, 0, 1_000]),
    case(&[], BLANK, (0x8000_0001, 2.0), water(0.25), 3_000, &[0, 0, 0, 1_000]),
    case(&[], BLANK, water(0.25), SILENT, 0, &[18, 0]),
    case(&[], BLANK, water(0.25), SILENT, 6_001, &[18, 0]),
    case(&[], BLANK, SILENT, SILENT, 0, &[18, 0]),
    case(&[], BLANK, SILENT, SILENT, 6_001, &[18, 0]),
    case(&[], BLANK, water(0.5), NO_NUMBER, 3_000, &[18, 0]),
    case(&[], BLANK, NO_NUMBER, SILENT, 3_000, &[18, 0]),
    case(&[], BLANK, (u32::MAX, 0.25), SILENT, 3_000, &[19, 0]),
    case(&[], BLANK, SILENT, SILENT, 3_000, &[19, 0]),
    case(&[], BLANK, SILENT, LOW, 3_000, &[19, 0]),
    case(&[], BLANK, LOW, SILENT, 3_000, &[19, 0]),
    case(&[], CLOSED, water(0.25), SILENT, 0, &[11, 0]),
    case(&[], CLOSED, SILENT, SILENT, 3_000, &[11, 0]),
    case(&[], TORN, NO_NUMBER, SILENT, 3_000, &[10, 0]),
    case(&[], TORN_LATER, SILENT, SILENT, 0, &[10, 2]),
    case(&[], DAMAGED, NO_NUMBER, SILENT, 0, &[9, 0]),
    case(&[], LONG, NO_NUMBER, SILENT, 3_000, &[8, 0]),
    case(&[(39, 2_001)], LONG, NO_NUMBER, SILENT, 0, &[7, 0]),
    case(&[(2, 32)], LONG, SILENT, SILENT, 3_000, &[4, 2]),
];

/// A call by a role on the small block and a climate, and the first numbers of `out`.
pub struct ByRole {
    pub role: u32, pub call: Call, pub climate: &'static [u8], pub area: &'static [u8], pub want: &'static [u32],
}

const fn by(role: u32, call: Call, area: &'static [u8], want: &'static [u32]) -> ByRole {
    ByRole { role, call, climate: &CLIMATE, area, want }
}

const fn without_climate(role: u32, call: Call, want: &'static [u32]) -> ByRole {
    ByRole { role, call, climate: &[], area: BLANK, want }
}

/// No entry, torn and clean: the ledger, then how many places to set to FF, and three places.
const MENDING: &[u32] = &[10, 0, 1, 0, 0, 0, 0, 0, 0, 0, 0, 0, 0, 0, 0, 0, 0, 0, 0, 0, 2, 1, 0, 0];
const LOOKING: &[u32] = &[10, 0, 1, 0, 0, 0, 0, 0, 0, 0, 0, 0, 0, 0, 0, 0, 0, 0, 0, 0, 0, 0, 0, 0];
const CLEAN: &[u32] = &[0, 0, 1, 0, 0, 0, 0, 0, 0, 0, 0, 0, 0, 0, 0, 0, 0, 0, 0, 0, 0, 0, 0, 0];
const NO_ROLE: &[u32] = &[20, 0];
const NOT_BY_1: &[u32] = &[21, 0];

pub const BY_ROLE: [ByRole; 48] = [
    by(3, Call::Open, TORN, MENDING),
    by(1, Call::Open, TORN, LOOKING),
    by(2, Call::Open, TORN, LOOKING),
    by(0, Call::Open, TORN, NO_ROLE),
    by(4, Call::Open, TORN, NO_ROLE),
    by(u32::MAX, Call::Open, TORN, NO_ROLE),
    by(1, Call::Open, BLANK, CLEAN),
    by(2, Call::Open, BLANK, CLEAN),
    by(3, Call::Open, BLANK, CLEAN),
    by(4, Call::Open, BLANK, NO_ROLE),
    by(1, Call::Open, DAMAGED, &[9, 0]),
    by(2, Call::Open, LONG, &[8, 0]),
    by(0, Call::Open, LONG, NO_ROLE),
    by(1, Call::Rain(5), BLANK, NOT_BY_1),
    by(2, Call::Rain(5), BLANK, &[0, 0, 0, 2, 1, 5, 0, 0]),
    by(3, Call::Rain(5), BLANK, &[0, 0, 0, 2, 1, 5, 0, 0]),
    by(4, Call::Rain(5), BLANK, NO_ROLE),
    by(0, Call::Rain(5), BLANK, NO_ROLE),
    by(u32::MAX, Call::Rain(5), BLANK, NO_ROLE),
    by(1, Call::Irrigation(5), BLANK, NOT_BY_1),
    by(2, Call::Irrigation(5), BLANK, &[0, 0, 0, 2, 2, 5, 0, 0]),
    by(3, Call::Irrigation(5), BLANK, &[0, 0, 0, 2, 2, 5, 0, 0]),
    by(4, Call::Irrigation(5), BLANK, NO_ROLE),
    by(1, Call::Close, BLANK, NOT_BY_1),
    by(2, Call::Close, BLANK, &[0, 0, 0, 2, 3, 1, 0, 0]),
    by(3, Call::Close, BLANK, &[0, 0, 0, 2, 3, 1, 0, 0]),
    by(4, Call::Close, BLANK, NO_ROLE),
    // A torn journal: only role 3's opening sets it going again.
    by(1, Call::Rain(5), TORN, NOT_BY_1),
    by(2, Call::Rain(5), TORN, &[10, 0]),
    by(3, Call::Rain(5), TORN, &[10, 0]),
    by(2, Call::Close, TORN_LATER, &[10, 2]),
    by(0, Call::Close, TORN_LATER, NO_ROLE),
    // The role is judged before sheets, journal and amount.
    by(1, Call::Rain(0), DAMAGED, NOT_BY_1),
    by(2, Call::Rain(0), DAMAGED, &[9, 0]),
    by(0, Call::Rain(0), DAMAGED, NO_ROLE),
    by(1, Call::Irrigation(0), BLANK, NOT_BY_1),
    by(2, Call::Irrigation(0), BLANK, &[12, 0]),
    by(1, Call::Close, CLOSED, NOT_BY_1),
    by(2, Call::Close, CLOSED, &[11, 0]),
    by(1, Call::Close, LONG, NOT_BY_1),
    by(1, Call::Close, &[], NOT_BY_1),
    by(2, Call::Close, &[], &[14, 0]),
    without_climate(0, Call::Open, NO_ROLE),
    without_climate(1, Call::Open, &[1, 0]),
    without_climate(0, Call::Rain(5), NO_ROLE),
    without_climate(1, Call::Rain(5), NOT_BY_1),
    without_climate(2, Call::Rain(5), &[1, 0]),
    without_climate(u32::MAX, Call::Close, NO_ROLE),
];

/// A block of a bank: the small one with some fields changed and a blank journal of eight bytes, how many sevens its
/// part has, its five numbers, and what its part then begins with.
struct InBank { changes: &'static [(usize, u32)], room: usize, answer: [u32; 5], depths: &'static [u32] }

const fn in_bank(changes: &'static [(usize, u32)], room: usize, answer: [u32; 5], depths: &'static [u32]) -> InBank {
    InBank { changes, room, answer, depths }
}

/// Turns 127: on day 3, with that taken on days 2 and 4, and with those taken too.
const FIRST: InBank = in_bank(&[], 5, [0, 0, 1, 700, 934], &[0, 0, 700, 0]);
const SECOND: InBank = in_bank(&[], 5, [0, 0, 2, 1_200, 1_600], &[0, 200, 0, 1_000]);
const THIRD: InBank = in_bank(&[], 5, [16, 3, 0, 0, 0], &[]);
/// Turns 1, 2 and 10, whatever else waters.
const TURN_1: InBank = in_bank(&[(40, 1)], 5, [16, 3, 0, 0, 0], &[]);
const TURN_2: InBank = in_bank(&[(40, 2)], 5, [16, 4, 0, 0, 0], &[]);
const TURNS_10: InBank = in_bank(&[(40, 10)], 5, [0, 0, 2, 1_200, 1_600], &[0, 200, 0, 1_000]);
/// Turns 10 behind days 2 and 4.
const NO_TURN: InBank = in_bank(&[(40, 10)], 5, [16, 3, 0, 0, 0], &[]);
/// A late stage of 3 days: the first block, and behind one that waters on day 3.
const LATE: InBank = in_bank(&[(6, 3)], 7, [0, 0, 2, 1_633, 2_178], &[0, 0, 700, 0, 933, 0]);
const LATE_BEHIND: InBank = in_bank(&[(6, 3)], 7, [0, 0, 3, 2_000, 2_667], &[0, 200, 0, 1_000, 0, 800]);
/// Parts of just the days left and of many more.
const EXACT: InBank = in_bank(&[], 4, [0, 0, 1, 700, 934], &[0, 0, 700, 0]);
const WIDE: InBank = in_bank(&[], 300, [0, 0, 2, 1_200, 1_600], &[0, 200, 0, 1_000]);

/// A limit, and blocks in the order given.
const BANKS: [(u32, &[InBank]); 13] = [
    (1, &[FIRST, SECOND, THIRD, THIRD]),
    (2, &[FIRST, FIRST, SECOND, SECOND, THIRD, THIRD]),
    (1, &[TURN_2, TURNS_10, FIRST]),
    (1, &[FIRST, LATE_BEHIND]),
    (1, &[LATE, SECOND]),
    (1, &[TURN_2, TURNS_10]),
    (1, &[TURN_1, TURN_2, TURN_1, FIRST, SECOND]),
    (1, &[TURNS_10, NO_TURN, FIRST, THIRD]),
    (2, &[TURNS_10, FIRST, TURNS_10, FIRST, THIRD]),
    (1, &[EXACT, WIDE, THIRD]),
    (1, &[FIRST]),
    (40, &[FIRST]),
    (4, &[FIRST, FIRST, LATE, FIRST]),
];

/// These banks, and what depths and answers hold after the call where both held sevens.
pub fn banks() -> Vec<(Bank, (Vec<u32>, Vec<u32>))> {
    let answered = |&(limit, blocks): &(u32, &[InBank])| {
        let made: Vec<Block> = blocks.iter().map(|b| small_block(b.changes, BLANK, b.room)).collect();
        let (mut depths, mut answers) = (Vec::new(), Vec::new());
        for b in blocks {
            depths.extend(b.depths);
            depths.extend(vec![7; b.room - b.depths.len()]);
            answers.extend(b.answer);
        }
        answers.resize(ANSWERS, 7);
        (Bank::of(&CLIMATE, limit, &made), (depths, answers))
    };
    BANKS.iter().map(answered).collect()
}

/// The small block with some fields changed, a journal and a part.
fn small_block(changes: &[(usize, u32)], area: &[u8], room: usize) -> Block {
    Block { sheet: random::sheets(&random::with(random::small(127), changes)).block, area: area.to_vec(), room }
}

/// Two such blocks, the second of which the bank's refusal is of, or differs from the first.
fn beside_small(changes: &[(usize, u32)], area: &[u8], room: usize) -> Bank {
    Bank::of(&CLIMATE, 1, &[small_block(&[], BLANK, 5), small_block(changes, area, room)])
}

/// Banks that are refused: the role, the bank, the refusal's number and the number returned with it.
pub fn refused_banks() -> Vec<(u32, Bank, [u32; 2])> {
    let small = || small_block(&[], BLANK, 5);
    let (one, two) = (Bank::of(&CLIMATE, 1, &[small()]), Bank::of(&CLIMATE, 1, &[small(), small()]));
    let changed = |bank: &Bank, change: fn(&mut Bank)| {
        let mut bank = bank.clone();
        change(&mut bank);
        bank
    };
    let cut = |at: usize| Block { sheet: BLOCK[..at].to_vec(), ..small() };
    let out_of_range = [
        changed(&two, |b| b.blocks = 0), changed(&two, |b| b.blocks = 41), changed(&two, |b| b.blocks = u32::MAX),
        changed(&two, |b| b.limit = 0), changed(&two, |b| b.limit = 41), changed(&two, |b| b.limit = u32::MAX),
        // Two and one to whoever keeps 8 or 16 bits.
        changed(&two, |b| b.blocks = 258), changed(&two, |b| b.limit = 65_537),
        changed(&two, |b| b.sheets.truncate(31)), changed(&two, |b| b.areas.truncate(15)),
        changed(&two, |b| b.depths = 9), changed(&two, |b| b.lengths.truncate(5)), changed(&two, |b| b.blocks = 3),
        changed(&one, |b| b.lengths.clear()),
        changed(&two, |b| (b.blocks, b.climate) = (0, Vec::new())),
        changed(&two, |b| (b.limit, b.climate) = (41, Vec::new())),
        changed(&two, |b| (b.depths, b.climate) = (9, Vec::new())),
        // Sums that are the buffer's length to whoever keeps 32 bits.
        changed(&two, |b| (b.sheets, b.lengths[0], b.lengths[3]) = (BLOCK.to_vec(), u32::MAX, 17)),
        changed(&two, |b| (b.lengths[0], b.lengths[3]) = (16, u32::MAX - 15)),
        changed(&two, |b| (b.lengths[1], b.lengths[4]) = (u32::MAX, 17)),
        changed(&two, |b| (b.lengths[2], b.lengths[5]) = (u32::MAX, 11)),
        changed(&two, |b| (b.lengths[2], b.lengths[5]) = (11, u32::MAX)),
    ];
    let refused = vec![
        // The role comes first.
        (0, changed(&two, |b| b.blocks = 0), [20, 0]), (4, two.clone(), [20, 0]),
        (u32::MAX, changed(&two, |b| b.climate.clear()), [20, 0]),
        // Then the climate sheet comes before the blocks.
        (1, changed(&two, |b| b.climate.clear()), [1, 0]),
        (1, changed(&two, |b| (b.climate[24], b.sheets[0]) = (0x80, 13)), [1, 25]),
        (2, changed(&two, |b| (b.lengths[0], b.climate[1]) = (0, 12)), [4, 10]),
        (3, changed(&two, |b| b.climate.push(0)), [3, 25]),
        // A block's own, the first block's first.
        (1, beside_small(&[(2, 32)], BLANK, 5), [4, 2]),
        (1, beside_small(&[(3, 200), (4, 76)], LONG, 5), [5, 0]),
        (1, beside_small(&[(35, 21)], LONG, 5), [6, 0]),
        (1, beside_small(&[(39, 2_001)], LONG, 5), [7, 0]),
        (1, beside_small(&[], LONG, 3), [8, 0]),
        (1, beside_small(&[], DAMAGED, 3), [9, 0]),
        (1, beside_small(&[], TORN, 3), [10, 0]),
        (1, beside_small(&[], TORN_LATER, 3), [10, 2]),
        (1, beside_small(&[], CLOSED, 0), [11, 0]),
        (1, beside_small(&[], BLANK, 3), [15, 0]),
        (1, Bank::of(&CLIMATE, 1, &[small(), cut(15)]), [1, 15]),
        (1, Bank::of(&CLIMATE, 1, &[small_block(&[], BLANK, 3), cut(15)]), [15, 0]),
        (1, Bank::of(&CLIMATE, 1, &[small_block(&[], CLOSED, 5), cut(0)]), [11, 0]),
        (1, Bank::of(&CLIMATE, 1, &[small_block(&[], TORN_LATER, 5), small_block(&[], LONG, 5)]), [10, 2]),
        // A place that moves between two sheets.
        (1, changed(&two, |b| (b.lengths[0], b.lengths[3]) = (15, 17)), [1, 15]),
        (1, changed(&two, |b| (b.lengths[0], b.lengths[3]) = (17, 15)), [4, 41]),
        // Blocks that differ, behind every block's own.
        (1, beside_small(&[(2, 10)], BLANK, 5), [23, 0]),
        (2, beside_small(&[(1, 2)], BLANK, 5), [23, 0]),
        (3, beside_small(&[], &[3, 1, 0xff, 0xff, 0xff, 0xff, 0xff, 0xff], 5), [23, 0]),
        (1, beside_small(&[(41, 29)], BLANK, 5), [23, 0]),
        (1, Bank::of(&CLIMATE, 1, &[small(), small_block(&[(2, 10)], BLANK, 5), cut(15)]), [1, 15]),
        (1, Bank::of(&CLIMATE, 1, &[small_block(&[(40, 2)], BLANK, 5), small_block(&[(2, 10)], BLANK, 5)]), [23, 0]),
    ];
    out_of_range.into_iter().map(|bank| (1, bank, [22, 0])).chain(refused).collect()
}
