//! Random sheets, journals, probes and banks, from one seed.
use crate::banks::{self, Bank};
use crate::cases;
use crate::plain::book;
use crate::plain::*;

/// Numbers that look random, the same for the same seed.
pub struct Dice(pub u64);

impl Dice {
    pub fn next(&mut self) -> u64 {
        self.0 = self.0.wrapping_add(0x9e3779b97f4a7c15);
        let mut z = self.0;
        z = (z ^ z >> 30).wrapping_mul(0xbf58476d1ce4e5b9);
        z = (z ^ z >> 27).wrapping_mul(0x94d049bb133111eb);
        z ^ z >> 31
    }
    /// lo..=hi
    pub fn of(&mut self, lo: u32, hi: u32) -> u32 {
        lo + (self.next() % (hi as u64 - lo as u64 + 1)) as u32
    }
    pub fn one_in(&mut self, k: u32) -> bool {
        self.of(1, k) == 1
    }
    pub fn pick<T: Copy>(&mut self, from: &[T]) -> T {
        from[self.of(0, from.len() as u32 - 1) as usize]
    }
}

/// Roles: the three that there are, and numbers beside them.
pub const ROLES: [u32; 6] = [0, 1, 2, 3, 4, u32::MAX];

/// A role for a call: one in three is any of these, the others may make it and are handed its stores.
pub fn role(g: &mut Dice, call: book::Call) -> u32 {
    match call {
        _ if g.one_in(3) => g.pick(&ROLES),
        book::Call::Open => 3,
        _ => g.of(2, 3),
    }
}

/// Fields 1 to 40 and the days of February, in the order of their numbers.
pub type Fields = [u32; 41];

/// Those of the climate, and those of the block, as the writers take them.
pub fn climate_of(f: &Fields) -> Climate {
    std::array::from_fn(|i| f[9 + i])
}

pub fn block_of(f: &Fields) -> Block {
    std::array::from_fn(|i| f[if i < 9 { i } else { 24 + i }])
}

#[derive(Clone, Debug, PartialEq)]
pub struct Sheets { pub climate: Vec<u8>, pub block: Vec<u8> }

impl Sheets {
    pub fn new(climate: &[u8], block: &[u8]) -> Sheets {
        Sheets { climate: climate.to_vec(), block: block.to_vec() }
    }

    pub fn pair(&self) -> (&[u8], &[u8]) {
        (&self.climate, &self.block)
    }

    /// Of an accepted pair.
    pub fn season(&self) -> Season {
        read_sheets(&self.climate, &self.block).unwrap()
    }
}

/// The sheets of any fields: 28 days of February are left out, any other number written.
pub fn sheets(f: &Fields) -> Sheets {
    let block = block_of(f);
    Sheets { climate: write_sheet(&climate_of(f)), block: write_sheet(if f[40] == 28 { &block[..16] } else { &block }) }
}

/// A writer, by the sheet that it makes.
#[derive(Clone, Copy, Debug)]
pub enum Writer { Climate, Block }

impl Writer {
    pub const BOTH: [Writer; 2] = [Writer::Climate, Writer::Block];

    /// The fields that it takes: 24 numbers or 17.
    pub fn fields(self, f: &Fields) -> Vec<u32> {
        match self {
            Writer::Climate => climate_of(f).to_vec(),
            Writer::Block => block_of(f).to_vec(),
        }
    }

    /// Its sheet of a pair.
    pub fn sheet(self, sheets: &Sheets) -> &[u8] {
        match self {
            Writer::Climate => &sheets.climate,
            Writer::Block => &sheets.block,
        }
    }

    /// Such a sheet beside the other one of the small pair.
    pub fn beside(self, sheet: &[u8]) -> Sheets {
        match self {
            Writer::Climate => Sheets::new(sheet, &cases::BLOCK),
            Writer::Block => Sheets::new(&cases::CLIMATE, sheet),
        }
    }

    /// Bytes that every such sheet fits in, and those of as many numbers of three bytes.
    pub fn rooms(self) -> [usize; 2] {
        match self {
            Writer::Climate => [60, 72],
            Writer::Block => [27, 51],
        }
    }

    pub fn write(self, role: u32, fields: &[u32], sheet: &mut [u8]) -> Written {
        match self {
            Writer::Climate => write_climate(role, fields.try_into().unwrap(), sheet),
            Writer::Block => write_block(role, fields.try_into().unwrap(), sheet),
        }
    }
}

/// The small sheet of document 01.
pub fn small(turns: u32) -> Fields {
    let mut f = [0; 41];
    f[..10].copy_from_slice(&[1, 9, 1, 1, 1, 1, 40, 100, 60, 500]);
    f[33..].copy_from_slice(&[100, 20, 20, 50, 75, 0, turns, 28]);
    f
}

/// Four days over the end of February.
pub fn leap(february: u32) -> Fields {
    let mut f = [0; 41];
    f[..9].copy_from_slice(&[2, 27, 1, 1, 1, 1, 40, 100, 60]);
    (f[10], f[11], f[22], f[23]) = (500, 1_000, 10_000, 10_000);
    f[33..].copy_from_slice(&[100, 20, 20, 50, 75, 0, 127, february]);
    f
}

/// Fields with some changed, counted from 1.
pub fn with(mut f: Fields, changes: &[(usize, u32)]) -> Fields {
    for &(field, v) in changes {
        f[field - 1] = v;
    }
    f
}

/// Fields of an accepted pair, of at most so many days. Half of them have 29 days of February, and one in four begins
/// in that month, mostly near its end.
pub fn fields(g: &mut Dice, days: u32) -> Fields {
    let mut f = ordinary(g, days);
    f[40] = g.of(28, 29);
    if g.one_in(4) {
        let first = g.pick(&[1, 20, 27]);
        (f[0], f[1]) = (2, g.of(first, f[40]));
    }
    f
}

/// Such fields with 28 days of February and any start.
pub fn ordinary(g: &mut Dice, days: u32) -> Fields {
    let mut f = [28; 41];
    f[0] = g.of(1, 12);
    f[1] = g.of(1, MONTHS[f[0] as usize - 1]);
    loop {
        for i in 2..6 {
            f[i] = g.of(1, 200.min(days - 3));
        }
        if f[2..6].iter().sum::<u32>() <= days {
            break;
        }
    }
    for i in 6..9 {
        f[i] = g.of(10, 200);
    }
    let (eto, rain) = (g.pick(&[200, 700, 1_500]), g.pick(&[0, 3_000, 25_100, 60_000]));
    for i in 9..21 {
        f[i] = g.of(0, eto);
    }
    for i in 21..33 {
        f[i] = g.of(0, rain);
    }
    f[33] = g.pick(&[1, 20, 140, 400]);
    f[35] = g.of(10, 300);
    f[34] = g.of(10, f[35]);
    f[36] = g.of(5, 80);
    f[37] = g.of(1, 100);
    f[39] = g.pick(&[127, 0, 1, 85]).max(g.of(0, 127));
    let day1 = first_total(&f);
    f[38] = if g.one_in(3) { day1 } else { g.of(0, day1) };
    f
}

/// Such fields whose needs are a third of the ready water up to all of it, so that many waterings are wanted.
pub fn thirsty(g: &mut Dice, days: u32) -> Fields {
    let mut f = fields(g, days);
    f[33] = g.pick(&[20, 60, 140]);
    f[35] = g.of(10, 60);
    f[34] = g.of(10, f[35]);
    if g.one_in(2) {
        f[36] = g.of(30, 80);
    }
    let day1 = first_total(&f);
    let cap = (day1 * f[36] / 100 / g.of(1, 3)).min(1_500);
    let dry = g.one_in(2);
    for i in 9..21 {
        f[i] = g.of(cap / 3, cap);
        f[12 + i] /= if dry { 20 } else { 1 };
    }
    f[38] = g.of(0, day1 * f[36] / 100);
    f[39] = g.of(0, 127) | g.of(0, 127);
    f
}

/// The total water of day 1.
fn first_total(f: &Fields) -> u32 {
    f[33] * (f[34] + (f[35] - f[34]) / (f[2] + f[3]))
}

/// Four stages of so many days in all.
pub fn stages(g: &mut Dice, days: u32) -> [u32; 4] {
    loop {
        let f = [g.of(1, 200), g.of(1, 200), g.of(1, 200)];
        if let Some(late @ 1..=200) = days.checked_sub(f.iter().sum()) {
            return [f[0], f[1], f[2], late];
        }
    }
}

/// Fields whose block is at the edge of a refusal, or just past it.
fn spoilt_fields(g: &mut Dice, days: u32) -> Fields {
    let mut f = fields(g, days);
    match g.of(0, 9) {
        0 | 1 => {
            let field = (g.of(0, 16) + 33) as usize % 41; // 34 to 41, then 1 to 9
            f[field] = g.pick(&[0, 1, 5, 28, 29, 30, 31, 127, 128, 201, 16_383, 16_384, 2_097_151, 2_097_152]);
        }
        2 => (f[34], f[35]) = (f[35], f[34]),
        3 => f[38] += g.of(0, 3),
        4 => f[2 + g.of(0, 3) as usize] = g.of(150, 200),
        5 => {
            let days = DAYS as u32 + g.of(0, 1);
            f[2..6].copy_from_slice(&stages(g, days));
        }
        _ => {}
    }
    f
}

/// Climate fields in their range, at its edge, past it, and in it to whoever keeps 16 or 21 bits.
const CLIMATES: [u32; 16] = [
    0, 1, 127, 128, 1_499, 1_500, 1_501, 16_383, 16_384, 59_999, 60_000, 60_001, 65_536, 2_097_151, 2_097_152,
    2_098_652,
];

/// One list in three has one or two such climate fields.
fn spoil_climate(g: &mut Dice, f: &mut Fields) {
    for _ in 0..g.pick(&[0, 0, 0, 0, 1, 2]) {
        f[g.of(9, 32) as usize] = g.pick(&CLIMATES);
    }
}

/// Fields spoilt in both ways; one list in four has a February of those below, and one in four any number in one of the
/// fields.
pub fn any_fields(g: &mut Dice, days: u32) -> Fields {
    let mut f = spoilt_fields(g, days);
    spoil_climate(g, &mut f);
    if g.one_in(4) {
        february(g, &mut f);
    }
    if g.one_in(4) {
        f[g.of(0, 40) as usize] = g.next() as u32 >> g.of(0, 31);
    }
    f
}

/// Days of February that are right, wrong, and right to whoever keeps 7, 8, 14, 16 or 31 bits.
const FEBRUARIES: [u32; 13] = [28, 29, 29, 30, 0, 127, 156, 157, 285, 16_384, 16_413, 65_565, 0x8000_001d];

/// One of these with, one time in two, a start from 28 to 30 February.
fn february(g: &mut Dice, f: &mut Fields) {
    f[40] = g.pick(&FEBRUARIES);
    if g.one_in(2) {
        (f[0], f[1]) = (2, g.of(28, 30));
    }
}

/// What may stand where a number does: one broken off or wrongly gone on, and blank memory.
const NO_NUMBERS: [&[u8]; 7] = [&[0x9d], &[0x9d, 0], &[0x80; 2], &[0x80; 3], &[0xff], &[0xff; 2], &[0xff; 5]];

/// A climate sheet of fields at an edge. One in eight has a number more, whole or not. Then some bytes are spoilt.
fn any_climate(g: &mut Dice) -> Vec<u8> {
    let mut f = ordinary(g, 4);
    spoil_climate(g, &mut f);
    let mut made = sheets(&f).climate;
    if g.one_in(8) {
        let more = if g.one_in(2) { write_sheet(&[g.pick(&CLIMATES)]) } else { g.pick(&NO_NUMBERS).to_vec() };
        made.extend(more);
    }
    spoil_sheet(g, &mut made);
    made
}

/// A block sheet of fields at the edge of a refusal. One in three has such a seventeenth number, 28 too, whole, broken
/// off or wrongly gone on, and half of those have bytes behind it. Then some bytes are spoilt.
fn any_block(g: &mut Dice, days: u32) -> Vec<u8> {
    let mut f = spoilt_fields(g, days);
    let mut made = sheets(&f).block;
    if g.one_in(3) {
        february(g, &mut f);
        let mut last = write_sheet(&f[40..]);
        match g.of(0, 5) {
            0 => drop(last.pop()),
            1 => last = g.pick(&NO_NUMBERS).to_vec(),
            _ => {}
        }
        for _ in 0..g.pick(&[0, 0, 1, 3]) {
            last.push(g.pick(&[0, 1, 29, 0x80, 0xff]));
        }
        made = [write_sheet(&block_of(&f)[..16]), last].concat();
    }
    spoil_sheet(g, &mut made);
    made
}

/// Any climate with any block, each made of fields of its own; one climate in three is spoilt and three blocks in four.
/// One pair in sixteen is exchanged, and one in sixteen is a run of bytes cut at another place.
pub fn any_sheets(g: &mut Dice, days: u32) -> Sheets {
    let mut s = sheets(&fields(g, days));
    if g.one_in(3) {
        s.climate = any_climate(g);
    }
    if !g.one_in(4) {
        s.block = any_block(g, days);
    }
    match g.of(0, 15) {
        0 => std::mem::swap(&mut s.climate, &mut s.block),
        1 => {
            let run = [&s.climate[..], &s.block].concat();
            let (climate, block) = run.split_at(g.of(0, run.len() as u32) as usize);
            s = Sheets::new(climate, block);
        }
        _ => {}
    }
    s
}

/// Some bytes of a sheet cut off, changed, put in or added.
fn spoil_sheet(g: &mut Dice, sheet: &mut Vec<u8>) {
    for _ in 0..g.pick(&[0, 0, 1, 2]) {
        let at = g.of(0, sheet.len() as u32 - 1) as usize;
        match g.of(0, 4) {
            0 => sheet.truncate(at + 1),
            1 => sheet[at] = g.pick(&[0, 0x80, 0xff, 1, 0x7f]),
            2 => sheet[at] ^= 0x80,
            3 => sheet.insert(at, g.pick(&[0, 1, 0x80])),
            _ => sheet.push(g.next() as u8),
        }
    }
}

/// An amount, often near where a number takes a byte more, or where an entry is refused.
pub fn amount(g: &mut Dice) -> u32 {
    match g.of(0, 11) {
        0 => g.pick(&[0, 120_001, u32::MAX, 1 << 21, 119_999]),
        1 | 2 => 120_000,
        3 => g.pick(&[127, 128, 255, 383, 16_383, 16_384, 16_511, 32_767, 1]),
        4 => 127 + 128 * g.of(0, 900),
        5 => g.of(1, 120_000),
        6 => g.of(120, 20_000),
        _ => g.of(1, 400),
    }
}

/// Yield response factors at the edges of their range, past them and between.
pub const KYS: [u32; 12] = [0, 1, 2, 99, 100, 105, 125, 150, 199, 200, 201, u32::MAX];

/// One of these, or any.
pub fn ky(g: &mut Dice) -> u32 {
    match g.of(0, 3) {
        0 | 1 => g.pick(&KYS),
        2 => g.of(1, 200),
        _ => g.next() as u32 >> g.of(0, 31),
    }
}

/// What a call on probes is given. It is shown by the bits, which tell one NaN from another.
#[derive(Clone, Copy)]
pub struct Probes { pub shallow: Reading, pub deep: Reading, pub capacity: u32 }

impl std::fmt::Debug for Probes {
    fn fmt(&self, f: &mut std::fmt::Formatter) -> std::fmt::Result {
        let Probes { shallow: (a, x), deep: (b, y), capacity } = *self;
        write!(f, "shallow {a} {:08x}, deep {b} {:08x}, capacity {capacity}", x.to_bits(), y.to_bits())
    }
}

/// Kinds of what a probe gives: a content, low, silent, and silent but a content to whoever keeps 8, 16 or 31 bits.
pub const KINDS: [u32; 8] = [1, 2, 0, 3, 257, 65_537, 0x8000_0001, u32::MAX];

/// Field capacities at the edges of their range, past them, and in it to whoever keeps 14, 16 or 31 bits.
pub const CAPACITIES: [u32; 11] = [0, 1, 2, 3_000, 5_999, 6_000, 6_001, 16_777, 65_537, 0x8000_0001, u32::MAX];

/// The f32 so many places above the one nearest to v / 10,000.
pub fn beside(v: u32, above: i32) -> f32 {
    f32::from_bits((v as f32 / 10_000.0).to_bits().wrapping_add_signed(above))
}

/// A probe's value: any bits, at an edge, a content of any size, beside a ten-thousandth, or near where the answer
/// turns: at the capacity, and where the measured depletion comes to the total water of the sheets above.
fn value(g: &mut Dice, capacity: u32) -> f32 {
    let near = match g.of(0, 9) {
        0 => return f32::from_bits(g.next() as u32),
        1 => return f32::from_bits(g.pick(&cases::CONTENTS).0),
        2 | 3 => return f32::from_bits(g.of(0.0001f32.to_bits(), 1f32.to_bits())),
        4 | 5 => g.of(0, 10_000),
        _ => capacity.saturating_sub(g.pick(&[0, 10, 200, 1_400, 4_000])).clamp(1, 9_999) + g.of(0, 2) - 1,
    };
    beside(near, g.of(0, 6) as i32 - 3)
}

/// One such value of a kind, mostly a content.
fn reading(g: &mut Dice, capacity: u32) -> Reading {
    let kind = if g.one_in(4) { g.pick(&KINDS) } else { 1 };
    (kind, value(g, capacity))
}

/// What two probes give, with a capacity at an edge, in its range or any.
pub fn probes(g: &mut Dice) -> Probes {
    let capacity = match g.of(0, 9) {
        0 => g.pick(&CAPACITIES),
        1 => g.next() as u32 >> g.of(0, 31),
        _ => g.of(1, 6_000),
    };
    Probes { shallow: reading(g, capacity), deep: reading(g, capacity), capacity }
}

/// A clean journal made with the calls themselves.
pub fn journal(g: &mut Dice, sheets: &Sheets, length: usize) -> (Vec<u8>, Ledger) {
    let days = sheets.season().days;
    let closed = if g.one_in(2) { 0 } else if g.one_in(6) { days } else { g.of(0, days) };
    journal_to(g, sheets, length, closed)
}

/// Such a journal with so many days closed.
fn journal_to(g: &mut Dice, sheets: &Sheets, length: usize, closed: u32) -> (Vec<u8>, Ledger) {
    let (days, mut area) = (sheets.season().days, vec![0xff; length]);
    let mut at = 0;
    let mut put = |area: &mut Vec<u8>, e| {
        let bytes = book::bytes(e);
        area[at..at + bytes.len()].copy_from_slice(&bytes);
        at += bytes.len();
    };
    for day in 1..=closed {
        if g.one_in(4) {
            put(&mut area, book::Entry::Rain(g.pick(&[1, 40, 900, 5_000])));
        }
        put(&mut area, book::Entry::Close(day));
    }
    if closed < days && g.one_in(2) {
        put(&mut area, book::Entry::Irrigation(g.pick(&[1, 40, 900, 5_000])));
        put(&mut area, book::Entry::Rain(g.pick(&[1, 40, 900, 5_000])));
    }
    match open(1, &sheets.climate, &sheets.block, &area).opening {
        Opening::Clean(l) => (area, l),
        other => panic!("{other:?}"),
    }
}

/// What may stand behind a journal's last entry, on its open day: a whole entry, its first bytes, or anything.
pub fn tail(g: &mut Dice, day: u32) -> Vec<u8> {
    let mut tail = Vec::new();
    let edge = g.pick(&[0, 0, 1, 2, 127, 128, 129, 254, 255, 256, 16_383, 16_384, 16_385, 16_511, 16_512, 32_766, 32_767, 32_768]);
    if g.one_in(2) {
        // heavy rain, to just below the day's limit
        for v in [120_000, 120_000 - edge] {
            tail.extend(book::bytes(book::Entry::Rain(v)));
        }
    } else if g.one_in(8) {
        tail.extend(book::bytes(book::Entry::Irrigation(g.pick(&[0, 120_000, 120_001, 1 << 20]))));
    }
    match g.of(0, 7) {
        0 => tail.extend(book::bytes(book::Entry::Close(day))),
        1 => tail.extend(book::bytes(book::Entry::Close(day + g.of(0, 1)))),
        2 => tail.extend([g.of(0, 4) as u8, g.next() as u8, g.next() as u8]),
        3 => tail.extend([g.of(1, 3) as u8, g.next() as u8 | 0x80, g.next() as u8 | 0x80, g.of(0, 9) as u8]),
        4 => tail.extend([g.of(1, 3) as u8, 0xff, g.pick(&[0xff, 1, 0x80])]),
        5 | 6 => {
            let v = (edge + g.of(0, 2)).saturating_sub(1);
            tail.extend(book::bytes(if g.one_in(2) { book::Entry::Rain(v) } else { book::Entry::Irrigation(v) }));
        }
        _ => {}
    }
    tail.truncate(tail.len().saturating_sub(g.pick(&[0, 1, 1, 2, 3])));
    tail
}

/// A journal with such a tail, cut to about its length; one in twenty has a byte changed.
pub fn any_journal(g: &mut Dice, sheets: &Sheets, length: usize) -> Vec<u8> {
    let (mut area, l) = journal(g, sheets, length);
    let tail = tail(g, l.day);
    let room = l.place + (tail.len() + g.of(0, 4) as usize).saturating_sub(g.of(0, 1) as usize);
    area.truncate(room);
    for (place, byte) in area[l.place..].iter_mut().zip(tail) {
        *place = byte;
    }
    if g.one_in(20) && room > 0 {
        let at = g.of(0, room as u32 - 1) as usize;
        area[at] = g.next() as u8;
    }
    area
}

/// Fields of a block that goes with others: their climate, start and February, and more days than they have closed.
fn beside_others(g: &mut Dice, first: &Fields, days: u32, closed: u32) -> Fields {
    let mut f = match g.of(0, 3) {
        0 => fields(g, days),
        1 => thirsty(g, days),
        // The first block with other turns, crop and opening.
        _ => {
            let mut f = *first;
            f[39] = g.pick(&[127, 127, 85, 42]).min(g.of(0, 127) | g.of(0, 127) | g.of(0, 127));
            (f[6], f[7], f[8]) = (g.of(10, 120), g.of(10, 120), g.of(10, 120));
            f[38] = g.of(0, f[38]);
            f
        }
    };
    (f[0], f[1], f[40]) = (first[0], first[1], first[40]);
    f[9..33].copy_from_slice(&first[9..33]);
    if f[2..6].iter().sum::<u32>() <= closed {
        f[2..6].copy_from_slice(&first[2..6]);
        f[38] = f[38].min(first_total(&f));
    }
    f
}

/// A clean journal with so many days closed, and a few places behind it.
fn block_area(g: &mut Dice, sheets: &Sheets, closed: u32) -> Vec<u8> {
    let (mut area, l) = journal_to(g, sheets, 1_900, closed);
    area.truncate(l.place + g.pick(&[0, 0, 1, 8, 30]));
    area
}

/// One such block spoilt: its sheet, its journal, its part, or what it should have in common with the others.
fn spoil_block(g: &mut Dice, block: &mut banks::Block, f: &Fields, days: u32, closed: u32) {
    let sheets = sheets(f);
    let left = (sheets.season().days - closed) as usize;
    let mut other = *f;
    match g.of(0, 12) {
        0 => block.sheet = any_block(g, days),
        1 => spoil_sheet(g, &mut block.sheet),
        2 => {
            let spoilt = spoilt_fields(g, days);
            (other[2], other[4], other[5]) = (spoilt[2], spoilt[4], spoilt[5]);
            (other[33], other[34], other[35], other[38]) = (spoilt[33], spoilt[34], spoilt[35], spoilt[38]);
            block.sheet = self::sheets(&other).block;
        }
        3 => block.area = any_journal(g, &sheets, 1_300),
        4 | 5 => {
            let (area, l) = journal_to(g, &sheets, 1_900, closed);
            block.area = [&area[..l.place], &tail(g, l.day), &[0xff; 4]].concat();
        }
        6 => block.area = block_area(g, &sheets, closed + left as u32),
        7 => block.area = vec![0xff; if g.one_in(4) { 8_193 } else { 8_192 }],
        8 => block.room = left.saturating_sub(g.pick(&[1, 1, 2, 300])),
        9 => block.area = block_area(g, &sheets, closed.saturating_sub(1)),
        10 if left > 1 => block.area = block_area(g, &sheets, closed + 1),
        11 => {
            other[40] = 57 - other[40];
            block.sheet = self::sheets(&other).block;
        }
        _ => {
            let field = g.of(0, 1) as usize;
            other[field] = if other[field] > 1 { other[field] - 1 } else { 2 };
            block.sheet = self::sheets(&other).block;
        }
    }
}

/// Lengths that are odd: one or two too long or too short, sums that are the same to whoever keeps 32 bits, too few,
/// and buffers that are short.
fn spoil_lengths(g: &mut Dice, b: &mut Bank) {
    let blocks = b.lengths.len() as u32 / 3;
    let at = g.of(0, 3 * blocks - 1) as usize;
    let other = at % 3 + 3 * g.of(0, blocks - 1) as usize;
    match g.of(0, 9) {
        0 => b.lengths[at] = g.pick(&[u32::MAX, 0x8000_0000, 8_192, 0]),
        1 => b.lengths[at] = b.lengths[at].wrapping_add(g.pick(&[1, u32::MAX])),
        2 | 3 => {
            let length = b.lengths[at];
            let moved = g.pick(&[1, 1, 2, 16, length, length + 1, 0x8000_0000, u32::MAX]);
            b.lengths[at] = length.wrapping_sub(moved);
            b.lengths[other] = b.lengths[other].wrapping_add(moved);
        }
        4 => b.lengths.truncate(at),
        5 => b.sheets.truncate(b.sheets.len() - 1),
        6 => b.areas.truncate(b.areas.len().saturating_sub(1)),
        7 => b.depths = b.depths.saturating_sub(1),
        8 => b.blocks = g.pick(&[0, 41, blocks + 1, blocks.saturating_sub(1), 256 + blocks, 65_536 + blocks, u32::MAX]),
        _ => b.limit = g.pick(&[0, 41, 42, 257, 65_537, 0x8000_0001, u32::MAX]),
    }
}

/// A bank of 1 to 40 blocks, mostly a few. One block in fifteen of a small bank is spoilt, one bank in five has odd
/// lengths, one in twelve another climate sheet; one in three has lengths, bytes and depths behind the last block's.
pub fn bank(g: &mut Dice) -> Bank {
    let count = match g.of(0, 31) {
        0 => 40,
        1 => g.of(7, 39),
        2..=5 => 1,
        _ => g.of(2, 6),
    };
    let days = if g.one_in(24) { DAYS as u32 } else { g.pick(&[4, 12, 12, 30]) };
    let first = if g.one_in(4) { fields(g, days) } else { thirsty(g, days) };
    let most = first[2..6].iter().sum::<u32>() - 1;
    let closed = if g.one_in(2) { 0 } else { g.of(0, most) };
    let mut blocks = Vec::new();
    for k in 0..count {
        let f = if k == 0 { first } else { beside_others(g, &first, days, closed) };
        let sheets = sheets(&f);
        let left = (sheets.season().days - closed) as usize;
        let area = block_area(g, &sheets, closed);
        let mut block = banks::Block { sheet: sheets.block, area, room: left + g.pick(&[0, 0, 1, 5]) };
        if g.one_in(15.max(2 * count)) {
            spoil_block(g, &mut block, &f, days, closed);
        }
        blocks.push(block);
    }
    let limit = if g.one_in(6) { g.of(1, 40) } else { g.of(1, 3) };
    let mut b = Bank::of(&sheets(&first).climate, limit, &blocks);
    if g.one_in(12) {
        b.climate = any_climate(g);
    }
    if g.one_in(3) {
        b.lengths.extend([g.next() as u32, u32::MAX, 5, 0].into_iter().take(g.of(0, 4) as usize));
        b.sheets.extend(vec![g.next() as u8; g.of(0, 30) as usize]);
        b.areas.extend(vec![g.pick(&[0xff, 1, 0]); g.of(0, 30) as usize]);
        b.depths += g.of(0, 30) as usize;
    }
    if g.one_in(5) {
        spoil_lengths(g, &mut b);
    }
    b
}
