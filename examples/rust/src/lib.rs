//! The eleven calls of include/balladsky.h for Rust. The header says what each writes and what its names stand for; a
//! reference here has what the header asks of a pointer.

/// What a call writes: document 01's number, the number returned with it, then the answer.
pub type Out = [u32; OUT];

pub const OUT: usize = 24;
pub const AREA: usize = 8192;
pub const DEPTHS: usize = 275;
pub const ANSWERS: usize = 200;
pub const ROWS: usize = 174;
pub const CLIMATE: usize = 60;
pub const BLOCK: usize = 27;
pub const CLIMATE_FIELDS: usize = 24;
pub const BLOCK_FIELDS: usize = 17;

/// What out[0] says: accepted, or clean; torn, from open; else a refusal.
pub const ACCEPTED: u32 = 0;
pub const SHEET_ENDS: u32 = 1;
pub const BAD_NUMBER: u32 = 2;
pub const BYTES_FOLLOW: u32 = 3;
pub const FIELD_OUT_OF_RANGE: u32 = 4;
pub const SEASON_TOO_LONG: u32 = 5;
pub const ROOTS_SHRINK: u32 = 6;
pub const OPENING_TOO_DRY: u32 = 7;
pub const AREA_TOO_LONG: u32 = 8;
pub const DAMAGED: u32 = 9;
pub const TORN: u32 = 10;
pub const ALL_CLOSED: u32 = 11;
pub const AMOUNT_OUT_OF_RANGE: u32 = 12;
pub const DAY_OVERFULL: u32 = 13;
pub const AREA_FULL: u32 = 14;
pub const BUFFER_TOO_SHORT: u32 = 15;
pub const NO_CHOICE: u32 = 16;
pub const KY_OUT_OF_RANGE: u32 = 17;
pub const CONTENT_OUT_OF_RANGE: u32 = 18;
pub const NO_CONTENT: u32 = 19;
pub const ROLE_OUT_OF_RANGE: u32 = 20;
pub const ROLE_MAY_NOT_RECORD: u32 = 21;
pub const BANK_OUT_OF_RANGE: u32 = 22;
pub const BLOCKS_DIFFER: u32 = 23;

/// Who calls. A role is a plain number, since the call itself refuses every other one.
pub const LOOK: u32 = 1;
pub const RECORD: u32 = 2;
pub const MEND: u32 = 3;

/// What a probe gives: a water content, its supply voltage where the battery is low, or nothing.
#[derive(Clone, Copy, Debug)]
pub enum Probe { Water(f32), Low(f32), Silent }

/// The same as the header has it: a kind, of which every number but 1 and 2 is silent, and a value.
pub type Reading = (u32, f32);

impl Probe {
    fn reading(self) -> Reading {
        match self {
            Probe::Silent => (0, 0.0),
            Probe::Water(content) => (1, content),
            Probe::Low(voltage) => (2, voltage),
        }
    }
}

mod c {
    extern "C" {
        pub fn balladsky_open(
            role: u32, climate: *const u8, climate_length: usize, block: *const u8, block_length: usize,
            area: *const u8, area_length: usize, out: *mut u32,
        );
        pub fn balladsky_rain(
            role: u32, climate: *const u8, climate_length: usize, block: *const u8, block_length: usize,
            area: *const u8, area_length: usize, amount: u32, out: *mut u32,
        );
        pub fn balladsky_irrigation(
            role: u32, climate: *const u8, climate_length: usize, block: *const u8, block_length: usize,
            area: *const u8, area_length: usize, amount: u32, out: *mut u32,
        );
        pub fn balladsky_close(
            role: u32, climate: *const u8, climate_length: usize, block: *const u8, block_length: usize,
            area: *const u8, area_length: usize, out: *mut u32,
        );
        pub fn balladsky_loss(
            role: u32, climate: *const u8, climate_length: usize, block: *const u8, block_length: usize,
            area: *const u8, area_length: usize, ky: u32, out: *mut u32,
        );
        pub fn balladsky_probe(
            role: u32, climate: *const u8, climate_length: usize, block: *const u8, block_length: usize,
            area: *const u8, area_length: usize, shallow_kind: u32, shallow: f32, deep_kind: u32, deep: f32,
            capacity: u32, out: *mut u32,
        );
        pub fn balladsky_plan(
            role: u32, climate: *const u8, climate_length: usize, block: *const u8, block_length: usize,
            area: *const u8, area_length: usize, depths: *mut u32, depths_length: usize, out: *mut u32,
        );
        pub fn balladsky_bank(
            role: u32, climate: *const u8, climate_length: usize, blocks: u32, limit: u32, lengths: *const u32,
            lengths_length: usize, sheets: *const u8, sheets_length: usize, areas: *const u8, areas_length: usize,
            depths: *mut u32, depths_length: usize, answers: *mut u32, out: *mut u32,
        );
        pub fn balladsky_table(
            role: u32, climate: *const u8, climate_length: usize, block: *const u8, block_length: usize,
            rows: *mut u32, rows_length: usize, out: *mut u32,
        );
        pub fn balladsky_write_climate(
            role: u32, fields: *const u32, climate: *mut u8, climate_length: usize, out: *mut u32,
        );
        pub fn balladsky_write_block(
            role: u32, fields: *const u32, block: *mut u8, block_length: usize, out: *mut u32,
        );
    }
}

pub fn open(role: u32, climate: &[u8], block: &[u8], area: &[u8], out: &mut Out) {
    let (c, b, a, out) = (climate.as_ptr(), block.as_ptr(), area.as_ptr(), out.as_mut_ptr());
    unsafe { c::balladsky_open(role, c, climate.len(), b, block.len(), a, area.len(), out) }
}

pub fn rain(role: u32, climate: &[u8], block: &[u8], area: &[u8], amount: u32, out: &mut Out) {
    let (c, b, a, out) = (climate.as_ptr(), block.as_ptr(), area.as_ptr(), out.as_mut_ptr());
    unsafe { c::balladsky_rain(role, c, climate.len(), b, block.len(), a, area.len(), amount, out) }
}

pub fn irrigation(role: u32, climate: &[u8], block: &[u8], area: &[u8], amount: u32, out: &mut Out) {
    let (c, b, a, out) = (climate.as_ptr(), block.as_ptr(), area.as_ptr(), out.as_mut_ptr());
    unsafe { c::balladsky_irrigation(role, c, climate.len(), b, block.len(), a, area.len(), amount, out) }
}

pub fn close(role: u32, climate: &[u8], block: &[u8], area: &[u8], out: &mut Out) {
    let (c, b, a, out) = (climate.as_ptr(), block.as_ptr(), area.as_ptr(), out.as_mut_ptr());
    unsafe { c::balladsky_close(role, c, climate.len(), b, block.len(), a, area.len(), out) }
}

pub fn loss(role: u32, climate: &[u8], block: &[u8], area: &[u8], ky: u32, out: &mut Out) {
    let (c, b, a, out) = (climate.as_ptr(), block.as_ptr(), area.as_ptr(), out.as_mut_ptr());
    unsafe { c::balladsky_loss(role, c, climate.len(), b, block.len(), a, area.len(), ky, out) }
}

pub fn probe(
    role: u32, climate: &[u8], block: &[u8], area: &[u8], shallow: Probe, deep: Probe, capacity: u32, out: &mut Out,
) {
    probe_of_any_kind(role, climate, block, area, shallow.reading(), deep.reading(), capacity, out)
}

/// The same with any kinds.
pub fn probe_of_any_kind(
    role: u32, climate: &[u8], block: &[u8], area: &[u8], shallow: Reading, deep: Reading, capacity: u32,
    out: &mut Out,
) {
    let (c, b, a, out) = (climate.as_ptr(), block.as_ptr(), area.as_ptr(), out.as_mut_ptr());
    let ((s, shallow), (d, deep)) = (shallow, deep);
    unsafe {
        c::balladsky_probe(role, c, climate.len(), b, block.len(), a, area.len(), s, shallow, d, deep, capacity, out)
    }
}

pub fn plan(role: u32, climate: &[u8], block: &[u8], area: &[u8], depths: &mut [u32], out: &mut Out) {
    let (c, b, a, d, out) = (climate.as_ptr(), block.as_ptr(), area.as_ptr(), depths.as_mut_ptr(), out.as_mut_ptr());
    unsafe { c::balladsky_plan(role, c, climate.len(), b, block.len(), a, area.len(), d, depths.len(), out) }
}

/// Three lengths a block: its sheet, its journal, its part of the depths. Five answers a block.
pub fn bank(
    role: u32, climate: &[u8], blocks: u32, limit: u32, lengths: &[u32], sheets: &[u8], areas: &[u8],
    depths: &mut [u32], answers: &mut [u32; ANSWERS], out: &mut Out,
) {
    let (c, l, s, a) = (climate.as_ptr(), lengths.as_ptr(), sheets.as_ptr(), areas.as_ptr());
    let (d, answers, out) = (depths.as_mut_ptr(), answers.as_mut_ptr(), out.as_mut_ptr());
    unsafe {
        c::balladsky_bank(
            role, c, climate.len(), blocks, limit, l, lengths.len(), s, sheets.len(), a, areas.len(), d, depths.len(),
            answers, out,
        )
    }
}

pub fn table(role: u32, climate: &[u8], block: &[u8], rows: &mut [u32], out: &mut Out) {
    let (c, b, r, out) = (climate.as_ptr(), block.as_ptr(), rows.as_mut_ptr(), out.as_mut_ptr());
    unsafe { c::balladsky_table(role, c, climate.len(), b, block.len(), r, rows.len(), out) }
}

/// Fields 10 to 33.
pub fn write_climate(role: u32, fields: &[u32; CLIMATE_FIELDS], climate: &mut [u8], out: &mut Out) {
    unsafe { c::balladsky_write_climate(role, fields.as_ptr(), climate.as_mut_ptr(), climate.len(), out.as_mut_ptr()) }
}

/// Fields 1 to 9, 34 to 40 and the days of February, 28 or 29; 28 is left out of the sheet.
pub fn write_block(role: u32, fields: &[u32; BLOCK_FIELDS], block: &mut [u8], out: &mut Out) {
    unsafe { c::balladsky_write_block(role, fields.as_ptr(), block.as_mut_ptr(), block.len(), out.as_mut_ptr()) }
}
