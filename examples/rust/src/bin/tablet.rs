//! What a tablet does for two growers on one controller: it makes one climate sheet and a block sheet for each, prints
//! their bytes, and reads each block with that climate by its decade table. Then January's ETo is set right, in the one
//! climate sheet, for both. After that four calls that are refused: a field out of its range in either sheet, a buffer
//! that is too short, and a number that is no role. All others are by role 1, which is enough to make a sheet.
use balladsky::{table, write_block, write_climate};
use balladsky::{Out, ACCEPTED, BLOCK, BLOCK_FIELDS, CLIMATE, CLIMATE_FIELDS, LOOK, OUT, ROWS};

/// Of each grower fields 1 to 9, 34 to 40, then February, which with 28 days is left out of the sheet.
const GROWERS: [[u32; BLOCK_FIELDS]; 2] = [
    [1, 9, 1, 1, 1, 1, 40, 100, 60, 100, 20, 20, 50, 75, 0, 127, 28],
    [1, 20, 2, 2, 2, 2, 50, 110, 70, 120, 30, 30, 40, 60, 0, 85, 28],
];

/// Fields 10 to 33: ETo of January and eleven 0; rain twelve 0.
fn climate_of(january: u32) -> [u32; CLIMATE_FIELDS] {
    let mut fields = [0; CLIMATE_FIELDS];
    fields[0] = january;
    fields
}

fn accepted(out: &Out, what: &str) {
    assert_eq!(out[0], ACCEPTED, "{what}: refused {} {}", out[0], out[1]);
}

fn make_climate(january: u32) -> Vec<u8> {
    let (mut climate, mut out) = ([0; CLIMATE], [0; OUT]);
    write_climate(LOOK, &climate_of(january), &mut climate, &mut out);
    accepted(&out, "write climate");
    climate[..out[2] as usize].to_vec()
}

fn make_block(fields: [u32; BLOCK_FIELDS]) -> Vec<u8> {
    let (mut block, mut out) = ([0; BLOCK], [0; OUT]);
    write_block(LOOK, &fields, &mut block, &mut out);
    accepted(&out, "write block");
    block[..out[2] as usize].to_vec()
}

fn print_bytes(name: &str, sheet: &[u8]) {
    println!("{name}: {} bytes", sheet.len());
    for bytes in sheet.chunks(16) {
        println!("{}", bytes.iter().map(|b| format!("{b:02X}")).collect::<Vec<_>>().join(" "));
    }
}

fn print_tables(climate: &[u8], blocks: &[Vec<u8>; 2]) {
    for (grower, block) in (1..).zip(blocks) {
        let (mut rows, mut out) = ([0; ROWS], [0; OUT]);
        table(LOOK, climate, block, &mut rows, &mut out);
        accepted(&out, "table");
        println!("table {grower}: {} row{}", out[2], if out[2] == 1 { "" } else { "s" });
        for row in rows.chunks(6).take(out[2] as usize) {
            println!("{}", row.iter().map(u32::to_string).collect::<Vec<_>>().join(" "));
        }
    }
}

fn main() {
    let (climate, blocks) = (make_climate(500), GROWERS.map(make_block));
    print_bytes("climate", &climate);
    print_bytes("block 1", &blocks[0]);
    print_bytes("block 2", &blocks[1]);
    print_tables(&climate, &blocks);
    println!("January's ETo set right");
    print_tables(&make_climate(600), &blocks);
    let (mut sheet, mut out) = ([0; CLIMATE], [0; OUT]);
    write_climate(LOOK, &climate_of(1_501), &mut sheet, &mut out);
    println!("ETo 1501: refused {} {}", out[0], out[1]);
    let short = blocks[0].len() - 1;
    write_block(LOOK, &GROWERS[0], &mut sheet[..short], &mut out);
    println!("{short} bytes: refused {} {}", out[0], out[1]);
    let mut fields = GROWERS[0];
    fields[1] = 32;
    write_block(LOOK, &fields, &mut sheet, &mut out);
    println!("day 32: refused {} {}", out[0], out[1]);
    write_block(4, &fields, &mut sheet, &mut out);
    println!("role 4: refused {} {}", out[0], out[1]);
}
