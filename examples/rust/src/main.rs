//! A season of four days on the small pair of sheets, with two power cuts. Firmware opens as role 3, role 2 records,
//! and role 1 looks at the panel and presses the wrong key. Prints the decade table, the plans of four such blocks on
//! one pump, what the soil probes say on day 3, the ledger and the lost yield.
use balladsky::{bank, close, irrigation, loss, open, plan, probe, rain, table};
use balladsky::{Out, Probe, ACCEPTED, ANSWERS, DEPTHS, LOOK, MEND, OUT, RECORD, ROWS, TORN};

/// ETo 500 and eleven 0; rain twelve 0.
const CLIMATE: [u8; 25] = [0xf4, 3, 0, 0, 0, 0, 0, 0, 0, 0, 0, 0, 0, 0, 0, 0, 0, 0, 0, 0, 0, 0, 0, 0, 0];

/// 1 9; 1 1 1 1; 40 100 60; 100 20 20 50; 75; 0; turns 127.
const BLOCK: [u8; 16] = [1, 9, 1, 1, 1, 1, 40, 100, 60, 100, 20, 20, 50, 75, 0, 127];

/// Blocks on one pump, bytes of each one's journal, and numbers of its part of the depths, a day more than the season
/// has.
const BLOCKS: usize = 4;
const JOURNAL: usize = 8;
const PART: usize = 5;

/// "1 watering", "2 waterings".
fn counted(waterings: u32) -> String {
    format!("{waterings} watering{}", if waterings == 1 { "" } else { "s" })
}

type EntryCall = fn(u32, &[u8], &[u8], &[u8], u32, &mut Out);

struct Firmware {
    area: [u8; 64],
    out: Out,
}

impl Firmware {
    /// The first `done` stores of an entry, lowest place first.
    fn store(&mut self, done: u32) {
        for i in 0..done as usize {
            self.area[self.out[2] as usize + i] = self.out[4 + i] as u8;
        }
    }

    fn accepted(&self, what: &str) {
        assert_eq!(self.out[0], ACCEPTED, "{what}: refused {} {}", self.out[0], self.out[1]);
    }

    /// Six numbers a row.
    fn print_table(&mut self) {
        let mut rows = [0; ROWS];
        table(LOOK, &CLIMATE, &BLOCK, &mut rows, &mut self.out);
        self.accepted("table");
        let count = self.out[2] as usize;
        println!("table: {count} row{}", if count == 1 { "" } else { "s" });
        for row in rows.chunks(6).take(count) {
            println!("{} {} {} {} {} {}", row[0], row[1], row[2], row[3], row[4], row[5]);
        }
    }

    /// Four blocks with this sheet and blank journals, on a pump that feeds so many valves a day. What a part holds
    /// beside its depths is 7.
    fn print_bank(&mut self, limit: u32) {
        let lengths = [BLOCK.len() as u32, JOURNAL as u32, PART as u32].repeat(BLOCKS);
        let (sheets, areas) = (BLOCK.repeat(BLOCKS), [0xff; BLOCKS * JOURNAL]);
        let (mut depths, mut answers) = ([7; BLOCKS * PART], [0; ANSWERS]);
        bank(
            LOOK, &CLIMATE, BLOCKS as u32, limit, &lengths, &sheets, &areas, &mut depths, &mut answers, &mut self.out,
        );
        self.accepted("bank");
        println!("bank: {BLOCKS} blocks, {limit} valve{} a day", if limit == 1 { "" } else { "s" });
        for (k, (answer, part)) in (1..).zip(answers.chunks(5).zip(depths.chunks(PART))) {
            match *answer {
                [ACCEPTED, _, waterings, net, gross] => {
                    print!("block {k}: {}, net {net}, gross {gross}, depths", counted(waterings))
                }
                _ => print!("block {k}: refused {} {}, depths", answer[0], answer[1]),
            }
            part.iter().for_each(|depth| print!(" {depth}"));
            println!();
        }
    }

    /// Opens as a role. Only role 3 is told places to mend.
    fn open_as(&mut self, role: u32) {
        open(role, &CLIMATE, &BLOCK, &self.area, &mut self.out);
        if self.out[0] == TORN {
            println!("role {role} opens: torn at {}, {} to mend", self.out[1], self.out[20]);
        } else {
            self.accepted("open");
            println!("role {role} opens: clean");
        }
    }

    /// What firmware does when it comes up, whoever stands at the panel: open as role 3, and do the stores that mend
    /// what a cut left.
    fn come_up(&mut self) {
        self.open_as(MEND);
        for place in &self.out[21..][..self.out[20] as usize] {
            self.area[*place as usize] = 0xff;
            println!("place {place} mended");
        }
    }

    /// The rain key, pressed by a role that may not record.
    fn press_rain(&mut self, role: u32, amount: u32) {
        rain(role, &CLIMATE, &BLOCK, &self.area, amount, &mut self.out);
        println!("role {role} presses rain {amount}: refused {} {}", self.out[0], self.out[1]);
    }

    /// Enters water; the power goes after `cut` stores, and it is entered again.
    fn enter_with_cut(&mut self, name: &str, call: EntryCall, amount: u32, cut: u32) {
        call(RECORD, &CLIMATE, &BLOCK, &self.area, amount, &mut self.out);
        self.accepted(name);
        println!("{name} {amount}: power cut after {cut} of {} stores", self.out[3]);
        self.store(cut);
        self.open_as(LOOK);
        self.come_up();
        call(RECORD, &CLIMATE, &BLOCK, &self.area, amount, &mut self.out);
        self.accepted(name);
        println!("{name} {amount}: {} stores from {}", self.out[3], self.out[2]);
        self.store(self.out[3]);
    }

    fn close_day(&mut self, day: u32) {
        close(RECORD, &CLIMATE, &BLOCK, &self.area, &mut self.out);
        self.accepted("close");
        self.store(self.out[3]);
        println!("day {day} closed");
    }

    /// The ledger's depletion beside the measured one, in a soil whose field capacity is 0.3 of its volume.
    fn print_probes(&mut self, what: &str, shallow: Probe, deep: Probe) {
        probe(LOOK, &CLIMATE, &BLOCK, &self.area, shallow, deep, 3_000, &mut self.out);
        match self.out {
            [ACCEPTED, _, ledger, measured, ..] => println!("probes, {what}: ledger {ledger}, measured {measured}"),
            [number, value, ..] => println!("probes, {what}: refused {number} {value}"),
        }
    }

    fn print_ledger(&mut self) {
        open(LOOK, &CLIMATE, &BLOCK, &self.area, &mut self.out);
        self.accepted("open");
        let names = [
            "open day", "depletion", "waiting rain", "waiting irrigation", "season rain", "season irrigation",
            "season use", "season percolation", "place", "season need",
        ];
        for (name, value) in names.iter().zip(&self.out[2..]) {
            println!("{name} {value}");
        }
        for (stage, sums) in ["initial", "development", "mid", "late"].iter().zip(self.out[12..20].chunks(2)) {
            println!("{stage} need {}, use {}", sums[0], sums[1]);
        }
    }

    /// The season's and the four stages', in ten-thousandths.
    fn print_loss(&mut self, ky: u32) {
        loss(LOOK, &CLIMATE, &BLOCK, &self.area, ky, &mut self.out);
        self.accepted("loss");
        let [_, _, season, initial, development, mid, late, ..] = self.out;
        println!("loss with Ky {ky}: season {season}, stages {initial} {development} {mid} {late}");
    }
}

fn main() {
    let mut f = Firmware { area: [0xff; 64], out: [0; OUT] };
    let mut depths = [0; DEPTHS];
    f.come_up();
    f.print_table();
    f.print_bank(1);
    f.press_rain(LOOK, 300);
    f.enter_with_cut("rain", rain, 300, 2);
    f.close_day(1);
    f.close_day(2);
    f.print_probes("both", Probe::Water(0.25), Probe::Water(0.28125));
    f.print_probes("shallow low", Probe::Low(2.9), Probe::Water(0.28125));
    f.print_probes("both silent", Probe::Silent, Probe::Silent);
    f.print_probes("shallow NaN", Probe::Water(f32::from_bits(0x7fc0_0000)), Probe::Water(0.28125));
    plan(LOOK, &CLIMATE, &BLOCK, &f.area, &mut depths, &mut f.out);
    f.accepted("plan");
    println!("plan: {}, net {}, gross {}", counted(f.out[2]), f.out[3], f.out[4]);
    f.enter_with_cut("irrigation", irrigation, depths[0], 1);
    f.close_day(3);
    f.close_day(4);
    f.print_ledger();
    f.print_loss(100);
}
