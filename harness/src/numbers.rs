//! The numbers that the exported calls write to `out`, made of the plain implementation's answers: the refusal's number,
//! the number returned with it, then the answer.
use crate::plain::{Ledger, Lost, Opened, Opening, Planned, Probed, Recorded, Tabled, Written};

fn found(number: u32, place: usize, l: Ledger) -> Vec<u32> {
    let depths = [l.day, l.depletion, l.waiting_rain, l.waiting_irrigation, l.rain, l.irrigation, l.used, l.percolation];
    let stages = l.stages.map(|s| [s.need, s.used]);
    [&[number, place as u32][..], &depths, &[l.place as u32, l.need], stages.as_flattened()].concat()
}

/// Where there is a ledger, how many places to set to FF, and three places.
pub fn opened(o: Opened) -> Vec<u32> {
    let mut numbers = match o.opening {
        Opening::Clean(l) => found(0, 0, l),
        Opening::Torn(l, place) => found(10, place, l),
        Opening::Refused(number, value) => return vec![number, value as u32],
    };
    numbers.push(o.count as u32);
    numbers.extend(o.places.map(|p| p as u32));
    numbers
}

/// A refusal's two numbers, or the answer behind 0 and 0.
fn answered(number: u32, value: usize, answer: &[u32]) -> Vec<u32> {
    match number {
        0 => [&[0, 0], answer].concat(),
        _ => vec![number, value as u32],
    }
}

pub fn recorded(r: Recorded) -> Vec<u32> {
    let [a, b, c, d] = r.bytes.map(u32::from);
    answered(r.number, r.value, &[r.start as u32, r.count as u32, a, b, c, d])
}

pub fn lost(l: Lost) -> Vec<u32> {
    let [a, b, c, d] = l.stages;
    answered(l.number, l.value, &[l.season, a, b, c, d])
}

pub fn probed(p: Probed) -> Vec<u32> {
    answered(p.number, p.value, &[p.depletion, p.measured])
}

pub fn planned(p: Planned) -> Vec<u32> {
    answered(p.number, p.value, &[p.waterings, p.net, p.gross])
}

pub fn tabled(t: Tabled) -> Vec<u32> {
    answered(t.number, t.value, &[t.rows as u32])
}

pub fn written(w: Written) -> Vec<u32> {
    answered(w.number, w.value, &[w.bytes as u32])
}
