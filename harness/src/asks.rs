//! The calls as the library has them, `out` and a lent buffer written over what stood there: the plain implementation's
//! answers in that form, and what document 02, T-09 makes of role 3's answer for another role.
use crate::plain::{self, book::Call};
use crate::random::{Probes, Writer};
use crate::numbers;
use balladsky::Out;

/// A call, with what it is given beside role, sheets and area. Loss: Ky. Plan and table: how many numbers are lent.
#[derive(Clone, Copy, Debug)]
pub enum Ask { Open, Rain(u32), Irrigation(u32), Close, Loss(u32), Probe(Probes), Plan(usize), Table(usize) }

/// A role and what it asks.
pub type Asked = (u32, Ask);

/// The climate sheet and the block sheet.
pub type Pair<'a> = (&'a [u8], &'a [u8]);

/// `out` and the lent buffer.
pub type Answer = (Out, Vec<u32>);

/// `out` and the bytes lent to a writer.
pub type Made = (Out, Vec<u8>);

impl From<Call> for Ask {
    fn from(call: Call) -> Ask {
        match call {
            Call::Rain(v) => Ask::Rain(v),
            Call::Irrigation(v) => Ask::Irrigation(v),
            Call::Close => Ask::Close,
            Call::Open => Ask::Open,
        }
    }
}

impl Ask {
    /// Which of the calls on a pair of sheets it is, from 0.
    pub fn kind(self) -> usize {
        match self {
            Ask::Open => 0,
            Ask::Rain(_) => 1,
            Ask::Irrigation(_) => 2,
            Ask::Close => 3,
            Ask::Loss(_) => 4,
            Ask::Probe(_) => 5,
            Ask::Plan(_) => 6,
            Ask::Table(_) => 7,
        }
    }

    /// How many numbers are lent.
    pub fn lent(self) -> usize {
        match self {
            Ask::Plan(count) | Ask::Table(count) => count,
            _ => 0,
        }
    }

    /// What it takes.
    pub fn right(self) -> Right {
        match self {
            Ask::Open => Right::Mend,
            Ask::Rain(_) | Ask::Irrigation(_) | Ask::Close => Right::Record,
            _ => Right::Look,
        }
    }

    /// What `out` and the lent buffer hold before the call.
    pub fn before(self, noise: u32) -> Answer {
        (noisy(noise), (0..self.lent() as u32).map(|i| noise ^ i).collect())
    }
}

/// What `out` holds before a call.
pub fn noisy(noise: u32) -> Out {
    std::array::from_fn(|i| noise.wrapping_mul(i as u32 + 1))
}

pub fn by_plain((climate, block): Pair, area: &[u8], (role, ask): Asked, out: &mut Out, lent: &mut [u32]) {
    let numbers = match ask {
        Ask::Open => numbers::opened(plain::open(role, climate, block, area)),
        Ask::Rain(v) => numbers::recorded(plain::rain(role, climate, block, area, v)),
        Ask::Irrigation(v) => numbers::recorded(plain::irrigation(role, climate, block, area, v)),
        Ask::Close => numbers::recorded(plain::close(role, climate, block, area)),
        Ask::Loss(ky) => numbers::lost(plain::loss(role, climate, block, area, ky)),
        Ask::Probe(p) => numbers::probed(plain::probe(role, climate, block, area, p.shallow, p.deep, p.capacity)),
        Ask::Plan(_) => numbers::planned(plain::plan(role, climate, block, area, lent)),
        Ask::Table(_) => numbers::tabled(plain::table(role, climate, block, lent)),
    };
    out[..numbers.len()].copy_from_slice(&numbers);
}

pub fn written_by_plain(writer: Writer, role: u32, fields: &[u32], sheet: &mut [u8], out: &mut Out) {
    let numbers = numbers::written(writer.write(role, fields, sheet));
    out[..numbers.len()].copy_from_slice(&numbers);
}

/// What a call takes beside looking: an entry is recorded, and an opening's whole answer mends.
#[derive(Clone, Copy, PartialEq)]
pub enum Right { Look, Record, Mend }

/// Role 1 looks, 2 also records, 3 also receives mending stores.
fn rights(role: u32) -> &'static [Right] {
    match role {
        1 => &[Right::Look],
        2 => &[Right::Look, Right::Record],
        3 => &[Right::Look, Right::Record, Right::Mend],
        _ => &[],
    }
}

/// A role's answer, made of role 3's and of what stood there before: a refusal's two numbers and nothing else, an
/// opening without its stores, or the same.
pub fn by_rule<L: Clone>(role: u32, call: Right, third: &(Out, L), before: &(Out, L)) -> (Out, L) {
    let lacks = |right| !rights(role).contains(&right);
    let over = |answer: &(Out, L), from: usize, numbers: &[u32]| {
        let mut answer = answer.clone();
        answer.0[from..from + numbers.len()].copy_from_slice(numbers);
        answer
    };
    match call {
        _ if lacks(Right::Look) => over(before, 0, &[20, 0]),
        Right::Record if lacks(call) => over(before, 0, &[21, 0]),
        Right::Mend if lacks(call) && [0, 10].contains(&third.0[0]) => over(third, 20, &[0; 4]),
        _ => third.clone(),
    }
}
