//! Banks, blocks planned on one pump: what the call is given, and the plain implementation's answer in the library's
//! form, over what stood there.
use crate::asks::noisy;
use crate::plain::{self, ANSWERS};
use balladsky::Out;

/// A block: its sheet, its journal, and how many depths its part has.
#[derive(Clone, Debug)]
pub struct Block { pub sheet: Vec<u8>, pub area: Vec<u8>, pub room: usize }

/// What the call is given beside the role; so many depths are lent.
#[derive(Clone, Debug)]
pub struct Bank {
    pub climate: Vec<u8>, pub blocks: u32, pub limit: u32, pub lengths: Vec<u32>, pub sheets: Vec<u8>,
    pub areas: Vec<u8>, pub depths: usize,
}

/// `out`, and the lent depths and answers.
pub type Banked = (Out, (Vec<u32>, Vec<u32>));

impl Bank {
    /// Blocks end to end, and nothing behind them.
    pub fn of(climate: &[u8], limit: u32, blocks: &[Block]) -> Bank {
        let lengths = |b: &Block| [b.sheet.len() as u32, b.area.len() as u32, b.room as u32];
        Bank {
            climate: climate.to_vec(), blocks: blocks.len() as u32, limit,
            lengths: blocks.iter().flat_map(lengths).collect(),
            sheets: blocks.iter().flat_map(|b| b.sheet.clone()).collect(),
            areas: blocks.iter().flat_map(|b| b.area.clone()).collect(),
            depths: blocks.iter().map(|b| b.room).sum(),
        }
    }

    /// The blocks again, and where each one's part of the depths starts; none where their lengths are refused.
    pub fn parts(&self) -> Option<Vec<(Block, usize)>> {
        let (mut sheet, mut area, mut depth, mut parts) = (0, 0, 0, Vec::new());
        for k in 0..self.blocks as usize {
            let [s, a, d] = [0, 1, 2].map(|i| self.lengths.get(3 * k + i).map(|&length| length as usize));
            let (s, a, room) = (s?, a?, d?);
            let (own_sheet, own_area) = (self.sheets.get(sheet..sheet + s)?, self.areas.get(area..area + a)?);
            parts.push((Block { sheet: own_sheet.to_vec(), area: own_area.to_vec(), room }, depth));
            (sheet, area, depth) = (sheet + s, area + a, depth + room);
        }
        (depth <= self.depths).then_some(parts)
    }

    /// What `out` and the lent buffers hold before the call.
    pub fn before(&self, noise: u32) -> Banked {
        let depths = (0..self.depths as u32).map(|i| noise ^ i).collect();
        (noisy(noise), (depths, (0..ANSWERS as u32).map(|i| noise.wrapping_add(7 * i)).collect()))
    }
}

pub fn by_plain(b: &Bank, role: u32, (out, (depths, answers)): &mut Banked) {
    let answers: &mut [u32; ANSWERS] = answers.as_mut_slice().try_into().unwrap();
    let v = plain::bank(role, &b.climate, b.blocks, b.limit, &b.lengths, &b.sheets, &b.areas, depths, answers);
    out[..2].copy_from_slice(&[v.number, v.value as u32]);
}
