//! A plain coder and decoder of the stream format, with no proofs and no code of the library: what the benchmark compares with.

/// A source of packed bits.
pub struct Bits<'a> {
    bytes: &'a [u8],
    count: usize,
    at: usize,
}

impl<'a> Bits<'a> {
    pub fn new(bytes: &'a [u8], count: usize) -> Self {
        Bits { bytes, count: count.min(bytes.len() * 8), at: 0 }
    }

    #[inline]
    fn next(&mut self) -> Option<bool> {
        if self.at >= self.count {
            return None;
        }
        let bit = self.bytes[self.at / 8] >> (7 - self.at % 8) & 1 == 1;
        self.at += 1;
        Some(bit)
    }

    fn number(&mut self, width: usize) -> Option<u32> {
        (0..width).try_fold(0, |value, _| Some(value * 2 + u32::from(self.next()?)))
    }
}

#[derive(Clone, Copy, PartialEq)]
enum Mark {
    Skipped,
    Significant,
    Root,
    Zero,
}

#[derive(Clone, Copy)]
struct Cell {
    low: u16,
    width: u16,
    negated: bool,
    mark: Mark,
    shaded: bool,
    heir: bool,
}

/// Loads a whole stream into a table; `Err` is the number of the refusal.
pub fn load(exponent: u32, bytes: &[u8], count: usize, table: &mut [i16]) -> Result<(), u32> {
    let places = 1usize << (2 * exponent);
    let mut bits = Bits::new(bytes, count);
    let (Some(side), Some(level)) = (bits.number(3), bits.number(4)) else { return Err(8) };
    if side != exponent {
        return Err(9);
    }
    let clear = Cell { low: 0, width: 0, negated: false, mark: Mark::Skipped, shaded: false, heir: false };
    let mut cells = [clear; 4096];
    let mut found = [0u16; 4096];
    let mut found_count = 0;
    let mut whole = level == 0;
    'passes: for j in (0..level).rev() {
        if bits.at == bits.count {
            break;
        }
        whole = false;
        for place in 0..places {
            let above = cells[place / 4];
            let cell = &mut cells[place];
            cell.mark = Mark::Skipped;
            cell.heir = false;
            cell.shaded = place > 0 && (above.shaded || above.mark == Mark::Root);
            if cell.shaded || cell.width > 0 {
                continue;
            }
            let (Some(first), Some(second)) = (bits.next(), bits.next()) else { break 'passes };
            match (first, second) {
                (true, negated) => {
                    cell.low = 1 << j;
                    cell.width = 1 << j;
                    cell.negated = negated;
                    cell.mark = Mark::Significant;
                    found[found_count] = place as u16;
                    found_count += 1;
                }
                (false, true) if 4 * place >= places => return Err(10),
                (false, true) => cell.mark = Mark::Root,
                (false, false) => cell.mark = Mark::Zero,
            }
        }
        if found_count == 0 {
            return Err(11);
        }
        let mut missed = false;
        for place in (1..places).rev() {
            let cell = cells[place];
            if cell.mark == Mark::Significant || cell.heir {
                cells[place / 4].heir = true;
            } else if cell.mark == Mark::Zero && 4 * place < places {
                missed = true;
            }
        }
        if missed || cells[0].mark == Mark::Zero && !cells[0].heir {
            return Err(12);
        }
        if j > 0 {
            for &place in &found[..found_count] {
                let Some(upper) = bits.next() else { break 'passes };
                let cell = &mut cells[place as usize];
                cell.width /= 2;
                if upper {
                    cell.low += cell.width;
                }
            }
        }
        whole = true;
    }
    if whole && bits.at < bits.count {
        return Err(13);
    }
    if !whole {
        return Err(14);
    }
    for (row, cell) in table[..places].iter_mut().zip(&cells) {
        let magnitude = (cell.low + cell.width / 2) as i16;
        *row = if cell.negated { -magnitude } else { magnitude };
    }
    Ok(())
}

/// The stream of a table at floor 1, packed, and its count of bits.
pub fn stream(exponent: u32, table: &[i16]) -> (Vec<u8>, usize) {
    let places = 1usize << (2 * exponent);
    let magnitude = |p: usize| i32::from(table[p]).unsigned_abs();
    let level = (0..places).map(|p| 32 - magnitude(p).leading_zeros()).max().unwrap_or(0);
    let mut bits: Vec<bool> = Vec::new();
    for i in (0..3).rev() {
        bits.push(exponent >> i & 1 == 1);
    }
    for i in (0..4).rev() {
        bits.push(level >> i & 1 == 1);
    }
    let mut found: Vec<usize> = Vec::new();
    for j in (0..level).rev() {
        let threshold = 1u32 << j;
        let fresh = |p: usize| magnitude(p) >= threshold && magnitude(p) < 2 * threshold;
        let mut heir = vec![false; places];
        for p in (1..places).rev() {
            if fresh(p) || heir[p] {
                heir[p / 4] = true;
            }
        }
        let mut covers = vec![false; places];
        for p in 0..places {
            let shaded = p > 0 && covers[p / 4];
            let early = magnitude(p) >= 2 * threshold;
            let root = !early && !fresh(p) && 4 * p < places && !heir[p];
            covers[p] = shaded || root;
            if shaded || early {
                continue;
            }
            if fresh(p) {
                bits.extend([true, table[p] < 0]);
                found.push(p);
            } else {
                bits.extend([false, root]);
            }
        }
        if j > 0 {
            bits.extend(found.iter().map(|&p| magnitude(p) >> (j - 1) & 1 == 1));
        }
    }
    let mut bytes = vec![0u8; bits.len().div_ceil(8)];
    for (i, &bit) in bits.iter().enumerate() {
        bytes[i / 8] |= u8::from(bit) << (7 - i % 8);
    }
    (bytes, bits.len())
}
