//! Lists as they are lent: each at an address of its own, odd ones too, between bytes that must stay.
use oracle::random::Random;
use std::ptr::null_mut;

/// How many bytes stand before and past a lent list at the least.
const MARGIN: usize = 24;

/// A list as it is lent.
#[derive(Default)]
pub struct Lent {
    /// The list with what stands around it.
    bytes: Vec<u8>,
    at: usize,
    pub len: usize,
    /// Lent as NULL; only where it is empty.
    pub null: bool,
    /// What must stand there after the call.
    want: Vec<u8>,
}

impl Lent {
    pub fn new(g: &mut Random, len: usize) -> Lent {
        let bytes: Vec<u8> = (0..len + 2 * MARGIN + 8).map(|_| g.word() as u8).collect();
        // any of the eight places of an address within eight
        let at = MARGIN + g.place(8);
        Lent {
            want: bytes.clone(),
            bytes,
            at,
            len,
            null: len == 0 && g.coin(),
        }
    }

    pub fn holding(g: &mut Random, content: &[u8]) -> Lent {
        let mut lent = Lent::new(g, content.len());
        let end = lent.at + content.len();
        lent.bytes[lent.at..end].copy_from_slice(content);
        lent.want = lent.bytes.clone();
        lent
    }

    /// Holding floats, and so many bytes more, or less where that is below 0.
    pub fn floats(g: &mut Random, floats: &[f64], more: i64) -> Lent {
        let mut bytes: Vec<u8> = floats
            .iter()
            .flat_map(|x| x.to_bits().to_le_bytes())
            .collect();
        resize(&mut bytes, more);
        Lent::holding(g, &bytes)
    }

    pub fn ptr(&mut self) -> *mut u8 {
        if self.null {
            null_mut()
        } else {
            self.bytes[self.at..].as_mut_ptr()
        }
    }

    pub fn is_odd(&self) -> bool {
        self.bytes[self.at..].as_ptr() as usize % 2 == 1
    }

    /// Word k of the list must be this afterwards.
    pub fn put(&mut self, k: usize, word: u64) {
        let at = self.at + 8 * k;
        self.want[at..at + 8].copy_from_slice(&word.to_le_bytes());
    }

    /// The first words of the list.
    pub fn words(&self, count: usize) -> Vec<u64> {
        let bytes = &self.bytes[self.at..self.at + 8 * count];
        let words = bytes.chunks_exact(8);
        words
            .map(|b| u64::from_le_bytes(b.try_into().unwrap()))
            .collect()
    }

    pub fn is_as_wanted(&self) -> bool {
        self.bytes == self.want
    }
}

/// So many bytes longer, or shorter where that is below 0.
pub fn resize(bytes: &mut Vec<u8>, more: i64) {
    let len = (bytes.len() as i64 + more).max(0);
    bytes.resize(len as usize, 0);
}

pub fn flag(g: &mut Random, on: bool) -> u8 {
    if on {
        g.pick(&[1, 1, 2, 0x80, 0xff])
    } else {
        0
    }
}
