//! What a caller lends and asks.

/// What stands in for a curvature that isn't above 0, in the published text.
pub use linfa_svm::floor::USUAL as USUAL_FLOOR;

/// The largest magnitude of a kernel entry or a ceiling, 2^1000.
pub const LIMIT: f64 = 1.0715086071862673e301;
pub const LIMIT_BITS: u64 = 0x7e70_0000_0000_0000;

/// A weight is support where its magnitude is above this, 100·2^-52.
pub const SUPPORT_LIMIT: f64 = 2.220446049250313e-14;
pub const SUPPORT_LIMIT_BITS: u64 = 0x3d19_0000_0000_0000;

/// The largest n that is accepted.
pub const MOST_SAMPLES: u64 = 512;

/// The largest budget that is accepted.
pub const MOST_PASSES: u64 = 10_000_000;

/// The largest number of a refusal.
pub const LAST_REFUSAL: u64 = 14;

/// The refusal of a floor, which came last. It is judged ahead of 12 and 13.
pub const BAD_FLOOR: u64 = 14;

/// Every refusal but 11, in the order in which they are judged.
const JUDGED: [u64; 13] = [1, 2, 3, 4, 5, 6, 7, 8, 9, 10, BAD_FLOOR, 12, 13];

/// Which of the five calls is made.
#[derive(Clone, Copy, Debug, PartialEq, Eq)]
pub enum Entry {
    General,
    C,
    Nu,
    OneClass,
    Retired,
}

impl Entry {
    pub const ALL: [Entry; 5] = [
        Entry::General,
        Entry::C,
        Entry::Nu,
        Entry::OneClass,
        Entry::Retired,
    ];

    /// Those that `draw` draws. The retired entry has a draw of its own, so
    /// that a seed means what it always did.
    pub const DRAWN: [Entry; 4] = [Entry::General, Entry::C, Entry::Nu, Entry::OneClass];

    /// Those that with shrinking off train without an order table.
    pub const STILL: [Entry; 3] = [Entry::C, Entry::Nu, Entry::OneClass];

    /// The entry's number in a record.
    pub fn number(self) -> u64 {
        self as u64
    }

    pub fn from_number(number: u64) -> Option<Entry> {
        Entry::ALL.get(usize::try_from(number).ok()?).copied()
    }

    pub fn name(self) -> &'static str {
        match self {
            Entry::General => "general",
            Entry::C => "C",
            Entry::Nu => "nu",
            Entry::OneClass => "one-class",
            Entry::Retired => "retired",
        }
    }

    pub fn has_labels(self) -> bool {
        self != Entry::OneClass
    }

    /// Whether ceilings, start alphas and linear terms are lent to it.
    pub fn has_lists(self) -> bool {
        matches!(self, Entry::General | Entry::Retired)
    }

    /// Whether this entry can answer with the refusal of that number.
    pub fn can_refuse(self, number: u64) -> bool {
        match number {
            1..=3 | 8 | 10 | BAD_FLOOR => true,
            4 => self.has_labels(),
            5 => self.has_lists() || self == Entry::C,
            6 | 7 => self.has_lists(),
            9 => matches!(self, Entry::Nu | Entry::OneClass),
            11 => self != Entry::Retired,
            12 | 13 => self == Entry::Retired,
            _ => false,
        }
    }

    /// The refusals that it can give before anything runs, in their order.
    pub fn judged(self) -> impl Iterator<Item = u64> {
        JUDGED.into_iter().filter(move |k| self.can_refuse(*k))
    }
}

/// One call with all that is lent to it. Fields that its entry doesn't take
/// are empty or zero, and nothing looks at them.
///
/// Only the lengths of the result lists and of the scratch are here: a run
/// doesn't read what stands in them.
#[derive(Clone, Debug)]
pub struct Problem {
    pub entry: Entry,
    pub n: u64,
    /// The f64 of column c, row r in the eight bytes from 8·(c·n + r), lowest
    /// byte first.
    pub matrix: Vec<u8>,
    /// 1 positive, 0 negative. All entries but one-class.
    pub labels: Vec<u8>,
    /// General and retired entries alone, as are the next three.
    pub ceilings: Vec<f64>,
    pub alphas: Vec<f64>,
    pub linear: Vec<f64>,
    pub nu_rule: bool,
    /// 1 retired, 0 not. Retired entry.
    pub retired: Vec<u8>,
    /// Ceiling of the positive samples. C entry.
    pub cpos: f64,
    /// Ceiling of the negative samples. C entry.
    pub cneg: f64,
    /// Nu and one-class entries.
    pub nu: f64,
    pub eps: f64,
    pub shrinking: bool,
    pub budget: u64,
    /// What stands in for a curvature that isn't above 0.
    pub floor: f64,
    /// Whether a sample's ceiling moves with it. In the published text it stays
    /// with the place.
    pub travelling: bool,
    pub crate_len: u64,
    pub home_len: u64,
    pub scratch_floats: u64,
    pub scratch_numbers: u64,
    pub scratch_bytes: u64,
}

impl Problem {
    /// A problem over the matrix of n columns, with every result list and
    /// scratch list exactly as long as it must be, the usual floor, the published mode
    /// and no label, ceiling or parameter yet.
    pub fn over(entry: Entry, n: usize, entries: &[f64]) -> Problem {
        let mut p = Problem {
            entry,
            n: n as u64,
            matrix: entries.iter().flat_map(|x| x.to_le_bytes()).collect(),
            labels: Vec::new(),
            ceilings: Vec::new(),
            alphas: Vec::new(),
            linear: Vec::new(),
            nu_rule: false,
            retired: Vec::new(),
            cpos: 0.0,
            cneg: 0.0,
            nu: 0.0,
            eps: 0.0,
            shrinking: false,
            budget: 1,
            floor: USUAL_FLOOR,
            travelling: false,
            crate_len: 0,
            home_len: 0,
            scratch_floats: 0,
            scratch_numbers: 0,
            scratch_bytes: 0,
        };
        p.lend_exactly();
        p
    }

    /// Makes the result lists and the scratch as long as n asks, no longer.
    pub fn lend_exactly(&mut self) {
        self.crate_len = self.n;
        self.home_len = self.n;
        self.scratch_floats = self.n.saturating_mul(7);
        self.scratch_numbers = self.n.saturating_mul(2);
        self.scratch_bytes = self.n;
    }

    /// The eight-byte patterns of the matrix. Bytes that don't fill a last
    /// eight are passed over.
    pub fn patterns(&self) -> impl Iterator<Item = u64> + '_ {
        self.matrix
            .chunks_exact(8)
            .map(|b| u64::from_le_bytes(b.try_into().unwrap()))
    }

    /// The matrix entries, in the order in which they are lent.
    pub fn entries(&self) -> Vec<f64> {
        self.patterns().map(f64::from_bits).collect()
    }

    /// Puts a pattern in place of matrix entry k.
    pub fn set_pattern(&mut self, k: usize, pattern: u64) {
        self.matrix[8 * k..8 * k + 8].copy_from_slice(&pattern.to_le_bytes());
    }
}

#[cfg(test)]
mod tests {
    use super::*;

    #[test]
    fn a_limit_is_written_as_its_pattern() {
        assert_eq!(SUPPORT_LIMIT.to_bits(), SUPPORT_LIMIT_BITS);
        assert_eq!(SUPPORT_LIMIT, 100.0 / 4_503_599_627_370_496.0);
        let next_door = [crate::draw::SHORT_OF_SUPPORT, crate::draw::PAST_SUPPORT];
        let patterns = [SUPPORT_LIMIT_BITS - 1, SUPPORT_LIMIT_BITS + 1];
        assert_eq!(next_door.map(f64::to_bits), patterns);
        assert_eq!(LIMIT.to_bits(), LIMIT_BITS);
        assert_eq!(crate::draw::PAST_LIMIT.to_bits(), LIMIT_BITS + 1);
        assert_eq!(crate::draw::PAST_ONE.to_bits(), 1.0_f64.to_bits() + 1);
    }
}
