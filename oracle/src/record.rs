//! The file of recorded answers. Its layout is told in `recorded/README.md`.

use crate::draw::{draw, draw_big, draw_faint, draw_retired, draw_still};
use crate::judge::judge;
use crate::marks::{names, Owed, Tally};
use crate::problem::{Entry, Problem, USUAL_FLOOR};
use crate::run::{canonical, solve, Answer, Outcome, Reason};
use crate::worked;

pub const MAGIC: [u8; 8] = *b"ALTUORC1";

/// A whole trace is recorded where it has at most this many passes.
pub const TRACED: u64 = 16;

/// No recorded run takes more passes than this.
pub const MOST_RECORDED_PASSES: u64 = 5000;

/// An answer as it stands in a record: words, with NaN as one pattern.
#[derive(Clone, Debug, Default, PartialEq, Eq)]
pub struct Told {
    /// 0 where accepted.
    pub refusal: u64,
    pub index: u64,
    pub rho: u64,
    pub r_present: u64,
    pub r: u64,
    pub obj: u64,
    pub iterations: u64,
    /// 0 threshold, 1 iterations.
    pub reason: u64,
    pub support: u64,
    pub zero_pair: u64,
    pub crate_reading: Vec<u64>,
    pub home: Vec<u64>,
    pub order: Vec<u64>,
    pub weights: Vec<u64>,
    /// i, j, weight i, weight j of each pass.
    pub trace: Vec<[u64; 4]>,
}

impl Told {
    /// Panics where the oracle itself failed: that must not be recorded.
    pub fn of(answer: &Answer) -> Told {
        let words = |list: &[f64]| list.iter().map(|x| canonical(*x)).collect();
        let mut told = Told {
            zero_pair: u64::from(answer.zero_pair),
            ..Told::default()
        };
        match &answer.outcome {
            Outcome::Fault(message) => panic!("the oracle itself failed: {message}"),
            Outcome::Refused(r) => {
                told.refusal = r.number;
                told.index = r.index;
            }
            Outcome::Accepted(a) => {
                told.rho = canonical(a.rho);
                told.r_present = u64::from(a.r.is_some());
                told.r = a.r.map_or(0, canonical);
                told.obj = canonical(a.obj);
                told.iterations = a.iterations;
                told.reason = u64::from(a.reason == Reason::Iterations);
                told.support = a.support;
                told.crate_reading = words(&a.crate_reading);
                told.home = words(&a.home);
                told.order = a.order.iter().map(|s| *s as u64).collect();
                told.weights = words(&a.weights);
                if a.iterations <= TRACED {
                    assert_eq!(a.trace.len() as u64, a.iterations, "the trace is missing");
                    told.trace = a
                        .trace
                        .iter()
                        .map(|s| {
                            let weights = [canonical(s.weight_i), canonical(s.weight_j)];
                            [s.i as u64, s.j as u64, weights[0], weights[1]]
                        })
                        .collect();
                }
            }
        }
        told
    }
}

/// A record as it is read back.
#[derive(Clone, Debug)]
pub struct Record {
    pub problem: Problem,
    pub told: Told,
}

// ---- writing

fn put(out: &mut Vec<u8>, word: u64) {
    out.extend(word.to_le_bytes());
}

/// Bytes, then zeros up to the next multiple of eight.
fn put_bytes(out: &mut Vec<u8>, bytes: &[u8]) {
    out.extend(bytes);
    out.resize((out.len() + 7) / 8 * 8, 0);
}

/// One signed byte for each entry, where every entry is a whole number from
/// -128 to 127 and none is -0.
fn compact(p: &Problem) -> Option<Vec<u8>> {
    if p.matrix.is_empty() || p.matrix.len() % 8 != 0 {
        return None;
    }
    p.patterns()
        .map(|pattern| {
            let small = f64::from_bits(pattern) as i8;
            (f64::from(small).to_bits() == pattern).then_some(small as u8)
        })
        .collect()
}

/// One record: problem and answer. It has no place for a floor: it is read back
/// with the usual one.
pub fn record(p: &Problem, told: &Told) -> Vec<u8> {
    let mut out = Vec::new();
    let compact = compact(p);
    let (form, stored) = match &compact {
        Some(bytes) => (1, bytes.as_slice()),
        None => (0, p.matrix.as_slice()),
    };
    for word in [
        0, // the record's length, put in at the end
        p.entry.number(),
        p.n,
        u64::from(p.nu_rule) + 2 * u64::from(p.shrinking),
        p.budget,
        p.eps.to_bits(),
        p.cpos.to_bits(),
        p.cneg.to_bits(),
        p.nu.to_bits(),
        p.matrix.len() as u64,
        p.labels.len() as u64,
        p.ceilings.len() as u64,
        p.alphas.len() as u64,
        p.linear.len() as u64,
        p.crate_len,
        p.home_len,
        p.scratch_floats,
        p.scratch_numbers,
        p.scratch_bytes,
        form,
    ] {
        put(&mut out, word);
    }
    put_bytes(&mut out, stored);
    put_bytes(&mut out, &p.labels);
    for list in [&p.ceilings, &p.alphas, &p.linear] {
        for x in list {
            put(&mut out, x.to_bits());
        }
    }
    if p.entry == Entry::Retired {
        put(&mut out, p.retired.len() as u64);
        put_bytes(&mut out, &p.retired);
    }
    for word in [
        told.refusal,
        told.index,
        told.rho,
        told.r_present,
        told.r,
        told.obj,
        told.iterations,
        told.reason,
        told.support,
        told.zero_pair,
    ] {
        put(&mut out, word);
    }
    for list in [&told.crate_reading, &told.home, &told.order, &told.weights] {
        for word in list {
            put(&mut out, *word);
        }
    }
    put(&mut out, told.trace.len() as u64);
    for word in told.trace.iter().flatten() {
        put(&mut out, *word);
    }
    let length = out.len() as u64;
    out[..8].copy_from_slice(&length.to_le_bytes());
    out
}

/// The whole file out of its records.
pub fn file(records: &[Vec<u8>]) -> Vec<u8> {
    let mut out = MAGIC.to_vec();
    put(&mut out, records.len() as u64);
    for r in records {
        out.extend(r);
    }
    out
}

// ---- reading

struct Reader<'a> {
    bytes: &'a [u8],
    at: usize,
}

impl<'a> Reader<'a> {
    fn take(&mut self, len: usize) -> Result<&'a [u8], String> {
        let end = self.at.checked_add(len).filter(|e| *e <= self.bytes.len());
        let end = end.ok_or_else(|| format!("the file ends before byte {} + {len}", self.at))?;
        let part = &self.bytes[self.at..end];
        self.at = end;
        Ok(part)
    }

    fn word(&mut self) -> Result<u64, String> {
        Ok(u64::from_le_bytes(self.take(8)?.try_into().unwrap()))
    }

    fn count(&mut self) -> Result<usize, String> {
        usize::try_from(self.word()?).map_err(|e| e.to_string())
    }

    fn padded(&mut self, len: usize) -> Result<&'a [u8], String> {
        let all = self.take(len.checked_add(7).ok_or("a length wraps")? / 8 * 8)?;
        if all[len..].iter().any(|b| *b != 0) {
            return Err(format!("padding isn't zero before byte {}", self.at));
        }
        Ok(&all[..len])
    }

    fn words(&mut self, len: usize) -> Result<Vec<u64>, String> {
        (0..len).map(|_| self.word()).collect()
    }

    fn floats(&mut self, len: usize) -> Result<Vec<f64>, String> {
        Ok(self.words(len)?.into_iter().map(f64::from_bits).collect())
    }
}

fn read_one(r: &mut Reader) -> Result<Record, String> {
    let start = r.at;
    let length = r.count()?;
    let entry = Entry::from_number(r.word()?).ok_or("an entry of no such number")?;
    let mut problem = Problem::over(entry, 0, &[]);
    problem.n = r.word()?;
    let flags = r.word()?;
    if flags > 3 {
        return Err(format!("unknown flags {flags}"));
    }
    problem.nu_rule = flags & 1 != 0;
    problem.shrinking = flags & 2 != 0;
    problem.budget = r.word()?;
    problem.eps = f64::from_bits(r.word()?);
    problem.cpos = f64::from_bits(r.word()?);
    problem.cneg = f64::from_bits(r.word()?);
    problem.nu = f64::from_bits(r.word()?);
    let [matrix, labels, ceilings, alphas, linear] =
        [r.count()?, r.count()?, r.count()?, r.count()?, r.count()?];
    problem.crate_len = r.word()?;
    problem.home_len = r.word()?;
    problem.scratch_floats = r.word()?;
    problem.scratch_numbers = r.word()?;
    problem.scratch_bytes = r.word()?;
    problem.matrix = match r.word()? {
        0 => r.padded(matrix)?.to_vec(),
        1 => r
            .padded(matrix / 8)?
            .iter()
            .flat_map(|b| f64::from(*b as i8).to_le_bytes())
            .collect(),
        form => return Err(format!("unknown matrix form {form}")),
    };
    problem.labels = r.padded(labels)?.to_vec();
    problem.ceilings = r.floats(ceilings)?;
    problem.alphas = r.floats(alphas)?;
    problem.linear = r.floats(linear)?;
    if entry == Entry::Retired {
        let retired = r.count()?;
        problem.retired = r.padded(retired)?.to_vec();
    }

    let mut told = Told {
        refusal: r.word()?,
        index: r.word()?,
        rho: r.word()?,
        r_present: r.word()?,
        r: r.word()?,
        obj: r.word()?,
        iterations: r.word()?,
        reason: r.word()?,
        support: r.word()?,
        zero_pair: r.word()?,
        ..Told::default()
    };
    if told.refusal == 0 {
        let n = usize::try_from(problem.n).map_err(|e| e.to_string())?;
        told.crate_reading = r.words(n)?;
        told.home = r.words(n)?;
        told.order = r.words(n)?;
        told.weights = r.words(n)?;
    }
    for _ in 0..r.count()? {
        told.trace
            .push([r.word()?, r.word()?, r.word()?, r.word()?]);
    }
    if r.at - start != length {
        return Err(format!(
            "the record at byte {start} has {} bytes and says {length}",
            r.at - start
        ));
    }
    Ok(Record { problem, told })
}

/// Every record of the file.
pub fn read(bytes: &[u8]) -> Result<Vec<Record>, String> {
    let mut r = Reader { bytes, at: 0 };
    if r.take(8)? != MAGIC {
        return Err("this isn't a file of recorded answers".to_string());
    }
    let count = r.word()?;
    let mut records = Vec::new();
    for _ in 0..count {
        records.push(read_one(&mut r)?);
    }
    if r.at != bytes.len() {
        return Err(format!("{} bytes too many", bytes.len() - r.at));
    }
    Ok(records)
}

/// Recomputes every answer of the file. The tally of what it holds, or what is
/// wrong with it.
pub fn check(bytes: &[u8]) -> Result<Tally, Vec<String>> {
    let records = read(bytes).map_err(|e| vec![e])?;
    let mut wrong = Vec::new();
    let mut tally = Tally::owing(&OWED);
    for (k, r) in records.iter().enumerate() {
        let answer = solve(&r.problem, true);
        let told = match answer.outcome {
            Outcome::Fault(message) => {
                wrong.push(format!("record {k}: the oracle itself failed: {message}"));
                continue;
            }
            _ => Told::of(&answer),
        };
        if told != r.told {
            wrong.push(format!("record {k}: the answer is another"));
        }
        tally.add(&r.problem, &answer);
    }
    if wrong.is_empty() {
        Ok(tally)
    } else {
        Err(wrong)
    }
}

// ---- what is recorded

const FIRST_SEED: u64 = 0x0a17_0115_c1a0_0000;

/// The marks that the file has.
const OWED: [Owed; 3] = [Owed::Some, Owed::Retired, Owed::Faint];

/// How drawn problems are chosen.
struct Plan {
    draw: fn(u64) -> Problem,
    /// Seeds that are taken as they come, but for idle runs.
    plain: u64,
    /// Seeds that are looked through for what is rare.
    all: u64,
    /// Which marks are looked for.
    owed: Owed,
    /// How many records there are at least of each mark, if the draws have
    /// them.
    of_each: u64,
    /// The same for a refusal before the run, of each entry.
    of_each_refusal: u64,
    /// The same for a run of more than 24 samples.
    of_each_large: u64,
    most_bytes: usize,
}

const DRAWN: Plan = Plan {
    draw,
    plain: 3000,
    all: 200_000,
    owed: Owed::Some,
    of_each: 40,
    of_each_refusal: 32,
    of_each_large: 8,
    most_bytes: 4000,
};

const RETIRED: Plan = Plan {
    draw: draw_retired,
    plain: 120,
    all: 40_000,
    owed: Owed::Retired,
    of_each: 12,
    of_each_refusal: 10,
    of_each_large: 2,
    most_bytes: 3000,
};

const FAINT: Plan = Plan {
    draw: draw_faint,
    plain: 0,
    all: 20_000,
    owed: Owed::Faint,
    of_each: 4,
    of_each_refusal: 0,
    of_each_large: 0,
    most_bytes: 900,
};

/// Of 16 to 24 samples with shrinking off, many with huge entries, at the usual floor.
const STILL: Plan = Plan {
    draw: draw_still,
    plain: 0,
    all: 20_000,
    owed: Owed::Still,
    of_each: 4,
    of_each_refusal: 0,
    of_each_large: 0,
    most_bytes: 3400,
};

/// Larger ones: n, entry, shrinking, and whether the run ends in refusal 11.
const BIG: [(usize, Entry, bool, bool); 14] = [
    (64, Entry::General, true, false),
    (64, Entry::C, true, false),
    (64, Entry::Nu, true, false),
    (64, Entry::OneClass, true, false),
    (64, Entry::C, true, true),
    (64, Entry::Nu, false, false),
    (100, Entry::C, true, false),
    (100, Entry::Nu, true, false),
    (128, Entry::General, true, false),
    (128, Entry::C, true, true),
    (128, Entry::OneClass, false, false),
    (256, Entry::C, true, false),
    (256, Entry::Nu, false, false),
    (512, Entry::C, true, false),
];

const BIG_RETIRED: [(usize, Entry, bool, bool); 2] = [
    (64, Entry::Retired, false, false),
    (100, Entry::Retired, false, false),
];

/// The records in their order: the worked runs, the draws as they come with
/// rare ones, larger ones; then the retired entry's draws and larger ones; then
/// those with weights near the support limit.
pub fn chosen() -> (Vec<Vec<u8>>, Tally) {
    let mut set = Set {
        records: Vec::new(),
        tally: Tally::owing(&OWED),
    };
    for p in worked::problems() {
        let answer = solve(&p, true);
        set.take(&p, &answer);
    }
    set.draw(&DRAWN);
    set.draw_big(&BIG);
    set.draw(&RETIRED);
    set.draw_big(&BIG_RETIRED);
    set.draw(&FAINT);
    set.draw(&STILL);
    (set.records, set.tally)
}

struct Set {
    records: Vec<Vec<u8>>,
    tally: Tally,
}

impl Set {
    fn take(&mut self, p: &Problem, answer: &Answer) {
        self.tally.add(p, answer);
        self.records.push(record(p, &Told::of(answer)));
    }

    fn draw(&mut self, plan: &Plan) {
        let least: Vec<u64> = names()
            .into_iter()
            .map(|(name, owed)| match name.starts_with("refusal") {
                _ if owed != plan.owed => 0,
                true => plan.of_each_refusal,
                false => plan.of_each,
            })
            .collect();
        for k in 0..plan.all {
            let p = (plan.draw)(FIRST_SEED + k);
            if p.floor != USUAL_FLOOR {
                // a record has no room for it
                continue;
            }
            let answer = solve(&p, true);
            let bytes = record(&p, &Told::of(&answer));
            let large = p.n > 24 && judge(&p).is_none();
            if bytes.len() > plan.most_bytes && !(large && p.n <= 40) {
                continue;
            }
            let idle = answer.accepted().map_or(false, |a| a.iterations == 0);
            let mut with = self.tally.clone();
            let marks = with.add(&p, &answer);
            let plain = k < plan.plain && !large && (!idle || k % 4 == 0);
            let most = if large {
                plan.of_each_large
            } else {
                plan.of_each
            };
            let rare = (0..marks.len()).any(|m| marks[m] && with.counts[m] <= least[m].min(most));
            if plain || rare {
                self.tally = with;
                self.records.push(bytes);
            }
        }
    }

    fn draw_big(&mut self, all: &[(usize, Entry, bool, bool)]) {
        for (n, entry, shrinking, ends_in_11) in all {
            let (p, answer) = big(*n, *entry, *shrinking, *ends_in_11);
            self.take(&p, &answer);
        }
    }
}

/// The first drawn problem of that size that is worth its room: where it
/// shrinks, it has also moved samples.
fn big(n: usize, entry: Entry, shrinking: bool, ends_in_11: bool) -> (Problem, Answer) {
    for seed in 0..400 {
        let p = draw_big(seed, n, entry, shrinking);
        let answer = solve(&p, true);
        let fits = match (&answer.outcome, ends_in_11) {
            (Outcome::Refused(r), true) => r.number == 11,
            (Outcome::Accepted(a), false) => {
                a.iterations < MOST_RECORDED_PASSES && (!shrinking || answer.events.swaps > 0)
            }
            _ => false,
        };
        if fits {
            return (p, answer);
        }
    }
    panic!("no seed draws {n} samples for the entry {}", entry.name());
}
