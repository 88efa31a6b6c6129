//! One call of a C function: what is lent to it, what must come, and where the two part.
#[path = "../../../host/altuliscia/src/functions.rs"]
pub mod functions;

use crate::lent::{flag, resize, Lent};
use functions::{
    altuliscia_c, altuliscia_c_tuned, altuliscia_general, altuliscia_general_tuned, altuliscia_nu,
    altuliscia_nu_tuned, altuliscia_one_class, altuliscia_one_class_tuned, altuliscia_retired,
};
use oracle::judge::Refusal;
use oracle::problem::{Entry, Problem, MOST_SAMPLES};
use oracle::random::Random;
use oracle::run::{canonical, solve, Answer, Events, Outcome, Reason};

/// How many bytes an answer takes, and how many that of a function that is named after its tuning.
const ANSWER: usize = 72;
const TUNED_ANSWER: usize = 128;
/// The longest tuning that is lent, in bytes.
const MOST_TUNING: usize = 24;
/// How many bytes a tuning with a floor takes, and how many one with the mode behind it.
const FLOOR: usize = 8;
pub const MODE: usize = 16;
/// Lengths of a tuning that every function refuses: next to those that aren't, and a word more.
pub const REFUSED_LENGTHS: [usize; 6] = [1, 7, 9, 15, 17, 24];
/// Word 1 of a tuning where the mode is travelling: anything but 0.
pub const ON: [u64; 5] = [1, 2, 1 << 32, 1 << 63, u64::MAX];

/// What is lent as a tuning.
#[derive(Clone, Copy, PartialEq)]
pub enum Tuning {
    /// Nothing, to the function that takes none; with retired samples there is no such function, and it is empty.
    Without,
    Empty,
    Floor,
    /// The floor, and behind it the mode.
    Mode,
}

/// One call: the problem, and each list as its bytes are lent.
pub struct Call {
    pub p: Problem,
    lends: Tuning,
    pub matrix: Lent,
    labels: Lent,
    ceilings: Lent,
    alphas: Lent,
    linear: Lent,
    pub retired: Lent,
    pub tuning: Lent,
    nu_rule: u8,
    shrinking: u8,
    pub crate_reading: Lent,
    pub home: Lent,
    pub answer: Lent,
}

/// Which list of a call is made one byte longer or shorter.
#[derive(Clone, Copy, PartialEq)]
pub enum Spoiled {
    Nothing,
    Matrix,
    Labels,
    Ceilings,
    Alphas,
    Linear,
    Retired,
    Tuning,
    Crate,
    Home,
    Answer,
}

/// Mostly nothing. Sometimes n itself is spoiled.
pub fn spoil(g: &mut Random, p: &mut Problem) -> Spoiled {
    let floats = [Spoiled::Ceilings, Spoiled::Alphas, Spoiled::Linear];
    match g.below(100) {
        0 => Spoiled::Matrix,
        1 if p.entry.has_labels() => Spoiled::Labels,
        2 if p.entry.has_lists() => g.pick(&floats),
        3 => Spoiled::Crate,
        4 => Spoiled::Home,
        5..=6 => Spoiled::Answer,
        7 => {
            p.n = g.pick(&[0, MOST_SAMPLES + 1, 1 << 32, 1 << 61, u64::MAX]);
            Spoiled::Answer
        }
        8 if p.entry == Entry::Retired => Spoiled::Retired,
        9..=10 if p.entry == Entry::Retired => Spoiled::Tuning,
        _ => Spoiled::Nothing,
    }
}

/// Room for a reading, sometimes with bytes that make up no place, or one byte short. Where n is refused it may be short; none is
/// lent of a length that no machine has.
fn room(g: &mut Random, places: u64, short: bool) -> Lent {
    let odd_bytes = if g.one_in(4) { g.place(8) } else { 0 };
    let len = 8 * places.min(MOST_SAMPLES + 90) as usize;
    if short {
        Lent::new(g, len.saturating_sub(1))
    } else {
        Lent::new(g, len + odd_bytes)
    }
}

/// Whether the entry's function knows a tuning of so many bytes. With retired samples it knows no mode.
fn is_known(entry: Entry, len: usize) -> bool {
    len == 0 || len == FLOOR || (len == MODE && entry != Entry::Retired)
}

/// How many bytes of tuning are lent: those that are asked for, or any other number but what is known.
fn tuning_len(g: &mut Random, entry: Entry, spoiled: Spoiled, lends: Tuning) -> usize {
    match (spoiled, lends) {
        (Spoiled::Tuning, _) if g.coin() => g.pick(&REFUSED_LENGTHS),
        (Spoiled::Tuning, _) => {
            let unknown = (1..=MOST_TUNING).filter(|len| !is_known(entry, *len));
            g.pick(&unknown.collect::<Vec<usize>>())
        }
        (_, Tuning::Mode) => MODE,
        (_, Tuning::Floor) => FLOOR,
        _ => 0,
    }
}

/// The words of a tuning, and one more, which no function knows.
fn tuning_words(g: &mut Random, p: &Problem) -> Vec<u8> {
    let mode = if p.travelling { g.pick(&ON) } else { 0 };
    let words = [p.floor.to_bits(), mode, 1];
    words.iter().flat_map(|word| word.to_le_bytes()).collect()
}

fn answer_bytes(entry: Entry, lends: Tuning) -> usize {
    if entry == Entry::Retired || lends == Tuning::Without {
        ANSWER
    } else {
        TUNED_ANSWER
    }
}

impl Call {
    /// One without a tuning.
    pub fn new(g: &mut Random, p: Problem, spoiled: Spoiled) -> Call {
        Call::tuned(g, p, spoiled, Tuning::Without)
    }

    /// The problem's floor has to be the usual one where it isn't lent, and its mode the crate's.
    pub fn tuned(g: &mut Random, mut p: Problem, spoiled: Spoiled, lends: Tuning) -> Call {
        let one = if g.coin() { 1 } else { -1 };
        let more = |what: Spoiled| if what == spoiled { one } else { 0 };
        resize(&mut p.matrix, more(Spoiled::Matrix));
        resize(&mut p.labels, more(Spoiled::Labels));
        resize(&mut p.retired, more(Spoiled::Retired));
        let least = answer_bytes(p.entry, lends);
        let answer_len = match (spoiled == Spoiled::Answer, g.below(4)) {
            (true, _) => g.place(least),
            (_, 0) => least + 1 + g.place(40),
            _ => least,
        };
        let mut call = Call {
            lends,
            matrix: Lent::holding(g, &p.matrix),
            labels: Lent::holding(g, &p.labels),
            ceilings: Lent::floats(g, &p.ceilings, more(Spoiled::Ceilings)),
            alphas: Lent::floats(g, &p.alphas, more(Spoiled::Alphas)),
            linear: Lent::floats(g, &p.linear, more(Spoiled::Linear)),
            retired: Lent::default(),
            tuning: Lent::default(),
            nu_rule: flag(g, p.nu_rule),
            shrinking: flag(g, p.shrinking),
            crate_reading: room(g, p.crate_len, spoiled == Spoiled::Crate),
            home: room(g, p.home_len, spoiled == Spoiled::Home),
            answer: Lent::new(g, answer_len),
            p,
        };
        if call.p.entry == Entry::Retired {
            call.retired = Lent::holding(g, &call.p.retired);
        }
        if call.takes_tuning() {
            let mut bytes = tuning_words(g, &call.p);
            bytes.truncate(tuning_len(g, call.p.entry, spoiled, lends));
            call.tuning = Lent::holding(g, &bytes);
        }
        call
    }

    fn takes_tuning(&self) -> bool {
        self.p.entry == Entry::Retired || self.lends != Tuning::Without
    }

    /// How many bytes its answer takes.
    pub fn answer_bytes(&self) -> usize {
        answer_bytes(self.p.entry, self.lends)
    }

    /// Whether every list is as long as n asks, in bytes. n is at most 512 here.
    fn is_sized(&self) -> bool {
        let n = self.p.n as usize;
        let entry = self.p.entry;
        let floats = [&self.ceilings, &self.alphas, &self.linear];
        (!entry.has_labels() || self.labels.len == n)
            && (!entry.has_lists() || floats.iter().all(|l| l.len == 8 * n))
            && (entry != Entry::Retired || self.retired.len == n)
            && is_known(entry, self.tuning.len)
            && self.matrix.len == 8 * n * n
            && self.crate_reading.len >= 8 * n
            && self.home.len >= 8 * n
            && self.answer.len >= self.answer_bytes()
    }

    /// What the call must answer. Scratch is the call's own, so it is never short.
    fn expected(&self) -> Answer {
        let refused = |number| Answer {
            outcome: Outcome::Refused(Refusal { number, index: 0 }),
            zero_pair: false,
            events: Events::default(),
        };
        if self.p.n == 0 || self.p.n > MOST_SAMPLES {
            return refused(1);
        }
        if !self.is_sized() {
            return refused(2);
        }
        let mut p = self.p.clone();
        p.lend_exactly();
        solve(&p, false)
    }

    fn make(&mut self) -> u64 {
        if self.takes_tuning() {
            self.make_tuned()
        } else {
            self.make_untuned()
        }
    }

    #[rustfmt::skip]
    fn make_untuned(&mut self) -> u64 {
        let p = &self.p;
        let n = p.n as usize;
        let (eps, nu) = (p.eps.to_bits(), p.nu.to_bits());
        let (m, l) = (&mut self.matrix, &mut self.labels);
        let (c, h, a) = (&mut self.crate_reading, &mut self.home, &mut self.answer);
        // each pointer has its length beside it, and nothing that is written overlaps
        unsafe {
            match p.entry {
                Entry::General => altuliscia_general(n, m.ptr(), m.len, l.ptr(), l.len,
                    self.ceilings.ptr(), self.ceilings.len, self.alphas.ptr(), self.alphas.len,
                    self.linear.ptr(), self.linear.len, self.nu_rule, eps, self.shrinking, p.budget,
                    c.ptr(), c.len, h.ptr(), h.len, a.ptr(), a.len),
                Entry::C => altuliscia_c(n, m.ptr(), m.len, l.ptr(), l.len,
                    p.cpos.to_bits(), p.cneg.to_bits(), eps, self.shrinking, p.budget,
                    c.ptr(), c.len, h.ptr(), h.len, a.ptr(), a.len),
                Entry::Nu => altuliscia_nu(n, m.ptr(), m.len, l.ptr(), l.len,
                    nu, eps, self.shrinking, p.budget,
                    c.ptr(), c.len, h.ptr(), h.len, a.ptr(), a.len),
                Entry::OneClass => altuliscia_one_class(n, m.ptr(), m.len,
                    nu, eps, self.shrinking, p.budget,
                    c.ptr(), c.len, h.ptr(), h.len, a.ptr(), a.len),
                Entry::Retired => unreachable!("its function takes a tuning"),
            }
        }
    }

    #[rustfmt::skip]
    fn make_tuned(&mut self) -> u64 {
        let p = &self.p;
        let n = p.n as usize;
        let (eps, nu) = (p.eps.to_bits(), p.nu.to_bits());
        let (m, l, r, t) = (&mut self.matrix, &mut self.labels, &mut self.retired, &mut self.tuning);
        let (c, h, a) = (&mut self.crate_reading, &mut self.home, &mut self.answer);
        // as above
        unsafe {
            match p.entry {
                Entry::General => altuliscia_general_tuned(n, m.ptr(), m.len, l.ptr(), l.len,
                    self.ceilings.ptr(), self.ceilings.len, self.alphas.ptr(), self.alphas.len,
                    self.linear.ptr(), self.linear.len, self.nu_rule, eps, self.shrinking, p.budget,
                    t.ptr(), t.len, c.ptr(), c.len, h.ptr(), h.len, a.ptr(), a.len),
                Entry::Retired => altuliscia_retired(n, m.ptr(), m.len, l.ptr(), l.len,
                    self.ceilings.ptr(), self.ceilings.len, self.alphas.ptr(), self.alphas.len,
                    self.linear.ptr(), self.linear.len, r.ptr(), r.len, self.nu_rule, eps, self.shrinking, p.budget,
                    t.ptr(), t.len, c.ptr(), c.len, h.ptr(), h.len, a.ptr(), a.len),
                Entry::C => altuliscia_c_tuned(n, m.ptr(), m.len, l.ptr(), l.len,
                    p.cpos.to_bits(), p.cneg.to_bits(), eps, self.shrinking, p.budget,
                    t.ptr(), t.len, c.ptr(), c.len, h.ptr(), h.len, a.ptr(), a.len),
                Entry::Nu => altuliscia_nu_tuned(n, m.ptr(), m.len, l.ptr(), l.len,
                    nu, eps, self.shrinking, p.budget,
                    t.ptr(), t.len, c.ptr(), c.len, h.ptr(), h.len, a.ptr(), a.len),
                Entry::OneClass => altuliscia_one_class_tuned(n, m.ptr(), m.len,
                    nu, eps, self.shrinking, p.budget,
                    t.ptr(), t.len, c.ptr(), c.len, h.ptr(), h.len, a.ptr(), a.len),
            }
        }
    }

    /// Makes the call. What was expected, and where the call parts from it, in a word.
    pub fn compare(&mut self) -> (Answer, Option<&'static str>) {
        let answer = self.expected();
        let result = self.make();
        self.want(&answer);
        let differs = self.differs(&answer, result);
        (answer, differs)
    }

    /// Writes down what must stand in each list afterwards.
    fn want(&mut self, answer: &Answer) {
        let fields = match &answer.outcome {
            Outcome::Accepted(a) => {
                for k in 0..self.p.n as usize {
                    self.crate_reading.put(k, canonical(a.crate_reading[k]));
                    self.home.put(k, canonical(a.home[k]));
                }
                [
                    0,
                    0,
                    canonical(a.rho),
                    u64::from(a.r.is_some()),
                    a.r.map_or(0, canonical),
                    canonical(a.obj),
                    a.iterations,
                    u64::from(a.reason == Reason::Iterations),
                    a.support,
                ]
            }
            Outcome::Refused(r) => [r.number, r.index, 0, 0, 0, 0, 0, 0, 0],
            Outcome::Fault(_) => [u64::MAX; 9],
        };
        let bytes = self.answer_bytes();
        if self.answer.len < bytes {
            return;
        }
        // what a longer answer has behind those fields is 0
        let words = fields.into_iter().chain(std::iter::repeat(0));
        for (k, word) in words.take(bytes / 8).enumerate() {
            self.answer.put(k, word);
        }
    }

    /// Where the call's doing parts from what it must be, in a word.
    fn differs(&self, answer: &Answer, result: u64) -> Option<&'static str> {
        let number = match &answer.outcome {
            Outcome::Accepted(_) => 0,
            Outcome::Refused(r) => r.number,
            Outcome::Fault(_) => return Some("oracle fault"),
        };
        let lists = [
            (&self.answer, "answer"),
            (&self.crate_reading, "crate's reading"),
            (&self.home, "home reading"),
            (&self.matrix, "the lent matrix"),
            (&self.labels, "the lent labels"),
            (&self.ceilings, "the lent ceilings"),
            (&self.alphas, "the lent start alphas"),
            (&self.linear, "the lent linear term"),
            (&self.retired, "the lent retired bytes"),
            (&self.tuning, "the lent tuning"),
        ];
        if result != number {
            return Some("result");
        }
        let mut differing = lists.into_iter().filter(|(l, _)| !l.is_as_wanted());
        differing.next().map(|(_, name)| name)
    }

    /// The words that a call has written: so many places of each reading, and the answer's fields.
    pub fn written(&self, places: usize) -> Vec<u64> {
        let mut all = self.crate_reading.words(places);
        all.extend(self.home.words(places));
        all.extend(self.answer.words(ANSWER / 8));
        all
    }
}
