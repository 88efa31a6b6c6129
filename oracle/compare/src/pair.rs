//! The C function of a single step: on each step of drawn runs, and on chosen numbers.
use crate::call::functions::altuliscia_pair;
use crate::lent::{flag, Lent};
use crate::reached::tell;
use oracle::draw::{draw_big, draw_step};
use oracle::marks::STEP;
use oracle::problem::{Entry, Problem};
use oracle::random::Random;
use oracle::run::{canonical, solve, step, Given};

/// How many bytes the two weights take.
const PAIR: usize = 16;
/// Steps on chosen numbers for each seed.
const CHOSEN: u64 = 4;

#[rustfmt::skip]
fn call(given: &Given, agree: u8, pair: &mut Lent) -> u64 {
    let lists = [given.weights, given.ceilings, given.gradients, given.diagonals];
    let [[ai, aj], [bi, bj], [gi, gj], [di, dj]] = lists.map(|l| l.map(f64::to_bits));
    let entry = given.entry.to_bits();
    // the pointer has its length beside it
    unsafe { altuliscia_pair(ai, bi, aj, bj, gi, gj, di, dj, entry, agree, pair.ptr(), pair.len) }
}

/// How the bytes for the weights were lent.
#[derive(Default)]
struct Lists {
    odd: u64,
    long: u64,
    short: u64,
    null: u64,
}

impl Lists {
    /// Makes the call, now and then a second one with too few bytes, and says in a word where it parts from what the Rust left.
    fn compare(&mut self, g: &mut Random, given: &Given, left: [f64; 2]) -> Option<&'static str> {
        let agree = flag(g, given.agree);
        let more = if g.one_in(4) { 1 + g.place(40) } else { 0 };
        let mut pair = Lent::new(g, PAIR + more);
        let left = left.map(canonical);
        pair.put(0, left[0]);
        pair.put(1, left[1]);
        let result = call(given, agree, &mut pair);
        self.odd += u64::from(pair.is_odd());
        self.long += u64::from(more > 0);
        let tests = [
            (result != 0, "result"),
            (pair.words(2) != left, "weights"),
            (!pair.is_as_wanted(), "bytes beside the weights"),
            (g.one_in(16) && self.short(g, given, agree), "too few bytes"),
        ];
        tests
            .into_iter()
            .find(|(bad, _)| *bad)
            .map(|(_, name)| name)
    }

    /// Whether a call with too few bytes answers anything but 2 or writes.
    fn short(&mut self, g: &mut Random, given: &Given, agree: u8) -> bool {
        let len = g.place(PAIR);
        let mut pair = Lent::new(g, len);
        self.short += 1;
        self.null += u64::from(pair.null);
        call(given, agree, &mut pair) != 2 || !pair.is_as_wanted()
    }
}

/// Steps, of runs or on chosen numbers.
#[derive(Default)]
struct Steps {
    steps: u64,
    /// One for each mark of a step.
    marks: Vec<u64>,
}

impl Steps {
    fn add(&mut self, given: &Given, left: [f64; 2]) {
        self.steps += 1;
        self.marks.resize(STEP.len(), 0);
        for (count, (_, _, test)) in self.marks.iter_mut().zip(STEP) {
            *count += u64::from(test(given, left));
        }
    }

    /// Every count with its name; of runs those that a run's step can have.
    fn counts(&self, whose: &str, of_runs: bool) -> Vec<(u64, String)> {
        let mut all = vec![(self.steps, format!("steps {whose}"))];
        for (count, (name, in_runs, _)) in self.marks.iter().zip(STEP) {
            if *in_runs || !of_runs {
                all.push((*count, format!("{whose}: {name}")));
            }
        }
        all
    }
}

#[derive(Default)]
struct Counts {
    runs: u64,
    /// Steps of runs with shrinking off and on.
    shrinking: [u64; 2],
    /// Steps of runs that moved samples.
    moved: u64,
    /// Steps of runs with 64 samples or more.
    large: u64,
    of_runs: Steps,
    chosen: Steps,
    lists: Lists,
    differ: u64,
}

impl Counts {
    /// Every step of the problem's run, where it is accepted.
    fn run(&mut self, g: &mut Random, seed: u64, p: &Problem) {
        let answer = solve(p, true);
        let a = match answer.accepted() {
            Some(a) => a,
            None => return,
        };
        self.runs += 1;
        self.shrinking[usize::from(p.shrinking)] += a.iterations;
        self.moved += u64::from(answer.events.swaps > 0) * a.iterations;
        self.large += u64::from(p.n >= 64) * a.iterations;
        for (k, s) in a.trace.iter().enumerate() {
            let left = [s.weight_i, s.weight_j];
            self.of_runs.add(&s.given, left);
            let differs = self.lists.compare(g, &s.given, left);
            let whose = || format!("seed {seed}, {}, step {k}", p.entry.name());
            self.tell(whose, &s.given, left, differs);
        }
    }

    /// The step of a seed.
    fn step(&mut self, g: &mut Random, seed: u64) {
        let given = draw_step(seed);
        let left = step(&given);
        self.chosen.add(&given, left);
        let differs = self.lists.compare(g, &given, left);
        self.tell(|| format!("numbers of {seed}"), &given, left, differs);
    }

    /// Counts and tells a step that differs.
    fn tell(
        &mut self,
        whose: impl Fn() -> String,
        given: &Given,
        left: [f64; 2],
        differs: Option<&str>,
    ) {
        if let Some(what) = differs {
            self.differ += 1;
            println!("{}: {what}; {given:?} left {left:?}", whose());
        }
    }

    fn counts(&self) -> Vec<(u64, String)> {
        let [off, on] = self.shrinking;
        let runs = [
            (off, "of runs with shrinking off"),
            (on, "of runs with shrinking on"),
            (self.moved, "of runs that moved samples"),
            (self.large, "of runs with n of 64 to 512"),
        ];
        let lists = [
            (self.lists.odd, "with the weights at an odd address"),
            (self.lists.long, "with more than 16 bytes lent"),
            (self.lists.short, "made again with fewer"),
            (self.lists.null, "of them with none, lent as NULL"),
        ];
        let named = |(count, name): (u64, &str)| (count, name.to_string());
        let mut all = vec![(self.runs, "runs".to_string())];
        all.extend(self.of_runs.counts("of runs", true));
        all.extend(runs.map(named));
        all.extend(self.chosen.counts("on chosen numbers", false));
        all.extend(lists.map(named));
        all
    }
}

/// Compares on every seed from the first to the last, and says how many steps differ.
pub fn compare(first: u64, last: u64) -> u64 {
    let mut counts = Counts::default();
    for seed in first..=last {
        let g = &mut Random::new(!seed);
        for draw in [oracle::draw, oracle::draw_faint] {
            counts.run(g, seed, &draw(seed));
        }
        if seed % 500 == 0 {
            let n = g.pick(&[64, 64, 65, 100, 100, 127, 128, 200, 256, 512]);
            let entry = g.pick(&Entry::ALL);
            let shrinking = entry != Entry::Retired && g.coin();
            counts.run(g, seed, &draw_big(seed, n, entry, shrinking));
        }
        for k in 0..CHOSEN {
            counts.step(g, seed.wrapping_mul(CHOSEN).wrapping_add(k));
        }
    }
    tell(&counts.counts(), last.saturating_sub(first), counts.differ)
}
