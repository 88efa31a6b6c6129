//! The recorded answers through the proved run, by position and pass for pass; those with retired samples, and those of C, nu and
//! one-class with shrinking off, through their C functions.
use crate::call::{Call, Spoiled};
use crate::trial::{run, Ran};
use crate::zeros::Zeros;
use oracle::problem::{Entry, Problem};
use oracle::random::Random;
use oracle::record::{read, Told};
use oracle::run::{canonical, solve};

#[derive(Default)]
struct Counts {
    records: u64,
    played: u64,
    shrinking: u64,
    nu_rule: u64,
    refused: u64,
    turned: u64,
    zeros: Zeros,
    passes: u64,
    retired: u64,
    still: u64,
    called: u64,
    differ: u64,
}

impl Counts {
    fn tell(&self) {
        println!("records                          {}", self.records);
        println!("general, run by position         {}", self.played);
        println!("with shrinking                   {}", self.shrinking);
        println!("by the nu rule                   {}", self.nu_rule);
        println!("refused with 11                  {}", self.refused);
        println!("order not its own inverse        {}", self.turned);
        println!("zeros of different sign          {}", self.zeros.met);
        println!("sign of rho where second kept    {}", self.zeros.second);
        println!("sign of rho by Rust's own        {}", self.zeros.own);
        println!("passes compared one by one       {}", self.passes);
        println!("with retired samples             {}", self.retired);
        println!("shrinking off, no order table    {}", self.still);
        println!("of both called                   {}", self.called);
        println!("differ                           {}", self.differ);
    }
}

fn words(list: &[f64]) -> Vec<u64> {
    list.iter().map(|x| canonical(*x)).collect()
}

/// Where the end of the run parts from the record, in a word.
fn end_differs(p: &Problem, told: &Told, ran: &Ran) -> Option<&'static str> {
    let n = p.n as usize;
    if told.refusal == 11 {
        return if ran.refused {
            None
        } else {
            Some("refusal 11")
        };
    }
    let tests = [
        (ran.refused, "refused"),
        (ran.numbers[..n] != told.order[..], "order"),
        (words(&ran.floats[2 * n..3 * n]) != told.weights, "weights"),
        (canonical(ran.out[0]) != told.rho, "rho"),
        (told.r_present == 1 && canonical(ran.out[1]) != told.r, "r"),
        (canonical(ran.out[2]) != told.obj, "obj"),
        (ran.iterations != told.iterations, "iterations"),
        (
            u64::from(ran.iterations == p.budget) != told.reason,
            "reason",
        ),
    ];
    tests
        .into_iter()
        .find(|(bad, _)| *bad)
        .map(|(_, name)| name)
}

/// The first pass after which the recorded pair doesn't have the recorded weights, if there is one.
fn pass_differs(p: &Problem, told: &Told, counts: &mut Counts) -> Option<u64> {
    let n = p.n as usize;
    for (k, step) in told.trace.iter().enumerate() {
        let passes = k as u64 + 1;
        let mut q = p.clone();
        q.budget = passes;
        let ran = run(&q);
        let weight = |place: u64| canonical(ran.floats[2 * n + place as usize]);
        counts.passes += 1;
        let [i, j, left_i, left_j] = *step;
        if ran.refused || ran.iterations != passes || weight(i) != left_i || weight(j) != left_j {
            return Some(passes);
        }
    }
    None
}

/// The words that a call must write: both readings, and the answer.
fn written(told: &Told) -> Vec<u64> {
    let mut all = told.crate_reading.clone();
    all.extend(&told.home);
    all.extend([told.refusal, told.index, told.rho, told.r_present, told.r]);
    all.extend([told.obj, told.iterations, told.reason, told.support]);
    all
}

/// Calls the C function on a record. It brings scratch of its own, so a record that lends too little is passed over.
fn call(k: usize, p: &Problem, told: &Told, c: &mut Counts) {
    let short =
        || p.scratch_floats < 7 * p.n || p.scratch_numbers < 2 * p.n || p.scratch_bytes < p.n;
    if told.refusal == 2 && short() {
        return;
    }
    c.called += 1;
    let g = &mut Random::new(k as u64);
    let mut call = Call::new(g, p.clone(), Spoiled::Nothing);
    let (answer, differs) = call.compare();
    let zeros = c.zeros.add(p, &answer);
    let parted = call.written(told.home.len()) != written(told);
    let differs = differs.or(parted.then_some("the record"));
    if let Some(what) = differs.or(zeros.as_deref()) {
        c.differ += 1;
        println!("record {k}, {}: {what}", p.entry.name());
    }
}

/// Plays each general record that isn't refused with 1 to 10, calls those with retired samples and those that need no order table, and
/// says how many differ.
pub fn compare(path: &str) -> Option<u64> {
    let bytes = std::fs::read(path).ok()?;
    let records = read(&bytes).ok()?;
    let mut c = Counts::default();
    for (k, r) in records.iter().enumerate() {
        c.records += 1;
        let (p, told) = (&r.problem, &r.told);
        let retired = p.entry == Entry::Retired;
        let still = Entry::STILL.contains(&p.entry) && !p.shrinking;
        c.retired += u64::from(retired);
        c.still += u64::from(still);
        if retired || still {
            call(k, p, told, &mut c);
        }
        if p.entry != Entry::General || (told.refusal != 0 && told.refusal != 11) {
            continue;
        }
        c.played += 1;
        c.shrinking += u64::from(p.shrinking);
        c.nu_rule += u64::from(p.nu_rule);
        c.refused += u64::from(told.refusal == 11);
        c.turned += u64::from(
            (0..told.order.len()).any(|i| told.order[told.order[i] as usize] != i as u64),
        );
        let zeros = c.zeros.add(p, &solve(p, false));
        if let Some(what) = end_differs(p, told, &run(p)).or(zeros.as_deref()) {
            c.differ += 1;
            println!("record {k}: {what}");
        } else if let Some(pass) = pass_differs(p, told, &mut c) {
            c.differ += 1;
            println!("record {k}: pass {pass}");
        }
    }
    c.tell();
    Some(c.differ + u64::from(c.played == 0 || c.called == 0))
}
