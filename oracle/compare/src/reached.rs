//! What a set of compared runs reached.
use crate::zeros::Zeros;
use oracle::marks::{is_own_inverse, readings_differ};
use oracle::problem::{Entry, Problem, LAST_REFUSAL};
use oracle::run::{Answer, Reason};

#[derive(Default)]
pub struct Reached {
    runs: u64,
    by_entry: [u64; Entry::ALL.len()],
    nu_rule: u64,
    refused: [u64; LAST_REFUSAL as usize + 1],
    accepted: u64,
    passes: u64,
    ran_out: u64,
    shrank: u64,
    moved: u64,
    first_branch: u64,
    second_branch: u64,
    unshrunk: u64,
    turned: u64,
    differing: u64,
    zeros: Zeros,
}

impl Reached {
    /// Counts a run. Where it met zeros of different sign, the Rust with the others kept must be the same but for rho's sign: else
    /// the field that parts.
    #[must_use]
    pub fn add(&mut self, p: &Problem, answer: &Answer) -> Option<String> {
        self.runs += 1;
        self.by_entry[p.entry.number() as usize] += 1;
        if let Some(r) = answer.refusal() {
            self.refused[r.number as usize] += 1;
        }
        if let Some(a) = answer.accepted() {
            self.accepted += 1;
            self.passes += a.iterations;
            self.nu_rule += u64::from(a.r.is_some());
            self.ran_out += u64::from(a.reason == Reason::Iterations);
            self.turned += u64::from(!is_own_inverse(&a.order));
            self.differing += u64::from(readings_differ(a));
        }
        let e = &answer.events;
        self.shrank += u64::from(e.least_active.map_or(false, |k| k < p.n));
        self.moved += u64::from(e.swaps > 0);
        self.first_branch += u64::from(e.first_branch > 0);
        self.second_branch += u64::from(e.second_branch > 0);
        self.unshrunk += u64::from(e.unshrinks > 0);
        self.zeros.add(p, answer)
    }

    /// Every count with its name; of entries and of refusals only those that the comparison can have.
    pub fn counts(&self, entries: &[Entry], refusals: &[usize]) -> Vec<(u64, String)> {
        let mut all = vec![(self.runs, "runs".to_string())];
        for entry in entries {
            let count = self.by_entry[entry.number() as usize];
            all.push((count, format!("of the entry {}", entry.name())));
        }
        for number in refusals {
            all.push((self.refused[*number], format!("refused with {number}")));
        }
        let mut rest = vec![
            (self.accepted, "accepted"),
            (self.nu_rule, "accepted under the nu rule"),
            (self.passes, "passes in all"),
            (self.ran_out, "ran out of budget"),
        ];
        // with retired samples shrinking is off, and in a comparison without order tables
        if entries != [Entry::Retired] && entries != Entry::STILL {
            rest.extend([
                (self.shrank, "shrank"),
                (self.moved, "moved"),
                (self.first_branch, "reconstructed by the first branch"),
                (self.second_branch, "reconstructed by the second branch"),
                (self.unshrunk, "unshrunk"),
                (self.turned, "left an order that isn't its own inverse"),
                (self.differing, "have readings that differ"),
            ]);
        }
        all.extend(rest.iter().map(|(count, name)| (*count, name.to_string())));
        let Zeros { met, second, own } = self.zeros;
        all.push((met, "met zeros of different sign".to_string()));
        let name = format!("of them a zero rho of the other sign where Rust keeps the second; {own} by its own max and min");
        all.push((second, name));
        all
    }
}

/// Prints the counts and how many runs differ. So many seeds that everything should be among them are worth less where something
/// isn't: then that is said, and counts as a difference.
pub fn tell(counts: &[(u64, String)], seeds: u64, differ: u64) -> u64 {
    for (count, name) in counts {
        println!("{count:>9}  {name}");
    }
    let mut never = 0;
    for (_, name) in counts.iter().filter(|c| c.0 == 0 && seeds >= 5000) {
        println!("never reached: {name}");
        never += 1;
    }
    println!("differ {differ}");
    differ + never
}
