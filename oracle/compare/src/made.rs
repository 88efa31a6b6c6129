//! What is counted of calls that are made and compared.
use crate::call::Call;
use crate::reached::Reached;
use oracle::problem::Entry;
use oracle::run::Answer;

#[derive(Default)]
pub struct Made {
    reached: Reached,
    short_answer: u64,
    long_answer: u64,
    odd: u64,
    null: u64,
    large: u64,
    pub differ: u64,
}

impl Made {
    /// Makes the call, compares, and hands back what was expected.
    pub fn call(&mut self, seed: u64, call: &mut Call) -> Answer {
        let (answer, differs) = call.compare();
        let zeros = self.reached.add(&call.p, &answer);
        self.short_answer += u64::from(call.answer.len < call.answer_bytes());
        self.long_answer += u64::from(call.answer.len > call.answer_bytes());
        self.odd += u64::from(call.matrix.is_odd() || call.home.is_odd() || call.answer.is_odd());
        self.null += u64::from(call.matrix.null || call.home.null || call.answer.null);
        self.large += u64::from(answer.accepted().is_some() && call.p.n >= 64);
        self.tell(seed, call, differs.or(zeros.as_deref()));
        answer
    }

    /// Counts and tells a call that differs.
    pub fn tell(&mut self, seed: u64, call: &Call, differs: Option<&str>) {
        if let Some(what) = differs {
            self.differ += 1;
            let (name, budget, floor) = (call.p.entry.name(), call.p.budget, call.p.floor);
            println!("seed {seed}, {name}, budget {budget}, floor {floor:?}: {what}");
        }
    }

    /// Every count with its name, for calls of these entries that can have these refusals.
    pub fn counts(&self, entries: &[Entry], refusals: &[usize]) -> Vec<(u64, String)> {
        let mut all = self.reached.counts(entries, refusals);
        let rest = [
            (self.large, "accepted with n of 64 to 512"),
            (self.odd, "with a list at an odd address"),
            (self.null, "with an empty list lent as NULL"),
            (self.short_answer, "with an answer that is too short"),
            (self.long_answer, "with an answer longer than must be"),
        ];
        all.extend(rest.map(|(count, name)| (count, name.to_string())));
        all
    }
}
