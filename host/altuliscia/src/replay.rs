//! A run by the rule (docs/RULE.md), in plain f64, with the usual floor and shrinking off, so that position k holds sample k. What is
//! computed here is tested, not proved: `trail` has the library confirm what comes of it.
use crate::training::Lists;
use crate::{Before, USUAL_FLOOR};

/// A run between two passes.
#[derive(Clone, Debug)]
pub(crate) struct Replay<'a> {
    pub lists: Lists<'a>,
    pub eps: f64,
    pub weights: Vec<f64>,
    pub gradients: Vec<f64>,
}

/// The best of some values, and who has it.
#[derive(Clone, Copy)]
struct Best {
    value: f64,
    holder: Option<usize>,
}

impl<'a> Replay<'a> {
    /// Before the first pass: the linear term, and each weight that isn't 0 times its row.
    pub fn started(lists: Lists<'a>, eps: f64) -> Replay<'a> {
        let weights = lists.alphas.clone();
        let mut gradients = lists.linear.clone();
        for i in (0..weights.len()).filter(|i| weights[*i] != 0.0) {
            for (k, gradient) in gradients.iter_mut().enumerate() {
                *gradient += weights[i] * entry(&lists, i, k);
            }
        }
        Replay {
            lists,
            eps,
            weights,
            gradients,
        }
    }

    /// What a step finds of sample k.
    pub fn before(&self, k: usize) -> Before {
        Before {
            weight: self.weights[k],
            ceiling: self.lists.ceilings[k],
            gradient: self.gradients[k],
            diagonal: self.lists.matrix[k * self.weights.len() + k],
        }
    }

    /// Row i at sample k.
    pub fn entry(&self, i: usize, k: usize) -> f64 {
        entry(&self.lists, i, k)
    }

    pub fn agree(&self, i: usize, j: usize) -> bool {
        self.lists.labels[i] == self.lists.labels[j]
    }

    /// The two weights as a step left them, carried into each gradient: the inner sum is rounded first.
    pub fn carry(&mut self, (i, left_i): (usize, f64), (j, left_j): (usize, f64)) {
        let (x, y) = (left_i - self.weights[i], left_j - self.weights[j]);
        for (k, gradient) in self.gradients.iter_mut().enumerate() {
            *gradient += entry(&self.lists, i, k) * x + entry(&self.lists, j, k) * y;
        }
        self.weights[i] = left_i;
        self.weights[j] = left_j;
    }

    /// The pair of the next pass, i before j; none where the rule stops.
    pub fn choose(&self) -> Option<(usize, usize)> {
        let (leads, sum) = match self.lists.nu_rule {
            true => self.leads_nu(),
            false => self.leads_c(),
        };
        if sum < self.eps {
            return None;
        }
        let lead = |j: usize| leads[usize::from(self.lists.labels[j])];
        let second = self.best(f64::INFINITY, |v, b| v <= b, |j| self.gain(&lead(j), j));
        let j = second.holder?;
        Some((lead(j).holder?, j))
    }

    /// By the C rule: the largest rise leads both labels, the last of equals. Beside it, what is compared with eps.
    fn leads_c(&self) -> ([Best; 2], f64) {
        let low = f64::NEG_INFINITY;
        let rise = self.best(low, |v, b| v >= b, |k| self.rise(k));
        let fall = self.best(low, |v, b| v >= b, |k| self.fall(k));
        ([rise; 2], rise.value + fall.value)
    }

    /// By the nu rule: each label has its own largest rise, the first of equals.
    fn leads_nu(&self) -> ([Best; 2], f64) {
        let low = f64::NEG_INFINITY;
        let of = |k: usize, label: bool| self.lists.labels[k] == label;
        let labels = [false, true];
        let rises = labels
            .map(|label| self.best(low, |v, b| v > b, |k| self.rise(k).filter(|_| of(k, label))));
        let falls = labels
            .map(|label| self.best(low, |v, b| v > b, |k| self.fall(k).filter(|_| of(k, label))));
        let sum = |label: usize| rises[label].value + falls[label].value;
        // `max` passes over a NaN.
        (rises, sum(1).max(sum(0)))
    }

    /// The values in the order of the samples: each that takes the place of the best so far.
    fn best(
        &self,
        start: f64,
        takes: impl Fn(f64, f64) -> bool,
        value: impl Fn(usize) -> Option<f64>,
    ) -> Best {
        let mut best = Best {
            value: start,
            holder: None,
        };
        for k in (0..self.weights.len()).filter(|k| !self.lists.retired[*k]) {
            match value(k) {
                Some(value) if takes(value, best.value) => {
                    best = Best {
                        value,
                        holder: Some(k),
                    }
                }
                _ => {}
            }
        }
        best
    }

    /// −y·gradient of a sample whose y·weight may grow; y is 1 or −1 by its label.
    fn rise(&self, k: usize) -> Option<f64> {
        match self.lists.labels[k] {
            true => (!self.at_ceiling(k)).then(|| -self.gradients[k]),
            false => (!self.at_zero(k)).then(|| self.gradients[k]),
        }
    }

    /// y·gradient of a sample whose y·weight may shrink.
    fn fall(&self, k: usize) -> Option<f64> {
        match self.lists.labels[k] {
            true => (!self.at_zero(k)).then(|| self.gradients[k]),
            false => (!self.at_ceiling(k)).then(|| -self.gradients[k]),
        }
    }

    fn at_ceiling(&self, k: usize) -> bool {
        self.weights[k] >= self.lists.ceilings[k]
    }

    fn at_zero(&self, k: usize) -> bool {
        self.weights[k] == 0.0
    }

    /// What the pair of a lead and j would gain, where j may be its second.
    fn gain(&self, lead: &Best, j: usize) -> Option<f64> {
        let i = lead.holder?;
        let d = lead.value + self.fall(j)?;
        let q = curvature(
            &self.before(i),
            &self.before(j),
            self.entry(i, j),
            self.agree(i, j),
        );
        let q = if q > 0.0 { q } else { USUAL_FLOOR };
        (d > 0.0).then(|| -(d * d) / q)
    }
}

/// The matrix column of sample i read at sample k, negated between different labels.
fn entry(lists: &Lists, i: usize, k: usize) -> f64 {
    let value = lists.matrix[i * lists.labels.len() + k];
    match lists.labels[i] == lists.labels[k] {
        true => value,
        false => -value,
    }
}

/// The curvature of a pair, before the floor.
fn curvature(i: &Before, j: &Before, entry: f64, agree: bool) -> f64 {
    let sum = i.diagonal + j.diagonal;
    let twice = 2.0 * entry;
    match agree {
        true => sum - twice,
        false => sum + twice,
    }
}

/// The step of a pair before it is clipped.
pub(crate) fn delta(i: &Before, j: &Before, entry: f64, agree: bool) -> f64 {
    let q = curvature(i, j, entry, agree);
    let q = if q <= 0.0 { USUAL_FLOOR } else { q };
    match agree {
        true => (i.gradient - j.gradient) / q,
        false => -(i.gradient + j.gradient) / q,
    }
}
