//! The C functions, and nothing else that is unsafe.
#![allow(unsafe_code)]

use crate::functions::{
    altuliscia_c_tuned, altuliscia_general_tuned, altuliscia_nu_tuned, altuliscia_one_class_tuned,
    altuliscia_pair, altuliscia_retired, altuliscia_votes,
};
use crate::{
    Answer, Before, ExitReason, General, OneClass, Panel, Problem, Refusal, Tuned, MOST_LANGUAGES,
    MOST_SAMPLES,
};

/// The bytes of an answer: of the tuned functions sixteen words, of which nine are known; that of retired samples ends with these.
const ANSWER: usize = 128;

/// What a call writes.
pub(crate) struct Room {
    crate_reading: Vec<f64>,
    home: Vec<f64>,
    answer: [u8; ANSWER],
}

/// Lends room for n samples to a call and reads what it left. More samples than may be are refused without looking at any list,
/// so no more room than that is taken.
pub(crate) fn with_room(n: usize, call: impl FnOnce(&mut Room) -> u64) -> Result<Answer, Refusal> {
    let places = n.min(MOST_SAMPLES);
    let mut room = Room {
        crate_reading: vec![0.0; places],
        home: vec![0.0; places],
        answer: [0; ANSWER],
    };
    let result = call(&mut room);
    if result != 0 {
        return Err(Refusal::new(result, room.word(1)));
    }
    Ok(Answer {
        rho: f64::from_bits(room.word(2)),
        r: (room.word(3) != 0).then(|| f64::from_bits(room.word(4))),
        obj: f64::from_bits(room.word(5)),
        iterations: room.word(6),
        reason: match room.word(7) {
            0 => ExitReason::Threshold,
            _ => ExitReason::Iterations,
        },
        support: room.word(8),
        crate_reading: room.crate_reading,
        home: room.home,
    })
}

impl Room {
    fn word(&self, k: usize) -> u64 {
        let mut bytes = [0; 8];
        bytes.copy_from_slice(&self.answer[8 * k..8 * k + 8]);
        u64::from_le_bytes(bytes)
    }
}

/// The words of a tuning.
fn tuning(o: &Tuned) -> [u64; 2] {
    [o.floor.to_bits(), u64::from(o.travelling)]
}

/// The length in bytes of a list of doubles, or of numbers. No list is so long that this wraps.
fn bytes<T>(list: &[T]) -> usize {
    std::mem::size_of_val(list)
}

// In each call every pointer comes from a slice that lives through it, with that slice's length in bytes beside it; the lists that
// are written are borrowed for that alone. A double or a number is read and written by its eight bytes, lowest first, which is how
// x86-64 keeps it, and every pattern of eight bytes is one. A bool is a byte, 0 or 1.

#[rustfmt::skip]
pub(crate) fn general(g: &General, o: &Tuned, room: &mut Room) -> u64 {
    let (m, l, t) = (g.problem.matrix, g.problem.labels, tuning(o));
    let (lc, lh) = (bytes(&room.crate_reading), bytes(&room.home));
    let (c, h, a) = (&mut room.crate_reading, &mut room.home, &mut room.answer);
    unsafe {
        altuliscia_general_tuned(l.len(), m.as_ptr().cast(), bytes(m), l.as_ptr().cast(), l.len(),
            g.ceilings.as_ptr().cast(), bytes(g.ceilings), g.alphas.as_ptr().cast(), bytes(g.alphas),
            g.linear.as_ptr().cast(), bytes(g.linear), u8::from(g.nu_rule), o.options.eps.to_bits(), u8::from(o.options.shrinking), o.options.budget,
            t.as_ptr().cast(), bytes(&t), c.as_mut_ptr().cast(), lc, h.as_mut_ptr().cast(), lh, a.as_mut_ptr(), ANSWER)
    }
}

/// The library knows a floor here, and no more. So the second word is lent only where it is on: then it is refused, not dropped.
#[rustfmt::skip]
pub(crate) fn retired(g: &General, r: &[bool], o: &Tuned, room: &mut Room) -> u64 {
    let (m, l, t) = (g.problem.matrix, g.problem.labels, tuning(o));
    let t = &t[..1 + usize::from(o.travelling)];
    let (lc, lh) = (bytes(&room.crate_reading), bytes(&room.home));
    let (c, h, a) = (&mut room.crate_reading, &mut room.home, &mut room.answer);
    unsafe {
        altuliscia_retired(l.len(), m.as_ptr().cast(), bytes(m), l.as_ptr().cast(), l.len(),
            g.ceilings.as_ptr().cast(), bytes(g.ceilings), g.alphas.as_ptr().cast(), bytes(g.alphas),
            g.linear.as_ptr().cast(), bytes(g.linear), r.as_ptr().cast(), r.len(),
            u8::from(g.nu_rule), o.options.eps.to_bits(), u8::from(o.options.shrinking), o.options.budget,
            t.as_ptr().cast(), bytes(t), c.as_mut_ptr().cast(), lc, h.as_mut_ptr().cast(), lh, a.as_mut_ptr(), ANSWER)
    }
}

#[rustfmt::skip]
pub(crate) fn c(p: &Problem, cpos: f64, cneg: f64, o: &Tuned, room: &mut Room) -> u64 {
    let (m, l, t) = (p.matrix, p.labels, tuning(o));
    let (lc, lh) = (bytes(&room.crate_reading), bytes(&room.home));
    let (c, h, a) = (&mut room.crate_reading, &mut room.home, &mut room.answer);
    unsafe {
        altuliscia_c_tuned(l.len(), m.as_ptr().cast(), bytes(m), l.as_ptr().cast(), l.len(),
            cpos.to_bits(), cneg.to_bits(), o.options.eps.to_bits(), u8::from(o.options.shrinking), o.options.budget,
            t.as_ptr().cast(), bytes(&t), c.as_mut_ptr().cast(), lc, h.as_mut_ptr().cast(), lh, a.as_mut_ptr(), ANSWER)
    }
}

#[rustfmt::skip]
pub(crate) fn nu(p: &Problem, nu: f64, o: &Tuned, room: &mut Room) -> u64 {
    let (m, l, t) = (p.matrix, p.labels, tuning(o));
    let (lc, lh) = (bytes(&room.crate_reading), bytes(&room.home));
    let (c, h, a) = (&mut room.crate_reading, &mut room.home, &mut room.answer);
    unsafe {
        altuliscia_nu_tuned(l.len(), m.as_ptr().cast(), bytes(m), l.as_ptr().cast(), l.len(),
            nu.to_bits(), o.options.eps.to_bits(), u8::from(o.options.shrinking), o.options.budget,
            t.as_ptr().cast(), bytes(&t), c.as_mut_ptr().cast(), lc, h.as_mut_ptr().cast(), lh, a.as_mut_ptr(), ANSWER)
    }
}

#[rustfmt::skip]
pub(crate) fn one_class(s: &OneClass, nu: f64, o: &Tuned, room: &mut Room) -> u64 {
    let (m, t) = (s.matrix, tuning(o));
    let (lc, lh) = (bytes(&room.crate_reading), bytes(&room.home));
    let (c, h, a) = (&mut room.crate_reading, &mut room.home, &mut room.answer);
    unsafe {
        altuliscia_one_class_tuned(s.n, m.as_ptr().cast(), bytes(m),
            nu.to_bits(), o.options.eps.to_bits(), u8::from(o.options.shrinking), o.options.budget,
            t.as_ptr().cast(), bytes(&t), c.as_mut_ptr().cast(), lc, h.as_mut_ptr().cast(), lh, a.as_mut_ptr(), ANSWER)
    }
}

/// There is room for both weights, so the result is 0.
#[rustfmt::skip]
pub(crate) fn pair(i: &Before, j: &Before, entry: f64, agree: bool) -> (f64, f64) {
    let mut left = [0.0; 2];
    let room = bytes(&left);
    unsafe {
        altuliscia_pair(i.weight.to_bits(), i.ceiling.to_bits(), j.weight.to_bits(), j.ceiling.to_bits(),
            i.gradient.to_bits(), j.gradient.to_bits(), i.diagonal.to_bits(), j.diagonal.to_bits(),
            entry.to_bits(), u8::from(agree), left.as_mut_ptr().cast(), room);
    }
    (left[0], left[1])
}

/// What a call of the votes leaves: the result, the refusal's index, the winner, and the votes in the first places. Of more languages than may be
/// no list is looked at.
#[rustfmt::skip]
pub(crate) fn votes(p: &Panel) -> (u64, u64, u64, [u64; MOST_LANGUAGES]) {
    let mut votes = [0; MOST_LANGUAGES];
    let mut answer = [0; 3];
    let (lv, la) = (bytes(&votes[..p.languages.min(MOST_LANGUAGES)]), bytes(&answer));
    let result = unsafe {
        altuliscia_votes(p.languages as u64, p.coefficients.as_ptr().cast(), bytes(p.coefficients), p.values.as_ptr().cast(), bytes(p.values),
            p.coefficient_counts.as_ptr().cast(), bytes(p.coefficient_counts), p.value_counts.as_ptr().cast(), bytes(p.value_counts),
            p.rhos.as_ptr().cast(), bytes(p.rhos), votes.as_mut_ptr().cast(), lv, answer.as_mut_ptr().cast(), la)
    };
    let [_, index, winner] = answer;
    (result, index, winner, votes)
}

#[cfg(test)]
mod tests {
    use super::*;
    use crate::functions::altuliscia_c;
    use crate::{Options, USUAL_FLOOR};

    /// The bytes of an answer without a tuning.
    const PLAIN: usize = 72;

    /// The bytes that docs/BYTES.md shows from the line of that name on, up to an empty line or another name.
    fn shown(name: &str) -> Vec<u8> {
        let text = include_str!("../../../docs/BYTES.md");
        let mut lines = text.lines();
        let start = format!("    {:<14}", name);
        let first = lines.find_map(|l| l.strip_prefix(&start)).unwrap();
        let rest = lines.map_while(|l| l.strip_prefix("                  "));
        std::iter::once(first)
            .chain(rest)
            .flat_map(|line| line.split_whitespace().take_while(|w| w.len() == 2))
            .map(|w| u8::from_str_radix(w, 16).unwrap())
            .collect()
    }

    fn bytes_of(list: &[f64]) -> Vec<u8> {
        list.iter().flat_map(|x| x.to_le_bytes()).collect()
    }

    fn room() -> Room {
        Room {
            crate_reading: vec![7.0; 2],
            home: vec![7.0; 2],
            answer: [7; ANSWER],
        }
    }

    /// As `c`, by the function that takes no tuning.
    #[rustfmt::skip]
    fn plain_c(p: &Problem, cpos: f64, cneg: f64, o: &Tuned, room: &mut Room) -> u64 {
        let (m, l) = (p.matrix, p.labels);
        let (c, h, a) = (&mut room.crate_reading, &mut room.home, &mut room.answer);
        unsafe {
            altuliscia_c(l.len(), m.as_ptr().cast(), bytes(m), l.as_ptr().cast(), l.len(),
                cpos.to_bits(), cneg.to_bits(), o.options.eps.to_bits(), u8::from(o.options.shrinking), o.options.budget,
                c.as_mut_ptr().cast(), 16, h.as_mut_ptr().cast(), 16, a.as_mut_ptr(), ANSWER)
        }
    }

    #[test]
    fn calls_write_what_the_document_shows() {
        as_the_document_shows(plain_c, [7; ANSWER - PLAIN]);
    }

    #[test]
    fn with_a_tuning_zeros_follow() {
        as_the_document_shows(c, [0; ANSWER - PLAIN]);
    }

    /// Two calls, and what they leave behind the nine numbers.
    fn as_the_document_shows(
        call: fn(&Problem, f64, f64, &Tuned, &mut Room) -> u64,
        behind: [u8; ANSWER - PLAIN],
    ) {
        let labels = [true, false];
        let options = Options {
            eps: f64::from_bits(0x3f50_624d_d2f1_a9fc),
            shrinking: true,
            budget: 2,
        };
        let floor = f64::from_le_bytes(shown("tuning").try_into().unwrap());
        assert_eq!((options.eps, floor), (0.001, 1e-12));
        let travelling = false;
        let options = Tuned {
            options,
            floor,
            travelling,
        };
        let mut matrix = [1.0, 0.0, 0.0, 1.0];
        assert_eq!(shown("matrix"), bytes_of(&matrix));
        assert_eq!(shown("labels"), labels.map(u8::from));
        let mut left = room();
        let problem = Problem {
            matrix: &matrix,
            labels: &labels,
        };
        assert_eq!(call(&problem, 1.0, 1.0, &options, &mut left), 0);
        assert_eq!(shown("crate_reading"), bytes_of(&left.crate_reading));
        assert_eq!(shown("home"), bytes_of(&left.home));
        assert_eq!([shown("answer"), behind.to_vec()].concat(), left.answer);

        matrix[2] = f64::NAN;
        let mut left = room();
        let problem = Problem {
            matrix: &matrix,
            labels: &labels,
        };
        assert_eq!(call(&problem, 1.0, 1.0, &options, &mut left), 3);
        assert_eq!([shown("refused"), behind.to_vec()].concat(), left.answer);
        assert_eq!(
            (left.crate_reading, left.home),
            (vec![7.0; 2], vec![7.0; 2])
        );
    }

    /// The call of docs/BYTES.md with both words, with such a tuning and shrinking on or off: what stands in both lists.
    #[rustfmt::skip]
    fn raw_tuned(tuning: &[u8], shrinking: u8) -> Vec<u8> {
        let (m, l) = (shown("matrix of 4"), shown("labels of 4"));
        let (mut c, mut h, mut a) = ([7; 32], [7; 32], [7; ANSWER]);
        let result = unsafe {
            altuliscia_c_tuned(4, m.as_ptr(), m.len(), l.as_ptr(), l.len(), 1.0_f64.to_bits(), 2.0_f64.to_bits(), 0.001_f64.to_bits(),
                shrinking, 100, tuning.as_ptr(), tuning.len(), c.as_mut_ptr(), 32, h.as_mut_ptr(), 32, a.as_mut_ptr(), ANSWER)
        };
        assert_eq!((result, c), (0, h));
        h.to_vec()
    }

    #[test]
    fn both_words_are_what_the_document_shows() {
        let words = shown("both words");
        let floor = f64::from_le_bytes(words[..8].try_into().unwrap());
        assert_eq!((words.len(), floor), (16, USUAL_FLOOR));
        let off = [&words[..8], &[0; 8]].concat();
        assert_eq!(raw_tuned(&words, 1), shown("travelled"));
        for tuning in [&off, &words[..8], &[]] {
            assert_eq!(raw_tuned(tuning, 1), shown("by place"));
        }
        assert_eq!(raw_tuned(&words, 0), raw_tuned(&off, 0));
    }

    /// A raw call of two samples with any retired bytes, any tuning, shrinking and a budget. Hands back the result, and number and index
    /// as the answer has them.
    #[rustfmt::skip]
    fn raw(marks: &[u8], tuning: &[u8], shrinking: u8, budget: u64) -> (u64, u64, u64) {
        let mut left = room();
        let (matrix, labels, ceilings, alphas, linear) = ([1.0, 0.0, 0.0, 1.0], [1_u8, 0], [1.0; 2], [0.0; 2], [-1.0; 2]);
        let result = unsafe {
            altuliscia_retired(2, matrix.as_ptr().cast(), bytes(&matrix), labels.as_ptr(), labels.len(),
                ceilings.as_ptr().cast(), bytes(&ceilings), alphas.as_ptr().cast(), bytes(&alphas),
                linear.as_ptr().cast(), bytes(&linear), marks.as_ptr(), marks.len(), 0, 0, shrinking, budget,
                tuning.as_ptr(), tuning.len(), left.crate_reading.as_mut_ptr().cast(), 16,
                left.home.as_mut_ptr().cast(), 16, left.answer.as_mut_ptr(), ANSWER)
        };
        if result != 0 {
            assert_eq!((&left.crate_reading, &left.home), (&vec![7.0; 2], &vec![7.0; 2]));
            assert_eq!(left.answer[16..PLAIN], [0; PLAIN - 16]);
        }
        assert_eq!(left.answer[PLAIN..], [7; ANSWER - PLAIN]);
        (result, left.word(0), left.word(1))
    }

    /// The number that docs/BYTES.md shows in the line of that name.
    fn number(name: &str) -> u64 {
        let text = include_str!("../../../docs/BYTES.md");
        let start = format!("    {:<14}0x", name);
        let line = text.lines().find_map(|l| l.strip_prefix(&start)).unwrap();
        u64::from_str_radix(&line[..16], 16).unwrap()
    }

    /// The step that docs/BYTES.md shows, with so many bytes of room out of 24: its result and all of them.
    #[rustfmt::skip]
    fn raw_pair(room: usize) -> (u64, Vec<u8>) {
        let mut left = vec![7; 24];
        let result = unsafe {
            altuliscia_pair(number("weight_i"), number("ceiling_i"), number("weight_j"), number("ceiling_j"),
                number("gradient_i"), number("gradient_j"), number("diagonal_i"), number("diagonal_j"),
                number("entry"), shown("agree")[0], left.as_mut_ptr(), room)
        };
        (result, left)
    }

    #[test]
    fn a_step_leaves_what_the_document_shows() {
        for room in [16, 17, 24] {
            let (result, left) = raw_pair(room);
            assert_eq!((result, &left[16..]), (0, &[7; 8][..]));
            assert_eq!(left[..16], shown("pair"));
        }
        for room in [0, 1, 15] {
            assert_eq!(raw_pair(room), (2, vec![7; 24]));
        }
        let before = |k: &str| Before {
            weight: f64::from_bits(number(&format!("weight_{}", k))),
            ceiling: f64::from_bits(number(&format!("ceiling_{}", k))),
            gradient: f64::from_bits(number(&format!("gradient_{}", k))),
            diagonal: f64::from_bits(number(&format!("diagonal_{}", k))),
        };
        assert_eq!(pair(&before("i"), &before("j"), -0.5, false), (0.5, 1.0));
    }

    /// The bytes that docs/BYTES.md shows in the line of that name, in its part on the votes.
    fn shown_of_votes(name: &str) -> Vec<u8> {
        let text = include_str!("../../../docs/BYTES.md");
        let part = text.split("\n## The votes of pairs\n").nth(1).unwrap();
        let part = part.split("\n## ").next().unwrap();
        let start = format!("    {:<21}", name);
        let line = part.lines().find_map(|l| l.strip_prefix(&start)).unwrap();
        let byte = |word| u8::from_str_radix(word, 16).unwrap();
        line.split_whitespace().map(byte).collect()
    }

    /// The votes that docs/BYTES.md shows, with these counts of kernel values and so many bytes of room: the result, and all that is there
    /// for votes and answer.
    #[rustfmt::skip]
    fn raw_votes(languages: u64, value_counts: &[u8], (lv, la): (usize, usize)) -> (u64, [u8; 40], [u8; 32]) {
        let (c, v, h, r) = ("coefficients", "values", "coefficient_counts", "rhos");
        let (c, v, h, r) = (shown_of_votes(c), shown_of_votes(v), shown_of_votes(h), shown_of_votes(r));
        let (mut votes, mut answer) = ([7; 40], [7; 32]);
        let result = unsafe {
            altuliscia_votes(languages, c.as_ptr(), c.len(), v.as_ptr(), v.len(), h.as_ptr(), h.len(),
                value_counts.as_ptr(), value_counts.len(), r.as_ptr(), r.len(), votes.as_mut_ptr(), lv, answer.as_mut_ptr(), la)
        };
        (result, votes, answer)
    }

    #[test]
    fn votes_are_what_the_document_shows() {
        let mut counts = shown_of_votes("value_counts");
        for room in [24, 25, 32] {
            let (result, votes, answer) = raw_votes(3, &counts, (24, room));
            assert_eq!((result, &votes[24..]), (0, &[7; 16][..]));
            assert_eq!(votes[..24], shown_of_votes("votes"));
            let behind = [shown_of_votes("answer"), vec![7; 8]].concat();
            assert_eq!(answer[..], behind);
        }
        let untouched = ([7; 40], [7; 32]);
        for room in [0, 1, 23] {
            let (result, votes, answer) = raw_votes(3, &counts, (24, room));
            assert_eq!((result, (votes, answer)), (2, untouched));
            let (result, votes, answer) = raw_votes(13, &counts, (24, room));
            assert_eq!((result, (votes, answer)), (1, untouched));
        }
        for length in [0, 16, 23, 25, 32] {
            let (result, votes, answer) = raw_votes(3, &counts, (length, 24));
            assert_eq!((result, votes, answer[0]), (2, [7; 40], 2));
        }
        counts[8] = 2;
        let (result, votes, answer) = raw_votes(3, &counts, (24, 32));
        assert_eq!((result, votes), (2, [7; 40]));
        let behind = [shown_of_votes("refused"), vec![7; 8]].concat();
        assert_eq!(answer[..], behind);
    }

    /// What no list of `bool` and no call of this crate can lead to.
    #[test]
    fn retired_bytes_and_tuning_are_judged() {
        let (usual, bad) = (USUAL_FLOOR.to_le_bytes(), [0; 8]);
        for tuning in [&[][..], &usual] {
            assert_eq!(raw(&[0, 1], tuning, 0, 1), (0, 0, 0));
            assert_eq!(raw(&[0, 1], tuning, 1, 1), (13, 13, 0));
        }
        for marks in [[2, 0], [0, 2], [1, 255]] {
            for shrinking in [0, 1] {
                assert_eq!(raw(&marks, &usual, shrinking, 1), (12, 12, 0));
                assert_eq!(raw(&marks, &bad, shrinking, 1), (14, 14, 0));
            }
            assert_eq!(raw(&marks, &bad, 1, 0), (10, 10, 0));
            assert_eq!(raw(&marks, &bad[1..], 1, 0), (2, 2, 0));
        }
        for length in [1, 7, 9, 16] {
            assert_eq!(raw(&[0, 1], &vec![0; length], 0, 1), (2, 2, 0));
        }
        assert_eq!(raw(&[0, 1], &bad, 0, 1), (14, 14, 0));
    }
}
