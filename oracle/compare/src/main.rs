//! Compares the proved functions with the Rust on drawn problems.
mod call;
mod called;
mod captioned;
mod faint;
mod lent;
mod made;
mod modes;
mod pair;
mod reached;
mod recorded;
mod retired;
mod still;
mod trial;
mod tuned;
mod zeros;

use std::process::ExitCode;

const HELP: &str = "compare SEED COUNT
    the proved run by itself, on the general problems of SEED, SEED + 1, ..: every list by position, rho, r, obj, iterations
    and how the run ended, after every pass of a short run
compare c FIRST LAST
    the four C functions without retired samples, on the problems of the seeds FIRST to LAST: every field of the answer, both
    result lists, every byte that must stay, refusals with their index, short answers and wrong lengths
compare retired FIRST LAST
    the C function with retired samples, likewise; each accepted call again with other retired samples, or by the general
    function where nobody is retired: the same bytes must be written
compare faint FIRST LAST
    all five C functions on problems with weights near the support limit, likewise
compare pair FIRST LAST
    the C function of a single step, on each step of the problems of the seeds FIRST to LAST, drawn as for c and as for faint, and on
    chosen numbers: the two weights, every other byte, and lists that are too short
compare tuned FIRST LAST
    the five C functions that take a tuning, on problems with floors of their own, likewise; and each call again at the usual floor: by
    the functions without a tuning, with an empty one and with 1e-10 the same bytes must be written
compare still FIRST LAST
    the C functions of C, nu and one-class with shrinking off, with floors and without, likewise; and each accepted call again by the first
    trainer, through the general function and by position: all bytes of the answer and both readings must be the same
compare modes FIRST LAST
    the four C functions that know a mode, in the crate's and in travelling, each beside the Rust in that mode, likewise; with one common
    ceiling, and with shrinking off, both modes must write the same bytes
compare recorded FILE
    the proved run by itself, on the recorded general problems: order and weights by position, rho, r, obj, iterations, reason,
    refusal 11, and after each pass that is recorded the weights of its pair; and the C functions on those with retired samples, and on
    those of C, nu and one-class with shrinking off
compare captions FILE..
    the C functions on real captions: the first 64, 128, 256 and 512 of each file of captions/make.py, shrinking off and on
Everything is compared bit for bit with the Rust whose max and min keep the first of two zeros of different sign. Runs that met such
zeros are made again by the Rust that keeps the second, and by its own max and min: all but the sign of a zero rho under the C rule
must stay. What the runs reached is counted. The exit status is 1 where one differs, or where 5000 seeds or more didn't reach everything.";

fn main() -> ExitCode {
    let words: Vec<String> = std::env::args().skip(1).collect();
    let words: Vec<&str> = words.iter().map(String::as_str).collect();
    let differ = match words[..] {
        ["c", first, last] => both(first, last).map(|(first, last)| called::compare(first, last)),
        ["retired", first, last] => {
            both(first, last).map(|(first, last)| retired::compare(first, last))
        }
        ["faint", first, last] => {
            both(first, last).map(|(first, last)| faint::compare(first, last))
        }
        ["tuned", first, last] => {
            both(first, last).map(|(first, last)| tuned::compare(first, last))
        }
        ["still", first, last] => {
            both(first, last).map(|(first, last)| still::compare(first, last))
        }
        ["modes", first, last] => {
            both(first, last).map(|(first, last)| modes::compare(first, last))
        }
        ["pair", first, last] => both(first, last).map(|(first, last)| pair::compare(first, last)),
        ["recorded", file] => recorded::compare(file),
        ["captions", ..] => captioned::compare(&words[1..]),
        [seed, count] => both(seed, count).map(|(seed, count)| trial::compare(seed, count)),
        _ => None,
    };
    match differ {
        Some(0) => ExitCode::SUCCESS,
        Some(_) => ExitCode::FAILURE,
        None => {
            eprintln!("{HELP}");
            ExitCode::from(2)
        }
    }
}

fn both(a: &str, b: &str) -> Option<(u64, u64)> {
    Some((a.parse().ok()?, b.parse().ok()?))
}
