//! The oracle's command line.

use oracle::marks::{Owed, Tally};
use oracle::{
    draw, draw_faint, draw_modes, draw_retired, draw_still, draw_tuned, record, show, solve,
    worked, Outcome, Problem,
};
use std::process::ExitCode;
use std::time::Instant;

const HELP: &str = "oracle COMMAND

  worked            run the worked examples; exit 1 on a difference
  record FILE       write the file of recorded answers
  check FILE        recompute every record of the file; exit 1 on a difference
  draw SEED COUNT   solve COUNT problems drawn from SEED, SEED + 1, ..
                    and count what they reach
  show SEED         one drawn problem, its answer and its passes
  draw retired SEED COUNT, show retired SEED
                    the same of problems with retired samples
  draw faint SEED COUNT, show faint SEED
                    the same of problems with weights near the support limit
  draw tuned SEED COUNT, show tuned SEED
                    the same of problems with floors of their own
  draw still SEED COUNT, show still SEED
                    the same of problems with shrinking off, of C, nu and one-class
  draw modes SEED COUNT, show modes SEED
                    the same in the travelling mode, most with ceilings that differ
";

fn main() -> ExitCode {
    let args: Vec<String> = std::env::args().skip(1).collect();
    let args: Vec<&str> = args.iter().map(String::as_str).collect();
    let result = match args.as_slice() {
        ["worked"] => run_worked(),
        ["record", path] => run_record(path),
        ["check", path] => run_check(path),
        ["draw", seed, count] => run_draw(draw, Owed::Some, seed, count),
        ["draw", "retired", seed, count] => run_draw(draw_retired, Owed::Retired, seed, count),
        ["draw", "faint", seed, count] => run_draw(draw_faint, Owed::Faint, seed, count),
        ["draw", "tuned", seed, count] => run_draw(draw_tuned, Owed::Tuned, seed, count),
        ["draw", "still", seed, count] => run_draw(draw_still, Owed::Still, seed, count),
        ["draw", "modes", seed, count] => run_draw(draw_modes, Owed::Modes, seed, count),
        ["show", seed] => run_show(draw, seed),
        ["show", "retired", seed] => run_show(draw_retired, seed),
        ["show", "faint", seed] => run_show(draw_faint, seed),
        ["show", "tuned", seed] => run_show(draw_tuned, seed),
        ["show", "still", seed] => run_show(draw_still, seed),
        ["show", "modes", seed] => run_show(draw_modes, seed),
        _ => Err(HELP.to_string()),
    };
    match result {
        Ok(()) => ExitCode::SUCCESS,
        Err(message) => {
            eprintln!("{message}");
            ExitCode::FAILURE
        }
    }
}

fn number(text: &str) -> Result<u64, String> {
    text.parse().map_err(|_| format!("{text} isn't a number"))
}

fn run_worked() -> Result<(), String> {
    let all = worked::worked();
    let mut differ = 0;
    for example in &all {
        println!("{}", example.given);
        println!("  expected  {}", example.expected);
        println!("  came      {}", example.came);
        if !example.holds() {
            println!("  DIFFERS");
            differ += 1;
        }
    }
    println!("{} examples, {differ} differ", all.len());
    if differ == 0 {
        Ok(())
    } else {
        Err(format!("{differ} of {} examples differ", all.len()))
    }
}

fn run_record(path: &str) -> Result<(), String> {
    let (records, tally) = record::chosen();
    let bytes = record::file(&records);
    std::fs::write(path, &bytes).map_err(|e| format!("{path}: {e}"))?;
    tell(&tally);
    println!("{} records, {} bytes", records.len(), bytes.len());
    Ok(())
}

fn run_check(path: &str) -> Result<(), String> {
    let bytes = std::fs::read(path).map_err(|e| format!("{path}: {e}"))?;
    let tally = record::check(&bytes).map_err(|wrong| wrong.join("\n"))?;
    tell(&tally);
    println!("every answer came out as it is recorded");
    Ok(())
}

fn run_draw(draw: fn(u64) -> Problem, owed: Owed, seed: &str, count: &str) -> Result<(), String> {
    let (seed, count) = (number(seed)?, number(count)?);
    let start = Instant::now();
    let mut tally = Tally::owing(&[owed]);
    let mut faults = 0;
    for k in 0..count {
        let seed = seed.wrapping_add(k);
        let p = draw(seed);
        let answer = solve(&p, false);
        if let Outcome::Fault(message) = &answer.outcome {
            eprintln!("seed {seed}: {message}");
            faults += 1;
        }
        tally.add(&p, &answer);
    }
    tell(&tally);
    println!("{:.2} seconds", start.elapsed().as_secs_f64());
    if faults == 0 {
        Ok(())
    } else {
        Err(format!("the oracle itself failed {faults} times"))
    }
}

fn run_show(draw: fn(u64) -> Problem, seed: &str) -> Result<(), String> {
    let p = draw(number(seed)?);
    print!("{}", show::problem(&p));
    println!();
    print!("{}", show::answer(&solve(&p, true)));
    Ok(())
}

fn tell(tally: &Tally) {
    for line in tally.lines() {
        println!("{line}");
    }
}
