//! The benchmark: `bench/run` says what it is for and calls it.
mod counted;
mod given;
mod library;
mod page;
mod peers;
mod rows;
mod rust;

use given::{captions, points, Given, Task};
use peers::{Libsvm, Sklearn};
use rows::{before, compared, measured, Answers};
use std::path::{Path, PathBuf};
use std::process::ExitCode;

const HELP: &str = "bench table PAGE FOLDER MACHINE [FILE..]
    times all and writes PAGE; FOLDER is for what is drawn and counted, MACHINE a file with a line for each thing to say of the machine
bench quick
    compares the library with the Rust, bit for bit, on the drawn matrices of 64 and 128 samples, and with shrinking off its two trainers
bench once library|first|rust|libsvm FILE TASK SHRINKING
    one training; TASK is c:10, nu:0.3 or one-class:0.2, say, SHRINKING 0 or 1";

/// The threshold of every training.
pub const EPS: f64 = 0.001;

/// What is compared of an answer.
pub struct Fit {
    pub rho: f64,
    pub obj: f64,
    pub iterations: u64,
    pub crate_reading: Vec<f64>,
    /// The Rust that is timed has none.
    pub home: Option<Vec<f64>>,
}

impl Fit {
    /// Bit for bit, in what both have.
    pub fn same(a: &Fit, b: &Fit) -> bool {
        let bits = |xs: &[f64]| -> Vec<u64> { xs.iter().map(|x| x.to_bits()).collect() };
        let homes = match (&a.home, &b.home) {
            (Some(a), Some(b)) => bits(a) == bits(b),
            _ => true,
        };
        a.iterations == b.iterations
            && bits(&[a.rho, a.obj]) == bits(&[b.rho, b.obj])
            && bits(&a.crate_reading) == bits(&b.crate_reading)
            && homes
    }
}

pub fn median(mut xs: Vec<f64>) -> Option<f64> {
    xs.sort_by(f64::total_cmp);
    let (low, high) = (xs.get(xs.len().checked_sub(1)? / 2)?, xs.get(xs.len() / 2)?);
    Some((low + high) / 2.0)
}

fn main() -> ExitCode {
    let words: Vec<String> = std::env::args().skip(1).collect();
    let words: Vec<&str> = words.iter().map(String::as_str).collect();
    rust::quiet();
    let well = match words[..] {
        ["table", page, folder, machine, ref files @ ..] => table(page, folder, machine, files),
        ["quick"] => Some(quick()),
        ["once", who, file, task, shrinking] => once(who, file, task, shrinking),
        _ => None,
    };
    match well {
        Some(true) => ExitCode::SUCCESS,
        Some(false) => ExitCode::FAILURE,
        None => {
            eprintln!("{HELP}");
            ExitCode::from(2)
        }
    }
}

fn read(file: &str) -> Option<Given> {
    let name = Path::new(file).file_stem()?.to_str()?;
    let given = std::fs::read(file).ok().and_then(|b| Given::read(name, &b));
    if given.is_none() {
        eprintln!("{file}: not n, 8·n·n bytes of a matrix and n labels, with n of 1 to 512");
    }
    given
}

fn quick() -> bool {
    let (mut all, mut differ) = (0, 0);
    for given in [captions(64), points(64), captions(128), points(128)] {
        for task in Task::ALL {
            for shrinking in [false, true] {
                all += 1;
                if compared(&given, task, shrinking).0 == Answers::Differ {
                    let (name, n, task) = (&given.name, given.n, task.name());
                    println!("{name}, n = {n}, {task}, shrinking {shrinking}: the answers differ");
                    differ += 1;
                }
            }
        }
    }
    println!("{all} trainings, differ {differ}");
    differ == 0
}

fn once(who: &str, file: &str, task: &str, shrinking: &str) -> Option<bool> {
    let given = read(file)?;
    let (task, shrinking) = (Task::read(task)?, shrinking != "0");
    match who {
        "library" => library::Library::new(&given, task, shrinking).fit(),
        "first" if !shrinking => library::First::new(&given, task).fit(),
        "rust" => rust::Rust::new(&given, task, shrinking).fit(),
        "libsvm" => {
            let mut libsvm = Libsvm::new(&given, task, shrinking)?;
            libsvm.fit();
            libsvm.forget();
        }
        _ => return None,
    }
    Some(true)
}

/// The file of a matrix, for who can't be handed it otherwise.
fn file_of(folder: &Path, given: &Given) -> PathBuf {
    folder.join(format!("{}-{}.bin", given.name, given.n))
}

fn table(page: &str, folder: &str, machine: &str, files: &[&str]) -> Option<bool> {
    let folder = Path::new(folder);
    let machine = std::fs::read_to_string(machine).ok()?;
    let effort: f64 = match std::env::var("BENCH_EFFORT") {
        Ok(word) => word.parse().ok()?,
        Err(_) => 1.0,
    };
    let mut all: Vec<Given> = Vec::new();
    for n in [64, 128, 256, 512] {
        all.push(captions(n));
    }
    for n in [64, 128, 256, 512] {
        all.push(points(n));
    }
    for file in files {
        all.push(read(file)?);
    }
    let python = std::env::var("BENCH_PYTHON").unwrap_or_else(|_| "python3".to_string());
    let script = concat!(env!("CARGO_MANIFEST_DIR"), "/peers/inner_fit.py");
    let mut sklearn = Sklearn::start(&python, script);
    let mut rows = Vec::new();
    for given in &all {
        let file = file_of(folder, given);
        std::fs::write(&file, given.bytes()).ok()?;
        if let Some(sklearn) = &mut sklearn {
            sklearn.open(&file);
        }
        for shrinking in [false, true] {
            for task in Task::ALL {
                let row = measured(given, task, shrinking, &mut sklearn, effort);
                eprintln!("{}", page::line(&row));
                rows.push(row);
            }
        }
    }
    let counted_on = &all[2];
    let file = file_of(folder, counted_on);
    let count = |who, function| counted::counted(folder, &file, who, function);
    let counts = [
        count("library", "altuliscia_c"),
        count("first", "altuliscia_general"),
        count("rust", "rust_fit"),
        if cfg!(libsvm) {
            count("libsvm", "svm_train")
        } else {
            None
        },
    ];
    let mut machine = machine;
    if let Some(sklearn) = &sklearn {
        machine += &format!("- scikit-learn {}\n", sklearn.version);
    } else {
        machine += "- scikit-learn: missing (`apt install python3-sklearn`)\n";
    }
    let largest = all.iter().filter(|given| given.n == 512);
    let before = largest.flat_map(|given| Task::ALL.map(|task| before(given, task, effort)));
    let touched = std::fs::read_to_string(folder.join("touched"));
    let beside = page::Beside {
        counts: &counts,
        counted_on,
        machine: &machine,
        before: &before.flatten().collect::<Vec<_>>(),
        touched: &touched.unwrap_or_default(),
    };
    let text = page::text(&rows, &beside);
    std::fs::write(page, text).ok()?;
    Some(rows.iter().all(|row| row.answers != Answers::Differ))
}
