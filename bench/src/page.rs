//! The page that the benchmark writes: tables, and what they say of the goals.
use crate::counted::Counted;
use crate::given::{Given, Task};
use crate::median;
use crate::rows::{Answers, Before, Row, FIRST, LIBRARY, LIBSVM, RUST, SKLEARN};

/// What stands beside the rows: instructions of library, first trainer, Rust and LIBSVM on one problem, the lines about the machine,
/// what is spent before the passes, and what bench/touched.c counted.
pub struct Beside<'a> {
    pub counts: &'a [Option<Counted>; 4],
    pub counted_on: &'a Given,
    pub machine: &'a str,
    pub before: &'a [Before],
    pub touched: &'a str,
}

const WHO: [&str; 4] = ["library", "first trainer", "Rust", "LIBSVM"];

fn shown(x: Option<f64>, places: usize) -> String {
    x.map_or(String::new(), |x| format!("{x:.places$}"))
}

fn micro(x: Option<f64>) -> String {
    shown(x.map(|x| x / 1e3), 0)
}

fn what(row: &Row) -> String {
    format!("{}, n = {}, {}", row.name, row.n, row.task.name())
}

/// A row for who waits for the page.
pub fn line(row: &Row) -> String {
    let ratios = [LIBRARY, FIRST, LIBSVM, SKLEARN].map(|who| (who, RUST));
    let ratios = ratios.map(|(a, b)| shown(row.ratio(a, b), 2));
    let on = if row.shrinking { "on" } else { "off" };
    format!("{}, shrinking {on}: {}", what(row), ratios.join(" "))
}

fn mean(rows: &[&Row], a: usize, b: usize) -> Option<f64> {
    let logs: Vec<f64> = rows
        .iter()
        .flat_map(|r| r.ratio(a, b))
        .map(f64::ln)
        .collect();
    let all = logs.len();
    (all > 0).then(|| (logs.iter().sum::<f64>() / all as f64).exp())
}

/// The row in which the library is slowest beside that one.
fn worst<'a>(rows: &[&'a Row], beside: usize) -> Option<(f64, &'a Row)> {
    let all = rows
        .iter()
        .flat_map(|r| Some((r.ratio(LIBRARY, beside)?, *r)));
    all.max_by(|a, b| a.0.total_cmp(&b.0))
}

/// What a goal asks of a ratio.
enum Asked {
    AtMost(f64),
    Below(f64),
}

/// One goal as a line of the table: what is asked, what was measured.
fn goal(what: &str, asked: Asked, found: Option<f64>, place: String) -> String {
    let (words, met) = match asked {
        Asked::AtMost(x) => (format!("at most {x}"), found.map(|found| found <= x)),
        Asked::Below(x) => (format!("below {x}"), found.map(|found| found < x)),
    };
    let met = match met {
        Some(true) => "yes",
        Some(false) => "no",
        None => "not measured",
    };
    let found = shown(found, 2);
    format!("| {what} | {words} | {found}{place} | {met} |\n")
}

/// In the mean of the rows.
fn mean_goal(what: &str, asked: Asked, rows: &[&Row], beside: usize) -> String {
    let what = format!("{what}, geometric mean of all rows");
    goal(&what, asked, mean(rows, LIBRARY, beside), String::new())
}

/// In the worst of them.
fn worst_goal(what: &str, asked: Asked, rows: &[&Row], beside: usize) -> String {
    let found = worst(rows, beside);
    let place = found.map_or(String::new(), |(_, r)| format!(" ({})", self::what(r)));
    goal(what, asked, found.map(|w| w.0), place)
}

fn goals(rows: &[Row]) -> String {
    let off: Vec<&Row> = rows.iter().filter(|r| !r.shrinking).collect();
    let on: Vec<&Row> = rows.iter().filter(|r| r.shrinking).collect();
    let lines = [
        mean_goal(
            "shrinking off: the Rust's time",
            Asked::AtMost(0.25),
            &off,
            RUST,
        ),
        worst_goal(
            "shrinking off: the Rust's time, worst row",
            Asked::AtMost(0.32),
            &off,
            RUST,
        ),
        mean_goal(
            "shrinking off: LIBSVM's time",
            Asked::AtMost(0.45),
            &off,
            LIBSVM,
        ),
        worst_goal(
            "shrinking off: LIBSVM's time, worst row",
            Asked::Below(1.0),
            &off,
            LIBSVM,
        ),
        worst_goal(
            "shrinking off: scikit-learn's time, worst row",
            Asked::Below(1.0),
            &off,
            SKLEARN,
        ),
        worst_goal(
            "shrinking on: the Rust's time, worst row that the Rust ends",
            Asked::AtMost(1.0),
            &on,
            RUST,
        ),
    ];
    let head = "| Goal for the library | asked | measured | met |\n|---|---|---|---|\n";
    format!("{head}{}\n", lines.concat())
}

fn answers(row: &Row) -> &'static str {
    match row.answers {
        Answers::Equal => "equal",
        Answers::Refused => "refusal 11, the Rust panics",
        Answers::Differ => "DIFFER",
    }
}

/// Which ratios stand in a row: with shrinking off the first trainer's, too.
const OFF: [(usize, usize, &str); 7] = [
    (LIBRARY, RUST, "library / Rust"),
    (LIBRARY, FIRST, "library / first trainer"),
    (FIRST, RUST, "first trainer / Rust"),
    (LIBSVM, RUST, "LIBSVM / Rust"),
    (SKLEARN, RUST, "scikit-learn / Rust"),
    (LIBRARY, LIBSVM, "library / LIBSVM"),
    (LIBRARY, SKLEARN, "library / scikit-learn"),
];

const ON: [(usize, usize, &str); 5] = [OFF[0], OFF[3], OFF[4], OFF[5], OFF[6]];

fn table(rows: &[&Row], shrinking: bool) -> String {
    let ratios: &[(usize, usize, &str)] = if shrinking { &ON } else { &OFF };
    let mut times = vec![
        (LIBRARY, "library µs"),
        (FIRST, "first trainer µs"),
        (RUST, "Rust µs"),
    ];
    times.retain(|(who, _)| !shrinking || *who != FIRST);
    let mut head = vec!["n", "task", "passes", "LIBSVM's"];
    head.extend(times.iter().map(|(_, name)| name));
    head.extend(ratios.iter().map(|(_, _, name)| name));
    head.push("answers");
    let mut text = format!("| {} |\n|{}\n", head.join(" | "), "---|".repeat(head.len()));
    for row in rows {
        let passes = match row.answers {
            Answers::Equal => row.passes.to_string(),
            _ => String::new(),
        };
        let others = row.libsvm_passes.or(row.sklearn_passes);
        let others = others.map_or(String::new(), |p| p.to_string());
        let mut cells = vec![row.n.to_string(), row.task.name(), passes, others];
        cells.extend(times.iter().map(|(who, _)| micro(row.time(*who))));
        cells.extend(ratios.iter().map(|(a, b, _)| shown(row.ratio(*a, *b), 2)));
        cells.push(answers(row).to_string());
        text += &format!("| {} |\n", cells.join(" | "));
    }
    let mut cells = vec![String::new(), "geometric mean".to_string()];
    cells.resize(4 + times.len(), String::new());
    cells.extend(ratios.iter().map(|(a, b, _)| shown(mean(rows, *a, *b), 2)));
    cells.push(String::new());
    text + &format!("| {} |\n\n", cells.join(" | "))
}

/// The names of the sources, in their order, each once.
fn names(rows: &[Row]) -> Vec<&str> {
    let mut names: Vec<&str> = Vec::new();
    for row in rows {
        if !names.contains(&row.name.as_str()) {
            names.push(&row.name);
        }
    }
    names
}

fn tables(rows: &[Row]) -> String {
    let mut text = String::new();
    for name in names(rows) {
        for shrinking in [false, true] {
            let on = if shrinking { "on" } else { "off" };
            text += &format!("### {name}, shrinking {on}\n\n");
            let part = rows
                .iter()
                .filter(|r| r.name == name && r.shrinking == shrinking);
            text += &table(&part.collect::<Vec<_>>(), shrinking);
        }
    }
    text
}

fn instructions(b: &Beside, rows: &[Row]) -> String {
    let on = b.counted_on;
    let row = rows.iter().find(|r| {
        let same = r.name == on.name && r.n == on.n;
        same && r.task == Task::C(10.0) && !r.shrinking
    });
    let Some(row) = row else { return String::new() };
    if b.counts[0].is_none() {
        return "Not counted: valgrind is missing (`apt install valgrind`).\n\n".to_string();
    }
    let mut text = format!(
        "{}, shrinking off, one training. Only what runs within `altuliscia_c`, `altuliscia_general` (the first trainer), `rust_fit` (the call\n\
         of `fit_c`) or `svm_train` is counted (`valgrind --tool=callgrind --toggle-collect=NAME`). A pass is one step; the\n\
         choice that finds nothing more to do counts to the total alone.\n\n\
         | who | instructions | passes | a pass | a pass and sample |\n|---|---|---|---|---|\n",
        what(row)
    );
    let passes = [
        row.passes,
        row.passes,
        row.passes,
        row.libsvm_passes.unwrap_or(0),
    ];
    for ((who, count), passes) in WHO.iter().zip(b.counts).zip(passes) {
        let Some(count) = count else { continue };
        let each = count.all as f64 / passes as f64;
        let cells = [
            who.to_string(),
            count.all.to_string(),
            passes.to_string(),
            format!("{each:.0}"),
            format!("{:.1}", each / on.n as f64),
        ];
        text += &format!("| {} |\n", cells.join(" | "));
    }
    text += "\nBy function, without what it calls, where it is one in a hundred or more. What the compiler put into its caller counts there, and so does `malloc`.\n\n| who | function | instructions | of all |\n|---|---|---|---|\n";
    for (who, count) in WHO.iter().zip(b.counts) {
        let Some(count) = count else { continue };
        for (name, part) in &count.parts {
            let share = *part as f64 / count.all as f64;
            if share >= 0.01 {
                text += &format!(
                    "| {who} | `{}` | {part} | {:.0} % |\n",
                    short(name),
                    100.0 * share
                );
            }
        }
    }
    text + "\n"
}

/// A function's name without its types.
fn short(name: &str) -> String {
    let name = name.split('(').next().unwrap_or(name);
    let name = name
        .trim_start_matches('<')
        .replace("<F,K>", "")
        .replace("<F>", "");
    match name.split_once(" as ") {
        Some((own, rest)) => format!("{own}::{}", rest.rsplit("::").next().unwrap_or("")),
        None => name,
    }
}

/// The tasks whose times are followed from n to n, on the first source.
const FOLLOWED: [Task; 3] = [Task::C(10.0), Task::Nu(0.3), Task::OneClass(0.2)];

/// Nanoseconds for each pass and sample, one column for each n.
fn growth(rows: &[Row]) -> String {
    let source = rows.first().map_or("", |r| r.name.as_str());
    let of = |task: Task| {
        let one = rows.iter().filter(move |r| r.task == task && !r.shrinking);
        one.filter(|r| r.name == source && r.passes > 0)
    };
    let sizes: Vec<String> = of(FOLLOWED[0]).map(|r| format!("n = {}", r.n)).collect();
    let head = format!("| {source} | who | {} |\n", sizes.join(" | "));
    let mut text = format!("{head}|---|---|{}\n", "---|".repeat(sizes.len()));
    for task in FOLLOWED {
        for (who, name) in [(LIBRARY, WHO[0]), (FIRST, WHO[1]), (RUST, WHO[2])] {
            let each = of(task).map(|r| {
                let time = r.time(who).map(|t| t / r.passes as f64 / r.n as f64);
                shown(time, 2)
            });
            let cells: Vec<String> = [task.name(), name.to_string()]
                .into_iter()
                .chain(each)
                .collect();
            text += &format!("| {} |\n", cells.join(" | "));
        }
    }
    text + "\n"
}

/// What is spent before the passes, at the largest n.
fn spent(before: &[Before]) -> String {
    let mut text = String::from(
        "| source | n | task | whole µs | judged µs | of the whole | with one pass µs | of the whole |\n|---|---|---|---|---|---|---|---|\n",
    );
    for b in before {
        let share = |x: f64| format!("{:.0} %", 100.0 * x / b.whole);
        let cells = [
            b.name.clone(),
            b.n.to_string(),
            b.task.name(),
            micro(Some(b.whole)),
            micro(Some(b.judged)),
            share(b.judged),
            micro(Some(b.one_pass)),
            share(b.one_pass),
        ];
        text += &format!("| {} |\n", cells.join(" | "));
    }
    text + "\n"
}

/// Lines of bench/touched.c: n, then the bytes of stack that a call wrote by the library and by the first trainer.
fn memory(touched: &str) -> String {
    let mut text = String::from("| n | trainer | scratch by its definition, bytes | stack that a call wrote, bytes |\n|---|---|---|---|\n");
    for line in touched.lines() {
        let numbers: Vec<usize> = line.split_whitespace().flat_map(str::parse).collect();
        let [n, library, first] = numbers[..] else {
            continue;
        };
        let sheet = 8 * 5 * n + n;
        let table = 8 * 7 * n + 8 * 2 * n + n;
        text += &format!("| {n} | library | {sheet} | {library} |\n| {n} | first trainer | {table} | {first} |\n");
    }
    text + "\n"
}

pub fn text(rows: &[Row], b: &Beside) -> String {
    let turns = rows.iter().map(|r| r.times[LIBRARY].len() as f64).collect();
    let turns = shown(median(turns), 0);
    let differ = rows.iter().filter(|r| r.answers == Answers::Differ).count();
    let refused = rows
        .iter()
        .filter(|r| r.answers == Answers::Refused)
        .count();
    let mut text = format!(
        "# Benchmarks on {}\n\n`bench/run` writes this page. Nothing here is written by hand.\n\n{}\n## What is timed\n\n{TIMED}\n\
         A row is taken in turns: library, first trainer, Rust, LIBSVM, scikit-learn, and again, {turns} times in the middle row. A ratio is the\n\
         median of the ratios turn by turn, so what slows the machine for a while slows all of them. A time is the median of its turns. An empty\n\
         place: that one wasn't there. Before each training its matrix is read once, untimed, so that nobody brings it near for the next one.\n\n{DRAWN}\n## Where it stands\n\n",
        std::env::consts::ARCH.replace('_', "-"),
        b.machine
    );
    if cfg!(target_arch = "x86_64") {
        text += PICTURE;
    }
    text += &goals(rows);
    text += &format!(
        "In the same run the answers were compared: of {} rows {} are equal bit for bit (both readings, rho, obj, iterations; home as the\n\
         oracle has it; with shrinking off those of both trainers), {refused} end in refusal 11 where the Rust panics, {differ} differ.\n\n## Rows\n\n\
         Passes are the library's, which are the Rust's; LIBSVM keeps its rows as single floats and shrinks by other rules, so that its\n\
         passes can be others.\n\n",
        rows.len(),
        rows.len() - refused - differ
    );
    text += &tables(rows);
    text += "## Instructions\n\n";
    text += &instructions(b, rows);
    text += GROWS;
    text += &growth(rows);
    text += SPENT;
    text += &spent(b.before);
    text += MEMORY;
    text += &memory(b.touched);
    text.trim_end().to_string() + "\n"
}

/// `bench/run` has it made of this page.
const PICTURE: &str = "![For each row with shrinking off two bars, the time of the library and that of LIBSVM, each by the Rust's.](benchmarks.svg)\n\n";

const GROWS: &str = "\
## How time grows

Nanoseconds for each pass and sample, shrinking off, the whole call. A pass goes over the samples a few times, so this should stay about the
same from n to n; what is asked once (judging n·n entries, and the start of nu and one-class) shows where there are few passes.

";

const SPENT: &str = "\
## Before the passes

The library, shrinking off. Judged: the same call with a budget of 0. It is refused with 10, which comes behind 3, so by then every entry of the matrix has
been judged, and no training has begun. With one pass: a budget of 1, which has the start and the answer in it, too. Both in turns with the whole call.

";

const MEMORY: &str = "\
## Memory

Beside what is lent to both: matrix, labels, result lists. By the definitions the trainer without an order table takes 5n floats and n bytes of
scratch, the first trainer 7n floats, 2n numbers of eight bytes and n bytes (docs/RULE.md). The C functions bring it on the stack, with room for 512
samples. How many bytes of the stack a call wrote was counted on a painted one (bench/touched.c; C = 1, shrinking off): by `altuliscia_c`, and by
`altuliscia_general` as the first trainer, which decodes three lists of n floats more.

";

const TIMED: &str = "\
- Library: the whole C call, with judging every matrix entry before the run, decoding and writing the answer. With shrinking off it trains without
  an order table, with shrinking on by the first trainer (docs/RULE.md, 'Without an order table').
- First trainer: with shrinking off the whole call of `altuliscia_general` on what the task starts from. It trains with an order table; its answer,
  signed and divided as the task's, must be the library's.
- Rust: `fit_c`, `fit_nu` or `fit_one_class` of the published text (oracle/published), without a line added, over the cheapest host:
  the matrix is shared, and a column is lent, not copied. The rows that its `distances` makes it makes itself. Built for release
  (opt-level 3, one codegen unit, lto), without overflow checks.
- LIBSVM: `svm_train` with a precomputed kernel and 400 MB for its rows; the matrix is brought into its form beforehand.
- scikit-learn: its inner `_libsvm.fit` with a precomputed kernel, timed within Python.

All have eps 0.001, run on one thread and are built for any machine of this kind, by no option for its processor.
";

const DRAWN: &str = "\
Matrices are drawn from fixed seeds by exactly rounded operations alone: `captions` compares captions of two drawn languages by the
pieces of one to three letters that they share; `points` compares points of eight numbers by (1 + d²/16)^-16, which is near a
Gaussian. Half the samples are positive, in no order. A file given to `bench/run` (n in eight bytes, the matrix in 8·n·n as
docs/BYTES.md has it, n labels) is one more source.
";
