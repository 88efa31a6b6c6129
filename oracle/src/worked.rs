//! The rule's worked examples, each with what is expected and what came.

use crate::draw::{PAST_LIMIT, PAST_ONE};
use crate::judge::Refusal;
use crate::problem::{Entry, Problem, LIMIT, USUAL_FLOOR};
use crate::run::{caught, solve, Outcome, Reason};
use linfa_kernel::Kernel;
use linfa_svm::permutable_kernel::PermutableKernel;
use linfa_svm::solver_smo::{SolverParams, SolverState};
use ndarray::ArrayView2;

/// One example in plain words.
pub struct Example {
    pub given: String,
    pub expected: String,
    pub came: String,
}

impl Example {
    pub fn holds(&self) -> bool {
        self.expected == self.came
    }
}

/// All worked examples, in the rule's order.
pub fn worked() -> Vec<Example> {
    let mut all = readings();
    all.extend(moves());
    all.extend(walks());
    all.extend(runs());
    all.extend(ends());
    all
}

/// The problems of the worked runs, for the record. Those of 512 and 513
/// samples are left out for their size.
pub fn problems() -> Vec<Problem> {
    let mut all = vec![
        two(1.0, 2),
        two(1.0, 1),
        two(0.5, 2),
        one_label(),
        tail(5),
        tail(4),
    ];
    for x in [LIMIT, -LIMIT, PAST_LIMIT, -PAST_LIMIT] {
        all.push(with_entry(x));
    }
    for nu in [1.0, PAST_ONE] {
        all.push(with_nu(Entry::Nu, nu));
        all.push(with_nu(Entry::OneClass, nu));
    }
    all
}

// ---- the two readings

fn readings() -> Vec<Example> {
    let weights = [10, 20, 30];
    let table = [
        ([0, 1, 2], [10, 20, 30], [10, 20, 30]),
        ([1, 0, 2], [20, 10, 30], [20, 10, 30]),
        ([1, 2, 0], [20, 30, 10], [30, 10, 20]),
        ([2, 0, 1], [30, 10, 20], [20, 30, 10]),
    ];
    let told = |a: [i32; 3], b: [i32; 3]| format!("crate {a:?}, home {b:?}");
    table
        .into_iter()
        .map(|(order, crate_reading, home)| {
            let mut came = [0; 3];
            for k in 0..3 {
                came[order[k]] = weights[k];
            }
            Example {
                given: format!("weights by position {weights:?}, order {order:?}"),
                expected: told(crate_reading, home),
                came: told(order.map(|s| weights[s]), came),
            }
        })
        .collect()
}

// ---- moves and walks, on the published solver's own state

type State = SolverState<'static, f64, PermutableKernel<f64>>;

/// A state whose position k is kept by a shrink walk where the pattern has K
/// and dropped where it has S: a free weight with gradient 0, or one at its
/// ceiling that wants to rise further.
fn state(pattern: &str) -> State {
    let n = pattern.len();
    let by = |keep: f64, drop: f64| -> Vec<f64> {
        pattern
            .chars()
            .map(|c| if c == 'K' { keep } else { drop })
            .collect()
    };
    SolverState::new(
        by(0.5, 1.0),
        by(0.0, -10.0),
        vec![true; n],
        ArrayView2::from_rows(0, 0, &[]),
        PermutableKernel::new(Kernel::given(n, vec![0.0; n * n]), vec![true; n]),
        vec![1.0; n],
        SolverParams {
            eps: 0.0,
            shrinking: true,
            budget: 1,
            floor: USUAL_FLOOR,
            travelling: false,
        },
        false,
    )
}

/// The order, out of the state's own text: nothing else hands it out.
fn order(state: &State) -> String {
    let text = format!("{state:?}");
    let from = text
        .find("active_set: [")
        .expect("the state tells its order")
        + 12;
    let to = from + text[from..].find(']').expect("a list ends") + 1;
    text[from..to].to_string()
}

fn moves() -> Vec<Example> {
    let table = [
        ("moves (0,1), (1,2)", vec![(0, 1), (1, 2)], "[1, 2, 0]"),
        ("move (1,1)", vec![(1, 1)], "[0, 1, 2]"),
        ("move (0,1) twice", vec![(0, 1), (0, 1)], "[0, 1, 2]"),
    ];
    table
        .into_iter()
        .map(|(given, pairs, expected)| {
            let mut s = state("KKK");
            for (i, j) in pairs {
                s.swap(i, j);
            }
            Example {
                given: format!("{given} from order 0 1 2"),
                expected: format!("order {expected}"),
                came: format!("order {}", order(&s)),
            }
        })
        .collect()
}

fn walks() -> Vec<Example> {
    let table = [
        ("KK", "order [0, 1], active 2"),
        ("S", "order [0], active 0"),
        ("SK", "order [1, 0], active 0"),
        ("KSS", "order [0, 1, 2], active 0"),
        ("KKKSSSS", "order [0, 1, 2, 3, 4, 5, 6], active 0"),
        ("KKKSSSSS", "refusal 11"),
    ];
    table
        .into_iter()
        .map(|(pattern, expected)| {
            let came = caught(|| {
                let mut s = state(pattern);
                s.do_shrinking();
                format!("order {}, active {}", order(&s), s.nactive())
            });
            Example {
                given: format!("shrink walk over {pattern} (K keep, S drop)"),
                expected: expected.to_string(),
                came: came.unwrap_or_else(|stopped| {
                    if stopped.is_refusal() {
                        "refusal 11".to_string()
                    } else {
                        "another panic".to_string()
                    }
                }),
            }
        })
        .collect()
}

// ---- runs

fn identity(n: usize) -> Vec<f64> {
    (0..n * n)
        .map(|k| f64::from(u8::from(k / n == k % n)))
        .collect()
}

fn two(c: f64, budget: u64) -> Problem {
    let mut p = Problem::over(Entry::C, 2, &identity(2));
    p.labels = vec![1, 0];
    p.cpos = c;
    p.cneg = c;
    p.eps = 0.001;
    p.budget = budget;
    p
}

fn one_label() -> Problem {
    let mut p = two(1.0, 2);
    p.labels = vec![1, 1];
    p
}

/// Three free weights and a tail of that many at their ceiling.
fn tail(long: usize) -> Problem {
    let n = 3 + long;
    let with = |mut front: Vec<f64>, rest: f64| {
        front.resize(n, rest);
        front
    };
    let mut p = Problem::over(Entry::General, n, &identity(n));
    p.labels = vec![1; n];
    p.ceilings = vec![100.0; n];
    p.alphas = with(vec![50.0; 3], 100.0);
    p.linear = with(vec![0.0, 1.0, 3.0], -1000.0);
    p.shrinking = true;
    p.budget = 100;
    p
}

/// Two samples whose last matrix entry is x.
fn with_entry(x: f64) -> Problem {
    let mut p = two(1.0, 2);
    p.set_pattern(3, x.to_bits());
    p
}

fn with_nu(entry: Entry, nu: f64) -> Problem {
    let mut p = Problem::over(entry, 2, &identity(2));
    if entry == Entry::Nu {
        p.labels = vec![1, 0];
    }
    p.nu = nu;
    p.eps = 0.001;
    p.budget = 2;
    p
}

fn sized(n: usize) -> Problem {
    let mut p = Problem::over(Entry::C, n, &identity(n));
    p.labels = (0..n).map(|k| u8::from(k % 2 == 0)).collect();
    p.cpos = 1.0;
    p.cneg = 1.0;
    p.eps = 0.001;
    p.budget = 1000;
    p
}

/// An answer in words. A zero is a zero here, whatever its sign.
fn told(p: &Problem) -> String {
    match solve(p, false).outcome {
        Outcome::Refused(Refusal { number, index }) => {
            format!("refusal {number} at index {index}")
        }
        Outcome::Fault(message) => format!("a fault of the oracle: {message}"),
        Outcome::Accepted(a) => {
            let list: Vec<String> = a.home.iter().map(|x| (x + 0.0).to_string()).collect();
            let reason = match a.reason {
                Reason::Threshold => "threshold",
                Reason::Iterations => "iterations",
            };
            format!(
                "coefficients {}; rho {}, obj {}, iterations {}, reason {reason}",
                list.join(" "),
                a.rho + 0.0,
                a.obj + 0.0,
                a.iterations
            )
        }
    }
}

fn verdict(p: &Problem) -> String {
    match solve(p, false).outcome {
        Outcome::Accepted(_) => "accepted".to_string(),
        Outcome::Refused(Refusal { number, index }) => {
            format!("refusal {number} at index {index}")
        }
        Outcome::Fault(message) => format!("a fault of the oracle: {message}"),
    }
}

fn runs() -> Vec<Example> {
    let mut all = Vec::new();
    let mut both = |given: &str, p: Problem, expected: &str| {
        for shrinking in [false, true] {
            let mut p = p.clone();
            p.shrinking = shrinking;
            all.push(Example {
                given: format!(
                    "{given}, shrinking {}",
                    if shrinking { "on" } else { "off" }
                ),
                expected: expected.to_string(),
                came: told(&p),
            });
        }
    };
    let two_samples = "identity matrix, n 2, labels 1 0, eps 0.001";
    both(
        &format!("{two_samples}, C 1 and 1, budget 2"),
        two(1.0, 2),
        "coefficients 1 -1; rho 0, obj -1, iterations 1, reason threshold",
    );
    both(
        &format!("{two_samples}, C 1 and 1, budget 1"),
        two(1.0, 1),
        "coefficients 1 -1; rho 0, obj -1, iterations 1, reason iterations",
    );
    both(
        &format!("{two_samples}, C 0.5 and 0.5, budget 2"),
        two(0.5, 2),
        "coefficients 0.5 -0.5; rho 0, obj -0.75, iterations 1, reason threshold",
    );
    both(
        "C entry, all labels 1",
        one_label(),
        "coefficients 0 0; rho -inf, obj 0, iterations 0, reason threshold",
    );
    all.push(Example {
        given: "three free weights and a tail of five at the ceiling".to_string(),
        expected: "refusal 11 at index 0".to_string(),
        came: told(&tail(5)),
    });
    let came = match solve(&tail(4), false).outcome {
        Outcome::Accepted(a) => format!(
            "accepted, iterations {}, rho {}, reason {:?}",
            a.iterations, a.rho, a.reason
        ),
        _ => told(&tail(4)),
    };
    all.push(Example {
        given: "three free weights and a tail of four at the ceiling".to_string(),
        expected: "accepted, iterations 7, rho NaN, reason Threshold".to_string(),
        came,
    });
    all
}

fn ends() -> Vec<Example> {
    let example = |given: &str, p: Problem, expected: &str| Example {
        given: given.to_string(),
        expected: expected.to_string(),
        came: verdict(&p),
    };
    vec![
        example("n 512", sized(512), "accepted"),
        example("n 513", sized(513), "refusal 1 at index 0"),
        example("a kernel entry of 2^1000", with_entry(LIMIT), "accepted"),
        example("a kernel entry of -2^1000", with_entry(-LIMIT), "accepted"),
        example(
            "a kernel entry of the next f64 above 2^1000",
            with_entry(PAST_LIMIT),
            "refusal 3 at index 3",
        ),
        example(
            "a kernel entry of the next f64 below -2^1000",
            with_entry(-PAST_LIMIT),
            "refusal 3 at index 3",
        ),
        example("nu entry, nu 1", with_nu(Entry::Nu, 1.0), "accepted"),
        example(
            "nu entry, the next f64 above 1",
            with_nu(Entry::Nu, PAST_ONE),
            "refusal 9 at index 0",
        ),
        example(
            "one-class entry, nu 1",
            with_nu(Entry::OneClass, 1.0),
            "accepted",
        ),
        example(
            "one-class entry, the next f64 above 1",
            with_nu(Entry::OneClass, PAST_ONE),
            "refusal 9 at index 0",
        ),
    ]
}
