//! LIBSVM's svm-predict reads the model files and decides as the library's weights do.
mod bare;
mod whole;

use altuliscia::{
    fit_c, fit_c_retired, fit_nu, fit_one_class, Answer, OneClass, Options, Problem, SUPPORT_LIMIT,
};
use bare::bare;
use captions::{decision, Figures, Model, Several};
use std::fs;
use std::io::Write;
use std::path::{Path, PathBuf};
use std::process::{Command, Stdio};
use whole::whole;

const PAIRS: [(&str, &str); 2] = [
    ("cs-sk", include_str!("../../../captions/cs-sk.txt")),
    ("da-sv", include_str!("../../../captions/da-sv.txt")),
];

fn folder(name: &str) -> PathBuf {
    let path = PathBuf::from(env!("CARGO_TARGET_TMPDIR")).join(name);
    let _ = fs::remove_dir_all(&path);
    fs::create_dir_all(&path).unwrap();
    path
}

/// Whether svm-predict is installed. Where it isn't, one line says so past the tests' own output.
fn there() -> bool {
    static SAID: std::sync::Once = std::sync::Once::new();
    let mut command = Command::new("svm-predict");
    let started = command.stdout(Stdio::null()).stderr(Stdio::null()).status();
    if started.is_err() {
        SAID.call_once(|| {
            let line =
                "NOT RUN: models read by svm-predict; it is in Debian's package libsvm-tools";
            let _ = writeln!(std::io::stderr(), "{}", line);
        });
    }
    started.is_ok()
}

/// The model that is there, without its record.
fn model_in(folder: &Path) -> String {
    bare(&fs::read_to_string(folder.join("model")).unwrap()).to_string()
}

/// Trains a text through the command line and has svm-predict label another.
fn predicted(folder: &Path, train: &str, held: &str, options: &str) -> Vec<i32> {
    let path = |name: &str| folder.join(name).to_str().unwrap().to_string();
    fs::write(path("train"), train).unwrap();
    fs::write(path("held"), held).unwrap();
    let mut words = vec!["train".to_string(), path("train"), path("model")];
    words.extend(options.split_whitespace().map(str::to_string));
    let words: Vec<&str> = words.iter().map(String::as_str).collect();
    let (status, _, err) = whole(&words);
    let expected = if options.contains("--write-anyway") {
        6
    } else {
        0
    };
    assert_eq!(status, expected, "{} {}", options, err);
    labelled(folder)
}

/// What svm-predict labels by the files that are there.
fn labelled(folder: &Path) -> Vec<i32> {
    let path = |name: &str| folder.join(name).to_str().unwrap().to_string();
    let files = ["held", "model", "labels"].map(path);
    let output = Command::new("svm-predict").args(&files).output().unwrap();
    assert!(output.status.success(), "{:?}", output);
    let labels = fs::read_to_string(&files[2]).unwrap();
    labels.lines().map(|line| line.parse().unwrap()).collect()
}

/// The library's own decision on every held-out caption: true is the first class. None of them is near 0, where another order of
/// the sum might part.
fn decided(figures: &Figures, answer: &Answer) -> Vec<bool> {
    let n = answer.home.len();
    let values = figures
        .held
        .iter()
        .map(|caption| figures.values(caption, n));
    values
        .map(|row| decision(&answer.home, &row, answer.rho))
        .inspect(|d| assert!(d.abs() > 1e-12))
        .map(|d| d >= 0.0)
        .collect()
}

#[test]
fn every_held_out_caption_is_labelled_as_decided() {
    if !there() {
        return;
    }
    let mut compared = 0;
    for (name, text) in PAIRS {
        let figures = Figures::read(text).unwrap();
        let (matrix, labels) = (figures.matrix(64), figures.labels(64));
        let problem = Problem {
            matrix: &matrix,
            labels: &labels,
        };
        let one = OneClass {
            n: 64,
            matrix: &matrix,
        };
        let with = |shrinking| Options {
            eps: 0.001,
            shrinking,
            ..Options::default()
        };
        let retired: Vec<bool> = (0..64).map(|k| k == 19 || k == 30).collect();
        for (options, answer, classes) in [
            ("-c 1", fit_c(&problem, 1.0, 1.0, &with(false)), [1, 0]),
            ("-c 10", fit_c(&problem, 10.0, 10.0, &with(false)), [1, 0]),
            (
                "-c 10 -h 1",
                fit_c(&problem, 10.0, 10.0, &with(true)),
                [1, 0],
            ),
            (
                "-c 10 -w0 0.1",
                fit_c(&problem, 10.0, 1.0, &with(false)),
                [1, 0],
            ),
            (
                "-c 10 --retired 20,31",
                fit_c_retired(&problem, 10.0, 10.0, &retired, &with(false)),
                [1, 0],
            ),
            ("-s 1 -n 0.3", fit_nu(&problem, 0.3, &with(false)), [1, 0]),
            (
                "-s 2 -n 0.3",
                fit_one_class(&one, 0.3, &with(false)),
                [1, -1],
            ),
        ] {
            let decided = decided(&figures, &answer.unwrap());
            let expected: Vec<i32> = decided
                .iter()
                .map(|first| classes[usize::from(!first)])
                .collect();
            let found = predicted(
                &folder(name),
                &figures.libsvm_train(64),
                &figures.libsvm_held(64),
                options,
            );
            assert_eq!(found, expected, "{} {}", name, options);
            assert!(
                decided.contains(&true) && decided.contains(&false),
                "{} {}",
                name,
                options
            );
            compared += found.len();
        }
    }
    assert_eq!(compared, 7 * (372 + 416));
}

/// A kernel of large numbers: with all of them times 2^47 and the cost over 2^47 every weight is its own over 2^47, and each decision the
/// same. Of the weights above 0 only some are above 100*2^-52; svm-predict needs them all.
#[test]
fn weights_that_are_not_counted_have_their_say() {
    if !there() {
        return;
    }
    let scale = 2f64.powi(47);
    let scaled = |text: String| -> String {
        let value = |word: &str| match word.split_once(':') {
            Some((k, x)) if k != "0" => format!(" {}:{:?}", k, x.parse::<f64>().unwrap() * scale),
            _ => format!(" {}", word),
        };
        let line = |l: &str| l.split(' ').map(value).collect::<String>() + "\n";
        text.lines().map(|l| line(l)[1..].to_string()).collect()
    };
    for (name, text) in PAIRS {
        let figures = Figures::read(text).unwrap();
        let (train, held) = (figures.libsvm_train(64), figures.libsvm_held(64));
        let folder = folder(&format!("faint-{}", name));
        let expected = predicted(&folder, &train, &held, "-c 10");
        let cost = format!("-c {:?}", 10.0 / scale);
        let found = predicted(&folder, &scaled(train), &scaled(held), &cost);
        assert_eq!(found, expected);
        let model = model_in(&folder);
        let weights = model.lines().skip_while(|l| *l != "SV").skip(1);
        let weights = weights.map(|l| l.split(' ').next().unwrap().parse::<f64>().unwrap());
        let weights: Vec<f64> = weights.collect();
        let counted = weights.iter().filter(|w| w.abs() > SUPPORT_LIMIT).count();
        assert!(counted > 10 && weights.len() > counted + 10, "{}", counted);
        // Without the others something is labelled otherwise.
        let lines = model.lines().filter(|l| match l.split_once(" 0:") {
            Some((weight, _)) => weight.parse::<f64>().unwrap().abs() > SUPPORT_LIMIT,
            None => true,
        });
        let fewer = format!("total_sv {}", counted);
        let of_class = |sign: f64| weights.iter().filter(move |w| **w * sign > SUPPORT_LIMIT);
        let each = format!("nr_sv {} {}", of_class(1.0).count(), of_class(-1.0).count());
        let cut: String = lines
            .map(|l| match l.split(' ').next() {
                Some("total_sv") => fewer.clone() + "\n",
                Some("nr_sv") => each.clone() + "\n",
                _ => l.to_string() + "\n",
            })
            .collect();
        fs::write(folder.join("model"), cut).unwrap();
        assert_ne!(labelled(&folder), expected);
    }
}

/// Whatever the labels are called and whichever comes first, a caption gets its own language's label.
#[test]
fn labels_keep_their_meaning() {
    if !there() {
        return;
    }
    let figures = Figures::read(PAIRS[0].1).unwrap();
    let named = |text: String, first: &str, second: &str| -> Vec<String> {
        let line = |l: &str| match l.strip_prefix("1 ") {
            Some(rest) => format!("{} {}\n", first, rest),
            None => format!("{} {}\n", second, &l[2..]),
        };
        text.lines().map(line).collect()
    };
    let mut sorted = Vec::new();
    for (first, second) in [
        ("1", "0"),
        ("-1", "1"),
        ("+1", "-1"),
        ("5", "9"),
        ("9", "5"),
    ] {
        for turned in [false, true] {
            let mut train = named(figures.libsvm_train(64), first, second);
            if turned {
                train.reverse();
            }
            let held = named(figures.libsvm_held(64), first, second).concat();
            let found = predicted(&folder("labels"), &train.concat(), &held, "-c 10");
            let first: i32 = first.parse().unwrap();
            let right = found
                .iter()
                .zip(&figures.held)
                .filter(|(l, c)| (**l == first) == c.first);
            sorted.push(right.count());
        }
    }
    // Turned round, the run takes other steps to much the same weights; told the other way round, every label would be wrong.
    assert!(
        sorted
            .iter()
            .all(|right| right.abs_diff(sorted[0]) <= 3 && *right > 260),
        "{:?}",
        sorted
    );
}

/// LIBSVM's own training: with shrinking off and on it writes the same weights, and sorts as docs/COMPARED.md says.
#[test]
fn libsvm_itself_sorts_as_the_page_says() {
    if !there() {
        return;
    }
    let figures = Figures::read(PAIRS[0].1).unwrap();
    let folder = folder("libsvm");
    let path = |name: &str| folder.join(name).to_str().unwrap().to_string();
    fs::write(path("train"), figures.libsvm_train(64)).unwrap();
    fs::write(path("held"), figures.libsvm_held(64)).unwrap();
    let started = |program: &str, options: &str, files: &[&str]| {
        let mut command = Command::new(program);
        command.args(options.split_whitespace());
        let output = command.args(files.iter().map(|f| path(f))).output();
        assert!(output.unwrap().status.success());
    };
    let models = ["0", "1"].map(|shrinking| {
        let options = format!("-q -t 4 -c 10 -e 1e-7 -h {}", shrinking);
        started("svm-train", &options, &["train", "model"]);
        let model = fs::read_to_string(path("model")).unwrap();
        // On aarch64 rho differs in its last digit.
        let lines = model.lines().filter(|line| !line.starts_with("rho "));
        lines.map(String::from).collect::<Vec<_>>()
    });
    assert_eq!(models[0], models[1]);
    started("svm-predict", "", &["held", "model", "labels"]);
    let labels = fs::read_to_string(path("labels")).unwrap();
    let right = labels
        .lines()
        .zip(&figures.held)
        .filter(|(l, c)| (*l == "1") == c.first)
        .count();
    let page = include_str!("../../../docs/COMPARED.md");
    let row = format!("\n| LIBSVM | {} | {} |\n", right, right);
    assert!(page.contains(&row), "{}", row);
}

/// Numbers that look drawn.
struct Drawn(u64);

impl Drawn {
    fn below(&mut self, limit: u64) -> u64 {
        self.0 = self
            .0
            .wrapping_mul(6364136223846793005)
            .wrapping_add(1442695040888963407);
        (self.0 >> 33) % limit
    }
}

/// A text of captions to train on and one of captions to sort, in six languages that lie close to each other, so that there are ties. The
/// kernel is a product of small whole numbers over 7.
fn six_languages(train: usize, held: usize) -> (String, String) {
    let mut drawn = Drawn(11);
    let centres: Vec<[i64; 4]> = (0..6)
        .map(|_| [0; 4].map(|_: i64| drawn.below(7) as i64 - 3))
        .collect();
    let captions: Vec<(usize, [i64; 4])> = (0..train + held)
        .map(|k| (k % 6, centres[k % 6].map(|x| x + drawn.below(9) as i64 - 4)))
        .collect();
    let line = |k: usize| {
        let (language, p) = captions[k];
        let value = |q: &[i64; 4]| 3 + (0..4).map(|d| p[d] * q[d]).sum::<i64>();
        let values = captions[..train].iter().enumerate();
        let values = values.map(|(j, (_, q))| format!(" {}:{:?}", j + 1, value(q) as f64 / 7.0));
        let label = [40, 7, -1, 3, 1, 12][language];
        format!("{} 0:{}{}\n", label, k + 1, values.collect::<String>())
    };
    let text = |range: std::ops::Range<usize>| range.map(line).collect::<String>();
    (text(0..train), text(train..train + held))
}

/// What the pairs of a model decide on each caption of a text: the sum over the model's lines, in their order, less rho.
fn decisions(model: &str, held: &str) -> Vec<Vec<f64>> {
    let model = Model::read(model).unwrap();
    let decided = |line: &str| {
        let words = line.split_whitespace().skip(2);
        let values = words.map(|w| w.split_once(':').unwrap().1.parse().unwrap());
        model.decisions(&values.collect::<Vec<f64>>())
    };
    held.lines().map(decided).collect()
}

/// What `altuliscia sort` tells, by the files that are there.
fn sorted(folder: &Path, option: &str) -> String {
    let path = |name: &str| folder.join(name).to_str().unwrap().to_string();
    let words = ["sort".to_string(), "-q".to_string(), option.to_string()];
    let words = [&words[..], &[path("model"), path("held")]].concat();
    let mut out = Vec::new();
    command::run(&words, &mut out, &mut Vec::new(), false).unwrap();
    String::from_utf8(out).unwrap()
}

/// Both read one model file and sum over its lines in one order, so they sort alike, ties too, wherever no decision of a pair is within 1e-9
/// of 0. (On x86-64 the sums are the same to the bit; elsewhere svm-predict may merge a product with its sum.)
#[test]
fn several_languages_are_sorted_as_svm_predict_does() {
    if !there() {
        return;
    }
    let (train, held) = six_languages(240, 600);
    let folder = folder("several");
    // Of our own models, then of svm-train's, whose last digits may be others elsewhere.
    let (mut compared, mut ties, mut near) = ([0; 2], [0; 2], [0; 2]);
    for options in [
        "-c 1",
        "-c 10 -e 1e-7",
        "-c 0.1 -w7 3",
        // The r of three of its pairs is infinite.
        "-s 1 -n 0.3 --write-anyway",
        "-c 1 --retired 5,17,100,101,102,240",
        "svm-train -c 1",
        "svm-train -s 1 -n 0.3",
    ] {
        let whose = usize::from(options.starts_with("svm-train "));
        let found = match options.strip_prefix("svm-train ") {
            Some(own) => {
                let path = |name: &str| folder.join(name).to_str().unwrap().to_string();
                let mut command = Command::new("svm-train");
                command.args(["-q", "-t", "4"]).args(own.split(' '));
                let output = command.args([path("train"), path("model")]).output();
                assert!(output.unwrap().status.success());
                labelled(&folder)
            }
            None => predicted(&folder, &train, &held, options),
        };
        let ours = sorted(&folder, "--labels");
        let list = sorted(&folder, "--votes");
        let model = model_in(&folder);
        assert!(model.contains("\nnr_class 6\n") && model.contains("\nlabel 40 7 -1 3 1 12\n"));
        let decided = decisions(&model, &held);
        let rows = ours.lines().zip(list.lines().skip(1));
        for ((theirs, (ours, row)), decided) in found.iter().zip(rows).zip(&decided) {
            if decided.iter().any(|d| d.abs() <= 1e-9) {
                near[whose] += 1;
                continue;
            }
            assert_eq!(ours.parse::<i32>(), Ok(*theirs), "{} {}", options, row);
            compared[whose] += 1;
            ties[whose] += usize::from(row.contains("tie of"));
        }
    }
    assert_eq!([0, 1].map(|k| compared[k] + near[k]), [3000, 1200]);
    assert!(
        near[0] + near[1] < 42 && ties[1] > 20,
        "{:?} {:?}",
        ties,
        near
    );
    let page = include_str!("../../../docs/SORTING.md");
    let told = format!("{} captions, {} of them ties", compared[0], ties[0]);
    assert!(page.contains(&told), "{} {:?}", told, near);
}

/// Real captions of twelve languages: none of the 66 decisions on a caption is near 0, so every label is the same.
#[test]
fn twelve_languages_are_sorted_as_svm_predict_does() {
    if !there() {
        return;
    }
    let figures = include_str!("../../../captions/twelve.txt");
    let figures = Several::read(figures).unwrap();
    let n = figures.of_each();
    let train: String = figures.libsvm_train(n).collect();
    let held: String = figures.libsvm_held(n).collect();
    let folder = folder("twelve");
    let (mut compared, mut ties) = (0, 0);
    for options in ["-c 1", "-c 10", "-s 1 -n 0.1"] {
        let found = predicted(&folder, &train, &held, options);
        let ours = sorted(&folder, "--labels");
        let ours: Vec<i32> = ours.lines().map(|line| line.parse().unwrap()).collect();
        let model = model_in(&folder);
        let decided = decisions(&model, &held);
        assert_eq!(decided.len(), figures.held.len());
        assert!(decided.iter().all(|d| d.len() == 66));
        assert!(decided.iter().flatten().all(|d| d.abs() > 1e-9));
        assert_eq!(ours, found, "{}", options);
        compared += ours.len();
        ties += sorted(&folder, "--votes").matches("tie of").count();
    }
    assert_eq!(compared, 3 * 612);
    assert!(ties > 30, "{}", ties);
}

/// Where a decision is exactly 0 svm-predict votes for the second language, and the library for the first; a NaN is the second's for both.
#[test]
fn a_decision_of_zero_is_where_they_part() {
    if !there() {
        return;
    }
    let folder = folder("zero");
    let train = "7 0:1 1:1 2:0\n3 0:2 1:0 2:1\n";
    for (line, theirs, ours) in [
        ("7 0:1 1:1 2:1\n", 3, "7\n"),
        ("7 0:1 1:0 2:0\n", 3, "7\n"),
        ("7 0:1 1:1.0000000000000002 2:1\n", 7, "7\n"),
        ("7 0:1 1:1 2:1.0000000000000002\n", 3, "3\n"),
        ("7 0:1 1:nan 2:1\n", 3, "3\n"),
        ("7 0:1 1:inf 2:inf\n", 3, "3\n"),
        ("7 0:1 1:inf 2:1\n", 7, "7\n"),
    ] {
        let found = predicted(&folder, train, line, "");
        assert_eq!(
            (found, sorted(&folder, "--labels")),
            (vec![theirs], ours.to_string())
        );
    }
    // Among three languages it can turn the winner: here every pair is 0.
    let train = "7 0:1 1:1 2:0 3:0\n3 0:2 1:0 2:1 3:0\n9 0:3 1:0 2:0 3:1\n";
    let found = predicted(&folder, train, "7 0:1 1:1 2:1 3:1\n", "");
    assert_eq!(
        (found, sorted(&folder, "--labels")),
        (vec![9], "7\n".to_string())
    );
}

/// What `altuliscia decide` tells of the files that are there, in CSV: the label that each is sorted to, and the decisions.
fn told(folder: &Path) -> Vec<(i32, Vec<f64>)> {
    let path = |name: &str| folder.join(name).to_str().unwrap().to_string();
    let (status, out, err) = whole(&["decide", "-q", "--csv", &path("model"), &path("held")]);
    assert_eq!((status, err.as_str()), (0, ""));
    let row = |line: &str| {
        let words: Vec<&str> = line.split(',').collect();
        let decisions = words[5..].iter().map(|w| w.parse().unwrap()).collect();
        (words[3].parse().unwrap(), decisions)
    };
    out.lines().skip(1).map(row).collect()
}

/// Of one class the sign is svm-predict's label; of two and of six the decisions are those of the model's lines, to the bit.
#[test]
fn decisions_are_those_that_svm_predict_labels_by() {
    if !there() {
        return;
    }
    let mut one_class = [0; 2];
    for (name, text) in PAIRS {
        let figures = Figures::read(text).unwrap();
        let folder = folder(&format!("decide-{}", name));
        let (train, held) = (figures.libsvm_train(64), figures.libsvm_held(64));
        for nu in ["0.1", "0.3", "0.7"] {
            let options = format!("-s 2 -n {}", nu);
            let labels = predicted(&folder, &train, &held, &options);
            let told = told(&folder);
            assert_eq!(told.len(), labels.len());
            for (label, (sorted, decisions)) in labels.iter().zip(&told) {
                assert!(decisions.len() == 1 && decisions[0].abs() > 1e-12);
                assert_eq!(*label, if decisions[0] >= 0.0 { 1 } else { -1 });
                assert_eq!(sorted, label);
                one_class[usize::from(*label == 1)] += 1;
            }
        }
        for options in ["-c 10", "-s 1 -n 0.3", "-c 10 --retired 20,31"] {
            let labels = predicted(&folder, &train, &held, options);
            let expected = decisions(&model_in(&folder), &held);
            for (k, (sorted, decided)) in told(&folder).iter().enumerate() {
                assert_eq!(decided, &expected[k]);
                assert_eq!(*sorted, labels[k]);
            }
        }
    }
    assert!(
        one_class.iter().all(|count| *count > 200),
        "{:?}",
        one_class
    );
    let (train, held) = six_languages(240, 600);
    let folder = folder("decide-six");
    predicted(&folder, &train, &held, "-c 1");
    let decided: Vec<Vec<f64>> = told(&folder).into_iter().map(|(_, d)| d).collect();
    assert_eq!(decided, decisions(&model_in(&folder), &held));
    assert!(decided.len() == 600 && decided.iter().all(|d| d.len() == 15));
}

/// LIBSVM's reader stops at the last weight: the record behind it has no say.
#[test]
fn a_record_is_read_over() {
    if !there() {
        return;
    }
    let (train, held) = six_languages(60, 120);
    let folder = folder("read-over");
    for options in [
        "-c 10",
        // The r of four of its pairs is below 0.
        "-s 1 -n 0.13 --write-anyway",
        "-s 2 -n 0.3",
        "-c 10 --retired 5,17",
    ] {
        let found = predicted(&folder, &train, &held, options);
        let text = fs::read_to_string(folder.join("model")).unwrap();
        assert_eq!(text.matches("\n# sum ").count(), 1);
        fs::write(folder.join("model"), bare(&text)).unwrap();
        assert_eq!(labelled(&folder), found, "{}", options);
    }
}
