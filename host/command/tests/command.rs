//! The command line over small files.
mod bare;
mod common;
mod over;
mod program;
mod whole;

use bare::bare;
use captions::Figures;
use command::run;
use common::{both, file, folder, own, told, SMALL};
use over::OVER;
use program::program;
use std::fs;
use whole::whole;

#[test]
fn a_model_is_written_and_told() {
    let f = folder("train");
    let (path, model) = (
        file(&f, "small.txt", SMALL.as_bytes()),
        file(&f, "model", b"old"),
    );
    let text = told("train FILE MODEL", &path, &model).unwrap();
    assert_eq!(
        text,
        "optimization finished, #iter = 1\nnu = 1.000000\nobj = -1.000000, rho = 0.000000\nnSV = 2, nBSV = 2\nTotal nSV = 2\noptions: -s 0 -c 1.0 -e 0.001 -h 0 --budget 10000000 --floor 1e-10\nexit reason: threshold\n"
    );
    assert_eq!(
        bare(&fs::read_to_string(&model).unwrap()),
        "svm_type c_svc\nkernel_type precomputed\nnr_class 2\ntotal_sv 2\nrho 0.0\nlabel 7 3\nnr_sv 1 1\nSV\n1.0 0:1\n-1.0 0:2\n"
    );
    let (_, text, _) = whole(&["train", &path, &model, "--budget", "1"]);
    assert!(text.ends_with("exit reason: iterations (all 1 of the budget)\n"));
    let text = told("train -s 1 -n 0.5 FILE MODEL", &path, &model).unwrap();
    assert!(text.contains("nu = 0.500000\nC = "), "{}", text);
    assert!(fs::read_to_string(&model)
        .unwrap()
        .starts_with("svm_type nu_svc\n"));
    told("train -s 2 -n 0.5 FILE MODEL", &path, &model).unwrap();
    assert_eq!(
        bare(&fs::read_to_string(&model).unwrap()),
        "svm_type one_class\nkernel_type precomputed\nnr_class 2\ntotal_sv 2\nrho 0.5\nSV\n0.5 0:1\n0.5 0:2\n"
    );
}

#[test]
fn a_ceiling_divided_by_r_has_no_sign() {
    let f = folder("negative-r");
    let negative = file(&f, "k.txt", b"1 0:1 1:-1 2:0\n2 0:2 1:0 2:-1\n");
    let (_, text, _) = whole(&["train", "-s1", "-n.5", &negative, "/dev/null"]);
    assert!(
        text.contains("C = -2.000000\n") && text.contains("nSV = 2, nBSV = 0\n"),
        "{}",
        text
    );
    // r is infinite, and every weight is 0
    let infinite = file(&f, "small.txt", SMALL.as_bytes());
    let (_, text, _) = whole(&["train", "-s1", "-n1", &infinite, "/dev/null"]);
    assert!(
        text.contains("C = 0.000000\n") && text.contains("nSV = 0, nBSV = 0\n"),
        "{}",
        text
    );
}

#[test]
fn costs_are_multiplied_by_label() {
    let f = folder("costs");
    let path = file(&f, "small.txt", SMALL.as_bytes());
    let weights = |line: &str| told(line, &path, "").unwrap();
    let one = "sample serial  label  weight                    ceiling  linfa-svm says
     0      1      7  0.25                      at
     1      2      3  -0.25
";
    assert_eq!(weights("weights -c 0.5 -w7 0.5 FILE"), one);
    let other = one
        .replace("  at", "")
        .replace("-0.25", "-0.25                     at");
    let other: Vec<&str> = other.lines().map(str::trim_end).collect();
    assert_eq!(
        weights("weights -c 0.5 -w3 0.5 FILE")
            .lines()
            .collect::<Vec<_>>(),
        other
    );
    let wrong = told("weights -w1 2 FILE", &path, "").unwrap_err();
    assert_eq!(
        (wrong.status(), wrong.to_string().as_str()),
        (2, "-w1: no sample has that label (see altuliscia --help)")
    );
}

/// Three negative weights at a ceiling below 100*2^-52, and a positive one that balances them and is above it.
#[test]
fn weights_that_are_listed_and_not_counted_are_told() {
    let f = folder("faint");
    let text = "1 0:1 1:1 2:0 3:0 4:0\n-1 0:2 1:0 2:1 3:0 4:0\n-1 0:3 1:0 2:0 3:1 4:0\n-1 0:4 1:0 2:0 3:0 4:1\n";
    let (path, model) = (file(&f, "file", text.as_bytes()), file(&f, "model", b"old"));
    let told_of = |options: &str| {
        let files = ["--write-anyway", &path, &model];
        let words: Vec<&str> = ["train"].into_iter().chain(options.split(' ')).collect();
        let (status, told, _) = whole(&[&words[..], &files].concat());
        assert_eq!(status == 6, told.contains("nSV = 0,"), "{}", told);
        let start = told.find("nSV").unwrap();
        let end = told.find("options").unwrap();
        let written = fs::read_to_string(&model).unwrap();
        (told[start..end].to_string(), bare(&written).to_string())
    };
    let (counts, listed) = told_of("-w-1 1e-14");
    assert_eq!(
        counts,
        "nSV = 1, nBSV = 0\nTotal nSV = 1\nweights in the model: 4 (3 of them at most 100*2^-52 in magnitude, not counted as support)\n"
    );
    assert!(listed.contains("\ntotal_sv 4\n") && listed.contains("\nnr_sv 1 3\n"));
    assert!(listed.ends_with("SV\n3e-14 0:1\n-1e-14 0:2\n-1e-14 0:3\n-1e-14 0:4\n"));
    // The limit itself, where two rise to it, and the next double above it.
    let (counts, listed) = told_of("-c 2.220446049250313e-14");
    assert_eq!(
        counts,
        "nSV = 0, nBSV = 0\nTotal nSV = 0\nweights in the model: 2 (2 of them at most 100*2^-52 in magnitude, not counted as support)\n"
    );
    assert!(
        listed.contains("\ntotal_sv 2\n") && listed.contains("SV\n2.220446049250313e-14 0:1\n")
    );
    let (counts, listed) = told_of("-c 2.2204460492503134e-14");
    assert_eq!(counts, "nSV = 2, nBSV = 2\nTotal nSV = 2\n");
    assert!(listed.contains("\ntotal_sv 2\n"));
    // One class has no line 'Total nSV'.
    let (counts, _) = told_of("-s 2 -n 5e-15");
    assert_eq!(
        counts,
        "nSV = 0, nBSV = 0\nweights in the model: 1 (1 of them at most 100*2^-52 in magnitude, not counted as support)\n"
    );
    let (out, err) = both("train -q -w-1 1e-14 FILE MODEL", &path, &model).unwrap();
    let note = "note: the costs differ: label 1 has 1.0, label -1 has 1e-14; it isn't promised then that every weight lies in 0..ceiling\n";
    assert_eq!((out.as_str(), err.as_str()), ("", note));
    let help = told("train --help", "", "").unwrap();
    assert!(help.contains("nSV\ncounts the weights above 100*2^-52 in magnitude"));
    assert!(help.contains("where these are more than nSV, a line says how many and why."));
}

/// Every entry 0 makes r 0 under nu: a weight is divided by it, and so is a 0.
#[test]
fn weights_that_are_nan_are_listed_and_not_counted() {
    let f = folder("nan");
    let path = file(&f, "zeros", &own(4, &[0.0; 16], &[1, 1, 0, 0]));
    let model = file(&f, "model", b"old");
    let words = ["train", "-s1", "-n0.25", "--write-anyway", &path, &model];
    let (status, text, _) = whole(&words);
    assert_eq!(status, 6);
    let counts = "nSV = 2, nBSV = 0\nTotal nSV = 2\nweights in the model: 4 (2 of them NaN, not counted as support)\n";
    assert!(text.contains(counts), "{}", text);
    let listed = fs::read_to_string(&model).unwrap();
    assert!(bare(&listed).ends_with("SV\ninf 0:1\nnan 0:2\n-inf 0:3\nnan 0:4\n"));
}

#[test]
fn a_weight_above_its_ceiling_is_told() {
    let f = folder("above");
    let path = file(&f, "over.txt", OVER.as_bytes());
    let text = told("weights -w-1 2 FILE", &path, "").unwrap();
    let found: Vec<&str> = text.lines().skip(1).collect();
    let above = "     3      4      1  1.0000000000000002        above";
    assert_eq!(found[3], above);
    let at = (0..10).filter(|k| found[*k].ends_with("  at"));
    assert_eq!(at.collect::<Vec<_>>(), [0, 6, 7, 8]);
    let text = told("train -w-1 2 FILE MODEL", &path, "/dev/null").unwrap();
    assert!(text.contains("nSV = 10, nBSV = 5\n"), "{}", text);
    let help = told("weights --help", "", "").unwrap();
    assert!(help.contains("`above` where it is above it"));
    let kept = "it is kept only where both\n              classes have the same cost\n";
    assert!(help.contains(kept));
}

/// Costs that differ, and shrinking on: serial 2 has the sign of the other class.
const BELOW: &str = "\
-1 0:1 1:10 2:-6 3:-4 4:7
-1 0:2 1:-6 2:10 3:-4 4:-5
-1 0:3 1:-4 2:-4 3:8 4:-2
+1 0:4 1:7 2:-5 3:-2 4:5
";

#[test]
fn a_weight_below_0_is_told() {
    let f = folder("below");
    let (path, model) = (
        file(&f, "below.txt", BELOW.as_bytes()),
        file(&f, "model", b""),
    );
    let note = "note: a weight is below 0: that of serial 2\n";
    let (text, err) = both("weights -w1 10 -h 1 FILE", &path, "").unwrap();
    let found: Vec<&str> = text.lines().skip(1).collect();
    assert_eq!(
        found[1],
        "     1      2     -1  0.3135480436518501        below 0"
    );
    assert!(found[0].ends_with("  at") && err.ends_with(note), "{}", err);
    let (text, err) = both("train -q -w1 10 -h 1 FILE MODEL", &path, &model).unwrap();
    assert!(text.is_empty() && err.ends_with(note), "{}", err);
    let text = told("train -w1 10 -h 1 FILE MODEL", &path, &model).unwrap();
    assert!(text.contains("nSV = 4, nBSV = 1\n"), "{}", text);
    // In the model, too: as a caution and beside the weight.
    let shown = told("show MODEL", "", &model).unwrap();
    assert!(shown.ends_with("\ncaution: a weight is below 0: that of serial 2\n"));
    let csv = told("weights --csv FILE", &model, "").unwrap();
    assert!(csv.contains("\n,2,-1,1,0.3135480436518501,1.0,below 0,,,"));
    assert_eq!(csv.matches("below 0").count(), 1);
    let json = told("weights --json -w1 10 -h 1 FILE", &path, "").unwrap();
    assert_eq!(json.matches("\"mark\": \"below 0\"").count(), 1);
}

/// With other costs none is, and of one class labels have no say. Where r is below 0, each weight has the other sign, and is told by r.
#[test]
fn a_sign_alone_is_no_weight_below_0() {
    let f = folder("signs");
    let path = file(&f, "below.txt", BELOW.as_bytes());
    for options in ["-c 1 -h 1", "-w1 10", "-s 2"] {
        let words = format!("weights {} FILE", options);
        let (text, err) = both(&words, &path, "").unwrap();
        assert!(!(text + &err).contains("below 0"), "{}", options);
    }
    let negative = file(&f, "k.txt", b"1 0:1 1:-1 2:0\n2 0:2 1:0 2:-1\n");
    let (status, text, err) = whole(&["weights", "-s1", "-n.5", &negative]);
    assert!(status == 6 && text.contains("  -1.0\n"), "{}", text);
    assert!(!(text + &err).contains("below 0"));
}

const ON: &str = "note: shrinking is on: with -h 1 'threshold' speaks only of the samples still active, and obj and rho needn't be those of these weights; train with -h 0\n";

#[test]
fn with_shrinking_on_a_note_says_what_it_leaves_out() {
    let f = folder("shrinking");
    let path = file(&f, "small.txt", SMALL.as_bytes());
    for fit in ["-s 0", "-s 1 -n 0.5", "-s 2"] {
        let with = |shrinking: &str| {
            let line = format!("train {} {} FILE MODEL", fit, shrinking);
            both(&line, &path, "/dev/null").unwrap()
        };
        let (out, err) = with("-h 0");
        let out = out.replace(" -h 0 ", " -h 1 ");
        assert_eq!(with("-h 1"), (out, err + ON));
    }
    let help = told("train --help", "", "").unwrap();
    let limit = "no pair is left to mend, with\n-h 1: among the samples still active;";
    assert!(help.contains(limit));
}

#[test]
fn quiet_says_only_what_is_not_well() {
    let f = folder("quiet");
    let path = file(&f, "small.txt", SMALL.as_bytes());
    let list = told("weights FILE", &path, "").unwrap();
    let spent = "altuliscia: not to be released: the budget ran out, all 1 of it";
    let unwritten = format!(
        "{}; no model was written (--write-anyway writes it)\n",
        spent
    );
    for (options, status, train, weights) in [
        (&[][..], 0, "", "".to_string()),
        (
            &["--budget", "1"],
            6,
            &unwritten[..],
            format!("{}\n", spent),
        ),
        (&["-h", "1"], 0, ON, ON.to_string()),
    ] {
        let found = whole(&[&["train", "-q", &path, "/dev/null"], options].concat());
        assert_eq!(found, (status, String::new(), train.to_string()));
        let found = whole(&[&["weights", "-q", &path], options].concat());
        assert_eq!(found, (status, list.clone(), weights));
    }
    let help = told("train --help", "", "").unwrap();
    assert!(help.contains("all is well; what isn't is told on standard error\n"));
}

#[test]
fn how_a_lists_run_ended_is_told_beside_it() {
    let f = folder("beside");
    let path = file(&f, "over.txt", OVER.as_bytes());
    let (_, err) = both("weights -w-1 2 FILE", &path, "").unwrap();
    let costs = "note: the costs differ: label 1 has 1.0, label -1 has 2.0; it isn't promised then that every weight lies in 0..ceiling\n";
    let options = "options: -s 0 -c 1.0 -w-1 2.0 -e 0.001 -h 0 --budget 10000000 --floor 1e-10\n";
    let start = "exit reason: threshold\nrho = 0.9999433318247627\n";
    let above = "note: a weight is above its ceiling: that of serial 4\n";
    assert_eq!(err, [start, options, costs, above].concat());
    let (status, list, err) = whole(&["weights", "-h", "1", "-w-1", "2", &path]);
    let start = "exit reason: threshold\nrho = nan\noptions: ";
    let end = "altuliscia: not to be released: rho is nan, so everything is sorted into one and the same class; train with -h 0\n";
    let end = [costs, ON, above, end].concat();
    assert!(err.starts_with(start) && err.ends_with(&end), "{}", err);
    assert_eq!(status, 6);
    let help = told("weights --help", "", "").unwrap();
    assert!(help.contains("The exit reason, rho and the options are told on standard error"));
    // Where both go to one place it stands below the list.
    let whole = fs::File::create(f.join("whole")).unwrap();
    let mut command = program();
    command.args(["weights", "-h", "1", "-w-1", "2", &path]);
    command.stdout(whole.try_clone().unwrap()).stderr(whole);
    assert_eq!(command.status().unwrap().code(), Some(6));
    assert_eq!(fs::read_to_string(f.join("whole")).unwrap(), list + &err);
}

#[test]
fn the_other_reading_stands_beside_a_weight() {
    // host/problems/four.txt, whose two readings differ at samples 2 and 3, and whose rho is NaN.
    let f = folder("readings");
    let matrix = [
        4., -4., 3., -3., -4., 3., 2., -2., 3., 2., 4., 0., -3., -2., 0., 5.,
    ];
    let path = file(&f, "four", &own(4, &matrix, &[1, 0, 1, 1]));
    let (status, text, err) = whole(&["weights", "-e0", "-h1", "--budget=100", &path]);
    assert_eq!(status, 6);
    let found: Vec<Vec<&str>> = text
        .lines()
        .skip(1)
        .map(|l| l.split_whitespace().collect())
        .collect();
    assert_eq!(found[1], ["1", "2", "0", "-0.6666666666666666"]);
    assert_eq!(found[2], ["2", "3", "1", "0.6666666666666666", "0.0"]);
    assert_eq!(found[3], ["3", "4", "1", "0.0", "0.6666666666666666"]);
    let model = f.join("model");
    let model = model.to_str().unwrap();
    let words = [
        "train",
        "-e0",
        "-h1",
        "--budget=100",
        "--write-anyway",
        &path,
        model,
    ];
    let (status, text, told) = whole(&words);
    assert_eq!(status, 6);
    assert!(text.contains("rho = nan\n"), "{}", text);
    let note = "note: 2 of 4 samples have another weight in the list that linfa-svm answers";
    assert!(told.contains(note) && err.contains(note), "{}", told);
    let model = fs::read_to_string(model).unwrap();
    assert!(
        model.contains("rho nan\n")
            && bare(&model).ends_with("SV\n0.6666666666666666 0:3\n-0.6666666666666666 0:2\n")
    );
}

#[test]
fn bytes_and_text_give_one_model() {
    let f = folder("bytes");
    let figures = Figures::read(include_str!("../../../captions/da-sv.txt")).unwrap();
    let labels: Vec<u8> = figures.labels(64).iter().map(|y| u8::from(*y)).collect();
    let bytes = file(&f, "bytes", &own(64, &figures.matrix(64), &labels));
    let text = file(&f, "text", figures.libsvm_train(64).as_bytes());
    for line in [
        "train FILE MODEL",
        "train -s 1 FILE MODEL",
        "train -s 2 FILE MODEL -n 0.3",
    ] {
        let models = [&bytes, &text].map(|path| {
            let model = f.join("model");
            told(line, path, model.to_str().unwrap()).unwrap();
            fs::read_to_string(model).unwrap()
        });
        assert!(models[0].lines().count() > 20);
        assert_eq!(models[0], models[1]);
    }
}

#[test]
fn each_refusal_has_its_status_and_writes_nothing() {
    let f = folder("refusals");
    let figures = Figures::read(include_str!("../../../captions/da-sv.txt")).unwrap();
    let good = SMALL.as_bytes();
    let shrunk = figures.libsvm_train(64);
    for (number, data, options) in [
        (1, own(513, &[], &[]), ""),
        (1, Vec::new(), ""),
        (2, own(2, &[1.0, 0.0, 0.0], &[]), ""),
        (2, own(2, &[1.0, 0.0, 0.0, 1.0], &[]), ""),
        (3, own(2, &[1.0, 0.0, 0.0, f64::NAN], &[1, 0]), ""),
        (4, own(2, &[1.0, 0.0, 0.0, 1.0], &[1, 2]), ""),
        (5, good.to_vec(), "-c 0"),
        (8, good.to_vec(), "-e -1"),
        (9, good.to_vec(), "-s 1 -n 0"),
        (10, good.to_vec(), "--budget 0"),
        (11, shrunk.into_bytes(), "-h 1 -e 1e-7"),
        (14, good.to_vec(), "--floor 0"),
    ] {
        let (path, model) = (file(&f, "file", &data), file(&f, "model", b"old"));
        let trouble = told(&format!("train {} FILE MODEL", options), &path, &model).unwrap_err();
        assert_eq!(trouble.status(), 10 + number);
        let text = trouble.to_string();
        assert!(text.contains(&format!("refusal {}", number)), "{}", text);
        assert_eq!(fs::read(&model).unwrap(), b"old");
        assert_eq!(fs::read_dir(&f).unwrap().count(), 2);
        let checked = told(&format!("check {} FILE", options), &path, "");
        match number {
            11 => assert!(checked.unwrap().ends_with("64 samples, no fault\n")),
            _ => assert_eq!(checked.unwrap_err().status(), 10 + number),
        }
    }
}

#[test]
fn a_check_names_every_fault() {
    let f = folder("check");
    let path = file(&f, "a", b"1 0:1 1:nan 2:0\n2 0:2 1:0 2:-1e302\n");
    let (mut out, mut err) = (Vec::new(), Vec::new());
    let words = ["check", "-c", "-1", "-e", "nan", &path].map(str::to_string);
    let trouble = run(&words, &mut out, &mut err, false).unwrap_err();
    assert_eq!(err, b"");
    assert_eq!(
        (trouble.status(), trouble.to_string().as_str()),
        (13, "this problem would be refused")
    );
    let kernel = "a kernel value must be finite and not above 2^1000 in magnitude (refusal 3)";
    let cost =
        "-c must be above 0 and not above 2^1000, also where -w multiplies it: that of label";
    let expected = [
        format!("{}:1: '1:nan': {}", path, kernel),
        format!("{}:2: '2:-1e302': {}", path, kernel),
        format!("{} 1 is -1.0 (refusal 5)", cost),
        format!("{} 2 is -1.0 (refusal 5)", cost),
        "-e must be 0 or above it, and finite: it is nan (refusal 8)".to_string(),
        format!("{}: 2 samples, 5 faults", path),
    ];
    assert_eq!(
        String::from_utf8(out).unwrap().lines().collect::<Vec<_>>(),
        expected
    );
}

#[test]
fn a_check_tells_its_faults_on_standard_output() {
    let help = told("check --help", "", "").unwrap();
    assert!(help.contains("a line each on\nstandard output: where it stands"));
}

/// The word is the file's own, wherever its sample stands.
#[test]
fn a_bad_kernel_value_is_told_as_it_is_written() {
    let f = folder("words");
    let data = b"1 0:3 1:0 2:0 3:1\n2 0:1 1:1 2:0 3:+1E400\n1 0:2 1:0 2:1 3:0\n";
    let path = file(&f, "a", data);
    let trouble = told("train FILE MODEL", &path, "/dev/null").unwrap_err();
    let place = format!("{}:2: '3:+1E400': a kernel value must be ", path);
    assert!(trouble.to_string().starts_with(&place), "{}", trouble);
}

#[test]
fn the_number_of_samples_is_told_where_it_is_too_large() {
    let f = folder("samples");
    for (n, data) in [(513, own(513, &[], &[])), (0, Vec::new())] {
        let path = file(&f, "a", &data);
        let trouble = told("weights FILE", &path, "").unwrap_err();
        let place = format!("{}: {} samples: 1 to 512 samples are trained", path, n);
        assert!(trouble.to_string().starts_with(&place), "{}", trouble);
    }
}

#[test]
fn numbers_of_many_digits_are_told_in_few() {
    let f = folder("digits");
    let path = file(&f, "small.txt", SMALL.as_bytes());
    for (options, place) in [
        ("-c 1e302", "that of label 7 is 1e302 (refusal 5)"),
        (
            "-e -1e302",
            "-e must be 0 or above it, and finite: it is -1e302 (refusal 8)",
        ),
        ("-e -1e-302", "it is -1e-302 (refusal 8)"),
        (
            "-s 1 -n 1e302",
            "-n must be above 0 and not above 1: it is 1e302 (refusal 9)",
        ),
        (
            "--budget 99999999999999999999",
            "--budget must be 1 to 10000000: it is 18446744073709551615 or more (refusal 10)",
        ),
    ] {
        let line = format!("train {} FILE MODEL", options);
        let trouble = told(&line, &path, "/dev/null").unwrap_err();
        assert!(trouble.to_string().ends_with(place), "{}", trouble);
    }
    let large = file(&f, "large", b"1 0:1 1:-1e300 2:0\n2 0:2 1:0 2:-1e300\n");
    let text = told("train FILE MODEL", &large, "/dev/null").unwrap();
    assert!(
        text.contains("\nobj = -1e300, rho = 0.000000\n"),
        "{}",
        text
    );
}

#[test]
fn a_bad_file_is_told_with_its_line() {
    let f = folder("bad");
    let path = file(&f, "a", SMALL.replace("2:1", "2:one").as_bytes());
    let trouble = told("train FILE MODEL", &path, f.join("model").to_str().unwrap()).unwrap_err();
    assert_eq!(
        (trouble.status(), trouble.to_string()),
        (
            3,
            format!("{}:2: '2:one' stands where 2:number should", path)
        )
    );
    let trouble = told("check FILE", "no-such-file", "").unwrap_err();
    assert_eq!(trouble.status(), 3);
    assert!(trouble.to_string().starts_with("no-such-file: "));
    let path = file(&f, "a", b"ALTUPRB1\x02");
    let trouble = told("weights FILE", &path, "").unwrap_err();
    assert_eq!(
        (trouble.status(), trouble.to_string()),
        (3, format!("{}: the file ends before n", path))
    );
    assert_eq!(fs::read_dir(&f).unwrap().count(), 1);
}

#[test]
fn where_nothing_can_be_written_nothing_is() {
    let f = folder("unwritten");
    let path = file(&f, "a", SMALL.as_bytes());
    for model in [f.join("none").join("model"), f.clone()] {
        let trouble = told("train FILE MODEL", &path, model.to_str().unwrap()).unwrap_err();
        assert_eq!(trouble.status(), 4);
        assert!(trouble.to_string().starts_with("nothing was written to "));
    }
    assert_eq!(fs::read_dir(&f).unwrap().count(), 1);
}

#[test]
fn the_problem_is_never_replaced_by_its_model() {
    let f = folder("itself");
    let path = file(&f, "a", SMALL.as_bytes());
    let mut names = vec![path.clone(), format!("{}/./a", f.to_str().unwrap())];
    #[cfg(unix)]
    {
        let link = f.join("link");
        std::os::unix::fs::symlink(&path, &link).unwrap();
        names.push(link.to_str().unwrap().to_string());
    }
    for model in names {
        let trouble = told("train FILE MODEL", &path, &model).unwrap_err();
        assert_eq!(trouble.status(), 2);
        let text = format!("'{}' is the problem itself: the model would", model);
        assert!(trouble.to_string().starts_with(&text), "{}", trouble);
        assert_eq!(fs::read(&path).unwrap(), SMALL.as_bytes());
    }
}

#[test]
fn a_read_only_model_stays() {
    let f = folder("read-only");
    let (path, model) = (file(&f, "a", SMALL.as_bytes()), file(&f, "model", b"old"));
    let mut allowed = fs::metadata(&model).unwrap().permissions();
    allowed.set_readonly(true);
    fs::set_permissions(&model, allowed).unwrap();
    let trouble = told("train FILE MODEL", &path, &model).unwrap_err();
    let text = format!("nothing was written to {}: what stands there", model);
    assert_eq!(trouble.status(), 4);
    assert!(trouble.to_string().starts_with(&text), "{}", trouble);
    assert_eq!(fs::read(&model).unwrap(), b"old");
    assert_eq!(fs::read_dir(&f).unwrap().count(), 2);
}

#[cfg(unix)]
#[test]
fn a_new_model_may_be_read_by_whom_the_old_one_was() {
    use std::os::unix::fs::PermissionsExt;
    let f = folder("allowed");
    let (path, model) = (file(&f, "a", SMALL.as_bytes()), file(&f, "model", b"old"));
    fs::set_permissions(&model, fs::Permissions::from_mode(0o600)).unwrap();
    told("train FILE MODEL", &path, &model).unwrap();
    assert_ne!(fs::read(&model).unwrap(), b"old");
    let mode = fs::metadata(&model).unwrap().permissions().mode();
    assert_eq!(mode & 0o777, 0o600);
}

#[test]
fn a_wrong_length_is_told_with_what_should_be() {
    let f = folder("lengths");
    let path = file(&f, "a", &own(2, &[1.0, 0.0, 0.0], &[]));
    let trouble = told("weights FILE", &path, "").unwrap_err();
    let text = format!(
        "{}: n is 2, so 32 bytes of matrix and 2 of labels should follow it (refusal 2)",
        path
    );
    assert!(trouble.to_string().starts_with(&text), "{}", trouble);
    let path = file(&f, "a", &own(u64::MAX, &[1.0], &[]));
    let trouble = told("check FILE", &path, "").unwrap_err();
    assert_eq!(trouble.status(), 11);
}

/// An output that takes nothing and says so at once, or only when it is flushed.
struct Full {
    at_once: bool,
}

impl std::io::Write for Full {
    fn write(&mut self, data: &[u8]) -> std::io::Result<usize> {
        match self.at_once {
            true => Err(std::io::ErrorKind::BrokenPipe.into()),
            false => Ok(data.len()),
        }
    }

    fn flush(&mut self) -> std::io::Result<()> {
        match self.at_once {
            true => Ok(()),
            false => Err(std::io::ErrorKind::BrokenPipe.into()),
        }
    }
}

#[test]
fn an_output_that_breaks_is_told() {
    let f = folder("broken");
    let path = file(&f, "a", SMALL.as_bytes());
    for (command, at_once) in [("weights", true), ("check", true), ("check", false)] {
        let words = [command, &path].map(str::to_string);
        let trouble = run(&words, &mut Full { at_once }, &mut Vec::new(), false).unwrap_err();
        assert_eq!(trouble.status(), 4);
        let text = "not all was written to standard output: ";
        assert!(trouble.to_string().starts_with(text), "{}", trouble);
    }
}

/// The old file isn't written into: another name of it still has the old text.
#[test]
fn a_model_takes_the_place_of_the_old_one() {
    let f = folder("replaced");
    let (path, model) = (file(&f, "a", SMALL.as_bytes()), file(&f, "model", b"old"));
    fs::hard_link(&model, f.join("kept")).unwrap();
    told("train FILE MODEL", &path, &model).unwrap();
    assert_eq!(fs::read(f.join("kept")).unwrap(), b"old");
    assert!(fs::read(&model).unwrap().starts_with(b"svm_type"));
    assert_eq!(fs::read_dir(&f).unwrap().count(), 3);
}

#[cfg(unix)]
#[test]
fn a_link_stays_a_link_and_a_device_a_device() {
    let f = folder("links");
    let (path, model) = (file(&f, "a", SMALL.as_bytes()), file(&f, "model", b"old"));
    let link = f.join("link");
    std::os::unix::fs::symlink(&model, &link).unwrap();
    told("train FILE MODEL", &path, link.to_str().unwrap()).unwrap();
    assert!(fs::symlink_metadata(&link)
        .unwrap()
        .file_type()
        .is_symlink());
    assert!(fs::read_to_string(&model).unwrap().starts_with("svm_type"));
    told("train FILE MODEL", &path, "/dev/null").unwrap();
    assert!(!fs::metadata("/dev/null").unwrap().is_file());
}

#[test]
fn help_is_there_for_all() {
    for line in [
        "--help",
        "train --help",
        "weights FILE --help",
        "check --help -c",
        "trail --help",
        "sort --help",
        "decide --help",
        "show --help",
        "help",
        "-h",
        "train -h",
        "sort -h",
        "help weights",
    ] {
        let text = told(line, "", "").unwrap();
        assert!(
            text.starts_with("altuliscia ") && text.contains("Exit status: 0 done, 2"),
            "{}",
            line
        );
        assert!(text.lines().all(|l| l.chars().count() <= 100), "{}", line);
    }
}

#[test]
fn the_program_has_these_statuses() {
    let f = folder("program");
    let path = file(&f, "small.txt", SMALL.as_bytes());
    let said = |words: &[&str]| program().args(words).current_dir(&f).output().unwrap();
    let output = said(&["train", &path]);
    assert_eq!((output.status.code(), output.stderr.len()), (Some(0), 0));
    assert!(String::from_utf8(output.stdout)
        .unwrap()
        .starts_with("optimization finished, #iter = 1\n"));
    assert!(f.join("small.txt.model").exists());
    let output = said(&["check", "-e", "-1", &path]);
    assert_eq!(output.status.code(), Some(18));
    assert_eq!(
        String::from_utf8(output.stderr).unwrap(),
        "altuliscia: this problem would be refused\n"
    );
    #[cfg(unix)]
    {
        use std::os::unix::ffi::OsStrExt;
        let word = std::ffi::OsStr::from_bytes(b"a\xff");
        let output = program().arg("train").arg(word).output().unwrap();
        assert_eq!(output.status.code(), Some(2));
        let told = "altuliscia: \"a\\xFF\" isn't UTF-8: give the file another name (see altuliscia --help)\n";
        assert_eq!(String::from_utf8(output.stderr).unwrap(), told);
    }
    let output = said(&[]);
    assert_eq!((output.status.code(), output.stdout.len()), (Some(2), 0));
    let told = "altuliscia: a command is missing (see altuliscia --help)\n";
    assert_eq!(String::from_utf8(output.stderr).unwrap(), told);
}
