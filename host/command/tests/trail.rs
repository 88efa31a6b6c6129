//! Where a weight came from, as the command line tells it.
mod common;
mod over;
mod whole;

use captions::Figures;
use command::{run, Trouble};
use common::{file, folder, own, said, told, SMALL};
use over::OVER;
use std::fs;
use whole::whole;

const RECORDED: &str = include_str!("../../../captions/cs-sk.trail.expected");

fn figures() -> Figures {
    Figures::read(include_str!("../../../captions/cs-sk.txt")).unwrap()
}

/// The recorded calls: the words of each, and what it tells.
fn recorded() -> Vec<(Vec<&'static str>, &'static str)> {
    let calls = RECORDED.split("$ altuliscia ").skip(1);
    calls
        .map(|call| {
            let (words, text) = call.split_once('\n').unwrap();
            let words: Vec<&str> = words.split(' ').collect();
            (words, text.strip_suffix("\n\n").unwrap_or(text))
        })
        .collect()
}

/// What the call of these words tells, on the captions that ship.
fn on_captions(words: &[&str], path: &str) -> String {
    let named = |word: &&str| if *word == "cs-sk.train" { path } else { *word }.to_string();
    let words: Vec<String> = words.iter().map(named).collect();
    let words: Vec<&str> = words.iter().map(String::as_str).collect();
    said(&words).unwrap().0
}

#[test]
fn trails_are_those_recorded() {
    let f = folder("trail-recorded");
    let path = file(&f, "cs-sk.train", figures().libsvm_train(64).as_bytes());
    assert_eq!(recorded().len(), 7);
    for (words, text) in recorded() {
        let told = on_captions(&words, &path);
        assert_eq!(told.trim_end(), text.trim_end(), "{:?}", words);
    }
}

/// What docs/TRAIL.md shows is what is recorded.
#[test]
fn the_page_shows_what_is_told() {
    let page = include_str!("../../../docs/TRAIL.md");
    for (words, text) in recorded().into_iter().take(3) {
        let command = format!("    target/release/altuliscia {}", words.join(" "));
        let command = command.replace("cs-sk.train", "target/cs-sk.train");
        assert!(page.contains(&format!("{}\n", command)), "{}", command);
        let block: Vec<String> = text.lines().map(|l| format!("    {}", l)).collect();
        let block: Vec<&str> = block.iter().map(|l| l.trim_end()).collect();
        assert!(page.contains(&block.join("\n")), "{}", block.join("\n"));
    }
}

#[test]
fn bytes_and_text_have_one_trail() {
    let f = folder("trail-bytes");
    let labels: Vec<u8> = figures().labels(64).iter().map(|y| u8::from(*y)).collect();
    let bytes = file(&f, "bytes", &own(64, &figures().matrix(64), &labels));
    let text = file(&f, "text", figures().libsvm_train(64).as_bytes());
    for options in ["", "-s 1 -n 0.3", "-s 2 -n 0.3", "--retired 7 -c 10"] {
        let line = format!("trail {} --sample 20 FILE", options);
        let trails = [&bytes, &text].map(|path| told(&line, path, "").unwrap());
        assert!(trails[0].contains(" steps chose it:\n"));
        assert_eq!(trails[0], trails[1]);
    }
}

/// The captions file stands beside the problem, a line for each sample.
#[test]
fn a_caption_stands_beside_each_number() {
    let f = folder("trail-captions");
    let path = file(&f, "over.txt", OVER.as_bytes());
    let names = "one,two,three,four,five,six,seven,eight,nine,\"ten\"\t";
    let plain = told("trail -c 1 --sample 5 FILE", &path, "").unwrap();
    for end in ["\n", "\r\n"] {
        let text = format!("\u{feff}{}{}", names.replace(',', end), end);
        let captions = file(&f, "captions", text.as_bytes());
        let words = [
            "trail",
            "-c",
            "1",
            "--sample",
            "5",
            "--captions",
            &captions,
            &path,
        ];
        let (found, _) = said(&words).unwrap();
        let mut lines = found.lines();
        let head = "serial 5, sample 4, label -1, \"five\"";
        assert_eq!(lines.next(), Some(head));
        let rows = lines.skip(4).take_while(|l| !l.is_empty()).skip(1);
        let mut count = 0;
        for (row, other) in rows.zip(plain.lines().skip(6)) {
            let serial: usize = row.split_whitespace().nth(1).unwrap().parse().unwrap();
            let name = names.split(',').nth(serial - 1).unwrap();
            assert!(row.starts_with(other) && row.ends_with(&format!("  {:?}", name)));
            count += 1;
        }
        assert!(count > 1);
    }
    let named = format!("{}\n", names.replace(',', "\n"));
    let captions = file(&f, "captions", named.as_bytes());
    let words = ["trail", "--sample", "10", "--captions", &captions, &path];
    let (found, _) = said(&words).unwrap();
    assert!(found.starts_with("serial 10, sample 9, label -1, \"\\\"ten\\\"\\t\"\n"));
}

#[test]
fn captions_that_do_not_fit_are_told() {
    let f = folder("trail-lines");
    let path = file(&f, "small.txt", SMALL.as_bytes());
    let trouble = |data: &[u8]| {
        let captions = file(&f, "captions", data);
        let words = ["trail", "--sample", "1", "--captions", &captions, &path];
        let trouble = said(&words).unwrap_err();
        (
            trouble.status(),
            trouble.to_string().replace(&captions, "TEXTS"),
        )
    };
    for (data, lines) in [(&b""[..], 0), (b"one\n", 1), (b"one\ntwo\n\n", 3)] {
        let told = format!(
            "TEXTS: {} lines of captions for 2 samples; there is a line for each",
            lines
        );
        assert_eq!(trouble(data), (3, told));
    }
    let told = "TEXTS:2: not a text in UTF-8".to_string();
    assert_eq!(trouble(b"one\n\xff\n"), (3, told));
    let words = [
        "trail",
        "--sample",
        "1",
        "--captions",
        "no-such-file",
        &path,
    ];
    let trouble = said(&words).unwrap_err();
    assert_eq!(trouble.status(), 3);
    assert!(trouble.to_string().starts_with("no-such-file: "));
}

#[test]
fn a_sample_that_is_not_there_is_told() {
    let f = folder("trail-samples");
    let path = file(&f, "small.txt", SMALL.as_bytes());
    for (word, told) in [
        (
            "3",
            format!("no sample of {} has the serial number 3", path),
        ),
        (
            "0",
            format!("no sample of {} has the serial number 0", path),
        ),
        (
            "x",
            "'x' is not a serial number, which is a whole number".to_string(),
        ),
        (
            "-1",
            "'-1' is not a serial number, which is a whole number".to_string(),
        ),
        (
            "1,2",
            "'1,2' is not a serial number, which is a whole number".to_string(),
        ),
        (
            "",
            "'' is not a serial number, which is a whole number".to_string(),
        ),
    ] {
        let trouble = said(&["trail", "--sample", word, &path]).unwrap_err();
        let text = format!("--sample: {} (see altuliscia --help)", told);
        assert_eq!((trouble.status(), trouble.to_string()), (2, text));
    }
    let twice = SMALL.replace("0:2", "0:1");
    let path = file(&f, "twice.txt", twice.as_bytes());
    let trouble = told("trail --sample 1 FILE", &path, "").unwrap_err();
    let told = format!("{}:2: the serial number 1 is that of line 1, too", path);
    assert_eq!((trouble.status(), trouble.to_string()), (3, told));
}

/// The serial number is the file's, wherever its sample stands.
#[test]
fn a_sample_is_named_by_its_serial_number() {
    let f = folder("trail-serials");
    let path = file(&f, "a", b"7 0:2 1:0 2:1\n3 0:1 1:1 2:0\n");
    let found = told("trail --sample 1 FILE", &path, "").unwrap();
    let (head, rest) = found.split_once("\n\n").unwrap();
    assert_eq!(head, "serial 1, sample 1, label 3\nweight -1.0");
    assert!(rest.starts_with("It starts at 0.0, its ceiling is 1.0; the only step chose it:\n"));
    let row = "\n     1        2      7  j   1.0               1.0\n";
    assert!(found.contains(row), "{}", found);
    assert!(found.ends_with(
        "
In the end it is 1.0: at its ceiling.
It is answered negated, since label 3 is the second class: -1.0.
Checked with 2 calls of the library: all 2 weights are the same, bit for bit, before and after each of these steps (before pass 1 no call looks) and at the end of the run.
"
    ));
}

#[test]
fn it_is_said_where_the_weight_is() {
    let f = folder("trail-places");
    let path = file(&f, "over.txt", OVER.as_bytes());
    for (options, told_of) in [
        ("-c 1 --sample 3", "In the end it is 1.0: at its ceiling."),
        (
            "-c 1 --sample 2",
            "In the end it is 0.8793103448275862: inside, above 0 and below its ceiling.",
        ),
        ("-c 1 --sample 10", "It was never chosen, and is 0."),
        (
            "-w-1 2 --sample 4",
            "In the end it is 1.0000000000000002: above its ceiling, which is kept only where both classes have the same cost.",
        ),
        (
            "-s 2 -n 0.3 --sample 1",
            "In the end it is 0.0: the least that it may be.",
        ),
        (
            "-s 2 -n 0.3 --sample 2",
            "It was never chosen, and is still 1.0: at its ceiling.",
        ),
        (
            "--retired 3 --sample 3",
            "It is retired: no step may choose it, and it is 0.",
        ),
    ] {
        let line = format!("trail {} FILE", options);
        let found = told(&line, &path, "").unwrap();
        let lines: Vec<&str> = found.lines().collect();
        assert_eq!(lines[lines.len() - 3], told_of, "{}", options);
        // A weight is the one that `weights` lists.
        let weights = line.replace("trail", "weights");
        let (weights, serial) = weights.split_once("--sample ").unwrap();
        let list = told(&format!("{} FILE", weights), &path, "").unwrap();
        let serial = serial.split(' ').next().unwrap();
        let mut rows = list.lines().map(|l| l.split_whitespace());
        let row = rows.find(|row| row.clone().nth(1) == Some(serial));
        let weight = match options.starts_with("-s 2") {
            true => row.unwrap().nth(2),
            false => row.unwrap().nth(3),
        };
        assert_eq!(Some(lines[1]), weight.map(|w| format!("weight {}", w)).as_deref());
    }
}

#[test]
fn a_refusal_has_its_status_and_no_trail() {
    let f = folder("trail-refused");
    for (number, data, options) in [
        (3, own(2, &[1.0, 0.0, 0.0, f64::NAN], &[1, 0]), ""),
        (5, SMALL.as_bytes().to_vec(), "-c 0"),
        (8, SMALL.as_bytes().to_vec(), "-e -1"),
        (9, SMALL.as_bytes().to_vec(), "-s 1 -n 0"),
        (10, SMALL.as_bytes().to_vec(), "--budget 0"),
    ] {
        let path = file(&f, "file", &data);
        let line = format!("trail {} --sample 1 FILE", options);
        let trouble = told(&line, &path, "").unwrap_err();
        assert_eq!(trouble.status(), 10 + number);
    }
    let path = file(&f, "file", SMALL.as_bytes());
    let trouble = told("trail --sample 1 -h 1 FILE", &path, "").unwrap_err();
    assert_eq!(trouble.status(), 2);
    assert_eq!(fs::read_dir(&f).unwrap().count(), 1);
}

#[test]
fn how_the_run_ended_is_told_beside_it() {
    let f = folder("trail-beside");
    let path = file(&f, "over.txt", OVER.as_bytes());
    let of = |options: &[&str]| {
        let words = [&["trail", "--sample", "2", &path][..], options].concat();
        said(&words).unwrap()
    };
    let (out, err) = of(&["--retired", "3"]);
    assert!(err.starts_with("exit reason: threshold\nrho = "));
    let end = "\nretired: 3 (1 of 10 samples)\noptions: -s 0 -c 1.0 -e 0.001 -h 0 --budget 10000000 --floor 1e-10\n";
    assert!(err.ends_with(end), "{}", err);
    assert_eq!(of(&["--retired", "3", "-q"]), (out, String::new()));
    // What isn't to be released is followed all the same.
    let words = ["trail", "--sample", "2", "-q", "--budget", "2", &path];
    let (status, out, err) = whole(&words);
    let told = "altuliscia: not to be released: the budget ran out, all 2 of it\n";
    assert_eq!((status, err.as_str()), (6, told));
    assert!(out.contains(" of the 2 steps chose it"));
}

#[test]
fn an_output_that_breaks_is_told() {
    struct Full;
    impl std::io::Write for Full {
        fn write(&mut self, _: &[u8]) -> std::io::Result<usize> {
            Err(std::io::ErrorKind::BrokenPipe.into())
        }

        fn flush(&mut self) -> std::io::Result<()> {
            Ok(())
        }
    }
    let f = folder("trail-broken");
    let path = file(&f, "a", SMALL.as_bytes());
    let words = ["trail", "--sample", "1", &path].map(str::to_string);
    let trouble = run(&words, &mut Full, &mut Vec::new(), false).unwrap_err();
    assert!(matches!(trouble, Trouble::Write(_)));
}

#[test]
fn help_tells_of_it() {
    let help = told("trail --help", "", "").unwrap();
    for part in [
        "\n  --sample S  ",
        "\n  --captions TEXTS\n",
        "\n  --retired LIST\n",
    ] {
        assert!(help.contains(part), "{}", part);
    }
    assert!(help.contains("5 a trail or a decision isn't what\nthe library answers"));
    let all = told("--help", "", "").unwrap();
    assert!(all.contains("\n  altuliscia trail --sample S FILE\n"));
}
