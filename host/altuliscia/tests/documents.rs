//! What the documents show is what the files say.
use altuliscia::{
    FEWEST_LANGUAGES, MOST_LANGUAGES, MOST_PASSES, MOST_SAMPLES, STACK_BYTES, SUPPORT_LIMIT,
    USUAL_FLOOR,
};

#[test]
fn constants_are_the_headers() {
    let text = include_str!("../../../include/altuliscia.h");
    let defined = |name: &str| -> &str {
        let line = text
            .lines()
            .find_map(|l| l.strip_prefix(&format!("#define {} ", name)));
        line.unwrap().split_whitespace().next().unwrap()
    };
    let number = |name: &str| -> u64 { defined(name).parse().unwrap() };
    assert_eq!(number("ALTULISCIA_MOST_SAMPLES"), MOST_SAMPLES as u64);
    assert_eq!(number("ALTULISCIA_MOST_PASSES"), MOST_PASSES);
    assert_eq!(number("ALTULISCIA_STACK_BYTES"), STACK_BYTES as u64);
    let languages = ["FEWEST", "MOST"].map(|end| format!("ALTULISCIA_{}_LANGUAGES", end));
    let languages = languages.map(|name| number(&name) as usize);
    assert_eq!(languages, [FEWEST_LANGUAGES, MOST_LANGUAGES]);
    let limit: f64 = defined("ALTULISCIA_SUPPORT_LIMIT").parse().unwrap();
    assert_eq!(limit.to_bits(), SUPPORT_LIMIT.to_bits());
    assert_eq!(limit, 100.0 * f64::EPSILON);
    let floor: f64 = defined("ALTULISCIA_USUAL_FLOOR").parse().unwrap();
    assert_eq!(floor.to_bits(), USUAL_FLOOR.to_bits());
}

/// The lines of the README between a fence of that kind and its end, without their indent.
fn fenced(kind: &str) -> Vec<&'static str> {
    let text = include_str!("../../../README.md");
    let fence = format!("```{}", kind);
    let lines = text.lines().skip_while(|l| *l != fence).skip(1);
    lines.take_while(|l| *l != "```").map(str::trim).collect()
}

#[test]
fn the_readme_shows_the_sources() {
    for (kind, source) in [
        ("c", include_str!("../../example/example.c")),
        ("rust", include_str!("../src/lib.rs")),
        ("python", include_str!("../../python/altuliscia.py")),
    ] {
        let strip = |l: &'static str| l.trim_start_matches("//!").trim();
        let source: Vec<&str> = source.lines().map(strip).collect();
        let shown = fenced(kind);
        assert!(shown.len() > 5, "{}", kind);
        let found = source.windows(shown.len()).any(|part| part == shown);
        assert!(found, "{}", kind);
    }
    let told = include_str!("../../problems/eight.expected");
    let readme = include_str!("../../../README.md");
    let lines = readme.lines().map(str::trim);
    let lines = lines.skip_while(|l| !l.ends_with("linfa-svm says"));
    let rows: Vec<&str> = lines.take_while(|l| !l.is_empty()).collect();
    assert!(rows.len() == 4 && rows.iter().all(|l| told.contains(l)));
    let run = include_str!("../../../captions/cs-sk.expected");
    let indented: Vec<String> = run.lines().map(|l| format!("    {}", l)).collect();
    let shown: Vec<&str> = indented.iter().map(|l| l.trim_end()).collect();
    assert!(shown.len() > 5 && readme.contains(&shown.join("\n")));
}

#[test]
fn the_comparison_has_the_counts_of_the_run() {
    let run = include_str!("../../../captions/cs-sk.expected");
    let counts = |start: &str| -> Vec<&str> {
        let line = run.lines().find_map(|l| l.strip_prefix(start)).unwrap();
        let words = line.split_whitespace().skip(1);
        words.step_by(3).collect()
    };
    let (off, on) = (counts("1e-7  10  off"), counts("1e-7  10  on"));
    assert_eq!((off.len(), on.len()), (2, 2));
    let page = include_str!("../../../docs/COMPARED.md");
    for (name, k) in [
        ("Altuliscia, each caption's own weight", 0),
        ("linfa-svm, the list that it answers", 1),
    ] {
        let row = format!("\n| {} | {} | {} |\n", name, off[k], on[k]);
        assert!(page.contains(&row), "{}", row);
    }
}

/// Every place that the README's table names, and every page that it points to.
#[test]
fn what_the_readme_points_to_is_there() {
    let readme = include_str!("../../../README.md");
    let root = concat!(env!("CARGO_MANIFEST_DIR"), "/../../");
    let rows = readme.lines().filter_map(|l| l.strip_prefix("| "));
    let places = rows.flat_map(|l| l.split(" |").next().unwrap().split(", "));
    let words = readme.split(|c: char| c.is_whitespace() || "()`,:;".contains(c));
    let pages = words
        .map(|w| w.trim_end_matches('.'))
        .filter(|w| w.starts_with("docs/") || w.ends_with("README.md"));
    let mut count = 0;
    for name in places.chain(pages).filter(|name| *name != "|") {
        let name = name.replace("NAME", "solver");
        assert!(std::path::Path::new(root).join(&name).exists(), "{}", name);
        count += 1;
    }
    assert!(count > 30, "{}", count);
}
