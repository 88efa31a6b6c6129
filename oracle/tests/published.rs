//! The compiled solver is the published text: word for word, but for added
//! lines that say so.

use std::fs;
use std::path::Path;

fn text(path: &str) -> String {
    let path = Path::new(env!("CARGO_MANIFEST_DIR")).join(path);
    fs::read_to_string(&path).unwrap_or_else(|e| panic!("{}: {e}", path.display()))
}

/// How every added line ends.
const ADDED: &str = "// oracle";

/// Takes the added lines out; hands back the rest and how many there were.
fn without_added(text: &str) -> (String, usize) {
    let all = text.split_inclusive('\n');
    let kept: String = all.filter(|l| !l.trim_end().ends_with(ADDED)).collect();
    let added = text.lines().count() - kept.lines().count();
    (kept, added)
}

#[test]
fn two_files_are_the_published_ones_but_for_added_lines() {
    for (name, most_added) in [("solver_smo", 24), ("permutable_kernel", 0)] {
        let published = text(&format!("published/{name}.rs.txt"));
        assert!(
            !published.contains(ADDED),
            "{name}: a published line would be taken out"
        );
        let compiled = text(&format!("linfa-svm/src/{name}.rs"));
        let (kept, added) = without_added(&compiled);
        assert_eq!(kept.as_bytes(), published.as_bytes(), "{name}");
        assert!(added <= most_added, "{name}: {added} added lines");
    }
}

/// Apart from the budget, the floor, the mode and a file beside it, an added line
/// only writes something down.
#[test]
fn added_lines_write_down_or_set_budget_floor_and_mode() {
    for line in text("linfa-svm/src/solver_smo.rs").lines() {
        let line = line.trim();
        if line.ends_with(ADDED) {
            let others = [
                "pub mod chosen; // oracle",
                "pub budget: usize, // oracle",
                "pub floor: F, // oracle",
                "pub travelling: bool, // oracle",
                "if self.params.travelling { self.bounds.swap(i, j); } // oracle",
                "let max_iter = self.params.budget; // oracle",
            ];
            let floor = PLACES.iter().any(|place| line == takes_over(place));
            assert!(
                line.starts_with("crate::watch::") || others.contains(&line) || floor,
                "{line}"
            );
        }
    }
}

/// Where the published text has 1e-10, from its top down.
const PLACES: [&str; 6] = [
    "Differ",
    "Agree",
    "CPositive",
    "CNegative",
    "NuPositive",
    "NuNegative",
];

/// The added line by which the floor takes over at that place.
fn takes_over(place: &str) -> String {
    let floor = format!("crate::floor::at(crate::floor::Place::{place}, self.params.floor)");
    match place {
        "Differ" | "Agree" => format!("quad_coef = {floor}; // oracle"),
        _ => format!("let obj_diff = if quad_coef > F::zero() {{ obj_diff }} else {{ -(grad_diff * grad_diff) / {floor} }}; // oracle"),
    }
}

/// Behind each published 1e-10, and nowhere else, the floor takes over before
/// anything looks at it.
#[test]
fn each_published_floor_gives_way() {
    let text = text("linfa-svm/src/solver_smo.rs");
    let lines: Vec<&str> = text.lines().map(str::trim).collect();
    let mut places = PLACES.iter();
    for (k, line) in lines.iter().enumerate() {
        let behind = match *line {
            "quad_coef = F::cast(1e-10);" => k + 1,
            "-(grad_diff * grad_diff) / F::cast(1e-10)" => {
                assert_eq!(lines[k + 1], "};");
                k + 2
            }
            _ => {
                assert!(!line.contains("1e-10"), "{line}");
                continue;
            }
        };
        let place = places.next().expect("there are six");
        assert_eq!(lines[behind], takes_over(place));
    }
    assert_eq!(places.next(), None);
    assert_eq!(text.matches("self.params.floor").count(), PLACES.len());
}

/// The parts between `// published: NAME` and `// end`.
fn parts(file: &str) -> Vec<(String, String)> {
    let mut parts = Vec::new();
    let mut open: Option<(String, String)> = None;
    for line in text(file).split_inclusive('\n') {
        let mark = line.trim();
        if let Some(name) = mark.strip_prefix("// published: ") {
            assert!(open.is_none(), "{file}: a part within a part");
            open = Some((name.to_string(), String::new()));
        } else if mark == "// end" {
            parts.push(open.take().expect("a part that ends has begun"));
        } else if let Some((_, part)) = &mut open {
            part.push_str(line);
        }
    }
    assert!(open.is_none(), "{file}: a part doesn't end");
    parts
}

#[test]
fn fits_and_model_are_parts_of_the_published_files() {
    for (file, within, items) in [
        (
            "linfa-svm/src/classification.rs",
            "classification.rs",
            vec![
                "pub fn fit_c<",
                "pub fn fit_nu<",
                "pub fn fit_one_class<",
                "    solver.solve()\n}\n",
            ],
        ),
        (
            "linfa-svm/src/regression.rs",
            "regression.rs",
            vec!["pub fn fit_nu<", "    res.with_phantom()\n}\n"],
        ),
        (
            "linfa-svm/src/lib.rs",
            "lib.rs",
            vec![
                "pub enum ExitReason {",
                "pub struct Svm<",
                "fn with_phantom<",
            ],
        ),
    ] {
        let parts = parts(file);
        assert_eq!(parts.len(), 1, "{file}");
        let (name, part) = &parts[0];
        assert_eq!(name, within);
        let published = text(&format!("published/{name}.txt"));
        assert!(published.contains(part.as_str()), "{file} isn't verbatim");
        for item in items {
            assert!(part.contains(item), "{file} lacks {item}");
        }
    }
}

/// Outside their verbatim part the two files of fits hold imports and comments
/// alone.
#[test]
fn nothing_but_imports_stands_beside_the_fits() {
    for file in [
        "linfa-svm/src/classification.rs",
        "linfa-svm/src/regression.rs",
    ] {
        let whole = text(file);
        let part = &parts(file)[0].1;
        let rest = whole.replacen(part.as_str(), "", 1);
        for line in rest.lines() {
            let fine = line.is_empty() || line.starts_with("use ") || line.starts_with("//");
            assert!(fine, "{file}: {line}");
        }
    }
}

#[test]
fn published_files_have_their_sums() {
    let sums = text("published/SHA256SUMS");
    assert_eq!(sums.lines().count(), 7);
    for line in sums.lines() {
        let (sum, name) = line.split_once("  ").expect("a sum and a name");
        assert_eq!(
            sum,
            sha256(text(&format!("published/{name}")).as_bytes()),
            "{name}"
        );
    }
}

#[test]
fn the_sum_is_right_on_known_texts() {
    assert_eq!(
        sha256(b""),
        "e3b0c44298fc1c149afbf4c8996fb92427ae41e4649b934ca495991b7852b855"
    );
    assert_eq!(
        sha256(b"abc"),
        "ba7816bf8f01cfea414140de5dae2223b00361a396177a9cb410ff61f20015ad"
    );
}

/// SHA-256, so that no other program is needed.
fn sha256(bytes: &[u8]) -> String {
    let primes: Vec<u64> = (2u64..)
        .filter(|k| (2..*k).all(|d| k % d != 0))
        .take(64)
        .collect();
    // the first 32 bits of the fraction of a square or cube root: the floor
    // of the root of p·2^64 or p·2^96, less its whole part
    let fraction = |p: u64, cube: bool| -> u32 {
        let power = if cube { 3 } else { 2 };
        let (mut low, mut high) = (0u128, 1u128 << 36);
        while high - low > 1 {
            let middle = (low + high) / 2;
            // middle^power <= p << (32 * power), without overflow
            let fits = if cube {
                let square = middle * middle;
                square <= (u128::from(p) << 96) / middle.max(1)
            } else {
                middle.pow(power) <= u128::from(p) << 64
            };
            if fits {
                low = middle;
            } else {
                high = middle;
            }
        }
        low as u32
    };
    let k: Vec<u32> = primes.iter().map(|p| fraction(*p, true)).collect();
    let mut h: Vec<u32> = primes[..8].iter().map(|p| fraction(*p, false)).collect();

    let mut message = bytes.to_vec();
    message.push(0x80);
    while message.len() % 64 != 56 {
        message.push(0);
    }
    message.extend((bytes.len() as u64 * 8).to_be_bytes());

    for block in message.chunks(64) {
        let mut w: Vec<u32> = block
            .chunks(4)
            .map(|b| u32::from_be_bytes(b.try_into().unwrap()))
            .collect();
        for t in 16..64 {
            let (a, b) = (w[t - 15], w[t - 2]);
            let s0 = a.rotate_right(7) ^ a.rotate_right(18) ^ (a >> 3);
            let s1 = b.rotate_right(17) ^ b.rotate_right(19) ^ (b >> 10);
            let sum = w[t - 16].wrapping_add(s0).wrapping_add(w[t - 7]);
            w.push(sum.wrapping_add(s1));
        }
        let mut s = h.clone();
        for t in 0..64 {
            let s1 = s[4].rotate_right(6) ^ s[4].rotate_right(11) ^ s[4].rotate_right(25);
            let choice = (s[4] & s[5]) ^ (!s[4] & s[6]);
            let t1 = s[7]
                .wrapping_add(s1)
                .wrapping_add(choice)
                .wrapping_add(k[t])
                .wrapping_add(w[t]);
            let s0 = s[0].rotate_right(2) ^ s[0].rotate_right(13) ^ s[0].rotate_right(22);
            let majority = (s[0] & s[1]) ^ (s[0] & s[2]) ^ (s[1] & s[2]);
            s.rotate_right(1);
            s[4] = s[4].wrapping_add(t1);
            s[0] = t1.wrapping_add(s0).wrapping_add(majority);
        }
        for (a, b) in h.iter_mut().zip(s) {
            *a = a.wrapping_add(b);
        }
    }
    h.iter().map(|x| format!("{x:08x}")).collect()
}
