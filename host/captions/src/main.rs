//! Trains on captions and says how the held-out ones are sorted. HELP has the commands.
mod bars;
mod ceilings;
mod confusions;
mod languages;
mod outcomes;
mod picture;
mod retired;
mod svg;
mod table;

use altuliscia::{Options, Refusal};
use captions::{language, measured, voted, Figures, Several, Sorted};
use outcomes::Outcomes;
use std::fs;
use std::io::{BufWriter, Write};
use std::path::Path;
use std::process::ExitCode;

const HELP: &str = "captions pair FILE          trains the captions of one file and says how many held-out ones are sorted rightly
captions table FOLDER       the same for every file of a folder, as the tables of docs/CAPTIONS.md
captions picture FILE [TEXTS]
                            one training (C 10, eps 1e-7, shrinking on) as an SVG picture: the weights of both lists; TEXTS has the
                            training captions, a line each
captions retired FILE SERIAL ..
                            trains with all captions, then with those of these serial numbers retired, and compares
captions ceilings FILE ..    trainings with another ceiling for each language, in both modes: docs/CEILINGS.md
captions bars PAGE          the times of docs/BENCHMARKS-x86-64.md as an SVG picture
captions libsvm FILE NAME   writes them as NAME.train and NAME.held, in LIBSVM's format for a precomputed kernel

Of several languages:

captions twelve FILE        trains every two of them (C 10, eps 0.001) and says how the held-out captions are sorted
captions libsvm FILE NAME [N]
                            writes NAME.train and NAME.held, with the first N training captions of each language
captions sorted FILE LIST [N]
                            says how they were sorted by another program: LIST is what `altuliscia sort --votes` tells of NAME.held
captions confusions FILE LIST [N]
                            the same as an SVG picture
captions languages FOLDER   the tables of docs/LANGUAGES.md, from what captions/languages put there

captions/README.md says what the files are.";

fn main() -> ExitCode {
    let words: Vec<String> = std::env::args().skip(1).collect();
    let words: Vec<&str> = words.iter().map(String::as_str).collect();
    let told = match words[..] {
        ["pair", path] => read(path).and_then(|figures| pair(&figures)),
        ["table", folder] => table::table(folder),
        ["picture", path] => read(path).and_then(|figures| picture::picture(&figures, None)),
        ["picture", path, texts] => with_texts(path, texts),
        ["bars", path] => {
            text(path).and_then(|page| bars::picture(&page).map_err(|e| format!("{}: {}", path, e)))
        }
        ["retired", path, ref serials @ ..] if !serials.is_empty() => {
            read(path).and_then(|figures| retired::retired(&figures, serials))
        }
        ["ceilings", ref paths @ ..] if !paths.is_empty() => {
            let all: Result<Vec<Figures>, String> = paths.iter().map(|path| read(path)).collect();
            all.and_then(|all| ceilings::page(&all))
        }
        ["libsvm", path, name, ref n @ ..] if n.len() < 2 => libsvm(path, name, n.first()),
        ["twelve", path] => twelve(path).map(|found| found.told()),
        ["sorted", path, list, ref n @ ..] if n.len() < 2 => {
            outcomes(path, list, n.first()).map(|found| found.told())
        }
        ["confusions", path, list, ref n @ ..] if n.len() < 2 => {
            outcomes(path, list, n.first()).map(|found| confusions::picture(&found))
        }
        ["languages", folder] => languages::tables(folder),
        _ => {
            eprintln!("{}", HELP);
            return ExitCode::from(2);
        }
    };
    let told = told.and_then(|text| {
        let done = std::io::stdout().write_all(text.as_bytes());
        done.map_err(|e| format!("not all was written to standard output: {}", e))
    });
    match told {
        Ok(()) => ExitCode::SUCCESS,
        Err(message) => {
            eprintln!("{}", message);
            ExitCode::FAILURE
        }
    }
}

fn text(path: &str) -> Result<String, String> {
    fs::read_to_string(path).map_err(|e| format!("{}: {}", path, e))
}

fn read(path: &str) -> Result<Figures, String> {
    Figures::read(&text(path)?).map_err(|e| format!("{}: {}", path, e))
}

fn with_texts(path: &str, texts: &str) -> Result<String, String> {
    let (figures, all) = (read(path)?, text(texts)?);
    picture::picture(&figures, Some(&all)).map_err(|e| format!("{}: {}", texts, e))
}

fn several(path: &str) -> Result<Several, String> {
    Several::read(&text(path)?).map_err(|e| format!("{}: {}", path, e))
}

/// How many training captions of each language are asked for: all, or as many as a word says.
fn of_each(s: &Several, word: Option<&&str>) -> Result<usize, String> {
    let most = s.of_each();
    word.map_or(Ok(most), |word| {
        let number = word.parse().ok().filter(|n| (1..=most).contains(n));
        number.ok_or(format!("'{}': a language has 1 to {}", word, most))
    })
}

fn outcomes(path: &str, list: &str, n: Option<&&str>) -> Result<Outcomes, String> {
    let several = several(path)?;
    let n = of_each(&several, n)?;
    Outcomes::read(&several, n, &text(list)?).map_err(|e| format!("{}: {}", list, e))
}

/// Every two languages trained as `altuliscia train -c 10` does.
fn twelve(path: &str) -> Result<Outcomes, String> {
    let several = several(path)?;
    let options = Options {
        eps: 0.001,
        ..Options::default()
    };
    let votes = voted(&several, 10.0, &options)?;
    Outcomes::of(&several, &votes)
}

fn libsvm(path: &str, name: &str, n: Option<&&str>) -> Result<String, String> {
    if Several::is_told(&text(path)?) {
        let s = several(path)?;
        let n = of_each(&s, n)?;
        return both(name, s.libsvm_train(n), s.libsvm_held(n));
    }
    match n {
        None => of_pair(&read(path)?, name),
        Some(_) => Err(format!("{}: two languages, so all are written", path)),
    }
}

fn of_pair(f: &Figures, name: &str) -> Result<String, String> {
    let n = f.train.len();
    let [train, held] = [f.libsvm_train(n), f.libsvm_held(n)].map(std::iter::once);
    both(name, train, held)
}

/// Writes both files or none: each under another name first, and not where something else than a file stands.
fn both(
    name: &str,
    train: impl Iterator<Item = String>,
    held: impl Iterator<Item = String>,
) -> Result<String, String> {
    let paths = ["train", "held"].map(|end| format!("{}.{}", name, end));
    if let Some(taken) = paths.iter().find(|path| Path::new(path).is_dir()) {
        return Err(format!("nothing was written: {} is a folder", taken));
    }
    let parts = [0, 1].map(|k| format!("{}.part", paths[k]));
    let done = written(&parts[0], train)
        .and_then(|()| written(&parts[1], held))
        .and_then(|()| fs::rename(&parts[0], &paths[0]))
        .and_then(|()| fs::rename(&parts[1], &paths[1]));
    for part in parts {
        let _ = fs::remove_file(part);
    }
    done.map(|()| String::new())
        .map_err(|e| format!("{} and {}: {}", paths[0], paths[1], e))
}

fn written(path: &str, mut texts: impl Iterator<Item = String>) -> std::io::Result<()> {
    let mut file = BufWriter::new(fs::File::create(path)?);
    texts.try_for_each(|text| file.write_all(text.as_bytes()))?;
    file.flush()
}

/// One training, and how it sorts.
fn trained(f: &Figures, n: usize, c: f64, eps: f64, shrinking: bool) -> Result<Sorted, Refusal> {
    let options = Options {
        eps,
        shrinking,
        ..Options::default()
    };
    measured(f, n, c, &options)
}

fn percent(part: usize, whole: usize) -> String {
    format!("{:.1} %", 100.0 * part as f64 / whole as f64)
}

/// The usual threshold of `linfa-svm`, then that of LIBSVM. What a run finds may hang on it, so both are always shown.
const THRESHOLDS: [f64; 2] = [1e-7, 1e-3];

/// One pair for a reader: both thresholds, both ceilings, shrinking off and on, both lists of weights.
fn pair(f: &Figures) -> Result<String, String> {
    let (n, held) = (f.train.len(), f.held.len());
    if held == 0 {
        return Err("there is no held-out caption to sort".to_string());
    }
    let (first, second) = (language(&f.languages.0), language(&f.languages.1));
    let mut lines = vec![
        format!(
            "{} or {}? {} captions to train on, {} others to sort.",
            first, second, n, held
        ),
        String::new(),
        "                             sorted rightly by".to_string(),
        " eps   C  shrinking   steps  each caption's own weight  the list that linfa-svm answers"
            .to_string(),
    ];
    let mut told = Vec::new();
    for (eps, c) in THRESHOLDS
        .iter()
        .flat_map(|eps| [(*eps, 1.0), (*eps, 10.0)])
    {
        for (shrinking, word) in [(false, "off"), (true, "on")] {
            let rest = match trained(f, n, c, eps, shrinking) {
                Ok(sorted) => {
                    if sorted.differ > 0 {
                        told.push(format!(
                            "eps {:e}, C {}, shrinking {}: in that list {} of the {} weights are another caption's.",
                            eps, c, word, sorted.differ, n
                        ));
                    }
                    counts(&sorted, held)
                }
                Err(refusal) => refusal.to_string(),
            };
            lines.push(format!("{:e}  {:>2}  {:<9}  {}", eps, c, word, rest));
        }
    }
    if !told.is_empty() {
        lines.push(String::new());
        lines.append(&mut told);
    }
    Ok(lines.join("\n") + "\n")
}

fn counts(s: &Sorted, held: usize) -> String {
    let count = |right: usize| format!("{:>4} ({})", right, percent(right, held));
    format!(
        "{:>6}  {:<25}  {}",
        s.steps,
        count(s.home),
        count(s.crate_reading)
    )
}

#[cfg(test)]
mod tests {
    use super::*;
    use std::path::PathBuf;

    fn figures(held: &str) -> Figures {
        let text = format!("package p 1\nlanguages x y\ntrain 2\n{}1 4\n0 0 9\n", held);
        Figures::read(&text).unwrap()
    }

    /// A folder of a test's own, empty.
    fn folder(name: &str) -> PathBuf {
        let name = format!("captions-{}-{}", name, std::process::id());
        let path = std::env::temp_dir().join(name);
        let _ = fs::remove_dir_all(&path);
        fs::create_dir_all(&path).unwrap();
        path
    }

    #[test]
    fn nothing_to_sort_is_told() {
        let told = pair(&figures("held 0\n")).unwrap_err();
        assert_eq!(told, "there is no held-out caption to sort");
        let told = ceilings::page(&[figures("held 0\n")]).unwrap_err();
        assert_eq!(told, "there is no held-out caption to sort");
    }

    #[test]
    fn both_files_are_written_or_none() {
        let f = folder("both");
        let name = f.join("x").to_str().unwrap().to_string();
        for taken in ["x.train", "x.held"] {
            fs::create_dir_all(f.join(taken).join("full")).unwrap();
            let told = of_pair(&figures("held 0\n"), &name).unwrap_err();
            assert!(told.starts_with("nothing was written: "), "{}", told);
            let left: Vec<_> = fs::read_dir(&f)
                .unwrap()
                .map(|e| e.unwrap().file_name())
                .collect();
            assert_eq!(left, [taken]);
            fs::remove_dir_all(f.join(taken)).unwrap();
        }
        let none = f.join("none").join("x");
        let told = of_pair(&figures("held 0\n"), none.to_str().unwrap()).unwrap_err();
        assert!(told.contains("x.train and "), "{}", told);
        of_pair(&figures("held 0\n"), &name).unwrap();
        assert_eq!(fs::read_dir(&f).unwrap().count(), 2);
        fs::remove_dir_all(f).unwrap();
    }

    #[test]
    fn so_many_of_each_language() {
        let text = "package p 1\nlanguages x y z\ntrain 6\nheld 0\n";
        let text = format!("{}{}", text, "1 0\n2 0\n3 0\n".repeat(2));
        let s = Several::read(&text).unwrap();
        for (word, told) in [(None, 2), (Some(&"1"), 1), (Some(&"2"), 2)] {
            assert_eq!(of_each(&s, word), Ok(told));
        }
        for word in ["0", "3", "-1", "x", ""] {
            let told = of_each(&s, Some(&word)).unwrap_err();
            assert_eq!(told, format!("'{}': a language has 1 to 2", word));
        }
    }

    #[test]
    fn a_folder_without_figures_is_told() {
        let f = folder("none");
        let told = table::table(f.to_str().unwrap()).unwrap_err();
        assert!(
            told.ends_with(": no figures (*.txt) in this folder"),
            "{}",
            told
        );
        fs::remove_dir_all(f).unwrap();
    }
}
