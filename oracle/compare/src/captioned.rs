//! The C functions on real captions.
use crate::called::compare_given;
use captions::Figures;
use oracle::problem::{Entry, Problem, MOST_PASSES};

/// Entries with their ceiling and nu.
const FITS: [(Entry, f64, f64); 4] = [
    (Entry::C, 1.0, 0.0),
    (Entry::C, 10.0, 0.0),
    (Entry::Nu, 0.0, 0.3),
    (Entry::OneClass, 0.0, 0.3),
];

/// Every training on the first n captions.
fn trainings(figures: &Figures, n: usize) -> Vec<Problem> {
    let (matrix, labels) = (figures.matrix(n), figures.labels(n));
    let mut all = Vec::new();
    for (entry, ceiling, nu) in FITS {
        for (eps, shrinking) in [(1e-7, false), (1e-7, true), (1e-3, false), (1e-3, true)] {
            let mut p = Problem::over(entry, n, &matrix);
            if entry.has_labels() {
                p.labels = labels.iter().map(|y| u8::from(*y)).collect();
            }
            (p.cpos, p.cneg, p.nu) = (ceiling, ceiling, nu);
            (p.eps, p.shrinking, p.budget) = (eps, shrinking, MOST_PASSES);
            all.push(p);
        }
    }
    all
}

/// Says how many differ, or nothing where a file can't be read.
pub fn compare(paths: &[&str]) -> Option<u64> {
    let mut read = Vec::new();
    for path in paths {
        let text = std::fs::read_to_string(path).map_err(|e| e.to_string());
        match text.and_then(|text| Figures::read(&text)) {
            Ok(figures) => read.push(figures),
            Err(e) => {
                eprintln!("{path}: {e}");
                return None;
            }
        }
    }
    let problems = read.iter().flat_map(|figures| {
        let sizes = [64, 128, 256, 512].into_iter();
        let sizes = sizes.filter(|n| *n <= figures.train.len());
        sizes.flat_map(move |n| trainings(figures, n))
    });
    Some(compare_given(problems))
}
