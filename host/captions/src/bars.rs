//! The times of docs/BENCHMARKS-x86-64.md as bars: the library's and LIBSVM's, each by that of `linfa-svm`. Nothing is measured here.
use crate::svg::{escaped, key, line, page, rect, text, upright, DASHED, GREY, INK, LARGE, SMALL};

const WIDTH: f64 = 960.0;
/// From where to where the bars stand, how high 1 is, and where each source's bars have their feet.
const SIDES: (f64, f64) = (64.0, 944.0);
const ONE: f64 = 130.0;
const FEET: [f64; 2] = [272.0, 530.0];

const SOURCES: [&str; 2] = ["captions", "points"];
const OURS: &str = "#0072b2";
const THEIRS: &str = "#e69f00";

/// One row of a table: its samples and task, and the two ratios to the time of `linfa-svm`.
#[derive(Clone, Debug, PartialEq)]
struct Row {
    samples: String,
    task: String,
    library: f64,
    libsvm: f64,
}

/// The picture of such a page. The error says what the page hasn't.
pub fn picture(benchmarks: &str) -> Result<String, String> {
    let measured = benchmarks.lines().find_map(|l| l.strip_prefix("- 20"));
    let measured = measured.ok_or("no line says when and where was measured")?;
    let title = "Time of a training, shrinking off, by that of linfa-svm (the Rust)";
    let mut parts = vec![text(
        20.0,
        52.0,
        "start",
        SMALL,
        &escaped(&format!("20{}", measured)),
    )];
    for (source, feet) in SOURCES.iter().zip(FEET) {
        let rows = rows(benchmarks, &format!("### {}, shrinking off", source))?;
        let (mean, all): (Vec<Row>, Vec<Row>) =
            rows.into_iter().partition(|row| row.samples.is_empty());
        let mean = match &mean[..] {
            [mean] => mean,
            _ => return Err(format!("{}: not one row of means", source)),
        };
        let head = format!(
            "Drawn {}: geometric means {:.2} for Altuliscia, {:.2} for LIBSVM",
            source, mean.library, mean.libsvm
        );
        parts.push(text(20.0, feet - 1.35 * ONE, "start", LARGE, &head));
        parts.extend(panel(&all, feet));
    }
    let y = FEET[1] + 76.0;
    parts.extend(key(SIDES.0, y, OURS, "Altuliscia (its ratio above)"));
    parts.extend(key(SIDES.0 + 230.0, y, THEIRS, "LIBSVM"));
    parts.push(line(SIDES.0 + 330.0, SIDES.0 + 360.0, y - 4.0, DASHED));
    parts.push(text(SIDES.0 + 366.0, y, "start", INK, "linfa-svm"));
    Ok(page(WIDTH, y + 24.0, title, &parts))
}

/// The rows of the table behind a heading.
fn rows(benchmarks: &str, heading: &str) -> Result<Vec<Row>, String> {
    let lines = benchmarks.lines().skip_while(|l| *l != heading).skip(2);
    let mut table = lines.take_while(|l| l.starts_with('|')).map(cells);
    let head = table
        .next()
        .ok_or(format!("no table behind '{}'", heading))?;
    let place = |name: &str| {
        let found = head.iter().position(|cell| *cell == name);
        found.ok_or(format!("{}: no column '{}'", heading, name))
    };
    let places = [
        place("n")?,
        place("task")?,
        place("library / Rust")?,
        place("LIBSVM / Rust")?,
    ];
    let one = |cells: Vec<&str>| {
        let cell = |k: usize| cells.get(places[k]).copied().unwrap_or("");
        let ratio = |k: usize| {
            let number = cell(k)
                .parse()
                .ok()
                .filter(|x: &f64| x.is_finite() && *x > 0.0);
            number.ok_or(format!("{}: '{}' is no ratio", heading, cell(k)))
        };
        Ok(Row {
            samples: cell(0).to_string(),
            task: cell(1).to_string(),
            library: ratio(2)?,
            libsvm: ratio(3)?,
        })
    };
    table.skip(1).map(one).collect()
}

fn cells(line: &str) -> Vec<&str> {
    line.trim_matches('|').split('|').map(str::trim).collect()
}

/// The bars of one source, with what stands about them.
fn panel(rows: &[Row], feet: f64) -> Vec<String> {
    let pitch = (SIDES.1 - SIDES.0) / rows.len().max(1) as f64;
    let left = |k: usize| SIDES.0 + pitch * k as f64;
    let mut parts = vec![upright(20.0, feet - ONE / 2.0, "time / linfa-svm\u{2019}s")];
    for (k, row) in rows.iter().enumerate() {
        let width = 0.36 * pitch;
        for (x, ratio, fill) in [(0.12, row.library, OURS), (0.52, row.libsvm, THEIRS)] {
            let high = ONE * ratio;
            parts.push(rect(left(k) + x * pitch, feet - high, width, high, fill));
        }
        let above = feet - ONE * row.library - 5.0;
        let ratio = format!("{:.2}", row.library);
        parts.push(text(left(k) + 0.3 * pitch, above, "middle", SMALL, &ratio));
        let middle = left(k) + pitch / 2.0;
        for (down, words) in [(16.0, 0), (29.0, 1)].map(|(y, half)| (y, halves(&row.task)[half])) {
            parts.push(text(middle, feet + down, "middle", SMALL, &escaped(words)));
        }
    }
    for group in groups(rows) {
        let middle = (left(group.0) + left(group.1)) / 2.0;
        let words = format!("n = {}", escaped(&rows[group.0].samples));
        parts.push(line(
            left(group.0) + 4.0,
            left(group.1) - 4.0,
            feet + 35.0,
            GREY,
        ));
        parts.push(text(middle, feet + 50.0, "middle", GREY, &words));
    }
    for share in [0.0, 0.5, 1.0] {
        let y = feet - ONE * share;
        parts.push(text(
            SIDES.0 - 8.0,
            y + 4.0,
            "end",
            GREY,
            &share.to_string(),
        ));
    }
    parts.push(line(SIDES.0, SIDES.1, feet, GREY));
    parts.push(line(SIDES.0, SIDES.1, feet - ONE, DASHED));
    parts
}

/// What a task is named, and its number.
fn halves(task: &str) -> [&str; 2] {
    task.rsplit_once(' ')
        .map_or([task, ""], |(name, number)| [name, number])
}

/// From where to where rows have the same number of samples.
fn groups(rows: &[Row]) -> Vec<(usize, usize)> {
    let mut found: Vec<(usize, usize)> = Vec::new();
    for (k, row) in rows.iter().enumerate() {
        match found.last_mut() {
            Some((from, to)) if rows[*from].samples == row.samples => *to = k + 1,
            _ => found.push((k, k + 1)),
        }
    }
    found
}

#[cfg(test)]
mod tests {
    use super::*;

    const PAGE: &str = include_str!("../../../docs/BENCHMARKS-x86-64.md");

    /// docs/benchmarks.svg is what the command makes of the page.
    #[test]
    fn the_picture_is_that_of_the_page() {
        let drawn = picture(PAGE).unwrap();
        assert!(drawn == include_str!("../../../docs/benchmarks.svg"));
        // 16 rows for each source, and the legend.
        for fill in [OURS, THEIRS] {
            assert_eq!(drawn.matches(&format!("fill=\"{}\"", fill)).count(), 33);
        }
        assert_eq!(drawn.matches(">n = 512</text>").count(), 2);
        // The first row of the page: 0.33 and 1.05.
        for ratio in [0.33, 1.05] {
            assert!(drawn.contains(&format!("height=\"{:.1}\"", ONE * ratio)));
        }
    }

    /// What the README says of the picture.
    #[test]
    fn the_readme_names_the_least_and_the_most() {
        let all = SOURCES.map(|source| rows(PAGE, &format!("### {}, shrinking off", source)));
        let all = all.into_iter().flat_map(Result::unwrap);
        let all: Vec<f64> = all.map(|row| row.library).collect();
        let least = all.iter().copied().fold(f64::INFINITY, f64::min);
        let most = all.iter().copied().fold(0.0, f64::max);
        let words = format!(
            "are between {:.2} and {:.2} of it.](docs/benchmarks.svg)",
            least, most
        );
        assert!(
            include_str!("../../../README.md").contains(&words),
            "{}",
            words
        );
    }

    #[test]
    fn numbers_are_those_of_their_columns() {
        let found = rows(PAGE, "### points, shrinking off").unwrap();
        assert_eq!(found.len(), 17);
        let row = |samples: &str, task: &str, library, libsvm| Row {
            samples: samples.to_string(),
            task: task.to_string(),
            library,
            libsvm,
        };
        assert_eq!(found[2], row("64", "nu = 0.3", 0.42, 0.70));
        assert_eq!(found[16], row("", "geometric mean", 0.28, 0.71));
        assert_eq!(groups(&found[..16]), [(0, 4), (4, 8), (8, 12), (12, 16)]);
        assert_eq!(halves("one-class 0.2"), ["one-class", "0.2"]);
        assert_eq!(halves("x"), ["x", ""]);
    }

    #[test]
    fn what_the_page_lacks_is_told() {
        for (old, new, told) in [
            (
                "- 2026",
                "- 1926",
                "no line says when and where was measured",
            ),
            (
                "### points, shrinking off",
                "",
                "no table behind '### points, shrinking off'",
            ),
            (
                "| LIBSVM / Rust ",
                "| another ",
                "### captions, shrinking off: no column 'LIBSVM / Rust'",
            ),
            (
                "| 0.33 |",
                "| NaN |",
                "### captions, shrinking off: 'NaN' is no ratio",
            ),
            (
                "| 0.33 |",
                "|  |",
                "### captions, shrinking off: '' is no ratio",
            ),
            (
                "|  | geometric mean |",
                "| 64 | C = 1 |",
                "captions: not one row of means",
            ),
        ] {
            let wrong = PAGE.replacen(old, new, 1);
            assert_eq!(picture(&wrong).unwrap_err(), told);
        }
        assert!(picture("").is_err());
    }
}
