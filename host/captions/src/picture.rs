//! One training as a picture: the weights of both lists, caption by caption, under their ceiling.
use crate::svg::{escaped, key, line, page, rect, text, upright, DASHED, GREY, INK, LARGE};
use altuliscia::{Answer, Options};
use captions::{fitted, language, parted, sorted, Figures};

const CEILING: f64 = 10.0;
const EPS: f64 = 1e-7;

const WIDTH: f64 = 960.0;
/// From where to where the bars stand.
const SIDES: (f64, f64) = (56.0, 936.0);
/// How far the ceiling is above the feet of the bars.
const HEIGHT: f64 = 140.0;
/// Where the bars of each list have their feet.
const FEET: [f64; 2] = [240.0, 486.0];
/// Where the legend stands, and the first line of what is below it.
const LEGEND: f64 = 554.0;
const BELOW: f64 = 584.0;
/// So many captions are told of below, so much of a caption's text.
const TOLD: usize = 8;
const LETTERS: usize = 60;

const FIRST: &str = "#0072b2";
const SECOND: &str = "#56b4e9";
const OTHER: &str = "#c94f00";
const BAND: &str = "#fbe0cf";

/// The picture of a training with both readings, and the captions' texts, a line for each, where they are at hand. The error is a refusal, or
/// that there are more lines or fewer.
pub fn picture(f: &Figures, texts: Option<&str>) -> Result<String, String> {
    let options = Options {
        eps: EPS,
        shrinking: true,
        ..Options::default()
    };
    let n = f.train.len();
    let answer = fitted(f, n, CEILING, &options).map_err(|refusal| refusal.to_string())?;
    let texts: Option<Vec<&str>> = texts.map(|all| all.lines().collect());
    if let Some(wrong) = texts.as_ref().filter(|all| all.len() != n) {
        let lines = wrong.len();
        return Err(format!("{} texts for {} training captions", lines, n));
    }
    let marked = parted(&answer);
    let names = [&f.languages.0, &f.languages.1].map(|code| escaped(language(code)));
    let title = format!(
        "{} or {}? One training on {} captions: C {}, eps {:e}, shrinking on, {} steps",
        names[0], names[1], n, CEILING, EPS, answer.iterations
    );
    let mut parts = Vec::new();
    for (list, head) in heads(f, &answer).iter().enumerate() {
        parts.push(text(20.0, FEET[list] - HEIGHT - 36.0, "start", LARGE, head));
        parts.extend(panel(f, &answer, &marked, list));
        parts.extend(axes(list));
    }
    parts.extend(legend(&names));
    let told = told(&answer, &marked, texts.as_deref());
    let below =
        |(k, words): (usize, &String)| text(SIDES.0, BELOW + 18.0 * k as f64, "start", INK, words);
    parts.extend(told.iter().enumerate().map(below));
    let height = BELOW + 18.0 * told.len() as f64;
    Ok(page(WIDTH, height, &title, &parts))
}

/// What stands above the bars of each list.
fn heads(f: &Figures, answer: &Answer) -> [String; 2] {
    let (found, held) = (sorted(f, answer), f.held.len());
    [
        format!(
            "Each caption\u{2019}s own weight: {} of {} other captions sorted rightly",
            found.home, held
        ),
        format!(
            "The list that linfa-svm answers: {} of {} sorted rightly; {} of the {} weights are another caption\u{2019}s",
            found.crate_reading,
            held,
            found.differ,
            answer.home.len()
        ),
    ]
}

/// Which captions are marked, and how.
fn told(answer: &Answer, marked: &[usize], texts: Option<&[&str]>) -> Vec<String> {
    let one = |k: &usize| {
        let words = texts.map(|all| all[*k].chars().take(LETTERS).collect::<String>());
        let words = words.map_or(String::new(), |w| {
            format!(", \u{201c}{}\u{201d}", escaped(&w))
        });
        let [own, theirs] = [&answer.home, &answer.crate_reading].map(|list| list[*k].abs());
        format!(
            "Caption {}, serial {} in the file{}: its own weight {:.2}, in linfa-svm\u{2019}s list {:.2}",
            k,
            k + 1,
            words,
            own,
            theirs
        )
    };
    let mut lines: Vec<String> = marked.iter().take(TOLD).map(one).collect();
    if marked.len() > TOLD {
        lines.push(format!("and {} more", marked.len() - TOLD));
    }
    lines
}

/// The bars of one list, home or the crate's reading, with what stands about them.
fn panel(f: &Figures, answer: &Answer, marked: &[usize], list: usize) -> Vec<String> {
    let (n, feet) = (answer.home.len(), FEET[list]);
    let weights = [&answer.home, &answer.crate_reading][list];
    let pitch = (SIDES.1 - SIDES.0) / n as f64;
    let left = |k: usize| SIDES.0 + pitch * k as f64;
    let height = |weight: f64| HEIGHT * weight.abs() / CEILING;
    let mut lines = Vec::new();
    for k in marked {
        lines.push(rect(
            left(*k),
            feet - HEIGHT - 18.0,
            pitch,
            HEIGHT + 38.0,
            BAND,
        ));
    }
    for (k, weight) in weights.iter().enumerate() {
        let own = if f.train[k].first { FIRST } else { SECOND };
        let fill = if list == 1 && marked.contains(&k) {
            OTHER
        } else {
            own
        };
        let high = height(*weight);
        lines.push(rect(
            left(k) + 0.15 * pitch,
            feet - high,
            0.7 * pitch,
            high,
            fill,
        ));
    }
    for k in marked {
        let middle = left(*k) + pitch / 2.0;
        let value = format!("{:.2}", weights[*k].abs());
        lines.push(text(middle, feet - HEIGHT - 6.0, "middle", OTHER, &value));
        lines.push(text(middle, feet + 16.0, "middle", OTHER, &k.to_string()));
    }
    let near = |k: usize| marked.iter().any(|m| (left(k) - left(*m)).abs() < 32.0);
    for k in (0..n).step_by((n / 8).max(1)).filter(|k| !near(*k)) {
        lines.push(text(
            left(k) + pitch / 2.0,
            feet + 16.0,
            "middle",
            GREY,
            &k.to_string(),
        ));
    }
    lines
}

/// The axes of one list, with their titles.
fn axes(list: usize) -> Vec<String> {
    let feet = FEET[list];
    let mut lines = Vec::new();
    for share in [0.0, 0.5, 1.0] {
        let label = format!("{}", CEILING * share);
        lines.push(text(
            SIDES.0 - 8.0,
            feet - HEIGHT * share + 4.0,
            "end",
            GREY,
            &label,
        ));
    }
    lines.push(line(SIDES.0, SIDES.1, feet, GREY));
    lines.push(line(SIDES.0, SIDES.1, feet - HEIGHT, DASHED));
    let middle = (SIDES.0 + SIDES.1) / 2.0;
    let below = "caption, by its number from 0 on";
    let beside = "weight without its sign";
    lines.push(upright(18.0, feet - HEIGHT / 2.0, beside));
    lines.push(text(middle, feet + 36.0, "middle", GREY, below));
    lines
}

fn legend(names: &[String; 2]) -> Vec<String> {
    let y = LEGEND;
    let mut lines = vec![
        line(222.0, 252.0, y - 4.0, DASHED),
        text(258.0, y, "start", INK, "ceiling"),
        rect(322.0, y - 15.0, 20.0, 20.0, BAND),
    ];
    let other =
        "another caption\u{2019}s weight in linfa-svm\u{2019}s list (number below, weight above)";
    lines.extend(key(56.0, y, FIRST, &names[0]));
    lines.extend(key(136.0, y, SECOND, &names[1]));
    lines.extend(key(326.0, y, OTHER, other));
    lines
}

#[cfg(test)]
mod tests {
    use super::*;

    fn of(text: &str) -> Result<String, String> {
        picture(&Figures::read(text).unwrap(), None)
    }

    const SMALL: &str = "package none 0\nlanguages a&b <c\ntrain 2\nheld 0\n1 4\n0 0 9\n";

    #[test]
    fn every_weight_is_a_bar() {
        // Both weights are 1: a tenth of the ceiling's height.
        let drawn = of(SMALL).unwrap();
        for colour in [FIRST, SECOND] {
            // One in each list, and one in the legend.
            let bars = format!("fill=\"{}\"", colour);
            assert_eq!(drawn.matches(&bars).count(), 3);
        }
        for feet in FEET {
            let bar = format!("y=\"{:.1}\" width=\"308.0\" height=\"14.0\"", feet - 14.0);
            assert_eq!(drawn.matches(&bar).count(), 2);
        }
        assert!(drawn.contains(">a&amp;b or &lt;c? One training on 2 captions: C 10,"));
        assert!(drawn.contains("0 of the 2 weights are another caption"));
    }

    /// Where the two lists differ is what is marked, in both.
    #[test]
    fn what_differs_is_marked_in_both_lists() {
        let drawn = of(include_str!("../../../captions/cs-sk.txt")).unwrap();
        assert_eq!(
            drawn.matches(&format!("fill=\"{}\"/>", BAND)).count(),
            2 * 4 + 1
        );
        assert_eq!(
            drawn.matches(&format!("fill=\"{}\"/>", OTHER)).count(),
            4 + 1
        );
        for k in [15, 42, 59, 62] {
            assert_eq!(
                drawn
                    .matches(&format!("fill=\"{}\">{}</text>", OTHER, k))
                    .count(),
                2
            );
        }
    }

    /// docs/training.svg is what the command makes of the shipped figures.
    #[test]
    fn the_page_has_this_picture() {
        let drawn = of(include_str!("../../../captions/cs-sk.txt")).unwrap();
        assert!(drawn == include_str!("../../../docs/training.svg"));
        assert!(drawn.contains(
            ">Caption 15, serial 16 in the file: its own weight 10.00, in linfa-svm\u{2019}s list 1.53</text>"
        ));
        for axis in [
            "weight without its sign",
            "caption, by its number from 0 on",
        ] {
            assert_eq!(drawn.matches(&format!(">{}</text>", axis)).count(), 2);
        }
    }

    #[test]
    fn texts_are_shown_where_they_are_at_hand() {
        let f = Figures::read(include_str!("../../../captions/cs-sk.txt")).unwrap();
        let texts: Vec<String> = (0..64)
            .map(|k| format!("<{}> & {}", k, "x".repeat(k)))
            .collect();
        let drawn = picture(&f, Some(&texts.join("\n"))).unwrap();
        assert!(drawn.contains(&format!(
            ", \u{201c}&lt;15> &amp; {}\u{201d}: ",
            "x".repeat(15)
        )));
        // Of caption 62 the first letters.
        assert!(drawn.contains(&format!(
            "&lt;62> &amp; {}\u{201d}: ",
            "x".repeat(LETTERS - 7)
        )));
        for wrong in [0, 1, 63, 65] {
            let told = picture(&f, Some(&"x\n".repeat(wrong))).unwrap_err();
            assert_eq!(told, format!("{} texts for 64 training captions", wrong));
        }
    }

    #[test]
    fn of_many_the_first_are_told() {
        let options = Options::default();
        let f = Figures::read(SMALL).unwrap();
        let mut answer = fitted(&f, 2, CEILING, &options).unwrap();
        answer.home = vec![1.0; 20];
        answer.crate_reading = vec![-2.5; 20];
        let marked: Vec<usize> = (0..20).collect();
        let lines = told(&answer, &marked, None);
        assert_eq!(lines.len(), TOLD + 1);
        assert!(lines[7].ends_with("weight 1.00, in linfa-svm\u{2019}s list 2.50"));
        assert_eq!(lines[TOLD], "and 12 more");
        assert_eq!(told(&answer, &marked[..TOLD], None).len(), TOLD);
        assert!(told(&answer, &[], None).is_empty());
    }

    #[test]
    fn a_refusal_is_told() {
        let none = "package none 0\nlanguages x y\ntrain 0\nheld 0\n";
        assert!(of(none).unwrap_err().starts_with("refusal 1: "));
    }
}
