//! How captions of several languages were sorted, as a grid of squares: a row for each language, a column for each that they went to.
use crate::outcomes::{cell, Outcomes};
use crate::percent;
use crate::svg::{escaped, key, page, rect, text, upright, GREY, INK, SMALL};

/// Where the grid begins, and how wide a square is.
const CORNER: (f64, f64) = (158.0, 118.0);
const SQUARE: f64 = 44.0;

/// The colours of what is sorted rightly and of what isn't, at their darkest.
const RIGHTLY: [f64; 3] = [0.0, 114.0, 178.0];
const WRONGLY: [f64; 3] = [201.0, 79.0, 0.0];
const NONE: &str = "#f3f3f3";

pub fn picture(found: &Outcomes) -> String {
    let (right, held) = (found.right(), found.held());
    let languages = found.codes.len();
    let title = format!(
        "Which of {} languages? {} of {} captions sorted rightly ({}), {} ties",
        languages,
        right,
        held,
        percent(right, held),
        found.ties().all
    );
    let below = format!(
        "{} captions of each language to train on, {} others of each to sort.",
        found.of_each,
        found.held_of_each()
    );
    let side = SQUARE * languages as f64;
    let (width, height) = (CORNER.0 + side + 90.0, CORNER.1 + side + 44.0);
    let middle = side / 2.0;
    let mut parts = vec![
        text(20.0, 54.0, "start", SMALL, &below),
        text(
            CORNER.0 + middle,
            CORNER.1 - 32.0,
            "middle",
            GREY,
            "sorted to",
        ),
        upright(24.0, CORNER.1 + middle, "the caption\u{2019}s own language"),
        text(
            CORNER.0 + side + 12.0,
            CORNER.1 - 8.0,
            "start",
            GREY,
            "rightly",
        ),
    ];
    parts.extend(grid(found));
    parts.extend(legend(CORNER.1 + side + 26.0));
    page(width, height, &title, &parts)
}

fn grid(found: &Outcomes) -> Vec<String> {
    let grid = found.grid();
    let at = |k: usize, from: f64| from + SQUARE * k as f64;
    let wrong = found.mixed();
    let wrong = wrong.iter().map(|m| m.counts.0.max(m.counts.1));
    let most_wrong = wrong.max().unwrap_or_default();
    let mut lines = Vec::new();
    for (row, counts) in grid.iter().enumerate() {
        let y = at(row, CORNER.1);
        let line = y + SQUARE / 2.0 + 4.5;
        let code = escaped(&found.codes[row]);
        let name = format!("{} ({})", escaped(found.name(row + 1)), code);
        let above = at(row, CORNER.0) + SQUARE / 2.0;
        lines.push(text(above, CORNER.1 - 8.0, "middle", INK, &code));
        lines.push(text(CORNER.0 - 10.0, line, "end", INK, &name));
        for (column, count) in counts.iter().enumerate() {
            let x = at(column, CORNER.0);
            let (fill, dark) = if row == column {
                shade(RIGHTLY, *count, found.held_of_each())
            } else {
                shade(WRONGLY, *count, most_wrong)
            };
            let inner = SQUARE - 2.0;
            lines.push(rect(x + 1.0, y + 1.0, inner, inner, &fill));
            let ink = if dark { "#ffffff" } else { INK };
            let number = cell(*count, "");
            if !number.is_empty() {
                lines.push(text(x + SQUARE / 2.0, line, "middle", ink, &number));
            }
        }
        let share = percent(counts[row], found.held_of_each());
        let beside = at(found.codes.len(), CORNER.0) + 12.0;
        lines.push(text(beside, line, "start", INK, &share));
    }
    lines
}

/// A colour for a count, darker the nearer it is to the most, and whether it is dark. One of many can still be seen.
fn shade(colour: [f64; 3], count: usize, most: usize) -> (String, bool) {
    if count == 0 {
        return (NONE.to_string(), false);
    }
    let share = 0.2 + 0.8 * count as f64 / most.max(1) as f64;
    let mixed = colour.map(|x| (255.0 + (x - 255.0) * share).round() as u8);
    let [red, green, blue] = mixed;
    let hex = format!("#{:02x}{:02x}{:02x}", red, green, blue);
    (hex, share > 0.7)
}

fn legend(y: f64) -> Vec<String> {
    let darkest = |colour| shade(colour, 1, 1).0;
    let mut lines = key(CORNER.0, y, &darkest(RIGHTLY), "sorted rightly").to_vec();
    let wrongly = darkest(WRONGLY);
    lines.extend(key(
        CORNER.0 + 140.0,
        y,
        &wrongly,
        "taken for another language",
    ));
    lines
}

#[cfg(test)]
mod tests {
    use super::*;
    use crate::outcomes::tests::small;

    #[test]
    fn every_count_is_a_square() {
        let drawn = picture(&small());
        let inner = format!("width=\"{0:.1}\" height=\"{0:.1}\"", SQUARE - 2.0);
        assert_eq!(drawn.matches(&inner).count(), 9);
        assert_eq!(drawn.matches(NONE).count(), 4);
        // Twice one in two, and once two of two; and a square of the legend.
        let full = shade(RIGHTLY, 2, 2).0;
        assert_eq!(full, "#0072b2");
        assert_eq!(drawn.matches(&full).count(), 2);
        assert_eq!(drawn.matches(&shade(RIGHTLY, 1, 2).0).count(), 1);
        assert_eq!(drawn.matches(&shade(WRONGLY, 1, 1).0).count(), 4);
        assert!(drawn.contains(">&lt;b</text>") && !drawn.contains("<b<"));
        for axis in ["sorted to", "the caption\u{2019}s own language", "rightly"] {
            assert!(drawn.contains(&format!(">{}</text>", axis)), "{}", axis);
        }
        assert!(drawn
            .contains(">Which of 3 languages? 3 of 6 captions sorted rightly (50.0 %), 2 ties<"));
    }

    #[test]
    fn a_shade_for_each_count() {
        assert_eq!(shade(WRONGLY, 0, 4), (NONE.to_string(), false));
        assert_eq!(shade(WRONGLY, 4, 4), ("#c94f00".to_string(), true));
        let (light, dark) = shade(WRONGLY, 1, 4);
        assert!(light != NONE && !dark);
    }
}
