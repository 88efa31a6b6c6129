//! The parts of an SVG picture.

pub const BOLD: &str = r#"#111111" font-size="15" font-weight="bold"#;
pub const LARGE: &str = r#"#111111" font-size="14"#;
pub const SMALL: &str = r#"#555555" font-size="11"#;
pub const INK: &str = "#111111";
pub const GREY: &str = "#555555";

/// A picture of that size with its title above and these parts.
pub fn page(width: f64, height: f64, title: &str, parts: &[String]) -> String {
    let head = format!(
        r#"<svg xmlns="http://www.w3.org/2000/svg" viewBox="0 0 {0:.0} {1:.0}" width="{0:.0}" height="{1:.0}" role="img" font-family="sans-serif" font-size="13">"#,
        width, height
    );
    let mut lines = vec![
        head,
        format!("<title>{}</title>", title),
        rect(0.0, 0.0, width, height, "#ffffff"),
        text(20.0, 30.0, "start", BOLD, title),
    ];
    lines.extend_from_slice(parts);
    lines.push("</svg>".to_string());
    lines.join("\n") + "\n"
}

/// What may not stand in a text of the picture is written otherwise.
pub fn escaped(words: &str) -> String {
    let words = words.replace('&', "&amp;").replace('<', "&lt;");
    words.replace(char::is_control, " ")
}

pub fn text(x: f64, y: f64, anchor: &str, fill: &str, words: &str) -> String {
    format!(
        "<text x=\"{:.1}\" y=\"{:.1}\" text-anchor=\"{}\" fill=\"{}\">{}</text>",
        x, y, anchor, fill, words
    )
}

/// The title of an upright axis, read from below, about its middle.
pub fn upright(x: f64, y: f64, words: &str) -> String {
    format!(
        "<text transform=\"translate({:.1} {:.1}) rotate(-90)\" text-anchor=\"middle\" fill=\"{}\">{}</text>",
        x, y, GREY, words
    )
}

pub fn rect(x: f64, y: f64, width: f64, height: f64, fill: &str) -> String {
    format!(
        "<rect x=\"{:.1}\" y=\"{:.1}\" width=\"{:.1}\" height=\"{:.1}\" fill=\"{}\"/>",
        x, y, width, height, fill
    )
}

/// A small square of the legend and what it says.
pub fn key(x: f64, y: f64, fill: &str, words: &str) -> [String; 2] {
    let square = rect(x, y - 11.0, 12.0, 12.0, fill);
    [square, text(x + 18.0, y, "start", INK, words)]
}

/// The stroke of a line that is a limit or a measure.
pub const DASHED: &str = r#"#111111" stroke-dasharray="6 4"#;

pub fn line(from: f64, to: f64, y: f64, stroke: &str) -> String {
    format!(
        "<line x1=\"{:.1}\" y1=\"{:.1}\" x2=\"{:.1}\" y2=\"{:.1}\" stroke=\"{}\"/>",
        from, y, to, y, stroke
    )
}

#[cfg(test)]
mod tests {
    use super::*;

    #[test]
    fn a_text_is_no_markup() {
        assert_eq!(escaped("a&b <c\t\u{1}d"), "a&amp;b &lt;c  d");
        let drawn = page(10.0, 20.0, "x", &[text(1.0, 2.0, "end", INK, "y")]);
        assert!(drawn.starts_with("<svg ") && drawn.ends_with("</text>\n</svg>\n"));
        assert_eq!(drawn.matches(">x<").count(), 2);
    }
}
