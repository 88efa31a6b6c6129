//! Files of text that a call names beside its problem.
use crate::{input, Trouble};

/// The text of a file's bytes, which may begin with the mark that some editors set before UTF-8.
pub fn decoded(path: &str, data: &[u8]) -> Result<String, Trouble> {
    let data = data.strip_prefix(b"\xef\xbb\xbf").unwrap_or(data);
    let text = std::str::from_utf8(data).map_err(|e| {
        let before = &data[..e.valid_up_to()];
        let line = 1 + before.iter().filter(|byte| **byte == b'\n').count();
        Trouble::File(format!("{}:{}: not a text in UTF-8", path, line))
    })?;
    Ok(text.to_string())
}

/// A file's lines, one for each of n samples.
pub fn captions(path: &str, n: usize) -> Result<Vec<String>, Trouble> {
    let data = input::of_file(path).map_err(|e| Trouble::File(format!("{}: {}", path, e)))?;
    let text = decoded(path, &data)?;
    let lines: Vec<String> = text.lines().map(str::to_string).collect();
    match lines.len() == n {
        true => Ok(lines),
        false => Err(Trouble::File(format!(
            "{}: {} lines of captions for {} samples; there is a line for each",
            path,
            lines.len(),
            n
        ))),
    }
}

/// A string of JSON.
pub fn json(text: &str) -> String {
    let sign = |c: char| match c {
        '"' | '\\' => format!("\\{}", c),
        c if c < ' ' => format!("\\u{:04x}", u32::from(c)),
        c => c.to_string(),
    };
    format!("\"{}\"", text.chars().map(sign).collect::<String>())
}

#[cfg(test)]
mod tests {
    #[test]
    fn a_string_of_json_has_no_sign_that_ends_it() {
        let text = "\"NOT\\AUS\"\t\u{1f}\u{20}\u{7f}č";
        let told = "\"\\\"NOT\\\\AUS\\\"\\u0009\\u001f \u{7f}č\"";
        assert_eq!(super::json(text), told);
    }
}
