//! Problem files: LIBSVM's text for a precomputed kernel, and the library's own bytes (docs/BYTES.md).
use crate::arguments::Fit;
use crate::Trouble;
use altuliscia::MOST_LANGUAGES;
use std::collections::BTreeMap;
use std::sync::Arc;

/// The first eight bytes of a file of own bytes.
pub const MAGIC: &[u8; 8] = b"ALTUPRB1";
/// The bytes before the matrix: the magic and n.
pub const HEAD: usize = 16;

/// The samples of a file.
#[derive(Clone, Debug)]
pub struct Samples {
    /// The file.
    pub path: String,
    /// How many samples it has.
    pub n: usize,
    /// The kernel matrix, column by column.
    pub matrix: Vec<f64>,
    /// Of two classes 1 for the first, 0 for the second; a file of bytes may have anything. Of more classes the place of each in `classes`.
    pub labels: Vec<u8>,
    /// What the classes are called, the first one first; nothing where only one class is trained.
    pub classes: Vec<i32>,
    /// What the samples are called in a model file.
    pub serials: Vec<u64>,
    /// Which of them are retired.
    pub retired: Vec<bool>,
    /// Each sample's line; nothing in a file of bytes.
    pub lines: Vec<Line>,
    /// How many kernel values each line has.
    pub width: usize,
}

/// A line of a text.
#[derive(Clone, Debug)]
pub struct Line {
    /// Its number, from 1 on.
    pub number: usize,
    /// What stands there.
    pub text: Arc<str>,
}

impl Samples {
    /// Where a sample's label or matrix column stands, for a reader who looks for it.
    pub fn place(&self, sample: usize, byte: usize) -> String {
        match self.lines.get(sample) {
            Some(line) => format!("{}:{}", self.path, line.number),
            None => format!("{}: byte {}", self.path, byte),
        }
    }

    /// What is wrong with the serial numbers of a text: one of two lines, or, where the file isn't a part, one of none.
    pub fn misnumbered(&self, part: bool) -> Vec<Trouble> {
        let mut seen = BTreeMap::new();
        let mut wrong = Vec::new();
        for (serial, line) in self.serials.iter().zip(&self.lines) {
            let first = *seen.entry(*serial).or_insert(line.number);
            if first != line.number {
                wrong.push(Trouble::File(format!(
                    "{}:{}: the serial number {} is that of line {}, too",
                    self.path, line.number, serial, first
                )));
            }
        }
        let missing = (1..=self.width as u64).find(|serial| !seen.contains_key(serial));
        let passed = part || !wrong.is_empty() || self.lines.is_empty();
        if let Some(serial) = missing.filter(|_| !passed) {
            wrong.push(Trouble::File(format!(
                "{}: {} lines of {} kernel values each: the serial number {} has no line (--part takes a file that has some of the samples only)",
                self.path, self.n, self.width, serial
            )));
        }
        wrong
    }

    /// The one sample that has this serial number.
    pub fn with_serial(&self, word: &str) -> Result<usize, String> {
        if word.is_empty() || !word.bytes().all(|byte| byte.is_ascii_digit()) {
            return Err(format!(
                "'{}' is not a serial number, which is a whole number",
                word
            ));
        }
        let serial: Option<u64> = word.parse().ok();
        let found: Vec<usize> = (0..self.serials.len())
            .filter(|k| Some(self.serials[*k]) == serial)
            .collect();
        match found[..] {
            [] => Err(format!(
                "no sample of {} has the serial number {}",
                self.path, word
            )),
            [k] => Ok(k),
            _ => {
                // Only a text can give a serial number twice.
                let places: Vec<String> = found.iter().map(|k| self.place(*k, 0)).collect();
                Err(format!(
                    "the serial number {} is that of several samples: {}",
                    word,
                    places.join(", ")
                ))
            }
        }
    }

    /// Which samples are of the first class.
    pub fn positive(&self) -> Vec<bool> {
        self.labels.iter().map(|label| *label == 1).collect()
    }

    /// What a sample's class is called; nothing where only one class is trained.
    pub fn label(&self, k: usize) -> String {
        let class = self.class(k).and_then(|class| self.classes.get(class));
        class.map_or(String::new(), i32::to_string)
    }

    /// The place of a sample's class.
    pub fn class(&self, k: usize) -> Option<usize> {
        let label = *self.labels.get(k)?;
        match (self.classes.len(), label) {
            (2, 0 | 1) => Some(usize::from(label == 0)),
            (2, _) => None,
            _ => Some(usize::from(label)),
        }
    }

    /// Of a text: the samples of two classes alone, each by its place; the one that is named first is the first of the two.
    pub fn pair(&self, first: usize, second: usize) -> Samples {
        let kept: Vec<usize> = (0..self.n)
            .filter(|k| [Some(first), Some(second)].contains(&self.class(*k)))
            .collect();
        let column = |c: &usize| &self.matrix[c * self.n..(c + 1) * self.n];
        let entries = kept
            .iter()
            .flat_map(|c| kept.iter().map(move |r| column(c)[*r]));
        let of = |k: &usize| u8::from(self.class(*k) == Some(first));
        Samples {
            path: self.path.clone(),
            n: kept.len(),
            matrix: entries.collect(),
            labels: kept.iter().map(of).collect(),
            classes: vec![self.classes[first], self.classes[second]],
            serials: kept.iter().map(|k| self.serials[*k]).collect(),
            retired: kept.iter().map(|k| self.retired[*k]).collect(),
            lines: kept.iter().map(|k| self.lines[*k].clone()).collect(),
            width: self.width,
        }
    }

    /// How many samples are retired.
    pub fn gone(&self) -> usize {
        self.retired.iter().filter(|retired| **retired).count()
    }
}

/// The samples of a file's bytes.
pub fn read(path: &str, data: &[u8], fit: Fit) -> Result<Samples, Trouble> {
    if data.starts_with(MAGIC) {
        return own(path, data, fit).map_err(|text| Trouble::File(format!("{}: {}", path, text)));
    }
    let told =
        |(line, text): (usize, String)| Trouble::File(format!("{}:{}: {}", path, line, text));
    text(path, data, fit).map_err(told)
}

/// A file of bytes. Lengths that don't fit n are left for the faults.
fn own(path: &str, data: &[u8], fit: Fit) -> Result<Samples, String> {
    let head = data.get(8..HEAD).ok_or("the file ends before n")?;
    let n = u64::from_le_bytes(head.try_into().map_err(|_| "no n")?);
    let n = usize::try_from(n).map_err(|_| "n is too large")?;
    let body = &data[HEAD..];
    let cut = n.checked_mul(n).and_then(|x| x.checked_mul(8));
    let cut = cut.unwrap_or(usize::MAX).min(body.len());
    let (matrix, labels) = body.split_at(cut);
    let two = fit != Fit::OneClass;
    let serials: Vec<u64> = (1..=n.min(body.len()) as u64).collect();
    Ok(Samples {
        path: path.to_string(),
        n,
        matrix: matrix
            .chunks_exact(8)
            .map(|b| {
                b.iter()
                    .rev()
                    .fold(0, |word, byte| word << 8 | u64::from(*byte))
            })
            .map(f64::from_bits)
            .collect(),
        labels: labels.to_vec(),
        classes: if two { vec![1, 0] } else { Vec::new() },
        retired: vec![false; serials.len()],
        serials,
        lines: Vec::new(),
        width: n,
    })
}

/// A line of text: its label, its serial number and its kernel values.
struct Row {
    label: i32,
    serial: usize,
    values: Vec<f64>,
}

impl Row {
    /// Whether it is as long as the first line, and its serial number is that of a value.
    fn fits(&self, first: Option<&Row>) -> Result<(), String> {
        let (found, serial) = (self.values.len(), self.serial);
        let width = first.map_or(found, |first| first.values.len());
        match found == width {
            false => Err(format!("{} kernel values, but line 1 has {}", found, width)),
            true if serial == 0 || serial > width => Err(format!(
                "the serial number {} is none of 1 to {}",
                serial, width
            )),
            true => Ok(()),
        }
    }
}

/// A text file. An error has its line.
fn text(path: &str, data: &[u8], fit: Fit) -> Result<Samples, (usize, String)> {
    let mut rows: Vec<Row> = Vec::new();
    let mut kept = Vec::new();
    let data = data.strip_suffix(b"\n").unwrap_or(data);
    let lines = data.split(|byte| *byte == b'\n').enumerate();
    for (k, line) in lines.filter(|_| !data.is_empty()) {
        let line = std::str::from_utf8(line).map_err(|_| (k + 1, "not a text".to_string()))?;
        let row = row(line).map_err(|told| (k + 1, told))?;
        row.fits(rows.first()).map_err(|told| (k + 1, told))?;
        rows.push(row);
        kept.push(Line {
            number: k + 1,
            text: line.into(),
        });
    }
    let labels: Vec<i32> = rows.iter().map(|row| row.label).collect();
    let classes = match fit {
        Fit::OneClass => Vec::new(),
        _ => classes(&labels)?,
    };
    let matrix = rows
        .iter()
        .flat_map(|column| rows.iter().map(move |row| column.values[row.serial - 1]));
    Ok(Samples {
        path: path.to_string(),
        n: rows.len(),
        matrix: matrix.collect(),
        labels: labels.iter().map(|l| marked(&classes, *l)).collect(),
        classes,
        serials: rows.iter().map(|row| row.serial as u64).collect(),
        retired: vec![false; rows.len()],
        lines: kept,
        width: rows.first().map_or(0, |row| row.values.len()),
    })
}

/// A sample's label, as `Samples` has it.
fn marked(classes: &[i32], label: i32) -> u8 {
    let place = classes.iter().position(|class| *class == label);
    match (classes.len() > 2, place) {
        (true, place) => place.unwrap_or_default() as u8,
        (false, place) => u8::from(place == Some(0)),
    }
}

fn row(line: &str) -> Result<Row, String> {
    let mut words = line.split_ascii_whitespace();
    let label = words.next().ok_or("an empty line")?;
    let label = whole(label).ok_or(format!("the label '{}' is not a whole number", label))?;
    let mut serial = None;
    let values = entries(words, |word| {
        serial = whole(word).and_then(|x| usize::try_from(x).ok());
        serial.is_some()
    })?;
    let serial = serial.ok_or("0:serial is missing")?;
    Ok(Row {
        label,
        serial,
        values,
    })
}

/// The kernel values of a line, which follow 0:serial; whether that is one is asked.
pub fn entries<'a>(
    words: impl Iterator<Item = &'a str>,
    mut serial: impl FnMut(&'a str) -> bool,
) -> Result<Vec<f64>, String> {
    let mut values = Vec::new();
    for (k, word) in words.enumerate() {
        let wrong = || match k {
            0 => format!("'{}' stands where 0:serial, a whole number, should", word),
            _ => format!("'{}' stands where {}:number should", word, k),
        };
        let (index, value) = word.split_once(':').ok_or_else(wrong)?;
        if index.parse() != Ok(k) {
            return Err(wrong());
        }
        match k {
            0 if serial(value) => {}
            0 => return Err(wrong()),
            _ => values.push(value.parse().map_err(|_| wrong())?),
        }
    }
    Ok(values)
}

/// A whole number, however it is written: 1, +1, 1.0.
pub fn whole(word: &str) -> Option<i32> {
    let value: f64 = word.parse().ok()?;
    let number = value as i32;
    (f64::from(number) == value).then(|| number)
}

/// The classes in LIBSVM's order, that of their first samples; but of -1 and +1, where there are no others, +1 is the first.
fn classes(labels: &[i32]) -> Result<Vec<i32>, (usize, String)> {
    let mut seen: Vec<i32> = Vec::new();
    for (k, label) in labels.iter().enumerate() {
        if !seen.contains(label) {
            seen.push(*label);
        }
        if seen.len() > MOST_LANGUAGES {
            let told = format!(
                "a thirteenth label, {}: at most {} languages are sorted",
                label, MOST_LANGUAGES
            );
            return Err((k + 1, told));
        }
    }
    match seen[..] {
        [one] => Err((
            1,
            format!(
                "every label is {}: two classes are needed (one class is -s 2)",
                one
            ),
        )),
        [-1, 1] => Ok(vec![1, -1]),
        _ => Ok(seen),
    }
}

#[cfg(test)]
mod tests {
    use super::*;

    const SMALL: &str = "+1 0:2 1:0.5 2:1 3:7\n-1 0:1 1:3 2:0.25 3:7\r\n";

    #[test]
    fn a_column_is_a_line_read_at_the_serial_numbers() {
        let s = text("a", SMALL.as_bytes(), Fit::C).unwrap();
        assert_eq!((s.n, s.labels), (2, vec![1, 0]));
        assert_eq!(s.matrix, [1.0, 0.5, 0.25, 3.0]);
        assert_eq!((s.serials, s.classes), (vec![2, 1], vec![1, -1]));
    }

    #[test]
    fn the_first_class_is_libsvms() {
        assert_eq!(classes(&[3, 7, 3]), Ok(vec![3, 7]));
        assert_eq!(classes(&[7, 3, 3]), Ok(vec![7, 3]));
        assert_eq!(classes(&[1, -1]), Ok(vec![1, -1]));
        assert_eq!(classes(&[-1, -1, 1]), Ok(vec![1, -1]));
        assert_eq!(classes(&[-1, 2]), Ok(vec![-1, 2]));
        assert_eq!(classes(&[]), Ok(vec![]));
        assert_eq!(classes(&[-1, 7, 1]), Ok(vec![-1, 7, 1]));
        let twelve: Vec<i32> = (0..12).rev().chain([5, 0]).collect();
        assert_eq!(classes(&twelve), Ok(twelve[..12].to_vec()));
    }

    #[test]
    fn a_wrong_text_is_told_with_its_line() {
        for (from, to, line, told) in [
            ("+1 ", "1.5 ", 1, "the label '1.5' is not a whole number"),
            ("+1 ", "nan ", 1, "the label 'nan' is not a whole number"),
            (
                "0:2 1:0.5",
                "1:0.5",
                1,
                "'1:0.5' stands where 0:serial, a whole number, should",
            ),
            (
                "2:0.25",
                "2=0.25",
                2,
                "'2=0.25' stands where 2:number should",
            ),
            ("2:0.25 ", "", 2, "'3:7' stands where 2:number should"),
            ("2:0.25", "2:x", 2, "'2:x' stands where 2:number should"),
            (
                "0:1",
                "0:1.5",
                2,
                "'0:1.5' stands where 0:serial, a whole number, should",
            ),
            ("0:1", "0:4", 2, "the serial number 4 is none of 1 to 3"),
            ("0:1", "0:0", 2, "the serial number 0 is none of 1 to 3"),
            (" 3:7\r", "", 2, "2 kernel values, but line 1 has 3"),
            ("-1 0:1 1:3 2:0.25 3:7\r", "-1", 2, "0:serial is missing"),
            ("-1 0:1", "\n-1 0:1", 2, "an empty line"),
            (
                "-1 0:1",
                "1 0:1",
                1,
                "every label is 1: two classes are needed (one class is -s 2)",
            ),
        ] {
            assert_eq!(SMALL.matches(from).count(), 1, "{}", from);
            let wrong = SMALL.replace(from, to);
            let found = text("a", wrong.as_bytes(), Fit::C).map(|s| s.n);
            assert_eq!(found, Err((line, told.to_string())));
        }
        let thirteen: String = (0..13).map(|k| format!("{} 0:1 1:1\n", k)).collect();
        let found = text("a", thirteen.as_bytes(), Fit::C).map(|s| s.n);
        let told = "a thirteenth label, 12: at most 12 languages are sorted";
        assert_eq!(found, Err((13, told.to_string())));
        assert_eq!(
            text("a", thirteen.as_bytes(), Fit::OneClass).map(|s| s.n),
            Ok(13)
        );
        let found = text("a", b"1 0:1 1:1\n\xff", Fit::C).map(|s| s.n);
        assert_eq!(found, Err((2, "not a text".to_string())));
    }

    #[test]
    fn every_serial_number_has_one_line() {
        let found = |data: &str, part: bool| -> Vec<String> {
            let s = text("a", data.as_bytes(), Fit::C).unwrap();
            let wrong = s.misnumbered(part);
            wrong.iter().map(Trouble::to_string).collect()
        };
        let part = "a: 2 lines of 3 kernel values each: the serial number 3 has no line (--part takes a file that has some of the samples only)";
        assert_eq!(found(SMALL, false), [part]);
        assert_eq!(found(SMALL, true), [""; 0]);
        let whole = format!("{}1 0:3 1:0 2:0 3:0\n", SMALL);
        assert_eq!(found(&whole, false), [""; 0]);
        // Both lines are named, of every such number, whether the file is a part or not.
        let twice = format!("{0}{0}{0}", SMALL);
        let told = [(3, 2, 1), (4, 1, 2), (5, 2, 1), (6, 1, 2)].map(|(line, serial, first)| {
            format!(
                "a:{}: the serial number {} is that of line {}, too",
                line, serial, first
            )
        });
        assert_eq!(found(&twice, false), told);
        assert_eq!(found(&twice, true), told);
    }

    #[test]
    fn a_pair_has_its_own_samples_alone() {
        let data = "5 0:1 1:1 2:2 3:3 4:4\n9 0:2 1:2 2:5 3:6 4:7\n-1 0:3 1:3 2:6 3:8 4:9\n5 0:4 1:4 2:7 3:9 4:0\n";
        let mut s = text("a", data.as_bytes(), Fit::C).unwrap();
        assert_eq!(
            (&s.classes[..], &s.labels[..]),
            (&[5, 9, -1][..], &[0, 1, 2, 0][..])
        );
        assert_eq!(
            (0..4).map(|k| s.label(k)).collect::<Vec<_>>(),
            ["5", "9", "-1", "5"]
        );
        s.retired[3] = true;
        let pair = s.pair(0, 2);
        assert_eq!((pair.n, &pair.labels[..]), (3, &[1, 0, 1][..]));
        assert_eq!(pair.matrix, [1.0, 3.0, 4.0, 3.0, 8.0, 9.0, 4.0, 9.0, 0.0]);
        assert_eq!(
            (pair.classes.clone(), pair.serials.clone()),
            (vec![5, -1], vec![1, 3, 4])
        );
        assert_eq!(
            (pair.place(1, 0), pair.label(1)),
            ("a:3".to_string(), "-1".to_string())
        );
        assert_eq!(pair.retired, [false, false, true]);
        assert_eq!(s.pair(1, 2).matrix, [5.0, 6.0, 6.0, 8.0]);
    }

    #[test]
    fn the_file_that_the_document_shows_is_read() {
        let document = include_str!("../../../docs/BYTES.md");
        let part = document.split("\n    file ").nth(1).unwrap();
        let part = part.split("\n\n").next().unwrap();
        let byte = |word| u8::from_str_radix(word, 16).unwrap();
        let data: Vec<u8> = part.split_whitespace().map(byte).collect();
        assert!(data.starts_with(MAGIC));
        let s = own("a", &data, Fit::C).unwrap();
        assert_eq!(
            (s.n, s.matrix, s.labels),
            (2, vec![1.0, 0.0, 0.0, 1.0], vec![1, 0])
        );
    }

    #[test]
    fn bytes_are_read_lowest_first() {
        let mut data = b"ALTUPRB1\x02\0\0\0\0\0\0\0".to_vec();
        for x in [1.0_f64, 0.5, 0.25, 3.0] {
            data.extend(x.to_le_bytes());
        }
        data.extend([0, 1]);
        let s = own("a", &data, Fit::C).unwrap();
        assert_eq!(
            (s.n, s.matrix, s.labels),
            (2, vec![1.0, 0.5, 0.25, 3.0], vec![0, 1])
        );
        assert_eq!((s.classes, s.serials), (vec![1, 0], vec![1, 2]));
        for length in HEAD..data.len() {
            let s = own("a", &data[..length], Fit::C).unwrap();
            assert!(s.matrix.len() < 4 || s.labels.len() < 2);
        }
        assert!(own("a", &data[..HEAD - 1], Fit::C).is_err());
        data[8..16].fill(0xff);
        let s = own("a", &data, Fit::C).unwrap();
        assert_eq!((s.n, s.matrix.len(), s.serials.len()), (usize::MAX, 4, 34));
    }
}
