//! What a model says of its training: comment lines behind its last weight, which LIBSVM's reader never comes to.
use crate::arguments::{self, Fit, Settings};
use crate::model::double;
use crate::problem::Samples;
use crate::sha256::Sha256;
use altuliscia::ExitReason;

/// The record of a model.
#[derive(Clone, Debug, PartialEq)]
pub struct Record {
    pub version: String,
    /// The options that had a say, as `train` takes them.
    pub options: String,
    /// The serial numbers of the retired.
    pub retired: Vec<u64>,
    /// Why each training ended: one, or one a pair.
    pub exits: Vec<String>,
    /// Why the model isn't to be released, where it isn't.
    pub unfit: Option<String>,
    /// How many samples were trained on, retired ones too, and their hash.
    pub samples: u64,
    pub hash: String,
    /// What its training was told to look at, a line each.
    pub cautions: Vec<String>,
}

/// The names of the lines that every record has, in their order. Behind them stand the cautions, then the sum of all lines of the model
/// above it.
const NAMES: [&str; 6] = [
    "altuliscia",
    "options",
    "retired",
    "exit",
    "release",
    "samples",
];
const CAUTION: &str = "# caution ";
const SUM: &str = "# sum ";

impl Record {
    /// Of a training of these samples that ended so.
    pub fn of(
        s: &Samples,
        settings: &Settings,
        ends: &[ExitReason],
        unfit: Option<String>,
        cautions: &[String],
    ) -> Record {
        let gone = (0..s.n).filter(|k| s.retired[*k]);
        let word = |end: &ExitReason| match end {
            ExitReason::Threshold => "threshold".to_string(),
            ExitReason::Iterations => "iterations".to_string(),
        };
        Record {
            version: env!("CARGO_PKG_VERSION").to_string(),
            options: options(s, settings),
            retired: gone.map(|k| s.serials[k]).collect(),
            exits: ends.iter().map(word).collect(),
            unfit,
            samples: s.n as u64,
            hash: hash(s),
            cautions: cautions.to_vec(),
        }
    }

    /// A model's text with its record behind it.
    pub fn behind(&self, model: &str) -> String {
        let retired: Vec<String> = self.retired.iter().map(u64::to_string).collect();
        let words = [
            self.version.clone(),
            self.options.clone(),
            match retired.is_empty() {
                true => "none".to_string(),
                false => retired.join(","),
            },
            self.exits.join(" "),
            match &self.unfit {
                None => "yes".to_string(),
                Some(why) => format!("no: {}", why),
            },
            format!("{} {}", self.samples, self.hash),
        ];
        let lines = NAMES.iter().zip(words);
        let lines = lines.map(|(n, w)| format!("# {} {}\n", n, w));
        let cautions = self.cautions.iter();
        let cautions = cautions.map(|text| format!("{}{}\n", CAUTION, text));
        let text = format!("{}{}", model, lines.chain(cautions).collect::<String>());
        format!("{}{}{}\n", text, SUM, sum(text.lines()))
    }

    /// The record in a model's lines from the one of that number on, counted from 0. An error has its line, counted from 1.
    pub fn read(lines: &[&str], from: usize) -> Result<Record, (usize, String)> {
        let mut words = Vec::new();
        for (k, name) in NAMES.iter().enumerate() {
            words.push(word(lines, from + k, &format!("# {} ", name))?);
        }
        let behind = lines[from + NAMES.len()..].iter();
        let cautions = behind.map_while(|line| line.strip_prefix(CAUTION));
        let cautions: Vec<String> = cautions.map(str::to_string).collect();
        let end = from + NAMES.len() + cautions.len();
        let found = word(lines, end, SUM)?;
        if lines.len() > end + 1 {
            let told = "something stands behind the record, which ends with its sum";
            return Err((end + 2, told.to_string()));
        }
        if found != sum(lines[..end].iter().copied()) {
            let told = "the sum isn't that of the lines above it: they were changed since they were written";
            return Err((end + 1, told.to_string()));
        }
        let record = parsed(&words).map(|record| Record { cautions, ..record });
        let record = record.ok_or_else(|| (from + 1, "this record can't be read".to_string()))?;
        match record.exits.iter().find(|end| *end != "threshold") {
            Some(end) if record.unfit.is_none() => {
                let told = format!(
                    "the record contradicts itself: it says 'exit {}', and that it is to be released",
                    end
                );
                Err((from + 4, told))
            }
            _ => Ok(record),
        }
    }

    /// The options once more, as a call has them.
    pub fn settings(&self) -> Option<Settings> {
        arguments::settings(&self.options).ok()
    }
}

/// What stands behind a line's name, in the line of that number, counted from 0.
fn word<'a>(lines: &[&'a str], at: usize, name: &str) -> Result<&'a str, (usize, String)> {
    let line = lines.get(at).ok_or_else(|| {
        let told = format!("the record ends before its line '{}'", name.trim_end());
        (at, told)
    })?;
    line.strip_prefix(name).ok_or_else(|| {
        let told = format!("'{}' stands where '{}..' should", line, name);
        (at + 1, told)
    })
}

/// A record of its lines' words, without cautions.
fn parsed(words: &[&str]) -> Option<Record> {
    let (samples, hash) = words[5].split_once(' ')?;
    let retired = match words[2] {
        "none" => Vec::new(),
        list => list
            .split(',')
            .map(|s| s.parse().ok())
            .collect::<Option<_>>()?,
    };
    let unfit = match words[4] {
        "yes" => None,
        other => Some(other.strip_prefix("no: ")?.to_string()),
    };
    let record = Record {
        version: words[0].to_string(),
        options: words[1].to_string(),
        retired,
        exits: words[3].split(' ').map(str::to_string).collect(),
        unfit,
        samples: samples.parse().ok()?,
        hash: hash.to_string(),
        cautions: Vec::new(),
    };
    record.settings().map(|_| record)
}

/// The hash of lines, each with a line feed at its end: a text whose line ends were changed has the same.
fn sum<'a>(lines: impl Iterator<Item = &'a str>) -> String {
    let mut hash = Sha256::new();
    for line in lines {
        hash.add(line.as_bytes());
        hash.add(b"\n");
    }
    hash.digits()
}

/// The options that have a say in a training, and --travelling where it is asked for, as `train` takes them.
pub fn options(s: &Samples, settings: &Settings) -> String {
    let mut words = match settings.fit {
        Fit::C => format!("-s 0 -c {}", double(settings.cost)),
        Fit::Nu => format!("-s 1 -n {}", double(settings.nu)),
        Fit::OneClass => format!("-s 2 -n {}", double(settings.nu)),
    };
    for (label, factor) in &settings.weights {
        if settings.fit == Fit::C && s.classes.contains(label) {
            words += &format!(" -w{} {}", label, double(*factor));
        }
    }
    let travelling = if settings.travelling {
        " --travelling"
    } else {
        ""
    };
    format!(
        "{} -e {} -h {} --budget {} --floor {}{}",
        words,
        double(settings.eps),
        u8::from(settings.shrinking),
        settings.budget,
        double(settings.floor),
        travelling
    )
}

/// The hash of samples, as the library gets them, with their serial numbers: n in eight bytes, the matrix column by column, each entry in
/// eight, the labels in one each, the serial numbers in eight each; the lowest byte first. A label is 1 for the first class and 0 for the
/// second; of more classes it is the place of each from 0 on, and of one class there is none. It doesn't hang on who is retired.
pub fn hash(s: &Samples) -> String {
    let mut hash = Sha256::new();
    hash.add(&(s.n as u64).to_le_bytes());
    for column in s.matrix.chunks(s.n.max(1)) {
        let bytes = column.iter().flat_map(|x| x.to_bits().to_le_bytes());
        hash.add(&bytes.collect::<Vec<u8>>());
    }
    if !s.classes.is_empty() {
        hash.add(&s.labels);
    }
    for serial in &s.serials {
        hash.add(&serial.to_le_bytes());
    }
    hash.digits()
}

#[cfg(test)]
mod tests {
    use super::*;

    /// A record with a sum of its own, read again.
    fn read(exits: &[&str], unfit: Option<&str>) -> Result<Record, (usize, String)> {
        let record = Record {
            version: "1.6.0".to_string(),
            options: "-s 0 -c 1.0".to_string(),
            retired: Vec::new(),
            exits: exits.iter().map(|end| end.to_string()).collect(),
            unfit: unfit.map(str::to_string),
            samples: 2,
            hash: "0".to_string(),
            cautions: vec!["a: b".to_string(), "c".to_string()],
        };
        let text = record.behind("SV\n");
        let lines: Vec<&str> = text.lines().collect();
        let found = Record::read(&lines, 1)?;
        assert_eq!(found, record);
        Ok(found)
    }

    #[test]
    fn a_record_that_contradicts_itself_is_refused() {
        for (exits, unfit, good) in [
            (&["threshold"][..], None, true),
            (&["threshold", "threshold"], Some("rho is nan"), true),
            (&["threshold", "iterations"], Some("pair 1 3"), true),
            (&["iterations"], None, false),
            (&["threshold", "iterations"], None, false),
            (&["other"], None, false),
        ] {
            let found = read(exits, unfit).err();
            let told = |(line, text): (usize, String)| {
                assert!(text.starts_with("the record contradicts itself: it says 'exit "));
                line
            };
            assert_eq!(found.map(told), (!good).then_some(5), "{:?}", exits);
        }
    }
}
