//! The file of several languages that captions/make.py writes.
use crate::figures::{line, value, Lines, MOST};

/// A caption by its parts.
#[derive(Clone, Debug, PartialEq)]
pub struct Text {
    /// The number of its language, from 1 on, which is its label.
    pub language: usize,
    /// Its product with itself.
    own: u64,
    /// The numbers of its parts, rising, each with how often it stands there.
    parts: Vec<(u64, u64)>,
}

impl Text {
    /// From its label and its parts' numbers: the first, then how much higher each is than the one before.
    fn of(numbers: &[u64]) -> Option<Text> {
        let (label, gaps) = numbers.split_first()?;
        let mut parts: Vec<(u64, u64)> = Vec::new();
        for gap in gaps {
            match parts.last_mut() {
                Some((_, count)) if *gap == 0 => *count += 1,
                Some((part, _)) => {
                    let next = *part + gap;
                    parts.push((next, 1));
                }
                None => parts.push((*gap, 1)),
            }
        }
        let own = parts.iter().map(|(_, count)| count * count).sum();
        let text = Text {
            language: *label as usize,
            own,
            parts,
        };
        (1..=MOST).contains(&own).then_some(text)
    }

    /// The sum, over the parts of both, of count times count.
    fn product(&self, other: &Text) -> u64 {
        let (mut a, mut b) = (&self.parts[..], &other.parts[..]);
        let mut sum = 0;
        while let (Some((x, count)), Some((y, others))) = (a.first(), b.first()) {
            if x == y {
                sum += count * others;
            }
            a = &a[usize::from(x <= y)..];
            b = &b[usize::from(y <= x)..];
        }
        sum
    }

    fn value(&self, other: &Text) -> f64 {
        value(self.product(other), self.own, other.own)
    }
}

/// Training and held-out captions of several languages, in turn one of each.
#[derive(Clone, Debug)]
pub struct Several {
    /// The package that the captions come from, and its version.
    pub package: String,
    /// The codes of the languages. The first has number 1.
    pub languages: Vec<String>,
    /// The training captions.
    pub train: Vec<Text>,
    /// The held-out captions.
    pub held: Vec<Text>,
}

impl Several {
    /// Whether a file's text is of more than two languages.
    pub fn is_told(text: &str) -> bool {
        let lines = Lines::of(text).map(|(_, line)| line);
        let mut named = lines.filter_map(|line| line.strip_prefix("languages "));
        named
            .next()
            .map_or(0, |rest| rest.split_whitespace().count())
            > 2
    }

    /// Reads a file's text. The error names the line.
    pub fn read(text: &str) -> Result<Several, String> {
        let mut lines = Lines::of(text);
        let package = lines.named("package")?.1.join(" ");
        let (at, languages) = lines.named("languages")?;
        let all = languages.len();
        if all < 3 {
            return Err(format!("line {}: three languages are the least", at));
        }
        let (train, held) = (lines.number("train")?, lines.number("held")?);
        let mut captions = |count: usize| -> Result<Vec<Text>, String> {
            let one = |k: usize| {
                let (at, numbers) = lines.caption()?;
                let text = numbers.and_then(|list| Text::of(&list));
                let text = text.filter(|text| text.language == k % all + 1);
                text.ok_or(format!("line {}: not a caption's figures", at))
            };
            (0..count).map(one).collect()
        };
        let several = Several {
            package,
            languages: languages.iter().map(|code| code.to_string()).collect(),
            train: captions(train)?,
            held: captions(held)?,
        };
        match lines.next() {
            Some((at, _)) => Err(format!("line {}: more than was told", at)),
            None if train % all + held % all > 0 => {
                Err("a language has fewer captions than another".to_string())
            }
            None => Ok(several),
        }
    }

    /// How many training captions each language has.
    pub fn of_each(&self) -> usize {
        self.train.len() / self.languages.len()
    }

    /// The kernel matrix of some training captions, by their places, column by column.
    pub fn matrix(&self, places: &[usize]) -> Vec<f64> {
        let texts: Vec<&Text> = places.iter().map(|k| &self.train[*k]).collect();
        let column = |a: &&Text| texts.iter().map(|b| a.value(b)).collect::<Vec<f64>>();
        texts.iter().flat_map(column).collect()
    }

    /// Lines of LIBSVM's format for a precomputed kernel: so many training captions of each language.
    pub fn libsvm_train(&self, of_each: usize) -> impl Iterator<Item = String> + '_ {
        self.lines(&self.train[..of_each * self.languages.len()], of_each)
    }

    /// The same of the held-out captions, with their kernel values with so many training captions of each language.
    pub fn libsvm_held(&self, of_each: usize) -> impl Iterator<Item = String> + '_ {
        self.lines(&self.held, of_each)
    }

    /// The kernel values of a caption with so many training captions of each language.
    pub fn values(&self, text: &Text, of_each: usize) -> Vec<f64> {
        let train = &self.train[..of_each * self.languages.len()];
        train.iter().map(|other| text.value(other)).collect()
    }

    fn lines<'a>(&'a self, texts: &'a [Text], of_each: usize) -> impl Iterator<Item = String> + 'a {
        let texts = texts.iter().enumerate();
        texts.map(move |(k, text)| line(text.language, k + 1, &self.values(text, of_each)))
    }
}

#[cfg(test)]
mod tests {
    use super::*;
    use crate::Figures;

    /// The first caption has part 0 twice and part 3, the second 0 and 1, the third 2, 3 four times.
    const SMALL: &str = "# made by hand
package none 0
languages xx yy zz
train 3
held 3
1 0 0 3
2 0 1
3 2 1 0 0 0
1 0
2 1
3 7
";

    #[test]
    fn products_are_of_counts() {
        let several = Several::read(SMALL).unwrap();
        assert_eq!(several.languages, ["xx", "yy", "zz"]);
        assert_eq!(several.of_each(), 1);
        let products = |text: &Text| -> Vec<u64> {
            let train = several.train.iter();
            train.map(|other| text.product(other)).collect()
        };
        let all: Vec<Vec<u64>> = several.train.iter().map(products).collect();
        assert_eq!(all, [[5, 2, 4], [2, 2, 0], [4, 0, 17]]);
        let held: Vec<Vec<u64>> = several.held.iter().map(products).collect();
        assert_eq!(held, [[2, 1, 0], [0, 1, 0], [0, 0, 0]]);
        let owns: Vec<u64> = several.train.iter().map(|text| text.own).collect();
        assert_eq!(owns, [5, 2, 17]);
    }

    #[test]
    fn lines_are_libsvms() {
        let several = Several::read(SMALL).unwrap();
        let train: Vec<String> = several.libsvm_train(1).collect();
        let other = 2.0 / 10.0_f64.sqrt();
        let first = format!("1 0:1 1:1.0 2:{:?} 3:{:?}\n", other, 4.0 / 85.0_f64.sqrt());
        assert_eq!(train[0], first);
        assert_eq!(train[1], format!("2 0:2 1:{:?} 2:1.0 3:0.0\n", other));
        let held: Vec<String> = several.libsvm_held(1).collect();
        assert_eq!(held[2], "3 0:3 1:0.0 2:0.0 3:0.0\n");
        assert_eq!(several.libsvm_train(0).count(), 0);
        assert_eq!(several.libsvm_held(0).last().unwrap(), "3 0:3\n");
    }

    /// Parts make the products that a pair's file would have.
    #[test]
    fn values_are_those_of_a_pair() {
        let pair = "package none 0\nlanguages xx yy\ntrain 2\nheld 1\n1 5\n0 2 2\n1 1 2 1\n";
        let pair = Figures::read(pair).unwrap();
        let several = Several::read(SMALL).unwrap();
        let (a, b) = (&several.train[0], &several.train[1]);
        assert_eq!(pair.matrix(2), several.matrix(&[0, 1]));
        let values = [a, b].map(|text| several.held[0].value(text));
        assert_eq!(pair.values(&pair.held[0], 2), values);
    }

    #[test]
    fn of_which_kind_a_file_is() {
        assert!(Several::is_told(SMALL));
        for other in [
            "",
            "languages xx yy\n",
            "# languages a b c\nlanguages xx yy\n",
        ] {
            assert!(!Several::is_told(other), "{}", other);
        }
    }

    #[test]
    fn a_wrong_file_is_told() {
        for (from, to, told) in [
            ("xx yy zz", "xx yy", "line 3: three languages are the least"),
            ("train 3", "train x", "line 4: 'train' stands for a number"),
            ("1 0 0 3", "1", "line 6: not a caption's figures"),
            ("1 0 0 3", "2 0 0 3", "line 6: not a caption's figures"),
            ("1 0 0 3", "1 0  3", "line 6: not a caption's figures"),
            ("1 0 0 3", "1 0 -3", "line 6: not a caption's figures"),
            ("1 0 0 3", "1 67108865", "line 6: not a caption's figures"),
            ("3 7", "4 7", "line 11: not a caption's figures"),
            ("held 3", "held 4", "a caption is missing"),
            ("held 3", "held 2", "line 11: more than was told"),
        ] {
            assert_eq!(SMALL.matches(from).count(), 1, "{}", from);
            assert_eq!(Several::read(&SMALL.replace(from, to)).unwrap_err(), told);
        }
        let fewer = SMALL.replace("held 3", "held 2").replace("3 7\n", "");
        let told = Several::read(&fewer).unwrap_err();
        assert_eq!(told, "a language has fewer captions than another");
        assert_eq!(Several::read("").unwrap_err(), "'package' isn't there");
    }
}
