//! The files that captions/make.py writes.

/// A caption by its figures.
#[derive(Clone, Debug, PartialEq)]
pub struct Caption {
    /// Whether it is of the first language.
    pub first: bool,
    /// Its product with itself.
    own: u64,
    /// Its products with the training captions: of a training caption with those before it and with itself.
    products: Vec<u64>,
}

/// Training and held-out captions of two languages.
#[derive(Clone, Debug)]
pub struct Figures {
    /// The package that the captions come from, and its version.
    pub package: String,
    /// The codes of the two languages. A caption of the first is positive.
    pub languages: (String, String),
    /// The training captions.
    pub train: Vec<Caption>,
    /// The held-out captions.
    pub held: Vec<Caption>,
}

/// A kernel value: whole numbers up to one square root and one division, each rounded once.
pub(crate) fn value(product: u64, own: u64, other: u64) -> f64 {
    product as f64 / ((own * other) as f64).sqrt()
}

/// The largest product that is read. The product of two of them is a whole number that a double holds exactly.
pub(crate) const MOST: u64 = 1 << 26;

/// The lines of a file that aren't comments, each with its number from 1 on.
pub(crate) struct Lines<'a>(std::iter::Enumerate<std::str::Lines<'a>>);

impl<'a> Lines<'a> {
    pub fn of(text: &'a str) -> Lines<'a> {
        Lines(text.lines().enumerate())
    }

    /// The words behind a name that the next line begins with.
    pub fn named(&mut self, name: &str) -> Result<(usize, Vec<&'a str>), String> {
        let (at, line) = self.next().ok_or(format!("'{}' isn't there", name))?;
        let mut words = line.split_whitespace();
        match words.next() {
            Some(word) if word == name => Ok((at, words.collect())),
            _ => Err(format!("line {}: '{}' should stand here", at, name)),
        }
    }

    /// The number behind a name.
    pub fn number(&mut self, name: &str) -> Result<usize, String> {
        let (at, words) = self.named(name)?;
        let number = words.first().and_then(|w| w.parse().ok());
        number.ok_or(format!("line {}: '{}' stands for a number", at, name))
    }

    /// The numbers of a caption, none of them above MOST, and none at all where a word is something else.
    pub fn caption(&mut self) -> Result<(usize, Option<Vec<u64>>), String> {
        let (at, line) = self.next().ok_or("a caption is missing")?;
        let words = line.split(' ');
        let numbers = words.map(|w| w.parse().ok().filter(|x| *x <= MOST));
        Ok((at, numbers.collect()))
    }
}

impl<'a> Iterator for Lines<'a> {
    type Item = (usize, &'a str);

    fn next(&mut self) -> Option<(usize, &'a str)> {
        let (k, line) = self.0.find(|(_, line)| !line.starts_with('#'))?;
        Some((k + 1, line))
    }
}

impl Figures {
    /// Reads a file's text. The error names the line.
    pub fn read(text: &str) -> Result<Figures, String> {
        let mut lines = Lines::of(text);
        let package = lines.named("package")?.1.join(" ");
        let languages = match lines.named("languages")? {
            (_, words) if words.len() == 2 => (words[0].to_string(), words[1].to_string()),
            (at, _) => return Err(format!("line {}: there should be two languages", at)),
        };
        let (train, held) = (lines.number("train")?, lines.number("held")?);
        let mut caption = |own_at: usize, products: std::ops::Range<usize>| {
            let (at, numbers) = lines.caption()?;
            let numbers = numbers
                .filter(|list| list.len() == products.end && list[0] <= 1 && list[own_at] > 0);
            let numbers = numbers.ok_or(format!("line {}: not a caption's figures", at))?;
            Ok::<Caption, String>(Caption {
                first: numbers[0] == 1,
                own: numbers[own_at],
                products: numbers[products].to_vec(),
            })
        };
        let figures = Figures {
            package,
            languages,
            train: (0..train)
                .map(|k| caption(k + 1, 1..k + 2))
                .collect::<Result<_, _>>()?,
            held: (0..held)
                .map(|_| caption(1, 2..train + 2))
                .collect::<Result<_, _>>()?,
        };
        match lines.next() {
            Some((at, _)) => Err(format!("line {}: more than was told", at)),
            None => Ok(figures),
        }
    }

    /// The kernel matrix of the first n training captions, column by column.
    pub fn matrix(&self, n: usize) -> Vec<f64> {
        let train = &self.train[..n];
        let entry = |c: usize, r: usize| {
            let product = train[c.max(r)].products[c.min(r)];
            value(product, train[c].own, train[r].own)
        };
        (0..n * n).map(|k| entry(k / n, k % n)).collect()
    }

    /// The labels of the first n training captions.
    pub fn labels(&self, n: usize) -> Vec<bool> {
        self.train[..n]
            .iter()
            .map(|caption| caption.first)
            .collect()
    }

    /// The figures as they would be without some of the training captions.
    pub fn without(&self, retired: &[bool]) -> Figures {
        let stays = |k: &usize| !retired.get(*k).copied().unwrap_or(false);
        let kept = |caption: &Caption| {
            let places = (0..caption.products.len()).filter(stays);
            Caption {
                products: places.map(|k| caption.products[k]).collect(),
                ..*caption
            }
        };
        let train = (0..self.train.len()).filter(stays);
        Figures {
            package: self.package.clone(),
            languages: self.languages.clone(),
            train: train.map(|k| kept(&self.train[k])).collect(),
            held: self.held.iter().map(kept).collect(),
        }
    }

    /// The kernel values of a held-out caption with the first n training captions.
    pub fn values(&self, held: &Caption, n: usize) -> Vec<f64> {
        let pairs = self.train[..n].iter().zip(&held.products);
        pairs.map(|(t, p)| value(*p, held.own, t.own)).collect()
    }

    /// The first n training captions in LIBSVM's format for a precomputed kernel.
    pub fn libsvm_train(&self, n: usize) -> String {
        let matrix = self.matrix(n);
        let rows = self.train[..n].iter().zip(matrix.chunks(n)).enumerate();
        rows.map(|(k, (caption, row))| line(caption.first.into(), k + 1, row))
            .collect()
    }

    /// The held-out captions in the same format, with their kernel values with the first n training captions.
    pub fn libsvm_held(&self, n: usize) -> String {
        let held = self.held.iter().enumerate();
        held.map(|(k, caption)| line(caption.first.into(), k + 1, &self.values(caption, n)))
            .collect()
    }
}

/// A line of LIBSVM's. A value is written so that reading it gives the same bits.
pub(crate) fn line(label: usize, serial: usize, values: &[f64]) -> String {
    let entries = values.iter().enumerate();
    let entries: String = entries
        .map(|(k, x)| format!(" {}:{:?}", k + 1, x))
        .collect();
    format!("{} 0:{}{}\n", label, serial, entries)
}

#[cfg(test)]
mod tests {
    use super::*;

    const SMALL: &str = "# made by hand
package none 0
languages xx yy
train 2
held 1
1 4
0 3 9
1 16 8 12
";

    #[test]
    fn values_are_products_over_roots() {
        let figures = Figures::read(SMALL).unwrap();
        assert_eq!(figures.package, "none 0");
        assert_eq!(figures.matrix(2), [1.0, 0.5, 0.5, 1.0]);
        assert_eq!(figures.matrix(1), [1.0]);
        assert_eq!(figures.labels(2), [true, false]);
        assert_eq!(figures.values(&figures.held[0], 2), [1.0, 1.0]);
        assert_eq!(value(1, 2, 1), 1.0 / 2.0_f64.sqrt());
        assert_eq!(
            figures.libsvm_train(2),
            "1 0:1 1:1.0 2:0.5\n0 0:2 1:0.5 2:1.0\n"
        );
        assert_eq!(figures.libsvm_held(2), "1 0:1 1:1.0 2:1.0\n");
    }

    #[test]
    fn without_a_caption_its_products_are_gone() {
        let figures = Figures::read(SMALL).unwrap();
        let of = |retired: &[bool]| {
            let rest = figures.without(retired);
            (
                rest.libsvm_train(rest.train.len()),
                rest.libsvm_held(rest.train.len()),
            )
        };
        let first = ("0 0:1 1:1.0\n".to_string(), "1 0:1 1:1.0\n".to_string());
        assert_eq!(of(&[true, false]), first);
        let second = ("1 0:1 1:1.0\n".to_string(), "1 0:1 1:1.0\n".to_string());
        assert_eq!(of(&[false, true]), second);
        let all = (figures.libsvm_train(2), figures.libsvm_held(2));
        assert_eq!((of(&[]), of(&[false, false])), (all.clone(), all));
        assert!(figures.without(&[true, true]).train.is_empty());
    }

    #[test]
    fn a_wrong_file_is_told() {
        for (from, to, told) in [
            ("package", "packet", "line 2: 'package' should stand here"),
            ("xx yy", "xx", "line 3: there should be two languages"),
            ("train 2", "train x", "line 4: 'train' stands for a number"),
            ("1 4\n", "1\n", "line 6: not a caption's figures"),
            ("1 4\n", "2 4\n", "line 6: not a caption's figures"),
            ("1 4\n", "1 0\n", "line 6: not a caption's figures"),
            ("0 3 9", "0 -3 9", "line 7: not a caption's figures"),
            ("16 8 12", "16 8", "line 8: not a caption's figures"),
            (
                "16 8 12",
                "67108865 8 12",
                "line 8: not a caption's figures",
            ),
            ("held 1", "held 2", "a caption is missing"),
            ("held 1", "held 0", "line 8: more than was told"),
        ] {
            assert_eq!(SMALL.matches(from).count(), 1, "{}", from);
            assert_eq!(Figures::read(&SMALL.replace(from, to)).unwrap_err(), told);
        }
        assert_eq!(Figures::read("").unwrap_err(), "'package' isn't there");
    }
}
