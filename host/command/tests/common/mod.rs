//! Small files, and what the command line tells of them.
use command::{run, Trouble};
use std::fs;
use std::path::PathBuf;

/// A folder of a test's own, empty.
pub fn folder(name: &str) -> PathBuf {
    let path = PathBuf::from(env!("CARGO_TARGET_TMPDIR")).join(name);
    let _ = fs::remove_dir_all(&path);
    fs::create_dir_all(&path).unwrap();
    path
}

/// Writes a file there and hands back its path.
pub fn file(folder: &PathBuf, name: &str, data: &[u8]) -> String {
    let path = folder.join(name);
    fs::write(&path, data).unwrap();
    path.to_str().unwrap().to_string()
}

/// What is told on standard output by a line of words, in which FILE and MODEL stand for paths.
pub fn told(line: &str, file: &str, model: &str) -> Result<String, Trouble> {
    both(line, file, model).map(|(out, _)| out)
}

/// What is told on standard output and on standard error.
pub fn both(line: &str, file: &str, model: &str) -> Result<(String, String), Trouble> {
    let path = |word| match word {
        "FILE" => file,
        "MODEL" => model,
        other => other,
    };
    said(&line.split_whitespace().map(path).collect::<Vec<_>>())
}

/// The same by the words themselves.
pub fn said(words: &[&str]) -> Result<(String, String), Trouble> {
    let words: Vec<String> = words.iter().map(|word| word.to_string()).collect();
    let (mut out, mut err) = (Vec::new(), Vec::new());
    run(&words, &mut out, &mut err, false)?;
    Ok((
        String::from_utf8(out).unwrap(),
        String::from_utf8(err).unwrap(),
    ))
}

pub const SMALL: &str = "7 0:1 1:1 2:0\n3 0:2 1:0 2:1\n";

/// A file of the library's own bytes.
pub fn own(n: u64, matrix: &[f64], labels: &[u8]) -> Vec<u8> {
    let mut data = b"ALTUPRB1".to_vec();
    data.extend(n.to_le_bytes());
    data.extend(matrix.iter().flat_map(|x| x.to_le_bytes()));
    data.extend(labels);
    data
}
