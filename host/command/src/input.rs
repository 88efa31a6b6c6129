//! What is read: a file, or standard input where its name is `-`.
use crate::Trouble;
use std::fs::File;
use std::io::{self, Read};

/// The most bytes of a file. Twelve languages have 3,072 samples at the most, and 30 bytes for each of their kernel values are 283 million.
const MOST: u64 = 1 << 30;

/// What a file is called where something is told of it.
pub fn name(path: &str) -> &str {
    match path {
        "-" => "standard input",
        other => other,
    }
}

pub fn read(path: &str) -> Result<Vec<u8>, Trouble> {
    let found = match path {
        "-" => limited(io::stdin(), MOST),
        other => of_file(other),
    };
    found.map_err(|e| Trouble::File(format!("{}: {}", name(path), e)))
}

/// The bytes of a file, whatever its name is.
pub fn of_file(path: &str) -> io::Result<Vec<u8>> {
    let file = File::open(path)?;
    match file.metadata()?.len() > MOST {
        true => Err(too_large(MOST)),
        false => limited(file, MOST),
    }
}

fn too_large(most: u64) -> io::Error {
    let told = format!("more than {} bytes, the most that are read", most);
    io::Error::new(io::ErrorKind::Other, told)
}

/// All that is there, where it isn't more than that. A device may never end.
fn limited(source: impl Read, most: u64) -> io::Result<Vec<u8>> {
    let mut data = Vec::new();
    source.take(most + 1).read_to_end(&mut data)?;
    match data.len() as u64 > most {
        true => Err(too_large(most)),
        false => Ok(data),
    }
}

#[cfg(test)]
mod tests {
    use super::*;

    #[test]
    fn what_never_ends_is_refused() {
        let told = limited(io::repeat(0), 100).unwrap_err().to_string();
        assert_eq!(told, "more than 100 bytes, the most that are read");
        assert_eq!(limited(&[7; 100][..], 100).unwrap(), [7; 100]);
        assert!(limited(&[7; 101][..], 100).is_err());
    }
}
