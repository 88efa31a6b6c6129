//! Why a call didn't do what it was asked, and the exit status that says so.
use altuliscia::Refusal;
use std::fmt;

/// What went wrong.
#[derive(Clone, Debug, PartialEq)]
pub enum Trouble {
    /// The words make no sense. Status 2.
    Usage(String),
    /// A file can't be read, or holds no problem or no list of serial numbers. Status 3.
    File(String),
    /// Something can't be written. Status 4.
    Write(String),
    /// A trail or a decision isn't what the library answers, which is a fault of the program. Status 5.
    Differs(String),
    /// It was done, but what was trained isn't to be released. Status 6.
    Unfit(String),
    /// A model doesn't say that it was trained on a file. Status 7.
    Unlike(String),
    /// The library refuses: the place and the refusal. Status 10 and the refusal's number.
    Refused(String, Refusal),
    /// A check found faults, and has told them. The status is that of the first, which is this.
    Faults(u8),
}

impl Trouble {
    /// A file couldn't be written.
    pub fn writing(path: &str, e: &std::io::Error) -> Trouble {
        Trouble::Write(format!("nothing was written to {}: {}", path, e))
    }

    /// Standard output couldn't take all that was told.
    pub fn telling(e: &std::io::Error) -> Trouble {
        Trouble::Write(format!("not all was written to standard output: {}", e))
    }

    /// The exit status.
    pub fn status(&self) -> u8 {
        match self {
            Trouble::Usage(_) => 2,
            Trouble::File(_) => 3,
            Trouble::Write(_) => 4,
            Trouble::Differs(_) => 5,
            Trouble::Unfit(_) => 6,
            Trouble::Unlike(_) => 7,
            Trouble::Refused(_, refusal) => 10 + refusal.number().min(200) as u8,
            Trouble::Faults(status) => *status,
        }
    }
}

/// A refusal in the words of a call: what must be, and what is. The library's own sentences speak of bytes and lists.
fn refused(place: &str, refusal: &Refusal) -> String {
    let of_option = |must: &str| format!("{}: {}", must, place);
    match refusal {
        Refusal::Samples => format!("{}: 1 to 512 samples are trained", place),
        Refusal::Kernel { .. } => format!(
            "{}: a kernel value must be finite and not above 2^1000 in magnitude",
            place
        ),
        Refusal::Label { .. } => format!("{}: a label must be 0 or 1", place),
        Refusal::Ceiling { .. } => {
            of_option("-c must be above 0 and not above 2^1000, also where -w multiplies it")
        }
        Refusal::Eps => of_option("-e must be 0 or above it, and finite"),
        Refusal::Nu => of_option("-n must be above 0 and not above 1"),
        Refusal::Budget => of_option("--budget must be 1 to 10000000"),
        Refusal::Floor => of_option("--floor must be above 0 and not above 1"),
        Refusal::RetiredShrinking => "-h 1 beside --retired: leave -h 1 out".to_string(),
        Refusal::ShrunkAway => format!(
            "{}: shrinking would have taken more samples out than were active: train with -h 0",
            place
        ),
        // A file of bytes says what should be; all others aren't met here.
        _ => place.to_string(),
    }
}

impl fmt::Display for Trouble {
    fn fmt(&self, f: &mut fmt::Formatter<'_>) -> fmt::Result {
        match self {
            Trouble::Usage(text) => write!(f, "{} (see altuliscia --help)", text),
            Trouble::File(text)
            | Trouble::Write(text)
            | Trouble::Differs(text)
            | Trouble::Unfit(text)
            | Trouble::Unlike(text) => write!(f, "{}", text),
            Trouble::Refused(place, refusal) => {
                let told = refused(place, refusal);
                write!(f, "{} (refusal {})", told, refusal.number())
            }
            Trouble::Faults(status) if *status > 10 => write!(f, "this problem would be refused"),
            Trouble::Faults(_) => write!(f, "this problem would not be trained"),
        }
    }
}
