//! `altuliscia`: trains, lists and checks problem files. `altuliscia --help` says how.
use command::Trouble;
use std::ffi::OsString;
use std::io::{self, Write};
use std::process::ExitCode;
use std::sync::atomic::{AtomicBool, Ordering};

/// Whether standard output was closed when the program was called.
static CLOSED: AtomicBool = AtomicBool::new(false);

/// Asks for that before Rust's own start, which opens /dev/null where a standard stream is closed.
#[cfg(target_os = "linux")]
#[used]
#[link_section = ".init_array"]
static BEFORE: extern "C" fn() = {
    extern "C" fn asked() {
        let there = |path: &str| std::fs::symlink_metadata(path).is_ok();
        let closed = there("/proc/self/fd") && !there("/proc/self/fd/1");
        CLOSED.store(closed, Ordering::Relaxed);
    }
    asked
};

/// An output that takes nothing.
struct Closed;

impl Write for Closed {
    fn write(&mut self, _: &[u8]) -> io::Result<usize> {
        Err(io::Error::new(io::ErrorKind::Other, "it is closed"))
    }

    fn flush(&mut self) -> io::Result<()> {
        Ok(())
    }
}

fn main() -> ExitCode {
    let words: Result<Vec<String>, OsString> = std::env::args_os()
        .skip(1)
        .map(OsString::into_string)
        .collect();
    let done = match words {
        Ok(words) => {
            let mut open = io::stdout();
            let out: &mut dyn Write = match CLOSED.load(Ordering::Relaxed) {
                true => &mut Closed,
                false => &mut open,
            };
            command::run(&words, out, &mut io::stderr(), on_terminal())
        }
        Err(word) => {
            let told = format!("{:?} isn't UTF-8: give the file another name", word);
            Err(Trouble::Usage(told))
        }
    };
    match done {
        Ok(()) => ExitCode::SUCCESS,
        Err(trouble) => {
            eprintln!("altuliscia: {}", trouble);
            ExitCode::from(trouble.status())
        }
    }
}

/// Whether somebody looks at standard error.
fn on_terminal() -> bool {
    let target = std::fs::read_link("/proc/self/fd/2").unwrap_or_default();
    target.starts_with("/dev/pts") || target.to_string_lossy().starts_with("/dev/tty")
}
