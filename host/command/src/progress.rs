//! A line for whoever waits.
use std::io::Write;
use std::sync::mpsc::{channel, RecvTimeoutError};
use std::sync::Mutex;
use std::time::Duration;

/// Does the work. Where it takes more than a second and somebody looks on, a line says what is done and how many seconds it has
/// taken; it goes away in the end.
pub fn shown<T: Send>(
    line: &mut (dyn Write + Send),
    terminal: bool,
    what: &str,
    work: impl FnOnce() -> T + Send,
) -> T {
    match terminal {
        true => watched(line, Duration::from_secs(1), what, work),
        false => work(),
    }
}

/// The same of work that has parts: it says, as each begins, what is done now.
pub fn in_parts<T: Send>(
    line: &mut (dyn Write + Send),
    terminal: bool,
    work: impl FnOnce(&dyn Fn(String)) -> T + Send,
) -> T {
    match terminal {
        true => watched_in_parts(line, Duration::from_secs(1), work),
        false => work(&|_| {}),
    }
}

fn watched<T: Send>(
    line: &mut (dyn Write + Send),
    second: Duration,
    what: &str,
    work: impl FnOnce() -> T + Send,
) -> T {
    watched_in_parts(line, second, |now| {
        now(what.to_string());
        work()
    })
}

fn watched_in_parts<T: Send>(
    line: &mut (dyn Write + Send),
    second: Duration,
    work: impl FnOnce(&dyn Fn(String)) -> T + Send,
) -> T {
    let (busy, waiting) = channel::<()>();
    let what = Mutex::new(String::new());
    // Nobody panics with it in his hands.
    let now = || what.lock().map_or(String::new(), |text| text.clone());
    std::thread::scope(|threads| {
        threads.spawn(|| {
            let waiting = waiting;
            let (mut seconds, mut before) = (0, String::new());
            while let Err(RecvTimeoutError::Timeout) = waiting.recv_timeout(second) {
                seconds += 1;
                let text = now();
                // What was longer is wiped away.
                let wiped = if text.len() < before.len() {
                    "\x1b[K"
                } else {
                    ""
                };
                let _ = write!(line, "\r{}altuliscia: {}, {} s", wiped, text, seconds);
                let _ = line.flush();
                before = text;
            }
            if seconds > 0 {
                let _ = write!(line, "\r\x1b[K");
            }
        });
        let result = work(&|text| {
            if let Ok(mut now) = what.lock() {
                *now = text;
            }
        });
        drop(busy);
        result
    })
}

#[cfg(test)]
mod tests {
    use super::*;
    use std::sync::mpsc::Sender;

    /// Hands on what is written.
    struct Line(Sender<String>);

    impl Write for Line {
        fn write(&mut self, bytes: &[u8]) -> std::io::Result<usize> {
            let _ = self.0.send(String::from_utf8_lossy(bytes).into_owned());
            Ok(bytes.len())
        }

        fn flush(&mut self) -> std::io::Result<()> {
            Ok(())
        }
    }

    #[test]
    fn a_long_wait_is_told_and_a_short_one_is_not() {
        let (sender, receiver) = channel();
        let mut line = Line(sender);
        // The work is done when it has been waited for twice.
        let work = || {
            let mut seen = String::new();
            while !seen.contains("2 s") {
                seen += &receiver.recv().unwrap();
            }
            (seen, receiver)
        };
        let second = Duration::from_millis(10);
        let (seen, receiver) = watched(&mut line, second, "training", work);
        let told = "\raltuliscia: training, 1 s\raltuliscia: training, 2 s";
        assert_eq!(seen, told);
        let rest: String = receiver.try_iter().collect();
        assert!(rest.ends_with("\r\x1b[K"), "{:?}", rest);
        assert_eq!(watched(&mut line, second * 1000, "training", || 4), 4);
        assert_eq!(receiver.try_iter().count(), 0);
    }

    #[test]
    fn each_part_is_told_as_it_begins() {
        let (sender, receiver) = channel();
        let mut line = Line(sender);
        let work = |now: &dyn Fn(String)| {
            let mut seen = String::new();
            for part in ["pair 10 of 66: 1 12", "pair 11 of 66: 2 3"] {
                now(part.to_string());
                while !seen.contains(part) {
                    seen += &receiver.recv().unwrap();
                }
            }
            (seen, receiver)
        };
        let (seen, receiver) = watched_in_parts(&mut line, Duration::from_millis(10), work);
        assert!(seen.starts_with("\raltuliscia: pair 10 of 66: 1 12, 1 s"));
        // The second part's line is shorter.
        let second = seen.rsplit('\r').next().unwrap();
        assert!(second.starts_with("\x1b[Kaltuliscia: pair 11 of 66: 2 3"));
        let rest: String = receiver.try_iter().collect();
        assert!(rest.ends_with("\r\x1b[K"), "{:?}", rest);
    }
}
