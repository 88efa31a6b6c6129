//! All that a call tells, however it ends.
use command::run;

/// The exit status, standard output and standard error, on which the program tells last what went wrong.
pub fn whole(words: &[&str]) -> (u8, String, String) {
    let words: Vec<String> = words.iter().map(|word| word.to_string()).collect();
    let (mut out, mut err) = (Vec::new(), Vec::new());
    let done = run(&words, &mut out, &mut err, false);
    let (out, err) = (String::from_utf8(out), String::from_utf8(err));
    let (out, err) = (out.unwrap(), err.unwrap());
    match done {
        Ok(()) => (0, out, err),
        Err(trouble) => (
            trouble.status(),
            out,
            format!("{}altuliscia: {}\n", err, trouble),
        ),
    }
}
