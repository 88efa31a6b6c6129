//! Instructions, counted by callgrind while the named function runs.
use std::path::Path;
use std::process::{Command, Stdio};

/// All instructions of one training, within the function, and those of each function that it calls by itself.
pub struct Counted {
    pub all: u64,
    pub parts: Vec<(String, u64)>,
}

/// Nothing where there is no valgrind.
pub fn counted(folder: &Path, file: &Path, who: &str, function: &str) -> Option<Counted> {
    let out = folder.join(format!("callgrind.{who}"));
    let status = Command::new("valgrind")
        .args(["--tool=callgrind", "--quiet", "--separate-recs=1"])
        // On aarch64 what follows a malloc would be counted to it.
        .arg("--fn-skip=malloc")
        .arg(format!("--callgrind-out-file={}", out.display()))
        .arg(format!("--toggle-collect={function}"))
        .arg(std::env::current_exe().ok()?)
        .args(["once", who, file.to_str()?, "c:10", "0"])
        .stderr(Stdio::null())
        .stdout(Stdio::null())
        .status()
        .ok()?;
    if !status.success() {
        return None;
    }
    read(&std::fs::read_to_string(out).ok()?)
}

/// The file's lines: `fn=(id) name` begins a function, `calls=` says that the next line is another's cost, and a line that begins
/// with a number or a sign is a cost: place, instructions.
fn read(text: &str) -> Option<Counted> {
    let mut names: Vec<(String, String)> = Vec::new();
    let mut parts: Vec<(String, u64)> = Vec::new();
    let (mut at, mut skip) = (usize::MAX, false);
    for line in text.lines() {
        let named = ["fn=", "cfn="].iter().find_map(|w| line.strip_prefix(w));
        if let Some((id, name)) = named.and_then(|l| l.split_once(')')) {
            if !name.is_empty() {
                names.push((id.to_string(), name.trim().to_string()));
            }
            if line.starts_with("fn=") {
                let name = &names.iter().find(|(known, _)| known == id)?.1;
                at = parts
                    .iter()
                    .position(|(n, _)| n == name)
                    .unwrap_or_else(|| {
                        parts.push((name.clone(), 0));
                        parts.len() - 1
                    });
            }
        } else if line.starts_with("calls=") {
            skip = true;
        } else if line.starts_with(|c: char| c.is_ascii_digit() || "+-*".contains(c)) {
            let cost = line.split_whitespace().nth(1)?.parse::<u64>().ok()?;
            if !skip && at != usize::MAX {
                parts[at].1 += cost;
            }
            skip = false;
        }
    }
    parts.sort_by_key(|(_, cost)| std::cmp::Reverse(*cost));
    parts.retain(|(_, cost)| *cost > 0);
    let all = parts.iter().map(|(_, cost)| cost).sum();
    (all > 0).then_some(Counted { all, parts })
}
