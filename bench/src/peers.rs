//! LIBSVM and scikit-learn's inner fit, each where it is there.
use crate::given::{Given, Task};
use crate::EPS;
use std::io::{BufRead, BufReader, Write};
use std::path::Path;
use std::process::{Child, ChildStdin, ChildStdout, Command, Stdio};

#[cfg(libsvm)]
mod linked {
    extern "C" {
        pub fn peer_open(
            n: usize,
            matrix: *const f64,
            labels: *const u8,
            svm_type: i32,
            c: f64,
            nu: f64,
            eps: f64,
            shrinking: i32,
        ) -> *mut u8;
        pub fn peer_warm(peer: *mut u8) -> f64;
        pub fn peer_fit(peer: *mut u8);
        pub fn peer_forget(peer: *mut u8) -> i32;
        pub fn peer_close(peer: *mut u8);
    }
}

#[cfg(not(libsvm))]
mod linked {
    #[rustfmt::skip]
    pub unsafe fn peer_open(_: usize, _: *const f64, _: *const u8, _: i32, _: f64, _: f64, _: f64, _: i32) -> *mut u8 {
        std::ptr::null_mut()
    }
    pub unsafe fn peer_warm(_: *mut u8) -> f64 {
        0.0
    }
    pub unsafe fn peer_fit(_: *mut u8) {}
    pub unsafe fn peer_forget(_: *mut u8) -> i32 {
        0
    }
    pub unsafe fn peer_close(_: *mut u8) {}
}

/// LIBSVM on one problem. The matrix is copied into its own form beforehand.
pub struct Libsvm {
    peer: *mut u8,
}

impl Libsvm {
    pub fn new(given: &Given, task: Task, shrinking: bool) -> Option<Libsvm> {
        let (kind, c, nu) = task.libsvm();
        let (matrix, labels) = (given.matrix.as_ptr(), given.labels.as_ptr());
        let shrinking = i32::from(shrinking);
        let peer =
            unsafe { linked::peer_open(given.n, matrix, labels, kind, c, nu, EPS, shrinking) };
        (!peer.is_null()).then_some(Libsvm { peer })
    }

    /// Reads its matrix once.
    pub fn warm(&self) {
        std::hint::black_box(unsafe { linked::peer_warm(self.peer) });
    }

    pub fn fit(&mut self) {
        unsafe { linked::peer_fit(self.peer) }
    }

    /// What isn't timed: the model goes. Says how many passes there were.
    pub fn forget(&mut self) -> u64 {
        unsafe { linked::peer_forget(self.peer) as u64 }
    }
}

impl Drop for Libsvm {
    fn drop(&mut self) {
        unsafe { linked::peer_close(self.peer) }
    }
}

/// A Python that is asked for one fit at a time, and says how long it took by itself.
pub struct Sklearn {
    child: Child,
    to: ChildStdin,
    from: BufReader<ChildStdout>,
    pub version: String,
}

impl Sklearn {
    /// Nothing where Python or scikit-learn isn't there.
    pub fn start(python: &str, script: &str) -> Option<Sklearn> {
        let mut child = Command::new(python)
            .arg(script)
            .stdin(Stdio::piped())
            .stdout(Stdio::piped())
            .stderr(Stdio::null())
            .spawn()
            .ok()?;
        let to = child.stdin.take()?;
        let mut from = BufReader::new(child.stdout.take()?);
        let mut version = String::new();
        from.read_line(&mut version).ok()?;
        let version = version.trim().to_string();
        if version.is_empty() {
            child.wait().ok()?;
            return None;
        }
        Some(Sklearn {
            child,
            to,
            from,
            version,
        })
    }

    pub fn open(&mut self, file: &Path) {
        writeln!(self.to, "open {}", file.display()).expect("Python goes on");
    }

    /// Nanoseconds and passes.
    pub fn fit(&mut self, task: Task, shrinking: bool) -> (f64, u64) {
        let (kind, c, nu) = task.libsvm();
        let shrinking = u8::from(shrinking);
        writeln!(self.to, "fit {kind} {c} {nu} {EPS} {shrinking}").expect("Python goes on");
        let mut line = String::new();
        self.from.read_line(&mut line).expect("Python answers");
        let mut words = line.split_whitespace();
        let mut number = || -> u64 {
            let word = words.next().expect("two numbers");
            word.parse().expect("two numbers")
        };
        (number() as f64, number())
    }
}

impl Drop for Sklearn {
    fn drop(&mut self) {
        let _ = self.child.kill();
        let _ = self.child.wait();
    }
}
