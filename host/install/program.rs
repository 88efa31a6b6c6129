//! Trains the same two samples through the crate, as another project's program.
use altuliscia::{fit_c, Options, Problem};

extern "C" {
    fn altuliscia_version() -> u64;
}

fn main() {
    let problem = Problem {
        matrix: &[1.0, 0.0, 0.0, 1.0],
        labels: &[true, false],
    };
    let answer = fit_c(&problem, 1.0, 1.0, &Options::default()).unwrap();
    println!("version {}", unsafe { altuliscia_version() });
    println!("weights {:?}, rho {}", answer.home, answer.rho);
}
