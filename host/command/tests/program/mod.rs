//! The program itself, for two of the tests.
use std::process::Command;

/// By the emulator where one runs these tests.
pub fn program() -> Command {
    let path = env!("CARGO_BIN_EXE_altuliscia");
    let emulator =
        std::env::var("CARGO_TARGET_X86_64_UNKNOWN_LINUX_GNU_RUNNER").unwrap_or_default();
    let mut words = emulator.split_whitespace().chain([path]);
    let mut command = Command::new(words.next().unwrap());
    command.args(words);
    command
}
