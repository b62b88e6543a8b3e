//! Instructions of one call, as callgrind counts them.

use crate::calls::Call;
use std::env;
use std::hint::black_box;
use std::process::Command;

/// Makes one call. Callgrind counts what happens inside this function, which it finds by its name.
#[unsafe(no_mangle)]
#[inline(never)]
pub fn counted_call(call: &mut Call) {
    black_box(call());
}

/// Whether valgrind can be run.
pub fn is_installed() -> bool {
    Command::new("valgrind")
        .arg("--version")
        .output()
        .is_ok_and(|done| done.status.success())
}

/// The instructions of one side of a case, counted in a run of this program for that alone.
pub fn instructions(case: usize, side: &str) -> Option<u64> {
    let done = Command::new("valgrind")
        .args([
            "--tool=callgrind",
            "--callgrind-out-file=/dev/null",
            "--toggle-collect=counted_call",
        ])
        .arg(env::current_exe().ok()?)
        .args([case.to_string().as_str(), side])
        .output()
        .ok()?;
    let said = String::from_utf8_lossy(&done.stderr).into_owned();
    let line = said.lines().find(|line| line.contains("Collected :"))?;
    line.split_whitespace().next_back()?.parse().ok()
}
