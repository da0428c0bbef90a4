//! Small programs that a test writes and then runs.

use std::fs;
use std::os::unix::fs::PermissionsExt;
use std::path::Path;
use std::process::{Command, Output, Stdio};
use std::sync::Mutex;

/// A program cannot be run while anybody has it open for writing, and a child that is started
/// meanwhile by another test would have it so for a moment. So nothing starts during a write.
static WRITING: Mutex<()> = Mutex::new(());

/// Writes lines of shell as a program.
pub fn executable(path: &Path, lines: &str) {
    let _guard = WRITING.lock().unwrap();
    fs::write(path, format!("#!/bin/sh\n{lines}\n")).unwrap();
    fs::set_permissions(path, fs::Permissions::from_mode(0o755)).unwrap();
}

/// Runs a command to its end.
pub fn output(command: &mut Command) -> Output {
    let guard = WRITING.lock().unwrap();
    let child = command
        .stdin(Stdio::null())
        .stdout(Stdio::piped())
        .stderr(Stdio::piped())
        .spawn()
        .unwrap();
    drop(guard);
    child.wait_with_output().unwrap()
}
