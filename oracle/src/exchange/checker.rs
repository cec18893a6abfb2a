//! Runs the checking program on files, each on standard input, two at a time.

use std::io::{self, Write};
use std::process::{Command, Stdio};
use std::sync::atomic::{AtomicUsize, Ordering};
use std::thread;

const AT_A_TIME: usize = 2;

/// What it prints of each file.
pub fn printed_by(command: &str, files: &[&[u8]]) -> io::Result<Vec<String>> {
    let next = AtomicUsize::new(0);
    let work = || -> io::Result<Vec<(usize, String)>> {
        let mut printed = Vec::new();
        loop {
            let number = next.fetch_add(1, Ordering::Relaxed);
            let Some(file) = files.get(number) else {
                return Ok(printed);
            };
            printed.push((number, printed_of(command, file)?));
        }
    };
    let mut all = Vec::new();
    thread::scope(|scope| {
        let workers: Vec<_> = (0..AT_A_TIME).map(|_| scope.spawn(work)).collect();
        for worker in workers {
            all.extend(worker.join().expect("a worker does not panic")?);
        }
        io::Result::Ok(())
    })?;
    all.sort();
    Ok(all.into_iter().map(|(_, text)| text).collect())
}

fn printed_of(command: &str, file: &[u8]) -> io::Result<String> {
    let mut process = Command::new("sh")
        .args(["-c", command])
        .stdin(Stdio::piped())
        .stdout(Stdio::piped())
        .spawn()?;
    // one that does not read its input is known by what it prints
    let _ = process.stdin.take().expect("its input is a pipe").write_all(file);
    let output = process.wait_with_output()?;
    let mut text = String::from_utf8_lossy(&output.stdout).into_owned();
    // 0 and 1 tell accepted from refused at most; any other is trouble
    if !matches!(output.status.code(), Some(0 | 1)) {
        text += &format!("({})\n", output.status);
    }
    Ok(text)
}
