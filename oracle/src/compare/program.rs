//! A program under test that answers commands: run with `sh -c`, fed through a
//! pipe, and read line by line.

use std::io::{self, BufRead, BufReader};
use std::process::{Child, ChildStdin, ChildStdout, Command as Process, Stdio};
use std::thread;
use std::time::Duration;

/// Hundredths of a second the program has to end in.
const LONGEST_END: usize = 1000;

pub struct Program {
    process: Child,
    from: BufReader<ChildStdout>,
}

impl Program {
    /// The running program, and where its commands are written.
    pub fn start(command: &str) -> io::Result<(Program, ChildStdin)> {
        let mut process = Process::new("sh")
            .args(["-c", command])
            .stdin(Stdio::piped())
            .stdout(Stdio::piped())
            .spawn()?;
        let to = process.stdin.take().expect("its input is a pipe");
        let from = BufReader::new(process.stdout.take().expect("its output is a pipe"));
        Ok((Program { process, from }, to))
    }

    /// So many of the lines it writes, without their ends, or as many as come.
    pub fn read_texts(&mut self, count: usize) -> io::Result<Vec<String>> {
        read_texts(&mut self.from, count)
    }

    /// Nothing more is read or written, so the program should end by itself. Gives
    /// what is wrong with its end.
    pub fn stop(self) -> io::Result<Option<String>> {
        let Program { mut process, from } = self;
        // one that still writes must not wait for a reader
        drop(from);
        for _ in 0..LONGEST_END {
            if let Some(status) = process.try_wait()? {
                let failed = !status.success();
                return Ok(failed.then(|| format!("the program ended with {status}")));
            }
            thread::sleep(Duration::from_millis(10));
        }
        process.kill()?;
        Ok(Some("the program did not end by itself".to_string()))
    }
}

/// A last line that is not ended is marked, so that it equals no expected one.
fn read_texts(from: &mut impl BufRead, count: usize) -> io::Result<Vec<String>> {
    let mut texts = Vec::new();
    while texts.len() < count {
        let mut bytes = Vec::new();
        if from.read_until(b'\n', &mut bytes)? == 0 {
            break;
        }
        let text = match bytes.strip_suffix(b"\n") {
            Some(line) => line.escape_ascii().to_string(),
            None => format!("{} (line not ended)", bytes.escape_ascii()),
        };
        texts.push(text);
    }
    Ok(texts)
}

#[cfg(test)]
mod tests {
    use super::read_texts;

    #[test]
    fn texts_read() {
        let mut from = &b"open 0 0 totals 0\nopen 1 1 totals 1\r\nopen"[..];
        assert_eq!(read_texts(&mut from, 1).unwrap(), ["open 0 0 totals 0"]);
        let rest = ["open 1 1 totals 1\\r", "open (line not ended)"];
        assert_eq!(read_texts(&mut from, 5).unwrap(), rest);
        assert!(read_texts(&mut from, 1).unwrap().is_empty());
    }
}
