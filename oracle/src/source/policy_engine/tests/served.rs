//! A program that is handed one trace after the other. `tests/serve.c` at the root of the repository says how.

use std::io::{Read, Write};
use std::process::{Child, ChildStdin, ChildStdout, Command, Stdio};

/// What is said of a program that was ended because its time was over, by SIGALRM.
pub const NO_END: &str = "no end in time";
const SIGALRM: i32 = 14;
const NOT_STARTED: i32 = -1000;

pub struct Server {
    child: Child,
    to: Option<ChildStdin>,
    from: ChildStdout,
}

impl Server {
    pub fn start(command: &[String]) -> Self {
        let mut child = Command::new(&command[0])
            .args(&command[1..])
            .stdin(Stdio::piped())
            .stdout(Stdio::piped())
            .spawn()
            .unwrap_or_else(|error| panic!("{}: {error}", command[0]));
        let (to, from) = (child.stdin.take(), child.stdout.take().expect("a pipe"));
        Self { child, to, from }
    }

    /// What the program prints for a trace, and what is wrong with how it ended.
    pub fn output(&mut self, file: &[u8]) -> (String, Option<String>) {
        match self.exchange(file) {
            Ok((status, out, err)) => {
                let (out, err) = (String::from_utf8_lossy(&out).into_owned(), String::from_utf8_lossy(&err));
                let wrong = complaint(status, &out, &err);
                (out, wrong)
            }
            Err(error) => (String::new(), Some(format!("its server has ended: {error}"))),
        }
    }

    fn exchange(&mut self, file: &[u8]) -> std::io::Result<(i32, Vec<u8>, Vec<u8>)> {
        let to = self.to.as_mut().expect("a pipe");
        to.write_all(&[&(file.len() as u32).to_le_bytes()[..], file].concat())?;
        let status = self.number()? as i32;
        let (out, err) = (self.number()?, self.number()?);
        Ok((status, self.bytes(out)?, self.bytes(err)?))
    }

    fn number(&mut self) -> std::io::Result<u32> {
        let mut bytes = [0; 4];
        self.from.read_exact(&mut bytes)?;
        Ok(u32::from_le_bytes(bytes))
    }

    fn bytes(&mut self, length: u32) -> std::io::Result<Vec<u8>> {
        let mut bytes = vec![0; length as usize];
        self.from.read_exact(&mut bytes)?;
        Ok(bytes)
    }
}

impl Drop for Server {
    fn drop(&mut self) {
        drop(self.to.take());
        let _ = self.child.wait();
    }
}

/// None for status 0 with nothing on standard error. Of a malformed trace one line says what is wrong with it, and ./pes then ends with 3;
/// tests/malformed at the root of the repository has that line.
fn complaint(status: i32, out: &str, err: &str) -> Option<String> {
    match status {
        0 | 3 if is_malformed(out) && is_hint(err) => None,
        0 if !is_malformed(out) && err.is_empty() => None,
        0 => Some(format!("said on standard error: {err:?}")),
        NOT_STARTED => Some(format!("could not be started: {err}")),
        _ if status == -SIGALRM => Some(NO_END.to_string()),
        _ if status < 0 => Some(format!("killed by signal {}", -status)),
        _ => Some(format!("ended with status {status}")),
    }
}

fn is_malformed(out: &str) -> bool {
    let last = out.lines().last().unwrap_or("");
    last.ends_with(" R8") || last.contains(": R8, ")
}

fn is_hint(err: &str) -> bool {
    err.starts_with("R8: ") && err.ends_with('\n') && err.lines().count() == 1
}
