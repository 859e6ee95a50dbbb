//! The program `bench`, run on one file at a time.

use std::io::{Read, Write};
use std::process::{Child, Command, Stdio};
use std::sync::mpsc;
use std::thread;
use std::time::Duration;

/// Far more than the largest file takes.
const LONGEST: Duration = Duration::from_secs(60);

/// The words that begin the program.
pub struct Program(pub Vec<String>);

/// What the program printed, and how it ended if not with status 0.
#[derive(PartialEq, Eq, Clone, Debug)]
pub struct Printed {
    pub text: Vec<u8>,
    pub ended: Option<String>,
}

impl Printed {
    pub fn well(text: String) -> Printed {
        Printed { text: text.into_bytes(), ended: None }
    }
}

impl Program {
    /// Hands the file over through a pipe, so that a long one comes in parts.
    pub fn run(&self, file: &[u8]) -> std::io::Result<Printed> {
        let mut program = Command::new(&self.0[0]);
        program.args(&self.0[1..]).stdin(Stdio::piped()).stdout(Stdio::piped());
        let mut child = program.spawn()?;
        let mut input = child.stdin.take().expect("a pipe was asked for");
        let mut output = child.stdout.take().expect("a pipe was asked for");
        let file = file.to_vec();
        // A program may stop reading where more bytes change nothing. That is no error.
        thread::spawn(move || drop(input.write_all(&file)));
        let (sender, receiver) = mpsc::channel();
        thread::spawn(move || {
            let mut text = Vec::new();
            let _ = output.read_to_end(&mut text);
            let _ = sender.send(text);
        });
        let text = receiver.recv_timeout(LONGEST);
        Ok(Printed { ended: end(&mut child, text.is_ok())?, text: text.unwrap_or_default() })
    }
}

/// Waits for the program, or stops it where it still runs.
fn end(child: &mut Child, in_time: bool) -> std::io::Result<Option<String>> {
    if !in_time {
        child.kill()?;
        child.wait()?;
        return Ok(Some("does not end".into()));
    }
    let status = child.wait()?;
    Ok((!status.success()).then(|| format!("ended with {status}")))
}
