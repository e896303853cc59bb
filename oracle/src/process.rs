//! Runs a program with an input, and collects what it prints.

use std::io::{Read, Write};
use std::process::{Child, ChildStdin, Command, Stdio};
use std::sync::mpsc::{channel, Receiver, RecvTimeoutError};
use std::thread::{sleep, spawn, JoinHandle};
use std::time::Duration;

/// A program that prints nothing for so long has hung.
const PATIENCE: Duration = Duration::from_secs(60);

pub const HUNG: &str = "it waits without an answer";

/// How the input is given.
#[derive(Clone, Copy, Debug, PartialEq)]
pub enum Way {
    Whole,
    /// in pieces of this many bytes, with a rest between them: reads come back short
    Pieces(usize),
    /// line by line, each after the answer to the one before
    Lines,
    /// whole, and not ended: the program has to end by itself
    Open,
}

#[derive(Debug, Default, PartialEq)]
pub struct Printed {
    pub out: Vec<u8>,
    pub err: Vec<u8>,
}

/// What the program printed and its exit status, or why it did not come to its end.
pub fn run(program: &[String], input: &[u8], way: Way) -> Result<(Printed, i32), String> {
    let mut child = Command::new(&program[0])
        .args(&program[1..])
        .stdin(Stdio::piped())
        .stdout(Stdio::piped())
        .stderr(Stdio::piped())
        .spawn()
        .map_err(|e| format!("{}: {e}", program[0]))?;
    let told = talk(&mut child, input, way);
    if told.is_err() {
        // it may have ended by itself
        let _ = child.kill();
    }
    let status = child.wait().map_err(|e| e.to_string())?;
    Ok((told?, status.code().ok_or(format!("it ended with {status}"))?))
}

fn talk(child: &mut Child, input: &[u8], way: Way) -> Result<Printed, String> {
    let out = chunks(child.stdout.take().unwrap());
    let err = chunks(child.stderr.take().unwrap());
    let stdin = child.stdin.take().unwrap();
    let (mut printed, mut _open) = (Printed::default(), None);
    match way {
        Way::Lines => line_by_line(stdin, input, &out, &mut printed.out)?,
        Way::Whole => drop(give(stdin, input.to_vec(), input.len().max(1), Duration::ZERO)),
        Way::Pieces(size) => drop(give(stdin, input.to_vec(), size, Duration::from_micros(300))),
        Way::Open => _open = Some(give(stdin, input.to_vec(), input.len().max(1), Duration::ZERO)),
    }
    while more(&out, &mut printed.out)? {}
    while more(&err, &mut printed.err)? {}
    Ok(printed)
}

/// On a thread of its own, since a program may fill its output before it has read its input. One that ends before it has
/// read everything is no error. The input ends when the thread is through and nobody holds its handle.
fn give(mut stdin: ChildStdin, input: Vec<u8>, size: usize, rest: Duration) -> JoinHandle<ChildStdin> {
    spawn(move || {
        for piece in input.chunks(size) {
            if stdin.write_all(piece).is_err() {
                break;
            }
            sleep(rest);
        }
        stdin
    })
}

/// Waits for the first line, then for an answer to each line that has a newline.
fn line_by_line(
    mut stdin: ChildStdin,
    input: &[u8],
    out: &Receiver<Vec<u8>>,
    text: &mut Vec<u8>,
) -> Result<(), String> {
    for (answers, line) in (1..).zip(input.split_inclusive(|&byte| byte == b'\n')) {
        while text.iter().filter(|&&byte| byte == b'\n').count() < answers {
            if !more(out, text)? {
                return Ok(());
            }
        }
        if stdin.write_all(line).is_err() {
            return Ok(());
        }
    }
    Ok(())
}

/// Adds what came next; tells whether there may be more.
fn more(from: &Receiver<Vec<u8>>, text: &mut Vec<u8>) -> Result<bool, String> {
    match from.recv_timeout(PATIENCE) {
        Ok(chunk) => text.extend(chunk),
        Err(RecvTimeoutError::Disconnected) => return Ok(false),
        Err(RecvTimeoutError::Timeout) => return Err(HUNG.to_string()),
    }
    Ok(true)
}

fn chunks(mut from: impl Read + Send + 'static) -> Receiver<Vec<u8>> {
    let (sender, receiver) = channel();
    spawn(move || {
        let mut space = vec![0; 65_536];
        while let Ok(size @ 1..) = from.read(&mut space) {
            if sender.send(space[..size].to_vec()).is_err() {
                break;
            }
        }
    });
    receiver
}
