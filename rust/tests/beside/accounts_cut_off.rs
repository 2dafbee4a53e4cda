//! The account program where a read or a write fails, where nothing is there to read yet, and with an argument.

use crate::accounts_printed::{ends, plainly_printed, program};
use crate::items;
use quimdoral::Key;
use std::fs::{File, OpenOptions};
use std::io::Write;
use std::os::fd::OwnedFd;
use std::os::unix::net::UnixStream;
use std::process::{Child, Command, Output, Stdio};
use std::thread::sleep;
use std::time::Duration;

const KEY: Key = Key { bearer: 7, period: 3, stamp: 0 };
const READ_FAILED: &str = "account: the input is cut off, so its last accounts may be missing; run again with all of it\n";
const WRITE_FAILED: &str = "account: the rest is not printed; run again with all of the input where its text has room\n";

fn spawn(command: &mut Command, input: impl Into<Stdio>, output: impl Into<Stdio>) -> Child {
    command.stdin(input).stdout(output).stderr(Stdio::piped()).spawn().expect("the program starts")
}

/// Waits for the program's end, for so long only. What it prints has to fit a pipe, which is read at the end.
fn ended(mut child: Child) -> Output {
    assert!(ends(&mut child), "the program does not end");
    let output = child.wait_with_output().expect("the program's output");
    assert!(output.status.success(), "{}", output.status);
    output
}

/// Runs the program to its end with this standard input and output.
fn run(command: &mut Command, input: impl Into<Stdio>, output: impl Into<Stdio>) -> Output {
    ended(spawn(command, input, output))
}

fn has_ended(child: &mut Child) -> bool {
    child.try_wait().expect("the program's state").is_some()
}

/// Stops the program for a while. One command does both, so that nothing that fails here leaves it stopped.
fn stop_for_a_while(child: &Child) {
    let script = "kill -STOP \"$0\"; sleep 0.05; kill -CONT \"$0\"";
    let done = Command::new("sh").args(["-c", script, &child.id().to_string()]).status();
    assert!(done.expect("the shell starts").success(), "the program does not go on");
}

fn told(output: &Output) -> String {
    String::from_utf8(output.stderr.clone()).expect("messages are ASCII")
}

/// Keys alone, so many of them. Each is 14 octets, and prints an account of its own once the next one is there.
fn keys(count: u32) -> Vec<u8> {
    (0..count).flat_map(|bearer| items::key(Key { bearer, ..KEY })).collect()
}

#[test]
fn directory_cannot_be_read() {
    let output = run(&mut Command::new(program()), File::open("/").expect("the root"), Stdio::piped());
    assert_eq!(told(&output), format!("account: standard input cannot be read: Is a directory\n{READ_FAILED}"));
    assert!(output.stdout.is_empty());
}

/// A peer that goes with something unread resets the connection: what it sent is read first, and then a read fails. The program
/// prints the front of the text, as far as the longest item would be there, and not its last account.
#[test]
fn read_that_fails_behind_octets() {
    for count in [0, 1, 100, 700] {
        let (mut ours, theirs) = UnixStream::pair().expect("two sockets");
        let input = keys(count);
        (&theirs).write_all(b"unread").expect("the socket takes it");
        ours.write_all(&input).expect("the socket takes the input");
        drop(ours);
        let output = run(&mut Command::new(program()), OwnedFd::from(theirs), Stdio::piped());
        assert_eq!(told(&output), format!("account: standard input cannot be read: Connection reset by peer\n{READ_FAILED}"));
        let whole = plainly_printed(&input);
        assert!(whole.starts_with(&output.stdout), "{count} keys: what is printed is not the text's front");
        let last = format!("sequence {} 3 0 open", count.saturating_sub(1));
        assert!(!String::from_utf8_lossy(&output.stdout).contains(&last), "{count} keys: the last account is printed");
        assert_eq!(output.stdout.is_empty(), count < 700, "{count} keys");
    }
}

/// The program ends, tells nothing, and has printed what all of the input prints.
fn all_is_printed(child: Child, input: &[u8]) {
    let output = ended(child);
    assert_eq!(told(&output), "");
    assert!(output.stdout == plainly_printed(input));
}

/// A descriptor that does not wait, on which nothing is there for a while: the input has not ended.
#[test]
fn nothing_to_read_yet() {
    let (mut ours, theirs) = UnixStream::pair().expect("two sockets");
    theirs.set_nonblocking(true).expect("a socket that does not wait");
    let mut child = spawn(&mut Command::new(program()), OwnedFd::from(theirs), Stdio::piped());
    let input = keys(600);
    for piece in input.chunks(input.len() / 3) {
        sleep(Duration::from_millis(50));
        assert!(!has_ended(&mut child), "the program takes nothing yet for the end");
        ours.write_all(piece).expect("the socket takes the input");
    }
    sleep(Duration::from_millis(50));
    drop(ours);
    all_is_printed(child, &input);
}

/// A read that may wait for so long only, and is stopped meanwhile, is interrupted: the input has not ended.
#[test]
fn read_that_is_interrupted() {
    let (mut ours, theirs) = UnixStream::pair().expect("two sockets");
    theirs.set_read_timeout(Some(Duration::from_secs(60))).expect("a socket that waits so long");
    let mut child = spawn(&mut Command::new(program()), OwnedFd::from(theirs), Stdio::piped());
    for _ in 0..2 {
        sleep(Duration::from_millis(50));
        stop_for_a_while(&child);
        sleep(Duration::from_millis(50));
        assert!(!has_ended(&mut child), "the program takes an interruption for the end");
    }
    let input = keys(100);
    ours.write_all(&input).expect("the socket takes the input");
    drop(ours);
    all_is_printed(child, &input);
}

#[test]
fn output_without_room() {
    let (mut ours, theirs) = UnixStream::pair().expect("two sockets");
    ours.write_all(&keys(10)).expect("the socket takes the input");
    drop(ours);
    let full = OpenOptions::new().write(true).open("/dev/full").expect("a device that is always full");
    let output = run(&mut Command::new(program()), OwnedFd::from(theirs), full);
    assert_eq!(told(&output), format!("account: standard output cannot be written: No space left on device\n{WRITE_FAILED}"));
}

#[test]
fn output_that_is_closed() {
    let (mut ours, theirs) = UnixStream::pair().expect("two sockets");
    ours.write_all(&keys(10)).expect("the socket takes the input");
    drop(ours);
    let mut closed = Command::new("sh");
    closed.args(["-c", "exec \"$0\" >&-"]).arg(program());
    let output = run(&mut closed, OwnedFd::from(theirs), Stdio::piped());
    assert_eq!(told(&output), format!("account: standard output cannot be written: Bad file descriptor\n{WRITE_FAILED}"));
}

/// A pipe that nobody reads any more is a failed write, and no signal ends the program.
#[test]
fn output_that_nobody_reads() {
    let (mut ours, theirs) = UnixStream::pair().expect("two sockets");
    let mut child = spawn(&mut Command::new(program()), OwnedFd::from(theirs), Stdio::piped());
    drop(child.stdout.take().expect("a pipe from the program"));
    ours.write_all(&keys(10)).expect("the socket takes the input");
    drop(ours);
    assert_eq!(told(&ended(child)), format!("account: standard output cannot be written: Broken pipe\n{WRITE_FAILED}"));
}

/// The program takes no argument, and does not wait for an input then.
#[test]
fn argument_gives_the_usage() {
    let (ours, theirs) = UnixStream::pair().expect("two sockets");
    let output = run(Command::new(program()).arg("--help"), OwnedFd::from(theirs), Stdio::piped());
    let usage = "usage: account < ITEMS > ACCOUNTS\n\
                 It takes no argument: it reads items from standard input and prints accounts on standard output.\n";
    assert_eq!(told(&output), usage);
    assert!(output.stdout.is_empty());
    drop(ours);
}
