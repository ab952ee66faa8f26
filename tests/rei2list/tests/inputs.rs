//! What `rei2list` reads, and what it says if reading or writing fails.

use std::fs::File;
use std::io::Write;
use std::os::fd::OwnedFd;
use std::os::unix::net::UnixStream;
use std::process::Stdio;
use std::thread;
use std::time::Duration;

use rei2list_tests::{command, file, rei2list, rei2list_of, sample, sample_list, seen, shell, text_of, Seen, HEADING};

fn list(text: &str) -> Seen {
    Seen { out: text.into(), err: String::new(), done: true }
}

/// Nothing on standard output, and one line on standard error. The exit status says nothing.
fn failed(line: &str) -> Seen {
    Seen { out: String::new(), err: format!("rei2list: {line}\n"), done: true }
}

/// A socket for the program to read, and the other end.
fn socket() -> (Stdio, UnixStream, UnixStream) {
    let (near, far) = UnixStream::pair().expect("a socket");
    let read = near.try_clone().expect("a socket");
    (Stdio::from(OwnedFd::from(read)), near, far)
}

#[test]
fn the_sample_is_listed() {
    assert_eq!(rei2list(file("samples/example.capture")), list(&sample_list()));
}

/// Two stopwatches are asked the same by one requester: each has a seat of its own.
#[test]
fn two_stopwatches_are_listed_apart() {
    let apart = text_of("samples/two-stopwatches.list");
    assert_eq!(rei2list(file("samples/two-stopwatches.capture")), list(&apart));
}

#[test]
fn nothing_is_an_empty_list() {
    assert_eq!(rei2list(Stdio::null()), list(&format!("{HEADING}end\t0\t0\t0\t0\n")));
}

#[test]
fn an_input_that_comes_in_pieces_is_read_to_its_end() {
    let (input, near, mut far) = socket();
    drop(near);
    let writer = thread::spawn(move || {
        for piece in sample().chunks(100) {
            far.write_all(piece).expect("a piece");
            thread::sleep(Duration::from_millis(50));
        }
    });
    assert_eq!(rei2list(input), list(&sample_list()));
    writer.join().expect("all pieces");
}

#[test]
fn the_largest_capture_is_listed_and_a_larger_one_is_not() {
    let mut capture = sample();
    capture.resize(32_768, b' ');
    assert_eq!(rei2list_of("largest", &capture), list(&sample_list()));
    capture.push(b' ');
    assert_eq!(rei2list_of("larger", &capture), list("input too long\n"));
}

#[test]
fn a_directory_is_no_capture() {
    assert_eq!(rei2list(File::open("/").expect("a folder")), failed("standard input: Is a directory"));
}

/// Not on another machine, where the emulator may open a file of its own in the place of what is closed.
#[cfg(target_arch = "x86_64")]
#[test]
fn a_closed_input_is_no_capture_and_a_closed_output_takes_no_list() {
    let closed = seen(&mut shell("./run rei2list <&-"), Stdio::null());
    assert_eq!(closed, failed("standard input: Bad file descriptor"));
    let closed = seen(&mut shell("./run rei2list >&-"), file("samples/example.capture"));
    assert_eq!(closed, failed("standard output: Bad file descriptor"));
}

#[test]
fn an_input_that_says_try_again_is_not_at_its_end() {
    let (input, near, mut far) = socket();
    near.set_nonblocking(true).expect("an input that does not wait");
    far.write_all(&sample()[..150]).expect("a part");
    assert_eq!(rei2list(input), failed("standard input: Resource temporarily unavailable"));
    drop(far);
}

#[test]
fn an_input_that_breaks_off_is_not_at_its_end() {
    let (input, mut near, mut far) = socket();
    far.write_all(&sample()[..150]).expect("a part");
    // What the other end has not read when it closes makes the next reading here fail once.
    near.write_all(b"unread").expect("a byte");
    drop(near);
    drop(far);
    assert_eq!(rei2list(input), failed("standard input: Connection reset by peer"));
}

#[test]
fn a_list_that_cannot_be_written_is_reported() {
    let full = File::options().write(true).open("/dev/full").expect("a full device");
    let output = seen(command("run", ["rei2list"]).stdout(full), file("samples/example.capture"));
    assert_eq!(output.err, "rei2list: standard output: No space left on device\n");
}

#[test]
fn a_list_that_nobody_reads_is_reported() {
    let (near, far) = UnixStream::pair().expect("a socket");
    drop(far);
    let near = Stdio::from(OwnedFd::from(near));
    let output = seen(command("run", ["rei2list"]).stdout(near), file("samples/example.capture"));
    assert_eq!(output.err, "rei2list: standard output: Broken pipe\n");
    assert!(output.done);
}
