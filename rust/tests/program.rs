//! The program `staff_board` and the system around it: pipes in pieces, outputs that are closed or full, an input that cannot be read. Its exit
//! status is 1 where its lines could not be written; what is printed where is all else that a script can test.

mod journals_printed;

use journals_printed::{lines_of, top};
use std::fs::File;
use std::io::Write;
use std::process::{Child, Command, Output, Stdio};
use std::thread::sleep;
use std::time::Duration;

fn program() -> Command {
    let mut program = Command::new(top().join("target/bin/staff_board"));
    program
        .stdin(Stdio::piped())
        .stdout(Stdio::piped())
        .stderr(Stdio::piped());
    program
}

fn journal(name: &str) -> Vec<u8> {
    std::fs::read(top().join("crates/journals/data").join(format!("{name}.journal"))).expect("a journal")
}

/// Feeds a journal in pieces of some bytes, with a pause after each of the first ones, and closes the input.
fn feed(child: &mut Child, journal: &[u8], piece: usize) {
    let mut input = child.stdin.take().expect("its input");
    for (i, part) in journal.chunks(piece).enumerate() {
        input.write_all(part).expect("it reads");
        if i < 5 {
            sleep(Duration::from_millis(5));
        }
    }
}

fn run(journal: &[u8], piece: usize) -> Output {
    let mut child = program().spawn().expect("`tools/build` has built the program");
    feed(&mut child, journal, piece);
    child.wait_with_output().expect("it ends")
}

#[test]
fn a_pipe_is_read_to_its_end() {
    for (name, pieces) in [
        ("listing", &[1, 2, 5, 117][..]),
        ("empty", &[1]),
        ("week", &[1, 100, 4_096]),
        ("exactly-60000", &[999, 59_999]),
        ("long-60001", &[60_000, 1_000]),
        ("shortest-frames-15000", &[4_097]),
    ] {
        for &piece in pieces {
            let output = run(&journal(name), piece);
            assert!(output.status.success() && output.stderr.is_empty(), "{name}");
            assert_eq!(
                String::from_utf8(output.stdout).expect("text"),
                lines_of(name),
                "{name} in pieces of {piece}"
            );
        }
    }
}

/// Beyond what it can hold the program reads nothing, so the writer may find the pipe closed.
#[test]
fn a_longer_input_prints_long() {
    let mut child = program().spawn().expect("the program");
    let mut input = child.stdin.take().expect("its input");
    let _ = input.write_all(&vec![0; 200_000]); // broken where the program has ended
    drop(input);
    let output = child.wait_with_output().expect("it ends");
    assert_eq!((&output.stdout[..], &output.stderr[..]), (&b"long\n"[..], &b""[..]));
}

#[test]
fn an_input_that_cannot_be_read_prints_nothing() {
    let folder = File::open(top()).expect("a folder");
    let output = program().stdin(folder).output().expect("it runs");
    assert_eq!(output.stdout, b"");
    assert_eq!(output.stderr, b"the journal could not be read whole\n");
    assert_eq!(output.status.code(), Some(0));

    // closed by the shell before the program starts
    let closed = Command::new("sh")
        .arg("-c")
        .arg(r#""$0" <&-"#)
        .arg(top().join("target/bin/staff_board"))
        .output();
    let closed = closed.expect("it runs");
    assert_eq!(
        (&closed.stdout[..], &closed.stderr[..]),
        (&b""[..], &b"the journal could not be read whole\n"[..])
    );
}

#[test]
fn a_full_output_is_said_on_standard_error() {
    let full = File::options().write(true).open("/dev/full").expect("/dev/full");
    let mut child = program().stdout(full).spawn().expect("the program");
    feed(&mut child, &journal("listing"), 10);
    let output = child.wait_with_output().expect("it ends");
    assert_eq!(output.stderr, b"the lines could not be written\n");
    assert_eq!(output.status.code(), Some(1));
}

/// Where nobody reads the lines any more the program says so and ends, whether or not its caller lets the signal for that, SIGPIPE, end it.
#[test]
fn a_closed_output_ends_the_program() {
    let mut ignoring = Command::new("sh");
    ignoring
        .arg("-c")
        .arg(r#"trap '' PIPE; "$0""#)
        .arg(top().join("target/bin/staff_board"));
    ignoring
        .stdin(Stdio::piped())
        .stdout(Stdio::piped())
        .stderr(Stdio::piped());
    for mut command in [program(), ignoring] {
        let mut child = command.spawn().expect("the program");
        drop(child.stdout.take());
        feed(&mut child, &journal("week"), 1_000);
        let output = child.wait_with_output().expect("it ends");
        assert_eq!(String::from_utf8_lossy(&output.stderr), "the lines could not be written\n");
        assert_eq!(output.status.code(), Some(1));
    }
}
