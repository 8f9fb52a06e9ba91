//! Memory that runs out. A test runs another one of this file, with less address space.

use resp_c::{Error, Kind, Parser, Protocol, Reply};
use std::env;
use std::process::Command;

/// Runs a test with some 400 MB of address space.
const RUN: &str = r#"ulimit -v 400000 && exec "$0" --exact "$1" --ignored"#;

fn run_with_little_memory(test: &str) {
    let tests = env::current_exe().expect("the path of the tests");
    let mut run = Command::new("sh");
    run.args(["-c", RUN]).arg(tests).arg(test);
    let output = run.output().expect("a shell");
    let shown = String::from_utf8_lossy(&output.stdout);
    assert!(
        output.status.success() && shown.contains("1 passed"),
        "{shown}"
    );
}

#[test]
fn bytes_that_find_no_memory_change_nothing() {
    run_with_little_memory("fed_with_little_memory");
}

#[test]
fn a_reply_that_finds_no_memory_is_refused() {
    run_with_little_memory("encoded_with_little_memory");
}

#[test]
#[ignore = "is run by another test, with little memory"]
fn fed_with_little_memory() {
    let piece = vec![0; 1 << 28];
    let mut parser = Parser::new().expect("memory");
    parser.feed(b"+O").expect("fed");
    assert_eq!(parser.feed(&piece), Err(Error::OutOfMemory));
    parser.feed(b"K\r\n").expect("fed");
    let view = parser.next().expect("no fault").expect("a whole value");
    assert_eq!(view.value().kind(), Kind::Okay);
}

/// An array of strings of 1 MiB.
fn long_reply(strings: usize) -> Reply {
    let string = vec![0; 1 << 20];
    let mut reply = Reply::new();
    reply.array(strings);
    for _ in 0..strings {
        reply.bulk_string(&string);
    }
    reply
}

#[test]
#[ignore = "is run by another test, with little memory"]
fn encoded_with_little_memory() {
    // There is no room for the bytes of the first; the call has none for what it makes of the second.
    for strings in [140, 100] {
        let bytes = long_reply(strings).encode(Protocol::Resp3);
        assert_eq!(bytes.err(), Some(Error::OutOfMemory), "{strings} MiB");
    }
    let bytes = long_reply(1).encode(Protocol::Resp3).expect("an encoding");
    assert_eq!(&bytes[..14], b"*1\r\n$1048576\r\n");
}
