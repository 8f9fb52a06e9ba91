//! Values as Rust's types, commands of several types, and replies that are read and kept.

use resp_c::{Command, Error, Parser, Reply, Value};
use std::io::{self, ErrorKind, Read};

/// What a function makes of the value of these bytes.
fn of<T>(bytes: &[u8], convert: impl Fn(Value) -> T) -> T {
    let mut parser = Parser::new().expect("memory");
    parser.feed(bytes).expect("memory");
    let view = parser.next().expect("no fault").expect("a value");
    convert(view.value())
}

/// The same, converted.
fn to<T: for<'a> TryFrom<Value<'a>, Error = Error>>(bytes: &[u8]) -> Result<T, Error> {
    of(bytes, |value| T::try_from(value))
}

#[test]
fn integers() {
    assert_eq!(to::<i64>(b":-5\r\n"), Ok(-5));
    assert_eq!(to::<u8>(b"$2\r\n42\r\n"), Ok(42));
    assert_eq!(to::<usize>(b"+7\r\n"), Ok(7));
    assert_eq!(
        to::<i128>(b"(123456789012345678901\r\n"),
        Ok(123456789012345678901)
    );
    for bytes in [
        b":256\r\n".as_slice(),
        b":-1\r\n",
        b"$1\r\nx\r\n",
        b"_\r\n",
        b"*0\r\n",
        b"-7\r\n",
        b"#t\r\n",
    ] {
        assert_eq!(to::<u8>(bytes), Err(Error::OtherType));
    }
}

#[test]
fn doubles() {
    assert_eq!(to::<f64>(b",2.5\r\n"), Ok(2.5));
    assert_eq!(to::<f64>(b",-inf\r\n"), Ok(f64::NEG_INFINITY));
    assert_eq!(to::<f64>(b"$3\r\n0.5\r\n"), Ok(0.5));
    assert_eq!(to::<f64>(b"+x\r\n"), Err(Error::OtherType));
}

#[test]
fn texts() {
    let string = to::<String>;
    assert_eq!(string(b"+OK\r\n").as_deref(), Ok("OK"));
    assert_eq!(string("$2\r\né\r\n".as_bytes()).as_deref(), Ok("é"));
    assert_eq!(string(b"=7\r\ntxt:a:b\r\n").as_deref(), Ok("a:b"));
    for bytes in [
        b"$1\r\n\xFF\r\n".as_slice(),
        b"-ERR x\r\n",
        b":1\r\n",
        b"_\r\n",
        b"~0\r\n",
    ] {
        assert_eq!(string(bytes), Err(Error::OtherType));
    }
    assert_eq!(to::<Vec<u8>>(b"$1\r\n\xFF\r\n"), Ok(vec![255]));
}

#[test]
fn arguments_of_several_types() {
    let bytes = Command::new("X")
        .arg(b"\x00")
        .arg(u64::MAX)
        .arg(-0.5)
        .arg(String::new())
        .pack();
    let wanted =
        b"*5\r\n$1\r\nX\r\n$1\r\n\0\r\n$20\r\n18446744073709551615\r\n$4\r\n-0.5\r\n$0\r\n\r\n";
    assert_eq!(bytes, wanted);
    let shown = format!("{:?}", Command::new("X"));
    assert_eq!(shown, r"Command(*1\r\n$1\r\nX\r\n)");
}

/// A reader that gives these pieces, one a call, and an error for each `None`.
struct Pieces(Vec<Option<&'static [u8]>>);

impl Read for Pieces {
    fn read(&mut self, out: &mut [u8]) -> io::Result<usize> {
        if self.0.is_empty() {
            return Ok(0);
        }
        let piece = self.0.remove(0).ok_or(ErrorKind::WouldBlock)?;
        out[..piece.len()].copy_from_slice(piece);
        Ok(piece.len())
    }
}

#[test]
fn replies_of_a_reader() {
    let mut pieces = Pieces(vec![
        Some(b"*2\r\n:1\r\n$2"),
        None,
        Some(b"\r\nab\r\n+OK\r\n:"),
        Some(b"7\r\n"),
    ]);
    let mut parser = Parser::new().expect("memory");
    let error = parser.read_next(&mut pieces).expect_err("it isn't there");
    assert_eq!(error.kind(), ErrorKind::WouldBlock);
    for wanted in [r#"array([int(1), bulk-string('"ab"')])"#, "ok", "int(7)"] {
        let view = parser
            .read_next(&mut pieces)
            .expect("no error")
            .expect("a reply");
        assert_eq!(format!("{:?}", view.value()), wanted);
    }
    assert!(parser.read_next(&mut pieces).expect("no error").is_none());
}

#[test]
fn errors_of_a_reader() {
    let cases = [
        (b"$3\r\nab".as_slice(), ErrorKind::UnexpectedEof),
        (b"@", ErrorKind::InvalidData),
    ];
    for (bytes, kind) in cases {
        let mut parser = Parser::new().expect("memory");
        let error = parser.read_next(&mut &*bytes).expect_err("no reply");
        assert_eq!(error.kind(), kind);
    }
}

#[test]
fn replies_that_are_kept() {
    let kept = of(b"*2\r\n%1\r\n+a\r\n:1\r\n$1\r\nx\r\n", |value| {
        let mut reply = Reply::new();
        reply.value(value);
        reply
    });
    let view = kept.view().expect("one value");
    assert_eq!(
        format!("{:?}", view.value()),
        r#"array([map([(simple-string("a"), int(1))]), bulk-string('"x"')])"#
    );
    for (mut reply, count) in [(Reply::new(), 2), (Reply::new(), usize::MAX)] {
        reply.map(count).int(1);
        assert!(reply.view().is_none());
    }
    let mut two = Reply::new();
    two.int(1).int(2);
    assert!(two.view().is_none());
}
