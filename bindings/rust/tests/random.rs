//! Random inputs for each call, a fixed number of them.

use resp_c::{
    pack, pack_pipeline, Command, Error, Fault, Kind, Limits, Parser, Protocol, Reply, Value, View,
};
use std::io::{self, ErrorKind, Read};

const RUNS: usize = 5000;

/// Parts of replies; the last ones are none.
const PARTS: [&[u8]; 29] = [
    b"+OK\r\n",
    b"+caf\xC3\xA9\r\n",
    b":1\r\n",
    b":-77\r\n",
    b"$3\r\nabc\r\n",
    b"$0\r\n\r\n",
    b"$-1\r\n",
    b"*2\r\n",
    b"*0\r\n",
    b"*3\r\n",
    b"%1\r\n",
    b"%2\r\n",
    b"~2\r\n",
    b">2\r\n+kind\r\n",
    b"|1\r\n+ttl\r\n:9\r\n",
    b"_\r\n",
    b"#t\r\n",
    b",1.5\r\n",
    b"(12345678901234567890\r\n",
    b"-ERR x\r\n",
    b"!5\r\nERR y\r\n",
    b"!8\r\nERR x\r\ny\r\n",
    b"=7\r\ntxt:abc\r\n",
    b"@",
    b"$2\r\nabc",
    b":x\r\n",
    b"+\xFF\r\n",
    b"%-1\r\n",
    b">1\r\n:1\r\n",
];

/// Random numbers.
struct Random(u32);

impl Random {
    fn below(&mut self, limit: usize) -> usize {
        self.0 = self.0.wrapping_mul(1_664_525).wrapping_add(1_013_904_223);
        (self.0 as usize * limit) >> 32
    }

    fn replies(&mut self) -> Vec<u8> {
        let kinds = if self.below(5) > 0 { 23 } else { PARTS.len() };
        let mut bytes = Vec::new();
        for _ in 0..=self.below(12) {
            bytes.extend_from_slice(PARTS[self.below(kinds)]);
        }
        bytes
    }

    fn arguments(&mut self) -> Vec<Vec<u8>> {
        let count = self.below(5);
        let argument = |_| (0..self.below(30)).map(|_| self.below(256) as u8).collect();
        (0..count).map(argument).collect()
    }

    fn limits(&mut self) -> Limits {
        Limits {
            depth: 1 + self.below(4),
            bytes: 1 + self.below(60),
        }
    }

    /// A reply of random calls, which is seldom one value.
    fn reply(&mut self) -> Reply {
        let mut reply = Reply::new();
        for _ in 0..self.below(6) {
            let count = [0, 1, 1, 1, 2, usize::MAX][self.below(6)];
            let text = ["", "a", "OK", "ERR x y", "a\r\nb", "a:b", "\u{e9}"][self.below(7)];
            match self.below(14) {
                0 => reply.nil(),
                1 => reply.okay(),
                2 => reply.int(-7),
                3 => reply.simple_string(text),
                4 => reply.bulk_string(text),
                5 => reply.bulk_string(b"\xFF"),
                6 => reply.array(count),
                7 => reply.map(count),
                8 => reply.attribute(count),
                9 => reply.server_error(text),
                10 => reply.double(1e20),
                11 => reply.big_number(text),
                12 => reply.push(count),
                _ => reply.verbatim_string(text, text),
            };
        }
        reply
    }
}

/// Gives bytes in random pieces, with interruptions.
struct Pieces<'a> {
    bytes: &'a [u8],
    random: Random,
}

impl Read for Pieces<'_> {
    fn read(&mut self, out: &mut [u8]) -> io::Result<usize> {
        if self.random.below(4) == 0 {
            return Err(ErrorKind::Interrupted.into());
        }
        let size = self.bytes.len().min(1 + self.random.below(9));
        let (piece, rest) = self.bytes.split_at(size);
        out[..size].copy_from_slice(piece);
        self.bytes = rest;
        Ok(size)
    }
}

/// A reply as text, and as it is sent.
type Shown = (String, Vec<u8>);

fn shown(view: View) -> Shown {
    let sent = view.encode(Protocol::Resp3).expect("bytes");
    (format!("{:?}", view.tokens()), sent)
}

/// The values of these bytes, shown and as they are sent, up to a fault.
fn read(mut parser: Parser, pieces: &[&[u8]]) -> (Vec<Shown>, Option<Error>) {
    let mut values = Vec::new();
    for piece in pieces {
        parser.feed(piece).expect("memory");
        loop {
            match parser.next() {
                Ok(Some(view)) => values.push(shown(view)),
                Ok(None) => break,
                Err(error) => return (values, Some(error)),
            }
        }
    }
    (values, None)
}

fn parser() -> Parser {
    Parser::new().expect("memory")
}

#[test]
fn replies_in_pieces() {
    let (mut random, mut count, mut faults) = (Random(1), 0, 0);
    for _ in 0..RUNS {
        let bytes = random.replies();
        let size = 1 + random.below(9);
        let pieces: Vec<&[u8]> = bytes.chunks(size).collect();
        let whole = read(parser(), &[&bytes]);
        assert_eq!(read(parser(), &pieces), whole);
        count += whole.0.len();
        faults += usize::from(whole.1.is_some());
    }
    assert!(
        count > RUNS && faults > RUNS / 20,
        "{count} values, {faults} faults"
    );
}

#[test]
fn values_are_sent_and_kept() {
    let mut random = Random(2);
    for _ in 0..RUNS {
        let bytes = random.replies();
        let mut from = parser();
        from.feed(&bytes).expect("memory");
        while let Ok(Some(view)) = from.next() {
            let kept = view.to_reply();
            let mut copied = Reply::new();
            copied.value(kept.view().expect("one value").value());
            let sent = copied.encode(Protocol::Resp3).expect("bytes");
            let (values, fault) = read(parser(), &[&sent]);
            assert_eq!(
                (values, fault),
                (vec![(format!("{:?}", view.tokens()), sent)], None)
            );
        }
    }
}

/// The same by `first`, value by value; and how many bytes are left.
fn read_first(mut parser: Parser, mut rest: &[u8]) -> (Vec<Shown>, Option<Error>, usize) {
    let mut values = Vec::new();
    loop {
        match parser.first(rest) {
            Ok(Some((view, taken))) => {
                values.push(shown(view));
                rest = &rest[taken..];
            }
            Ok(None) => return (values, None, rest.len()),
            Err(error) => return (values, Some(error), rest.len()),
        }
    }
}

/// The same from a reader, up to its error.
fn read_pieces(mut parser: Parser, mut pieces: Pieces) -> (Vec<Shown>, Option<io::Error>) {
    let mut values = Vec::new();
    loop {
        match parser.read_next(&mut pieces) {
            Ok(Some(view)) => values.push(shown(view)),
            Ok(None) => return (values, None),
            Err(error) => return (values, Some(error)),
        }
    }
}

#[test]
fn replies_value_by_value_and_of_a_reader() {
    let mut random = Random(4);
    for _ in 0..RUNS {
        let bytes = random.replies();
        let (values, fault) = read(parser(), &[&bytes]);
        let (firsts, end, left) = read_first(parser(), &bytes);
        assert_eq!((&firsts, end), (&values, fault));

        let pieces = Pieces {
            bytes: &bytes,
            random: Random(random.0),
        };
        let (of_reader, end) = read_pieces(parser(), pieces);
        let wanted = match fault {
            Some(fault) => Some((ErrorKind::InvalidData, fault.to_string())),
            None if left == 0 => None,
            None => {
                let within = "the reader ends within a value";
                Some((ErrorKind::UnexpectedEof, within.to_string()))
            }
        };
        assert_eq!(of_reader, values);
        assert_eq!(end.map(|error| (error.kind(), error.to_string())), wanted);
    }
}

/// The values directly inside a value.
fn inside(value: Value) -> Vec<Value> {
    let pairs = value.pairs().flat_map(|(key, value)| [key, value]);
    let elements = value.elements().chain(value.described());
    pairs.chain(elements).collect()
}

fn levels(value: Value) -> usize {
    1 + inside(value).into_iter().map(levels).max().unwrap_or(0)
}

#[test]
fn limits_are_kept() {
    let (mut random, mut count, mut refused) = (Random(5), 0, 0);
    for _ in 0..RUNS {
        let (bytes, limits) = (random.replies(), random.limits());
        let (all, all_end) = read(parser(), &[&bytes]);
        let within = || Parser::with_limits(limits).expect("limits");
        let (values, end) = read(within(), &[&bytes]);
        assert_eq!(values, all[..values.len()]);
        match end {
            Some(Error::Fault {
                fault: Fault::TooDeep | Fault::TooLong,
                ..
            }) => refused += 1,
            _ => assert_eq!((values.len(), end), (all.len(), all_end)),
        }
        let (mut first, mut rest) = (within(), &bytes[..]);
        while let Ok(Some((view, taken))) = first.first(rest) {
            assert!(taken <= limits.bytes && levels(view.value()) <= limits.depth);
            rest = &rest[taken..];
            count += 1;
        }
        let depth = [0, 1001 + random.below(9)][random.below(2)];
        let out_of_range = Parser::with_limits(Limits { depth, ..limits });
        assert_eq!(out_of_range.err(), Some(Error::OutOfRange));
    }
    assert!(
        count > RUNS && refused > RUNS / 20,
        "{count} values, {refused} faults"
    );
}

fn as_bulk_string(bytes: &[u8]) -> Vec<u8> {
    let head = format!("${}\r\n", bytes.len());
    [head.as_bytes(), bytes, b"\r\n"].concat()
}

fn as_array<'a>(values: impl Iterator<Item = Value<'a>>) -> Option<Vec<u8>> {
    let sent = values.map(as_resp2).collect::<Option<Vec<_>>>()?;
    Some([format!("*{}\r\n", sent.len()).into_bytes(), sent.concat()].concat())
}

/// A value as a client of RESP2 is sent it; none where an error has CR LF in it.
fn as_resp2(value: Value) -> Option<Vec<u8>> {
    Some(match value.kind() {
        Kind::Nil => b"$-1\r\n".to_vec(),
        Kind::Okay => b"+OK\r\n".to_vec(),
        Kind::Int => format!(":{}\r\n", value.int()?).into_bytes(),
        Kind::Boolean => format!(":{}\r\n", u8::from(value.boolean()?)).into_bytes(),
        Kind::SimpleString => format!("+{}\r\n", value.text()?).into_bytes(),
        Kind::ServerError if value.text()?.contains("\r\n") => return None,
        Kind::ServerError => format!("-{}\r\n", value.text()?).into_bytes(),
        Kind::BulkString | Kind::Double | Kind::BigNumber => as_bulk_string(value.bytes()?),
        Kind::VerbatimString => as_bulk_string(value.verbatim()?.1.as_bytes()),
        Kind::Attribute => return as_resp2(value.described()?),
        Kind::Map => return as_array(value.pairs().flat_map(|(key, value)| [key, value])),
        Kind::Array | Kind::Set | Kind::Push => return as_array(value.elements()),
    })
}

/// Each accessor answers for its kind alone.
fn check_accessors(value: Value) {
    let kind = value.kind();
    assert_eq!(value.int().is_some(), kind == Kind::Int);
    assert_eq!(value.boolean().is_some(), kind == Kind::Boolean);
    assert_eq!(
        value.bytes().is_some(),
        kind.has_text() || kind == Kind::Okay
    );
    assert_eq!(value.server_error().is_some(), kind == Kind::ServerError);
    assert_eq!(value.verbatim().is_some(), kind == Kind::VerbatimString);
    assert_eq!(value.push().is_some(), kind == Kind::Push);
    assert_eq!(value.described().is_some(), kind == Kind::Attribute);
}

/// Conversions give the integer or the text, but for an error, or refuse the value.
fn check_conversions(value: Value) {
    let text = match value.kind() {
        Kind::ServerError => None,
        Kind::VerbatimString => value.verbatim().map(|(_, text)| text),
        _ => value.text(),
    };
    let int = value.int().or(text.and_then(|text| text.parse().ok()));
    let double = text.and_then(|text| text.parse().ok());
    let other = Error::OtherType;
    assert_eq!(<&str>::try_from(value), text.ok_or(other));
    assert_eq!(
        Vec::<u8>::try_from(value).ok(),
        text.map(|text| text.as_bytes().to_vec())
    );
    assert_eq!(i64::try_from(value), int.ok_or(other));
    assert_eq!(
        u8::try_from(value),
        int.and_then(|int| int.try_into().ok()).ok_or(other)
    );
    let double = value.int().map(|int| int as f64).or(double);
    assert_eq!(f64::try_from(value), double.ok_or(other));
}

/// Checks a value and those inside it; how many they are.
fn check_values(value: Value) -> usize {
    check_accessors(value);
    check_conversions(value);
    1 + inside(value).into_iter().map(check_values).sum::<usize>()
}

#[test]
fn values_are_looked_at_and_sent_in_resp2() {
    let (mut random, mut refused) = (Random(6), 0);
    for _ in 0..RUNS {
        let bytes = random.replies();
        let mut from = parser();
        from.feed(&bytes).expect("memory");
        while let Ok(Some(view)) = from.next() {
            assert_eq!(check_values(view.value()), view.tokens().len());
            let wanted = as_resp2(view.value()).ok_or(Error::NoEncoding);
            assert_eq!(view.encode(Protocol::Resp2), wanted);
            refused += usize::from(wanted.is_err());
        }
    }
    assert!(refused > 0, "no value was refused");
}

#[test]
fn replies_that_are_none() {
    let (mut random, mut sent, mut refused) = (Random(7), 0, 0);
    for _ in 0..RUNS {
        let reply = random.reply();
        let is_value = reply.view().is_some();
        assert_eq!(format!("{reply:?}").starts_with("Reply["), !is_value);
        match reply.encode(Protocol::Resp3) {
            Ok(bytes) => {
                let mut parser = parser();
                let (view, taken) = parser.first(&bytes).expect("no fault").expect("a value");
                let whole = reply.view().expect("one value");
                assert_eq!(taken, bytes.len());
                assert_eq!(shown(view), shown(whole));
                sent += 1;
            }
            Err(error) => {
                assert_eq!(error, Error::NoEncoding);
                refused += 1;
            }
        }
        match reply.encode(Protocol::Resp2) {
            Ok(bytes) => {
                let whole = reply.view().expect("one value");
                assert_eq!(Some(bytes), as_resp2(whole.value()));
            }
            Err(error) => assert_eq!(error, Error::NoEncoding),
        }
    }
    assert!(
        sent > RUNS / 10 && refused > RUNS / 10,
        "{sent} sent, {refused} refused"
    );
}

/// The bytes of a command by the specification: an array of bulk strings.
fn as_specified(arguments: &[Vec<u8>]) -> Vec<u8> {
    let mut bytes = format!("*{}\r\n", arguments.len()).into_bytes();
    for argument in arguments {
        bytes.extend_from_slice(format!("${}\r\n", argument.len()).as_bytes());
        bytes.extend_from_slice(argument);
        bytes.extend_from_slice(b"\r\n");
    }
    bytes
}

#[test]
fn commands() {
    let mut random = Random(3);
    for _ in 0..RUNS {
        let commands = [random.arguments(), random.arguments()];
        let each = [as_specified(&commands[0]), as_specified(&commands[1])];
        assert_eq!(pack_pipeline(&commands, false), each.concat());
        if let [name, rest @ ..] = commands[0].as_slice() {
            assert_eq!(pack(&commands[0]), each[0]);
            assert_eq!(Command::new(name).args(rest).pack(), each[0]);
        }
    }
}
