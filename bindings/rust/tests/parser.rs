//! The parser by hand: values of each type, faults, limits, states. What is wanted comes from the
//! RESP specification, and the places of faults from docs/GRAMMAR.md.

use resp_c::{Error, Fault, Kind, Limits, Parser, State, Value};

fn parser() -> Parser {
    Parser::new().expect("memory")
}

/// A parser that was fed these bytes.
fn fed(bytes: &[u8]) -> Parser {
    let mut parser = parser();
    parser.feed(bytes).expect("fed");
    parser
}

/// Looks at the first value of the bytes.
fn with_value<T>(bytes: &[u8], look: impl FnOnce(Value) -> T) -> T {
    let mut parser = fed(bytes);
    let view = parser.next().expect("no fault").expect("a whole value");
    look(view.value())
}

fn fault_of(bytes: &[u8]) -> Error {
    let mut parser = fed(bytes);
    loop {
        match parser.next() {
            Ok(view) => assert!(view.is_some(), "no fault in {bytes:?}"),
            Err(error) => return error,
        }
    }
}

fn ints(value: Value) -> Vec<i64> {
    value
        .elements()
        .map(|item| item.int().expect("an integer"))
        .collect()
}

#[test]
fn resp2_values() {
    with_value(b"+OK\r\n", |v| {
        assert_eq!((v.kind(), v.text()), (Kind::Okay, Some("OK")));
    });
    with_value(b"+PONG\r\n", |v| {
        assert_eq!((v.kind(), v.text()), (Kind::SimpleString, Some("PONG")));
    });
    with_value(b":-42\r\n", |v| {
        assert_eq!((v.kind(), v.int(), v.bytes()), (Kind::Int, Some(-42), None));
    });
    with_value(b"$5\r\nhello\r\n", |v| {
        assert_eq!((v.kind(), v.text()), (Kind::BulkString, Some("hello")));
    });
    with_value(b"$2\r\n\xFF\r\r\n", |v| {
        assert_eq!((v.bytes(), v.text()), (Some(b"\xFF\r".as_slice()), None));
    });
    with_value(b"$0\r\n\r\n", |v| {
        assert_eq!((v.kind(), v.text()), (Kind::BulkString, Some("")));
    });
    with_value(b"*3\r\n:1\r\n:2\r\n:3\r\n", |v| {
        assert_eq!((v.kind(), ints(v)), (Kind::Array, vec![1, 2, 3]));
    });
    with_value(b"*0\r\n", |v| {
        assert_eq!((v.kind(), v.elements().len()), (Kind::Array, 0));
    });
    for null in [b"$-1\r\n".as_slice(), b"*-1\r\n"] {
        with_value(null, |v| {
            assert_eq!((v.kind(), v.bytes(), v.int()), (Kind::Nil, None, None));
        });
    }
}

#[test]
fn the_limits_of_integers() {
    with_value(b":9223372036854775807\r\n", |v| {
        assert_eq!(v.int(), Some(i64::MAX))
    });
    with_value(b":-9223372036854775808\r\n", |v| {
        assert_eq!(v.int(), Some(i64::MIN))
    });
}

#[test]
fn server_errors() {
    with_value(b"-ERR unknown command\r\n", |v| {
        assert_eq!(v.kind(), Kind::ServerError);
        assert_eq!(v.text(), Some("ERR unknown command"));
        assert_eq!(v.server_error(), Some(("ERR", Some("unknown command"))));
    });
    with_value(b"!21\r\nSYNTAX invalid syntax\r\n", |v| {
        assert_eq!(v.server_error(), Some(("SYNTAX", Some("invalid syntax"))));
    });
    with_value(b"-CROSSSLOT\r\n", |v| {
        assert_eq!(v.server_error(), Some(("CROSSSLOT", None)));
    });
    with_value(b"+ERR x\r\n", |v| assert_eq!(v.server_error(), None));
}

#[test]
fn resp3_leaves() {
    with_value(b"_\r\n", |v| assert_eq!(v.kind(), Kind::Nil));
    with_value(b"#t\r\n", |v| {
        assert_eq!((v.boolean(), v.int()), (Some(true), None));
    });
    with_value(b"#f\r\n", |v| assert_eq!(v.boolean(), Some(false)));
    with_value(b",1.23\r\n", |v| {
        assert_eq!((v.kind(), v.text()), (Kind::Double, Some("1.23")));
    });
    with_value(b",-inf\r\n", |v| {
        assert_eq!(v.text().map(str::parse), Some(Ok(f64::NEG_INFINITY)));
    });
    with_value(b"(3492890328409238509324850943850943825024385\r\n", |v| {
        assert_eq!(v.kind(), Kind::BigNumber);
        assert_eq!(
            v.text(),
            Some("3492890328409238509324850943850943825024385")
        );
    });
    with_value(b"=15\r\ntxt:Some string\r\n", |v| {
        assert_eq!(v.kind(), Kind::VerbatimString);
        assert_eq!(v.verbatim(), Some(("txt", "Some string")));
    });
    with_value(b"$3\r\na:b\r\n", |v| assert_eq!(v.verbatim(), None));
}

#[test]
fn resp3_aggregates() {
    with_value(b"%2\r\n+first\r\n:1\r\n+second\r\n:2\r\n", |v| {
        let pairs: Vec<_> = v.pairs().map(|(k, v)| (k.text(), v.int())).collect();
        assert_eq!(v.kind(), Kind::Map);
        assert_eq!(pairs, [(Some("first"), Some(1)), (Some("second"), Some(2))]);
        assert_eq!(v.elements().len(), 0);
    });
    with_value(b"~2\r\n:1\r\n:2\r\n", |v| {
        assert_eq!((v.kind(), ints(v)), (Kind::Set, vec![1, 2]));
        assert_eq!(v.pairs().len(), 0);
    });
    with_value(b"|1\r\n+ttl\r\n:3600\r\n*2\r\n:1\r\n:2\r\n", |v| {
        let pairs: Vec<_> = v.pairs().map(|(k, v)| (k.text(), v.int())).collect();
        assert_eq!(v.kind(), Kind::Attribute);
        assert_eq!(pairs, [(Some("ttl"), Some(3600))]);
        assert_eq!(v.described().map(ints), Some(vec![1, 2]));
    });
    with_value(b">3\r\n$7\r\nmessage\r\n+channel\r\n+text\r\n", |v| {
        let (kind, data) = v.push().expect("a push");
        assert_eq!(kind, "message");
        let data: Vec<_> = data.map(|item| item.text()).collect();
        assert_eq!(data, [Some("channel"), Some("text")]);
    });
    with_value(b"*0\r\n", |v| {
        assert!(v.push().is_none());
        assert!(v.described().is_none());
    });
}

#[test]
fn a_walk_steps_past_whole_values() {
    let bytes =
        b"*4\r\n*2\r\n:1\r\n*0\r\n%1\r\n*1\r\n:2\r\n~0\r\n|1\r\n:3\r\n:4\r\n*1\r\n:5\r\n:6\r\n";
    with_value(bytes, |v| {
        let kinds: Vec<Kind> = v.elements().map(|item| item.kind()).collect();
        assert_eq!(kinds, [Kind::Array, Kind::Map, Kind::Attribute, Kind::Int]);
        let map = v.elements().nth(1).expect("the map");
        let (key, value) = map.pairs().next().expect("a pair");
        assert_eq!((ints(key), value.kind()), (vec![2], Kind::Set));
        let attribute = v.elements().nth(2).expect("the attribute");
        assert_eq!(attribute.described().map(ints), Some(vec![5]));
        assert_eq!(v.elements().last().and_then(|item| item.int()), Some(6));
    });
}

#[test]
fn the_tokens_are_in_preorder() {
    let mut parser = fed(b"*2\r\n*1\r\n:1\r\n$2\r\nab\r\n");
    let view = parser.next().expect("no fault").expect("a whole value");
    let tokens: Vec<_> = view
        .tokens()
        .map(|token| (token.kind(), token.size()))
        .collect();
    assert_eq!(
        tokens,
        [
            (Kind::Array, 2),
            (Kind::Array, 1),
            (Kind::Int, 0),
            (Kind::BulkString, 2)
        ]
    );
    assert_eq!(
        view.tokens().last().and_then(|token| token.bytes()),
        Some(b"ab".as_slice())
    );
}

#[test]
fn values_come_in_order() {
    let mut parser = fed(b":1\r\n+OK\r\n$-1\r\n:2");
    let mut kinds = Vec::new();
    while let Some(view) = parser.next().expect("no fault") {
        kinds.push(view.value().kind());
    }
    assert_eq!(kinds, [Kind::Int, Kind::Okay, Kind::Nil]);
    assert!(parser.in_progress());
}

const REPLY: &[u8] = b"*3\r\n$5\r\nhello\r\n%1\r\n+a\r\n,1.5\r\n=7\r\ntxt:abc\r\n";

fn assert_is_reply(parser: &mut Parser) {
    let view = parser.next().expect("no fault").expect("a whole value");
    let items: Vec<Value> = view.value().elements().collect();
    assert_eq!(items[0].text(), Some("hello"));
    let (key, value) = items[1].pairs().next().expect("a pair");
    assert_eq!((key.text(), value.text()), (Some("a"), Some("1.5")));
    assert_eq!(items[2].verbatim(), Some(("txt", "abc")));
    assert_eq!(parser.state(), State::BetweenValues);
}

#[test]
fn a_reply_byte_by_byte() {
    let mut parser = parser();
    let (last, front) = REPLY.split_last().expect("bytes");
    for byte in front {
        parser.feed(&[*byte]).expect("fed");
        assert!(parser.next().expect("no fault").is_none());
        assert!(parser.in_progress());
    }
    parser.feed(&[*last]).expect("fed");
    assert_is_reply(&mut parser);
}

#[test]
fn a_reply_cut_at_each_place() {
    let mut parser = parser();
    for cut in 1..REPLY.len() {
        let (first, second) = REPLY.split_at(cut);
        parser.feed(first).expect("fed");
        assert!(parser.next().expect("no fault").is_none());
        parser.feed(second).expect("fed");
        assert_is_reply(&mut parser);
    }
}

#[test]
fn no_bytes_change_nothing() {
    let mut parser = fed(b"");
    assert_eq!(parser.state(), State::BetweenValues);
    assert!(parser.next().expect("no fault").is_none());
    parser.feed(b"$2\r\na").expect("fed");
    parser.feed(b"").expect("fed");
    parser.feed(b"b\r\n").expect("fed");
    let view = parser.next().expect("no fault").expect("a whole value");
    assert_eq!(view.value().text(), Some("ab"));
}

#[test]
fn each_fault() {
    let deep = "*1\r\n".repeat(100) + ":";
    let cases: [(&[u8], Fault, usize); 10] = [
        (deep.as_bytes(), Fault::TooDeep, 401),
        (b"@", Fault::UnknownType, 1),
        (b"+\xFF\r\n", Fault::LineNotUtf8, 4),
        (b":1\r\n:abc\r\n", Fault::NotInteger, 6),
        (b"%-1\r\n", Fault::NegativeLength, 5),
        (b"$1\r\nabc", Fault::BodyEnd, 6),
        (b"#x\r\n", Fault::NotBoolean, 4),
        (b",1e\r\n", Fault::NotDouble, 5),
        (b"=3\r\ntxt\r\n", Fault::NoVerbatimFormat, 9),
        (b">1\r\n:1\r\n", Fault::BadPushKind, 8),
    ];
    for (bytes, fault, offset) in cases {
        assert_eq!(fault_of(bytes), Error::Fault { fault, offset });
    }
}

#[test]
fn whole_values_that_were_not_taken_are_in_progress() {
    let mut parser = fed(b":1\r\n");
    assert!(parser.in_progress());
    assert!(parser.next().expect("no fault").is_some());
    assert_eq!(parser.state(), State::BetweenValues);
}

#[test]
fn a_fault_is_the_end() {
    let mut parser = fed(b":1\r\n@");
    assert!(parser.next().expect("no fault").is_some());
    assert!(parser.next().is_err());
    assert_eq!(parser.state(), State::Failed);
    assert!(!parser.in_progress());
    assert_eq!(parser.feed(b":1\r\n"), Err(Error::Failed));
    assert_eq!(parser.next().map(|view| view.is_some()), Err(Error::Failed));
}

#[test]
fn limits() {
    let within = |depth, bytes| Parser::with_limits(Limits { depth, bytes });
    for (depth, bytes) in [(0, 1), (1001, 1), (1, 0), (1, 1 << 63), (0, 0)] {
        assert!(matches!(within(depth, bytes), Err(Error::OutOfRange)));
    }
    assert!(within(1000, isize::MAX as usize).is_ok());

    let mut parser = within(1, 6).expect("limits");
    parser.feed(b":1234\r\n").expect("fed");
    let error = parser.next().expect_err("7 bytes");
    assert_eq!(
        error,
        Error::Fault {
            fault: Fault::TooLong,
            offset: 7
        }
    );

    let mut parser = within(2, 100).expect("limits");
    parser.feed(b"*1\r\n*1\r\n:").expect("fed");
    let error = parser.next().expect_err("3 levels");
    assert_eq!(
        error,
        Error::Fault {
            fault: Fault::TooDeep,
            offset: 9
        }
    );
}

#[test]
fn a_value_of_a_thousand_levels() {
    let mut parser = Parser::with_limits(Limits {
        depth: 1000,
        ..Limits::default()
    })
    .expect("limits");
    parser.feed("*1\r\n".repeat(999).as_bytes()).expect("fed");
    parser.feed(b":7\r\n").expect("fed");
    let view = parser.next().expect("no fault").expect("a whole value");
    let mut value = view.value();
    let mut levels = 1;
    while let Some(inner) = value.elements().next() {
        value = inner;
        levels += 1;
    }
    assert_eq!((levels, value.int()), (1000, Some(7)));
}

#[test]
fn the_first_value_of_bytes() {
    let mut parser = fed(b"$3\r\na");
    let (view, taken) = parser
        .first(b":1\r\n:2\r\n")
        .expect("no fault")
        .expect("a value");
    assert_eq!((view.value().int(), taken), (Some(1), 4));
    assert!(parser.first(b"*1\r\n").expect("no fault").is_none());
    assert!(parser.first(b"").expect("no fault").is_none());
    let error = parser.first(b":x\r\n:1\r\n").expect_err("a fault");
    assert_eq!(
        error,
        Error::Fault {
            fault: Fault::NotInteger,
            offset: 4
        }
    );

    assert!(parser.in_progress());
    parser.feed(b"bc\r\n").expect("fed");
    let view = parser.next().expect("no fault").expect("a whole value");
    assert_eq!(view.value().text(), Some("abc"));
}

#[test]
fn the_first_value_after_a_failure() {
    let mut parser = fed(b"@");
    assert!(parser.next().is_err());
    let (view, taken) = parser
        .first(b"+PONG\r\n")
        .expect("no fault")
        .expect("a value");
    assert_eq!((view.value().text(), taken), (Some("PONG"), 7));
    assert_eq!(parser.state(), State::Failed);
}

#[test]
fn a_parser_may_move() {
    let mut parsers: Vec<Parser> = (0..10).map(|_| fed(b"+PO")).collect();
    parsers.reverse();
    for mut parser in parsers {
        parser.feed(b"NG\r\n").expect("fed");
        let view = parser.next().expect("no fault").expect("a whole value");
        assert_eq!(view.value().text(), Some("PONG"));
    }
}

#[test]
fn another_thread_may_go_on() {
    let mut parser = fed(b":1\r\n$2\r\na");
    let parser = std::thread::spawn(move || {
        assert_eq!(parser.next().unwrap().unwrap().value().int(), Some(1));
        parser.feed(b"b\r\n").unwrap();
        parser
    });
    let mut parser = parser.join().unwrap();
    assert_eq!(parser.next().unwrap().unwrap().value().text(), Some("ab"));
}

#[test]
fn a_long_body() {
    let body = vec![b'x'; 1 << 20];
    let mut parser = fed(b"$1048576\r\n");
    for piece in body.chunks(4096) {
        parser.feed(piece).expect("fed");
    }
    parser.feed(b"\r\n").expect("fed");
    let view = parser.next().expect("no fault").expect("a whole value");
    assert_eq!(view.value().bytes(), Some(body.as_slice()));
}

#[test]
fn errors_are_shown() {
    let fault = Error::Fault {
        fault: Fault::BodyEnd,
        offset: 6,
    };
    assert_eq!(fault.to_string(), "BodyEnd at byte 6");
    assert_eq!(Error::Failed.to_string(), "the parser has failed before");
    assert_eq!(Error::NoEncoding.to_string(), "the reply has no encoding");
    assert_eq!(format!("{:?}", parser()), "Parser { state: BetweenValues }");
}
