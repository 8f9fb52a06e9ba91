//! Encoded replies. The wanted bytes are examples of the RESP specification, and for what RESP2 lacks
//! what Redis answers to a client of RESP2.

use resp_c::{Error, Limits, Parser, Protocol, Reply, View};

const BOTH: [Protocol; 2] = [Protocol::Resp2, Protocol::Resp3];

/// The reply that a function makes.
fn made(make: impl FnOnce(&mut Reply) -> &mut Reply) -> Reply {
    let mut reply = Reply::new();
    make(&mut reply);
    reply
}

/// Looks at the value that the bytes spell.
fn with_view<T>(bytes: &[u8], look: impl FnOnce(View) -> T) -> T {
    let limits = Limits {
        depth: 1000,
        ..Limits::default()
    };
    let mut parser = Parser::with_limits(limits).expect("memory");
    let (view, taken) = parser.first(bytes).expect("no fault").expect("whole");
    assert_eq!(taken, bytes.len());
    look(view)
}

/// The reply is sent as these bytes, in RESP2 and in RESP3; and so is what a parser reads of the
/// second.
fn sent(reply: &Reply, resp2: &[u8], resp3: &[u8]) {
    for (protocol, wanted) in [(Protocol::Resp2, resp2), (Protocol::Resp3, resp3)] {
        let bytes = reply.encode(protocol).expect("an encoding");
        assert_eq!(
            bytes.escape_ascii().to_string(),
            wanted.escape_ascii().to_string()
        );
        let again = with_view(resp3, |view| view.encode(protocol).expect("an encoding"));
        assert_eq!(
            again.escape_ascii().to_string(),
            wanted.escape_ascii().to_string()
        );
    }
}

fn sent_alike(reply: &Reply, bytes: &[u8]) {
    sent(reply, bytes, bytes);
}

fn refused(reply: &Reply) {
    for protocol in BOTH {
        assert_eq!(reply.encode(protocol), Err(Error::NoEncoding), "{reply:?}");
    }
}

#[test]
fn leaves_of_both_versions() {
    sent_alike(&made(|it| it.okay()), b"+OK\r\n");
    sent_alike(&made(|it| it.simple_string("OK")), b"+OK\r\n");
    sent_alike(&made(|it| it.simple_string("PONG")), b"+PONG\r\n");
    sent_alike(&made(|it| it.simple_string("")), b"+\r\n");
    sent_alike(&made(|it| it.int(1000)), b":1000\r\n");
    sent_alike(&made(|it| it.int(i64::MIN)), b":-9223372036854775808\r\n");
    sent_alike(&made(|it| it.int(i64::MAX)), b":9223372036854775807\r\n");
    sent_alike(&made(|it| it.bulk_string("hello")), b"$5\r\nhello\r\n");
    sent_alike(&made(|it| it.bulk_string("")), b"$0\r\n\r\n");
    sent_alike(&made(|it| it.bulk_string("OK")), b"$2\r\nOK\r\n");
    sent_alike(
        &made(|it| it.bulk_string(b"\xFF\r\n")),
        b"$3\r\n\xFF\r\n\r\n",
    );
    let text = "WRONGTYPE Operation against a key holding the wrong kind of value";
    sent_alike(
        &made(|it| it.server_error(text)),
        format!("-{text}\r\n").as_bytes(),
    );
    sent_alike(&made(|it| it.server_error("CROSSSLOT")), b"-CROSSSLOT\r\n");
}

#[test]
fn leaves_that_resp2_lacks() {
    sent(&made(|it| it.nil()), b"$-1\r\n", b"_\r\n");
    sent(&made(|it| it.boolean(true)), b":1\r\n", b"#t\r\n");
    sent(&made(|it| it.boolean(false)), b":0\r\n", b"#f\r\n");
    let digits = "3492890328409238509324850943850943825024385";
    sent(
        &made(|it| it.big_number(digits)),
        format!("$43\r\n{digits}\r\n").as_bytes(),
        format!("({digits}\r\n").as_bytes(),
    );
    sent(
        &made(|it| it.verbatim_string("txt", "Some string")),
        b"$11\r\nSome string\r\n",
        b"=15\r\ntxt:Some string\r\n",
    );
    sent(
        &made(|it| it.verbatim_string("mkd", "a: \r\n")),
        b"$5\r\na: \r\n\r\n",
        b"=9\r\nmkd:a: \r\n\r\n",
    );
}

#[test]
fn doubles() {
    let texts = [
        (1.23, "1.23"),
        (10.0, "10"),
        (-0.0, "-0"),
        (f64::INFINITY, "inf"),
        (f64::NEG_INFINITY, "-inf"),
        (f64::NAN, "nan"),
    ];
    for (number, text) in texts {
        let resp2 = format!("${}\r\n{text}\r\n", text.len());
        let resp3 = format!(",{text}\r\n");
        sent(
            &made(|it| it.double(number)),
            resp2.as_bytes(),
            resp3.as_bytes(),
        );
    }
    for number in [f64::MAX, f64::MIN_POSITIVE, 5e-324, 0.1 + 0.2, 1e21, -1e-7] {
        let bytes = made(|it| it.double(number)).encode(Protocol::Resp3);
        let read = with_view(&bytes.expect("an encoding"), |view| {
            view.value().text().and_then(|text| text.parse().ok())
        });
        assert_eq!(read, Some(number));
    }
}

#[test]
fn arrays() {
    sent_alike(&made(|it| it.array(0)), b"*0\r\n");
    sent_alike(
        &made(|it| it.array(2).bulk_string("hello").bulk_string("world")),
        b"*2\r\n$5\r\nhello\r\n$5\r\nworld\r\n",
    );
    let nested = made(|it| {
        it.array(2).array(3).int(1).int(2).int(3);
        it.array(2).simple_string("Hello").server_error("World")
    });
    sent_alike(
        &nested,
        b"*2\r\n*3\r\n:1\r\n:2\r\n:3\r\n*2\r\n+Hello\r\n-World\r\n",
    );
    let with_null = made(|it| it.array(3).bulk_string("hello").nil().bulk_string("world"));
    sent(
        &with_null,
        b"*3\r\n$5\r\nhello\r\n$-1\r\n$5\r\nworld\r\n",
        b"*3\r\n$5\r\nhello\r\n_\r\n$5\r\nworld\r\n",
    );
}

#[test]
fn maps_and_sets() {
    let map = made(|it| {
        it.map(2).simple_string("first").int(1);
        it.simple_string("second").int(2)
    });
    sent(
        &map,
        b"*4\r\n+first\r\n:1\r\n+second\r\n:2\r\n",
        b"%2\r\n+first\r\n:1\r\n+second\r\n:2\r\n",
    );
    sent(&made(|it| it.map(0)), b"*0\r\n", b"%0\r\n");
    sent(&made(|it| it.set(0)), b"*0\r\n", b"~0\r\n");
    sent(
        &made(|it| it.set(2).bulk_string("a").boolean(true)),
        b"*2\r\n$1\r\na\r\n:1\r\n",
        b"~2\r\n$1\r\na\r\n#t\r\n",
    );
}

#[test]
fn attributes() {
    let popular = made(|it| {
        it.attribute(1).simple_string("key-popularity");
        it.map(2).bulk_string("a").double(0.1923);
        it.bulk_string("b").double(0.0012);
        it.array(2).int(2039123).int(9543892)
    });
    let resp3 = b"|1\r\n+key-popularity\r\n%2\r\n$1\r\na\r\n,0.1923\r\n$1\r\nb\r\n,0.0012\r\n\
        *2\r\n:2039123\r\n:9543892\r\n";
    sent(&popular, b"*2\r\n:2039123\r\n:9543892\r\n", resp3);
    let inside = made(|it| {
        it.array(3).int(1).int(2);
        it.attribute(1).simple_string("ttl").int(3600).int(3)
    });
    sent(
        &inside,
        b"*3\r\n:1\r\n:2\r\n:3\r\n",
        b"*3\r\n:1\r\n:2\r\n|1\r\n+ttl\r\n:3600\r\n:3\r\n",
    );
}

#[test]
fn pushes() {
    let message = made(|it| {
        it.push(3).bulk_string("message");
        it.simple_string("somechannel")
            .simple_string("this is the message")
    });
    sent(
        &message,
        b"*3\r\n$7\r\nmessage\r\n+somechannel\r\n+this is the message\r\n",
        b">3\r\n$7\r\nmessage\r\n+somechannel\r\n+this is the message\r\n",
    );
}

#[test]
fn what_was_read_has_one_spelling() {
    let spellings: [(&[u8], &[u8]); 5] = [
        (b"$-1\r\n", b"_\r\n"),
        (b"*-1\r\n", b"_\r\n"),
        (b":+007\r\n", b":7\r\n"),
        (
            b"!21\r\nSYNTAX invalid syntax\r\n",
            b"-SYNTAX invalid syntax\r\n",
        ),
        (b">2\r\n+pubsub\r\n+a\r\n", b">2\r\n$6\r\npubsub\r\n+a\r\n"),
    ];
    for (bytes, wanted) in spellings {
        let again = with_view(bytes, |view| view.encode(Protocol::Resp3));
        assert_eq!(again, Ok(wanted.to_vec()));
    }
}

#[test]
fn not_one_value() {
    refused(&Reply::new());
    refused(&made(|it| it.int(1).int(2)));
    refused(&made(|it| it.array(0).nil()));
    refused(&made(|it| it.array(2).int(1)));
    refused(&made(|it| it.map(1).bulk_string("key")));
    refused(&made(|it| it.attribute(1).bulk_string("key").int(1)));
    for head in [
        Reply::array,
        Reply::map,
        Reply::set,
        Reply::push,
        Reply::attribute,
    ] {
        let mut reply = Reply::new();
        refused(head(&mut reply, usize::MAX));
    }
}

#[test]
fn values_that_no_bytes_spell() {
    for text in ["a\r\n", "\r\n", "a\r\nb"] {
        refused(&made(|it| it.simple_string(text)));
        refused(&made(|it| it.array(1).simple_string(text)));
    }
    refused(&made(|it| it.push(0)));
    refused(&made(|it| it.push(1).int(1)));
    refused(&made(|it| it.push(1).simple_string("message")));
    refused(&made(|it| it.push(1).bulk_string(b"\xFF")));
    for line in ["a\rb", "a\nb", "a\n\r"] {
        sent_alike(
            &made(|it| it.simple_string(line)),
            format!("+{line}\r\n").as_bytes(),
        );
    }
}

#[test]
fn what_one_version_has_no_bytes_for() {
    let error = made(|it| it.server_error("ERR a\r\nb"));
    let bytes = b"!8\r\nERR a\r\nb\r\n";
    assert_eq!(error.encode(Protocol::Resp3), Ok(bytes.to_vec()));
    assert_eq!(error.encode(Protocol::Resp2), Err(Error::NoEncoding));
    let read = with_view(bytes, |view| view.encode(Protocol::Resp2));
    assert_eq!(read, Err(Error::NoEncoding));

    let number = made(|it| it.big_number("1\r\n2"));
    assert_eq!(number.encode(Protocol::Resp3), Err(Error::NoEncoding));
    assert_eq!(
        number.encode(Protocol::Resp2),
        Ok(b"$4\r\n1\r\n2\r\n".to_vec())
    );
}

#[test]
fn a_thousand_levels() {
    let nested = |arrays: usize| {
        let mut reply = Reply::new();
        for _ in 0..arrays {
            reply.array(1);
        }
        reply.int(7);
        reply
    };
    sent_alike(
        &nested(999),
        &[b"*1\r\n".repeat(999), b":7\r\n".to_vec()].concat(),
    );
    refused(&nested(1000));
}

#[test]
fn parts_of_what_was_read() {
    let bytes = b"*3\r\n$3\r\nabc\r\n%1\r\n+key\r\n=7\r\ntxt:xyz\r\n:5\r\n";
    let part = |at: usize| {
        with_view(bytes, |view| {
            let element = view.value().elements().nth(at).expect("an element");
            made(|it| it.array(2).bulk_string("before").value(element))
        })
    };
    sent_alike(&part(0), b"*2\r\n$6\r\nbefore\r\n$3\r\nabc\r\n");
    sent(
        &part(1),
        b"*2\r\n$6\r\nbefore\r\n*2\r\n+key\r\n$3\r\nxyz\r\n",
        b"*2\r\n$6\r\nbefore\r\n%1\r\n+key\r\n=7\r\ntxt:xyz\r\n",
    );
    sent_alike(&part(2), b"*2\r\n$6\r\nbefore\r\n:5\r\n");
}

#[test]
fn a_refused_reply_goes_on() {
    let mut reply = made(|it| it.array(2).int(1));
    refused(&reply);
    let copy = reply.clone();
    reply.int(2);
    sent_alike(&reply, b"*2\r\n:1\r\n:2\r\n");
    refused(&copy);
}
