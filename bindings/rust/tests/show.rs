//! Replies as the crate `redis` 1.7.0 prints its `Value`, whose `Debug` the wanted texts are read from,
//! without its feature `num-bigint`.

use resp_c::{Parser, Reply};

/// A value, a view and a kept reply of these bytes are printed so, on one line by `{:#?}`, too.
fn shown(bytes: &[u8], wanted: &str) {
    let mut parser = Parser::new().expect("memory");
    parser.feed(bytes).expect("fed");
    let view = parser.next().expect("no fault").expect("a whole value");
    let kept = view.to_reply();
    assert_eq!(format!("{:?}", view.value()), wanted);
    assert_eq!(format!("{view:?}"), wanted);
    assert_eq!(format!("{view:#?}"), wanted);
    assert_eq!(format!("{kept:?}"), wanted);
    assert_eq!(format!("{kept:#?}"), wanted);
}

#[test]
fn leaves() {
    shown(b"_\r\n", "nil");
    shown(b"+OK\r\n", "ok");
    shown(b":-5\r\n", "int(-5)");
    shown(b"#t\r\n", "boolean(true)");
    shown(b"+a\"b\r\n", r#"simple-string("a\"b")"#);
    shown(b"$4\r\na'\r\n\r\n", r#"bulk-string('"a'\r\n"')"#);
    shown(b"$2\r\n\xFF!\r\n", "binary-data([255, 33])");
    shown(b"(-120\r\n", "big-number([45, 49, 50, 48])");
}

/// The crate prints the number, as `double(10.0)` for the third of these.
#[test]
fn doubles() {
    shown(b",1.5\r\n", "double(1.5)");
    shown(b",-inf\r\n", "double(-inf)");
    shown(b",10\r\n", "double(10)");
}

#[test]
fn server_errors() {
    shown(
        b"-ERR unknown command\r\n",
        "Server error: `ERR: unknown command`",
    );
    shown(b"-CROSSSLOT\r\n", "Server error: `CROSSSLOT`");
    shown(b"!9\r\nMINE a\r\nb\r\n\r\n", "Server error: `MINE: a\r\nb`");
}

#[test]
fn verbatim_strings() {
    shown(b"=7\r\ntxt:a\"b\r\n", r#"verbatim-string(Text,"a\"b")"#);
    shown(b"=6\r\nmkd:*a\r\n", r#"verbatim-string(Markdown,"*a")"#);
    shown(b"=5\r\nabc:d\r\n", r#"verbatim-string(Unknown("abc"),"d")"#);
}

#[test]
fn aggregates() {
    shown(b"*0\r\n", "array([])");
    shown(b"*2\r\n:1\r\n~1\r\n_\r\n", "array([int(1), set([nil])])");
    shown(
        b"%2\r\n+a\r\n:1\r\n:2\r\n*1\r\n-A\r\n",
        r#"map([(simple-string("a"), int(1)), (int(2), array([Server error: `A`]))])"#,
    );
    shown(
        b"|1\r\n+ttl\r\n:9\r\n*1\r\n:1\r\n",
        "attribute(array([int(1)]))",
    );
}

#[test]
fn pushes() {
    shown(
        b">3\r\n+message\r\n$1\r\na\r\n:1\r\n",
        r#"push(Message, [bulk-string('"a"'), int(1)])"#,
    );
    shown(b">2\r\n+invalidate\r\n_\r\n", "push(Invalidate, [nil])");
    shown(b">1\r\n+new\r\n", r#"push(Other("new"), [])"#);
}

#[test]
fn tokens_that_are_no_reply() {
    let mut reply = Reply::new();
    assert_eq!(format!("{reply:?}"), "Reply[]");
    reply.map(1).bulk_string(b"\xFF");
    assert_eq!(format!("{reply:?}"), r#"Reply[Map(1), BulkString("\xff")]"#);
    reply.push(1).int(1);
    assert_eq!(
        format!("{reply:?}"),
        "map([(binary-data([255]), push([int(1)]))])"
    );
}

#[test]
fn tokens() {
    let bytes = b"|1\r\n+ttl\r\n:5\r\n*3\r\n_\r\n#f\r\n+OK\r\n";
    let mut parser = Parser::new().expect("memory");
    parser.feed(bytes).expect("fed");
    let view = parser.next().expect("no fault").expect("a whole value");
    assert_eq!(
        format!("{:?}", view.tokens()),
        r#"[Attribute(1), SimpleString("ttl"), Int(5), Array(3), Nil, Boolean(false), Okay]"#
    );
}

#[test]
fn deep_replies() {
    for (levels, wanted) in [
        (1000, "array([array(["),
        (1001, "Reply[Array(1), "),
        (100_000, "Reply["),
    ] {
        let mut reply = Reply::new();
        for _ in 1..levels {
            reply.array(1);
        }
        let text = format!("{:?}", reply.int(1));
        assert!(text.starts_with(wanted), "{levels} levels");
    }
}
