//! Packed commands, as "Sending commands to a Redis server" of the RESP specification has them.

use resp_c::{pack, pack_pipeline, version, Arg, Parser};

#[test]
fn a_command_is_an_array_of_bulk_strings() {
    assert_eq!(
        pack(&["LLEN", "mylist"]),
        b"*2\r\n$4\r\nLLEN\r\n$6\r\nmylist\r\n"
    );
    assert_eq!(pack(&["PING"]), b"*1\r\n$4\r\nPING\r\n");
    assert_eq!(pack(&["k", ""]), b"*2\r\n$1\r\nk\r\n$0\r\n\r\n");
    assert_eq!(pack(&[""]), b"*1\r\n$0\r\n\r\n");
}

#[test]
fn arguments_are_any_bytes() {
    let bytes = pack(&[b"SET".as_slice(), b"\r\n", b"\xFF\x00"]);
    assert_eq!(
        bytes,
        b"*3\r\n$3\r\nSET\r\n$2\r\n\r\n\r\n$2\r\n\xFF\x00\r\n"
    );
    assert_eq!(pack(&[vec![b'x'; 10]]), b"*1\r\n$10\r\nxxxxxxxxxx\r\n");
}

#[test]
fn no_arguments_give_no_bytes() {
    assert_eq!(pack::<&str>(&[]), b"");
}

#[test]
fn arguments_of_several_types() {
    let args: [Arg; 5] = [
        "X".into(),
        vec![0xFF].into(),
        u64::MAX.into(),
        (-0.5).into(),
        String::new().into(),
    ];
    let wanted =
        b"*5\r\n$1\r\nX\r\n$1\r\n\xFF\r\n$20\r\n18446744073709551615\r\n$4\r\n-0.5\r\n$0\r\n\r\n";
    assert_eq!(pack(&args), wanted);
    assert_eq!(pack_pipeline(&[&args], false), wanted);
    assert_eq!(format!("{:?}", args[1]), r"Arg(\xff)");
}

#[test]
fn pipelines() {
    let commands = [vec!["A"], vec!["SET", "k", "1"]];
    let packed = b"*1\r\n$1\r\nA\r\n*3\r\n$3\r\nSET\r\n$1\r\nk\r\n$1\r\n1\r\n";
    assert_eq!(pack_pipeline(&commands, false), packed);
    let atomic = [
        b"*1\r\n$5\r\nMULTI\r\n".as_slice(),
        packed,
        b"*1\r\n$4\r\nEXEC\r\n",
    ]
    .concat();
    assert_eq!(pack_pipeline(&commands, true), atomic);
    assert_eq!(pack_pipeline::<Vec<&str>, &str>(&[], false), b"");
}

#[test]
fn many_long_arguments() {
    let args: Vec<Vec<u8>> = (0..1000).map(|n| vec![b'x'; n]).collect();
    let bytes = pack(&args);
    let mut parser = Parser::new().expect("memory");
    let (view, taken) = parser
        .first(&bytes)
        .expect("no fault")
        .expect("a whole value");
    let read: Vec<_> = view
        .value()
        .elements()
        .filter_map(|item| item.bytes())
        .collect();
    assert_eq!(read, args);
    assert_eq!(taken, bytes.len());
}

#[test]
fn the_version() {
    let (major, minor, patch) = version();
    assert_eq!(
        format!("{major}.{minor}.{patch}"),
        env!("CARGO_PKG_VERSION")
    );
}
