//! The rows of `crates/resp_vectors` that speak of what this crate has: `read`, `cut`, `limits` and
//! `encode` of replies, `pack` and `pipeline` of commands. ROWS.md there says how a row is written.
//! The rows with cursor arguments (`@N`) are left out, since the C interface has none, and so are
//! those of other tasks. Each reply of a row is sent and read again, too.

use resp_c::{pack, pack_pipeline, Error, Kind, Limits, Parser, Protocol, Token, Value, View};
use std::collections::BTreeMap;
use std::fs;
use std::path::{Path, PathBuf};

/// The most bytes that are cut at each place.
const CUT: usize = 200;

struct Row {
    task: String,
    words: Vec<Vec<u8>>,
    answer: String,
    place: String,
}

/// The rows of all files.
fn rows() -> Vec<Row> {
    let folder = Path::new(env!("CARGO_MANIFEST_DIR")).join("../../crates/resp_vectors/data");
    let entries = fs::read_dir(&folder).expect("the folder of the rows");
    let mut files: Vec<PathBuf> = entries
        .map(|entry| entry.expect("an entry").path())
        .collect();
    files.sort();
    let rows: Vec<Row> = files.iter().flat_map(|file| rows_of(file)).collect();
    assert!(!rows.is_empty());
    rows
}

fn rows_of(file: &Path) -> Vec<Row> {
    let text = fs::read_to_string(file).expect("a file of rows");
    let name = file
        .file_name()
        .expect("a name")
        .to_string_lossy()
        .into_owned();
    let lines = text.lines().enumerate();
    lines
        .filter(|(_, line)| !line.is_empty() && !line.starts_with('#'))
        .map(|(n, line)| row(line, format!("{name}:{}", n + 1)))
        .collect()
}

fn row(line: &str, place: String) -> Row {
    let (question, answer) = line.split_once(" =>").expect("an answer");
    let (task, words) = question.split_once(' ').unwrap_or((question, ""));
    Row {
        task: task.to_string(),
        words: words_of(words.as_bytes()),
        answer: answer.strip_prefix(' ').unwrap_or(answer).to_string(),
        place,
    }
}

/// The words of a row, with their escapes undone.
fn words_of(mut line: &[u8]) -> Vec<Vec<u8>> {
    let mut words = Vec::new();
    while !line.is_empty() {
        let mut word = Vec::new();
        while let Some(byte) = line.first().filter(|byte| **byte != b' ') {
            if *byte == b'"' {
                word.extend(quoted(&mut line));
                continue;
            }
            let bare = bare(&mut line);
            match bare
                .strip_suffix(b"*")
                .filter(|_| line.first() == Some(&b'"'))
            {
                Some(times) => word.extend(quoted(&mut line).repeat(number(times) as usize)),
                None => word.extend_from_slice(bare),
            }
        }
        words.push(word);
        line = line.get(1..).unwrap_or(&[]);
    }
    words
}

/// Takes the bytes up to a space or a quote.
fn bare<'a>(line: &mut &'a [u8]) -> &'a [u8] {
    let end = line.iter().position(|byte| matches!(byte, b' ' | b'"'));
    let (bare, rest) = line.split_at(end.unwrap_or(line.len()));
    *line = rest;
    bare
}

/// Takes bytes in quotes.
fn quoted(line: &mut &[u8]) -> Vec<u8> {
    let mut bytes = line[1..].iter();
    let mut read = Vec::new();
    let mut next = || *bytes.next().expect("a quote at the end");
    loop {
        match next() {
            b'"' => break,
            b'\\' => read.push(match next() {
                b'r' => b'\r',
                b'n' => b'\n',
                b't' => b'\t',
                b'x' => 16 * digit(next()) + digit(next()),
                other => other,
            }),
            other => read.push(other),
        }
    }
    *line = bytes.as_slice();
    read
}

fn digit(byte: u8) -> u8 {
    char::from(byte).to_digit(16).expect("a hexadecimal digit") as u8
}

fn number(digits: &[u8]) -> u64 {
    std::str::from_utf8(digits)
        .expect("digits")
        .parse()
        .expect("a number")
}

/// A value as the rows show it, which is how the Rust crate `redis` prints it.
fn shown(value: Value) -> String {
    format!("{value:?}")
}

/// A text with its ASCII control characters as escapes.
fn escaped(text: &str) -> String {
    let escape = |letter: char| match letter {
        '\r' => "\\r".into(),
        '\n' => "\\n".into(),
        '\t' => "\\t".into(),
        _ if letter.is_ascii_control() => format!("\\x{:02X}", letter as u32),
        _ => letter.to_string(),
    };
    text.chars().map(escape).collect()
}

/// What a parser with these limits makes of the bytes, fed in these pieces.
fn read<'a>(limits: Limits, pieces: impl IntoIterator<Item = &'a [u8]>) -> String {
    let mut parser = Parser::with_limits(limits).expect("limits");
    let mut parts = Vec::new();
    for piece in pieces {
        parser.feed(piece).expect("memory");
        match take_all(&mut parser, &mut parts) {
            Ok(()) => {}
            Err(Error::Fault { fault, offset }) => {
                parts.push(format!("{fault}@{offset}"));
                return escaped(&parts.join(" "));
            }
            Err(error) => panic!("{error}"),
        }
    }
    if parser.in_progress() {
        parts.push("..".into());
    }
    escaped(&parts.join(" "))
}

fn take_all(parser: &mut Parser, parts: &mut Vec<String>) -> Result<(), Error> {
    while let Some(view) = parser.next()? {
        parts.push(shown(view.value()));
    }
    Ok(())
}

/// The same by `first`, value after value, each of which is sent and read again.
fn read_by_first(limits: Limits, mut bytes: &[u8]) -> String {
    let mut parser = Parser::with_limits(limits).expect("limits");
    let mut parts = Vec::new();
    while !bytes.is_empty() {
        match parser.first(bytes) {
            Ok(Some((view, taken))) => {
                parts.push(shown(view.value()));
                check_sent(view);
                bytes = &bytes[taken..];
            }
            Ok(None) => {
                parts.push("..".into());
                break;
            }
            Err(Error::Fault { fault, offset }) => {
                parts.push(format!("{fault}@{offset}"));
                break;
            }
            Err(error) => panic!("{error}"),
        }
    }
    escaped(&parts.join(" "))
}

/// What is sent in RESP3 is read as the same reply. What is sent in RESP2 is of that version, and is
/// sent in it as it is.
fn check_sent(view: View) {
    let resp3 = view.encode(Protocol::Resp3).expect("an encoding");
    with_view(&resp3, |again| {
        assert_eq!(tokens_shown(again), tokens_shown(view));
    });
    match view.encode(Protocol::Resp2) {
        Ok(resp2) => with_view(&resp2, |form| {
            assert!(form.tokens().all(is_of_resp2), "{form:?}");
            assert_eq!(form.encode(Protocol::Resp2).as_ref(), Ok(&resp2));
        }),
        Err(error) => {
            assert_eq!(error, Error::NoEncoding);
            assert!(view.tokens().any(is_bulk_error), "{view:?}");
        }
    }
}

/// Looks at the value that the bytes spell.
fn with_view(bytes: &[u8], look: impl FnOnce(View)) {
    let limits = Limits {
        depth: 1000,
        ..Limits::default()
    };
    let mut parser = Parser::with_limits(limits).expect("limits");
    let (view, taken) = parser.first(bytes).expect("no fault").expect("whole");
    assert_eq!(taken, bytes.len());
    look(view);
}

fn tokens_shown(view: View) -> String {
    format!("{:?}", view.tokens())
}

fn is_of_resp2(token: Token) -> bool {
    matches!(
        token.kind(),
        Kind::Nil
            | Kind::Okay
            | Kind::Int
            | Kind::SimpleString
            | Kind::BulkString
            | Kind::Array
            | Kind::ServerError
    )
}

/// Whether it is an error that no line can hold.
fn is_bulk_error(token: Token) -> bool {
    let text = token.bytes().unwrap_or_default();
    token.kind() == Kind::ServerError && text.windows(2).any(|two| two == b"\r\n")
}

/// Reads the bytes whole, one by one, value by value and cut at each place.
fn check_reading(row: &Row, limits: Limits, bytes: &[u8]) {
    let wanted = &row.answer;
    assert_eq!(&read(limits, [bytes]), wanted, "{}", row.place);
    assert_eq!(
        &read(limits, bytes.chunks(1)),
        wanted,
        "{} by bytes",
        row.place
    );
    assert_eq!(
        &read_by_first(limits, bytes),
        wanted,
        "{} by first",
        row.place
    );
    if bytes.len() > CUT {
        return;
    }
    for cut in 1..bytes.len() {
        let (first, second) = bytes.split_at(cut);
        assert_eq!(
            &read(limits, [first, second]),
            wanted,
            "{} cut at {cut}",
            row.place
        );
    }
}

fn check_limits(row: &Row) {
    let limits = Limits {
        depth: number(&row.words[0]) as usize,
        bytes: number(&row.words[1]) as usize,
    };
    if row.answer.starts_with("refused") {
        let refused = Parser::with_limits(limits);
        assert!(matches!(refused, Err(Error::OutOfRange)), "{}", row.place);
        return;
    }
    check_reading(row, limits, &row.words[2]);
}

fn check_encode(row: &Row) {
    let mut parser = Parser::new().expect("limits");
    match parser.first(&row.words[0]) {
        Ok(Some((view, _))) => check_encoded(row, view),
        Err(Error::Fault { fault, .. }) => {
            let refused = format!("refused: parse error ({fault})");
            assert_eq!(row.answer, refused, "{}", row.place);
        }
        other => panic!("{}: {other:?}", row.place),
    }
}

/// The reply is sent as the row says, in RESP3 and in RESP2.
fn check_encoded(row: &Row, view: View) {
    check_sent(view);
    let sent = [Protocol::Resp3, Protocol::Resp2].map(|protocol| view.encode(protocol));
    if row.answer.starts_with("refused: client error") {
        assert!(sent.contains(&Err(Error::NoEncoding)), "{}", row.place);
        return;
    }
    let wanted = words_of(row.answer.as_bytes());
    let sent = sent.map(|bytes| bytes.expect("an encoding"));
    assert_eq!(sent.as_slice(), wanted, "{}", row.place);
}

/// Whether a word is a cursor argument.
fn is_cursor(word: &[u8]) -> bool {
    word.first() == Some(&b'@')
}

fn check_pack(row: &Row) {
    assert_eq!(
        pack(&row.words),
        quoted(&mut row.answer.as_bytes()),
        "{}",
        row.place
    );
}

fn check_pipeline(row: &Row) {
    let atomic = row.words.first().is_some_and(|word| word == b"--atomic");
    let words = &row.words[usize::from(atomic)..];
    let mut commands: Vec<&[Vec<u8>]> = Vec::new();
    if !words.is_empty() {
        commands.extend(words.split(|word| word == b",").map(without_mark));
    }
    let packed = pack_pipeline(&commands, atomic);
    assert_eq!(packed, quoted(&mut row.answer.as_bytes()), "{}", row.place);
}

/// A command without the mark that its answer is ignored.
fn without_mark(words: &[Vec<u8>]) -> &[Vec<u8>] {
    match words.split_last() {
        Some((last, front)) if last == b"!" => front,
        _ => words,
    }
}

/// Whether the row speaks of what this crate has; if so it is checked.
fn check(row: &Row) -> bool {
    match row.task.as_str() {
        "read" | "cut" => check_reading(row, Limits::default(), &row.words[0]),
        "limits" => check_limits(row),
        "encode" => check_encode(row),
        "pack" | "pipeline" if row.words.iter().any(|word| is_cursor(word)) => return false,
        "pack" => check_pack(row),
        "pipeline" => check_pipeline(row),
        _ => return false,
    }
    true
}

#[test]
fn rows_hold() {
    let mut checked: BTreeMap<String, usize> = BTreeMap::new();
    let mut skipped: BTreeMap<String, usize> = BTreeMap::new();
    for row in rows() {
        let counts = if check(&row) {
            &mut checked
        } else {
            &mut skipped
        };
        *counts.entry(row.task).or_default() += 1;
    }
    println!("rows checked: {checked:?}");
    println!("rows skipped, with cursors or of other tasks: {skipped:?}");
    for task in ["read", "cut", "limits", "encode", "pack", "pipeline"] {
        assert!(checked.contains_key(task), "no row of {task}");
    }
    for task in ["read", "cut", "limits", "encode"] {
        assert!(!skipped.contains_key(task), "a row of {task} is skipped");
    }
}
