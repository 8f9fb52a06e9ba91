//! Replies, as a parser lends them.

use crate::ffi::{Lent, RawToken};
use std::fmt;
use std::iter::FusedIterator;
use std::slice;
use std::str;

/// What a value is.
///
/// ```
/// use resp_c::{Kind, Parser};
///
/// # fn main() -> Result<(), resp_c::Error> {
/// let mut parser = Parser::new()?;
/// parser.feed(b"+OK\r\n")?;
/// let view = parser.next()?.expect("a value");
/// assert_eq!(view.value().kind(), Kind::Okay);
/// # Ok(())
/// # }
/// ```
#[derive(Debug, Clone, Copy, PartialEq, Eq, Hash)]
pub enum Kind {
    /// Nothing: a null, or a bulk string or an aggregate of negative length.
    Nil,
    /// The simple string `OK`.
    Okay,
    /// An integer.
    Int,
    /// A line of text, other than `OK`.
    SimpleString,
    /// Any bytes.
    BulkString,
    /// A list of values.
    Array,
    /// A list of pairs (RESP3).
    Map,
    /// Pairs that describe the value after them (RESP3).
    Attribute,
    /// An error: its text is the code and, where there is one, a space and the detail.
    ServerError,
    /// A truth value (RESP3).
    Boolean,
    /// A floating point number, as the text that the server sent (RESP3).
    Double,
    /// An integer of any size, as the text that the server sent, which isn't checked (RESP3).
    BigNumber,
    /// A list of values without an order (RESP3).
    Set,
    /// A text for display: its text is the format, a colon and the text (RESP3).
    VerbatimString,
    /// Out-of-band data; the first of its values is the name of its kind (RESP3).
    Push,
}

/// The kinds by their numbers.
const KINDS: [Kind; 15] = [
    Kind::Nil,
    Kind::Okay,
    Kind::Int,
    Kind::SimpleString,
    Kind::BulkString,
    Kind::Array,
    Kind::Map,
    Kind::Attribute,
    Kind::ServerError,
    Kind::Boolean,
    Kind::Double,
    Kind::BigNumber,
    Kind::Set,
    Kind::VerbatimString,
    Kind::Push,
];

impl Kind {
    pub(crate) fn of(token: &RawToken) -> Kind {
        KINDS[usize::from(token.kind)]
    }

    /// Whether a value of this kind has text.
    ///
    /// ```
    /// use resp_c::Kind;
    ///
    /// assert!(Kind::BulkString.has_text());
    /// assert!(!Kind::Int.has_text());
    /// ```
    pub fn has_text(self) -> bool {
        matches!(
            self,
            Kind::SimpleString
                | Kind::BulkString
                | Kind::ServerError
                | Kind::Double
                | Kind::BigNumber
                | Kind::VerbatimString
        )
    }

    /// How many values come after a token of this kind and size, as parts of its value.
    pub(crate) fn parts(self, size: usize) -> usize {
        self.checked_parts(size).unwrap_or(usize::MAX)
    }

    /// The same; `None` where they are too many, as in no reply that was read.
    pub(crate) fn checked_parts(self, size: usize) -> Option<usize> {
        match self {
            Kind::Array | Kind::Set | Kind::Push => Some(size),
            Kind::Map => size.checked_mul(2),
            Kind::Attribute => size.checked_mul(2)?.checked_add(1),
            _ => Some(0),
        }
    }
}

/// A reply, which the parser lends until it is used again.
///
/// It is a list of [`Token`]s in preorder, each value before those inside it; [`View::value`] reads
/// it as a tree. `{:?}` prints its value, as that of [`Value`] does.
///
/// ```
/// # fn main() -> Result<(), resp_c::Error> {
/// let mut parser = resp_c::Parser::new()?;
/// parser.feed(b"*2\r\n+a\r\n*0\r\n")?;
/// let view = parser.next()?.expect("a value");
/// let sizes: Vec<usize> = view.tokens().map(|token| token.size()).collect();
/// assert_eq!(sizes, [2, 1, 0]);
/// # Ok(())
/// # }
/// ```
#[derive(Clone, Copy)]
pub struct View<'a> {
    pub(crate) lent: Lent<'a>,
}

impl<'a> View<'a> {
    #[inline]
    pub(crate) fn of(lent: Lent<'a>) -> View<'a> {
        View { lent }
    }

    /// The tokens in preorder. This is the quickest way through a reply: one step a token.
    ///
    /// ```
    /// # fn main() -> Result<(), resp_c::Error> {
    /// let mut parser = resp_c::Parser::new()?;
    /// parser.feed(b"*2\r\n:1\r\n*1\r\n:2\r\n")?;
    /// let view = parser.next()?.expect("a value");
    /// let sum: i64 = view.tokens().filter_map(|token| token.int()).sum();
    /// assert_eq!(sum, 3);
    /// # Ok(())
    /// # }
    /// ```
    pub fn tokens(&self) -> Tokens<'a> {
        Tokens {
            raw: self.lent.tokens.iter(),
            text: self.lent.text,
        }
    }

    /// The outermost value.
    ///
    /// ```
    /// # fn main() -> Result<(), resp_c::Error> {
    /// let mut parser = resp_c::Parser::new()?;
    /// parser.feed(b":7\r\n")?;
    /// let view = parser.next()?.expect("a value");
    /// assert_eq!(view.value().int(), Some(7));
    /// # Ok(())
    /// # }
    /// ```
    pub fn value(&self) -> Value<'a> {
        Value { from: self.lent }
    }
}

/// One value of a reply, without those inside it.
///
/// ```
/// use resp_c::{Kind, Parser};
///
/// # fn main() -> Result<(), resp_c::Error> {
/// let mut parser = Parser::new()?;
/// parser.feed(b"%1\r\n+a\r\n#t\r\n")?;
/// let view = parser.next()?.expect("a value");
/// let mut tokens = view.tokens();
/// let map = tokens.next().expect("the map");
/// assert_eq!((map.kind(), map.size()), (Kind::Map, 1));
/// let key = tokens.next().expect("the key");
/// assert_eq!(key.bytes(), Some(b"a".as_slice()));
/// let value = tokens.next().expect("the value");
/// assert_eq!(value.boolean(), Some(true));
/// # Ok(())
/// # }
/// ```
#[derive(Clone, Copy)]
pub struct Token<'a> {
    raw: RawToken,
    text: &'a [u8],
}

impl fmt::Debug for Token<'_> {
    fn fmt(&self, f: &mut fmt::Formatter<'_>) -> fmt::Result {
        write!(f, "{:?}", self.kind())?;
        match self.kind() {
            Kind::Nil | Kind::Okay => Ok(()),
            Kind::Int => write!(f, "({})", self.raw.number),
            Kind::Boolean => write!(f, "({})", self.raw.number == 1),
            kind if kind.has_text() => write!(f, "(\"{}\")", self.text.escape_ascii()),
            _ => write!(f, "({})", self.size()),
        }
    }
}

impl<'a> Token<'a> {
    fn new(raw: &RawToken, all: &'a [u8]) -> Token<'a> {
        let text = if Kind::of(raw).has_text() {
            &all[raw.start..raw.start + raw.size]
        } else {
            &[]
        };
        Token { raw: *raw, text }
    }

    /// What the value is.
    ///
    /// ```
    /// # let mut parser = resp_c::Parser::new().unwrap();
    /// # parser.feed(b"_\r\n").unwrap();
    /// # let view = parser.next().unwrap().unwrap();
    /// let kinds: Vec<resp_c::Kind> = view.tokens().map(|token| token.kind()).collect();
    /// # assert_eq!(kinds, [resp_c::Kind::Nil]);
    /// ```
    pub fn kind(&self) -> Kind {
        Kind::of(&self.raw)
    }

    /// How many bytes its text has, or how many values or pairs it has; 0 of any other kind.
    ///
    /// ```
    /// # let mut parser = resp_c::Parser::new().unwrap();
    /// # parser.feed(b"~0\r\n").unwrap();
    /// # let view = parser.next().unwrap().unwrap();
    /// let sizes: Vec<usize> = view.tokens().map(|token| token.size()).collect();
    /// # assert_eq!(sizes, [0]);
    /// ```
    pub fn size(&self) -> usize {
        self.raw.size
    }

    /// The integer, of [`Kind::Int`].
    ///
    /// ```
    /// # let mut parser = resp_c::Parser::new().unwrap();
    /// # parser.feed(b":4\r\n").unwrap();
    /// # let view = parser.next().unwrap().unwrap();
    /// let integers: Vec<i64> = view.tokens().filter_map(|token| token.int()).collect();
    /// # assert_eq!(integers, [4]);
    /// ```
    pub fn int(&self) -> Option<i64> {
        (self.kind() == Kind::Int).then_some(self.raw.number)
    }

    /// The truth value, of [`Kind::Boolean`].
    ///
    /// ```
    /// # let mut parser = resp_c::Parser::new().unwrap();
    /// # parser.feed(b"#f\r\n").unwrap();
    /// # let view = parser.next().unwrap().unwrap();
    /// let booleans: Vec<bool> = view.tokens().filter_map(|token| token.boolean()).collect();
    /// # assert_eq!(booleans, [false]);
    /// ```
    pub fn boolean(&self) -> Option<bool> {
        (self.kind() == Kind::Boolean).then_some(self.raw.number == 1)
    }

    /// The text, of a kind that [has text](Kind::has_text), and `OK` of [`Kind::Okay`].
    ///
    /// ```
    /// # let mut parser = resp_c::Parser::new().unwrap();
    /// # parser.feed(b"$2\r\n\xFF!\r\n").unwrap();
    /// # let view = parser.next().unwrap().unwrap();
    /// let texts: Vec<&[u8]> = view.tokens().filter_map(|token| token.bytes()).collect();
    /// # assert_eq!(texts, [b"\xFF!"]);
    /// ```
    pub fn bytes(&self) -> Option<&'a [u8]> {
        match self.kind() {
            Kind::Okay => Some(b"OK"),
            kind => kind.has_text().then_some(self.text),
        }
    }
}

/// The tokens of a reply in preorder; see [`View::tokens`].
///
/// ```
/// # fn main() -> Result<(), resp_c::Error> {
/// # let mut parser = resp_c::Parser::new()?;
/// # parser.feed(b"*1\r\n:1\r\n")?;
/// # let view = parser.next()?.expect("a value");
/// let tokens: resp_c::Tokens = view.tokens();
/// assert_eq!(tokens.len(), 2);
/// # Ok(())
/// # }
/// ```
#[derive(Clone)]
pub struct Tokens<'a> {
    raw: slice::Iter<'a, RawToken>,
    text: &'a [u8],
}

impl fmt::Debug for Tokens<'_> {
    fn fmt(&self, f: &mut fmt::Formatter<'_>) -> fmt::Result {
        f.debug_list().entries(self.clone()).finish()
    }
}

impl<'a> Iterator for Tokens<'a> {
    type Item = Token<'a>;

    fn next(&mut self) -> Option<Token<'a>> {
        self.raw.next().map(|raw| Token::new(raw, self.text))
    }

    fn size_hint(&self) -> (usize, Option<usize>) {
        self.raw.size_hint()
    }
}

impl ExactSizeIterator for Tokens<'_> {}
impl FusedIterator for Tokens<'_> {}

/// A value of a reply, with those inside it: a place in the tokens, which is cheap to copy.
///
/// `{:?}` prints it as the crate `redis` does, but a double by the text that was sent:
///
/// ```
/// # fn main() -> Result<(), resp_c::Error> {
/// let mut parser = resp_c::Parser::new()?;
/// parser.feed(b"*2\r\n%1\r\n+a\r\n:1\r\n$2\r\n\xFF!\r\n")?;
/// let view = parser.next()?.expect("a value");
/// let shown = format!("{:?}", view.value());
/// assert_eq!(shown, r#"array([map([(simple-string("a"), int(1))]), binary-data([255, 33])])"#);
/// # Ok(())
/// # }
/// ```
///
/// A function over it may recurse: it has at most as many levels as the parser's limit allows.
///
/// ```
/// use resp_c::{Kind, Parser, Value};
///
/// fn depth(value: Value) -> usize {
///     1 + value.elements().map(depth).max().unwrap_or(0)
/// }
///
/// # fn main() -> Result<(), resp_c::Error> {
/// let mut parser = Parser::new()?;
/// parser.feed(b"*2\r\n:1\r\n*1\r\n:2\r\n")?;
/// let view = parser.next()?.expect("a value");
/// assert_eq!(depth(view.value()), 3);
/// # Ok(())
/// # }
/// ```
#[derive(Clone, Copy)]
pub struct Value<'a> {
    /// Its tokens, and maybe those of values after it: never none.
    pub(crate) from: Lent<'a>,
}

impl<'a> Value<'a> {
    /// Its token.
    ///
    /// ```
    /// # let mut parser = resp_c::Parser::new().unwrap();
    /// # parser.feed(b"*0\r\n").unwrap();
    /// # let view = parser.next().unwrap().unwrap();
    /// assert_eq!(view.value().token().size(), 0);
    /// ```
    pub fn token(&self) -> Token<'a> {
        Token::new(&self.from.tokens[0], self.from.text)
    }

    /// What it is.
    ///
    /// ```
    /// # let mut parser = resp_c::Parser::new().unwrap();
    /// parser.feed(b"$-1\r\n").unwrap();
    /// let view = parser.next().unwrap().unwrap();
    /// assert_eq!(view.value().kind(), resp_c::Kind::Nil);
    /// ```
    pub fn kind(&self) -> Kind {
        self.token().kind()
    }

    /// The integer, of [`Kind::Int`].
    ///
    /// ```
    /// # let mut parser = resp_c::Parser::new().unwrap();
    /// parser.feed(b":-5\r\n").unwrap();
    /// let view = parser.next().unwrap().unwrap();
    /// assert_eq!(view.value().int(), Some(-5));
    /// ```
    pub fn int(&self) -> Option<i64> {
        self.token().int()
    }

    /// The truth value, of [`Kind::Boolean`].
    ///
    /// ```
    /// # let mut parser = resp_c::Parser::new().unwrap();
    /// parser.feed(b"#t\r\n").unwrap();
    /// let view = parser.next().unwrap().unwrap();
    /// assert_eq!(view.value().boolean(), Some(true));
    /// ```
    pub fn boolean(&self) -> Option<bool> {
        self.token().boolean()
    }

    /// The text, of a kind that [has text](Kind::has_text), and `OK` of [`Kind::Okay`]. Doubles and
    /// big numbers are texts, too; `str::parse` reads them.
    ///
    /// ```
    /// # let mut parser = resp_c::Parser::new().unwrap();
    /// parser.feed(b"$3\r\na\xFFb\r\n").unwrap();
    /// let view = parser.next().unwrap().unwrap();
    /// assert_eq!(view.value().bytes(), Some(b"a\xFFb".as_slice()));
    /// ```
    pub fn bytes(&self) -> Option<&'a [u8]> {
        self.token().bytes()
    }

    /// The text as a string, if it is UTF-8. Only that of a bulk string may not be.
    ///
    /// ```
    /// # let mut parser = resp_c::Parser::new().unwrap();
    /// parser.feed(b",1.5\r\n").unwrap();
    /// let view = parser.next().unwrap().unwrap();
    /// let text = view.value().text().unwrap();
    /// assert_eq!(text.parse(), Ok(1.5));
    /// ```
    pub fn text(&self) -> Option<&'a str> {
        str::from_utf8(self.bytes()?).ok()
    }

    /// The code and the detail, of [`Kind::ServerError`].
    ///
    /// ```
    /// # let mut parser = resp_c::Parser::new().unwrap();
    /// parser.feed(b"-ERR unknown command\r\n-CROSSSLOT\r\n").unwrap();
    /// let view = parser.next().unwrap().unwrap();
    /// assert_eq!(view.value().server_error(), Some(("ERR", Some("unknown command"))));
    /// let view = parser.next().unwrap().unwrap();
    /// assert_eq!(view.value().server_error(), Some(("CROSSSLOT", None)));
    /// ```
    pub fn server_error(&self) -> Option<(&'a str, Option<&'a str>)> {
        if self.kind() != Kind::ServerError {
            return None;
        }
        let text = self.text()?;
        Some(match text.split_once(' ') {
            Some((code, detail)) => (code, Some(detail)),
            None => (text, None),
        })
    }

    /// The format and the text, of [`Kind::VerbatimString`].
    ///
    /// ```
    /// # let mut parser = resp_c::Parser::new().unwrap();
    /// parser.feed(b"=8\r\ntxt:a: b\r\n").unwrap();
    /// let view = parser.next().unwrap().unwrap();
    /// assert_eq!(view.value().verbatim(), Some(("txt", "a: b")));
    /// ```
    pub fn verbatim(&self) -> Option<(&'a str, &'a str)> {
        if self.kind() != Kind::VerbatimString {
            return None;
        }
        self.text()?.split_once(':')
    }

    /// The name of the kind and the data, of [`Kind::Push`].
    ///
    /// ```
    /// # let mut parser = resp_c::Parser::new().unwrap();
    /// parser.feed(b">2\r\n+message\r\n:1\r\n").unwrap();
    /// let view = parser.next().unwrap().unwrap();
    /// let (kind, mut data) = view.value().push().unwrap();
    /// assert_eq!(kind, "message");
    /// assert_eq!(data.next().unwrap().int(), Some(1));
    /// ```
    pub fn push(&self) -> Option<(&'a str, Elements<'a>)> {
        if self.kind() != Kind::Push {
            return None;
        }
        let mut elements = self.elements();
        Some((elements.next()?.text()?, elements))
    }

    /// The values inside an array, a set or a push; none of any other kind.
    ///
    /// A step past a value looks at each token of it.
    ///
    /// ```
    /// # let mut parser = resp_c::Parser::new().unwrap();
    /// parser.feed(b"~2\r\n+a\r\n+b\r\n").unwrap();
    /// let view = parser.next().unwrap().unwrap();
    /// let members: Vec<_> = view.value().elements().filter_map(|member| member.text()).collect();
    /// assert_eq!(members, ["a", "b"]);
    /// ```
    pub fn elements(&self) -> Elements<'a> {
        match self.kind() {
            Kind::Array | Kind::Set | Kind::Push => self.parts(),
            _ => Elements::none(),
        }
    }

    /// The keys and values of a map or of an attribute; none of any other kind.
    ///
    /// ```
    /// # let mut parser = resp_c::Parser::new().unwrap();
    /// parser.feed(b"%1\r\n+a\r\n:1\r\n").unwrap();
    /// let view = parser.next().unwrap().unwrap();
    /// let (key, value) = view.value().pairs().next().unwrap();
    /// assert_eq!((key.text(), value.int()), (Some("a"), Some(1)));
    /// ```
    pub fn pairs(&self) -> Pairs<'a> {
        Pairs {
            left: match self.kind() {
                Kind::Map | Kind::Attribute => self.token().size(),
                _ => 0,
            },
            parts: self.parts(),
        }
    }

    /// The value that an attribute describes.
    ///
    /// ```
    /// # let mut parser = resp_c::Parser::new().unwrap();
    /// parser.feed(b"|1\r\n+ttl\r\n:3600\r\n:3\r\n").unwrap();
    /// let view = parser.next().unwrap().unwrap();
    /// assert_eq!(view.value().described().unwrap().int(), Some(3));
    /// ```
    pub fn described(&self) -> Option<Value<'a>> {
        match self.kind() {
            Kind::Attribute => self.parts().last(),
            _ => None,
        }
    }

    /// The values inside it, whatever it is: of pairs their keys and values.
    fn parts(&self) -> Elements<'a> {
        let token = self.token();
        Elements {
            left: token.kind().parts(token.size()),
            from: Lent {
                tokens: &self.from.tokens[1..],
                text: self.from.text,
            },
        }
    }

    /// How many tokens it has.
    pub(crate) fn token_count(&self) -> usize {
        let mut values = 1;
        let mut count = 0;
        while values > 0 {
            let token = &self.from.tokens[count];
            values = values - 1 + Kind::of(token).parts(token.size);
            count += 1;
        }
        count
    }
}

/// The values inside a value; see [`Value::elements`].
///
/// ```
/// # let mut parser = resp_c::Parser::new().unwrap();
/// parser.feed(b"*2\r\n:1\r\n:2\r\n").unwrap();
/// let view = parser.next().unwrap().unwrap();
/// let elements: resp_c::Elements = view.value().elements();
/// assert_eq!(elements.len(), 2);
/// ```
#[derive(Clone)]
pub struct Elements<'a> {
    left: usize,
    /// From the next one on.
    from: Lent<'a>,
}

impl fmt::Debug for Elements<'_> {
    fn fmt(&self, f: &mut fmt::Formatter<'_>) -> fmt::Result {
        f.debug_list().entries(self.clone()).finish()
    }
}

impl Elements<'_> {
    fn none() -> Self {
        Elements {
            left: 0,
            from: Lent {
                tokens: &[],
                text: &[],
            },
        }
    }
}

impl<'a> Iterator for Elements<'a> {
    type Item = Value<'a>;

    fn next(&mut self) -> Option<Value<'a>> {
        if self.left == 0 {
            return None;
        }
        let value = Value { from: self.from };
        self.left -= 1;
        if self.left > 0 {
            self.from.tokens = &self.from.tokens[value.token_count()..];
        }
        Some(value)
    }

    fn size_hint(&self) -> (usize, Option<usize>) {
        (self.left, Some(self.left))
    }
}

impl ExactSizeIterator for Elements<'_> {}
impl FusedIterator for Elements<'_> {}

/// The keys and values of a map or an attribute; see [`Value::pairs`].
///
/// ```
/// # let mut parser = resp_c::Parser::new().unwrap();
/// parser.feed(b"%2\r\n:1\r\n:2\r\n:3\r\n:4\r\n").unwrap();
/// let view = parser.next().unwrap().unwrap();
/// let pairs: resp_c::Pairs = view.value().pairs();
/// assert_eq!(pairs.len(), 2);
/// ```
#[derive(Clone)]
pub struct Pairs<'a> {
    left: usize,
    parts: Elements<'a>,
}

impl fmt::Debug for Pairs<'_> {
    fn fmt(&self, f: &mut fmt::Formatter<'_>) -> fmt::Result {
        f.debug_map().entries(self.clone()).finish()
    }
}

impl<'a> Iterator for Pairs<'a> {
    type Item = (Value<'a>, Value<'a>);

    fn next(&mut self) -> Option<(Value<'a>, Value<'a>)> {
        if self.left == 0 {
            return None;
        }
        self.left -= 1;
        Some((self.parts.next()?, self.parts.next()?))
    }

    fn size_hint(&self) -> (usize, Option<usize>) {
        (self.left, Some(self.left))
    }
}

impl ExactSizeIterator for Pairs<'_> {}
impl FusedIterator for Pairs<'_> {}
