//! As much of the kit's toml as the repository calls: the table that a text of TOML 1.1 writes, or that it writes none. Of a float and of a
//! date it keeps no value: no key of a market takes one.
use rt_std::Vec;
use rt_std::alloc::Global;
use std::vec::Vec as List;

#[derive(Debug)]
pub enum Value { Text(String), Integer(i64), Bool(bool), Float, Datetime, Array(Vec<Value>), Table(Table) }
#[derive(Debug)]
pub struct Table { pairs: List<(String, Value)> }
#[derive(Debug)]
pub enum Error { Syntax, NoMemory }
impl Error {
    pub fn is_memory(&self) -> bool { matches!(self, Error::NoMemory) }
}
impl Value {
    pub fn as_text(&self) -> Option<&str> { match self { Value::Text(t) => Some(t), _ => None } }
    pub fn is_table(&self) -> bool { matches!(self, Value::Table(_)) }
    pub fn as_integer(&self) -> Option<i64> { match self { Value::Integer(n) => Some(*n), _ => None } }
    pub fn as_bool(&self) -> Option<bool> { match self { Value::Bool(b) => Some(*b), _ => None } }
    pub fn as_array(&self) -> Option<&Vec<Value>> { match self { Value::Array(a) => Some(a), _ => None } }
    pub fn as_table(&self) -> Option<&Table> { match self { Value::Table(t) => Some(t), _ => None } }
}
impl Table {
    pub fn get(&self, word: &str) -> Option<&Value> { self.pairs.iter().find(|(k, _)| k == word).map(|(_, v)| v) }
    pub fn keys(&self) -> impl Iterator<Item = &String> { self.pairs.iter().map(|(k, _)| k) }
}

// What made a table: a header that passed through it, a dotted key, or its own header.
#[derive(Clone, Copy, PartialEq)]
enum Origin { Implicit, Dotted, Header }
// What a key holds while a text is read. Each element of an array of tables but the last is complete.
enum Node { Value(Value), Table(Origin, Nodes), Array(List<Value>, Nodes) }
type Nodes = List<(String, Node)>;
type Key = List<String>;
type Parsed<T> = Option<T>;
enum Definition { Pair(Value), Table, Array }

fn closed(nodes: Nodes) -> Table {
    let pairs = nodes.into_iter().map(|(key, node)| match node {
        Node::Value(value) => (key, value),
        Node::Table(_, nodes) => (key, Value::Table(closed(nodes))),
        Node::Array(mut done, last) => {
            done.push(Value::Table(closed(last)));
            (key, Value::Array(Vec(done)))
        }
    });
    Table { pairs: pairs.collect() }
}
fn found<'a>(nodes: &'a mut Nodes, key: &str, origin: Origin) -> &'a mut Node {
    let at = match nodes.iter().position(|(k, _)| k == key) {
        Some(at) => at,
        None => {
            nodes.push((key.into(), Node::Table(origin, List::new())));
            nodes.len() - 1
        }
    };
    &mut nodes[at].1
}
// A header passes through any table that is no value, and into the last element of an array of tables.
fn along_header<'a>(mut nodes: &'a mut Nodes, path: &[String]) -> Parsed<&'a mut Nodes> {
    for key in path {
        nodes = match found(nodes, key, Origin::Implicit) {
            Node::Value(_) => return None,
            Node::Table(_, inner) => inner,
            Node::Array(_, last) => last,
        };
    }
    Some(nodes)
}
// A dotted key passes through no table that a header defined.
fn along_dots<'a>(mut nodes: &'a mut Nodes, path: &[String]) -> Parsed<&'a mut Nodes> {
    for key in path {
        nodes = match found(nodes, key, Origin::Dotted) {
            Node::Table(origin, inner) if *origin != Origin::Header => {
                *origin = Origin::Dotted;
                inner
            }
            _ => return None,
        };
    }
    Some(nodes)
}
// A key is defined once. But a header may name a table that other headers only passed through, and one in double brackets adds an element.
fn define(nodes: &mut Nodes, key: &str, what: Definition) -> Parsed<()> {
    let Some((_, node)) = nodes.iter_mut().find(|(k, _)| k == key) else {
        nodes.push((key.into(), match what {
            Definition::Pair(value) => Node::Value(value),
            Definition::Table => Node::Table(Origin::Header, List::new()),
            Definition::Array => Node::Array(List::new(), List::new()),
        }));
        return Some(());
    };
    match (what, node) {
        (Definition::Table, Node::Table(origin, _)) if *origin == Origin::Implicit => *origin = Origin::Header,
        (Definition::Array, Node::Array(done, last)) => done.push(Value::Table(closed(std::mem::take(last)))),
        _ => return None,
    }
    Some(())
}
fn put(nodes: &mut Nodes, key: &[String], value: Value) -> Parsed<()> {
    let (last, path) = key.split_last()?;
    define(along_dots(nodes, path)?, last, Definition::Pair(value))
}

// The most parts in a key, and the most arrays and inline tables in one another.
const DEEPEST: usize = 80;
fn is_bare(c: u8) -> bool { c.is_ascii_alphanumeric() || c == b'-' || c == b'_' }
fn is_word(c: u8) -> bool { is_bare(c) || matches!(c, b'+' | b'.' | b':') }
fn is_non_eol(c: u8) -> bool { c == b'\t' || (c >= 32 && c != 127) }

struct Reader<'a> { text: &'a [u8], at: usize }
impl Reader<'_> {
    fn byte(&self, after: usize) -> u8 { self.text.get(self.at + after).copied().unwrap_or(0) }
    fn first(&self) -> u8 { self.byte(0) }
    fn is_over(&self) -> bool { self.at >= self.text.len() }
    fn is_newline(&self) -> bool { self.first() == b'\n' || (self.first() == b'\r' && self.byte(1) == b'\n') }
    fn take(&mut self, byte: u8) -> Parsed<()> {
        if self.is_over() || self.first() != byte {
            return None;
        }
        self.at += 1;
        Some(())
    }
    fn front(&mut self, passes: impl Fn(u8) -> bool) -> &[u8] {
        let from = self.at;
        while !self.is_over() && passes(self.first()) {
            self.at += 1;
        }
        &self.text[from..self.at]
    }
    fn skip_ws(&mut self) { self.front(|c| c == b' ' || c == b'\t'); }
    // White space and newlines, and comments where they are allowed.
    fn skip(&mut self, comments: bool) {
        loop {
            self.skip_ws();
            if comments && self.first() == b'#' {
                self.front(is_non_eol);
                if !self.is_over() && !self.is_newline() {
                    return;
                }
            }
            if self.is_over() || !self.is_newline() {
                return;
            }
            self.front(|c| c == b'\r');
            self.at += 1;
        }
    }
    fn escape(&mut self, many: bool, out: &mut List<u8>) -> Parsed<()> {
        let from = self.at;
        self.skip_ws();
        if many && self.is_newline() {
            self.skip(false);
            return Some(());
        }
        self.at = from + 1;
        let length = match self.text.get(from)? {
            b'b' => return Some(out.push(8)),
            b'e' => return Some(out.push(27)),
            b'f' => return Some(out.push(12)),
            b'n' => return Some(out.push(b'\n')),
            b'r' => return Some(out.push(b'\r')),
            b't' => return Some(out.push(b'\t')),
            c @ (b'"' | b'\\') => return Some(out.push(*c)),
            b'x' => 2,
            b'u' => 4,
            b'U' => 8,
            _ => return None,
        };
        let digits = self.text.get(self.at..self.at + length)?;
        if !digits.iter().all(|c| c.is_ascii_hexdigit()) {
            return None;
        }
        self.at += length;
        let number = u32::from_str_radix(std::str::from_utf8(digits).ok()?, 16).ok()?;
        out.extend_from_slice(char::from_u32(number)?.encode_utf8(&mut [0; 4]).as_bytes());
        Some(())
    }
    // A string from behind its opening delimiter on.
    fn body(&mut self, delimiter: u8, many: bool) -> Parsed<String> {
        let mut out = List::new();
        loop {
            let byte = *self.text.get(self.at)?;
            if byte == delimiter {
                let count = if many { self.text[self.at..].iter().take_while(|c| **c == delimiter).count() } else { 1 };
                match (many, count) {
                    (false, _) => self.at += 1,
                    (true, 3) => self.at += 3,
                    (true, 1 | 2 | 4 | 5) => {
                        out.push(byte);
                        self.at += 1;
                        continue;
                    }
                    _ => return None,
                }
                return String::from_utf8(out).ok();
            }
            if byte == b'\\' && delimiter == b'"' {
                self.at += 1;
                self.escape(many, &mut out)?;
            } else if is_non_eol(byte) || (many && self.is_newline()) {
                out.push(byte);
                self.at += 1;
            } else {
                return None;
            }
        }
    }
    fn one_line(&mut self) -> Parsed<String> {
        let delimiter = self.first();
        self.at += 1;
        self.body(delimiter, false)
    }
    fn quoted(&mut self) -> Parsed<String> {
        let delimiter = self.first();
        if self.byte(1) != delimiter || self.byte(2) != delimiter {
            return self.one_line();
        }
        self.at += 3;
        if self.is_newline() {
            self.at += if self.first() == b'\r' { 2 } else { 1 };
        }
        self.body(delimiter, true)
    }
    fn is_string(&self) -> bool { matches!(self.first(), b'"' | b'\'') }
    fn key(&mut self) -> Parsed<Key> {
        let mut parts = List::new();
        while parts.len() < DEEPEST {
            parts.push(match self.first() {
                _ if self.is_string() => self.one_line()?,
                c if is_bare(c) => String::from_utf8(self.front(is_bare).into()).ok()?,
                _ => return None,
            });
            self.skip_ws();
            if self.first() != b'.' {
                return Some(parts);
            }
            self.at += 1;
            self.skip_ws();
        }
        None
    }
    fn pair(&mut self, depth: usize) -> Parsed<(Key, Value)> {
        let key = self.key()?;
        self.take(b'=')?;
        self.skip_ws();
        Some((key, self.value(depth)?))
    }
    // After an element: a comma, or the closing bracket, which stays.
    fn after_element(&mut self, closing: u8) -> Parsed<()> {
        self.skip(true);
        if self.first() == closing { Some(()) } else { self.take(b',') }
    }
    fn value(&mut self, depth: usize) -> Parsed<Value> {
        match self.first() {
            b'[' if depth > 0 => {
                self.at += 1;
                let mut items = List::new();
                loop {
                    self.skip(true);
                    if self.take(b']').is_some() {
                        return Some(Value::Array(Vec(items)));
                    }
                    items.push(self.value(depth - 1)?);
                    self.after_element(b']')?;
                }
            }
            b'{' if depth > 0 => {
                self.at += 1;
                let mut members = List::new();
                loop {
                    self.skip(true);
                    if self.take(b'}').is_some() {
                        return Some(Value::Table(closed(members)));
                    }
                    let (key, value) = self.pair(depth - 1)?;
                    put(&mut members, &key, value)?;
                    self.after_element(b'}')?;
                }
            }
            _ if self.is_string() => self.quoted().map(Value::Text),
            _ => self.unquoted(),
        }
    }
    // A boolean, a number or a date; a space before a digit joins a date and a time.
    fn unquoted(&mut self) -> Parsed<Value> {
        let from = self.at;
        self.front(is_word);
        if self.first() == b' ' && self.byte(1).is_ascii_digit() {
            self.at += 1;
            self.front(is_word);
        }
        word_value(&self.text[from..self.at])
    }
    fn expression(&mut self) -> Parsed<(Key, Definition)> {
        if self.first() != b'[' {
            return self.pair(DEEPEST).map(|(key, value)| (key, Definition::Pair(value)));
        }
        let is_array = self.byte(1) == b'[';
        self.at += if is_array { 2 } else { 1 };
        self.skip_ws();
        let key = self.key()?;
        self.take(b']')?;
        if is_array {
            self.take(b']')?;
            return Some((key, Definition::Array));
        }
        Some((key, Definition::Table))
    }
    fn document(&mut self) -> Parsed<Table> {
        let (mut root, mut inside) = (List::new(), List::new());
        loop {
            self.skip(true);
            if self.is_over() {
                return Some(closed(root));
            }
            let (key, what) = self.expression()?;
            self.skip_ws();
            if !self.is_over() && !matches!(self.first(), b'#' | b'\n' | b'\r') {
                return None;
            }
            match what {
                Definition::Pair(value) => put(along_header(&mut root, &inside)?, &key, value)?,
                header => {
                    let (last, path) = key.split_last()?;
                    define(along_header(&mut root, path)?, last, header)?;
                    inside = key;
                }
            }
        }
    }
}

fn word_value(word: &[u8]) -> Parsed<Value> {
    let digits = word.iter().take_while(|c| c.is_ascii_digit()).count();
    match word {
        b"true" => Some(Value::Bool(true)),
        b"false" => Some(Value::Bool(false)),
        _ if digits > 0 && matches!(word.get(digits), Some(b'-' | b':')) => is_datetime(word).then_some(Value::Datetime),
        _ => number(word),
    }
}
fn number(word: &[u8]) -> Parsed<Value> {
    let radix = match word {
        [b'0', b'x', ..] => 16,
        [b'0', b'o', ..] => 8,
        [b'0', b'b', ..] => 2,
        _ => 10,
    };
    let fits = |c: Option<&u8>| c.is_some_and(|c| if radix == 16 { c.is_ascii_hexdigit() } else { c.is_ascii_digit() });
    if (0..word.len()).any(|at| word[at] == b'_' && !(at > 0 && fits(word.get(at - 1)) && fits(word.get(at + 1)))) {
        return None;
    }
    let plain: String = word.iter().filter(|c| **c != b'_').map(|c| *c as char).collect();
    if radix != 10 {
        let digits = &plain[2..];
        let is_plain = !digits.is_empty() && digits.chars().all(|c| c.is_digit(radix));
        return if is_plain { i64::from_str_radix(digits, radix).ok().map(Value::Integer) } else { None };
    }
    let digits = plain.strip_prefix(['+', '-']).unwrap_or(&plain);
    if digits == "inf" || digits == "nan" {
        return Some(Value::Float);
    }
    let (front, exponent) = digits.split_once(['e', 'E']).map_or((digits, None), |(front, exponent)| (front, Some(exponent)));
    let (whole, fraction) = front.split_once('.').map_or((front, None), |(whole, fraction)| (whole, Some(fraction)));
    let are_digits = |text: &str| !text.is_empty() && text.bytes().all(|c| c.is_ascii_digit());
    let is_decimal = are_digits(whole) && (whole.len() == 1 || !whole.starts_with('0')) && fraction.is_none_or(are_digits)
        && exponent.is_none_or(|it| are_digits(it.strip_prefix(['+', '-']).unwrap_or(it)));
    if !is_decimal {
        None
    } else if fraction.is_none() && exponent.is_none() {
        plain.parse().ok().map(Value::Integer)
    } else {
        plain.parse::<f64>().ok().filter(|it| it.is_finite()).map(|_| Value::Float)
    }
}

fn two(text: &mut &[u8]) -> Option<u32> {
    let (digits, rest) = text.split_at_checked(2)?;
    *text = rest;
    digits.iter().all(|c| c.is_ascii_digit()).then(|| (digits[0] - b'0') as u32 * 10 + (digits[1] - b'0') as u32)
}
fn mark(text: &mut &[u8], marks: &[u8]) -> Option<()> {
    let (first, rest) = text.split_first()?;
    *text = rest;
    marks.contains(first).then_some(())
}
fn full_date(text: &mut &[u8]) -> Option<()> {
    let year = two(text)? * 100 + two(text)?;
    mark(text, b"-")?;
    let month = two(text)?;
    mark(text, b"-")?;
    let day = two(text)?;
    let is_leap = year % 4 == 0 && (year % 100 != 0 || year % 400 == 0);
    let days = match month { 2 => if is_leap { 29 } else { 28 }, 4 | 6 | 9 | 11 => 30, _ => 31 };
    ((1..=12).contains(&month) && (1..=days).contains(&day)).then_some(())
}
fn partial_time(text: &mut &[u8]) -> Option<()> {
    let hour = two(text)?;
    mark(text, b":")?;
    let minute = two(text)?;
    let mut second = 0;
    if text.first() == Some(&b':') {
        mark(text, b":")?;
        second = two(text)?;
        if text.first() == Some(&b'.') {
            let digits = text[1..].iter().take_while(|c| c.is_ascii_digit()).count();
            *text = &text[1 + digits..];
            if digits == 0 {
                return None;
            }
        }
    }
    (hour < 24 && minute < 60 && second < 61).then_some(())
}
fn offset(text: &mut &[u8]) -> Option<()> {
    if matches!(text.first(), None | Some(b'Z' | b'z')) {
        *text = text.get(1..).unwrap_or(&[]);
        return Some(());
    }
    mark(text, b"+-")?;
    let hours = two(text)?;
    mark(text, b":")?;
    let minutes = two(text)?;
    (hours < 24 && minutes < 60).then_some(())
}
fn is_datetime(word: &[u8]) -> bool {
    let mut text = word;
    let read = if text.get(2) == Some(&b':') {
        partial_time(&mut text)
    } else {
        full_date(&mut text).and_then(|()| if text.is_empty() { Some(()) } else { mark(&mut text, b"Tt ").and_then(|()| partial_time(&mut text)).and_then(|()| offset(&mut text)) })
    };
    read.is_some() && text.is_empty()
}

pub fn table_from_str(_: Global, text: &str) -> Result<Table, Error> {
    let text = text.strip_prefix('\u{feff}').unwrap_or(text);
    Reader { text: text.as_bytes(), at: 0 }.document().ok_or(Error::Syntax)
}
