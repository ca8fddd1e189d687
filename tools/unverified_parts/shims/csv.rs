//! As much of the kit's csv as the repository calls: the records of a text, by the same states. Records may have any number of fields.
use rt_std::alloc::Global;

pub struct ByteRecord { fields: Vec<Vec<u8>> }
impl ByteRecord {
    pub fn len(&self) -> usize { self.fields.len() }
    pub fn get(&self, at: usize) -> Option<&[u8]> { self.fields.get(at).map(|f| f.as_slice()) }
}
pub struct ReaderBuilder;
pub struct Reader<'a> { text: &'a [u8] }
#[derive(Debug)]
pub struct Error;
impl ReaderBuilder {
    pub fn new() -> Self { ReaderBuilder }
    // No record is a header, and records may differ in length: the repository reads no others.
    pub fn has_headers(self, _: bool) -> Self { self }
    pub fn flexible(self, _: bool) -> Self { self }
    pub fn from_reader<'a>(self, _: Global, text: &'a [u8]) -> Reader<'a> { Reader { text: text.strip_prefix(b"\xef\xbb\xbf").unwrap_or(text) } }
}
impl<'a> Reader<'a> {
    pub fn into_byte_records(self) -> Records<'a> { Records { text: self.text, state: State::StartRecord } }
}

#[derive(Clone, Copy, PartialEq)]
enum State { StartRecord, StartField, InField, InQuoted, AfterQuote, AfterCr }
enum Action { Skip, Copy, EndField, EndRecord }

fn in_field(byte: u8) -> (State, Action) {
    match byte {
        b',' => (State::StartField, Action::EndField),
        b'\r' => (State::AfterCr, Action::EndRecord),
        b'\n' => (State::StartRecord, Action::EndRecord),
        _ => (State::InField, Action::Copy),
    }
}
fn start_field(byte: u8) -> (State, Action) { if byte == b'"' { (State::InQuoted, Action::Skip) } else { in_field(byte) } }
fn start_record(byte: u8) -> (State, Action) { if matches!(byte, b'\r' | b'\n') { (State::StartRecord, Action::Skip) } else { start_field(byte) } }
fn step(state: State, byte: u8) -> (State, Action) {
    match state {
        State::StartRecord => start_record(byte),
        State::StartField => start_field(byte),
        State::InField => in_field(byte),
        State::InQuoted => if byte == b'"' { (State::AfterQuote, Action::Skip) } else { (State::InQuoted, Action::Copy) },
        State::AfterQuote => if byte == b'"' { (State::InQuoted, Action::Copy) } else { in_field(byte) },
        State::AfterCr => if byte == b'\n' { (State::StartRecord, Action::Skip) } else { start_record(byte) },
    }
}

pub struct Records<'a> { text: &'a [u8], state: State }
impl Iterator for Records<'_> {
    type Item = Result<ByteRecord, Error>;
    fn next(&mut self) -> Option<Self::Item> {
        let (mut fields, mut field) = (Vec::new(), Vec::new());
        while let Some((byte, rest)) = self.text.split_first() {
            self.text = rest;
            let (state, action) = step(self.state, *byte);
            self.state = state;
            match action {
                Action::Skip => {}
                Action::Copy => field.push(*byte),
                Action::EndField => fields.push(std::mem::take(&mut field)),
                Action::EndRecord => {
                    fields.push(field);
                    return Some(Ok(ByteRecord { fields }));
                }
            }
        }
        if matches!(self.state, State::StartRecord | State::AfterCr) {
            return None;
        }
        self.state = State::StartRecord;
        fields.push(field);
        Some(Ok(ByteRecord { fields }))
    }
}
