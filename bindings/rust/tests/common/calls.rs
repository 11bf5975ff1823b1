//! A call with all that it is given and all that it is lent, made at the library or at the plain
//! implementation.

// Not every test uses all of it.
#![allow(dead_code)]

use super::by_plain;
use ajp13::raw;
use std::fmt::{self, Debug, Display, Formatter};

/// How many elements stand before and behind a lent array; no call may touch them.
const MARGIN: usize = 2;

/// An array that is lent to a call for writing.
#[derive(Clone, PartialEq, Eq)]
pub struct Array<T> {
    cells: Vec<T>,
}

impl<T: Copy + From<u8>> Array<T> {
    /// An array with the given contents.
    pub fn holding(contents: &[T]) -> Array<T> {
        let margin = [T::from(0xE5); MARGIN];
        Array {
            cells: [&margin, contents, &margin].concat(),
        }
    }

    /// The array itself.
    pub fn get(&self) -> &[T] {
        &self.cells[MARGIN..self.cells.len() - MARGIN]
    }

    /// The array, for writing.
    pub fn lend(&mut self) -> &mut [T] {
        let behind = self.cells.len() - MARGIN;
        &mut self.cells[MARGIN..behind]
    }
}

impl<T: Copy + From<u8>> Default for Array<T> {
    /// An empty array.
    fn default() -> Array<T> {
        Array::holding(&[])
    }
}

/// All arrays that calls are lent for writing; a call uses some of them.
#[derive(Clone, Default, PartialEq, Eq)]
pub struct Lent {
    pub connection: Array<u32>,
    pub building: Array<u32>,
    pub answer: Array<u32>,
    pub text: Array<u32>,
    pub checking: Array<u32>,
    pub checked: Array<u32>,
    pub table: Array<u16>,
    pub buffer: Array<u8>,
    pub name: Array<u8>,
}

/// A string as an argument: its bytes and the word that says whether it is null.
#[derive(Clone)]
pub struct Text {
    pub bytes: Vec<u8>,
    pub null: u32,
}

impl Text {
    /// A string that is not null.
    pub fn of(bytes: &[u8]) -> Text {
        Text {
            bytes: bytes.to_vec(),
            null: 0,
        }
    }

    /// The null string.
    pub fn null() -> Text {
        Text {
            bytes: Vec::new(),
            null: 1,
        }
    }
}

/// A call and its arguments, without what it is lent for writing.
#[derive(Clone)]
pub enum Call {
    Fresh,
    LargestBody,
    ReadAtContainer(Vec<u8>),
    ReadAtServer(Vec<u8>),
    CPing,
    CPong,
    Body(Vec<u8>),
    BodyChunk(Vec<u8>),
    GetBody(u32),
    End(u32),
    BeginForward {
        fixed: Vec<u32>,
        strings: [Vec<u8>; 5],
    },
    BeginSendHeaders {
        status: u32,
        message: Text,
    },
    HeaderCoded {
        code: u32,
        value: Text,
    },
    HeaderSpelled {
        name: Text,
        value: Text,
    },
    HeaderNamed {
        name: Vec<u8>,
        value: Text,
    },
    AttributeText {
        code: u32,
        value: Text,
    },
    AttributeInteger {
        code: u32,
        value: u32,
    },
    AttributePair {
        code: u32,
        name: Text,
        value: Text,
    },
    Close,
    TextAt {
        packet: Vec<u8>,
        place: u32,
    },
    AttributeNameAt {
        packet: Vec<u8>,
        place: u32,
    },
    IntegerAt {
        packet: Vec<u8>,
        place: u32,
    },
    HeaderCodeAt {
        packet: Vec<u8>,
        place: u32,
    },
    AttributeCodeAt {
        packet: Vec<u8>,
        place: u32,
    },
    AttributeKindAt {
        packet: Vec<u8>,
        place: u32,
    },
    Name {
        list: u32,
        code: u32,
    },
    Code {
        list: u32,
        text: Vec<u8>,
    },
    Check(Vec<u8>),
    CheckBegin,
    CheckGoOn(Vec<u8>),
    CheckFinish(u64),
}

/// Makes a call by the functions of a module; the library's and the plain one's have the same
/// signatures.
macro_rules! call_by {
    ($calls:ident, $call:expr, $lent:expr) => {{
        let lent: &mut Lent = $lent;
        let connection = lent.connection.lend();
        let building = lent.building.lend();
        let answer = lent.answer.lend();
        let text = lent.text.lend();
        let checking = lent.checking.lend();
        let checked = lent.checked.lend();
        let table = lent.table.lend();
        let buffer = lent.buffer.lend();
        match $call {
            Call::Fresh => $calls::fresh(connection),
            Call::LargestBody => $calls::largest_body(connection),
            Call::ReadAtContainer(bytes) => {
                $calls::read_at_container(connection, bytes, table, answer)
            }
            Call::ReadAtServer(bytes) => $calls::read_at_server(connection, bytes, table, answer),
            Call::CPing => $calls::cping(connection, buffer, answer),
            Call::CPong => $calls::cpong(connection, buffer, answer),
            Call::Body(bytes) => $calls::body(connection, buffer, bytes, answer),
            Call::BodyChunk(bytes) => $calls::body_chunk(connection, buffer, bytes, answer),
            Call::GetBody(asked) => $calls::get_body(connection, buffer, *asked, answer),
            Call::End(reuse) => $calls::end(connection, buffer, *reuse, answer),
            Call::BeginForward {
                fixed,
                strings: [protocol, req_uri, addr, host, name],
            } => {
                $calls::begin_forward(building, buffer, fixed, protocol, req_uri, addr, host, name)
            }
            Call::BeginSendHeaders { status, message } => {
                $calls::begin_send_headers(building, buffer, *status, &message.bytes, message.null)
            }
            Call::HeaderCoded { code, value } => {
                $calls::header_coded(building, buffer, *code, &value.bytes, value.null)
            }
            Call::HeaderSpelled { name, value } => $calls::header_spelled(
                building,
                buffer,
                &name.bytes,
                name.null,
                &value.bytes,
                value.null,
            ),
            Call::HeaderNamed { name, value } => {
                $calls::header_named(building, buffer, name, &value.bytes, value.null)
            }
            Call::AttributeText { code, value } => {
                $calls::attribute_text(building, buffer, *code, &value.bytes, value.null)
            }
            Call::AttributeInteger { code, value } => {
                $calls::attribute_integer(building, buffer, *code, *value)
            }
            Call::AttributePair { code, name, value } => $calls::attribute_pair(
                building,
                buffer,
                *code,
                &name.bytes,
                name.null,
                &value.bytes,
                value.null,
            ),
            Call::Close => $calls::close(connection, building, buffer, answer),
            Call::TextAt { packet, place } => $calls::text_at(packet, *place, text),
            Call::AttributeNameAt { packet, place } => {
                $calls::attribute_name_at(packet, *place, text)
            }
            Call::IntegerAt { packet, place } => $calls::integer_at(packet, *place),
            Call::HeaderCodeAt { packet, place } => $calls::header_code_at(packet, *place),
            Call::AttributeCodeAt { packet, place } => $calls::attribute_code_at(packet, *place),
            Call::AttributeKindAt { packet, place } => $calls::attribute_kind_at(packet, *place),
            Call::Name { list, code } => $calls::name(*list, *code, lent.name.lend()),
            Call::Code { list, text } => $calls::code(*list, text),
            Call::Check(capture) => $calls::check(capture, checked),
            Call::CheckBegin => $calls::check_begin(checking),
            Call::CheckGoOn(bytes) => $calls::check_go_on(checking, bytes),
            Call::CheckFinish(size) => $calls::check_finish(checking, *size, checked),
        }
    }};
}

impl Call {
    /// Makes the call at the library.
    pub fn at_library(&self, lent: &mut Lent) -> u32 {
        call_by!(raw, self, lent)
    }

    /// Makes the call at the plain implementation.
    pub fn at_plain(&self, lent: &mut Lent) -> u32 {
        call_by!(by_plain, self, lent)
    }

    /// Whether the call is given a connection.
    pub fn has_connection(&self) -> bool {
        matches!(self, Call::Fresh | Call::LargestBody) || self.has_answer()
    }

    /// Whether the call is given a building record.
    pub fn has_building(&self) -> bool {
        self.begins()
            || matches!(
                self,
                Call::HeaderCoded { .. }
                    | Call::HeaderSpelled { .. }
                    | Call::HeaderNamed { .. }
                    | Call::AttributeText { .. }
                    | Call::AttributeInteger { .. }
                    | Call::AttributePair { .. }
                    | Call::Close
            )
    }

    /// Whether the call begins a packet: it only writes the building record.
    pub fn begins(&self) -> bool {
        matches!(
            self,
            Call::BeginForward { .. } | Call::BeginSendHeaders { .. }
        )
    }

    /// Whether the call is lent an answer.
    pub fn has_answer(&self) -> bool {
        matches!(
            self,
            Call::ReadAtContainer(_)
                | Call::ReadAtServer(_)
                | Call::CPing
                | Call::CPong
                | Call::Body(_)
                | Call::BodyChunk(_)
                | Call::GetBody(_)
                | Call::End(_)
                | Call::Close
        )
    }

    /// Whether the call is lent a text.
    pub fn has_text(&self) -> bool {
        matches!(self, Call::TextAt { .. } | Call::AttributeNameAt { .. })
    }

    /// Whether the call is given a check on the way.
    pub fn has_checking(&self) -> bool {
        matches!(
            self,
            Call::CheckBegin | Call::CheckGoOn(_) | Call::CheckFinish(_)
        )
    }

    /// Whether the call is lent a checker's answer.
    pub fn has_checked(&self) -> bool {
        matches!(self, Call::Check(_) | Call::CheckFinish(_))
    }

    /// Whether the call returns a number that was asked for, or an error, and no other status.
    pub fn hands_out_number(&self) -> bool {
        matches!(
            self,
            Call::LargestBody
                | Call::IntegerAt { .. }
                | Call::HeaderCodeAt { .. }
                | Call::AttributeCodeAt { .. }
                | Call::AttributeKindAt { .. }
                | Call::Name { .. }
                | Call::Code { .. }
        )
    }

    /// The call's name.
    pub fn name(&self) -> &'static str {
        match self {
            Call::Fresh => "fresh",
            Call::LargestBody => "largest_body",
            Call::ReadAtContainer(_) => "read_at_container",
            Call::ReadAtServer(_) => "read_at_server",
            Call::CPing => "cping",
            Call::CPong => "cpong",
            Call::Body(_) => "body",
            Call::BodyChunk(_) => "body_chunk",
            Call::GetBody(_) => "get_body",
            Call::End(_) => "end",
            Call::BeginForward { .. } => "begin_forward",
            Call::BeginSendHeaders { .. } => "begin_send_headers",
            Call::HeaderCoded { .. } => "header_coded",
            Call::HeaderSpelled { .. } => "header_spelled",
            Call::HeaderNamed { .. } => "header_named",
            Call::AttributeText { .. } => "attribute_text",
            Call::AttributeInteger { .. } => "attribute_integer",
            Call::AttributePair { .. } => "attribute_pair",
            Call::Close => "close",
            Call::TextAt { .. } => "text_at",
            Call::AttributeNameAt { .. } => "attribute_name_at",
            Call::IntegerAt { .. } => "integer_at",
            Call::HeaderCodeAt { .. } => "header_code_at",
            Call::AttributeCodeAt { .. } => "attribute_code_at",
            Call::AttributeKindAt { .. } => "attribute_kind_at",
            Call::Name { .. } => "name",
            Call::Code { .. } => "code",
            Call::Check(_) => "check",
            Call::CheckBegin => "check_begin",
            Call::CheckGoOn(_) => "check_go_on",
            Call::CheckFinish(_) => "check_finish",
        }
    }
}

/// Bytes, shown as hexadecimal digits.
struct Hex<'a>(&'a [u8]);

impl Display for Hex<'_> {
    fn fmt(&self, f: &mut Formatter) -> fmt::Result {
        write!(f, "[{}]", self.0.len())?;
        self.0.iter().try_for_each(|byte| write!(f, " {byte:02x}"))
    }
}

impl Display for Text {
    fn fmt(&self, f: &mut Formatter) -> fmt::Result {
        write!(f, "null {}, {}", self.null, Hex(&self.bytes))
    }
}

impl Display for Call {
    /// Shows the call and its arguments.
    fn fmt(&self, f: &mut Formatter) -> fmt::Result {
        f.write_str(self.name())?;
        match self {
            Call::Fresh
            | Call::LargestBody
            | Call::CPing
            | Call::CPong
            | Call::Close
            | Call::CheckBegin => Ok(()),
            Call::ReadAtContainer(bytes)
            | Call::ReadAtServer(bytes)
            | Call::Body(bytes)
            | Call::BodyChunk(bytes)
            | Call::Check(bytes)
            | Call::CheckGoOn(bytes) => write!(f, "\n  bytes {}", Hex(bytes)),
            Call::GetBody(number) | Call::End(number) => write!(f, " {number}"),
            Call::BeginForward { fixed, strings } => {
                write!(f, "\n  fixed {fixed:?}")?;
                strings
                    .iter()
                    .try_for_each(|string| write!(f, "\n  string {}", Hex(string)))
            }
            Call::BeginSendHeaders { status, message } => {
                write!(f, " {status}\n  message {message}")
            }
            Call::HeaderCoded { code, value } => write!(f, " {code:04x}\n  value {value}"),
            Call::HeaderSpelled { name, value } => write!(f, "\n  name {name}\n  value {value}"),
            Call::HeaderNamed { name, value } => {
                write!(f, "\n  name {}\n  value {value}", Hex(name))
            }
            Call::AttributeText { code, value } => write!(f, " {code:02x}\n  value {value}"),
            Call::AttributeInteger { code, value } => write!(f, " {code:02x} {value}"),
            Call::AttributePair { code, name, value } => {
                write!(f, " {code:02x}\n  name {name}\n  value {value}")
            }
            Call::TextAt { packet, place }
            | Call::AttributeNameAt { packet, place }
            | Call::IntegerAt { packet, place }
            | Call::HeaderCodeAt { packet, place }
            | Call::AttributeCodeAt { packet, place }
            | Call::AttributeKindAt { packet, place } => {
                write!(f, " {place}\n  packet {}", Hex(packet))
            }
            Call::Name { list, code } => write!(f, " {list} {code:04x}"),
            Call::Code { list, text } => write!(f, " {list}\n  text {}", Hex(text)),
            Call::CheckFinish(size) => write!(f, " {size}"),
        }
    }
}

impl Display for Lent {
    /// Shows the arrays that are not empty, a line each.
    fn fmt(&self, f: &mut Formatter) -> fmt::Result {
        fn words<T: Copy + From<u8> + Debug>(
            f: &mut Formatter,
            name: &str,
            array: &Array<T>,
        ) -> fmt::Result {
            match array.get() {
                [] => Ok(()),
                words => writeln!(f, "  {name} {words:?}"),
            }
        }
        fn bytes(f: &mut Formatter, name: &str, array: &Array<u8>) -> fmt::Result {
            match array.get() {
                [] => Ok(()),
                bytes => writeln!(f, "  {name} {}", Hex(bytes)),
            }
        }
        words(f, "connection", &self.connection)?;
        words(f, "building", &self.building)?;
        words(f, "answer", &self.answer)?;
        words(f, "text", &self.text)?;
        words(f, "checking", &self.checking)?;
        words(f, "checked", &self.checked)?;
        words(f, "table", &self.table)?;
        bytes(f, "buffer", &self.buffer)?;
        bytes(f, "name", &self.name)
    }
}
