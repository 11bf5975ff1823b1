//! What reading answers: packets, and views of their fields.

use core::fmt;
use core::iter::FusedIterator;
use core::ops::{Deref, DerefMut};
use core::slice::ChunksExact;

use crate::names::{attribute, Method, Name, NameList};
use crate::raw;
use crate::refusal::{impossible, number, Refusal};

/// A table of places that is long enough for any packet, to be lent for reading.
///
/// Reading is lent any `&mut [u16]`, and this is one of 328. A shorter one may do for a program that knows its packets:
/// a packet needs two places for each header and two for each attribute, and is refused with
/// [`BufferTooShort`](Refusal::BufferTooShort) where there are fewer.
///
/// ```
/// use ajp13::{Connection, Packet, Places, Received};
///
/// let mut connection = Connection::fresh();
/// let ping = b"\x12\x34\x00\x01\x0A";
///
/// let mut places = Places::new();
/// let received = connection.read_at_container(ping, &mut places)?;
/// assert_eq!(received, Received::Accepted { packet: Packet::CPing, taken: 5 });
///
/// // A CPing needs no places at all.
/// let mut connection = Connection::fresh();
/// let received = connection.read_at_container(ping, &mut [])?;
/// assert_eq!(received, Received::Accepted { packet: Packet::CPing, taken: 5 });
/// # Ok::<(), ajp13::Refusal>(())
/// ```
#[derive(Clone, PartialEq, Eq, Hash)]
pub struct Places([u16; raw::MAX_PLACES]);

impl Places {
    /// A table of 328 places. Make it once and lend it for every packet.
    #[inline]
    pub const fn new() -> Places {
        Places([0; raw::MAX_PLACES])
    }
}

impl Default for Places {
    /// A table of 328 places.
    #[inline]
    fn default() -> Places {
        Places::new()
    }
}

impl Deref for Places {
    type Target = [u16];

    #[inline]
    fn deref(&self) -> &[u16] {
        &self.0
    }
}

impl DerefMut for Places {
    #[inline]
    fn deref_mut(&mut self) -> &mut [u16] {
        &mut self.0
    }
}

impl fmt::Debug for Places {
    fn fmt(&self, f: &mut fmt::Formatter<'_>) -> fmt::Result {
        write!(f, "Places(..)")
    }
}

/// What reading answers where it refuses nothing. The calls that read answer a `Result` of it, so that a function over
/// [`Refusal`] goes on with `?`.
///
/// ```
/// use ajp13::{Connection, Packet, Places, Received, Refusal};
///
/// /// How many bytes the CPing at the start of `bytes` has; none where it is not whole yet.
/// fn ping(connection: &mut Connection, bytes: &[u8]) -> Result<Option<usize>, Refusal> {
///     match connection.read_at_container(bytes, &mut Places::new())? {
///         Received::Needs(_n) => Ok(None),
///         Received::Accepted { packet: Packet::CPing, taken } => Ok(Some(taken)),
///         Received::Accepted { .. } => Err(Refusal::NotNow),
///     }
/// }
///
/// let mut connection = Connection::fresh();
/// assert_eq!(ping(&mut connection, b"\x12\x34\x00"), Ok(None));
/// assert_eq!(ping(&mut connection, b"\x12\x34\x00\x01\x0A"), Ok(Some(5)));
/// assert_eq!(ping(&mut connection, b"\x41"), Err(Refusal::LeadingWrong));
/// ```
#[derive(Clone, Copy, Debug, PartialEq, Eq, Hash)]
#[must_use]
pub enum Received<'a> {
    /// The packet is not whole yet: read again when there are this many bytes in all. Nothing has changed.
    Needs(usize),
    /// A packet; the connection has stepped.
    Accepted {
        /// The packet: a view of the lent bytes and the lent table.
        packet: Packet<'a>,
        /// How many of the lent bytes are the packet's. The next packet starts behind them.
        taken: usize,
    },
}

impl<'a> Received<'a> {
    /// What a reading call answered.
    #[inline]
    pub(crate) fn new(
        status: u32,
        answer: &[u32; raw::SIZE_ANSWER],
        bytes: &'a [u8],
        table: &'a [u16],
    ) -> Result<Received<'a>, Refusal> {
        match status {
            raw::DONE => {
                let taken = answer[raw::ANSWER_BYTES] as usize;
                Ok(Received::Accepted {
                    packet: Packet::new(answer, &bytes[..taken], table),
                    taken,
                })
            }
            raw::NEEDS => Ok(Received::Needs(answer[raw::ANSWER_BYTES] as usize)),
            _ => Err(Refusal::from_status(status)),
        }
    }
}

/// A packet that was accepted.
///
/// The container's end gets `CPing`, `Forward` and `Body`, the server's end the others. No string of it, be it a name, a
/// value, an attribute, a message or one of the fixed strings, holds a zero, a line feed or a carriage return, so none
/// can end a line or become a second header where it is passed on. The bytes of `Body` and `BodyChunk` may be any.
#[derive(Clone, Copy, PartialEq, Eq, Hash)]
pub enum Packet<'a> {
    /// CPing.
    CPing,
    /// CPong.
    CPong,
    /// Forward Request.
    Forward(Forward<'a>),
    /// Body packet: a part of the request's body, as it stands in the lent bytes. An empty one is read in two forms,
    /// `12 34 00 00` and `12 34 00 02 00 00`, which are told apart by the bytes taken alone.
    Body(&'a [u8]),
    /// Get Body Chunk: how many bytes of the request's body the container asks for.
    GetBody(u16),
    /// Send Headers.
    SendHeaders(SendHeaders<'a>),
    /// Send Body Chunk: a part of the response's body, as it stands in the lent bytes.
    BodyChunk(&'a [u8]),
    /// End Response.
    End {
        /// Whether the connection is used again.
        reuse: bool,
    },
}

impl<'a> Packet<'a> {
    #[inline]
    fn new(answer: &[u32; raw::SIZE_ANSWER], packet: &'a [u8], table: &'a [u16]) -> Packet<'a> {
        match answer[raw::ANSWER_KIND] {
            raw::KIND_CPING => Packet::CPing,
            raw::KIND_CPONG => Packet::CPong,
            raw::KIND_FORWARD => {
                let entries = answer[raw::ANSWER_HEADERS] + answer[raw::ANSWER_ATTRIBUTES];
                Packet::Forward(Forward {
                    packet,
                    places: &table[..2 * entries as usize],
                    answer: *answer,
                })
            }
            raw::KIND_BODY => Packet::Body(part(
                packet,
                answer[raw::ANSWER_START],
                answer[raw::ANSWER_LENGTH],
            )),
            raw::KIND_GET_BODY => Packet::GetBody(number(answer[raw::ANSWER_ASKED])),
            raw::KIND_SEND_HEADERS => Packet::SendHeaders(SendHeaders {
                packet,
                places: &table[..2 * answer[raw::ANSWER_HEADERS] as usize],
                status: number(answer[raw::ANSWER_STATUS]),
                message: number(answer[raw::ANSWER_MESSAGE]),
            }),
            raw::KIND_BODY_CHUNK => Packet::BodyChunk(part(
                packet,
                answer[raw::ANSWER_START],
                answer[raw::ANSWER_LENGTH],
            )),
            raw::KIND_END => Packet::End {
                reuse: answer[raw::ANSWER_REUSE] != 0,
            },
            kind => impossible(kind),
        }
    }
}

impl fmt::Debug for Packet<'_> {
    fn fmt(&self, f: &mut fmt::Formatter<'_>) -> fmt::Result {
        match self {
            Packet::CPing => f.write_str("CPing"),
            Packet::CPong => f.write_str("CPong"),
            Packet::Forward(forward) => forward.fmt(f),
            Packet::Body(bytes) => f.debug_tuple("Body").field(&Shown(bytes)).finish(),
            Packet::GetBody(asked) => f.debug_tuple("GetBody").field(asked).finish(),
            Packet::SendHeaders(headers) => headers.fmt(f),
            Packet::BodyChunk(bytes) => f.debug_tuple("BodyChunk").field(&Shown(bytes)).finish(),
            Packet::End { reuse } => f.debug_struct("End").field("reuse", reuse).finish(),
        }
    }
}

/// Bytes `start .. start + length` of a packet.
#[inline]
fn part(packet: &[u8], start: u32, length: u32) -> &[u8] {
    let start = start as usize;
    &packet[start..start + length as usize]
}

/// The bytes that a view's answer says; none for null.
#[inline]
fn viewed(packet: &[u8], status: u32, text: [u32; raw::SIZE_TEXT]) -> Option<&[u8]> {
    if status != raw::DONE {
        impossible(status);
    }
    if text[raw::TEXT_NULL] == 0 {
        Some(part(packet, text[raw::TEXT_START], text[raw::TEXT_LENGTH]))
    } else {
        None
    }
}

/// The string at a place.
#[inline]
fn text_at(packet: &[u8], place: u32) -> Option<&[u8]> {
    let mut text = [0; raw::SIZE_TEXT];
    let status = raw::text_at(packet, place, &mut text);
    viewed(packet, status, text)
}

/// The string at a place, of a field that is never null in an accepted packet.
#[inline]
fn name_at(packet: &[u8], place: u32) -> &[u8] {
    text_at(packet, place).unwrap_or_default()
}

/// The name of the attribute 0A whose code is at a place.
#[inline]
fn attribute_name_at(packet: &[u8], place: u32) -> &[u8] {
    let mut text = [0; raw::SIZE_TEXT];
    let status = raw::attribute_name_at(packet, place, &mut text);
    viewed(packet, status, text).unwrap_or_default()
}

/// A Forward Request: a view of the lent bytes and the lent table. A string that may be null is an `Option`, and null
/// is `None`.
///
/// ```
/// use ajp13::{Attribute, Connection, HeaderName, Method, Packet, Places, Received};
///
/// // GET /, port 80, host "h", route "r".
/// let bytes = b"\x12\x34\x00\x28\x02\x02\x00\x08HTTP/1.1\0\x00\x01/\0\xFF\xFF\xFF\xFF\xFF\xFF\x00\x50\
///     \x00\x00\x01\xA0\x0B\x00\x01h\0\x06\x00\x01r\0\xFF";
/// let mut places = Places::new();
/// let received = Connection::fresh().read_at_container(bytes, &mut places)?;
/// let Received::Accepted { packet: Packet::Forward(forward), taken: 44 } = received else {
///     panic!("{received:?}");
/// };
///
/// assert_eq!(forward.method(), Method::GET);
/// assert_eq!(forward.req_uri(), b"/");
/// assert_eq!(forward.remote_addr(), None);
/// assert_eq!(forward.server_port(), 80);
///
/// let header = forward.headers().next().unwrap();
/// assert_eq!(header.name, HeaderName::Code(0xA00B));
/// assert_eq!(&header.name_text()[..], b"host");
/// assert_eq!(header.value, Some(&b"h"[..]));
/// assert_eq!(forward.header(b"Host"), Some(header));
///
/// let attribute = forward.attributes().next().unwrap();
/// assert_eq!(attribute, Attribute::Text { code: 6, value: Some(b"r") });
/// # Ok::<(), ajp13::Refusal>(())
/// ```
#[derive(Clone, Copy, PartialEq, Eq, Hash)]
pub struct Forward<'a> {
    packet: &'a [u8],
    // Two for each header, then two for each attribute.
    places: &'a [u16],
    answer: [u32; raw::SIZE_ANSWER],
}

impl<'a> Forward<'a> {
    /// The method.
    #[inline]
    pub fn method(&self) -> Method {
        Method::from_code(number(self.answer[raw::ANSWER_METHOD]))
    }

    /// The protocol, such as `HTTP/1.1`. Neither null nor empty.
    #[inline]
    pub fn protocol(&self) -> &'a [u8] {
        name_at(self.packet, self.answer[raw::ANSWER_PROTOCOL])
    }

    /// The path of what is asked for. Neither null nor empty.
    #[inline]
    pub fn req_uri(&self) -> &'a [u8] {
        name_at(self.packet, self.answer[raw::ANSWER_REQ_URI])
    }

    /// The client's address.
    #[inline]
    pub fn remote_addr(&self) -> Option<&'a [u8]> {
        text_at(self.packet, self.answer[raw::ANSWER_REMOTE_ADDR])
    }

    /// The client's name.
    #[inline]
    pub fn remote_host(&self) -> Option<&'a [u8]> {
        text_at(self.packet, self.answer[raw::ANSWER_REMOTE_HOST])
    }

    /// The server's name.
    #[inline]
    pub fn server_name(&self) -> Option<&'a [u8]> {
        text_at(self.packet, self.answer[raw::ANSWER_SERVER_NAME])
    }

    /// The server's port.
    #[inline]
    pub fn server_port(&self) -> u16 {
        number(self.answer[raw::ANSWER_SERVER_PORT])
    }

    /// Whether the client's connection is encrypted.
    #[inline]
    pub fn is_ssl(&self) -> bool {
        self.answer[raw::ANSWER_IS_SSL] != 0
    }

    /// How long the request's body is: its content-length, 0 where it has none.
    #[inline]
    pub fn declared_length(&self) -> u32 {
        self.answer[raw::ANSWER_DECLARED]
    }

    /// How many of the places are those of headers.
    #[inline]
    fn split(&self) -> usize {
        2 * self.answer[raw::ANSWER_HEADERS] as usize
    }

    /// The headers, in the packet's order.
    #[inline]
    pub fn headers(&self) -> Headers<'a> {
        let places = &self.places[..self.split()];
        Headers::new(self.packet, places, NameList::RequestHeaders)
    }

    /// The first header with this name, ASCII case ignored.
    pub fn header(&self, name: &[u8]) -> Option<Header<'a>> {
        self.headers().named(name)
    }

    /// The attributes, in the packet's order.
    #[inline]
    pub fn attributes(&self) -> Attributes<'a> {
        Attributes {
            packet: self.packet,
            places: self.places[self.split()..].chunks_exact(2),
        }
    }

    /// The first attribute with this code.
    pub fn attribute(&self, code: u16) -> Option<Attribute<'a>> {
        self.attributes().find(|a| a.code() == code)
    }

    /// The packet's own bytes.
    #[inline]
    pub fn bytes(&self) -> &'a [u8] {
        self.packet
    }

    /// The places of headers and attributes in the packet, two for each.
    #[inline]
    pub fn places(&self) -> &'a [u16] {
        self.places
    }
}

impl fmt::Debug for Forward<'_> {
    fn fmt(&self, f: &mut fmt::Formatter<'_>) -> fmt::Result {
        f.debug_struct("Forward")
            .field("method", &self.method())
            .field("protocol", &Shown(self.protocol()))
            .field("req_uri", &Shown(self.req_uri()))
            .field("remote_addr", &self.remote_addr().map(Shown))
            .field("remote_host", &self.remote_host().map(Shown))
            .field("server_name", &self.server_name().map(Shown))
            .field("server_port", &self.server_port())
            .field("is_ssl", &self.is_ssl())
            .field("declared_length", &self.declared_length())
            .field("headers", &self.headers())
            .field("attributes", &self.attributes())
            .finish()
    }
}

/// A Send Headers: a view of the lent bytes and the lent table.
#[derive(Clone, Copy, PartialEq, Eq, Hash)]
pub struct SendHeaders<'a> {
    packet: &'a [u8],
    // Two for each header.
    places: &'a [u16],
    status: u16,
    message: u16,
}

impl<'a> SendHeaders<'a> {
    /// The response's status, 100 to 599.
    #[inline]
    pub fn status(&self) -> u16 {
        self.status
    }

    /// The status's message.
    #[inline]
    pub fn message(&self) -> Option<&'a [u8]> {
        text_at(self.packet, self.message.into())
    }

    /// The headers, in the packet's order.
    #[inline]
    pub fn headers(&self) -> Headers<'a> {
        Headers::new(self.packet, self.places, NameList::ResponseHeaders)
    }

    /// The first header with this name, ASCII case ignored.
    pub fn header(&self, name: &[u8]) -> Option<Header<'a>> {
        self.headers().named(name)
    }

    /// The packet's own bytes.
    #[inline]
    pub fn bytes(&self) -> &'a [u8] {
        self.packet
    }

    /// The places of headers in the packet, two for each.
    #[inline]
    pub fn places(&self) -> &'a [u16] {
        self.places
    }
}

impl fmt::Debug for SendHeaders<'_> {
    fn fmt(&self, f: &mut fmt::Formatter<'_>) -> fmt::Result {
        f.debug_struct("SendHeaders")
            .field("status", &self.status())
            .field("message", &self.message().map(Shown))
            .field("headers", &self.headers())
            .finish()
    }
}

/// A header's name, as it stands in the packet.
#[derive(Clone, Copy, PartialEq, Eq, Hash)]
pub enum HeaderName<'a> {
    /// A listed name, by its code.
    Code(u16),
    /// A name that is not listed, spelled out.
    Spelled(&'a [u8]),
}

impl fmt::Debug for HeaderName<'_> {
    fn fmt(&self, f: &mut fmt::Formatter<'_>) -> fmt::Result {
        match self {
            HeaderName::Code(code) => write!(f, "Code({code:#06x})"),
            HeaderName::Spelled(name) => f.debug_tuple("Spelled").field(&Shown(name)).finish(),
        }
    }
}

/// A header.
#[derive(Clone, Copy, PartialEq, Eq, Hash)]
pub struct Header<'a> {
    /// The name, by its code or spelled out; [`Header::name_text`] has its letters either way.
    pub name: HeaderName<'a>,
    /// The value; `None` for null.
    pub value: Option<&'a [u8]>,
    // The list that has the name for a code.
    list: NameList,
}

impl<'a> Header<'a> {
    #[inline]
    fn new(packet: &'a [u8], places: &[u16], list: NameList) -> Header<'a> {
        let place = places[0].into();
        let name = match number(raw::header_code_at(packet, place)) {
            0 => HeaderName::Spelled(name_at(packet, place)),
            code => HeaderName::Code(code),
        };
        Header {
            name,
            value: text_at(packet, places[1].into()),
            list,
        }
    }

    /// The name's letters: as they are listed for the code, or as they are spelled in the packet.
    #[inline]
    pub fn name_text(&self) -> NameText<'a> {
        match self.name {
            HeaderName::Spelled(name) => NameText::Spelled(name),
            HeaderName::Code(code) => NameText::listed(self.list, code),
        }
    }
}

impl fmt::Debug for Header<'_> {
    fn fmt(&self, f: &mut fmt::Formatter<'_>) -> fmt::Result {
        f.debug_struct("Header")
            .field("name", &self.name_text())
            .field("value", &self.value.map(Shown))
            .finish()
    }
}

/// The letters of a header's or an attribute's name. It can be used as its bytes.
#[derive(Clone, Copy, PartialEq, Eq, Hash)]
pub enum NameText<'a> {
    /// The name that is listed for a code.
    Listed(Name),
    /// The name as the packet spells it.
    Spelled(&'a [u8]),
}

impl NameText<'_> {
    /// The name that a list has for a code. An accepted packet holds listed codes only; any other has no letters.
    #[inline]
    fn listed(list: NameList, code: u16) -> Self {
        match list.name(code) {
            Some(name) => NameText::Listed(name),
            None => NameText::Spelled(b""),
        }
    }

    /// The name's bytes.
    #[inline]
    pub fn as_bytes(&self) -> &[u8] {
        match self {
            NameText::Listed(name) => name.as_bytes(),
            NameText::Spelled(name) => name,
        }
    }
}

impl Deref for NameText<'_> {
    type Target = [u8];

    #[inline]
    fn deref(&self) -> &[u8] {
        self.as_bytes()
    }
}

impl AsRef<[u8]> for NameText<'_> {
    #[inline]
    fn as_ref(&self) -> &[u8] {
        self.as_bytes()
    }
}

impl fmt::Debug for NameText<'_> {
    fn fmt(&self, f: &mut fmt::Formatter<'_>) -> fmt::Result {
        Shown(self.as_bytes()).fmt(f)
    }
}

/// The headers of a packet, one after the other.
#[derive(Clone)]
pub struct Headers<'a> {
    packet: &'a [u8],
    places: ChunksExact<'a, u16>,
    list: NameList,
}

impl<'a> Headers<'a> {
    #[inline]
    fn new(packet: &'a [u8], places: &'a [u16], list: NameList) -> Headers<'a> {
        Headers {
            packet,
            places: places.chunks_exact(2),
            list,
        }
    }

    /// The first header with this name. A listed name stands in a packet by its code only, any other spelled out.
    fn named(mut self, name: &[u8]) -> Option<Header<'a>> {
        match self.list.code(name) {
            Some(code) => self.find(|header| header.name == HeaderName::Code(code)),
            None => self.find(|header| match header.name {
                HeaderName::Code(_) => false,
                HeaderName::Spelled(spelled) => spelled.eq_ignore_ascii_case(name),
            }),
        }
    }
}

impl<'a> Iterator for Headers<'a> {
    type Item = Header<'a>;

    #[inline]
    fn next(&mut self) -> Option<Header<'a>> {
        let places = self.places.next()?;
        Some(Header::new(self.packet, places, self.list))
    }

    #[inline]
    fn size_hint(&self) -> (usize, Option<usize>) {
        self.places.size_hint()
    }

    #[inline]
    fn nth(&mut self, n: usize) -> Option<Header<'a>> {
        let places = self.places.nth(n)?;
        Some(Header::new(self.packet, places, self.list))
    }
}

impl DoubleEndedIterator for Headers<'_> {
    #[inline]
    fn next_back(&mut self) -> Option<Self::Item> {
        let places = self.places.next_back()?;
        Some(Header::new(self.packet, places, self.list))
    }
}

impl ExactSizeIterator for Headers<'_> {}

impl FusedIterator for Headers<'_> {}

impl fmt::Debug for Headers<'_> {
    fn fmt(&self, f: &mut fmt::Formatter<'_>) -> fmt::Result {
        f.debug_list().entries(self.clone()).finish()
    }
}

/// An attribute of a Forward.
#[derive(Clone, Copy, PartialEq, Eq, Hash)]
pub enum Attribute<'a> {
    /// One whose value is a string.
    Text {
        /// The attribute's code.
        code: u16,
        /// The value; `None` for null.
        value: Option<&'a [u8]>,
    },
    /// One whose value is an integer: ssl_key_size.
    Integer {
        /// The attribute's code.
        code: u16,
        /// The value.
        value: u16,
    },
    /// One that brings its own name with it: code 0A.
    Pair {
        /// The name. Neither null nor empty.
        name: &'a [u8],
        /// The value; `None` for null.
        value: Option<&'a [u8]>,
    },
}

impl<'a> Attribute<'a> {
    #[inline]
    fn new(packet: &'a [u8], places: &[u16]) -> Attribute<'a> {
        let place = places[0].into();
        let value = places[1].into();
        let code = || number(raw::attribute_code_at(packet, place));
        match raw::attribute_kind_at(packet, place) {
            raw::VALUE_TEXT => Attribute::Text {
                code: code(),
                value: text_at(packet, value),
            },
            raw::VALUE_INTEGER => Attribute::Integer {
                code: code(),
                value: number(raw::integer_at(packet, value)),
            },
            raw::VALUE_PAIR => Attribute::Pair {
                name: attribute_name_at(packet, place),
                value: text_at(packet, value),
            },
            // An accepted packet holds attributes that are served only.
            kind => impossible(kind),
        }
    }

    /// The attribute's code.
    #[inline]
    pub fn code(&self) -> u16 {
        match *self {
            Attribute::Text { code, .. } | Attribute::Integer { code, .. } => code,
            Attribute::Pair { .. } => attribute::REQ_ATTRIBUTE,
        }
    }

    /// The letters of its name: its own, or as they are listed for the code.
    #[inline]
    pub fn name_text(&self) -> NameText<'a> {
        match *self {
            Attribute::Text { code, .. } | Attribute::Integer { code, .. } => {
                NameText::listed(NameList::Attributes, code)
            }
            Attribute::Pair { name, .. } => NameText::Spelled(name),
        }
    }
}

impl fmt::Debug for Attribute<'_> {
    fn fmt(&self, f: &mut fmt::Formatter<'_>) -> fmt::Result {
        let name = self.name_text();
        match self {
            Attribute::Text { value, .. } => f
                .debug_struct("Text")
                .field("name", &name)
                .field("value", &value.map(Shown))
                .finish(),
            Attribute::Integer { value, .. } => f
                .debug_struct("Integer")
                .field("name", &name)
                .field("value", value)
                .finish(),
            Attribute::Pair { value, .. } => f
                .debug_struct("Pair")
                .field("name", &name)
                .field("value", &value.map(Shown))
                .finish(),
        }
    }
}

/// The attributes of a Forward, one after the other.
#[derive(Clone)]
pub struct Attributes<'a> {
    packet: &'a [u8],
    places: ChunksExact<'a, u16>,
}

impl<'a> Iterator for Attributes<'a> {
    type Item = Attribute<'a>;

    #[inline]
    fn next(&mut self) -> Option<Attribute<'a>> {
        let places = self.places.next()?;
        Some(Attribute::new(self.packet, places))
    }

    #[inline]
    fn size_hint(&self) -> (usize, Option<usize>) {
        self.places.size_hint()
    }

    #[inline]
    fn nth(&mut self, n: usize) -> Option<Attribute<'a>> {
        let places = self.places.nth(n)?;
        Some(Attribute::new(self.packet, places))
    }
}

impl DoubleEndedIterator for Attributes<'_> {
    #[inline]
    fn next_back(&mut self) -> Option<Self::Item> {
        let places = self.places.next_back()?;
        Some(Attribute::new(self.packet, places))
    }
}

impl ExactSizeIterator for Attributes<'_> {}

impl FusedIterator for Attributes<'_> {}

impl fmt::Debug for Attributes<'_> {
    fn fmt(&self, f: &mut fmt::Formatter<'_>) -> fmt::Result {
        f.debug_list().entries(self.clone()).finish()
    }
}

/// Bytes as people read them, for `Debug`.
struct Shown<'a>(&'a [u8]);

impl fmt::Debug for Shown<'_> {
    fn fmt(&self, f: &mut fmt::Formatter<'_>) -> fmt::Result {
        write!(f, "b\"{}\"", self.0.escape_ascii())
    }
}
