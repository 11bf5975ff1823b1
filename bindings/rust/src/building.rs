//! Forward Requests and Send Headers, built in pieces.

use core::error::Error;
use core::fmt;

use crate::connection::Connection;
use crate::names::{attribute, Method};
use crate::raw;
use crate::refusal::{done, Refusal};

/// Which packet a building record is for.
#[derive(Clone, Copy, Debug, PartialEq, Eq, Hash)]
#[repr(u32)]
pub enum BuildingKind {
    /// A Forward Request.
    Forward = raw::KIND_FORWARD,
    /// A Send Headers.
    SendHeaders = raw::KIND_SEND_HEADERS,
}

/// A building record: how far a packet is built in its buffer. The types that build a packet keep it; this is for a
/// program that looks at it, or that hands a record of its own to the calls of [`raw`].
#[derive(Clone, Copy, PartialEq, Eq, Hash)]
pub struct Building {
    // Words in range, always: only the library and `from_fields` write them.
    words: [u32; raw::SIZE_BUILDING],
}

impl Building {
    /// A building record with these fields, also one that no call makes. A record that is impossible for its buffer is
    /// refused by every piece and by closing ([`RecordWrong`](Refusal::RecordWrong)).
    #[inline]
    pub fn from_fields(
        kind: BuildingKind,
        next: u16,
        count_place: u16,
        headers: u16,
        attributes_began: bool,
    ) -> Building {
        let mut words = [0; raw::SIZE_BUILDING];
        words[raw::BUILDING_KIND] = kind as u32;
        words[raw::BUILDING_NEXT] = next.into();
        words[raw::BUILDING_COUNT_PLACE] = count_place.into();
        words[raw::BUILDING_HEADERS] = headers.into();
        words[raw::BUILDING_ATTRIBUTES] = attributes_began.into();
        Building { words }
    }

    /// Which packet it is for.
    #[inline]
    pub fn kind(&self) -> BuildingKind {
        match self.words[raw::BUILDING_KIND] {
            raw::KIND_FORWARD => BuildingKind::Forward,
            _ => BuildingKind::SendHeaders,
        }
    }

    /// The place of the next piece.
    #[inline]
    pub fn next(&self) -> u16 {
        self.words[raw::BUILDING_NEXT] as u16
    }

    /// The place of the number of headers.
    #[inline]
    pub fn count_place(&self) -> u16 {
        self.words[raw::BUILDING_COUNT_PLACE] as u16
    }

    /// How many headers there are so far.
    #[inline]
    pub fn headers(&self) -> u16 {
        self.words[raw::BUILDING_HEADERS] as u16
    }

    /// Whether there was an attribute.
    #[inline]
    pub fn attributes_began(&self) -> bool {
        self.words[raw::BUILDING_ATTRIBUTES] != 0
    }

    /// The record as the five words of [`raw`].
    #[inline]
    pub fn words(&self) -> &[u32; raw::SIZE_BUILDING] {
        &self.words
    }
}

impl fmt::Debug for Building {
    fn fmt(&self, f: &mut fmt::Formatter<'_>) -> fmt::Result {
        f.debug_struct("Building")
            .field("kind", &self.kind())
            .field("next", &self.next())
            .field("count_place", &self.count_place())
            .field("headers", &self.headers())
            .field("attributes_began", &self.attributes_began())
            .finish()
    }
}

/// A string as the calls take it: its bytes, and 1 where it is null.
#[inline]
fn text(value: Option<&[u8]>) -> (&[u8], u32) {
    match value {
        Some(bytes) => (bytes, 0),
        None => (&[], 1),
    }
}

/// A packet under way: its record and its buffer.
struct Pieces<'b> {
    building: Building,
    buffer: &'b mut [u8],
}

impl<'b> Pieces<'b> {
    /// The fixed fields written by a call, which makes the record.
    #[inline]
    fn begin(
        buffer: &'b mut [u8],
        call: impl FnOnce(&mut [u32], &mut [u8]) -> u32,
    ) -> Result<Pieces<'b>, Refusal> {
        let mut words = [0; raw::SIZE_BUILDING];
        done(call(&mut words, buffer))?;
        Ok(Pieces {
            building: Building { words },
            buffer,
        })
    }

    #[inline]
    fn named(&mut self, name: &[u8], value: Option<&[u8]>) -> Result<(), Refusal> {
        let (value, null) = text(value);
        done(raw::header_named(
            &mut self.building.words,
            self.buffer,
            name,
            value,
            null,
        ))
    }

    #[inline]
    fn coded(&mut self, code: u16, value: Option<&[u8]>) -> Result<(), Refusal> {
        let (value, null) = text(value);
        done(raw::header_coded(
            &mut self.building.words,
            self.buffer,
            code.into(),
            value,
            null,
        ))
    }

    #[inline]
    fn spelled(&mut self, name: &[u8], value: Option<&[u8]>) -> Result<(), Refusal> {
        let (value, null) = text(value);
        done(raw::header_spelled(
            &mut self.building.words,
            self.buffer,
            name,
            0,
            value,
            null,
        ))
    }

    /// Closes the packet: its bytes, or the refusal and the pieces as they were.
    #[inline]
    fn close(self, connection: &mut Connection) -> Result<&'b [u8], NotClosed<Pieces<'b>>> {
        let mut answer = [0; raw::SIZE_ANSWER];
        let status = raw::close(
            connection.words_mut(),
            &self.building.words,
            self.buffer,
            &mut answer,
        );
        match done(status) {
            Ok(()) => Ok(&self.buffer[..answer[raw::ANSWER_BYTES] as usize]),
            Err(refusal) => Err(NotClosed {
                refusal,
                builder: self,
            }),
        }
    }
}

impl fmt::Debug for Pieces<'_> {
    fn fmt(&self, f: &mut fmt::Formatter<'_>) -> fmt::Result {
        self.building.fmt(f)
    }
}

/// A packet that was refused when it was closed: the refusal, and what was being built. Neither the connection nor a
/// byte of the buffer has changed, so more pieces may be added, and it may be closed again, on this connection or on
/// another.
///
/// ```
/// use ajp13::{Connection, ConnectionFields, ForwardHead, Method, Refusal, State};
///
/// let busy = ConnectionFields { state: State::Busy, ..Default::default() };
/// let mut first = Connection::from_fields(busy);
/// let mut second = Connection::fresh();
/// let mut buffer = [0; ajp13::MAX_PACKET];
/// let head = ForwardHead {
///     method: Method::GET,
///     protocol: b"HTTP/1.1",
///     req_uri: b"/trees/12",
///     remote_addr: None,
///     remote_host: None,
///     server_name: None,
///     server_port: 80,
///     is_ssl: false,
/// };
/// let mut headers = head.begin(&mut buffer)?;
/// headers.header(b"Host", Some(b"orchard.example"))?;
///
/// // A request is under way on the first connection, so this one goes out on the second.
/// let error = headers.close(&mut first).unwrap_err();
/// assert_eq!(error.refusal(), Refusal::NotNow);
/// let packet = error.into_builder().close(&mut second)?;
/// assert_eq!(packet[..2], [0x12, 0x34]);
/// assert_eq!(second.state(), State::Busy);
/// # Ok::<(), Refusal>(())
/// ```
///
/// As the second closing shows, `?` makes it its [`Refusal`] in a function over `Refusal`. In a function over another
/// error, such as `Box<dyn Error>`, write `.map_err(NotClosed::into_refusal)?`, which lets go of the buffer.
#[derive(Debug)]
pub struct NotClosed<B> {
    refusal: Refusal,
    builder: B,
}

impl<B> NotClosed<B> {
    /// Why the packet was refused.
    #[inline]
    pub fn refusal(&self) -> Refusal {
        self.refusal
    }

    /// What was being built, as it was before closing.
    #[inline]
    pub fn builder(&self) -> &B {
        &self.builder
    }

    /// What was being built, to go on with.
    #[inline]
    pub fn into_builder(self) -> B {
        self.builder
    }

    /// The refusal alone.
    #[inline]
    pub fn into_refusal(self) -> Refusal {
        self.refusal
    }

    /// The refusal, and what was being built.
    #[inline]
    pub fn into_parts(self) -> (Refusal, B) {
        (self.refusal, self.builder)
    }

    /// The same refusal with another builder around the pieces.
    #[inline]
    fn with<C>(self, builder: impl FnOnce(B) -> C) -> NotClosed<C> {
        NotClosed {
            refusal: self.refusal,
            builder: builder(self.builder),
        }
    }
}

impl<B> From<NotClosed<B>> for Refusal {
    #[inline]
    fn from(error: NotClosed<B>) -> Refusal {
        error.refusal
    }
}

impl<B> fmt::Display for NotClosed<B> {
    fn fmt(&self, f: &mut fmt::Formatter<'_>) -> fmt::Result {
        write!(f, "packet not closed: {}", self.refusal)
    }
}

impl<B: fmt::Debug> Error for NotClosed<B> {}

/// The fixed fields of a Forward Request. A string that may be null is an `Option`, and `None` is null.
///
/// [`begin`](Self::begin) writes them into a buffer; then come headers, then attributes, then closing. A request with a
/// body declares its length by the header content-length, and its first body packet is due as soon as it is closed.
///
/// ```
/// use ajp13::{attribute, Connection, ForwardHead, Method, Refusal};
///
/// let mut server = Connection::fresh();
/// let mut buffer = [0; ajp13::MAX_PACKET];
/// let head = ForwardHead {
///     method: Method::GET,
///     protocol: b"HTTP/1.1",
///     req_uri: b"/trees/12",
///     remote_addr: Some(b"192.0.2.15"),
///     remote_host: None,
///     server_name: Some(b"orchard.example"),
///     server_port: 443,
///     is_ssl: true,
/// };
/// let mut headers = head.begin(&mut buffer)?;
/// headers
///     .header(b"Host", Some(b"orchard.example"))?
///     .header(b"X-Gardener", Some(b"Malee"))?;
/// // A piece that is refused adds nothing, and the others stay.
/// assert_eq!(headers.header(b"no token", None).unwrap_err(), Refusal::NameWrong);
///
/// let mut attributes = headers.attributes();
/// attributes
///     .text(attribute::QUERY_STRING, Some(b"leaves=1"))?
///     .integer(attribute::SSL_KEY_SIZE, 256)?
///     .pair(b"soil", Some(b"dry"))?;
/// let packet = attributes.close(&mut server)?;
/// assert_eq!(packet[..4], [0x12, 0x34, 0x00, 0x86]);
/// # Ok::<(), Refusal>(())
/// ```
#[derive(Clone, Copy, Debug, PartialEq, Eq, Hash)]
pub struct ForwardHead<'a> {
    /// The method.
    pub method: Method,
    /// The protocol, such as `HTTP/1.1`; not empty.
    pub protocol: &'a [u8],
    /// The path of what is asked for; not empty.
    pub req_uri: &'a [u8],
    /// The client's address.
    pub remote_addr: Option<&'a [u8]>,
    /// The client's name.
    pub remote_host: Option<&'a [u8]>,
    /// The server's name.
    pub server_name: Option<&'a [u8]>,
    /// The server's port.
    pub server_port: u16,
    /// Whether the client's connection is encrypted.
    pub is_ssl: bool,
}

impl ForwardHead<'_> {
    /// Writes the fixed fields to the start of `buffer`. 8192 bytes ([`MAX_PACKET`](crate::MAX_PACKET)) are always
    /// enough.
    pub fn begin<'b>(&self, buffer: &'b mut [u8]) -> Result<ForwardHeaders<'b>, Refusal> {
        let (remote_addr, no_remote_addr) = text(self.remote_addr);
        let (remote_host, no_remote_host) = text(self.remote_host);
        let (server_name, no_server_name) = text(self.server_name);
        let mut fixed = [0; raw::SIZE_FIXED];
        fixed[raw::FIXED_METHOD] = self.method.code().into();
        fixed[raw::FIXED_PORT] = self.server_port.into();
        fixed[raw::FIXED_IS_SSL] = self.is_ssl.into();
        fixed[raw::FIXED_NO_REMOTE_ADDR] = no_remote_addr;
        fixed[raw::FIXED_NO_REMOTE_HOST] = no_remote_host;
        fixed[raw::FIXED_NO_SERVER_NAME] = no_server_name;
        let pieces = Pieces::begin(buffer, |building, buffer| {
            raw::begin_forward(
                building,
                buffer,
                &fixed,
                self.protocol,
                self.req_uri,
                remote_addr,
                remote_host,
                server_name,
            )
        })?;
        Ok(ForwardHeaders { pieces })
    }
}

/// A Forward Request under way, to which headers are added. A header that is refused adds nothing.
#[derive(Debug)]
pub struct ForwardHeaders<'b> {
    pieces: Pieces<'b>,
}

impl<'b> ForwardHeaders<'b> {
    /// Adds a header by its name: with its code where the name is listed, else spelled out. The value may be null
    /// (`None`).
    #[inline]
    pub fn header(&mut self, name: &[u8], value: Option<&[u8]>) -> Result<&mut Self, Refusal> {
        self.pieces.named(name, value)?;
        Ok(self)
    }

    /// Adds a header with a code for its name.
    #[inline]
    pub fn coded(&mut self, code: u16, value: Option<&[u8]>) -> Result<&mut Self, Refusal> {
        self.pieces.coded(code, value)?;
        Ok(self)
    }

    /// Adds a header with a name that is spelled out, which may not be a listed one.
    #[inline]
    pub fn spelled(&mut self, name: &[u8], value: Option<&[u8]>) -> Result<&mut Self, Refusal> {
        self.pieces.spelled(name, value)?;
        Ok(self)
    }

    /// Goes on to the attributes. No header may follow.
    #[inline]
    pub fn attributes(self) -> ForwardAttributes<'b> {
        ForwardAttributes {
            pieces: self.pieces,
        }
    }

    /// Closes the packet without attributes and sends it: the connection steps, and the packet's bytes are handed out.
    /// It is judged as the container would judge it, so a second content-length is refused here. With a refusal the
    /// builder is handed back.
    #[inline]
    pub fn close(self, connection: &mut Connection) -> Result<&'b [u8], NotClosed<Self>> {
        let closed = self.pieces.close(connection);
        closed.map_err(|error| error.with(|pieces| ForwardHeaders { pieces }))
    }

    /// The building record.
    #[inline]
    pub fn building(&self) -> &Building {
        &self.pieces.building
    }
}

/// A Forward Request under way, to which attributes are added. An attribute that is refused adds nothing.
#[derive(Debug)]
pub struct ForwardAttributes<'b> {
    pieces: Pieces<'b>,
}

impl<'b> ForwardAttributes<'b> {
    /// Adds an attribute whose value is a string, which may be null (`None`). The codes are in
    /// [`attribute`](mod@crate::attribute).
    #[inline]
    pub fn text(&mut self, code: u16, value: Option<&[u8]>) -> Result<&mut Self, Refusal> {
        let (value, null) = text(value);
        done(raw::attribute_text(
            &mut self.pieces.building.words,
            self.pieces.buffer,
            code.into(),
            value,
            null,
        ))?;
        Ok(self)
    }

    /// Adds an attribute whose value is an integer: [`SSL_KEY_SIZE`](crate::attribute::SSL_KEY_SIZE).
    #[inline]
    pub fn integer(&mut self, code: u16, value: u16) -> Result<&mut Self, Refusal> {
        done(raw::attribute_integer(
            &mut self.pieces.building.words,
            self.pieces.buffer,
            code.into(),
            value.into(),
        ))?;
        Ok(self)
    }

    /// Adds an attribute with a name of its own (code 0A), which may not be empty. The value may be null (`None`).
    #[inline]
    pub fn pair(&mut self, name: &[u8], value: Option<&[u8]>) -> Result<&mut Self, Refusal> {
        let (value, null) = text(value);
        done(raw::attribute_pair(
            &mut self.pieces.building.words,
            self.pieces.buffer,
            attribute::REQ_ATTRIBUTE.into(),
            name,
            0,
            value,
            null,
        ))?;
        Ok(self)
    }

    /// Closes the packet and sends it: the connection steps, and the packet's bytes are handed out. It is judged as the
    /// container would judge it, so a second content-length or an attribute that comes twice is refused here. With a
    /// refusal the builder is handed back.
    #[inline]
    pub fn close(self, connection: &mut Connection) -> Result<&'b [u8], NotClosed<Self>> {
        let closed = self.pieces.close(connection);
        closed.map_err(|error| error.with(|pieces| ForwardAttributes { pieces }))
    }

    /// The building record.
    #[inline]
    pub fn building(&self) -> &Building {
        &self.pieces.building
    }
}

/// The fixed fields of a Send Headers.
///
/// ```
/// use ajp13::{Connection, ConnectionFields, Refusal, SendHeadersHead, State};
///
/// // A request is under way, without a body, and no headers were sent.
/// let busy = ConnectionFields { state: State::Busy, ..Default::default() };
/// let mut container = Connection::from_fields(busy);
/// let mut buffer = [0; ajp13::MAX_PACKET];
/// let head = SendHeadersHead { status: 200, message: Some(b"OK") };
/// let mut headers = head.begin(&mut buffer)?;
/// headers.header(b"content-length", Some(b"2"))?;
/// // No zero and no line end may stand in a string: a label would become a second header.
/// let label = b"tree 12\r\nSet-Cookie: a=b";
/// assert_eq!(headers.header(b"X-Label", Some(label)).unwrap_err(), Refusal::StringWrong);
/// let packet = headers.close(&mut container)?;
/// assert_eq!(packet, b"AB\x00\x10\x04\x00\xC8\x00\x02OK\0\x00\x01\xA0\x03\x00\x012\0");
/// assert!(container.headers_sent());
/// # Ok::<(), Refusal>(())
/// ```
#[derive(Clone, Copy, Debug, PartialEq, Eq, Hash)]
pub struct SendHeadersHead<'a> {
    /// The response's status, 100 to 599.
    pub status: u16,
    /// The status's message.
    pub message: Option<&'a [u8]>,
}

impl SendHeadersHead<'_> {
    /// Writes the fixed fields to the start of `buffer`. 8192 bytes ([`MAX_PACKET`](crate::MAX_PACKET)) are always
    /// enough.
    pub fn begin<'b>(&self, buffer: &'b mut [u8]) -> Result<ResponseHeaders<'b>, Refusal> {
        let (message, null) = text(self.message);
        let pieces = Pieces::begin(buffer, |building, buffer| {
            raw::begin_send_headers(building, buffer, self.status.into(), message, null)
        })?;
        Ok(ResponseHeaders { pieces })
    }
}

/// A Send Headers under way, to which headers are added. A header that is refused adds nothing.
#[derive(Debug)]
pub struct ResponseHeaders<'b> {
    pieces: Pieces<'b>,
}

impl<'b> ResponseHeaders<'b> {
    /// Adds a header by its name: with its code where the name is listed, else spelled out. The value may be null
    /// (`None`).
    #[inline]
    pub fn header(&mut self, name: &[u8], value: Option<&[u8]>) -> Result<&mut Self, Refusal> {
        self.pieces.named(name, value)?;
        Ok(self)
    }

    /// Adds a header with a code for its name.
    #[inline]
    pub fn coded(&mut self, code: u16, value: Option<&[u8]>) -> Result<&mut Self, Refusal> {
        self.pieces.coded(code, value)?;
        Ok(self)
    }

    /// Adds a header with a name that is spelled out, which may not be a listed one.
    #[inline]
    pub fn spelled(&mut self, name: &[u8], value: Option<&[u8]>) -> Result<&mut Self, Refusal> {
        self.pieces.spelled(name, value)?;
        Ok(self)
    }

    /// Closes the packet and sends it: the connection steps, and the packet's bytes are handed out. It is judged as the
    /// server would judge it. With a refusal the builder is handed back.
    #[inline]
    pub fn close(self, connection: &mut Connection) -> Result<&'b [u8], NotClosed<Self>> {
        let closed = self.pieces.close(connection);
        closed.map_err(|error| error.with(|pieces| ResponseHeaders { pieces }))
    }

    /// The building record.
    #[inline]
    pub fn building(&self) -> &Building {
        &self.pieces.building
    }
}
