//! The connection: its record, reading, and the packets that one call sends.

use core::fmt;

use crate::packet::Received;
use crate::raw;
use crate::refusal::{done, number, Refusal};

/// The state of a connection.
#[derive(Clone, Copy, Debug, Default, PartialEq, Eq, Hash)]
#[repr(u32)]
pub enum State {
    /// No request is under way.
    #[default]
    Idle = raw::STATE_IDLE,
    /// CPing went; CPong is awaited.
    Pinged = raw::STATE_PINGED,
    /// A request is under way.
    Busy = raw::STATE_BUSY,
    /// The connection is not used again.
    Closed = raw::STATE_CLOSED,
}

impl State {
    /// The state that a word of the library is.
    #[inline]
    pub(crate) fn from_word(word: u32) -> State {
        match word {
            raw::STATE_IDLE => State::Idle,
            raw::STATE_PINGED => State::Pinged,
            raw::STATE_BUSY => State::Busy,
            _ => State::Closed,
        }
    }
}

impl fmt::Display for State {
    /// `idle`, `pinged`, `busy` or `closed`.
    fn fmt(&self, f: &mut fmt::Formatter<'_>) -> fmt::Result {
        f.pad(match self {
            State::Idle => "idle",
            State::Pinged => "pinged",
            State::Busy => "busy",
            State::Closed => "closed",
        })
    }
}

/// The fields of a connection, for a program that keeps them elsewhere. What is left out is that of a fresh connection.
///
/// ```
/// use ajp13::{Connection, ConnectionFields, State};
///
/// // A request is under way, nine bytes of its body are left, and five were asked for.
/// let fields = ConnectionFields { state: State::Busy, left: 9, due: true, asked: 5, ..Default::default() };
/// let server = Connection::from_fields(fields);
/// assert_eq!(server.largest_body(), 5);
/// assert_eq!(server.fields(), fields);
/// ```
#[derive(Clone, Copy, Debug, Default, PartialEq, Eq, Hash)]
pub struct ConnectionFields {
    /// The state. All else counts only in `Busy`.
    pub state: State,
    /// How many bytes of the request's body are still to come.
    pub left: u32,
    /// Whether a body packet is due.
    pub due: bool,
    /// How many bytes were asked for, where a body packet is due.
    pub asked: u16,
    /// Whether Send Headers went.
    pub headers_sent: bool,
    /// Whether the request is a HEAD.
    pub head: bool,
}

/// One end of a connection. Each end keeps its own: a send steps the sender's, an accepted packet the receiver's. A
/// refusal leaves it as it is.
///
/// The record does not say which end holds it. A program at the server's end calls [`cping`](Self::cping),
/// [`body`](Self::body) and [`ForwardHead`](crate::ForwardHead), and reads with
/// [`read_at_server`](Self::read_at_server); one at the container's end the others, and reads with
/// [`read_at_container`](Self::read_at_container).
///
/// ```
/// use ajp13::{Connection, Packet, Places, Received, State};
///
/// let mut server = Connection::fresh();
/// let mut buffer = [0; 8];
/// let ping = server.cping(&mut buffer).unwrap();
/// assert_eq!(ping, b"\x12\x34\x00\x01\x0A");
/// assert_eq!(server.state(), State::Pinged);
///
/// let mut container = Connection::fresh();
/// let mut places = Places::new();
/// // Two bytes came so far.
/// assert_eq!(container.read_at_container(&ping[..2], &mut places)?, Received::Needs(4));
/// assert_eq!(container.state(), State::Idle);
/// // And now all.
/// let received = container.read_at_container(ping, &mut places)?;
/// assert_eq!(received, Received::Accepted { packet: Packet::CPing, taken: 5 });
/// assert_eq!(container.state(), State::Pinged);
/// # Ok::<(), ajp13::Refusal>(())
/// ```
///
/// Two connections are equal where all their words are, also those that do not count in their state. What the library
/// steps has 0 there. A connection is not `Copy`, so that no copy is stepped in its place by mistake.
#[derive(Clone, PartialEq, Eq, Hash)]
pub struct Connection {
    // Words in range, always: only the library and `from_fields` write them.
    words: [u32; raw::SIZE_CONNECTION],
}

impl Connection {
    /// A fresh connection: Idle, whichever end holds it.
    #[inline]
    pub fn fresh() -> Connection {
        let mut words = [0; raw::SIZE_CONNECTION];
        let status = raw::fresh(&mut words);
        debug_assert_eq!(status, raw::DONE);
        Connection { words }
    }

    /// A connection with these fields, also one that no step makes. What counts only in `Busy` is not looked at in
    /// another state.
    #[inline]
    pub fn from_fields(fields: ConnectionFields) -> Connection {
        let mut words = [0; raw::SIZE_CONNECTION];
        words[raw::CONNECTION_STATE] = fields.state as u32;
        words[raw::CONNECTION_LEFT] = fields.left;
        words[raw::CONNECTION_DUE] = fields.due.into();
        words[raw::CONNECTION_ASKED] = fields.asked.into();
        words[raw::CONNECTION_HEADERS] = fields.headers_sent.into();
        words[raw::CONNECTION_HEAD] = fields.head.into();
        Connection { words }
    }

    /// All fields, of which [`from_fields`](Self::from_fields) makes an equal connection.
    #[inline]
    pub fn fields(&self) -> ConnectionFields {
        ConnectionFields {
            state: self.state(),
            left: self.left(),
            due: self.is_due(),
            asked: self.asked(),
            headers_sent: self.headers_sent(),
            head: self.words[raw::CONNECTION_HEAD] != 0,
        }
    }

    /// The state.
    #[inline]
    pub fn state(&self) -> State {
        State::from_word(self.words[raw::CONNECTION_STATE])
    }

    /// How many bytes of the request's body are still to come. Counts only in `Busy`, as the three below do.
    #[inline]
    pub fn left(&self) -> u32 {
        self.words[raw::CONNECTION_LEFT]
    }

    /// Whether a body packet is due.
    #[inline]
    pub fn is_due(&self) -> bool {
        self.words[raw::CONNECTION_DUE] != 0
    }

    /// How many bytes were asked for, where a body packet is due.
    #[inline]
    pub fn asked(&self) -> u16 {
        self.words[raw::CONNECTION_ASKED] as u16
    }

    /// Whether Send Headers went.
    #[inline]
    pub fn headers_sent(&self) -> bool {
        self.words[raw::CONNECTION_HEADERS] != 0
    }

    /// Whether a request is under way that is a HEAD: the method of its Forward is
    /// [`Method::HEAD`](crate::Method::HEAD). Its response has no body, so a chunk of it has to be empty.
    ///
    /// ```
    /// use ajp13::{Connection, ForwardHead, Method, Refusal, SendHeadersHead};
    ///
    /// let mut buffer = [0; ajp13::MAX_PACKET];
    /// let mut server = Connection::fresh();
    /// let head = ForwardHead {
    ///     method: Method::HEAD,
    ///     protocol: b"HTTP/1.1",
    ///     req_uri: b"/valves/7",
    ///     remote_addr: None,
    ///     remote_host: None,
    ///     server_name: None,
    ///     server_port: 80,
    ///     is_ssl: false,
    /// };
    /// let forward = head.begin(&mut buffer)?.close(&mut server)?.to_vec();
    /// assert!(server.is_head());
    ///
    /// let mut container = Connection::fresh();
    /// container.read_at_container(&forward, &mut ajp13::Places::new())?;
    /// assert!(container.is_head());
    /// SendHeadersHead { status: 200, message: Some(b"OK") }.begin(&mut buffer)?.close(&mut container)?;
    /// assert_eq!(container.body_chunk(&mut buffer, b"valve 7 is open"), Err(Refusal::BodySizeWrong));
    /// container.body_chunk(&mut buffer, b"")?;
    /// container.end(&mut buffer, true)?;
    /// assert!(!container.is_head());
    /// # Ok::<(), ajp13::Refusal>(())
    /// ```
    #[inline]
    pub fn is_head(&self) -> bool {
        self.state() == State::Busy && self.words[raw::CONNECTION_HEAD] == 1
    }

    /// The most bytes that the body packet which is due may hold: the least of what was asked for, of
    /// [`MAX_BODY`](crate::MAX_BODY) and of what is left. Where this is 0, the body packet has to be empty. It is also
    /// 0 where none is due.
    ///
    /// ```
    /// use ajp13::{Connection, ConnectionFields, State};
    ///
    /// // Nine bytes are left, and five were asked for.
    /// let mut server = Connection::from_fields(ConnectionFields {
    ///     state: State::Busy,
    ///     left: 9,
    ///     due: true,
    ///     asked: 5,
    ///     ..Default::default()
    /// });
    /// assert_eq!(server.largest_body(), 5);
    /// server.body(&mut [0; 16], b"valve")?;
    /// assert!(!server.is_due());
    /// assert_eq!(server.largest_body(), 0);
    /// # Ok::<(), ajp13::Refusal>(())
    /// ```
    #[inline]
    pub fn largest_body(&self) -> u16 {
        number(raw::largest_body(&self.words))
    }

    /// The record as the eight words of [`raw`].
    #[inline]
    pub fn words(&self) -> &[u32; raw::SIZE_CONNECTION] {
        &self.words
    }

    #[inline]
    pub(crate) fn words_mut(&mut self) -> &mut [u32; raw::SIZE_CONNECTION] {
        &mut self.words
    }

    /// Reads the packet at the start of `bytes`, at the container's end. `table` is lent for the places of headers and
    /// attributes: [`Places`](crate::Places), or any slice.
    ///
    /// An error says that the bytes are no packet which the connection may get now, or that the table is too short for
    /// it. Nothing has changed, and more bytes behind these do not mend it: a program closes its socket then, or lends
    /// a longer table ([`BufferTooShort`](Refusal::BufferTooShort)).
    #[inline]
    pub fn read_at_container<'a>(
        &mut self,
        bytes: &'a [u8],
        table: &'a mut [u16],
    ) -> Result<Received<'a>, Refusal> {
        let mut answer = [0; raw::SIZE_ANSWER];
        let status = raw::read_at_container(&mut self.words, bytes, table, &mut answer);
        Received::new(status, &answer, bytes, table)
    }

    /// Reads the packet at the start of `bytes`, at the server's end. `table` is lent for the places of headers:
    /// [`Places`](crate::Places), or any slice. All else is as in [`read_at_container`](Self::read_at_container).
    #[inline]
    pub fn read_at_server<'a>(
        &mut self,
        bytes: &'a [u8],
        table: &'a mut [u16],
    ) -> Result<Received<'a>, Refusal> {
        let mut answer = [0; raw::SIZE_ANSWER];
        let status = raw::read_at_server(&mut self.words, bytes, table, &mut answer);
        Received::new(status, &answer, bytes, table)
    }

    /// Writes a CPing to the start of `buffer` and hands out its bytes. From the server's end.
    #[inline]
    pub fn cping<'b>(&mut self, buffer: &'b mut [u8]) -> Result<&'b [u8], Refusal> {
        sent(buffer, |buffer, answer| {
            raw::cping(&mut self.words, buffer, answer)
        })
    }

    /// Writes a CPong to the start of `buffer` and hands out its bytes. From the container's end.
    #[inline]
    pub fn cpong<'b>(&mut self, buffer: &'b mut [u8]) -> Result<&'b [u8], Refusal> {
        sent(buffer, |buffer, answer| {
            raw::cpong(&mut self.words, buffer, answer)
        })
    }

    /// Writes a body packet to the start of `buffer` and hands out its bytes. From the server's end, where one is due:
    /// the first behind a Forward that declares a body, each further one when a Get Body Chunk came. It holds 1 to
    /// [`largest_body`](Self::largest_body) bytes; none where that is 0, and then it is `12 34 00 00`.
    #[inline]
    pub fn body<'b>(&mut self, buffer: &'b mut [u8], bytes: &[u8]) -> Result<&'b [u8], Refusal> {
        sent(buffer, |buffer, answer| {
            raw::body(&mut self.words, buffer, bytes, answer)
        })
    }

    /// Writes a Send Body Chunk to the start of `buffer` and hands out its bytes. From the container's end. It holds at
    /// most [`MAX_CHUNK`](crate::MAX_CHUNK) bytes, and none where the request [is a HEAD](Self::is_head)
    /// ([`BodySizeWrong`](Refusal::BodySizeWrong)).
    #[inline]
    pub fn body_chunk<'b>(
        &mut self,
        buffer: &'b mut [u8],
        bytes: &[u8],
    ) -> Result<&'b [u8], Refusal> {
        sent(buffer, |buffer, answer| {
            raw::body_chunk(&mut self.words, buffer, bytes, answer)
        })
    }

    /// Writes a Get Body Chunk, which asks for bytes of the request's body, to the start of `buffer` and hands out its
    /// bytes. From the container's end.
    #[inline]
    pub fn get_body<'b>(&mut self, buffer: &'b mut [u8], asked: u16) -> Result<&'b [u8], Refusal> {
        sent(buffer, |buffer, answer| {
            raw::get_body(&mut self.words, buffer, asked.into(), answer)
        })
    }

    /// Writes an End Response to the start of `buffer` and hands out its bytes. From the container's end. `reuse` says
    /// whether the connection is used again.
    #[inline]
    pub fn end<'b>(&mut self, buffer: &'b mut [u8], reuse: bool) -> Result<&'b [u8], Refusal> {
        sent(buffer, |buffer, answer| {
            raw::end(&mut self.words, buffer, reuse.into(), answer)
        })
    }
}

/// The packet that a call wrote to the start of a buffer, or its refusal.
#[inline]
pub(crate) fn sent(
    buffer: &mut [u8],
    call: impl FnOnce(&mut [u8], &mut [u32]) -> u32,
) -> Result<&[u8], Refusal> {
    let mut answer = [0; raw::SIZE_ANSWER];
    done(call(buffer, &mut answer))?;
    Ok(&buffer[..answer[raw::ANSWER_BYTES] as usize])
}

impl Default for Connection {
    /// A fresh connection.
    #[inline]
    fn default() -> Connection {
        Connection::fresh()
    }
}

impl fmt::Debug for Connection {
    fn fmt(&self, f: &mut fmt::Formatter<'_>) -> fmt::Result {
        f.debug_struct("Connection")
            .field("state", &self.state())
            .field("left", &self.left())
            .field("due", &self.is_due())
            .field("asked", &self.asked())
            .field("headers_sent", &self.headers_sent())
            .field("head", &self.fields().head)
            .finish()
    }
}
