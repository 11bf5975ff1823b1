//! Two ends of a connection and the two pipes between them, over the library alone: millions of
//! random events, and after each of them what has to hold of the ends and the pipes. What crosses at
//! the server's end is a capture: the checker goes along and has to accept every packet of it.
//! Wherever the container's end stands, the two forms of an empty body packet come to the same. And no
//! string that a delivered packet hands out has a zero or a line end in it, though pieces with such
//! strings are tried and such bytes are put into the buffer before closing. From the delivery of a HEAD
//! to that of its End no chunk with bytes is in the pipe to the server, though such chunks are tried.
//!
//! An event is one of the eight sends, with arguments that are often right and often not, or a
//! delivery of the first packet of a pipe, alone or with those behind it. The environment sets the
//! seed (`AJP13_SEED`), how many events there are (`AJP13_EVENTS`) and after how many seconds to
//! stop (`AJP13_SECONDS`).

mod common {
    pub mod rng;
    pub mod settings;
}

use ajp13::{
    attribute, raw, Attribute, HeaderName, Method, Packet as Shown, Places, Received, Refusal,
};
use common::rng::Rng;
use common::settings;
use std::collections::{BTreeMap, VecDeque};
use std::ops::Range;
use std::time::Instant;

/// The code of the method HEAD, the place of the method in a Forward, and that of the length in a chunk.
const HEAD: u32 = Method::HEAD.code() as u32;
const METHOD_PLACE: usize = 5;
const CHUNK_LENGTH: Range<usize> = 5..7;

/// What a chunk with bytes is refused with in the response to a HEAD.
const BODY_SIZE_WRONG: u32 = Refusal::BodySizeWrong.number() as u32;

/// How many events there are where `AJP13_EVENTS` sets no other number.
const EVENTS: u64 = 5_000_000;

/// The words of a connection.
type Connection = [u32; raw::SIZE_CONNECTION];

/// The words of a check on the way.
type Checking = [u32; raw::SIZE_CHECKING];

/// The words of a building record.
type Building = [u32; raw::SIZE_BUILDING];

/// The eight sends, by the kind of their packet; the server's first.
#[derive(Clone, Copy, Debug, PartialEq, Eq)]
enum Kind {
    CPing,
    Body,
    Forward,
    CPong,
    BodyChunk,
    GetBody,
    End,
    SendHeaders,
}

const KINDS: [Kind; 8] = [
    Kind::CPing,
    Kind::Body,
    Kind::Forward,
    Kind::CPong,
    Kind::BodyChunk,
    Kind::GetBody,
    Kind::End,
    Kind::SendHeaders,
];

impl Kind {
    /// Whether it is the server's end that sends.
    fn is_from_server(self) -> bool {
        matches!(self, Kind::CPing | Kind::Body | Kind::Forward)
    }

    /// The kind's number.
    fn number(self) -> u32 {
        match self {
            Kind::CPing => raw::KIND_CPING,
            Kind::Body => raw::KIND_BODY,
            Kind::Forward => raw::KIND_FORWARD,
            Kind::CPong => raw::KIND_CPONG,
            Kind::BodyChunk => raw::KIND_BODY_CHUNK,
            Kind::GetBody => raw::KIND_GET_BODY,
            Kind::End => raw::KIND_END,
            Kind::SendHeaders => raw::KIND_SEND_HEADERS,
        }
    }

    /// Whether the cycle allows it at an end with this connection.
    fn is_allowed(self, connection: &Connection) -> bool {
        let busy = connection[raw::CONNECTION_STATE] == raw::STATE_BUSY;
        let due = connection[raw::CONNECTION_DUE] == 1;
        let headers_sent = connection[raw::CONNECTION_HEADERS] == 1;
        match self {
            Kind::CPing | Kind::Forward => connection[raw::CONNECTION_STATE] == raw::STATE_IDLE,
            Kind::CPong => connection[raw::CONNECTION_STATE] == raw::STATE_PINGED,
            Kind::Body => busy && due,
            Kind::GetBody => busy && !due,
            Kind::SendHeaders => busy && !headers_sent,
            Kind::BodyChunk => busy && headers_sent,
            Kind::End => busy && headers_sent && !due,
        }
    }
}

/// A packet on its way.
struct Packet {
    kind: u32,
    bytes: Vec<u8>,
}

impl Packet {
    /// The bytes of the body that a body packet holds; none in the others.
    fn body(&self) -> &[u8] {
        match self.kind {
            raw::KIND_BODY => self.bytes.get(6..).unwrap_or_default(),
            _ => &[],
        }
    }

    /// Whether it is a chunk with bytes in it, by the length that stands in it.
    fn is_chunk_with_bytes(&self) -> bool {
        self.kind == raw::KIND_BODY_CHUNK && self.bytes[CHUNK_LENGTH] != [0, 0]
    }
}

/// What happened in a run.
#[derive(Default)]
struct Counts {
    events: u64,
    /// Sends that were written and sends that were refused, in the order of `KINDS`.
    written: [u64; 8],
    refused: [u64; 8],
    /// Sends refused by each number.
    refusals: BTreeMap<u32, u64>,
    delivered_to_container: u64,
    delivered_to_server: u64,
    delivered_with_others: u64,
    nothing_to_deliver: u64,
    requests: u64,
    body_bytes: u64,
    whole_bodies: u64,
    closed: u64,
    both_pipes_empty: u64,
    server_idle: u64,
    checked: u64,
    /// How often both forms of an empty body packet would have been accepted, and how often refused by their size.
    empty_accepted: u64,
    empty_refused: u64,
    /// Pieces with a line end or a zero in a string, which were refused; strings that were handed out.
    barred_pieces: u64,
    strings: u64,
    /// Events while a HEAD was under way; in the response to one, empty chunks delivered, and chunks with bytes refused.
    with_head: u64,
    empty_chunks: u64,
    chunks_refused: u64,
}

/// Both ends, the pipes between them, and what was sent and received.
struct TwoEnds {
    rng: Rng,
    server: Connection,
    container: Connection,
    to_container: VecDeque<Packet>,
    to_server: VecDeque<Packet>,
    /// Body bytes that were given to body calls and are not received yet.
    unread: VecDeque<u8>,
    /// What the request that was last received declared, and how much of it came.
    declared: u64,
    got: u64,
    /// What each Forward in the pipe declares.
    forwarded: VecDeque<u32>,
    /// Whether the newest of the Forwards and Ends that were delivered is a HEAD.
    head: bool,
    /// The check of what has crossed at the server's end since the ends were fresh.
    checking: Checking,
    buffer: Vec<u8>,
    before: Vec<u8>,
    counts: Counts,
}

#[test]
fn two_ends_and_their_pipes() {
    let seed = settings::seed();
    let limit = settings::events(EVENTS);
    let deadline = settings::deadline(100);
    println!("two ends: AJP13_SEED={seed}");
    let begun = Instant::now();
    let mut ends = TwoEnds::new(Rng::new(seed));
    while ends.counts.events < limit && !deadline.is_some_and(|end| Instant::now() >= end) {
        ends.event();
        ends.check();
    }
    ends.counts.print(begun.elapsed().as_secs_f64());
    ends.counts.check();
}

/// A building record of a packet of which nothing is built: closing refuses it.
fn not_begun(kind: u32) -> Building {
    let mut building = [0; raw::SIZE_BUILDING];
    building[raw::BUILDING_KIND] = kind;
    building
}

/// How many bytes the cycle lets the body packet hold that is due.
fn largest_body(connection: &Connection) -> u32 {
    if !Kind::Body.is_allowed(connection) {
        return 0;
    }
    let most = connection[raw::CONNECTION_LEFT].min(connection[raw::CONNECTION_ASKED]);
    most.min(raw::MAX_BODY as u32)
}

/// Fresh words of a connection.
fn fresh() -> Connection {
    let mut connection = [0; raw::SIZE_CONNECTION];
    assert_eq!(raw::fresh(&mut connection), raw::DONE);
    connection
}

/// A check that has begun.
fn begun() -> Checking {
    let mut checking = [0; raw::SIZE_CHECKING];
    assert_eq!(raw::check_begin(&mut checking), raw::DONE);
    checking
}

impl TwoEnds {
    /// Two fresh ends and empty pipes.
    fn new(rng: Rng) -> TwoEnds {
        TwoEnds {
            rng,
            server: fresh(),
            container: fresh(),
            to_container: VecDeque::new(),
            to_server: VecDeque::new(),
            unread: VecDeque::new(),
            declared: 0,
            got: 0,
            forwarded: VecDeque::new(),
            head: false,
            checking: begun(),
            buffer: Vec::new(),
            before: Vec::new(),
            counts: Counts::default(),
        }
    }

    /// Lets one event happen.
    fn event(&mut self) {
        self.counts.events += 1;
        match self.rng.below(100) {
            // A delivery, mostly where there is something.
            0..=44 => {
                let at_container = match (self.to_container.is_empty(), self.to_server.is_empty()) {
                    (false, true) => !self.rng.one_in(10),
                    (true, false) => self.rng.one_in(10),
                    _ => self.rng.one_in(2),
                };
                if at_container {
                    self.deliver_to_container();
                } else {
                    self.deliver_to_server();
                }
            }
            // A send that the cycle allows, where there is one; at times any send.
            _ => {
                let mut allowed = KINDS.to_vec();
                allowed.retain(|kind| kind.is_allowed(self.sender(*kind)));
                let kind = if allowed.is_empty() || self.rng.one_in(5) {
                    self.rng.of(&KINDS)
                } else {
                    self.rng.of(&allowed)
                };
                self.send(kind);
            }
        }
        // An End without reuse has closed both ends: after some events more, a fresh pair begins.
        let closed =
            |connection: &Connection| connection[raw::CONNECTION_STATE] == raw::STATE_CLOSED;
        if closed(&self.server) && closed(&self.container) && self.rng.one_in(6) {
            assert!(self.to_container.is_empty() && self.to_server.is_empty());
            self.counts.closed += 1;
            self.finish_check();
            self.server = fresh();
            self.container = fresh();
        }
    }

    /// The connection of the end that a send is made at.
    fn sender(&self, kind: Kind) -> &Connection {
        if kind.is_from_server() {
            &self.server
        } else {
            &self.container
        }
    }

    /// Makes a send. Where it is written, the packet goes last into the pipe; where it is refused,
    /// nothing has changed.
    fn send(&mut self, kind: Kind) {
        let mut connection = *self.sender(kind);
        let allowed = kind.is_allowed(&connection);
        let mut answer = [0; raw::SIZE_ANSWER];
        // A send that is right in all but perhaps the state, or one with something wrong about it.
        let right = self.rng.percent(85);
        self.lend_buffer(right);

        let mut body = Vec::new();
        let mut bytes_on_head = false;
        let status = match kind {
            Kind::CPing => raw::cping(&mut connection, &mut self.buffer, &mut answer),
            Kind::CPong => raw::cpong(&mut connection, &mut self.buffer, &mut answer),
            Kind::GetBody => {
                let asked = match self.rng.below(8) {
                    0 => 0,
                    1 => 65535,
                    2 => self.rng.short().into(),
                    3 => 8186,
                    _ => self.rng.below(50) as u32,
                };
                raw::get_body(&mut connection, &mut self.buffer, asked, &mut answer)
            }
            Kind::End => {
                let mut reuse = u32::from(!self.rng.one_in(8));
                if !right {
                    reuse += self.rng.of(&[0, 2, 0x10000]);
                }
                raw::end(&mut connection, &mut self.buffer, reuse, &mut answer)
            }
            Kind::Body => {
                let size = self.body_size(&connection, right);
                body = self.rng.bytes(size);
                raw::body(&mut connection, &mut self.buffer, &body, &mut answer)
            }
            Kind::BodyChunk => {
                let is_head = connection[raw::CONNECTION_HEAD] == 1;
                let mut size = match is_head && right {
                    true => 0,
                    false => self.rng.length().min(raw::MAX_CHUNK),
                };
                if !right {
                    size += self.rng.of(&[0, raw::MAX_CHUNK]);
                }
                bytes_on_head = allowed && is_head && size > 0;
                let chunk = self.rng.bytes(size);
                raw::body_chunk(&mut connection, &mut self.buffer, &chunk, &mut answer)
            }
            Kind::Forward | Kind::SendHeaders => {
                let mut building = match kind {
                    Kind::Forward => self.build_forward(),
                    _ => self.build_send_headers(),
                };
                if !right {
                    self.spoil(&mut building);
                }
                self.before.clone_from(&self.buffer);
                raw::close(&mut connection, &building, &mut self.buffer, &mut answer)
            }
        };

        let index = KINDS.iter().position(|other| *other == kind).unwrap_or(0);
        if status != raw::DONE {
            // Neither end, neither pipe nor the buffer has changed.
            assert!(
                Refusal::from_number(status).is_some(),
                "{kind:?} returned {status}"
            );
            assert_eq!(connection, *self.sender(kind));
            assert!(self.buffer == self.before, "{kind:?} wrote and was refused");
            assert_eq!(answer, [0; raw::SIZE_ANSWER]);
            assert!(!(allowed && right), "{kind:?} was refused: {status}");
            if bytes_on_head {
                // Before the length and the buffer's room are looked at.
                assert_eq!(status, BODY_SIZE_WRONG);
                self.counts.chunks_refused += 1;
            }
            self.counts.refused[index] += 1;
            *self.counts.refusals.entry(status).or_default() += 1;
            return;
        }
        assert!(allowed, "{kind:?} was written in another state");
        assert!(!bytes_on_head, "a chunk with bytes was written for a HEAD");
        assert_eq!(answer[raw::ANSWER_KIND], kind.number());
        let length = answer[raw::ANSWER_BYTES] as usize;
        assert!(self.buffer[length..] == self.before[length..]);
        let packet = Packet {
            kind: kind.number(),
            bytes: self.buffer[..length].to_vec(),
        };
        self.unread.extend(&body);
        self.counts.body_bytes += body.len() as u64;
        self.counts.written[index] += 1;
        if kind.is_from_server() {
            self.server = connection;
            if kind == Kind::Forward {
                // The sender's end knows what its request declared.
                self.forwarded.push_back(connection[raw::CONNECTION_LEFT]);
                // And whether it is a HEAD, by the byte that stands in the packet.
                let is_head = u32::from(packet.bytes[METHOD_PLACE]) == HEAD;
                assert_eq!(connection[raw::CONNECTION_HEAD], is_head.into());
            }
            self.cross(&packet.bytes);
            self.to_container.push_back(packet);
        } else {
            self.container = connection;
            self.to_server.push_back(packet);
        }
    }

    /// Lends a buffer that is long enough for any packet, or one of any length.
    fn lend_buffer(&mut self, long_enough: bool) {
        let length = if !long_enough && self.rng.one_in(2) {
            self.rng.below(12)
        } else {
            raw::MAX_PACKET + self.rng.below(3)
        };
        // The old contents are those of the last packet, which any bytes may follow.
        self.buffer.resize(length, 0xAA);
        self.before.clone_from(&self.buffer);
    }

    /// How many bytes to send in a body packet: so many as are allowed, or others.
    fn body_size(&mut self, connection: &Connection, right: bool) -> usize {
        let most = raw::largest_body(connection) as usize;
        if !right {
            return self.rng.of(&[0, 1, most + 1, raw::MAX_BODY + 1]);
        }
        if most == 0 {
            return 0;
        }
        match self.rng.below(8) {
            0 | 1 => most,
            2 => self.rng.between(1, most),
            _ => self.rng.between(1, most.min(40)),
        }
    }

    /// Builds a Forward in pieces, up to closing. In a buffer that is too short a piece is refused,
    /// and the building record stays as it was.
    fn build_forward(&mut self) -> Building {
        let mut building = not_begun(raw::KIND_FORWARD);
        let mut fixed = [0; raw::SIZE_FIXED];
        fixed[raw::FIXED_METHOD] = match self.rng.one_in(3) {
            true => HEAD,
            false => self.rng.between(1, 27) as u32,
        };
        fixed[raw::FIXED_PORT] = self.rng.short().into();
        fixed[raw::FIXED_IS_SSL] = self.rng.below(2) as u32;
        fixed[raw::FIXED_NO_REMOTE_HOST] = self.rng.below(2) as u32;
        raw::begin_forward(
            &mut building,
            &mut self.buffer,
            &fixed,
            b"HTTP/1.1",
            b"/",
            b"127.0.0.1",
            b"",
            b"localhost",
        );
        if self.rng.percent(70) {
            let declared = match self.rng.below(8) {
                0 => u32::MAX,
                1 => self.rng.below(40_000) as u32,
                _ => self.rng.below(60) as u32,
            };
            let value = declared.to_string();
            raw::header_named(
                &mut building,
                &mut self.buffer,
                b"Content-Length",
                value.as_bytes(),
                0,
            );
        }
        for _ in 0..self.rng.below(3) {
            let value = self.value();
            self.refused_piece(&building, &value);
            raw::header_spelled(&mut building, &mut self.buffer, b"x-a", 0, &value, 0);
        }
        for _ in 0..self.rng.below(3) {
            raw::attribute_pair(&mut building, &mut self.buffer, 0x0A, b"a", 0, b"b", 0);
        }
        // stored_method: it has no say in whether the request is a HEAD.
        if self.rng.one_in(4) {
            let method: &[u8] = self.rng.of(&[b"HEAD", b"GET"]);
            raw::attribute_text(
                &mut building,
                &mut self.buffer,
                attribute::STORED_METHOD.into(),
                method,
                0,
            );
        }
        building
    }

    /// A header's value: letters, at times with a tab among them.
    fn value(&mut self) -> Vec<u8> {
        let length = self.rng.length().min(3000);
        let mut value = vec![b'v'; length];
        if length > 0 && self.rng.one_in(4) {
            value[self.rng.below(length)] = b'\t';
        }
        value
    }

    /// Tries a header with a barred byte in its name or its value: it is refused with 6, where headers may come at all, and the
    /// building record and the buffer are as they were.
    fn refused_piece(&mut self, building: &Building, value: &[u8]) {
        if building[raw::BUILDING_NEXT] == 0 {
            return;
        }
        let mut name = b"x-a".to_vec();
        let mut value = value.to_vec();
        let byte = self.rng.of(&[0, b'\n', b'\r']);
        if value.is_empty() || self.rng.one_in(4) {
            name[self.rng.below(3)] = byte;
        } else {
            let at = self.rng.below(value.len());
            value[at] = byte;
        }
        let mut after = *building;
        let before = self.buffer.clone();
        let status = raw::header_spelled(&mut after, &mut self.buffer, &name, 0, &value, 0);
        assert_eq!(status, Refusal::StringWrong.number().into());
        assert_eq!(after, *building);
        assert!(self.buffer == before);
        self.counts.barred_pieces += 1;
    }

    /// Builds a Send Headers in pieces, up to closing, in the same way.
    fn build_send_headers(&mut self) -> Building {
        let mut building = not_begun(raw::KIND_SEND_HEADERS);
        let status = self.rng.between(100, 599) as u32;
        raw::begin_send_headers(&mut building, &mut self.buffer, status, b"OK", 0);
        for _ in 0..self.rng.below(4) {
            let code = 0xA000 + self.rng.between(1, 11) as u32;
            let value = self.value();
            self.refused_piece(&building, &value);
            raw::header_coded(&mut building, &mut self.buffer, code, &value, 0);
        }
        building
    }

    /// Changes the building record or the buffer, so that closing is refused mostly.
    fn spoil(&mut self, building: &mut Building) {
        match self.rng.below(7) {
            0 => {
                let word = self.rng.between(1, 3);
                building[word] = self.rng.short().into();
            }
            1 => building[raw::BUILDING_HEADERS] += 1,
            2 => building[raw::BUILDING_NEXT] = building[raw::BUILDING_NEXT].saturating_sub(1),
            3 => building[raw::BUILDING_ATTRIBUTES] ^= 1,
            _ => {
                let built = (building[raw::BUILDING_NEXT] as usize).min(self.buffer.len());
                if built > 0 {
                    let at = self.rng.below(built);
                    self.buffer[at] = if self.rng.one_in(3) {
                        self.rng.byte()
                    } else {
                        self.rng.of(&[0, b'\n', b'\r'])
                    };
                }
            }
        }
    }

    /// Reads the first packet for the container's end.
    fn deliver_to_container(&mut self) {
        let alone = self.rng.one_in(2);
        let Some(first) = self.to_container.front() else {
            self.counts.nothing_to_deliver += 1;
            return;
        };
        let (bytes, kind, length) = lent(&self.to_container, first, alone);
        let mut table = [0; raw::MAX_PLACES];
        let mut answer = [0; raw::SIZE_ANSWER];
        let status = raw::read_at_container(&mut self.container, &bytes, &mut table, &mut answer);
        assert_eq!(status, raw::DONE, "a packet was not accepted: {bytes:02x?}");
        assert_eq!(answer[raw::ANSWER_BYTES] as usize, length);
        assert_eq!(answer[raw::ANSWER_KIND], kind);
        match kind {
            raw::KIND_FORWARD => {
                self.counts.requests += 1;
                self.declared = answer[raw::ANSWER_DECLARED].into();
                self.got = 0;
                self.head = answer[raw::ANSWER_METHOD] == HEAD;
                assert_eq!(self.container[raw::CONNECTION_HEAD], self.head.into());
                assert_eq!(
                    self.forwarded.pop_front(),
                    Some(answer[raw::ANSWER_DECLARED])
                );
            }
            raw::KIND_BODY => {
                let start = answer[raw::ANSWER_START] as usize;
                let body = &bytes[start..start + answer[raw::ANSWER_LENGTH] as usize];
                // What is received is what was sent, in its order.
                assert!(body.iter().copied().eq(self.unread.drain(..body.len())));
                self.got += body.len() as u64;
                if self.got == self.declared && !body.is_empty() {
                    self.counts.whole_bodies += 1;
                }
            }
            _ => {}
        }
        if kind == raw::KIND_FORWARD {
            self.counts.strings += clear_strings(&bytes[..length], true);
        }
        self.counts.delivered_to_container += 1;
        self.counts.delivered_with_others += u64::from(bytes.len() > length);
        self.to_container.pop_front();
    }

    /// Reads the first packet for the server's end.
    fn deliver_to_server(&mut self) {
        let alone = self.rng.one_in(2);
        let Some(first) = self.to_server.front() else {
            self.counts.nothing_to_deliver += 1;
            return;
        };
        let (bytes, kind, length) = lent(&self.to_server, first, alone);
        let mut table = [0; raw::MAX_PLACES];
        let mut answer = [0; raw::SIZE_ANSWER];
        let status = raw::read_at_server(&mut self.server, &bytes, &mut table, &mut answer);
        assert_eq!(status, raw::DONE, "a packet was not accepted: {bytes:02x?}");
        assert_eq!(answer[raw::ANSWER_BYTES] as usize, length);
        assert_eq!(answer[raw::ANSWER_KIND], kind);
        match kind {
            raw::KIND_SEND_HEADERS => {
                self.counts.strings += clear_strings(&bytes[..length], false);
            }
            raw::KIND_BODY_CHUNK if self.head => {
                assert_eq!(answer[raw::ANSWER_LENGTH], 0);
                self.counts.empty_chunks += 1;
            }
            raw::KIND_END => self.head = false,
            _ => {}
        }
        self.counts.delivered_to_server += 1;
        self.counts.delivered_with_others += u64::from(bytes.len() > length);
        self.to_server.pop_front();
        self.cross(&bytes[..length]);
    }

    /// A packet crosses at the server's end: the checker takes it, and then has the server's connection.
    fn cross(&mut self, packet: &[u8]) {
        // Long before a capture would be too long for the checker, another one begins.
        if self.checking[raw::CHECKING_PLACE] > u32::MAX / 2 && self.idle_checked() {
            self.finish_check();
        }
        let place = self.checking[raw::CHECKING_PLACE];
        let status = raw::check_go_on(&mut self.checking, packet);
        assert_eq!(status, raw::DONE);
        assert_eq!(self.checking[raw::CHECKING_REFUSAL], 0, "{packet:02x?}");
        let taken = self.checking[raw::CHECKING_PLACE] - place;
        assert_eq!(taken as usize, packet.len());
        assert_eq!(self.checking[..raw::SIZE_CONNECTION], self.server);
        self.counts.checked += 1;
    }

    /// Whether the checker stands where it began.
    fn idle_checked(&self) -> bool {
        self.checking[..raw::SIZE_CONNECTION] == fresh()
    }

    /// The capture of what crossed since the ends were fresh passes.
    fn finish_check(&mut self) {
        let mut checked = [0; raw::SIZE_CHECKED];
        let size = self.checking[raw::CHECKING_PLACE].into();
        let status = raw::check_finish(&self.checking, size, &mut checked);
        assert_eq!(status, raw::DONE);
        assert_eq!(checked[raw::CHECKED_REFUSAL], 0);
        assert_eq!(u64::from(checked[raw::CHECKED_PLACE]), size);
        assert_eq!(
            checked[raw::CHECKED_STATE],
            self.checking[raw::CONNECTION_STATE]
        );
        self.checking = begun();
    }

    /// What has to hold after every event.
    fn check(&mut self) {
        let empty = self.to_container.is_empty() && self.to_server.is_empty();
        if empty {
            self.counts.both_pipes_empty += 1;
            assert_eq!(self.server, self.container);
        }
        if self.server[raw::CONNECTION_STATE] == raw::STATE_IDLE {
            self.counts.server_idle += 1;
            assert!(empty);
            assert_eq!(self.container[raw::CONNECTION_STATE], raw::STATE_IDLE);
        }
        for connection in [&self.server, &self.container] {
            assert_eq!(raw::largest_body(connection), largest_body(connection));
        }
        self.check_empty_bodies();
        // The body bytes that are sent and not received are those in the pipe, in order.
        let in_pipe = self.to_container.iter().flat_map(|packet| packet.body());
        assert!(in_pipe.eq(&self.unread));
        assert!(self.got <= self.declared);
        // While a HEAD is under way no chunk with bytes is in the pipe to the server.
        if self.head {
            self.counts.with_head += 1;
            assert!(!self.to_server.iter().any(Packet::is_chunk_with_bytes));
        }
    }

    /// The two forms of an empty body packet, were one to come to the container's end now: with one due, the same
    /// answer and the same connection after it; with none due, each refused by its own number.
    fn check_empty_bodies(&mut self) {
        let before = self.container;
        let short = Tried::at(before, &[0x12, 0x34, 0, 0]);
        let long = Tried::at(before, &[0x12, 0x34, 0, 2, 0, 0]);
        if !Kind::Body.is_allowed(&before) {
            assert_eq!(short, Tried::refused(3, before));
            assert_eq!(long, Tried::refused(4, before));
        } else if raw::largest_body(&before) > 0 {
            self.counts.empty_refused += 1;
            assert_eq!(short, Tried::refused(14, before));
            assert_eq!(long, Tried::refused(14, before));
        } else {
            self.counts.empty_accepted += 1;
            assert_eq!(short, Tried::empty_body(4, before));
            assert_eq!(long, Tried::empty_body(6, before));
        }
    }
}

/// What a packet would come to at the container's end: the status, the connection after it and the answer.
#[derive(Debug, PartialEq, Eq)]
struct Tried {
    status: u32,
    connection: Connection,
    answer: [u32; raw::SIZE_ANSWER],
}

impl Tried {
    /// By reading it.
    fn at(mut connection: Connection, bytes: &[u8]) -> Tried {
        let mut answer = [0; raw::SIZE_ANSWER];
        let status = raw::read_at_container(&mut connection, bytes, &mut [], &mut answer);
        Tried {
            status,
            connection,
            answer,
        }
    }

    /// A refusal changes nothing.
    fn refused(status: u32, connection: Connection) -> Tried {
        Tried {
            status,
            connection,
            answer: [0; raw::SIZE_ANSWER],
        }
    }

    /// An empty body packet takes its bytes and is no longer due.
    fn empty_body(taken: u32, mut connection: Connection) -> Tried {
        connection[raw::CONNECTION_DUE] = 0;
        connection[raw::CONNECTION_ASKED] = 0;
        let mut answer = [0; raw::SIZE_ANSWER];
        answer[raw::ANSWER_KIND] = raw::KIND_BODY;
        answer[raw::ANSWER_BYTES] = taken;
        answer[raw::ANSWER_START] = 4;
        Tried {
            status: raw::DONE,
            connection,
            answer,
        }
    }
}

/// The bytes of a pipe's first packet, alone or with those behind it; its kind and its length.
fn lent(pipe: &VecDeque<Packet>, first: &Packet, alone: bool) -> (Vec<u8>, u32, usize) {
    let mut bytes = first.bytes.clone();
    if !alone {
        // A few packets are enough: what is read does not depend on those behind it.
        for packet in pipe.iter().skip(1).take(4) {
            bytes.extend(&packet.bytes);
        }
    }
    (bytes, first.kind, first.bytes.len())
}

/// Reads a Forward or a Send Headers once more and looks at every string that it hands out: none has a zero or a line end in it.
/// Answers how many there are.
fn clear_strings(packet: &[u8], to_container: bool) -> u64 {
    let mut places = Places::new();
    let mut connection = ajp13::Connection::fresh();
    let mut strings: Vec<&[u8]> = Vec::new();
    let read = if to_container {
        connection.read_at_container(packet, &mut places)
    } else {
        connection = ajp13::Connection::from_fields(ajp13::ConnectionFields {
            state: ajp13::State::Busy,
            ..Default::default()
        });
        connection.read_at_server(packet, &mut places)
    };
    let headers = match read {
        Ok(Received::Accepted {
            packet: Shown::Forward(forward),
            ..
        }) => {
            strings.extend([forward.protocol(), forward.req_uri()]);
            strings.extend(forward.remote_addr());
            strings.extend(forward.remote_host());
            strings.extend(forward.server_name());
            for attribute in forward.attributes() {
                match attribute {
                    Attribute::Text { value, .. } => strings.extend(value),
                    Attribute::Pair { name, value } => {
                        strings.push(name);
                        strings.extend(value);
                    }
                    _ => {}
                }
            }
            forward.headers()
        }
        Ok(Received::Accepted {
            packet: Shown::SendHeaders(response),
            ..
        }) => {
            strings.extend(response.message());
            response.headers()
        }
        other => panic!("{other:?}"),
    };
    for header in headers {
        if let HeaderName::Spelled(name) = header.name {
            strings.push(name);
        }
        strings.extend(header.value);
    }
    for string in &strings {
        let barred = string.iter().any(|byte| [0, b'\n', b'\r'].contains(byte));
        assert!(!barred, "{string:02x?} was handed out");
    }
    strings.len() as u64
}

impl Counts {
    /// Prints what happened.
    fn print(&self, seconds: f64) {
        println!("two ends: {} events in {seconds:.1} s", self.events);
        for (index, kind) in KINDS.iter().enumerate() {
            println!(
                "  {kind:?}: {} written, {} refused",
                self.written[index], self.refused[index]
            );
        }
        let refusals: Vec<String> = self
            .refusals
            .iter()
            .map(|(number, times)| format!("({number}) {times}"))
            .collect();
        println!("  refused: {}", refusals.join(", "));
        println!(
            "  delivered: {} to the container, {} to the server, {} of them with others behind; \
             {} times nothing",
            self.delivered_to_container,
            self.delivered_to_server,
            self.delivered_with_others,
            self.nothing_to_deliver
        );
        println!(
            "  {} requests, {} body bytes, {} bodies whole, {} times closed",
            self.requests, self.body_bytes, self.whole_bodies, self.closed
        );
        println!(
            "  both pipes empty {} times, server's end Idle {} times, {} packets checked",
            self.both_pipes_empty, self.server_idle, self.checked
        );
        println!(
            "  an empty body in either form accepted {} times, refused {} times",
            self.empty_accepted, self.empty_refused
        );
        println!(
            "  {} strings handed out, {} pieces with a zero or a line end refused",
            self.strings, self.barred_pieces
        );
        println!(
            "  a HEAD under way after {} events, {} empty chunks delivered for one, {} with bytes refused",
            self.with_head, self.empty_chunks, self.chunks_refused
        );
    }

    /// Every kind of event has to happen often; in a short run it may not.
    fn check(&self) {
        if self.events < 100_000 {
            return;
        }
        let often = self.events / 1000;
        for (index, kind) in KINDS.iter().enumerate() {
            assert!(self.written[index] > often, "{kind:?} seldom written");
            assert!(self.refused[index] > often, "{kind:?} seldom refused");
        }
        for number in [2, 6, 7, 13, 14, 15, 16] {
            let times = self.refusals.get(&number).copied().unwrap_or_default();
            assert!(times > often / 10, "seldom refused by {number}");
        }
        for times in [
            self.delivered_to_container,
            self.delivered_to_server,
            self.delivered_with_others,
            self.nothing_to_deliver,
            self.requests,
            self.body_bytes,
            self.whole_bodies,
            self.closed,
            self.both_pipes_empty,
            self.server_idle,
            self.checked,
            self.empty_accepted,
            self.empty_refused,
            self.barred_pieces,
            self.strings,
            self.with_head,
            self.empty_chunks,
            self.chunks_refused,
        ] {
            assert!(times > often, "some kind of event seldom happened");
        }
    }
}
