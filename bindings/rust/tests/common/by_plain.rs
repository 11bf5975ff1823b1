//! The library's calls, answered by the plain implementation: the same arguments, the same status,
//! and the same words written into the lent arrays, as `ajp13.h` and `ajp13_words.h` tell them.

// A Forward's five strings are five slices, as in the library's call.
#![allow(clippy::too_many_arguments)]

use crate::plain::{
    self, Added, Building, BuildingKind, Checked, Connection, End, Figures, Packet, Received, Sent,
    State, Stop,
};
use ajp13::raw::{
    ANSWER_BYTES, ANSWER_KIND, BUILDING_KIND, CHECKED_BODY, CHECKED_PACKETS, CHECKED_PLACE,
    CHECKED_REFUSAL, CHECKED_REQUESTS, CHECKED_STATE, CHECKING_BODY, CHECKING_PACKETS,
    CHECKING_PLACE, CHECKING_REFUSAL, CHECKING_REQUESTS, CONNECTION_ASKED, CONNECTION_DUE,
    CONNECTION_HEAD, CONNECTION_HEADERS, DONE, ERROR_ANSWER_LENGTH, ERROR_ARGUMENT,
    ERROR_BUILDING_LENGTH, ERROR_BUILDING_WORD, ERROR_CHECKING_LENGTH, ERROR_CHECKING_WORD,
    ERROR_CONNECTION_LENGTH, ERROR_CONNECTION_WORD, ERROR_FIXED_LENGTH, ERROR_FIXED_WORD,
    KIND_BODY, KIND_BODY_CHUNK, KIND_CPING, KIND_CPONG, KIND_END, KIND_FORWARD, KIND_GET_BODY,
    KIND_SEND_HEADERS, LIST_ATTRIBUTES, LIST_METHODS, LIST_REQUEST_HEADERS, LIST_RESPONSE_HEADERS,
    NEEDS, SIZE_ANSWER, SIZE_BUILDING, SIZE_CHECKED, SIZE_CHECKING, SIZE_CONNECTION, SIZE_NAME,
    SIZE_TEXT, STATE_BUSY, STATE_CLOSED, STATE_IDLE, STATE_PINGED, VALUE_INTEGER, VALUE_NOT_SERVED,
    VALUE_PAIR, VALUE_TEXT,
};

/// A call that came to its end, or the refusal or the error that it returns.
type Outcome = Result<(), u32>;

/// The status that tells an outcome.
fn status(outcome: Outcome) -> u32 {
    match outcome {
        Ok(()) => DONE,
        Err(status) => status,
    }
}

/// Tells an error where something does not hold.
fn ensure(holds: bool, error: u32) -> Outcome {
    if holds {
        Ok(())
    } else {
        Err(error)
    }
}

/// A word that has to be a 16-bit number.
fn short(word: u32, error: u32) -> Result<u16, u32> {
    u16::try_from(word).map_err(|_| error)
}

/// A word for a number of 16 bits that has a range of its own: what does not fit is taken as 65535,
/// which is out of every such range.
fn ranged(word: u32) -> u16 {
    u16::try_from(word).unwrap_or(u16::MAX)
}

/// A word that has to be a flag.
fn flag(word: u32, error: u32) -> Result<bool, u32> {
    match word {
        0 => Ok(false),
        1 => Ok(true),
        _ => Err(error),
    }
}

/// A string that is given as its bytes and a flag that says whether it is null.
fn string(bytes: &[u8], null: u32, error: u32) -> Result<Option<&[u8]>, u32> {
    Ok(if flag(null, error)? {
        None
    } else {
        Some(bytes)
    })
}

/// The connection that an array holds.
fn connection_in(words: &[u32]) -> Result<Connection, u32> {
    let &[state, left, due, asked, headers, head, edition, open] = words else {
        return Err(ERROR_CONNECTION_LENGTH);
    };
    ensure([edition, open] == [0; 2], ERROR_CONNECTION_WORD)?;
    let state = match state {
        STATE_IDLE => State::Idle,
        STATE_PINGED => State::Pinged,
        STATE_BUSY => State::Busy,
        STATE_CLOSED => State::Closed,
        _ => return Err(ERROR_CONNECTION_WORD),
    };
    // What does not count may be any word.
    if state != State::Busy {
        return Ok(Connection {
            state,
            ..Connection::fresh()
        });
    }
    let due = flag(due, ERROR_CONNECTION_WORD)?;
    let asked = if due { asked } else { 0 };
    Ok(Connection {
        state,
        left,
        due,
        asked: short(asked, ERROR_CONNECTION_WORD)?,
        headers: flag(headers, ERROR_CONNECTION_WORD)?,
        head: flag(head, ERROR_CONNECTION_WORD)?,
    })
}

/// The word of a state.
fn state_word(state: State) -> u32 {
    match state {
        State::Idle => STATE_IDLE,
        State::Pinged => STATE_PINGED,
        State::Busy => STATE_BUSY,
        State::Closed => STATE_CLOSED,
    }
}

/// The words of a connection.
fn connection_words(connection: Connection) -> [u32; SIZE_CONNECTION] {
    [
        state_word(connection.state),
        connection.left,
        connection.due.into(),
        connection.asked.into(),
        connection.headers.into(),
        connection.head.into(),
        0,
        0,
    ]
}

/// The building record that an array holds.
fn building_in(words: &[u32]) -> Result<Building, u32> {
    let &[kind, next, count, headers, attributes] = words else {
        return Err(ERROR_BUILDING_LENGTH);
    };
    Ok(Building {
        kind: match kind {
            KIND_FORWARD => BuildingKind::Forward,
            KIND_SEND_HEADERS => BuildingKind::SendHeaders,
            _ => return Err(ERROR_BUILDING_WORD),
        },
        next: ranged(next),
        count: ranged(count),
        headers: ranged(headers),
        attributes: flag(attributes, ERROR_BUILDING_WORD)?,
    })
}

/// The words of a building record.
fn building_words(building: Building) -> [u32; SIZE_BUILDING] {
    let kind = match building.kind {
        BuildingKind::Forward => KIND_FORWARD,
        BuildingKind::SendHeaders => KIND_SEND_HEADERS,
    };
    [
        kind,
        building.next.into(),
        building.count.into(),
        building.headers.into(),
        building.attributes.into(),
    ]
}

/// The words that tell of a packet that was read.
fn packet_words(packet: Packet, taken: usize) -> [u32; SIZE_ANSWER] {
    let taken = taken as u32;
    let mut words = [0; SIZE_ANSWER];
    let mut tell = |kind: u32, fields: &[u32]| {
        words[ANSWER_KIND] = kind;
        words[ANSWER_BYTES] = taken;
        words[2..2 + fields.len()].copy_from_slice(fields);
    };
    match packet {
        Packet::CPing => tell(KIND_CPING, &[]),
        Packet::CPong => tell(KIND_CPONG, &[]),
        Packet::Forward(forward) => tell(
            KIND_FORWARD,
            &[
                forward.method.into(),
                forward.protocol.into(),
                forward.req_uri.into(),
                forward.remote_addr.into(),
                forward.remote_host.into(),
                forward.server_name.into(),
                forward.server_port.into(),
                forward.is_ssl.into(),
                forward.headers.into(),
                forward.attributes.into(),
                forward.declared,
            ],
        ),
        Packet::Body { start, len } => tell(KIND_BODY, &[start.into(), len.into()]),
        Packet::GetBody { asked } => tell(KIND_GET_BODY, &[asked.into()]),
        Packet::SendHeaders {
            status,
            message,
            headers,
        } => {
            // The headers are counted in the same word as a Forward's.
            let fields = [
                status.into(),
                message.into(),
                0,
                0,
                0,
                0,
                0,
                0,
                headers.into(),
            ];
            tell(KIND_SEND_HEADERS, &fields);
        }
        Packet::BodyChunk { start, len } => tell(KIND_BODY_CHUNK, &[start.into(), len.into()]),
        Packet::End { reuse } => tell(KIND_END, &[reuse.into()]),
    }
    words
}

/// Makes a connection fresh.
pub fn fresh(connection: &mut [u32]) -> u32 {
    if connection.len() != SIZE_CONNECTION {
        return ERROR_CONNECTION_LENGTH;
    }
    connection.copy_from_slice(&connection_words(Connection::fresh()));
    DONE
}

/// The most bytes that the due body packet may hold.
pub fn largest_body(connection: &[u32]) -> u32 {
    match connection_in(connection) {
        Ok(connection) => connection.body_limit(),
        Err(error) => error,
    }
}

/// Reads at the container's end.
pub fn read_at_container(
    connection: &mut [u32],
    bytes: &[u8],
    table: &mut [u16],
    answer: &mut [u32],
) -> u32 {
    status(read(End::Container, connection, bytes, table, answer))
}

/// Reads at the server's end.
pub fn read_at_server(
    connection: &mut [u32],
    bytes: &[u8],
    table: &mut [u16],
    answer: &mut [u32],
) -> u32 {
    status(read(End::Server, connection, bytes, table, answer))
}

/// Reads at an end.
fn read(
    end: End,
    connection: &mut [u32],
    bytes: &[u8],
    table: &mut [u16],
    answer: &mut [u32],
) -> Outcome {
    let before = connection_in(connection)?;
    ensure(answer.len() == SIZE_ANSWER, ERROR_ANSWER_LENGTH)?;
    match plain::read(end, before, bytes, table) {
        Received::Needs(needed) => {
            answer.fill(0);
            answer[ANSWER_BYTES] = needed as u32;
            Err(NEEDS)
        }
        Received::Refused(number) => Err(number.into()),
        Received::Accepted {
            packet,
            taken,
            connection: after,
        } => {
            connection.copy_from_slice(&connection_words(after));
            answer.copy_from_slice(&packet_words(packet, taken));
            Ok(())
        }
    }
}

/// Sends a packet of a kind by a call of the plain implementation.
fn send(
    kind: u32,
    connection: &mut [u32],
    answer: &mut [u32],
    call: impl FnOnce(Connection) -> Result<Sent, u32>,
) -> u32 {
    status((|| {
        let before = connection_in(connection)?;
        ensure(answer.len() == SIZE_ANSWER, ERROR_ANSWER_LENGTH)?;
        match call(before)? {
            Sent::Refused(number) => Err(number.into()),
            Sent::Written {
                length,
                connection: after,
            } => {
                connection.copy_from_slice(&connection_words(after));
                answer.fill(0);
                answer[ANSWER_KIND] = kind;
                answer[ANSWER_BYTES] = length as u32;
                Ok(())
            }
        }
    })())
}

/// Sends a CPing.
pub fn cping(connection: &mut [u32], buffer: &mut [u8], answer: &mut [u32]) -> u32 {
    send(KIND_CPING, connection, answer, |before| {
        Ok(plain::cping(before, buffer))
    })
}

/// Sends a CPong.
pub fn cpong(connection: &mut [u32], buffer: &mut [u8], answer: &mut [u32]) -> u32 {
    send(KIND_CPONG, connection, answer, |before| {
        Ok(plain::cpong(before, buffer))
    })
}

/// Sends a body packet.
pub fn body(connection: &mut [u32], buffer: &mut [u8], bytes: &[u8], answer: &mut [u32]) -> u32 {
    send(KIND_BODY, connection, answer, |before| {
        Ok(plain::body(before, buffer, bytes))
    })
}

/// Sends a Send Body Chunk.
pub fn body_chunk(
    connection: &mut [u32],
    buffer: &mut [u8],
    bytes: &[u8],
    answer: &mut [u32],
) -> u32 {
    send(KIND_BODY_CHUNK, connection, answer, |before| {
        Ok(plain::body_chunk(before, buffer, bytes))
    })
}

/// Sends a Get Body Chunk.
pub fn get_body(connection: &mut [u32], buffer: &mut [u8], asked: u32, answer: &mut [u32]) -> u32 {
    send(KIND_GET_BODY, connection, answer, |before| {
        Ok(plain::get_body(
            before,
            buffer,
            short(asked, ERROR_ARGUMENT)?,
        ))
    })
}

/// Sends an End Response.
pub fn end(connection: &mut [u32], buffer: &mut [u8], reuse: u32, answer: &mut [u32]) -> u32 {
    send(KIND_END, connection, answer, |before| {
        Ok(plain::end(before, buffer, ranged(reuse)))
    })
}

/// Closes a packet that was built in pieces.
pub fn close(
    connection: &mut [u32],
    building: &[u32],
    buffer: &mut [u8],
    answer: &mut [u32],
) -> u32 {
    // An error of the connection is told before one of the building record, and that before an
    // answer of a wrong length.
    let record = match connection_in(connection).and_then(|_| building_in(building)) {
        Ok(record) => record,
        Err(error) => return error,
    };
    let kind = building[BUILDING_KIND];
    send(kind, connection, answer, |before| {
        Ok(plain::close(before, record, buffer))
    })
}

/// Tells in the building record what a piece came to.
fn added(building: &mut [u32], answer: Added) -> Outcome {
    match answer {
        Added::Refused(number) => Err(number.into()),
        Added::Next(record) => {
            building.copy_from_slice(&building_words(record));
            Ok(())
        }
    }
}

/// Begins a Forward Request.
pub fn begin_forward(
    building: &mut [u32],
    buffer: &mut [u8],
    fixed: &[u32],
    protocol: &[u8],
    req_uri: &[u8],
    remote_addr: &[u8],
    remote_host: &[u8],
    server_name: &[u8],
) -> u32 {
    status((|| {
        ensure(building.len() == SIZE_BUILDING, ERROR_BUILDING_LENGTH)?;
        let &[method, port, is_ssl, no_protocol, no_req_uri, no_addr, no_host, no_name] = fixed
        else {
            return Err(ERROR_FIXED_LENGTH);
        };
        let answer = plain::begin_forward(
            buffer,
            ranged(method),
            string(protocol, no_protocol, ERROR_FIXED_WORD)?,
            string(req_uri, no_req_uri, ERROR_FIXED_WORD)?,
            string(remote_addr, no_addr, ERROR_FIXED_WORD)?,
            string(remote_host, no_host, ERROR_FIXED_WORD)?,
            string(server_name, no_name, ERROR_FIXED_WORD)?,
            short(port, ERROR_FIXED_WORD)?,
            ranged(is_ssl),
        );
        added(building, answer)
    })())
}

/// Begins a Send Headers.
pub fn begin_send_headers(
    building: &mut [u32],
    buffer: &mut [u8],
    response_status: u32,
    message: &[u8],
    null: u32,
) -> u32 {
    status((|| {
        ensure(building.len() == SIZE_BUILDING, ERROR_BUILDING_LENGTH)?;
        let message = string(message, null, ERROR_ARGUMENT)?;
        let answer = plain::begin_send_headers(buffer, ranged(response_status), message);
        added(building, answer)
    })())
}

/// Adds a header by its code.
pub fn header_coded(
    building: &mut [u32],
    buffer: &mut [u8],
    code: u32,
    value: &[u8],
    null: u32,
) -> u32 {
    status((|| {
        let record = building_in(building)?;
        let value = string(value, null, ERROR_ARGUMENT)?;
        let answer = plain::header_coded(record, buffer, ranged(code), value);
        added(building, answer)
    })())
}

/// Adds a header whose name is spelled out.
pub fn header_spelled(
    building: &mut [u32],
    buffer: &mut [u8],
    name: &[u8],
    noname: u32,
    value: &[u8],
    novalue: u32,
) -> u32 {
    status((|| {
        let record = building_in(building)?;
        let name = string(name, noname, ERROR_ARGUMENT)?;
        let value = string(value, novalue, ERROR_ARGUMENT)?;
        added(building, plain::header_spelled(record, buffer, name, value))
    })())
}

/// Adds a header by its name, listed or not.
pub fn header_named(
    building: &mut [u32],
    buffer: &mut [u8],
    name: &[u8],
    value: &[u8],
    null: u32,
) -> u32 {
    status((|| {
        let record = building_in(building)?;
        let value = string(value, null, ERROR_ARGUMENT)?;
        added(building, plain::header_named(record, buffer, name, value))
    })())
}

/// Adds an attribute whose value is a string.
pub fn attribute_text(
    building: &mut [u32],
    buffer: &mut [u8],
    code: u32,
    value: &[u8],
    null: u32,
) -> u32 {
    status((|| {
        let record = building_in(building)?;
        let value = string(value, null, ERROR_ARGUMENT)?;
        let answer = plain::attribute_text(record, buffer, ranged(code), value);
        added(building, answer)
    })())
}

/// Adds an attribute whose value is an integer.
pub fn attribute_integer(building: &mut [u32], buffer: &mut [u8], code: u32, value: u32) -> u32 {
    status((|| {
        let record = building_in(building)?;
        let value = short(value, ERROR_ARGUMENT)?;
        let answer = plain::attribute_integer(record, buffer, ranged(code), value);
        added(building, answer)
    })())
}

/// Adds an attribute that brings its own name with it.
pub fn attribute_pair(
    building: &mut [u32],
    buffer: &mut [u8],
    code: u32,
    name: &[u8],
    noname: u32,
    value: &[u8],
    novalue: u32,
) -> u32 {
    status((|| {
        let record = building_in(building)?;
        let name = string(name, noname, ERROR_ARGUMENT)?;
        let value = string(value, novalue, ERROR_ARGUMENT)?;
        let answer = plain::attribute_pair(record, buffer, ranged(code), name, value);
        added(building, answer)
    })())
}

/// The string at a place.
pub fn text_at(packet: &[u8], place: u32, text: &mut [u32]) -> u32 {
    status((|| {
        ensure(text.len() == SIZE_TEXT, ERROR_ANSWER_LENGTH)?;
        let place = short(place, ERROR_ARGUMENT)?;
        text.copy_from_slice(&text_words(packet, usize::from(place)));
        Ok(())
    })())
}

/// The name that an attribute 0A brings with it: the string right behind the code's place.
pub fn attribute_name_at(packet: &[u8], place: u32, text: &mut [u32]) -> u32 {
    status((|| {
        ensure(text.len() == SIZE_TEXT, ERROR_ANSWER_LENGTH)?;
        let place = short(place, ERROR_ARGUMENT)?;
        text.copy_from_slice(&text_words(packet, usize::from(place) + 1));
        Ok(())
    })())
}

/// The words that tell of the string at an index. Its bytes start behind its length; where the
/// length is not there, it is empty and starts at the packet's end.
fn text_words(packet: &[u8], at: usize) -> [u32; SIZE_TEXT] {
    let start = at + 2;
    if start > packet.len() {
        return [packet.len() as u32, 0, 0];
    }
    match plain::text_at(&packet[at..], 0) {
        None => [start as u32, 0, 1],
        Some(text) => [start as u32, text.len() as u32, 0],
    }
}

/// The bytes of a packet from a place on.
fn from_place(packet: &[u8], place: u32) -> Result<&[u8], u32> {
    let place = short(place, ERROR_ARGUMENT)?;
    Ok(packet.get(usize::from(place)..).unwrap_or_default())
}

/// The integer at a place, 0 where it is not there.
pub fn integer_at(packet: &[u8], place: u32) -> u32 {
    match from_place(packet, place) {
        Err(error) => error,
        Ok(&[high, low, ..]) => u16::from_be_bytes([high, low]).into(),
        Ok(_) => 0,
    }
}

/// The code of a header's name, 0 where the name is spelled.
pub fn header_code_at(packet: &[u8], place: u32) -> u32 {
    match from_place(packet, place) {
        Err(error) => error,
        Ok(&[0xA0, low, ..]) => 0xA000 + u32::from(low),
        Ok(_) => 0,
    }
}

/// An attribute's code, 0 where nothing is there.
pub fn attribute_code_at(packet: &[u8], place: u32) -> u32 {
    match from_place(packet, place) {
        Err(error) => error,
        Ok(&[code, ..]) => code.into(),
        Ok(_) => 0,
    }
}

/// What kind of value an attribute has.
pub fn attribute_kind_at(packet: &[u8], place: u32) -> u32 {
    match attribute_code_at(packet, place) {
        ERROR_ARGUMENT => ERROR_ARGUMENT,
        0x0A => VALUE_PAIR,
        0x0B => VALUE_INTEGER,
        code if plain::attribute_name(code as u16).is_some() => VALUE_TEXT,
        _ => VALUE_NOT_SERVED,
    }
}

/// The name that is listed for a code.
pub fn name(list: u32, code: u32, name: &mut [u8]) -> u32 {
    if name.len() != SIZE_NAME {
        return ERROR_ANSWER_LENGTH;
    }
    let code = ranged(code);
    let found = match list {
        LIST_METHODS => plain::method_name(code),
        LIST_REQUEST_HEADERS => plain::request_header_name(code),
        LIST_RESPONSE_HEADERS => plain::response_header_name(code),
        LIST_ATTRIBUTES => plain::attribute_name(code),
        _ => return ERROR_ARGUMENT,
    };
    let Some(found) = found else { return 0 };
    name.fill(0);
    name[..found.len()].copy_from_slice(found.as_bytes());
    found.len() as u32
}

/// The code that is listed for a name.
pub fn code(list: u32, text: &[u8]) -> u32 {
    let found = match list {
        LIST_METHODS => plain::method_code(text),
        LIST_REQUEST_HEADERS => plain::request_header_code(text),
        LIST_RESPONSE_HEADERS => plain::response_header_code(text),
        LIST_ATTRIBUTES => plain::attribute_code(text),
        _ => return ERROR_ARGUMENT,
    };
    found.map_or(0, u32::from)
}

/// A check on the way.
struct Checking {
    connection: Connection,
    figures: Figures,
    place: u32,
    /// The number of the refusal, 0 for none.
    refusal: u32,
}

/// The check on the way that an array holds.
fn checking_in(words: &[u32]) -> Result<Checking, u32> {
    ensure(words.len() == SIZE_CHECKING, ERROR_CHECKING_LENGTH)?;
    let connection = connection_in(&words[..SIZE_CONNECTION]);
    let checking = Checking {
        connection: connection.map_err(|_| ERROR_CHECKING_WORD)?,
        figures: Figures {
            packets: words[CHECKING_PACKETS],
            requests: words[CHECKING_REQUESTS],
            body: words[CHECKING_BODY],
        },
        place: words[CHECKING_PLACE],
        refusal: words[CHECKING_REFUSAL],
    };
    // No packet is empty, so none of these is above the bytes of all packets.
    let Figures {
        packets,
        requests,
        body,
    } = checking.figures;
    let most = packets.max(requests).max(body);
    ensure(most <= checking.place, ERROR_CHECKING_WORD)?;
    ensure(
        checking.refusal == 0 || plain::is_refusal(checking.refusal),
        ERROR_CHECKING_WORD,
    )?;
    let kept = &words[CHECKING_REFUSAL + 1..];
    ensure(kept.iter().all(|word| *word == 0), ERROR_CHECKING_WORD)?;
    Ok(checking)
}

/// The words of a checker's answer.
fn checked_words(checked: Checked) -> [u32; SIZE_CHECKED] {
    let mut words = [0; SIZE_CHECKED];
    words[CHECKED_PACKETS] = checked.figures.packets;
    words[CHECKED_REQUESTS] = checked.figures.requests;
    words[CHECKED_BODY] = checked.figures.body;
    words[CHECKED_STATE] = state_word(checked.state);
    words[CHECKED_REFUSAL] = checked.refusal.into();
    words[CHECKED_PLACE] = checked.place;
    words
}

/// Checks a whole capture.
pub fn check(capture: &[u8], checked: &mut [u32]) -> u32 {
    status((|| {
        ensure(checked.len() == SIZE_CHECKED, ERROR_ANSWER_LENGTH)?;
        checked.copy_from_slice(&checked_words(plain::check(capture)));
        Ok(())
    })())
}

/// Begins a check in parts.
pub fn check_begin(checking: &mut [u32]) -> u32 {
    if checking.len() != SIZE_CHECKING {
        return ERROR_CHECKING_LENGTH;
    }
    let (connection, rest) = checking.split_at_mut(SIZE_CONNECTION);
    connection.copy_from_slice(&connection_words(Connection::fresh()));
    rest.fill(0);
    DONE
}

/// Brings the words of a connection into range that are out of it, which is no error where they do
/// not count.
fn bring_into_range(connection: &mut [u32]) {
    for flag in [CONNECTION_DUE, CONNECTION_HEADERS, CONNECTION_HEAD] {
        if connection[flag] > 1 {
            connection[flag] = 0;
        }
    }
    connection[CONNECTION_ASKED] = connection[CONNECTION_ASKED].min(u16::MAX.into());
}

/// Goes on with a check in parts.
pub fn check_go_on(checking: &mut [u32], bytes: &[u8]) -> u32 {
    status((|| {
        let before = checking_in(checking)?;
        bring_into_range(&mut checking[..SIZE_CONNECTION]);
        // Behind the first fault nothing is judged, nor behind the most bytes of a capture.
        if before.refusal != 0 {
            return Ok(());
        }
        let room = (plain::MAX_CAPTURE - before.place) as usize;
        let judged = plain::judge(before.connection, &bytes[..bytes.len().min(room)]);
        // A packet that is accepted steps the connection; without one its words stay.
        if judged.figures.packets > 0 {
            checking[..SIZE_CONNECTION].copy_from_slice(&connection_words(judged.connection));
        }
        checking[CHECKING_PACKETS] += judged.figures.packets;
        checking[CHECKING_REQUESTS] += judged.figures.requests;
        checking[CHECKING_BODY] += judged.figures.body;
        checking[CHECKING_PLACE] += judged.length;
        if let Stop::Refused(number) = judged.stop {
            checking[CHECKING_REFUSAL] = number.into();
        }
        Ok(())
    })())
}

/// The answer of a check in parts.
pub fn check_finish(checking: &[u32], size: u64, checked: &mut [u32]) -> u32 {
    status((|| {
        ensure(checked.len() == SIZE_CHECKED, ERROR_ANSWER_LENGTH)?;
        let checking = checking_in(checking)?;
        let stop = match checking.refusal {
            0 if u64::from(checking.place) == size => Stop::AtEnd,
            0 => Stop::Unfinished,
            number => Stop::Refused(number as u8),
        };
        let (refusal, place) = plain::verdict(stop, checking.place, size);
        checked.copy_from_slice(&checked_words(Checked {
            figures: checking.figures,
            state: checking.connection.state,
            refusal,
            place,
        }));
        Ok(())
    })())
}
