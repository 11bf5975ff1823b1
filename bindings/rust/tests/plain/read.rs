//! Reading packets, of the second implementation of document 01 that is written apart from the
//! library, for comparison and as the benchmark's baseline.

use super::connection::Kind;
use super::cursor::Cursor;
use super::fields::{self, AttributeKind, Headers, NULL};
use super::{
    code, Connection, Refusal, MAX_ATTRIBUTES, MAX_HEADERS, MAX_PAYLOAD, MAX_PLACES, TO_CONTAINER,
    TO_SERVER,
};

/// The end that reads.
#[derive(Clone, Copy, Debug, PartialEq, Eq)]
pub enum End {
    Container,
    Server,
}

/// An accepted packet; a string is told by its place, which is the place of its length.
#[derive(Clone, Copy, Debug, PartialEq, Eq)]
pub enum Packet {
    CPing,
    CPong,
    Forward(Forward),
    Body {
        start: u16,
        len: u16,
    },
    GetBody {
        asked: u16,
    },
    SendHeaders {
        status: u16,
        message: u16,
        headers: u16,
    },
    BodyChunk {
        start: u16,
        len: u16,
    },
    End {
        reuse: bool,
    },
}

/// The fixed fields of a Forward Request, its counts, and the content-length (0 where absent).
#[derive(Clone, Copy, Debug, PartialEq, Eq)]
pub struct Forward {
    pub method: u8,
    pub protocol: u16,
    pub req_uri: u16,
    pub remote_addr: u16,
    pub remote_host: u16,
    pub server_name: u16,
    pub server_port: u16,
    pub is_ssl: bool,
    pub headers: u16,
    pub attributes: u16,
    pub declared: u32,
}

/// What reading answers.
#[derive(Clone, Copy, Debug, PartialEq, Eq)]
pub enum Received {
    /// So many bytes are needed, from the packet's first.
    Needs(usize),
    Refused(u8),
    Accepted {
        packet: Packet,
        taken: usize,
        connection: Connection,
    },
}

/// Reads the packet that the bytes begin with, at the given end of a connection.
pub fn read(end: End, connection: Connection, bytes: &[u8], table: &mut [u16]) -> Received {
    let (packet, taken) = match whole_packet(end, bytes) {
        Ok(Whole::Packet(packet)) => (packet, packet.len()),
        Ok(Whole::Needs(needed)) => return Received::Needs(needed),
        Err(Refusal(number)) => return Received::Refused(number),
    };
    let mut cursor = Cursor::new(packet);
    let answer = match end {
        End::Container => to_container(&mut cursor, &connection, table),
        End::Server => to_server(&mut cursor, &connection, table),
    };
    match answer {
        Ok(packet) => Received::Accepted {
            packet,
            taken,
            connection: connection.step(&packet),
        },
        Err(Refusal(number)) => Received::Refused(number),
    }
}

/// The string at a place of a packet, or what is there of it; null is None.
pub fn text_at(packet: &[u8], place: u16) -> Option<&[u8]> {
    let Some(&[high, low, ref rest @ ..]) = packet.get(usize::from(place)..) else {
        return Some(&[]);
    };
    match u16::from_be_bytes([high, low]) {
        NULL => None,
        length => Some(rest.get(..usize::from(length)).unwrap_or(rest)),
    }
}

/// A whole packet, or how many bytes it needs.
enum Whole<'a> {
    Packet(&'a [u8]),
    Needs(usize),
}

/// Takes a whole packet from the front of the bytes, by its leading bytes and its length.
fn whole_packet(end: End, bytes: &[u8]) -> Result<Whole<'_>, Refusal> {
    let leading = match end {
        End::Container => TO_CONTAINER,
        End::Server => TO_SERVER,
    };
    if bytes.iter().zip(&leading).any(|(byte, lead)| byte != lead) {
        return Err(Refusal::LEADING_BYTES);
    }
    let &[_, _, high, low, ..] = bytes else {
        return Ok(Whole::Needs(4));
    };
    let length = usize::from(u16::from_be_bytes([high, low]));
    if length > MAX_PAYLOAD {
        return Err(Refusal::TOO_LONG);
    }
    Ok(match bytes.get(..4 + length) {
        Some(packet) => Whole::Packet(packet),
        None => Whole::Needs(4 + length),
    })
}

/// Reads the payload of a packet from the server.
fn to_container(
    cursor: &mut Cursor,
    connection: &Connection,
    table: &mut [u16],
) -> Result<Packet, Refusal> {
    if connection.body_due() {
        return body(cursor, connection);
    }
    match cursor.u8()? {
        code::FORWARD => {
            connection.check_state(Kind::Forward)?;
            forward(cursor, table)
        }
        code::CPING => {
            connection.check_state(Kind::CPing)?;
            cursor.finish()?;
            Ok(Packet::CPing)
        }
        code::SHUTDOWN | code::PING => Err(Refusal::NOT_SERVED),
        _ => Err(Refusal::CODE),
    }
}

/// Reads the payload of a packet from the container.
fn to_server(
    cursor: &mut Cursor,
    connection: &Connection,
    table: &mut [u16],
) -> Result<Packet, Refusal> {
    match cursor.u8()? {
        code::BODY_CHUNK => {
            connection.check_state(Kind::BodyChunk)?;
            let packet = body_chunk(cursor)?;
            if let Packet::BodyChunk { len, .. } = packet {
                connection.check_chunk(usize::from(len))?;
            }
            Ok(packet)
        }
        code::SEND_HEADERS => {
            connection.check_state(Kind::SendHeaders)?;
            send_headers(cursor, table)
        }
        code::END => {
            connection.check_state(Kind::End)?;
            let reuse = cursor.boolean()?;
            cursor.finish()?;
            Ok(Packet::End { reuse })
        }
        code::GET_BODY => {
            connection.check_state(Kind::GetBody)?;
            let asked = cursor.u16()?;
            cursor.finish()?;
            Ok(Packet::GetBody { asked })
        }
        code::CPONG => {
            connection.check_state(Kind::CPong)?;
            cursor.finish()?;
            Ok(Packet::CPong)
        }
        _ => Err(Refusal::CODE),
    }
}

/// Reads a body packet, which has no code. An empty one has no payload, or a size of 0 and nothing more: the two are the
/// same message, and the second one's place is told as the first one's.
fn body(cursor: &mut Cursor, connection: &Connection) -> Result<Packet, Refusal> {
    let empty = Packet::Body { start: 4, len: 0 };
    if cursor.is_at_end() {
        connection.check_body(0)?;
        return Ok(empty);
    }
    let len = cursor.u16()?;
    let start = cursor.place();
    cursor.take(usize::from(len))?;
    cursor.finish()?;
    connection.check_body(usize::from(len))?;
    Ok(match len {
        0 => empty,
        _ => Packet::Body { start, len },
    })
}

/// Reads a Send Body Chunk after its code.
fn body_chunk(cursor: &mut Cursor) -> Result<Packet, Refusal> {
    let len = cursor.u16()?;
    let start = cursor.place();
    let bytes = cursor.take(usize::from(len) + 1)?;
    if bytes.last() != Some(&0) {
        return Err(Refusal::STRING);
    }
    cursor.finish()?;
    Ok(Packet::BodyChunk { start, len })
}

/// Reads a Forward Request after its code.
fn forward(cursor: &mut Cursor, table: &mut [u16]) -> Result<Packet, Refusal> {
    let method = cursor.u8()?;
    fields::check_method(u16::from(method))?;
    let protocol = cursor.place();
    cursor.required_string()?;
    let req_uri = cursor.place();
    cursor.required_string()?;
    let remote_addr = cursor.place();
    cursor.string()?;
    let remote_host = cursor.place();
    cursor.string()?;
    let server_name = cursor.place();
    cursor.string()?;
    let server_port = cursor.u16()?;
    let is_ssl = cursor.boolean()?;

    let mut places = Places::new();
    let (headers, declared) = headers(cursor, Headers::Request, &mut places)?;
    let attributes = attributes(cursor, &mut places)?;
    cursor.finish()?;
    places.fill(table)?;
    Ok(Packet::Forward(Forward {
        method,
        protocol,
        req_uri,
        remote_addr,
        remote_host,
        server_name,
        server_port,
        is_ssl,
        headers,
        attributes,
        declared: declared.unwrap_or(0),
    }))
}

/// Reads a Send Headers after its code.
fn send_headers(cursor: &mut Cursor, table: &mut [u16]) -> Result<Packet, Refusal> {
    let status = cursor.u16()?;
    fields::check_status(status)?;
    let message = cursor.place();
    cursor.string()?;

    let mut places = Places::new();
    let (headers, _) = headers(cursor, Headers::Response, &mut places)?;
    cursor.finish()?;
    places.fill(table)?;
    Ok(Packet::SendHeaders {
        status,
        message,
        headers,
    })
}

/// Reads num_headers and the headers; answers how many, and a request's content-length.
fn headers(
    cursor: &mut Cursor,
    list: Headers,
    places: &mut Places,
) -> Result<(u16, Option<u32>), Refusal> {
    let count = cursor.u16()?;
    if count > MAX_HEADERS {
        return Err(Refusal::TOO_MANY);
    }
    let mut declared = None;
    for _ in 0..count {
        let name_place = cursor.place();
        let code = header_name(cursor, list)?;
        let value_place = cursor.place();
        let value = cursor.string()?;
        if code.is_some_and(|code| list.is_content_length(code)) {
            if declared.is_some() {
                return Err(Refusal::CONTENT_LENGTH);
            }
            declared = Some(fields::content_length(value)?);
        }
        places.push(name_place, value_place);
    }
    Ok((count, declared))
}

/// Reads a header name; answers its code where it is not spelled out.
fn header_name(cursor: &mut Cursor, list: Headers) -> Result<Option<u16>, Refusal> {
    let first = cursor.u16()?;
    if first >> 8 == 0xA0 {
        list.check_code(first)?;
        return Ok(Some(first));
    }
    let name = cursor.required_string_of(first)?;
    list.check_spelled(name)?;
    Ok(None)
}

/// Reads the attributes and the FF after them; answers how many.
fn attributes(cursor: &mut Cursor, places: &mut Places) -> Result<u16, Refusal> {
    let mut count = 0;
    let mut seen: u16 = 0;
    loop {
        let code_place = cursor.place();
        let code = cursor.u8()?;
        if code == code::NO_MORE_ATTRIBUTES {
            return Ok(count);
        }
        if count == MAX_ATTRIBUTES {
            return Err(Refusal::TOO_MANY);
        }
        let kind = fields::attribute_kind(u16::from(code))?;
        let bit = 1 << code;
        if kind == AttributeKind::Pair {
            cursor.required_string()?;
        } else if seen & bit != 0 {
            return Err(Refusal::ATTRIBUTE);
        }
        seen |= bit;
        let value_place = cursor.place();
        if kind == AttributeKind::Integer {
            cursor.u16()?;
        } else {
            cursor.string()?;
        }
        places.push(code_place, value_place);
        count += 1;
    }
}

/// The places of a packet's headers and attributes, kept until the whole packet is accepted.
struct Places {
    places: [u16; MAX_PLACES],
    count: usize,
}

impl Places {
    /// No places yet.
    fn new() -> Places {
        Places {
            places: [0; MAX_PLACES],
            count: 0,
        }
    }

    /// Adds the two places of a header or of an attribute.
    fn push(&mut self, first: u16, second: u16) {
        self.places[self.count] = first;
        self.places[self.count + 1] = second;
        self.count += 2;
    }

    /// Copies the places to the front of the lent table.
    fn fill(&self, table: &mut [u16]) -> Result<(), Refusal> {
        table
            .get_mut(..self.count)
            .ok_or(Refusal::NO_ROOM)?
            .copy_from_slice(&self.places[..self.count]);
        Ok(())
    }
}
