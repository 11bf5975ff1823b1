//! Packets that one call writes, of the second implementation of document 01 that is written apart
//! from the library, for comparison and as the benchmark's baseline.

use super::connection::Kind;
use super::writer::Writer;
use super::{code, fields, Connection, Packet, Refusal, MAX_CHUNK, TO_CONTAINER, TO_SERVER};

/// What a call that sends answers.
#[derive(Clone, Copy, Debug, PartialEq, Eq)]
pub enum Sent {
    Refused(u8),
    /// The packet stands from the buffer's first byte.
    Written {
        length: usize,
        connection: Connection,
    },
}

impl From<Result<(usize, Connection), Refusal>> for Sent {
    /// The answer that a call gives to its caller.
    fn from(answer: Result<(usize, Connection), Refusal>) -> Sent {
        match answer {
            Ok((length, connection)) => Sent::Written { length, connection },
            Err(Refusal(number)) => Sent::Refused(number),
        }
    }
}

/// Writes a CPing.
pub fn cping(connection: Connection, buffer: &mut [u8]) -> Sent {
    let [a, b] = TO_CONTAINER;
    let bytes = [a, b, 0, 1, code::CPING];
    write_fixed(connection, buffer, Kind::CPing, Packet::CPing, &bytes).into()
}

/// Writes a CPong.
pub fn cpong(connection: Connection, buffer: &mut [u8]) -> Sent {
    let [a, b] = TO_SERVER;
    let bytes = [a, b, 0, 1, code::CPONG];
    write_fixed(connection, buffer, Kind::CPong, Packet::CPong, &bytes).into()
}

/// Writes a Get Body Chunk.
pub fn get_body(connection: Connection, buffer: &mut [u8], asked: u16) -> Sent {
    let [a, b] = TO_SERVER;
    let [high, low] = asked.to_be_bytes();
    let bytes = [a, b, 0, 3, code::GET_BODY, high, low];
    let packet = Packet::GetBody { asked };
    write_fixed(connection, buffer, Kind::GetBody, packet, &bytes).into()
}

/// Writes an End Response; reuse is 0 or 1.
pub fn end(connection: Connection, buffer: &mut [u8], reuse: u16) -> Sent {
    write_end(connection, buffer, reuse).into()
}

/// Writes a body packet.
pub fn body(connection: Connection, buffer: &mut [u8], bytes: &[u8]) -> Sent {
    write_body(connection, buffer, bytes).into()
}

/// Writes a Send Body Chunk.
pub fn body_chunk(connection: Connection, buffer: &mut [u8], bytes: &[u8]) -> Sent {
    write_body_chunk(connection, buffer, bytes).into()
}

/// Checks and writes an End Response.
fn write_end(
    connection: Connection,
    buffer: &mut [u8],
    reuse: u16,
) -> Result<(usize, Connection), Refusal> {
    connection.check_state(Kind::End)?;
    let reuse = fields::boolean(reuse)?;
    let [a, b] = TO_SERVER;
    let bytes = [a, b, 0, 2, code::END, u8::from(reuse)];
    write_fixed(connection, buffer, Kind::End, Packet::End { reuse }, &bytes)
}

/// Writes a short packet whose bytes are known, where its kind is allowed.
fn write_fixed(
    connection: Connection,
    buffer: &mut [u8],
    kind: Kind,
    packet: Packet,
    bytes: &[u8],
) -> Result<(usize, Connection), Refusal> {
    connection.check_state(kind)?;
    buffer
        .get_mut(..bytes.len())
        .ok_or(Refusal::NO_ROOM)?
        .copy_from_slice(bytes);
    Ok((bytes.len(), connection.step(&packet)))
}

/// Checks and writes a body packet; an empty one has no size.
fn write_body(
    connection: Connection,
    buffer: &mut [u8],
    bytes: &[u8],
) -> Result<(usize, Connection), Refusal> {
    connection.check_state(Kind::Body)?;
    connection.check_body(bytes.len())?;
    if bytes.is_empty() {
        let mut writer = Writer::new(buffer, 0, 4)?;
        writer.bytes(&TO_CONTAINER);
        writer.u16(0);
        let packet = Packet::Body { start: 4, len: 0 };
        return Ok((writer.written(), connection.step(&packet)));
    }
    // The size was checked against a limit of at most 8186.
    let len = bytes.len() as u16;
    let mut writer = Writer::new(buffer, 0, 6 + bytes.len())?;
    writer.bytes(&TO_CONTAINER);
    writer.u16(len + 2);
    writer.u16(len);
    writer.bytes(bytes);
    let packet = Packet::Body { start: 6, len };
    Ok((writer.written(), connection.step(&packet)))
}

/// Checks and writes a Send Body Chunk.
fn write_body_chunk(
    connection: Connection,
    buffer: &mut [u8],
    bytes: &[u8],
) -> Result<(usize, Connection), Refusal> {
    connection.check_state(Kind::BodyChunk)?;
    connection.check_chunk(bytes.len())?;
    if bytes.len() > MAX_CHUNK {
        return Err(Refusal::TOO_LONG);
    }
    let len = bytes.len() as u16;
    let mut writer = Writer::new(buffer, 0, 8 + bytes.len())?;
    writer.bytes(&TO_SERVER);
    writer.u16(len + 4);
    writer.u8(code::BODY_CHUNK);
    writer.u16(len);
    writer.bytes(bytes);
    writer.u8(0);
    let packet = Packet::BodyChunk { start: 7, len };
    Ok((writer.written(), connection.step(&packet)))
}
