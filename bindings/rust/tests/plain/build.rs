//! Packets that are built in pieces (Forward Request and Send Headers), of the second
//! implementation of document 01 that is written apart from the library, for comparison and as the
//! benchmark's baseline.

use super::connection::Kind;
use super::fields::{self, AttributeKind, Headers};
use super::send::Sent;
use super::writer::{string_size, Writer};
use super::{
    code, read, Connection, End, Received, Refusal, MAX_HEADERS, MAX_PACKET, MAX_PLACES,
    TO_CONTAINER, TO_SERVER,
};

/// The packets that are built in pieces.
#[derive(Clone, Copy, Debug, PartialEq, Eq)]
pub enum BuildingKind {
    Forward,
    SendHeaders,
}

/// How far a packet is built.
#[derive(Clone, Copy, Debug, PartialEq, Eq)]
pub struct Building {
    pub kind: BuildingKind,
    /// The place of the next piece.
    pub next: u16,
    /// The place of num_headers.
    pub count: u16,
    /// The headers so far.
    pub headers: u16,
    /// Whether attributes began.
    pub attributes: bool,
}

/// What adding a piece answers.
#[derive(Clone, Copy, Debug, PartialEq, Eq)]
pub enum Added {
    Refused(u8),
    Next(Building),
}

impl From<Result<Building, Refusal>> for Added {
    /// The answer that a call gives to its caller.
    fn from(answer: Result<Building, Refusal>) -> Added {
        match answer {
            Ok(building) => Added::Next(building),
            Err(Refusal(number)) => Added::Refused(number),
        }
    }
}

/// Writes the fixed fields of a Forward Request; is_ssl is 0 or 1.
#[allow(clippy::too_many_arguments)]
pub fn begin_forward(
    buffer: &mut [u8],
    method: u16,
    protocol: Option<&[u8]>,
    req_uri: Option<&[u8]>,
    remote_addr: Option<&[u8]>,
    remote_host: Option<&[u8]>,
    server_name: Option<&[u8]>,
    server_port: u16,
    is_ssl: u16,
) -> Added {
    let strings = [protocol, req_uri, remote_addr, remote_host, server_name];
    write_forward(buffer, method, strings, server_port, is_ssl).into()
}

/// Writes the fixed fields of a Send Headers.
pub fn begin_send_headers(buffer: &mut [u8], status: u16, message: Option<&[u8]>) -> Added {
    write_send_headers(buffer, status, message).into()
}

/// Adds a header whose name is given by its code.
pub fn header_coded(
    building: Building,
    buffer: &mut [u8],
    code: u16,
    value: Option<&[u8]>,
) -> Added {
    add_header(building, buffer, Name::Coded(code), value).into()
}

/// Adds a header whose name is spelled out.
pub fn header_spelled(
    building: Building,
    buffer: &mut [u8],
    name: Option<&[u8]>,
    value: Option<&[u8]>,
) -> Added {
    add_header(building, buffer, Name::Spelled(name), value).into()
}

/// Adds a header by the code of its name where the name is listed, else spelled out.
pub fn header_named(
    building: Building,
    buffer: &mut [u8],
    name: &[u8],
    value: Option<&[u8]>,
) -> Added {
    let name = match building.list().code(name) {
        Some(code) => Name::Coded(code),
        None => Name::Spelled(Some(name)),
    };
    add_header(building, buffer, name, value).into()
}

/// Adds an attribute whose value is a string.
pub fn attribute_text(
    building: Building,
    buffer: &mut [u8],
    code: u16,
    value: Option<&[u8]>,
) -> Added {
    add_attribute(building, buffer, code, Value::Text(value)).into()
}

/// Adds an attribute whose value is an integer.
pub fn attribute_integer(building: Building, buffer: &mut [u8], code: u16, value: u16) -> Added {
    add_attribute(building, buffer, code, Value::Integer(value)).into()
}

/// Adds an attribute whose value is a name and a string.
pub fn attribute_pair(
    building: Building,
    buffer: &mut [u8],
    code: u16,
    name: Option<&[u8]>,
    value: Option<&[u8]>,
) -> Added {
    add_attribute(building, buffer, code, Value::Pair(name, value)).into()
}

/// Closes the packet and sends it.
pub fn close(connection: Connection, building: Building, buffer: &mut [u8]) -> Sent {
    write_close(connection, building, buffer).into()
}

/// A header name, as a code or as a string.
enum Name<'a> {
    Coded(u16),
    Spelled(Option<&'a [u8]>),
}

/// An attribute's value.
enum Value<'a> {
    Text(Option<&'a [u8]>),
    Integer(u16),
    Pair(Option<&'a [u8]>, Option<&'a [u8]>),
}

impl Building {
    /// Which packet's headers are added.
    fn list(&self) -> Headers {
        match self.kind {
            BuildingKind::Forward => Headers::Request,
            BuildingKind::SendHeaders => Headers::Response,
        }
    }

    /// Refuses a record that no building in this buffer has.
    fn check(&self, buffer: &[u8]) -> Result<(), Refusal> {
        let code = match self.kind {
            BuildingKind::Forward => code::FORWARD,
            BuildingKind::SendHeaders => code::SEND_HEADERS,
        };
        let next = usize::from(self.next);
        let count = usize::from(self.count);
        let possible = next <= MAX_PACKET
            && next <= buffer.len()
            && count >= 4
            && count + 2 <= next
            && self.headers <= MAX_HEADERS
            && buffer.get(4) == Some(&code);
        if possible {
            Ok(())
        } else {
            Err(Refusal::BUILDING)
        }
    }
}

/// Checks and writes the fixed fields of a Forward Request.
fn write_forward(
    buffer: &mut [u8],
    method: u16,
    strings: [Option<&[u8]>; 5],
    server_port: u16,
    is_ssl: u16,
) -> Result<Building, Refusal> {
    fields::check_method(method)?;
    let [protocol, req_uri, others @ ..] = strings;
    fields::required(protocol)?;
    fields::required(req_uri)?;
    for string in others {
        fields::check_string(string)?;
    }
    let is_ssl = fields::boolean(is_ssl)?;

    let size = 6 + strings.into_iter().map(string_size).sum::<usize>() + 5;
    let mut writer = Writer::new(buffer, 0, size)?;
    writer.bytes(&TO_CONTAINER);
    writer.u16(0);
    writer.u8(code::FORWARD);
    writer.u8(method as u8);
    for string in strings {
        writer.string(string);
    }
    writer.u16(server_port);
    writer.u8(u8::from(is_ssl));
    Ok(write_count(writer, BuildingKind::Forward))
}

/// Checks and writes the fixed fields of a Send Headers.
fn write_send_headers(
    buffer: &mut [u8],
    status: u16,
    message: Option<&[u8]>,
) -> Result<Building, Refusal> {
    fields::check_status(status)?;
    fields::check_string(message)?;

    let mut writer = Writer::new(buffer, 0, 7 + string_size(message) + 2)?;
    writer.bytes(&TO_SERVER);
    writer.u16(0);
    writer.u8(code::SEND_HEADERS);
    writer.u16(status);
    writer.string(message);
    Ok(write_count(writer, BuildingKind::SendHeaders))
}

/// Writes num_headers as 0, which ends the fixed fields.
fn write_count(mut writer: Writer, kind: BuildingKind) -> Building {
    let count = writer.place();
    writer.u16(0);
    Building {
        kind,
        next: writer.place(),
        count,
        headers: 0,
        attributes: false,
    }
}

/// Checks and writes a header.
fn add_header(
    building: Building,
    buffer: &mut [u8],
    name: Name,
    value: Option<&[u8]>,
) -> Result<Building, Refusal> {
    building.check(buffer)?;
    if building.attributes {
        return Err(Refusal::BUILDING);
    }
    let list = building.list();
    let name_size = match name {
        Name::Coded(code) => {
            list.check_code(code)?;
            2
        }
        Name::Spelled(name) => {
            list.check_spelled(fields::required(name)?)?;
            string_size(name)
        }
    };
    fields::check_string(value)?;
    if matches!(name, Name::Coded(code) if list.is_content_length(code)) {
        fields::content_length(value)?;
    }
    if building.headers == MAX_HEADERS {
        return Err(Refusal::TOO_MANY);
    }

    let size = name_size + string_size(value);
    let mut writer = Writer::new(buffer, usize::from(building.next), size)?;
    match name {
        Name::Coded(code) => writer.u16(code),
        Name::Spelled(name) => writer.string(name),
    }
    writer.string(value);
    Ok(Building {
        next: writer.place(),
        headers: building.headers + 1,
        ..building
    })
}

/// Checks and writes an attribute.
fn add_attribute(
    building: Building,
    buffer: &mut [u8],
    code: u16,
    value: Value,
) -> Result<Building, Refusal> {
    building.check(buffer)?;
    if building.kind == BuildingKind::SendHeaders {
        return Err(Refusal::BUILDING);
    }
    let size = match (fields::attribute_kind(code)?, &value) {
        (AttributeKind::Text, &Value::Text(value)) => {
            fields::check_string(value)?;
            string_size(value)
        }
        (AttributeKind::Integer, Value::Integer(_)) => 2,
        (AttributeKind::Pair, &Value::Pair(name, value)) => {
            fields::required(name)?;
            fields::check_string(value)?;
            string_size(name) + string_size(value)
        }
        _ => return Err(Refusal::ATTRIBUTE),
    };

    let mut writer = Writer::new(buffer, usize::from(building.next), 1 + size)?;
    writer.u8(code as u8);
    match value {
        Value::Text(value) => writer.string(value),
        Value::Integer(value) => writer.u16(value),
        Value::Pair(name, value) => {
            writer.string(name);
            writer.string(value);
        }
    }
    Ok(Building {
        next: writer.place(),
        attributes: true,
        ..building
    })
}

/// Sets length, count and FF, and lets the packet stand where the other end would accept it.
fn write_close(
    connection: Connection,
    building: Building,
    buffer: &mut [u8],
) -> Result<(usize, Connection), Refusal> {
    building.check(buffer)?;
    let next = usize::from(building.next);
    let (kind, end, length) = match building.kind {
        BuildingKind::Forward => (Kind::Forward, End::Container, next + 1),
        BuildingKind::SendHeaders => (Kind::SendHeaders, End::Server, next),
    };
    connection.check_state(kind)?;
    if length > MAX_PACKET {
        return Err(Refusal::TOO_LONG);
    }
    let packet = buffer.get_mut(..length).ok_or(Refusal::NO_ROOM)?;

    // Keep what stands at the places that are set.
    let count = usize::from(building.count);
    let payload = (length - 4) as u16;
    let old_length = replace(packet, 2, payload.to_be_bytes());
    let old_count = replace(packet, count, building.headers.to_be_bytes());
    let old_last = packet[length - 1];
    if building.kind == BuildingKind::Forward {
        packet[length - 1] = code::NO_MORE_ATTRIBUTES;
    }

    let refusal = match read(end, connection, packet, &mut [0; MAX_PLACES]) {
        Received::Accepted { connection, .. } => return Ok((length, connection)),
        Received::Refused(number) => Refusal(number),
        // Not reached: the length that was set is the packet's own.
        Received::Needs(_) => Refusal::CUT_OFF,
    };
    // Last set, first restored: the count may reach to the packet's last byte.
    packet[length - 1] = old_last;
    replace(packet, count, old_count);
    replace(packet, 2, old_length);
    Err(refusal)
}

/// Puts two bytes at a place and answers those that stood there.
fn replace(packet: &mut [u8], place: usize, bytes: [u8; 2]) -> [u8; 2] {
    let old = [packet[place], packet[place + 1]];
    packet[place..place + 2].copy_from_slice(&bytes);
    old
}
