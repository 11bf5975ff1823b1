//! Every string that a packet can have, byte by byte: a zero, a line feed or a carriage return in it is refused with 6, wherever
//! it stands in the text and however long the text is, by the call that builds it, by closing and by reading; every other byte may
//! stand there, but for a header's name, which is refused with 8 where the byte is none of a token's. The bytes of a body and of a
//! chunk may be any.

use ajp13::raw;

/// The strings of a Forward and of a Send Headers.
#[derive(Clone, Copy, Debug, PartialEq, Eq)]
enum Sort {
    Protocol,
    ReqUri,
    RemoteAddr,
    RemoteHost,
    ServerName,
    RequestName,
    NamedName,
    RequestValue,
    SpelledValue,
    NamedValue,
    UnlistedValue,
    AttributeText,
    PairName,
    PairValue,
    Message,
    ResponseName,
    ResponseNamedName,
    ResponseValue,
    ResponseSpelledValue,
    ResponseNamedValue,
}

const SORTS: [Sort; 20] = [
    Sort::Protocol,
    Sort::ReqUri,
    Sort::RemoteAddr,
    Sort::RemoteHost,
    Sort::ServerName,
    Sort::RequestName,
    Sort::NamedName,
    Sort::RequestValue,
    Sort::SpelledValue,
    Sort::NamedValue,
    Sort::UnlistedValue,
    Sort::AttributeText,
    Sort::PairName,
    Sort::PairValue,
    Sort::Message,
    Sort::ResponseName,
    Sort::ResponseNamedName,
    Sort::ResponseValue,
    Sort::ResponseSpelledValue,
    Sort::ResponseNamedValue,
];

/// The byte that a text is made of; it stands nowhere else in a packet.
const FILL: u8 = b'Z';

/// The refusals of a string, of a name and of a content-length.
const STRING_WRONG: u32 = 6;
const NAME_WRONG: u32 = 8;
const LENGTH_WRONG: u32 = 10;

/// A building record and the buffer in which its packet stands so far.
#[derive(Clone, Debug, PartialEq, Eq)]
struct Built {
    building: [u32; raw::SIZE_BUILDING],
    buffer: Vec<u8>,
}

impl Sort {
    fn is_response(self) -> bool {
        matches!(
            self,
            Sort::Message
                | Sort::ResponseName
                | Sort::ResponseNamedName
                | Sort::ResponseValue
                | Sort::ResponseSpelledValue
                | Sort::ResponseNamedValue
        )
    }

    fn is_name(self) -> bool {
        matches!(
            self,
            Sort::RequestName | Sort::NamedName | Sort::ResponseName | Sort::ResponseNamedName
        )
    }

    /// What a text is refused with, 0 for nothing, where it has this byte in it.
    fn fault(self, byte: u8) -> u32 {
        match byte {
            0 | b'\n' | b'\r' => STRING_WRONG,
            _ if !self.is_name() => 0,
            b'!' | b'#' | b'$' | b'%' | b'&' | b'\'' | b'*' | b'+' | b'-' | b'.' | b'^' | b'_'
            | b'`' | b'|' | b'~' => 0,
            _ if byte.is_ascii_alphanumeric() => 0,
            _ => NAME_WRONG,
        }
    }

    /// Builds a packet, up to closing, with this text for its string; else what the piece was refused with. A refused piece has
    /// changed nothing.
    fn build(self, text: &[u8]) -> Result<Built, u32> {
        let mut built = Built {
            building: [0; raw::SIZE_BUILDING],
            buffer: vec![0xEE; 300],
        };
        if self.is_response() {
            let message = if self == Sort::Message { text } else { b"OK" };
            built.add(|building, buffer| {
                raw::begin_send_headers(building, buffer, 200, message, 0)
            })?;
        } else {
            let of = |sort: Sort, usual: &'static [u8]| if self == sort { text } else { usual };
            let mut fixed = [0; raw::SIZE_FIXED];
            fixed[raw::FIXED_METHOD] = 2;
            fixed[raw::FIXED_PORT] = 80;
            built.add(|building, buffer| {
                raw::begin_forward(
                    building,
                    buffer,
                    &fixed,
                    of(Sort::Protocol, b"HTTP/1.1"),
                    of(Sort::ReqUri, b"/"),
                    of(Sort::RemoteAddr, b"10.0.0.1"),
                    of(Sort::RemoteHost, b""),
                    of(Sort::ServerName, b"field"),
                )
            })?;
        }
        built.add(|building, buffer| match self {
            Sort::RequestName | Sort::ResponseName => {
                raw::header_spelled(building, buffer, text, 0, b"v", 0)
            }
            Sort::NamedName | Sort::ResponseNamedName => {
                raw::header_named(building, buffer, text, b"v", 0)
            }
            Sort::RequestValue | Sort::ResponseValue => {
                raw::header_coded(building, buffer, 0xA001, text, 0)
            }
            Sort::SpelledValue | Sort::ResponseSpelledValue => {
                raw::header_spelled(building, buffer, b"x", 0, text, 0)
            }
            Sort::NamedValue => raw::header_named(building, buffer, b"Host", text, 0),
            Sort::ResponseNamedValue => raw::header_named(building, buffer, b"Location", text, 0),
            Sort::UnlistedValue => raw::header_named(building, buffer, b"x-label", text, 0),
            Sort::AttributeText => raw::attribute_text(building, buffer, 0x07, text, 0),
            Sort::PairName => raw::attribute_pair(building, buffer, 0x0A, text, 0, b"v", 0),
            Sort::PairValue => raw::attribute_pair(building, buffer, 0x0A, b"n", 0, text, 0),
            _ => raw::DONE,
        })?;
        Ok(built)
    }

    /// The connection on which the packet may be sent and read.
    fn connection(self) -> [u32; raw::SIZE_CONNECTION] {
        let mut connection = [0; raw::SIZE_CONNECTION];
        assert_eq!(raw::fresh(&mut connection), raw::DONE);
        if self.is_response() {
            connection[raw::CONNECTION_STATE] = raw::STATE_BUSY;
        }
        connection
    }

    /// What the packet's reader answers.
    fn read(self, packet: &[u8]) -> u32 {
        let mut connection = self.connection();
        let before = connection;
        let mut table = [0xABCD; raw::MAX_PLACES];
        let mut answer = [0; raw::SIZE_ANSWER];
        let status = if self.is_response() {
            raw::read_at_server(&mut connection, packet, &mut table, &mut answer)
        } else {
            raw::read_at_container(&mut connection, packet, &mut table, &mut answer)
        };
        if status != raw::DONE {
            assert_eq!(connection, before);
            assert_eq!(table, [0xABCD; raw::MAX_PLACES]);
        }
        status
    }
}

impl Built {
    /// Adds a piece; a refused one changes nothing.
    fn add(
        &mut self,
        piece: impl FnOnce(&mut [u32; raw::SIZE_BUILDING], &mut Vec<u8>) -> u32,
    ) -> Result<(), u32> {
        let before = self.clone();
        match piece(&mut self.building, &mut self.buffer) {
            raw::DONE => Ok(()),
            refused => {
                assert_eq!(*self, before);
                Err(refused)
            }
        }
    }

    /// Closes the packet: its bytes, or what closing was refused with, which changes nothing.
    fn close(mut self, sort: Sort) -> Result<Vec<u8>, u32> {
        let before = self.buffer.clone();
        let mut connection = sort.connection();
        let mut answer = [0; raw::SIZE_ANSWER];
        let status = raw::close(
            &mut connection,
            &self.building,
            &mut self.buffer,
            &mut answer,
        );
        if status != raw::DONE {
            assert_eq!(self.buffer, before);
            assert_eq!(connection, sort.connection());
            return Err(status);
        }
        self.buffer.truncate(answer[raw::ANSWER_BYTES] as usize);
        Ok(self.buffer)
    }
}

/// Where a text of so many fill bytes begins.
fn place_of(bytes: &[u8], length: usize) -> usize {
    bytes
        .windows(length)
        .position(|window| window.iter().all(|byte| *byte == FILL))
        .expect("the text stands in the packet")
}

/// Tries these bytes at every place of a text of a length.
fn try_bytes(sort: Sort, length: usize, bytes: impl Iterator<Item = u8> + Clone) {
    let fill = vec![FILL; length];
    let built = sort.build(&fill).expect("the fill byte may stand anywhere");
    let packet = built.clone().close(sort).expect("the packet is right");
    let (in_buffer, in_packet) = (place_of(&built.buffer, length), place_of(&packet, length));
    assert_eq!(sort.read(&packet), raw::DONE);
    for at in 0..length {
        for byte in bytes.clone() {
            let told = |status: u32, by: &str| {
                let expected = sort.fault(byte);
                assert_eq!(
                    status, expected,
                    "{by}: byte {byte} at {at} of {length} in {sort:?}"
                );
            };
            let mut text = fill.clone();
            text[at] = byte;
            told(sort.build(&text).err().unwrap_or(raw::DONE), "building");

            let mut changed = built.clone();
            changed.buffer[in_buffer + at] = byte;
            told(changed.close(sort).err().unwrap_or(raw::DONE), "closing");

            let mut changed = packet.clone();
            changed[in_packet + at] = byte;
            told(sort.read(&changed), "reading");
        }
    }
}

/// All 256 bytes in short texts, of which some are judged byte by byte and some in a block.
#[test]
fn every_byte_in_short_strings() {
    for sort in SORTS {
        for length in [1, 2, 3, 4, 5, 9, 17, 33] {
            try_bytes(sort, length, 0..=255);
        }
    }
}

/// The barred bytes and those next to them, in texts of every length up to a few blocks.
#[test]
fn every_place_in_longer_strings() {
    for sort in SORTS {
        for length in 1..=70 {
            try_bytes(sort, length, [0, 1, 9, 10, 11, 12, 13, 14, 255].into_iter());
        }
    }
}

/// Barred bytes among other low ones: the second look at a text tells them apart at every place.
#[test]
fn barred_bytes_among_other_low_ones() {
    for sort in SORTS {
        if sort.is_name() {
            continue;
        }
        for length in 1..=70 {
            let low: Vec<u8> = (0..length).map(|at| [9, 11, 12, 14][at % 4]).collect();
            let built = sort.build(&low).expect("these bytes may stand there");
            let packet = built.clone().close(sort).expect("the packet is right");
            assert_eq!(sort.read(&packet), raw::DONE);
            // A text of as many other bytes shows where it stands.
            let other = sort
                .build(&vec![FILL; length])
                .expect("the fill byte may stand anywhere");
            let in_buffer = place_of(&other.buffer, length);
            let in_packet = place_of(&other.close(sort).expect("the packet is right"), length);
            for at in 0..length {
                for byte in [0, b'\n', b'\r'] {
                    let mut text = low.clone();
                    text[at] = byte;
                    assert_eq!(sort.build(&text), Err(STRING_WRONG), "{sort:?} of {length}");

                    let mut changed = built.clone();
                    changed.buffer[in_buffer + at] = byte;
                    assert_eq!(
                        changed.close(sort),
                        Err(STRING_WRONG),
                        "{sort:?} of {length}"
                    );

                    let mut changed = packet.clone();
                    changed[in_packet + at] = byte;
                    assert_eq!(sort.read(&changed), STRING_WRONG, "{sort:?} of {length}");
                }
            }
        }
    }
}

/// In a content-length a barred byte is refused as in any string, and any other byte that is no digit as no length.
#[test]
fn every_byte_in_a_content_length() {
    let sort = Sort::RequestValue;
    let with = |value: &[u8], coded: bool| {
        let mut built = Sort::ReqUri
            .build(b"/")
            .expect("the fixed fields are right");
        built
            .add(|building, buffer| {
                if coded {
                    raw::header_coded(building, buffer, 0xA008, value, 0)
                } else {
                    raw::header_named(building, buffer, b"Content-Length", value, 0)
                }
            })
            .map(|()| built)
    };
    let built = with(b"77777", true).expect("the length is right");
    let packet = built.clone().close(sort).expect("the packet is right");
    for at in 0..5 {
        for byte in 0..=255 {
            let expected = match byte {
                0 | b'\n' | b'\r' => STRING_WRONG,
                b'0'..=b'9' => raw::DONE,
                _ => LENGTH_WRONG,
            };
            let mut value = *b"77777";
            value[at] = byte;
            for coded in [true, false] {
                assert_eq!(with(&value, coded).err().unwrap_or(raw::DONE), expected);
            }
            // Behind the value stands its zero; in the packet the FF stands behind that.
            let mut changed = built.clone();
            let end = changed.building[raw::BUILDING_NEXT] as usize - 1;
            changed.buffer[end - 5 + at] = byte;
            assert_eq!(changed.close(sort).err().unwrap_or(raw::DONE), expected);
            let mut changed = packet.clone();
            changed[packet.len() - 7 + at] = byte;
            assert_eq!(sort.read(&changed), expected);
        }
    }
}

/// Bodies and chunks are no strings.
#[test]
fn any_bytes_in_bodies_and_chunks() {
    let bytes: Vec<u8> = (0..=255).collect();
    let mut buffer = vec![0; raw::MAX_PACKET];
    let mut answer = [0; raw::SIZE_ANSWER];
    let mut connection = [0; raw::SIZE_CONNECTION];
    connection[raw::CONNECTION_STATE] = raw::STATE_BUSY;
    connection[raw::CONNECTION_HEADERS] = 1;
    let mut other = connection;

    let status = raw::body_chunk(&mut connection, &mut buffer, &bytes, &mut answer);
    assert_eq!(status, raw::DONE);
    let length = answer[raw::ANSWER_BYTES] as usize;
    let status = raw::read_at_server(&mut other, &buffer[..length], &mut [], &mut answer);
    assert_eq!(status, raw::DONE);
    assert_eq!(buffer[7..7 + bytes.len()], bytes);

    let mut connection = [0; raw::SIZE_CONNECTION];
    connection[raw::CONNECTION_STATE] = raw::STATE_BUSY;
    connection[raw::CONNECTION_DUE] = 1;
    connection[raw::CONNECTION_ASKED] = 256;
    connection[raw::CONNECTION_LEFT] = 256;
    let mut other = connection;
    let status = raw::body(&mut connection, &mut buffer, &bytes, &mut answer);
    assert_eq!(status, raw::DONE);
    let length = answer[raw::ANSWER_BYTES] as usize;
    let status = raw::read_at_container(&mut other, &buffer[..length], &mut [], &mut answer);
    assert_eq!(status, raw::DONE);
    assert_eq!(buffer[6..6 + bytes.len()], bytes);
}
