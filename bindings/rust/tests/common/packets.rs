//! Packets from the grammar of AJP13: whole and right ones of every kind, and such with one fault.

use super::rng::Rng;
use super::strings;
use super::words;
use ajp13::raw::MAX_PACKET;

/// The kinds of packet.
#[derive(Clone, Copy, Debug, PartialEq, Eq)]
pub enum Kind {
    CPing,
    CPong,
    Forward,
    Body,
    GetBody,
    SendHeaders,
    BodyChunk,
    End,
}

/// A packet and what was meant to be in it.
pub struct Packet {
    pub kind: Kind,
    pub bytes: Vec<u8>,
    /// How many headers and attributes it has.
    pub headers: usize,
    pub attributes: usize,
    /// Where the number of headers stands.
    pub count_place: usize,
}

impl Packet {
    /// How many places it fills in the table.
    pub fn places(&self) -> usize {
        2 * (self.headers + self.attributes)
    }

    /// Sets the payload's length to what is there.
    pub fn set_length(&mut self) {
        set_length(&mut self.bytes);
    }
}

/// Sets the length in a packet's third and fourth byte to what stands behind them.
pub fn set_length(bytes: &mut [u8]) {
    if bytes.len() >= 4 {
        let payload = (bytes.len() - 4).min(65535) as u16;
        bytes[2..4].copy_from_slice(&payload.to_be_bytes());
    }
}

/// How many headers, attributes and bytes a Forward or a Send Headers has.
struct Shape {
    headers: usize,
    attributes: usize,
    /// Filled up to so many bytes with one more attribute or header, where there is room.
    size: usize,
}

impl Shape {
    /// Mostly small; at times as much as is allowed of something, or one more.
    fn any(rng: &mut Rng) -> Shape {
        let mut shape = Shape {
            headers: rng.below(5),
            attributes: rng.below(4),
            size: 0,
        };
        match rng.below(60) {
            0 => shape.headers = rng.of(&[99, 100, 101]),
            1 => shape.headers = rng.below(101),
            2 => shape.attributes = rng.of(&[63, 64, 65]),
            3 => shape.attributes = rng.below(65),
            4 => shape.size = rng.of(&[8190, 8191, 8192, 8193]),
            5 => shape.size = rng.below(8192),
            _ => {}
        }
        shape
    }
}

/// A packet of a kind, right in all its fields; the body or chunk in it has so many bytes.
pub fn right(rng: &mut Rng, kind: Kind, body: usize) -> Packet {
    Grammar::new(rng, kind, 0).packet(body)
}

/// A packet of a kind, mostly with a fault in one of its fields.
pub fn faulty(rng: &mut Rng, kind: Kind, body: usize) -> Packet {
    let places = match kind {
        Kind::Forward => 40,
        Kind::SendHeaders => 20,
        _ => 4,
    };
    let fault_in = rng.between(1, places);
    Grammar::new(rng, kind, fault_in).packet(body)
}

/// Writes the fields of a packet, one of them wrong where a fault is due.
struct Grammar<'a> {
    rng: &'a mut Rng,
    kind: Kind,
    bytes: Vec<u8>,
    /// The fault is made at the so many-th place where one could be; 0 for no fault.
    fault_in: usize,
}

impl Grammar<'_> {
    /// A packet's first four bytes; its length is set when it is done.
    fn new(rng: &mut Rng, kind: Kind, fault_in: usize) -> Grammar<'_> {
        let leading: [u8; 4] = match kind {
            Kind::CPing | Kind::Forward | Kind::Body => [0x12, 0x34, 0, 0],
            _ => [0x41, 0x42, 0, 0],
        };
        Grammar {
            rng,
            kind,
            bytes: leading.to_vec(),
            fault_in,
        }
    }

    /// Whether the fault is to be made here.
    fn fault(&mut self) -> bool {
        if self.fault_in == 0 {
            return false;
        }
        self.fault_in -= 1;
        self.fault_in == 0
    }

    /// Writes the fields of the packet.
    fn packet(mut self, body: usize) -> Packet {
        let mut packet = Packet {
            kind: self.kind,
            bytes: Vec::new(),
            headers: 0,
            attributes: 0,
            count_place: 0,
        };
        match self.kind {
            Kind::CPing => self.code(0x0A),
            Kind::CPong => self.code(0x09),
            Kind::Body => self.body(body),
            Kind::GetBody => {
                self.code(0x06);
                let any = self.rng.short();
                let asked = self.rng.of(&[0, 1, 2, 8186, 8187, 65535, any]);
                self.integer(asked);
            }
            Kind::End => {
                self.code(0x05);
                let reuse = self.rng.below(2) as u8;
                self.boolean(reuse);
            }
            Kind::BodyChunk => self.chunk(body),
            Kind::Forward => self.forward(&mut packet),
            Kind::SendHeaders => self.send_headers(&mut packet),
        }
        if self.fault() {
            let behind = self.rng.between(1, 3);
            let behind = self.rng.bytes(behind);
            self.bytes.extend(behind);
        }
        packet.bytes = self.bytes;
        packet.set_length();
        packet
    }

    /// The byte that tells which packet it is; as a fault another one, or none.
    fn code(&mut self, code: u8) {
        if !self.fault() {
            self.bytes.push(code);
        } else if !self.rng.one_in(4) {
            let other = self.rng.of(&[0, 1, 2, 3, 4, 5, 6, 7, 8, 9, 10, 11, 255]);
            self.bytes.push(other);
        }
    }

    /// A body packet; an empty one has no size, or a size of 0.
    fn body(&mut self, length: usize) {
        let mut size = length as u16;
        if self.fault() {
            size = match self.rng.below(3) {
                0 => size.wrapping_add(1),
                1 => size.wrapping_sub(1),
                _ if length == 0 => 255,
                _ => 0,
            };
        } else if length == 0 && self.rng.one_in(2) {
            return;
        }
        let body = self.rng.bytes(length);
        self.integer(size);
        self.bytes.extend(body);
        if self.fault() {
            // A single byte is no size.
            self.bytes.truncate(5);
        }
    }

    /// A Send Body Chunk.
    fn chunk(&mut self, length: usize) {
        self.code(0x03);
        let mut size = length as u16;
        if self.fault() {
            size = match self.rng.below(4) {
                0 => size.wrapping_add(1),
                1 => size.wrapping_sub(1),
                2 => 0,
                _ => 65535,
            };
        }
        let mut chunk = self.rng.bytes(length);
        if self.rng.one_in(2) {
            chunk.fill(0);
        }
        self.integer(size);
        self.bytes.extend(chunk);
        let last = if self.fault() { self.rng.byte() } else { 0 };
        self.bytes.push(last);
    }

    /// A Forward Request.
    fn forward(&mut self, packet: &mut Packet) {
        let shape = Shape::any(self.rng);
        self.code(0x02);
        let method = if self.fault() {
            self.rng.of(&[0, 28, 255])
        } else {
            words::method(self.rng)
        };
        self.bytes.push(method);
        let protocol = self.required_text(b"HTTP/1.1");
        self.required(&protocol);
        let req_uri = self.required_text(b"/");
        self.required(&req_uri);
        for _ in ["remote_addr", "remote_host", "server_name"] {
            let string = strings::string(self.rng);
            self.string(string.as_deref());
        }
        let port = self.rng.of(&[0, 80, 443, 8009, 65535]);
        self.integer(port);
        let is_ssl = self.rng.below(2) as u8;
        self.boolean(is_ssl);

        let with_length = self.rng.one_in(2);
        self.headers(packet, shape.headers, with_length);
        self.attributes(packet, &shape);
        if !self.fault() {
            self.bytes.push(0xFF);
        }
    }

    /// A Send Headers.
    fn send_headers(&mut self, packet: &mut Packet) {
        let shape = Shape::any(self.rng);
        self.code(0x04);
        let status = if self.fault() {
            self.rng.of(&[0, 99, 600, 65535])
        } else {
            self.rng.between(100, 599) as u16
        };
        self.integer(status);
        let message = strings::string(self.rng);
        self.string(message.as_deref());
        self.headers(packet, shape.headers, false);
        // A last header fills the packet up to its size.
        if let Some(room) = shape.size.checked_sub(self.bytes.len() + 2 + 3) {
            if packet.headers < 100 {
                packet.headers += 1;
                let count = packet.headers as u16;
                self.put_integer(packet.count_place, count);
                self.bytes.extend([0xA0, 0x01]);
                let value = strings::text_of(self.rng, room);
                self.string(Some(&value));
            }
        }
    }

    /// The number of headers and the headers, one of them a content-length where it is wanted.
    fn headers(&mut self, packet: &mut Packet, count: usize, with_length: bool) {
        packet.count_place = self.bytes.len();
        self.bytes.extend([0, 0]);
        let length_at = if with_length {
            self.rng.below(count + 1)
        } else {
            count
        };
        for index in 0..count {
            if self.bytes.len() > MAX_PACKET - 200 {
                break;
            }
            packet.headers += self.header(index == length_at);
        }
        let mut count = packet.headers as u16;
        if self.fault() {
            count = match self.rng.below(4) {
                0 => count + 1,
                1 => count.wrapping_sub(1),
                2 => 101,
                _ => self.rng.short(),
            };
        }
        self.put_integer(packet.count_place, count);
    }

    /// A header; answers how many there are then, for a fault may be a second content-length.
    fn header(&mut self, is_length: bool) -> usize {
        if is_length {
            self.bytes.extend([0xA0, 0x08]);
            let bad = self.fault();
            let value = if bad {
                strings::bad_content_length(self.rng)
            } else {
                Some(strings::content_length(self.rng))
            };
            self.string(value.as_deref());
            if self.fault() {
                self.bytes.extend([0xA0, 0x08]);
                self.string(Some(b"0"));
                return 2;
            }
            return 1;
        }
        if self.rng.one_in(2) {
            let mut code = strings::header_code(self.rng, self.kind);
            if self.kind == Kind::Forward && code == 0xA008 {
                code = 0xA001;
            }
            if self.fault() {
                code = 0xA000 + self.rng.of(&[0, 8, 12, 13, 14, 15, 16, 255]);
            }
            self.integer(code);
        } else if self.fault() {
            let name = strings::bad_name(self.rng, self.kind);
            self.string(Some(&name));
        } else {
            let name = strings::token(self.rng, self.kind);
            self.required(&name);
        }
        let value = strings::string(self.rng);
        self.string(value.as_deref());
        1
    }

    /// The attributes; a last one fills the packet up to its size.
    fn attributes(&mut self, packet: &mut Packet, shape: &Shape) {
        let mut unused: Vec<u8> = vec![0x03, 0x04, 0x06, 0x07, 0x08, 0x09, 0x0B, 0x0C, 0x0D];
        for _ in 0..shape.attributes {
            if self.bytes.len() > MAX_PACKET - 200 {
                break;
            }
            let mut code = 0x0A;
            if !unused.is_empty() && self.rng.one_in(2) {
                let index = self.rng.below(unused.len());
                code = unused.swap_remove(index);
            }
            self.attribute(code);
            packet.attributes += 1;
        }
        // The code, the string's length and last zero, and the FF behind it.
        if let Some(room) = shape.size.checked_sub(self.bytes.len() + 1 + 3 + 1) {
            if packet.attributes < 64 {
                packet.attributes += 1;
                self.bytes.push(0x05);
                let value = strings::text_of(self.rng, room);
                self.string(Some(&value));
            }
        }
    }

    /// An attribute with its code.
    fn attribute(&mut self, code: u8) {
        if self.fault() {
            // Not served, or here a second time.
            let other = self
                .rng
                .of(&[0, 1, 2, 0x03, 0x05, 0x0B, 0x0D, 0x0E, 0x0F, 0x80, 0xA0]);
            self.bytes.push(other);
        } else {
            self.bytes.push(code);
        }
        match code {
            0x0B => {
                let number = self.rng.short();
                self.integer(number);
            }
            0x0A => {
                let name = self.required_text(b"name");
                self.required(&name);
                let value = strings::string(self.rng);
                self.string(value.as_deref());
            }
            _ => {
                let value = strings::string(self.rng);
                self.string(value.as_deref());
            }
        }
    }

    /// A text that is not empty, the usual one mostly.
    fn required_text(&mut self, usual: &[u8]) -> Vec<u8> {
        if self.rng.one_in(2) {
            return usual.to_vec();
        }
        match strings::text(self.rng) {
            empty if empty.is_empty() => usual.to_vec(),
            text => text,
        }
    }

    /// A string that may be neither null nor empty.
    fn required(&mut self, text: &[u8]) {
        if !self.fault() {
            self.string(Some(text));
        } else if self.rng.one_in(2) {
            self.bytes.extend([0xFF, 0xFF]);
        } else {
            self.bytes.extend([0, 0, 0]);
        }
    }

    /// A string; null is None.
    fn string(&mut self, string: Option<&[u8]>) {
        let Some(text) = string else {
            self.bytes.extend([0xFF, 0xFF]);
            if self.fault() {
                // Nothing stands after null.
                self.bytes.push(0);
            }
            return;
        };
        let start = self.bytes.len();
        self.bytes.extend((text.len() as u16).to_be_bytes());
        self.bytes.extend(text);
        self.bytes.push(0);
        if !self.fault() {
            return;
        }
        let last = self.bytes.len() - 1;
        let length = text.len() as u16;
        match self.rng.below(7) {
            0 | 1 if length > 0 => {
                strings::bar(self.rng, &mut self.bytes[start + 2..last]);
            }
            2 => self.bytes[last] = self.rng.byte(),
            3 => self.put_integer(start, length.wrapping_add(1)),
            4 => self.put_integer(start, length.wrapping_sub(1)),
            5 => self.put_integer(start, 65534),
            _ => self.bytes.truncate(last),
        }
    }

    /// A boolean.
    fn boolean(&mut self, mut value: u8) {
        if self.fault() {
            value = self.rng.of(&[2, 128, 255]);
        }
        self.bytes.push(value);
    }

    /// An integer.
    fn integer(&mut self, number: u16) {
        self.bytes.extend(number.to_be_bytes());
    }

    /// Puts an integer at a place where one stands.
    fn put_integer(&mut self, place: usize, number: u16) {
        self.bytes[place..place + 2].copy_from_slice(&number.to_be_bytes());
    }
}
