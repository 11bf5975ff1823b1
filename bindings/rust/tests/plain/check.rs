//! The checker over a capture (request A1 of document 02), of the second implementation that is
//! written apart from the library, for comparison.

use super::read::{read, End, Packet, Received};
use super::{Connection, Refusal, State, MAX_PLACES, TO_CONTAINER, TO_SERVER};

/// The most bytes of a capture.
pub const MAX_CAPTURE: u32 = 4_294_967_295;

/// What the checker writes of a capture.
#[derive(Clone, Copy, Debug, PartialEq, Eq)]
pub struct Checked {
    /// Packets, requests and body bytes of accepted packets.
    pub figures: Figures,
    pub state: State,
    /// The number of the refusal, 0 for none.
    pub refusal: u8,
    /// Where the refused packet starts, or the capture's length.
    pub place: u32,
}

/// What is counted of accepted packets.
#[derive(Clone, Copy, Debug, Default, PartialEq, Eq)]
pub struct Figures {
    pub packets: u32,
    pub requests: u32,
    /// Bytes of body packets.
    pub body: u32,
}

/// How far the packets of some bytes were accepted.
#[derive(Clone, Copy, Debug, PartialEq, Eq)]
pub struct Judged {
    pub figures: Figures,
    /// The connection after the accepted packets.
    pub connection: Connection,
    /// How many bytes they have.
    pub length: u32,
    pub stop: Stop,
}

/// What stands behind the accepted packets.
#[derive(Clone, Copy, Debug, PartialEq, Eq)]
pub enum Stop {
    /// Nothing: the bytes end there.
    AtEnd,
    /// A packet of which not all bytes are there.
    Unfinished,
    /// A packet that is refused with this number.
    Refused(u8),
}

/// Checks a whole capture.
pub fn check(capture: &[u8]) -> Checked {
    let judged = judge(
        Connection::fresh(),
        &capture[..capture.len().min(MAX_CAPTURE as usize)],
    );
    let (refusal, place) = verdict(judged.stop, judged.length, capture.len() as u64);
    Checked {
        figures: judged.figures,
        state: judged.connection.state,
        refusal,
        place,
    }
}

/// The refusal and the place that are told of a capture, by what stands at the place where judging
/// it stopped, and by its size.
pub fn verdict(stop: Stop, place: u32, size: u64) -> (u8, u32) {
    let refusal = match stop {
        Stop::Refused(number) => return (number, place),
        Stop::AtEnd => 0,
        Stop::Unfinished => Refusal::UNFINISHED.0,
    };
    // Of a longer capture only so many bytes are judged; where they would give 0 or 17 it is 18.
    if size > u64::from(MAX_CAPTURE) {
        return (Refusal::CAPTURE_TOO_LONG.0, MAX_CAPTURE);
    }
    (refusal, place)
}

/// Steps a connection through the packets of the bytes, up to the first fault.
pub fn judge(mut connection: Connection, bytes: &[u8]) -> Judged {
    let mut table = [0; MAX_PLACES];
    let mut figures = Figures::default();
    let mut rest = bytes;
    let stop = loop {
        // The leading bytes tell the direction, and the first of them is enough: the end that
        // reads the packet looks at both.
        let end = match rest.first() {
            None => break Stop::AtEnd,
            Some(&first) if first == TO_CONTAINER[0] => End::Container,
            Some(&first) if first == TO_SERVER[0] => End::Server,
            Some(_) => break Stop::Refused(Refusal::LEADING_BYTES.0),
        };
        match read(end, connection, rest, &mut table) {
            Received::Needs(_) => break Stop::Unfinished,
            Received::Refused(number) => break Stop::Refused(number),
            Received::Accepted {
                packet,
                taken,
                connection: after,
            } => {
                figures.packets += 1;
                match packet {
                    Packet::Forward(_) => figures.requests += 1,
                    Packet::Body { len, .. } => figures.body += u32::from(len),
                    _ => {}
                }
                connection = after;
                rest = &rest[taken..];
            }
        }
    };
    Judged {
        figures,
        connection,
        length: (bytes.len() - rest.len()) as u32,
        stop,
    }
}
