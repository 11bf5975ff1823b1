//! The connection's cycle, of the second implementation of document 01 that is written apart from
//! the library, for comparison and as the benchmark's baseline.

use super::{Packet, Refusal, MAX_BODY};

/// The code of the method HEAD.
const HEAD: u8 = 3;

/// Where a connection stands.
#[derive(Clone, Copy, Debug, PartialEq, Eq)]
pub enum State {
    Idle,
    Pinged,
    Busy,
    Closed,
}

/// What one end knows of its connection; all but the state counts only in Busy.
#[derive(Clone, Copy, Debug, PartialEq, Eq)]
pub struct Connection {
    pub state: State,
    /// Bytes of the request's body still left.
    pub left: u32,
    /// Whether a body packet is due.
    pub due: bool,
    /// The bytes asked for; counts only when a body packet is due.
    pub asked: u16,
    /// Whether the response's headers were sent.
    pub headers: bool,
    /// Whether the request is a HEAD.
    pub head: bool,
}

/// The kinds of packet.
#[derive(Clone, Copy, Debug, PartialEq, Eq)]
pub(super) enum Kind {
    CPing,
    CPong,
    Forward,
    Body,
    GetBody,
    SendHeaders,
    BodyChunk,
    End,
}

impl Connection {
    /// A connection on which nothing has been sent yet.
    pub const fn fresh() -> Connection {
        Connection::without_request(State::Idle)
    }

    /// A connection in a state that keeps no request data.
    const fn without_request(state: State) -> Connection {
        Connection {
            state,
            left: 0,
            due: false,
            asked: 0,
            headers: false,
            head: false,
        }
    }

    /// Whether the next packet from the server is a body packet.
    pub(super) fn body_due(&self) -> bool {
        self.state == State::Busy && self.due
    }

    /// The most bytes that the due body packet may hold; where it is 0 the packet is empty. 0 also where none is due.
    pub fn body_limit(&self) -> u32 {
        if self.body_due() {
            u32::from(self.asked.min(MAX_BODY)).min(self.left)
        } else {
            0
        }
    }

    /// Refuses a due body packet of a size that is not allowed.
    pub(super) fn check_body(&self, size: usize) -> Result<(), Refusal> {
        let limit = self.body_limit() as usize;
        let allowed = match limit {
            0 => size == 0,
            _ => (1..=limit).contains(&size),
        };
        if allowed {
            Ok(())
        } else {
            Err(Refusal::BODY_SIZE)
        }
    }

    /// Refuses a chunk with bytes in it in the response to a HEAD.
    pub(super) fn check_chunk(&self, size: usize) -> Result<(), Refusal> {
        if self.state == State::Busy && self.head && size > 0 {
            Err(Refusal::BODY_SIZE)
        } else {
            Ok(())
        }
    }

    /// Refuses a kind of packet that is not allowed in this state.
    pub(super) fn check_state(&self, kind: Kind) -> Result<(), Refusal> {
        let allowed = match self.state {
            State::Idle => matches!(kind, Kind::CPing | Kind::Forward),
            State::Pinged => kind == Kind::CPong,
            State::Busy => match kind {
                Kind::Body => self.due,
                Kind::GetBody => !self.due,
                Kind::SendHeaders => !self.headers,
                Kind::BodyChunk => self.headers,
                Kind::End => self.headers && !self.due,
                Kind::CPing | Kind::CPong | Kind::Forward => false,
            },
            State::Closed => false,
        };
        if allowed {
            Ok(())
        } else {
            Err(Refusal::STATE)
        }
    }

    /// The connection after a packet that is allowed on it.
    pub(super) fn step(self, packet: &Packet) -> Connection {
        let asked = if self.due { self.asked } else { 0 };
        match *packet {
            Packet::CPing => Connection::without_request(State::Pinged),
            Packet::CPong => Connection::without_request(State::Idle),
            Packet::Forward(forward) => {
                let due = forward.declared > 0;
                Connection {
                    state: State::Busy,
                    left: forward.declared,
                    due,
                    asked: if due { MAX_BODY } else { 0 },
                    headers: false,
                    head: forward.method == HEAD,
                }
            }
            Packet::Body { len, .. } => Connection {
                left: self.left.saturating_sub(u32::from(len)),
                due: false,
                asked: 0,
                ..self
            },
            Packet::GetBody { asked } => Connection {
                due: true,
                asked,
                ..self
            },
            Packet::SendHeaders { .. } => Connection {
                headers: true,
                asked,
                ..self
            },
            Packet::BodyChunk { .. } => Connection { asked, ..self },
            Packet::End { reuse: true } => Connection::without_request(State::Idle),
            Packet::End { reuse: false } => Connection::without_request(State::Closed),
        }
    }
}
