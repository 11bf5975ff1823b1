//! A container's end: answers every request with its path and its body.
//!
//! `cargo run --example container -- 127.0.0.1:8009` listens there and serves one connection after the other.

use std::env;
use std::error::Error;
use std::io::{self, Read, Write};
use std::net::TcpListener;

use ajp13::{Connection, Packet, Places, Received, Refusal, SendHeadersHead, State};

/// The longest body that is read; a longer one is answered with 413.
const LONGEST: usize = 1 << 20;

/// Serves a connection until the server ends it. The bytes may arrive in parts of any size.
pub fn serve(stream: &mut (impl Read + Write)) -> Result<(), Box<dyn Error>> {
    let mut connection = Connection::fresh();
    let mut places = Places::new();
    let mut output = [0; ajp13::MAX_PACKET];
    // What came and is not read yet. No packet is longer than this.
    let mut input = [0; ajp13::MAX_PACKET];
    let mut filled = 0;
    // The request that is under way.
    let mut answer = Vec::new();

    loop {
        // A refusal ends the loop: the other end does not keep to the rules.
        let taken = match connection.read_at_container(&input[..filled], &mut places)? {
            Received::Needs(_) => {
                match read_on(stream, &mut input[filled..])? {
                    0 if filled == 0 && connection.state() == State::Idle => return Ok(()),
                    0 => return Err("the stream ended inside a request".into()),
                    count => filled += count,
                }
                continue;
            }
            Received::Accepted { packet, taken } => {
                match packet {
                    Packet::CPing => stream.write_all(connection.cpong(&mut output)?)?,
                    Packet::Forward(forward) => {
                        answer = forward.req_uri().to_vec();
                        answer.push(b'\n');
                    }
                    Packet::Body(bytes) => answer.extend(bytes),
                    other => unreachable!("{other:?} goes to the server"),
                }
                taken
            }
        };
        input.copy_within(taken..filled, 0);
        filled -= taken;

        // Where a body packet is due, it has to come first: nothing is asked for and nothing ended before.
        if connection.state() == State::Busy && !connection.is_due() {
            let left = connection.left() as usize;
            if left > 0 && left.saturating_add(answer.len()) <= LONGEST {
                let packet = connection.get_body(&mut output, ajp13::MAX_BODY as u16)?;
                stream.write_all(packet)?;
            } else {
                // What is left of a body that is too long is never asked for.
                let status = if left == 0 { 200 } else { 413 };
                // The response to a HEAD has no body.
                let body = if connection.is_head() || left > 0 {
                    &[]
                } else {
                    &answer[..]
                };
                respond(&mut connection, &mut output, stream, status, body)?;
            }
        }
    }
}

/// Waits for more bytes of the stream and tells how many came, 0 at its end.
fn read_on(stream: &mut (impl Read + Write), room: &mut [u8]) -> io::Result<usize> {
    stream.flush()?;
    loop {
        match stream.read(room) {
            Err(error) if error.kind() == io::ErrorKind::Interrupted => {}
            answer => return answer,
        }
    }
}

/// Sends a response: its headers, its body in chunks, its end.
fn respond(
    connection: &mut Connection,
    buffer: &mut [u8],
    stream: &mut impl Write,
    status: u16,
    body: &[u8],
) -> Result<(), Box<dyn Error>> {
    stream.write_all(send_headers(connection, buffer, status)?)?;
    for chunk in body.chunks(ajp13::MAX_CHUNK) {
        stream.write_all(connection.body_chunk(buffer, chunk)?)?;
    }
    stream.write_all(connection.end(buffer, true)?)?;
    Ok(())
}

/// Builds a Send Headers.
fn send_headers<'b>(
    connection: &mut Connection,
    buffer: &'b mut [u8],
    status: u16,
) -> Result<&'b [u8], Refusal> {
    let message = match status {
        200 => Some(&b"OK"[..]),
        _ => None,
    };
    let mut headers = SendHeadersHead { status, message }.begin(buffer)?;
    headers.header(b"Content-Type", Some(b"application/octet-stream"))?;
    Ok(headers.close(connection)?)
}

fn main() -> Result<(), Box<dyn Error>> {
    let address = env::args().nth(1).ok_or("usage: container ADDRESS")?;
    for stream in TcpListener::bind(address)?.incoming() {
        let mut stream = stream?;
        stream.set_nodelay(true)?;
        if let Err(error) = serve(&mut stream) {
            eprintln!("{error}");
        }
    }
    Ok(())
}
