//! A server's end: sends one request on a connection of its own, and prints the response.
//!
//! `cargo run --example server -- 127.0.0.1:8009 GET /trees/12`, or with a body
//! `cargo run --example server -- 127.0.0.1:8009 POST /valves/7 FILE`, where `-` is the standard input.

use std::env;
use std::error::Error;
use std::fs::File;
use std::io::{self, Read, Write};
use std::net::TcpStream;

use ajp13::{Connection, ForwardHead, Method, Packet, Places, Received, Refusal};

/// Sends a request and writes its response to `out`. The bytes may arrive in parts of any size.
pub fn request(
    stream: &mut (impl Read + Write),
    method: Method,
    path: &[u8],
    body: &[u8],
    out: &mut impl Write,
) -> Result<(), Box<dyn Error>> {
    let mut connection = Connection::fresh();
    let mut places = Places::new();
    let mut output = [0; ajp13::MAX_PACKET];
    // What came and is not read yet. No packet is longer than this.
    let mut input = [0; ajp13::MAX_PACKET];
    let mut filled = 0;
    // What of the body is not sent yet.
    let mut rest = body;

    // The request goes out once the container has answered a CPing.
    stream.write_all(connection.cping(&mut output)?)?;
    loop {
        // A refusal ends the loop: the other end does not keep to the rules.
        let taken = match connection.read_at_server(&input[..filled], &mut places)? {
            Received::Needs(_) => {
                match read_on(stream, &mut input[filled..])? {
                    0 => return Err("the stream ended before the response did".into()),
                    count => filled += count,
                }
                continue;
            }
            Received::Accepted { packet, taken } => {
                match packet {
                    Packet::CPong => {
                        let packet = forward(&mut connection, &mut output, method, path, body)?;
                        stream.write_all(packet)?;
                    }
                    // What the container asks for is sent below.
                    Packet::GetBody(_) => {}
                    Packet::SendHeaders(head) => {
                        let message = head.message().unwrap_or_default().escape_ascii();
                        writeln!(out, "{} {message}", head.status())?;
                        for header in head.headers() {
                            let (name, value) = (header.name_text(), header.value);
                            let value = value.unwrap_or_default().escape_ascii();
                            writeln!(out, "{}: {value}", name.escape_ascii())?;
                        }
                        writeln!(out)?;
                    }
                    Packet::BodyChunk(bytes) => out.write_all(bytes)?,
                    Packet::End { .. } => return Ok(out.flush()?),
                    other => unreachable!("{other:?} goes to the container"),
                }
                taken
            }
        };
        input.copy_within(taken..filled, 0);
        filled -= taken;

        // A body packet is due behind a Forward with a body and behind every Get Body; it is empty at the body's end.
        if connection.is_due() {
            let (now, later) = rest.split_at(connection.largest_body().into());
            stream.write_all(connection.body(&mut output, now)?)?;
            rest = later;
        }
    }
}

/// Waits for more bytes of the stream and tells how many came, 0 at its end.
fn read_on(stream: &mut (impl Read + Write), room: &mut [u8]) -> io::Result<usize> {
    stream.flush()?;
    loop {
        match stream.read(room) {
            Err(error) if error.kind() == io::ErrorKind::Interrupted => {}
            answer => return answer,
        }
    }
}

/// Builds the Forward Request, which declares the body's length.
fn forward<'b>(
    connection: &mut Connection,
    buffer: &'b mut [u8],
    method: Method,
    path: &[u8],
    body: &[u8],
) -> Result<&'b [u8], Refusal> {
    let head = ForwardHead {
        method,
        protocol: b"HTTP/1.1",
        req_uri: path,
        remote_addr: Some(b"127.0.0.1"),
        remote_host: None,
        server_name: Some(b"localhost"),
        server_port: 80,
        is_ssl: false,
    };
    let mut headers = head.begin(buffer)?;
    headers.header(b"Host", Some(b"localhost"))?;
    if !body.is_empty() {
        headers.header(b"Content-Length", Some(body.len().to_string().as_bytes()))?;
    }
    Ok(headers.close(connection)?)
}

fn main() -> Result<(), Box<dyn Error>> {
    let arguments: Vec<String> = env::args().skip(1).collect();
    let [address, method, path, file @ ..] = &arguments[..] else {
        return Err("usage: server ADDRESS METHOD PATH [FILE]".into());
    };
    let method = Method::from_name(method.as_bytes()).ok_or("no such method")?;
    let mut body = Vec::new();
    if let [file] = file {
        let mut source: Box<dyn Read> = match &file[..] {
            "-" => Box::new(io::stdin()),
            file => Box::new(File::open(file)?),
        };
        source.read_to_end(&mut body)?;
    }
    let mut stream = TcpStream::connect(address)?;
    stream.set_nodelay(true)?;
    let mut out = io::stdout().lock();
    request(&mut stream, method, path.as_bytes(), &body, &mut out)
}
