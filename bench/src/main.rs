//! How fast the library reads and builds packets, beside a plain Rust implementation of the same rules and beside a copy of the
//! same bytes, which is as fast as memory goes. Prints the table and puts it into RESULTS.md.

mod harness;
mod requests;
mod table;

#[path = "../../bindings/rust/tests/plain/mod.rs"]
mod plain;

use ajp13::{Connection, ConnectionFields, ForwardHead, Method, Packet, Places, Received, State};
use harness::{counted_row, measure, warm_up, Row};
use requests::{Request, Value};
use std::hint::black_box;
use std::path::Path;

/// A request with this method, protocol, address and host, written by the library's builders.
fn build_by_library<'b>(
    request: &Request,
    connection: &mut Connection,
    buffer: &'b mut [u8],
) -> Result<&'b [u8], ajp13::Refusal> {
    let head = ForwardHead {
        method: Method::GET,
        protocol: requests::PROTOCOL,
        req_uri: request.req_uri,
        remote_addr: Some(requests::REMOTE_ADDR),
        remote_host: None,
        server_name: Some(requests::SERVER_NAME),
        server_port: requests::SERVER_PORT,
        is_ssl: true,
    };
    let mut headers = head.begin(buffer)?;
    for (name, value) in &request.headers {
        headers.header(name, Some(value))?;
    }
    let mut attributes = headers.attributes();
    for (code, value) in &request.attributes {
        match value {
            Value::Text(text) => attributes.text(*code, Some(text))?,
            Value::Integer(number) => attributes.integer(*code, *number)?,
            Value::Pair(name, text) => attributes.pair(name, Some(text))?,
        };
    }
    Ok(attributes.close(connection)?)
}

/// The same by the plain implementation; its length.
fn build_by_plain(
    request: &Request,
    connection: plain::Connection,
    buffer: &mut [u8],
) -> Result<usize, u8> {
    fn next(added: plain::Added) -> Result<plain::Building, u8> {
        match added {
            plain::Added::Next(building) => Ok(building),
            plain::Added::Refused(number) => Err(number),
        }
    }
    let mut building = next(plain::begin_forward(
        buffer,
        requests::GET,
        Some(requests::PROTOCOL),
        Some(request.req_uri),
        Some(requests::REMOTE_ADDR),
        None,
        Some(requests::SERVER_NAME),
        requests::SERVER_PORT,
        1,
    ))?;
    for (name, value) in &request.headers {
        building = next(plain::header_named(building, buffer, name, Some(value)))?;
    }
    for (code, value) in &request.attributes {
        building = next(match value {
            Value::Text(text) => plain::attribute_text(building, buffer, *code, Some(text)),
            Value::Integer(number) => plain::attribute_integer(building, buffer, *code, *number),
            Value::Pair(name, text) => {
                plain::attribute_pair(building, buffer, *code, Some(name), Some(text))
            }
        })?;
    }
    match plain::close(connection, building, buffer) {
        plain::Sent::Written { length, .. } => Ok(length),
        plain::Sent::Refused(number) => Err(number),
    }
}

// The plain implementation as a library of its own would be called: not inlined into the loop that measures it.
#[inline(never)]
fn plain_read(
    end: plain::End,
    connection: plain::Connection,
    bytes: &[u8],
    table: &mut [u16],
) -> plain::Received {
    plain::read(end, connection, bytes, table)
}

#[inline(never)]
fn plain_body(connection: plain::Connection, buffer: &mut [u8], bytes: &[u8]) -> plain::Sent {
    plain::body(connection, buffer, bytes)
}

#[inline(never)]
fn plain_body_chunk(connection: plain::Connection, buffer: &mut [u8], bytes: &[u8]) -> plain::Sent {
    plain::body_chunk(connection, buffer, bytes)
}

/// Copies the bytes again and again.
fn copy(bytes: &[u8]) -> impl FnMut(usize) + '_ {
    let mut buffer = vec![0u8; bytes.len()];
    move |count| {
        for _ in 0..count {
            buffer.copy_from_slice(black_box(bytes));
            black_box(&mut buffer);
        }
    }
}

/// A connection with a body packet due.
fn due() -> Connection {
    Connection::from_fields(ConnectionFields {
        state: State::Busy,
        left: 1_000_000,
        due: true,
        asked: ajp13::MAX_BODY as u16,
        ..Default::default()
    })
}

fn plain_due() -> plain::Connection {
    plain::Connection {
        state: plain::State::Busy,
        left: 1_000_000,
        due: true,
        asked: ajp13::MAX_BODY as u16,
        headers: false,
        head: false,
    }
}

/// A connection whose headers were sent, so that chunks may come.
fn answering() -> Connection {
    Connection::from_fields(ConnectionFields {
        state: State::Busy,
        headers_sent: true,
        ..Default::default()
    })
}

fn plain_answering() -> plain::Connection {
    plain::Connection {
        state: plain::State::Busy,
        left: 0,
        due: false,
        asked: 0,
        headers: true,
        head: false,
    }
}

/// Reads a packet at an end, from the same connection each time.
fn read_row(
    name: &str,
    end: plain::End,
    connection: &Connection,
    plain_connection: plain::Connection,
    packet: &[u8],
) -> Row {
    let mut places = Places::new();
    let mut table = [0u16; ajp13::MAX_PLACES];
    measure(
        name,
        packet.len(),
        |count| {
            for _ in 0..count {
                let mut connection = black_box(connection.clone());
                let bytes = black_box(packet);
                let received = match end {
                    plain::End::Container => connection.read_at_container(bytes, &mut places),
                    plain::End::Server => connection.read_at_server(bytes, &mut places),
                };
                assert!(matches!(
                    black_box(&received),
                    Ok(Received::Accepted { .. })
                ));
                black_box(&connection);
            }
        },
        |count| {
            for _ in 0..count {
                let bytes = black_box(packet);
                let received = plain_read(end, black_box(plain_connection), bytes, &mut table);
                assert!(matches!(
                    black_box(&received),
                    plain::Received::Accepted { .. }
                ));
            }
        },
        copy(packet),
    )
}

/// Builds a request, from a fresh connection each time.
fn build_row(name: &str, request: &Request, packet: &[u8]) -> Row {
    let mut buffer = [0u8; ajp13::MAX_PACKET];
    let mut plain_buffer = [0u8; ajp13::MAX_PACKET];
    measure(
        name,
        packet.len(),
        |count| {
            for _ in 0..count {
                let mut connection = Connection::fresh();
                let written =
                    build_by_library(black_box(request), &mut connection, &mut buffer).unwrap();
                assert!(black_box(written).len() == packet.len());
            }
        },
        |count| {
            for _ in 0..count {
                let length = build_by_plain(
                    black_box(request),
                    plain::Connection::fresh(),
                    &mut plain_buffer,
                );
                assert!(black_box(length) == Ok(packet.len()));
                black_box(&mut plain_buffer);
            }
        },
        copy(packet),
    )
}

/// The bytes of a request, which both write alike and both read.
fn packet_of(request: &Request) -> Vec<u8> {
    let mut buffer = [0u8; ajp13::MAX_PACKET];
    let mut plain_buffer = [0u8; ajp13::MAX_PACKET];
    let packet = build_by_library(request, &mut Connection::fresh(), &mut buffer)
        .unwrap()
        .to_vec();
    let length = build_by_plain(request, plain::Connection::fresh(), &mut plain_buffer).unwrap();
    assert_eq!(packet, plain_buffer[..length]);
    packet
}

fn body_rows(rows: &mut Vec<Row>) {
    let body: Vec<u8> = (0..ajp13::MAX_BODY).map(|i| (i * 7 % 256) as u8).collect();
    let mut buffer = [0u8; ajp13::MAX_PACKET];
    for size in [16, 1024, ajp13::MAX_BODY] {
        let packet = due().body(&mut buffer, &body[..size]).unwrap().to_vec();
        let name = format!("read a body packet of {size} bytes");
        rows.push(read_row(
            &name,
            plain::End::Container,
            &due(),
            plain_due(),
            &packet,
        ));
    }
    for size in [16, 1024, ajp13::MAX_CHUNK] {
        let packet = answering()
            .body_chunk(&mut buffer, &body[..size])
            .unwrap()
            .to_vec();
        let name = format!("read a chunk of {size} bytes");
        rows.push(read_row(
            &name,
            plain::End::Server,
            &answering(),
            plain_answering(),
            &packet,
        ));
    }
    let mut plain_buffer = [0u8; ajp13::MAX_PACKET];
    rows.push(measure(
        "build a full body packet",
        ajp13::MAX_PACKET,
        |count| {
            for _ in 0..count {
                let written = due().body(&mut buffer, black_box(&body)).unwrap().len();
                assert!(black_box(written) == ajp13::MAX_PACKET);
            }
        },
        |count| {
            for _ in 0..count {
                let sent = plain_body(plain_due(), &mut plain_buffer, black_box(&body));
                assert!(matches!(black_box(sent), plain::Sent::Written { .. }));
            }
        },
        copy(&[1; ajp13::MAX_PACKET]),
    ));
    let chunk = &body[..ajp13::MAX_CHUNK];
    rows.push(measure(
        "build a full chunk",
        ajp13::MAX_PACKET,
        |count| {
            for _ in 0..count {
                let written = answering()
                    .body_chunk(&mut buffer, black_box(chunk))
                    .unwrap()
                    .len();
                assert!(black_box(written) == ajp13::MAX_PACKET);
            }
        },
        |count| {
            for _ in 0..count {
                let sent = plain_body_chunk(plain_answering(), &mut plain_buffer, black_box(chunk));
                assert!(matches!(black_box(sent), plain::Sent::Written { .. }));
            }
        },
        copy(&[1; ajp13::MAX_PACKET]),
    ));
}

fn main() {
    let counted = counted_row();
    if counted.is_none() {
        warm_up();
    }
    let mut rows = Vec::new();
    let requests = [
        ("a small GET", requests::small()),
        ("a browser's Forward", requests::browser()),
        ("a Forward with 100 headers", requests::full()),
        (
            "a Forward with 100 ordinary spelled names",
            requests::ordinary(),
        ),
        (
            "a Forward with 100 names near to listed ones",
            requests::near(),
        ),
    ];
    // The last two differ in their names alone.
    let [.., ordinary, near] = &requests;
    assert_eq!(packet_of(&ordinary.1).len(), packet_of(&near.1).len());
    for (name, request) in &requests {
        let packet = packet_of(request);
        let mut places = Places::new();
        let mut connection = Connection::fresh();
        let Ok(Received::Accepted { packet: read, .. }) =
            connection.read_at_container(&packet, &mut places)
        else {
            panic!("what was built is read");
        };
        assert!(matches!(read, Packet::Forward(f) if f.headers().len() == request.headers.len()));
        rows.push(read_row(
            &format!("read {name}"),
            plain::End::Container,
            &Connection::fresh(),
            plain::Connection::fresh(),
            &packet,
        ));
        rows.push(build_row(&format!("build {name}"), request, &packet));
    }
    body_rows(&mut rows);
    rows.sort_by_key(|row| row.name.starts_with("build"));
    if let Some(row) = counted {
        // Without a row's name, the names of all rows are told.
        if row.is_empty() {
            rows.iter().for_each(|row| println!("{}", row.name));
        }
        return;
    }
    let text = table::markdown(&rows);
    println!("{text}");
    let results = Path::new(env!("CARGO_MANIFEST_DIR")).join("RESULTS.md");
    if let Err(error) = table::put(&results, &text) {
        eprintln!("{}: {error}", results.display());
        std::process::exit(1);
    }
}
