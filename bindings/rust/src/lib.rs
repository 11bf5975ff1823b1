//! Both ends of an AJP13 connection, the protocol between a web server and a servlet container: packets taken out of
//! lent bytes, checked and viewed, packets built, and the connection's cycle kept; and a checker over captures of what
//! others sent. Sockets and HTTP are left to others.
//!
//! The work is done by a proved library, written in Rattle, which this crate links and calls through its C entry
//! points. Nothing here allocates or needs the standard library (`no_std`), and nothing is kept between calls but the
//! [`Connection`] that the caller holds.
//!
//! - **Reading**: [`Connection::read_at_container`] and [`Connection::read_at_server`] take bytes as they came and
//!   answer a [`Refusal`] or a [`Received`]: more is needed, or a [`Packet`], whose fields are views of those bytes.
//! - **Sending**: [`Connection::cping`], [`cpong`](Connection::cpong), [`body`](Connection::body),
//!   [`body_chunk`](Connection::body_chunk), [`get_body`](Connection::get_body) and [`end`](Connection::end) each
//!   write a packet into a lent buffer. A Forward Request and a Send Headers are built in pieces, from a
//!   [`ForwardHead`] and a [`SendHeadersHead`].
//! - **Checking a capture**: [`check`] tells whether the packets that went over a connection keep the rules, and how
//!   many there were, in a [`Checked`]. A [`Checking`] does so in parts.
//! - A refusal changes nothing: not the connection, the table of places, the buffer, nor what is built so far. A packet
//!   that is refused when it is closed is handed back in [`NotClosed`].
//!
//! The examples `container` and `server` are the two ends over a stream whose bytes arrive in parts.
//!
//! A request with a body and its answer; two lists of bytes stand for the two ways of a socket:
//!
//! ```
//! use ajp13::{attribute, Connection, ForwardHead, Method, Packet, Places, Received, SendHeadersHead, State};
//!
//! let mut server = Connection::fresh();
//! let mut container = Connection::fresh();
//! let mut to_container: Vec<u8> = Vec::new();
//! let mut to_server: Vec<u8> = Vec::new();
//! let mut buffer = [0; ajp13::MAX_PACKET];
//! let mut places = Places::new();
//!
//! // The server forwards a request that declares five bytes of body, and sends them.
//! let head = ForwardHead {
//!     method: Method::POST,
//!     protocol: b"HTTP/1.1",
//!     req_uri: b"/valves/7",
//!     remote_addr: Some(b"192.0.2.15"),
//!     remote_host: None,
//!     server_name: Some(b"orchard.example"),
//!     server_port: 80,
//!     is_ssl: false,
//! };
//! let mut headers = head.begin(&mut buffer)?;
//! headers
//!     .header(b"Host", Some(b"orchard.example"))?
//!     .header(b"Content-Length", Some(b"5"))?;
//! let mut attributes = headers.attributes();
//! attributes.text(attribute::QUERY_STRING, Some(b"by=Malee"))?;
//! to_container.extend(attributes.close(&mut server)?);
//! to_container.extend(server.body(&mut buffer, b"open!")?);
//!
//! // The container reads what came: the request, then its body.
//! let mut body: Vec<u8> = Vec::new();
//! let mut at = 0;
//! while at < to_container.len() {
//!     match container.read_at_container(&to_container[at..], &mut places)? {
//!         // A program with a socket would read on until `n` bytes are there.
//!         Received::Needs(n) => panic!("{n} bytes are needed"),
//!         Received::Accepted { packet, taken } => {
//!             at += taken;
//!             match packet {
//!                 Packet::Forward(forward) => {
//!                     assert_eq!(forward.method(), Method::POST);
//!                     assert_eq!(forward.req_uri(), b"/valves/7");
//!                     assert_eq!(forward.declared_length(), 5);
//!                     let host = forward.header(b"host").and_then(|header| header.value);
//!                     assert_eq!(host, Some(&b"orchard.example"[..]));
//!                 }
//!                 Packet::Body(bytes) => body.extend(bytes),
//!                 other => panic!("not expected: {other:?}"),
//!             }
//!         }
//!     }
//! }
//! assert_eq!(body, b"open!");
//!
//! // It answers.
//! let head = SendHeadersHead { status: 200, message: Some(b"OK") };
//! let mut headers = head.begin(&mut buffer)?;
//! headers.header(b"Content-Type", Some(b"text/plain"))?;
//! to_server.extend(headers.close(&mut container)?);
//! to_server.extend(container.body_chunk(&mut buffer, b"valve 7 is open")?);
//! to_server.extend(container.end(&mut buffer, true)?);
//!
//! // The server reads the answer.
//! let mut status = 0;
//! let mut answer: Vec<u8> = Vec::new();
//! let mut at = 0;
//! while at < to_server.len() {
//!     let Received::Accepted { packet, taken } = server.read_at_server(&to_server[at..], &mut places)? else {
//!         panic!("the container's end writes whole packets");
//!     };
//!     at += taken;
//!     match packet {
//!         Packet::SendHeaders(headers) => status = headers.status(),
//!         Packet::BodyChunk(bytes) => answer.extend(bytes),
//!         Packet::End { reuse } => assert!(reuse),
//!         other => panic!("not expected: {other:?}"),
//!     }
//! }
//! assert_eq!(status, 200);
//! assert_eq!(answer, b"valve 7 is open");
//!
//! // Both ends are where they began.
//! assert_eq!(server, Connection::fresh());
//! assert_eq!(container.state(), State::Idle);
//! # Ok::<(), ajp13::Refusal>(())
//! ```

#![no_std]
#![deny(missing_docs)]
#![deny(missing_debug_implementations)]
#![deny(unsafe_op_in_unsafe_fn)]
#![deny(unsafe_code)]

mod building;
mod checking;
mod connection;
// All unsafe code of the crate.
#[allow(unsafe_code)]
mod ffi;
mod names;
mod packet;
pub mod raw;
mod refusal;

pub use building::{
    Building, BuildingKind, ForwardAttributes, ForwardHead, ForwardHeaders, NotClosed,
    ResponseHeaders, SendHeadersHead,
};
pub use checking::{check, Checked, Checking};
pub use connection::{Connection, ConnectionFields, State};
pub use names::{
    attribute, attribute_code, attribute_name, method_code, method_name, request_header_code,
    request_header_name, response_header_code, response_header_name, Method, Name, NameList,
};
pub use packet::{
    Attribute, Attributes, Forward, Header, HeaderName, Headers, NameText, Packet, Places,
    Received, SendHeaders,
};
pub use raw::{MAX_BODY, MAX_CAPTURE, MAX_CHUNK, MAX_PACKET, MAX_PLACES};
pub use refusal::Refusal;

/// The example of `README.md`, which `cargo test` runs.
#[cfg(doctest)]
#[doc = include_str!("../README.md")]
struct Readme;
