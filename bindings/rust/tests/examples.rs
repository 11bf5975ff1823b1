//! The loops of the two examples, against each other and against a bad peer, over a stream that hands out its bytes in
//! parts of one to five.

#[allow(dead_code)]
#[path = "../examples/container.rs"]
mod container;
#[allow(dead_code)]
#[path = "../examples/server.rs"]
mod server;

use std::collections::VecDeque;
use std::error::Error;
use std::io::{self, Read, Write};
use std::sync::mpsc::{channel, Receiver, Sender};
use std::thread;

use ajp13::{Method, Refusal};

/// One end of a stream.
struct Stream {
    sent: Sender<Vec<u8>>,
    came: Receiver<Vec<u8>>,
    /// What came and is not handed out yet.
    unread: VecDeque<u8>,
    /// How many bytes the next part has.
    part: usize,
}

/// The two ends of a stream.
fn stream() -> (Stream, Stream) {
    let (to_container, at_container) = channel();
    let (to_server, at_server) = channel();
    let end = |sent, came| Stream {
        sent,
        came,
        unread: VecDeque::new(),
        part: 1,
    };
    (end(to_container, at_server), end(to_server, at_container))
}

impl Read for Stream {
    fn read(&mut self, room: &mut [u8]) -> io::Result<usize> {
        assert!(!room.is_empty(), "a loop waits for bytes and has no room");
        if self.unread.is_empty() {
            // Nothing comes any more once the other end is gone.
            self.unread.extend(self.came.recv().unwrap_or_default());
        }
        self.part = self.part % 5 + 1;
        let count = self.part.min(room.len()).min(self.unread.len());
        room.iter_mut()
            .zip(self.unread.drain(..count))
            .for_each(|(to, byte)| *to = byte);
        Ok(count)
    }
}

impl Write for Stream {
    fn write(&mut self, bytes: &[u8]) -> io::Result<usize> {
        match self.sent.send(bytes.to_vec()) {
            Ok(()) => Ok(bytes.len()),
            Err(_) => Err(io::ErrorKind::BrokenPipe.into()),
        }
    }

    fn flush(&mut self) -> io::Result<()> {
        Ok(())
    }
}

/// What the server's loop writes where the container's loop answers, which ends without an error.
fn response(method: Method, path: &[u8], body: &[u8]) -> Vec<u8> {
    let (mut at_server, mut at_container) = stream();
    let container = thread::spawn(move || {
        container::serve(&mut at_container).map_err(|error| error.to_string())
    });
    let mut out = Vec::new();
    server::request(&mut at_server, method, path, body, &mut out).unwrap();
    drop(at_server);
    container.join().unwrap().unwrap();
    out
}

/// A response of the container's loop.
fn ok(body: &[u8]) -> Vec<u8> {
    [b"200 OK\nContent-Type: application/octet-stream\n\n", body].concat()
}

#[test]
fn get() {
    assert_eq!(response(Method::GET, b"/trees/12", b""), ok(b"/trees/12\n"));
}

#[test]
fn head() {
    assert_eq!(response(Method::HEAD, b"/trees/12", b""), ok(b""));
}

#[test]
fn post() {
    for length in [1, 8186, 8187, 20_000] {
        let body: Vec<u8> = (0..length).map(|at| (at * 7 % 251) as u8).collect();
        let answer = [b"/valves/7\n", &body[..]].concat();
        assert!(response(Method::POST, b"/valves/7", &body) == ok(&answer));
    }
}

#[test]
fn a_body_that_is_too_long() {
    let body = vec![b'x'; 2 << 20];
    let answer = response(Method::POST, b"/valves/7", &body);
    assert!(answer.starts_with(b"413 \n"));
}

/// The server's loop sends what is asked for, no more than is left, and an empty body packet where that is nothing.
#[test]
fn what_is_asked_for() {
    let (mut end, mut peer) = stream();
    let answers: [&[u8]; 7] = [
        b"AB\x00\x01\x09",
        b"AB\x00\x03\x06\x00\x03",
        b"AB\x00\x03\x06\x00\x00",
        b"AB\x00\x03\x06\x1F\xFA",
        b"AB\x00\x03\x06\xFF\xFF",
        b"AB\x00\x0A\x04\x00\xC8\x00\x02OK\x00\x00\x00",
        b"AB\x00\x02\x05\x01",
    ];
    peer.write_all(&answers.concat()).unwrap();
    let body: Vec<u8> = (0..10_000).map(|at| (at * 7 % 251) as u8).collect();
    server::request(&mut end, Method::POST, b"/", &body, &mut io::sink()).unwrap();
    drop(end);

    // Behind CPing and Forward come the body packets; each write is one packet.
    let sent: Vec<Vec<u8>> = peer.came.iter().skip(2).collect();
    let sizes: Vec<usize> = sent.iter().map(|packet| packet.len()).collect();
    assert_eq!(sizes, [6 + 8186, 6 + 3, 4, 6 + 1811, 4]);
    let parts = sent.iter().filter_map(|packet| packet.get(6..));
    assert!(parts.flatten().eq(&body));
}

/// How a loop ends against a peer that sends these bytes and then closes.
fn against(
    bytes: &[u8],
    run: impl FnOnce(&mut Stream) -> Result<(), Box<dyn Error>>,
) -> Box<dyn Error> {
    let (mut end, mut peer) = stream();
    peer.write_all(bytes).unwrap();
    drop(peer.sent);
    run(&mut end).unwrap_err()
}

#[test]
fn a_bad_server() {
    let refused = |bytes: &[u8]| {
        against(bytes, container::serve)
            .downcast::<Refusal>()
            .map(|refusal| *refusal)
    };
    assert_eq!(
        refused(b"GET / HTTP/1.1\r\n").unwrap(),
        Refusal::LeadingWrong
    );
    assert_eq!(refused(b"\x12\x34\x1F\xFD").unwrap(), Refusal::TooLong);
    // Two CPings, which are answered, and then a packet with the code of a CPong.
    assert_eq!(
        refused(b"\x12\x34\x00\x01\x0A\x12\x34\x00\x01\x0A\x12\x34\x00\x01\x09").unwrap(),
        Refusal::CodeWrong
    );
    // No refusal: the stream ends inside a packet.
    assert!(refused(b"\x12\x34\x00").is_err());
}

#[test]
fn a_bad_container() {
    let refused = |bytes: &[u8]| {
        let run =
            |stream: &mut Stream| server::request(stream, Method::GET, b"/", b"", &mut io::sink());
        against(bytes, run)
            .downcast::<Refusal>()
            .map(|refusal| *refusal)
    };
    assert_eq!(refused(b"\x12\x34").unwrap(), Refusal::LeadingWrong);
    // A chunk before the headers.
    assert_eq!(
        refused(b"AB\x00\x01\x09AB\x00\x06\x03\x00\x02ok\x00").unwrap(),
        Refusal::NotNow
    );
    // No refusal: the stream ends before the response does.
    assert!(refused(b"AB\x00\x01\x09").is_err());
}
