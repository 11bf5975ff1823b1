//! The safe types: packets read and built at both ends, refusals, views.

use ajp13::{
    attribute, check, raw, Attribute, Building, BuildingKind, Checking, Connection,
    ConnectionFields, ForwardHead, HeaderName, Method, NotClosed, Packet, Places, Received,
    Refusal, SendHeadersHead, State,
};

/// GET /, port 80, all else null, no headers, no attributes.
const GET: &[u8] = b"\x12\x34\x00\x1D\x02\x02\x00\x08HTTP/1.1\0\x00\x01/\0\
    \xFF\xFF\xFF\xFF\xFF\xFF\x00\x50\x00\x00\x00\xFF";

fn head() -> ForwardHead<'static> {
    ForwardHead {
        method: Method::GET,
        protocol: b"HTTP/1.1",
        req_uri: b"/",
        remote_addr: None,
        remote_host: None,
        server_name: None,
        server_port: 80,
        is_ssl: false,
    }
}

fn busy(left: u32, asked: Option<u16>, headers_sent: bool) -> Connection {
    Connection::from_fields(ConnectionFields {
        state: State::Busy,
        left,
        due: asked.is_some(),
        asked: asked.unwrap_or(0),
        headers_sent,
        head: false,
    })
}

/// A connection of which only the state counts.
fn resting(state: State) -> Connection {
    Connection::from_fields(ConnectionFields {
        state,
        ..Default::default()
    })
}

/// What reading at the container's end accepts, all of it.
fn at_container<'a>(
    connection: &mut Connection,
    bytes: &'a [u8],
    places: &'a mut Places,
) -> Packet<'a> {
    match connection.read_at_container(bytes, places) {
        Ok(Received::Accepted { packet, taken }) if taken == bytes.len() => packet,
        other => panic!("{other:?}"),
    }
}

#[test]
fn packets_to_the_container() {
    let mut places = Places::new();

    let mut connection = Connection::fresh();
    let packet = at_container(&mut connection, b"\x12\x34\x00\x01\x0A", &mut places);
    assert_eq!(packet, Packet::CPing);
    assert_eq!(connection.state(), State::Pinged);

    let mut connection = busy(2, Some(8186), false);
    let bytes = b"\x12\x34\x00\x04\x00\x02hi";
    let packet = at_container(&mut connection, bytes, &mut places);
    assert_eq!(packet, Packet::Body(b"hi"));
    assert_eq!(connection, busy(0, None, false));

    // The two forms of an empty body packet.
    for bytes in [&b"\x12\x34\x00\x00"[..], b"\x12\x34\x00\x02\x00\x00"] {
        let mut connection = busy(0, Some(8186), false);
        let packet = at_container(&mut connection, bytes, &mut places);
        assert_eq!(packet, Packet::Body(b""));
        assert_eq!(connection, busy(0, None, false));
    }

    let mut connection = Connection::fresh();
    let Packet::Forward(forward) = at_container(&mut connection, GET, &mut places) else {
        panic!("no Forward");
    };
    assert_eq!(forward.method().name().unwrap().as_str(), "GET");
    assert_eq!(forward.protocol(), b"HTTP/1.1");
    assert_eq!(forward.req_uri(), b"/");
    assert_eq!(forward.remote_addr(), None);
    assert_eq!(forward.remote_host(), None);
    assert_eq!(forward.server_name(), None);
    assert_eq!(forward.server_port(), 80);
    assert!(!forward.is_ssl());
    assert_eq!(forward.declared_length(), 0);
    assert_eq!(forward.headers().len(), 0);
    assert_eq!(forward.attributes().len(), 0);
    assert_eq!(forward.bytes(), GET);
    assert_eq!(forward.places(), []);
    assert_eq!(connection, busy(0, None, false));
}

#[test]
fn packets_to_the_server() {
    let read = |before: Connection, bytes: &[u8], expected: Packet, after: Connection| {
        let mut connection = before;
        let mut places = Places::new();
        let taken = bytes.len();
        let received = connection.read_at_server(bytes, &mut places);
        let packet = expected;
        assert_eq!(received, Ok(Received::Accepted { packet, taken }));
        assert_eq!(connection, after);
    };
    let fresh = Connection::fresh;
    let pinged = resting(State::Pinged);
    read(
        pinged,
        b"\x41\x42\x00\x01\x09",
        Packet::CPong,
        Connection::fresh(),
    );
    read(
        busy(9, None, false),
        b"\x41\x42\x00\x03\x06\x1F\xFA",
        Packet::GetBody(8186),
        busy(9, Some(8186), false),
    );
    read(
        busy(0, None, true),
        b"\x41\x42\x00\x06\x03\x00\x02ok\x00",
        Packet::BodyChunk(b"ok"),
        busy(0, None, true),
    );
    read(
        busy(0, None, true),
        b"\x41\x42\x00\x02\x05\x01",
        Packet::End { reuse: true },
        fresh(),
    );
    read(
        busy(0, None, true),
        b"\x41\x42\x00\x02\x05\x00",
        Packet::End { reuse: false },
        resting(State::Closed),
    );

    let bytes = b"\x41\x42\x00\x0A\x04\x00\xC8\x00\x02OK\0\x00\x00";
    let mut connection = busy(0, None, false);
    let mut places = Places::new();
    let received = connection.read_at_server(bytes, &mut places);
    let Ok(Received::Accepted {
        packet: Packet::SendHeaders(headers),
        taken: 14,
    }) = received
    else {
        panic!("{received:?}");
    };
    assert_eq!(headers.status(), 200);
    assert_eq!(headers.message(), Some(&b"OK"[..]));
    assert_eq!(headers.headers().len(), 0);
    assert_eq!(headers.places(), []);
    assert_eq!(headers.bytes(), bytes);
}

#[test]
fn refusals_and_needs_change_nothing() {
    let mut places = Places::new();
    let mut at_container = |before: Connection, bytes: &[u8]| {
        let mut connection = before.clone();
        let answer = match connection.read_at_container(bytes, &mut places) {
            Ok(Received::Needs(n)) => Ok(n),
            Ok(Received::Accepted { packet, .. }) => panic!("{packet:?}"),
            Err(refusal) => Err(refusal),
        };
        assert_eq!(connection, before);
        answer
    };
    let fresh = Connection::fresh;
    assert_eq!(at_container(fresh(), b""), Ok(4));
    assert_eq!(at_container(fresh(), b"\x12\x34\x1F\xFC"), Ok(8192));
    assert_eq!(
        at_container(fresh(), b"\x12\x34\x1F\xFD"),
        Err(Refusal::TooLong)
    );
    assert_eq!(at_container(fresh(), b"A"), Err(Refusal::LeadingWrong));
    assert_eq!(
        at_container(fresh(), b"\x12\x34\x00\x00"),
        Err(Refusal::CutShort)
    );
    assert_eq!(
        at_container(fresh(), b"\x12\x34\x00\x01\x03"),
        Err(Refusal::CodeWrong)
    );
    assert_eq!(
        at_container(fresh(), b"\x12\x34\x00\x01\x07"),
        Err(Refusal::CodeNotServed)
    );
    assert_eq!(
        at_container(fresh(), b"\x12\x34\x00\x02\x0A\x0A"),
        Err(Refusal::LeftOver)
    );
    assert_eq!(at_container(busy(0, None, true), GET), Err(Refusal::NotNow));
    assert_eq!(
        at_container(busy(1, Some(8186), true), b"\x12\x34\x00\x04\x00\x02hi"),
        Err(Refusal::BodySizeWrong)
    );
    assert_eq!(places, Places::new());
}

#[test]
fn a_table_too_short() {
    let mut server = Connection::fresh();
    let mut buffer = [0; ajp13::MAX_PACKET];
    let mut headers = head().begin(&mut buffer).unwrap();
    headers.header(b"accept", Some(b"*/*")).unwrap();
    headers.header(b"x-a", Some(b"")).unwrap();
    let packet = headers.close(&mut server).unwrap();

    let mut table = [9; 5];
    let mut container = Connection::fresh();
    let received = container.read_at_container(packet, &mut table[..3]);
    assert_eq!(received, Err(Refusal::BufferTooShort));
    assert_eq!(container, Connection::fresh());
    assert_eq!(table, [9; 5]);

    let received = container.read_at_container(packet, &mut table);
    let Ok(Received::Accepted {
        packet: Packet::Forward(forward),
        ..
    }) = received
    else {
        panic!("{received:?}");
    };
    assert_eq!(forward.headers().len(), 2);
    assert_eq!(forward.places().len(), 4);
    assert_eq!(table[4], 9);
}

#[test]
fn every_field_comes_back() {
    let mut server = Connection::fresh();
    let mut buffer = [0; ajp13::MAX_PACKET];
    let head = ForwardHead {
        method: Method::BASELINE_CONTROL,
        protocol: b"HTTP/1.0",
        req_uri: b"/a",
        remote_addr: Some(b"192.0.2.1"),
        remote_host: Some(b""),
        server_name: Some(b"s.example"),
        server_port: 65535,
        is_ssl: true,
    };
    let mut headers = head.begin(&mut buffer).unwrap();
    headers
        .header(b"HOST", Some(b"s.example"))
        .unwrap()
        .coded(0xA008, Some(b"4294967295"))
        .unwrap()
        .spelled(b"X-Null", None)
        .unwrap()
        .header(b"x-empty", Some(b""))
        .unwrap();
    let mut attributes = headers.attributes();
    attributes
        .text(attribute::ROUTE, None)
        .unwrap()
        .integer(attribute::SSL_KEY_SIZE, 65535)
        .unwrap()
        .pair(b"a b", Some(b"c"))
        .unwrap()
        .pair(b"a b", None)
        .unwrap();
    assert_eq!(attributes.building().headers(), 4);
    assert!(attributes.building().attributes_began());
    let packet = attributes.close(&mut server).unwrap();
    assert_eq!(server, busy(u32::MAX, Some(8186), false));

    let mut container = Connection::fresh();
    let mut places = Places::new();
    let Packet::Forward(forward) = at_container(&mut container, packet, &mut places) else {
        panic!("no Forward");
    };
    assert_eq!(container, server);
    assert_eq!(forward.method(), head.method);
    assert_eq!(forward.protocol(), head.protocol);
    assert_eq!(forward.req_uri(), head.req_uri);
    assert_eq!(forward.remote_addr(), head.remote_addr);
    assert_eq!(forward.remote_host(), head.remote_host);
    assert_eq!(forward.server_name(), head.server_name);
    assert_eq!(forward.server_port(), head.server_port);
    assert_eq!(forward.is_ssl(), head.is_ssl);
    assert_eq!(forward.declared_length(), u32::MAX);

    let headers: Vec<_> = forward.headers().collect();
    let fields: Vec<_> = headers.iter().map(|h| (h.name, h.value)).collect();
    assert_eq!(
        fields,
        [
            (HeaderName::Code(0xA00B), Some(&b"s.example"[..])),
            (HeaderName::Code(0xA008), Some(b"4294967295")),
            (HeaderName::Spelled(b"X-Null"), None),
            (HeaderName::Spelled(b"x-empty"), Some(b"")),
        ]
    );
    let names: Vec<_> = headers.iter().map(|h| h.name_text().to_vec()).collect();
    let expected: [&[u8]; 4] = [b"host", b"content-length", b"X-Null", b"x-empty"];
    assert_eq!(names, expected);

    // Looked for by name, listed or not, case ignored.
    assert_eq!(forward.header(b"Host"), Some(headers[0]));
    assert_eq!(forward.header(b"X-NULL"), Some(headers[2]));
    assert_eq!(forward.header(b"accept"), None);
    assert_eq!(forward.header(b"x-none"), None);

    let attributes: Vec<_> = forward.attributes().collect();
    assert_eq!(
        attributes,
        [
            Attribute::Text {
                code: attribute::ROUTE,
                value: None
            },
            Attribute::Integer {
                code: attribute::SSL_KEY_SIZE,
                value: 65535
            },
            Attribute::Pair {
                name: b"a b",
                value: Some(b"c")
            },
            Attribute::Pair {
                name: b"a b",
                value: None
            },
        ]
    );
    let names: Vec<_> = attributes.iter().map(|a| a.name_text().to_vec()).collect();
    let expected: [&[u8]; 4] = [b"route", b"ssl_key_size", b"a b", b"a b"];
    assert_eq!(names, expected);
    assert_eq!(
        forward.attribute(attribute::REQ_ATTRIBUTE),
        Some(attributes[2])
    );
    assert_eq!(forward.attribute(attribute::SECRET), None);

    // From the back, and past some.
    let back: Vec<_> = forward.headers().rev().collect();
    assert!(back.iter().rev().eq(headers.iter()));
    let back: Vec<_> = forward.attributes().rev().collect();
    assert!(back.iter().rev().eq(attributes.iter()));
    assert_eq!(forward.headers().nth(2), Some(headers[2]));
    assert_eq!(forward.attributes().nth(3), Some(attributes[3]));
    assert_eq!(forward.attributes().nth(4), None);

    // What people see.
    let shown = format!("{forward:?}");
    assert!(shown.contains(r#"remote_host: Some(b"")"#), "{shown}");
    assert!(
        shown.contains(r#"Header { name: b"X-Null", value: None }"#),
        "{shown}"
    );
    assert!(
        shown.contains(r#"Pair { name: b"a b", value: Some(b"c") }"#),
        "{shown}"
    );
}

#[test]
fn a_response_comes_back() {
    let mut container = busy(0, None, false);
    let mut server = container.clone();
    let mut buffer = [0; ajp13::MAX_PACKET];
    let head = SendHeadersHead {
        status: 404,
        message: None,
    };
    let mut headers = head.begin(&mut buffer).unwrap();
    headers
        .header(b"content-type", Some(b"text/html"))
        .unwrap()
        .coded(0xA007, Some(b"a=b"))
        .unwrap()
        .spelled(b"Transfer-Encoding", Some(b"x"))
        .unwrap();
    assert_eq!(headers.building().kind(), BuildingKind::SendHeaders);
    let packet = headers.close(&mut container).unwrap();

    let mut places = Places::new();
    let received = server.read_at_server(packet, &mut places);
    let Ok(Received::Accepted {
        packet: Packet::SendHeaders(headers),
        ..
    }) = received
    else {
        panic!("{received:?}");
    };
    assert_eq!(server, container);
    assert_eq!(headers.status(), 404);
    assert_eq!(headers.message(), None);
    let names: Vec<_> = headers.headers().map(|h| h.name_text().to_vec()).collect();
    let expected: [&[u8]; 3] = [b"Content-Type", b"Set-Cookie", b"Transfer-Encoding"];
    assert_eq!(names, expected);
    assert_eq!(
        headers.header(b"Set-cookie").unwrap().value,
        Some(&b"a=b"[..])
    );
    assert_eq!(
        headers.header(b"transfer-encoding").unwrap().value,
        Some(&b"x"[..])
    );
}

#[test]
fn a_refused_piece_adds_nothing() {
    let mut server = Connection::fresh();
    let mut buffer = [0; ajp13::MAX_PACKET];

    let bad = ForwardHead {
        method: Method::from_code(28),
        ..head()
    };
    assert_eq!(bad.begin(&mut buffer).unwrap_err(), Refusal::OutOfRange);
    let bad = ForwardHead {
        req_uri: b"",
        ..head()
    };
    assert_eq!(bad.begin(&mut buffer).unwrap_err(), Refusal::StringWrong);
    assert_eq!(buffer, [0; ajp13::MAX_PACKET]);
    assert_eq!(
        head().begin(&mut [0; 30]).unwrap_err(),
        Refusal::BufferTooShort
    );

    let mut headers = head().begin(&mut buffer).unwrap();
    let before = *headers.building();
    let refused = [
        headers.spelled(b"Host", None).unwrap_err(),
        headers.coded(0xA00F, None).unwrap_err(),
        headers.header(b"", None).unwrap_err(),
        headers
            .header(b"transfer-encoding", Some(b"chunked"))
            .unwrap_err(),
        headers
            .header(b"content-length", Some(b"4294967296"))
            .unwrap_err(),
        headers.header(b"x", Some(&[b'x'; 8192])).unwrap_err(),
        headers.header(b"x", Some(b"tree\r\nx: y")).unwrap_err(),
        headers.header(b"content\rtype", None).unwrap_err(),
        headers.header(b"content-length", Some(b"1\n")).unwrap_err(),
    ];
    assert_eq!(refused.map(Refusal::number), [8, 8, 6, 10, 10, 2, 6, 6, 6]);
    assert_eq!(headers.building(), &before);

    let mut attributes = headers.attributes();
    let refused = [
        attributes.text(0xFF, None).unwrap_err(),
        attributes.text(attribute::SSL_KEY_SIZE, None).unwrap_err(),
        attributes.integer(attribute::SECRET, 1).unwrap_err(),
        attributes.pair(b"", None).unwrap_err(),
        attributes
            .text(attribute::ROUTE, Some(b"a\0b"))
            .unwrap_err(),
        attributes
            .text(
                attribute::SSL_CERT,
                Some(b"-----BEGIN CERTIFICATE-----\nMIIB"),
            )
            .unwrap_err(),
    ];
    assert_eq!(refused.map(Refusal::number), [9, 9, 9, 6, 6, 6]);
    assert_eq!(attributes.building(), &before);
    assert_eq!(attributes.close(&mut server).unwrap(), GET);
    assert_eq!(server, busy(0, None, false));
}

#[test]
fn closing_judges_the_packet() {
    let mut buffer = [0; ajp13::MAX_PACKET];

    // A second content-length.
    let mut server = Connection::fresh();
    let mut headers = head().begin(&mut buffer).unwrap();
    headers
        .header(b"content-length", Some(b"1"))
        .unwrap()
        .header(b"content-length", Some(b"1"))
        .unwrap();
    let error = headers.close(&mut server).unwrap_err();
    assert_eq!(error.refusal(), Refusal::ContentLengthWrong);
    assert_eq!(server, Connection::fresh());

    // An attribute twice.
    let mut attributes = head().begin(&mut buffer).unwrap().attributes();
    attributes
        .text(attribute::SECRET, Some(b"x"))
        .unwrap()
        .text(attribute::SECRET, Some(b"x"))
        .unwrap();
    let error = attributes.close(&mut server).unwrap_err();
    assert_eq!(error.into_refusal(), Refusal::AttributeWrong);

    // Not now.
    let mut server = busy(0, None, false);
    let headers = head().begin(&mut buffer).unwrap();
    let error = headers.close(&mut server).unwrap_err();
    assert_eq!(Refusal::from(error), Refusal::NotNow);
    assert_eq!(server, busy(0, None, false));
}

/// A builder that was refused when it was closed goes on with more pieces and is closed again, on the same connection
/// or on another, and the packet is the one that was never refused.
#[test]
fn a_refused_closing_hands_the_builder_back() {
    let with_host_and_accept = |buffer: &mut [u8]| {
        let mut headers = head().begin(buffer).unwrap();
        headers.header(b"host", Some(b"h")).unwrap();
        headers.header(b"accept", None).unwrap();
        headers.close(&mut Connection::fresh()).unwrap().to_vec()
    };
    let expected = with_host_and_accept(&mut [0; ajp13::MAX_PACKET]);

    let mut buffer = [0x55; ajp13::MAX_PACKET];
    let mut closed = resting(State::Closed);
    let mut headers = head().begin(&mut buffer).unwrap();
    headers.header(b"host", Some(b"h")).unwrap();
    let before = *headers.building();
    let error = headers.close(&mut closed).unwrap_err();
    assert_eq!(error.builder().building(), &before);
    assert_eq!(closed.state(), State::Closed);
    let (refusal, mut headers) = error.into_parts();
    assert_eq!(refusal, Refusal::NotNow);
    headers.header(b"accept", None).unwrap();
    let mut server = Connection::fresh();
    assert_eq!(headers.close(&mut server).unwrap(), expected);
    assert_eq!(server, busy(0, None, false));
    assert!(buffer[expected.len()..].iter().all(|byte| *byte == 0x55));

    // With attributes; on the same connection, once it is there again.
    let mut server = resting(State::Pinged);
    let mut attributes = head().begin(&mut buffer).unwrap().attributes();
    attributes.text(attribute::ROUTE, Some(b"r")).unwrap();
    let error = attributes.close(&mut server).unwrap_err();
    assert_eq!(error.refusal(), Refusal::NotNow);
    let mut attributes = error.into_builder();
    attributes.pair(b"a", Some(b"b")).unwrap();
    server.cpong(&mut [0; 8]).unwrap();
    let packet = attributes.close(&mut server).unwrap().to_vec();
    let mut places = Places::new();
    let mut container = Connection::fresh();
    let Packet::Forward(forward) = at_container(&mut container, &packet, &mut places) else {
        panic!("no Forward");
    };
    assert_eq!(forward.attributes().len(), 2);

    // A response: no request is under way, then one is.
    let head = SendHeadersHead {
        status: 200,
        message: None,
    };
    let mut container = Connection::fresh();
    let headers = head.begin(&mut buffer).unwrap();
    let error = headers.close(&mut container).unwrap_err();
    let mut headers = error.into_builder();
    headers.header(b"Status", Some(b"200")).unwrap();
    container = busy(0, None, false);
    let packet = headers.close(&mut container).unwrap();
    assert_eq!(
        packet,
        b"AB\x00\x0F\x04\x00\xC8\xFF\xFF\x00\x01\xA0\x0A\x00\x03200\0"
    );
    assert!(container.headers_sent());
}

/// What an error of closing says, and that `?` makes it a refusal.
#[test]
fn a_refused_closing_is_an_error() {
    fn close<'b>(connection: &mut Connection, buffer: &'b mut [u8]) -> Result<&'b [u8], Refusal> {
        Ok(head().begin(buffer)?.close(connection)?)
    }
    let mut buffer = [0; ajp13::MAX_PACKET];
    let mut server = Connection::fresh();
    assert_eq!(close(&mut server, &mut buffer), Ok(GET));
    assert_eq!(close(&mut server, &mut buffer), Err(Refusal::NotNow));

    fn boxed(connection: &mut Connection) -> Result<usize, Box<dyn std::error::Error>> {
        let mut buffer = [0; ajp13::MAX_PACKET];
        let headers = head().begin(&mut buffer)?;
        let packet = headers.close(connection);
        Ok(packet.map_err(NotClosed::into_refusal)?.len())
    }
    assert!(boxed(&mut server).unwrap_err().is::<Refusal>());
    assert_eq!(boxed(&mut Connection::fresh()).unwrap(), GET.len());

    let headers = head().begin(&mut buffer).unwrap();
    let error = headers.close(&mut server).unwrap_err();
    let shown = "packet not closed: refusal 13: not allowed in this state";
    assert_eq!(error.to_string(), shown);
    let error: &dyn std::error::Error = &error;
    assert!(
        format!("{error:?}").starts_with("NotClosed { refusal: NotNow, builder: ForwardHeaders")
    );
}

#[test]
fn sends() {
    let mut buffer = [0x55; 16];

    let mut server = Connection::fresh();
    assert_eq!(server.cping(&mut buffer[..4]), Err(Refusal::BufferTooShort));
    assert_eq!(server, Connection::fresh());
    assert_eq!(server.cping(&mut buffer).unwrap(), b"\x12\x34\x00\x01\x0A");
    assert_eq!(buffer[5..], [0x55; 11]);
    assert_eq!(server.cpong(&mut buffer).unwrap(), b"\x41\x42\x00\x01\x09");
    assert_eq!(server.cpong(&mut buffer), Err(Refusal::NotNow));

    let mut server = busy(3, Some(2), false);
    assert_eq!(server.largest_body(), 2);
    assert_eq!(
        server.body(&mut buffer, b"abc"),
        Err(Refusal::BodySizeWrong)
    );
    let packet = server.body(&mut buffer, b"ab").unwrap();
    assert_eq!(packet, b"\x12\x34\x00\x04\x00\x02ab");
    assert_eq!(server, busy(1, None, false));
    assert_eq!(server.largest_body(), 0);

    let mut container = server;
    let packet = container.get_body(&mut buffer, 65535).unwrap();
    assert_eq!(packet, b"\x41\x42\x00\x03\x06\xFF\xFF");
    assert_eq!(container, busy(1, Some(65535), false));
    assert_eq!(container.largest_body(), 1);

    let mut container = busy(0, None, true);
    let packet = container.body_chunk(&mut buffer, b"ok").unwrap();
    assert_eq!(packet, b"\x41\x42\x00\x06\x03\x00\x02ok\x00");
    let long = [0; ajp13::MAX_CHUNK + 1];
    assert_eq!(
        container.body_chunk(&mut buffer, &long),
        Err(Refusal::TooLong)
    );
    let packet = container.end(&mut buffer, false).unwrap();
    assert_eq!(packet, b"\x41\x42\x00\x02\x05\x00");
    assert_eq!(container.state(), State::Closed);
}

/// The response to a HEAD: its chunks are empty at both ends, and what counts only in Busy is not looked at elsewhere.
#[test]
fn the_response_to_a_head() {
    let of_head = |state| {
        Connection::from_fields(ConnectionFields {
            state,
            headers_sent: true,
            head: true,
            ..Default::default()
        })
    };
    let mut buffer = [0; ajp13::MAX_PACKET];
    let mut container = of_head(State::Busy);
    let long = [0; ajp13::MAX_CHUNK + 1];
    for bytes in [&b"a"[..], &long] {
        let refused = container.body_chunk(&mut buffer, bytes);
        assert_eq!(refused, Err(Refusal::BodySizeWrong));
        assert_eq!(container, of_head(State::Busy));
    }
    let refused = container.body_chunk(&mut buffer[..0], b"a");
    assert_eq!(refused, Err(Refusal::BodySizeWrong));
    let packet = container.body_chunk(&mut buffer, b"").unwrap();
    assert_eq!(packet, b"\x41\x42\x00\x04\x03\x00\x00\x00");
    assert_eq!(container, of_head(State::Busy));

    // Its fields are looked at first.
    let mut places = Places::new();
    let mut server = of_head(State::Busy);
    for (bytes, refusal) in [
        (
            &b"\x41\x42\x00\x05\x03\x00\x01a\x00"[..],
            Refusal::BodySizeWrong,
        ),
        (b"\x41\x42\x00\x05\x03\x00\x01a\x01", Refusal::StringWrong),
        (b"\x41\x42\x00\x06\x03\x00\x01a\x00\x00", Refusal::LeftOver),
        (b"\x41\x42\x00\x05\x03\x00\x02a\x00", Refusal::CutShort),
    ] {
        assert_eq!(server.read_at_server(bytes, &mut places), Err(refusal));
        assert_eq!(server, of_head(State::Busy));
    }
    let read = server.read_at_server(b"\x41\x42\x00\x04\x03\x00\x00\x00", &mut places);
    let packet = Packet::BodyChunk(b"");
    assert_eq!(read, Ok(Received::Accepted { packet, taken: 8 }));
    assert!(server.is_head());
    let read = server.read_at_server(b"\x41\x42\x00\x02\x05\x01", &mut places);
    let packet = Packet::End { reuse: true };
    assert_eq!(read, Ok(Received::Accepted { packet, taken: 6 }));
    assert_eq!(server, Connection::fresh());

    // Outside Busy the mark is not looked at, and a step leaves nothing of it.
    let mut idle = of_head(State::Idle);
    idle.cping(&mut buffer).unwrap();
    assert_eq!(idle, resting(State::Pinged));
}

#[test]
fn records_keep_their_fields() {
    for state in [State::Idle, State::Pinged, State::Busy, State::Closed] {
        for head in [false, true] {
            let fields = ConnectionFields {
                state,
                left: 7,
                due: true,
                asked: 8,
                headers_sent: true,
                head,
            };
            let connection = Connection::from_fields(fields);
            assert_eq!(connection.fields(), fields);
            assert_eq!(connection.state(), state);
            assert_eq!(connection.left(), 7);
            assert!(connection.is_due());
            assert_eq!(connection.asked(), 8);
            assert!(connection.headers_sent());
            assert_eq!(connection.is_head(), head && state == State::Busy);
            let words = [state as u32, 7, 1, 8, 1, head.into(), 0, 0];
            assert_eq!(connection.words(), &words);
        }
    }
    let fields = ConnectionFields::default();
    assert_eq!(Connection::from_fields(fields), Connection::fresh());
    assert_eq!(Connection::fresh().fields(), fields);
    assert_eq!(Connection::default(), Connection::fresh());
    assert_eq!(Connection::fresh().words(), &[0; raw::SIZE_CONNECTION]);
    assert_eq!(Connection::fresh().state(), State::default());
    assert_eq!(Places::default().len(), raw::MAX_PLACES);
    for kind in [BuildingKind::Forward, BuildingKind::SendHeaders] {
        let building = Building::from_fields(kind, 1, 2, 3, true);
        assert_eq!(building.kind(), kind);
        assert_eq!(building.next(), 1);
        assert_eq!(building.count_place(), 2);
        assert_eq!(building.headers(), 3);
        assert!(building.attributes_began());
        assert_eq!(building.words(), &[kind as u32, 1, 2, 3, 1]);
    }
}

#[test]
fn the_largest_body() {
    assert_eq!(Connection::fresh().largest_body(), 0);
    assert_eq!(busy(5, None, true).largest_body(), 0);
    assert_eq!(busy(u32::MAX, Some(65535), false).largest_body(), 8186);
    // What counts only in Busy is not looked at.
    let idle = Connection::from_fields(ConnectionFields {
        left: 5,
        due: true,
        asked: 5,
        ..Default::default()
    });
    assert_eq!(idle.largest_body(), 0);
    // A body packet of just so many bytes is written, and one of more is not.
    let body = [b'x'; 9000];
    for (left, asked) in [(1, 1), (9000, 8186), (8186, 65535), (40, 7), (0, 5), (5, 0)] {
        let mut server = busy(left, Some(asked), false);
        let most = usize::from(server.largest_body());
        let mut buffer = [0; ajp13::MAX_PACKET];
        let refused = server.body(&mut buffer, &body[..most + 1]);
        assert_eq!(refused, Err(Refusal::BodySizeWrong));
        server.body(&mut buffer, &body[..most]).unwrap();
        assert_eq!(server.left(), left - most as u32);
    }
}

#[test]
fn refusals_have_their_numbers() {
    // Each number of document 01's table is there, once and in order; what more there is has a number above them.
    let numbers: Vec<u32> = Refusal::ALL
        .iter()
        .map(|refusal| refusal.number().into())
        .collect();
    assert_eq!(numbers[..16], (1..=16).collect::<Vec<u32>>());
    // Those of captures.
    assert_eq!(Refusal::UnfinishedPacket.number(), 17);
    assert_eq!(Refusal::CaptureTooLong.number(), 18);
    assert_eq!(numbers.len(), 18);
    assert!(numbers.windows(2).all(|two| two[0] < two[1]));
    for number in (0..0x200).chain([0x10000, u32::MAX]) {
        let found = Refusal::from_number(number);
        assert_eq!(found.is_some(), numbers.contains(&number));
        assert!(found.map_or(true, |refusal| u32::from(refusal.number()) == number));
    }
}

#[test]
fn states_have_their_names() {
    let names = [State::Idle, State::Pinged, State::Busy, State::Closed].map(|s| s.to_string());
    assert_eq!(names, ["idle", "pinged", "busy", "closed"]);
    assert_eq!(format!("{:>6}", State::Busy), "  busy");
}

#[test]
fn a_capture_is_checked() {
    let capture = [
        b"\x12\x34\x00\x01\x0A",
        &b"\x41\x42\x00\x01\x09"[..],
        GET,
        b"\x41\x42\x00\x0A\x04\x00\xC8\x00\x02OK\0\x00\x00",
        b"\x41\x42\x00\x02\x05\x00",
    ]
    .concat();
    let checked = check(&capture);
    assert!(checked.passes());
    assert_eq!(checked.packets, 5);
    assert_eq!(checked.requests, 1);
    assert_eq!(checked.body, 0);
    assert_eq!(checked.state, State::Closed);
    assert_eq!(checked.refusal, None);
    assert_eq!(checked.place as usize, capture.len());
    assert_eq!(
        checked.to_string(),
        "packets=5\nrequests=1\nbody=0\nstate=closed\nrefusal=0\nplace=63"
    );

    // Nothing may follow.
    let longer = [&capture, GET].concat();
    let checked = check(&longer);
    assert!(!checked.passes());
    assert_eq!(checked.refusal, Some(Refusal::NotNow));
    assert_eq!(
        checked.to_string(),
        "packets=5\nrequests=1\nbody=0\nstate=closed\nrefusal=13\nplace=63"
    );

    // In parts: what was refused stays, and nothing more is taken.
    let mut checking = Checking::default();
    assert_eq!(checking, Checking::begin());
    assert_eq!(checking.go_on(&longer[..3]), 0);
    assert_eq!(checking.place(), 0);
    assert_eq!(checking.refusal(), None);
    assert_eq!(checking.finish(0), check(b""));
    assert_eq!(checking.finish(3), check(&longer[..3]));
    assert_eq!(checking.go_on(&longer[..capture.len() + 1]), capture.len());
    assert_eq!(checking.refusal(), None);
    assert_eq!(checking.finish(63), check(&capture));
    assert_eq!(checking.finish(64), check(&longer[..64]));
    assert_eq!(checking.finish(64).refusal, Some(Refusal::UnfinishedPacket));
    assert_eq!(checking.go_on(GET), 0);
    assert_eq!(checking.refusal(), Some(Refusal::NotNow));
    assert_eq!(checking.place(), 63);
    let refused = checking.clone();
    assert_eq!(checking.go_on(GET), 0);
    assert_eq!(checking, refused);
    assert_eq!(checking.finish(longer.len() as u64), checked);
    assert_eq!(checking.finish(u64::MAX), checked);
    assert_eq!(
        format!("{checking:?}"),
        "Checking { state: Closed, packets: 5, requests: 1, body: 0, place: 63, refusal: Some(NotNow) }"
    );
}
