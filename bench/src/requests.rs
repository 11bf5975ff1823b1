//! The requests that are measured.

/// The value of an attribute.
pub enum Value {
    Text(&'static [u8]),
    Integer(u16),
    Pair(&'static [u8], &'static [u8]),
}

/// A request as a server would send it on.
pub struct Request {
    pub req_uri: &'static [u8],
    pub headers: Vec<(Vec<u8>, Vec<u8>)>,
    pub attributes: Vec<(u16, Value)>,
}

pub const GET: u16 = 2;
pub const PROTOCOL: &[u8] = b"HTTP/1.1";
pub const REMOTE_ADDR: &[u8] = b"192.168.17.4";
pub const SERVER_NAME: &[u8] = b"orchard.example.org";
pub const SERVER_PORT: u16 = 443;

const QUERY_STRING: u16 = 0x05;
const SSL_CIPHER: u16 = 0x08;
const REQ_ATTRIBUTE: u16 = 0x0A;
const SSL_KEY_SIZE: u16 = 0x0B;

fn headers(list: &[(&str, &str)]) -> Vec<(Vec<u8>, Vec<u8>)> {
    list.iter()
        .map(|(name, value)| (name.as_bytes().to_vec(), value.as_bytes().to_vec()))
        .collect()
}

/// A controller asks for a valve's state: about 200 bytes, five headers, all of them listed.
pub fn small() -> Request {
    Request {
        req_uri: b"/valves/17/state",
        headers: headers(&[
            ("host", "orchard.example.org"),
            ("user-agent", "valve-controller/2.1"),
            ("accept", "application/json"),
            ("connection", "keep-alive"),
            ("authorization", "Basic Z3Jvdw=="),
        ]),
        attributes: vec![],
    }
}

/// A browser asks for a page: about 700 bytes, 14 headers, six of them spelled, four attributes.
pub fn browser() -> Request {
    Request {
        req_uri: b"/orchards/7/rows/12/valves",
        headers: headers(&[
            ("host", "orchard.example.org"),
            ("connection", "keep-alive"),
            ("cache-control", "max-age=0"),
            ("sec-ch-ua-mobile", "?0"),
            ("sec-ch-ua-platform", "\"Linux\""),
            ("upgrade-insecure-requests", "1"),
            (
                "user-agent",
                "Mozilla/5.0 (X11; Linux x86_64) AppleWebKit/537.36 (KHTML, like Gecko) Chrome/120.0.0.0 Safari/537.36",
            ),
            (
                "accept",
                "text/html,application/xhtml+xml,application/xml;q=0.9,image/avif,image/webp,*/*;q=0.8",
            ),
            ("sec-fetch-site", "same-origin"),
            ("sec-fetch-mode", "navigate"),
            ("referer", "https://orchard.example.org/orchards/7"),
            ("accept-encoding", "gzip, deflate, br"),
            ("accept-language", "th-TH,th;q=0.9,en;q=0.8"),
            ("cookie", "session=6f1c2a9b7d3e4f50; theme=light"),
        ]),
        attributes: vec![
            (QUERY_STRING, Value::Text(b"view=map")),
            (SSL_CIPHER, Value::Text(b"TLS_AES_128_GCM_SHA256")),
            (SSL_KEY_SIZE, Value::Integer(128)),
            (REQ_ATTRIBUTE, Value::Pair(b"AJP_REMOTE_PORT", b"51820")),
        ],
    }
}

/// A field box reports a hundred sensors in headers: close to the longest packet, all names spelled.
pub fn full() -> Request {
    let reading = |i: usize| {
        (
            format!("x-sensor-reading-{i:03}").into_bytes(),
            format!(
                "moisture={:02};temp={:02};flow={i:03};battery={:02}%;valve=open ",
                i % 100,
                i % 50,
                i % 100
            )
            .into_bytes(),
        )
    };
    Request {
        req_uri: b"/orchards/7/rows/12/readings",
        headers: (0..100).map(reading).collect(),
        attributes: vec![],
    }
}

/// Names that requests often have and that no list has.
const ORDINARY: [&str; 14] = [
    "x-forwarded-for",
    "sec-ch-ua-model",
    "max-forwards",
    "if-none-match",
    "keep-alive",
    "sec-fetch-site",
    "upgrade",
    "x-trace-id",
    "origin",
    "expect",
    "digest",
    "sec-fetch-mode",
    "from",
    "trailer",
];

/// Every listed name with another last letter, each as long as the ordinary name in its place.
const NEAR: [&str; 14] = [
    "accept-languagf",
    "accept-encodinh",
    "content-typf",
    "authorizatioo",
    "user-agenu",
    "accept-charseu",
    "refereq",
    "connectioo",
    "pragmb",
    "cookif",
    "accepu",
    "content-lengti",
    "hosu",
    "cookie3",
];

/// A hundred headers with these names, in turns, and short values.
fn spelled(names: &[&str]) -> Request {
    let header = |i: usize| {
        let name = names[i % names.len()];
        (name.as_bytes().to_vec(), format!("v={i:03}").into_bytes())
    };
    Request {
        req_uri: b"/valves/17/state",
        headers: (0..100).map(header).collect(),
        attributes: vec![],
    }
}

/// A hundred spelled names that are ordinary: no listed name is close to one of them.
pub fn ordinary() -> Request {
    spelled(&ORDINARY)
}

/// A hundred spelled names that differ from a listed one in the last letter alone, in a packet of the same size.
pub fn near() -> Request {
    spelled(&NEAR)
}
