//! The names of methods, headers and attributes and their codes, of the second implementation of
//! document 01 that is written apart from the library, for comparison and as the benchmark's
//! baseline.

/// The methods, from code 1.
const METHODS: [&str; 27] = [
    "OPTIONS",
    "GET",
    "HEAD",
    "POST",
    "PUT",
    "DELETE",
    "TRACE",
    "PROPFIND",
    "PROPPATCH",
    "MKCOL",
    "COPY",
    "MOVE",
    "LOCK",
    "UNLOCK",
    "ACL",
    "REPORT",
    "VERSION-CONTROL",
    "CHECKIN",
    "CHECKOUT",
    "UNCHECKOUT",
    "SEARCH",
    "MKWORKSPACE",
    "UPDATE",
    "LABEL",
    "MERGE",
    "BASELINE_CONTROL",
    "MKACTIVITY",
];

/// The headers of a request that have a code, from A001.
const REQUEST_HEADERS: [&str; 14] = [
    "accept",
    "accept-charset",
    "accept-encoding",
    "accept-language",
    "authorization",
    "connection",
    "content-type",
    "content-length",
    "cookie",
    "cookie2",
    "host",
    "pragma",
    "referer",
    "user-agent",
];

/// The headers of a response that have a code, from A001.
const RESPONSE_HEADERS: [&str; 11] = [
    "Content-Type",
    "Content-Language",
    "Content-Length",
    "Date",
    "Last-Modified",
    "Location",
    "Set-Cookie",
    "Set-Cookie2",
    "Servlet-Engine",
    "Status",
    "WWW-Authenticate",
];

/// The attributes that are served, from code 03.
const ATTRIBUTES: [&str; 11] = [
    "remote_user",
    "auth_type",
    "query_string",
    "route",
    "ssl_cert",
    "ssl_cipher",
    "ssl_session",
    "req_attribute",
    "ssl_key_size",
    "secret",
    "stored_method",
];

const FIRST_METHOD: u16 = 1;
const FIRST_HEADER: u16 = 0xA001;
const FIRST_ATTRIBUTE: u16 = 3;

/// The name of a code in a list whose codes run on from the first.
fn name_in(list: &[&'static str], first: u16, code: u16) -> Option<&'static str> {
    let index = code.checked_sub(first)?;
    list.get(usize::from(index)).copied()
}

/// The code of the list's first name that is the same as the given one.
fn code_in(list: &[&str], first: u16, same: impl Fn(&[u8]) -> bool) -> Option<u16> {
    let index = list.iter().position(|listed| same(listed.as_bytes()))?;
    Some(first + index as u16)
}

/// The name of a method.
pub fn method_name(code: u16) -> Option<&'static str> {
    name_in(&METHODS, FIRST_METHOD, code)
}

/// The name of a request's header that has a code.
pub fn request_header_name(code: u16) -> Option<&'static str> {
    name_in(&REQUEST_HEADERS, FIRST_HEADER, code)
}

/// The name of a response's header that has a code.
pub fn response_header_name(code: u16) -> Option<&'static str> {
    name_in(&RESPONSE_HEADERS, FIRST_HEADER, code)
}

/// The name of an attribute code.
pub fn attribute_name(code: u16) -> Option<&'static str> {
    name_in(&ATTRIBUTES, FIRST_ATTRIBUTE, code)
}

/// The code of a method; case matters.
pub fn method_code(name: &[u8]) -> Option<u16> {
    code_in(&METHODS, FIRST_METHOD, |listed| listed == name)
}

/// The code of a request's header; ASCII case is ignored.
pub fn request_header_code(name: &[u8]) -> Option<u16> {
    code_in(&REQUEST_HEADERS, FIRST_HEADER, |listed| {
        listed.eq_ignore_ascii_case(name)
    })
}

/// The code of a response's header; ASCII case is ignored.
pub fn response_header_code(name: &[u8]) -> Option<u16> {
    code_in(&RESPONSE_HEADERS, FIRST_HEADER, |listed| {
        listed.eq_ignore_ascii_case(name)
    })
}

/// The code of an attribute; case matters.
pub fn attribute_code(name: &[u8]) -> Option<u16> {
    code_in(&ATTRIBUTES, FIRST_ATTRIBUTE, |listed| listed == name)
}
