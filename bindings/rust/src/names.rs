//! The listed names of methods, headers and attributes, and their codes.

use core::fmt;
use core::ops::Deref;
use core::str;

use crate::raw;
use crate::refusal::number;

/// A listed name. It can be used as its bytes; [`Name::as_str`] has it as a text.
///
/// ```
/// let name = ajp13::method_name(2).unwrap();
/// assert_eq!(&name[..], b"GET");
/// assert_eq!(name.as_str(), "GET");
/// assert_eq!(ajp13::method_code(b"GET"), Some(2));
/// assert_eq!(ajp13::method_name(28), None);
/// ```
#[derive(Clone, Copy, PartialEq, Eq, Hash)]
pub struct Name {
    // Zeros stand behind the name.
    bytes: [u8; raw::SIZE_NAME],
    length: u8,
}

impl Name {
    /// The name's bytes.
    #[inline]
    pub fn as_bytes(&self) -> &[u8] {
        &self.bytes[..usize::from(self.length)]
    }

    /// The name as a text. All listed names are ASCII.
    #[inline]
    pub fn as_str(&self) -> &str {
        str::from_utf8(self.as_bytes()).expect("listed names are ASCII")
    }
}

impl Deref for Name {
    type Target = [u8];

    #[inline]
    fn deref(&self) -> &[u8] {
        self.as_bytes()
    }
}

impl AsRef<[u8]> for Name {
    #[inline]
    fn as_ref(&self) -> &[u8] {
        self.as_bytes()
    }
}

impl fmt::Display for Name {
    fn fmt(&self, f: &mut fmt::Formatter<'_>) -> fmt::Result {
        f.pad(self.as_str())
    }
}

impl fmt::Debug for Name {
    fn fmt(&self, f: &mut fmt::Formatter<'_>) -> fmt::Result {
        write!(f, "{:?}", self.as_str())
    }
}

/// A list of names and their codes.
#[derive(Clone, Copy, Debug, PartialEq, Eq, Hash)]
#[repr(u32)]
pub enum NameList {
    /// The methods, codes 1 to 27.
    Methods = raw::LIST_METHODS,
    /// The headers of requests, codes A001 to A00E.
    RequestHeaders = raw::LIST_REQUEST_HEADERS,
    /// The headers of responses, codes A001 to A00B.
    ResponseHeaders = raw::LIST_RESPONSE_HEADERS,
    /// The attributes, codes 03 to 0D.
    Attributes = raw::LIST_ATTRIBUTES,
}

impl NameList {
    /// The name that this list has for a code.
    #[inline]
    pub fn name(self, code: u16) -> Option<Name> {
        let mut bytes = [0; raw::SIZE_NAME];
        match number(raw::name(self as u32, code.into(), &mut bytes)) {
            0 => None,
            length => Some(Name {
                bytes,
                length: length as u8,
            }),
        }
    }

    /// The code that this list has for a name. Headers' names are compared with ASCII case ignored, all others as they
    /// stand.
    #[inline]
    pub fn code(self, name: &[u8]) -> Option<u16> {
        match number(raw::code(self as u32, name)) {
            0 => None,
            code => Some(code),
        }
    }
}

/// The name of a method.
#[inline]
pub fn method_name(code: u16) -> Option<Name> {
    NameList::Methods.name(code)
}

/// The code of a method, by its name as it stands.
#[inline]
pub fn method_code(name: &[u8]) -> Option<u16> {
    NameList::Methods.code(name)
}

/// The name of a request's header.
#[inline]
pub fn request_header_name(code: u16) -> Option<Name> {
    NameList::RequestHeaders.name(code)
}

/// The code of a request's header, by its name with ASCII case ignored.
#[inline]
pub fn request_header_code(name: &[u8]) -> Option<u16> {
    NameList::RequestHeaders.code(name)
}

/// The name of a response's header.
#[inline]
pub fn response_header_name(code: u16) -> Option<Name> {
    NameList::ResponseHeaders.name(code)
}

/// The code of a response's header, by its name with ASCII case ignored.
#[inline]
pub fn response_header_code(name: &[u8]) -> Option<u16> {
    NameList::ResponseHeaders.code(name)
}

/// The name of an attribute.
#[inline]
pub fn attribute_name(code: u16) -> Option<Name> {
    NameList::Attributes.name(code)
}

/// The code of an attribute, by its name as it stands.
#[inline]
pub fn attribute_code(name: &[u8]) -> Option<u16> {
    NameList::Attributes.code(name)
}

/// A request's method: its code. A packet that was read has a listed one; one that is built with another is refused
/// ([`OutOfRange`](crate::Refusal::OutOfRange)).
///
/// ```
/// use ajp13::Method;
///
/// assert_eq!(Method::from_name(b"POST"), Some(Method::POST));
/// assert_eq!(Method::POST.to_string(), "POST");
/// // Methods are told apart by case.
/// assert_eq!(Method::from_name(b"post"), None);
/// ```
#[derive(Clone, Copy, PartialEq, Eq, Hash, PartialOrd, Ord)]
pub struct Method(u16);

impl Method {
    /// The method with a code, listed or not.
    #[inline]
    pub const fn from_code(code: u16) -> Method {
        Method(code)
    }

    /// The listed method with this name.
    #[inline]
    pub fn from_name(name: &[u8]) -> Option<Method> {
        method_code(name).map(Method)
    }

    /// The method's code.
    #[inline]
    pub const fn code(self) -> u16 {
        self.0
    }

    /// The method's name, where its code is listed.
    #[inline]
    pub fn name(self) -> Option<Name> {
        method_name(self.0)
    }
}

impl fmt::Display for Method {
    fn fmt(&self, f: &mut fmt::Formatter<'_>) -> fmt::Result {
        match self.name() {
            Some(name) => name.fmt(f),
            None => write!(f, "method {}", self.0),
        }
    }
}

impl fmt::Debug for Method {
    fn fmt(&self, f: &mut fmt::Formatter<'_>) -> fmt::Result {
        write!(f, "Method({} {self})", self.0)
    }
}

/// The 27 methods, under their names.
impl Method {
    /// OPTIONS.
    pub const OPTIONS: Method = Method(1);
    /// GET.
    pub const GET: Method = Method(2);
    /// HEAD.
    pub const HEAD: Method = Method(3);
    /// POST.
    pub const POST: Method = Method(4);
    /// PUT.
    pub const PUT: Method = Method(5);
    /// DELETE.
    pub const DELETE: Method = Method(6);
    /// TRACE.
    pub const TRACE: Method = Method(7);
    /// PROPFIND.
    pub const PROPFIND: Method = Method(8);
    /// PROPPATCH.
    pub const PROPPATCH: Method = Method(9);
    /// MKCOL.
    pub const MKCOL: Method = Method(10);
    /// COPY.
    pub const COPY: Method = Method(11);
    /// MOVE.
    pub const MOVE: Method = Method(12);
    /// LOCK.
    pub const LOCK: Method = Method(13);
    /// UNLOCK.
    pub const UNLOCK: Method = Method(14);
    /// ACL.
    pub const ACL: Method = Method(15);
    /// REPORT.
    pub const REPORT: Method = Method(16);
    /// VERSION-CONTROL.
    pub const VERSION_CONTROL: Method = Method(17);
    /// CHECKIN.
    pub const CHECKIN: Method = Method(18);
    /// CHECKOUT.
    pub const CHECKOUT: Method = Method(19);
    /// UNCHECKOUT.
    pub const UNCHECKOUT: Method = Method(20);
    /// SEARCH.
    pub const SEARCH: Method = Method(21);
    /// MKWORKSPACE.
    pub const MKWORKSPACE: Method = Method(22);
    /// UPDATE.
    pub const UPDATE: Method = Method(23);
    /// LABEL.
    pub const LABEL: Method = Method(24);
    /// MERGE.
    pub const MERGE: Method = Method(25);
    /// BASELINE_CONTROL.
    pub const BASELINE_CONTROL: Method = Method(26);
    /// MKACTIVITY.
    pub const MKACTIVITY: Method = Method(27);
}

/// The codes of the attributes.
pub mod attribute {
    /// remote_user, a string.
    pub const REMOTE_USER: u16 = 0x03;
    /// auth_type, a string.
    pub const AUTH_TYPE: u16 = 0x04;
    /// query_string, a string.
    pub const QUERY_STRING: u16 = 0x05;
    /// route, a string.
    pub const ROUTE: u16 = 0x06;
    /// ssl_cert, a string.
    pub const SSL_CERT: u16 = 0x07;
    /// ssl_cipher, a string.
    pub const SSL_CIPHER: u16 = 0x08;
    /// ssl_session, a string.
    pub const SSL_SESSION: u16 = 0x09;
    /// req_attribute, a name and a string.
    pub const REQ_ATTRIBUTE: u16 = 0x0A;
    /// ssl_key_size, an integer.
    pub const SSL_KEY_SIZE: u16 = 0x0B;
    /// secret, a string.
    pub const SECRET: u16 = 0x0C;
    /// stored_method, a string.
    pub const STORED_METHOD: u16 = 0x0D;
}
