//! The C calls, one safe function each, over arrays and slices of any length and any contents.
//!
//! The types of this crate are made of these. Use this module where a record comes from elsewhere, or where a call is
//! to be given what those types rule out: an array of the wrong length, a word out of range, a null name. The C header
//! `ajp13.h` says what each call does, writes and answers; the constants here have its names without `AJP13_`. The
//! refusals, methods and attributes of the header are [`Refusal`](crate::Refusal), [`Method`](crate::Method) and
//! [`attribute`](mod@crate::attribute).
//!
//! Every function answers a number: [`DONE`], the number of a [`Refusal`](crate::Refusal), [`NEEDS`], or an error;
//! [`largest_body`], [`integer_at`], [`header_code_at`], [`attribute_code_at`], [`attribute_kind_at`], [`name`] and
//! [`code`] answer the number that was asked for, or an error. With a refusal or an error nothing is written. The
//! refusal of a capture is no status: it stands in the words of the answer, at [`CHECKED_REFUSAL`].
//!
//! ```
//! use ajp13::raw;
//!
//! let mut connection = [7; raw::SIZE_CONNECTION];
//! assert_eq!(raw::fresh(&mut connection), raw::DONE);
//! assert_eq!(connection, [0; raw::SIZE_CONNECTION]);
//!
//! // Seven words are no connection.
//! assert_eq!(raw::fresh(&mut connection[..7]), raw::ERROR_CONNECTION_LENGTH);
//!
//! // The table and the answer are lent.
//! let mut table = [0; raw::MAX_PLACES];
//! let mut answer = [0; raw::SIZE_ANSWER];
//! let status = raw::read_at_container(&mut connection, b"\x12\x34\x00", &mut table, &mut answer);
//! assert_eq!(status, raw::NEEDS);
//! assert_eq!(answer[raw::ANSWER_BYTES], 4);
//! ```

pub use crate::ffi::{
    attribute_code_at, attribute_integer, attribute_kind_at, attribute_name_at, attribute_pair,
    attribute_text, begin_forward, begin_send_headers, body, body_chunk, check, check_begin,
    check_finish, check_go_on, close, code, cping, cpong, end, fresh, get_body, header_code_at,
    header_coded, header_named, header_spelled, integer_at, largest_body, name, read_at_container,
    read_at_server, text_at,
};

// Statuses.

/// Accepted, written or added.
pub const DONE: u32 = 0;
/// Reading: the packet is not whole yet; `answer[ANSWER_BYTES]` bytes are needed in all.
pub const NEEDS: u32 = 0x10000;
/// Error: the connection has not [`SIZE_CONNECTION`] words.
pub const ERROR_CONNECTION_LENGTH: u32 = 0x10001;
/// Error: a word of the connection is out of range: the state above 3, or edition or open not 0; and in Busy due,
/// headers or head above 1, or asked above 65535 where a body packet is due.
pub const ERROR_CONNECTION_WORD: u32 = 0x10002;
/// Error: the building record has not [`SIZE_BUILDING`] words.
pub const ERROR_BUILDING_LENGTH: u32 = 0x10003;
/// Error: a word of the building record is out of range: the kind neither [`KIND_FORWARD`] nor [`KIND_SEND_HEADERS`],
/// or attributes above 1.
pub const ERROR_BUILDING_WORD: u32 = 0x10004;
/// Error: the fixed numbers of a Forward are not [`SIZE_FIXED`] words.
pub const ERROR_FIXED_LENGTH: u32 = 0x10005;
/// Error: a word of the fixed numbers is out of range: the port above 65535, or a flag that says null above 1.
pub const ERROR_FIXED_WORD: u32 = 0x10006;
/// Error: an array lent for the answer has not its length: an answer [`SIZE_ANSWER`], a text [`SIZE_TEXT`], a name
/// [`SIZE_NAME`], a checker's answer [`SIZE_CHECKED`].
pub const ERROR_ANSWER_LENGTH: u32 = 0x10007;
/// Error: an argument is out of range: what a Get Body asks for, the value of an attribute that is an integer or a
/// view's place above 65535, a flag that says null above 1, or a list above 3.
pub const ERROR_ARGUMENT: u32 = 0x10008;
/// Error: the check on the way has not [`SIZE_CHECKING`] words.
pub const ERROR_CHECKING_LENGTH: u32 = 0x10009;
/// Error: a word of the check on the way is out of range: one of its connection, as in [`ERROR_CONNECTION_WORD`];
/// packets, requests or body above the place; a refusal that is not 0 and no number of a
/// [`Refusal`](crate::Refusal); or a word behind it that is not 0.
pub const ERROR_CHECKING_WORD: u32 = 0x1000A;

// Sizes.

/// Words of a connection.
pub const SIZE_CONNECTION: usize = 8;
/// Words of a building record.
pub const SIZE_BUILDING: usize = 5;
/// Words of an answer.
pub const SIZE_ANSWER: usize = 16;
/// Words of a text.
pub const SIZE_TEXT: usize = 3;
/// Words of a Forward's fixed numbers.
pub const SIZE_FIXED: usize = 8;
/// Bytes lent for a name.
pub const SIZE_NAME: usize = 17;
/// Words of a check on the way.
pub const SIZE_CHECKING: usize = 16;
/// Words of a checker's answer.
pub const SIZE_CHECKED: usize = 8;
/// Bytes of the longest packet: a buffer of this length is never too short.
pub const MAX_PACKET: usize = 8192;
/// Places of a table: a table of this length is never too short.
pub const MAX_PLACES: usize = 328;
/// Most bytes of a body in one body packet.
pub const MAX_BODY: usize = 8186;
/// Most bytes of one body chunk.
pub const MAX_CHUNK: usize = 8184;
/// Most bytes of a capture: of a longer one only so many are judged.
pub const MAX_CAPTURE: u32 = 4_294_967_295;

// Positions in a connection.

/// The state: [`STATE_IDLE`] to [`STATE_CLOSED`].
pub const CONNECTION_STATE: usize = 0;
/// In Busy, the bytes of the request's body still to come.
pub const CONNECTION_LEFT: usize = 1;
/// In Busy, 1 where a body packet is due.
pub const CONNECTION_DUE: usize = 2;
/// In Busy, how many bytes were asked for, where a body packet is due.
pub const CONNECTION_ASKED: usize = 3;
/// In Busy, 1 once Send Headers went.
pub const CONNECTION_HEADERS: usize = 4;
/// In Busy, 1 where the request is a HEAD.
pub const CONNECTION_HEAD: usize = 5;
/// Always 0. A later version gives it a meaning.
pub const CONNECTION_EDITION: usize = 6;
/// Always 0. A later version gives it a meaning.
pub const CONNECTION_OPEN: usize = 7;

// States.

/// No request is under way.
pub const STATE_IDLE: u32 = 0;
/// CPing went; CPong is awaited.
pub const STATE_PINGED: u32 = 1;
/// A request is under way.
pub const STATE_BUSY: u32 = 2;
/// The connection is not used again.
pub const STATE_CLOSED: u32 = 3;

// Positions in a building record.

/// [`KIND_FORWARD`] or [`KIND_SEND_HEADERS`].
pub const BUILDING_KIND: usize = 0;
/// The place of the next piece.
pub const BUILDING_NEXT: usize = 1;
/// The place of the number of headers.
pub const BUILDING_COUNT_PLACE: usize = 2;
/// How many headers there are so far.
pub const BUILDING_HEADERS: usize = 3;
/// 1 once there was an attribute.
pub const BUILDING_ATTRIBUTES: usize = 4;

// Positions in an answer. A word that an answer does not use is 0; so are the last three words of every answer.

/// The kind of packet: [`KIND_CPING`] to [`KIND_END`]; 0 with [`NEEDS`].
pub const ANSWER_KIND: usize = 0;
/// The bytes taken, the bytes needed, or the length of the packet that was written.
pub const ANSWER_BYTES: usize = 1;
/// Forward: the method's code.
pub const ANSWER_METHOD: usize = 2;
/// Forward: the protocol's place.
pub const ANSWER_PROTOCOL: usize = 3;
/// Forward: the req_uri's place.
pub const ANSWER_REQ_URI: usize = 4;
/// Forward: the remote_addr's place.
pub const ANSWER_REMOTE_ADDR: usize = 5;
/// Forward: the remote_host's place.
pub const ANSWER_REMOTE_HOST: usize = 6;
/// Forward: the server_name's place.
pub const ANSWER_SERVER_NAME: usize = 7;
/// Forward: the server_port.
pub const ANSWER_SERVER_PORT: usize = 8;
/// Forward: is_ssl, 0 or 1.
pub const ANSWER_IS_SSL: usize = 9;
/// Forward and Send Headers: how many headers.
pub const ANSWER_HEADERS: usize = 10;
/// Forward: how many attributes.
pub const ANSWER_ATTRIBUTES: usize = 11;
/// Forward: the declared length of the body.
pub const ANSWER_DECLARED: usize = 12;
/// Send Headers: the status.
pub const ANSWER_STATUS: usize = 2;
/// Send Headers: the message's place.
pub const ANSWER_MESSAGE: usize = 3;
/// Body packet and chunk: where the bytes start in the packet.
pub const ANSWER_START: usize = 2;
/// Body packet and chunk: how many bytes there are.
pub const ANSWER_LENGTH: usize = 3;
/// Get Body Chunk: how many bytes are asked for.
pub const ANSWER_ASKED: usize = 2;
/// End Response: reuse, 0 or 1.
pub const ANSWER_REUSE: usize = 2;

// Kinds of packets.

/// CPing.
pub const KIND_CPING: u32 = 1;
/// CPong.
pub const KIND_CPONG: u32 = 2;
/// Forward Request.
pub const KIND_FORWARD: u32 = 3;
/// Body packet.
pub const KIND_BODY: u32 = 4;
/// Get Body Chunk.
pub const KIND_GET_BODY: u32 = 5;
/// Send Headers.
pub const KIND_SEND_HEADERS: u32 = 6;
/// Send Body Chunk.
pub const KIND_BODY_CHUNK: u32 = 7;
/// End Response.
pub const KIND_END: u32 = 8;

// Positions in a text.

/// Where the string's bytes start in the packet.
pub const TEXT_START: usize = 0;
/// How many bytes it has.
pub const TEXT_LENGTH: usize = 1;
/// 1 where the string is null.
pub const TEXT_NULL: usize = 2;

// Positions in a check on the way. The first eight words are its connection. The last three words are always 0; a later
// version gives them a meaning.

/// How many packets were accepted.
pub const CHECKING_PACKETS: usize = 8;
/// How many of them are Forward Requests.
pub const CHECKING_REQUESTS: usize = 9;
/// How many bytes of requests' bodies they hold, in body packets.
pub const CHECKING_BODY: usize = 10;
/// How many bytes they have: where the next packet starts, or the refused one.
pub const CHECKING_PLACE: usize = 11;
/// Why the packet at that place is refused; 0 where nothing was refused.
pub const CHECKING_REFUSAL: usize = 12;

// Positions in a checker's answer. The last two words are 0.

/// How many packets were accepted.
pub const CHECKED_PACKETS: usize = 0;
/// How many of them are Forward Requests.
pub const CHECKED_REQUESTS: usize = 1;
/// How many bytes of requests' bodies they hold, in body packets.
pub const CHECKED_BODY: usize = 2;
/// The connection's state after them: [`STATE_IDLE`] to [`STATE_CLOSED`].
pub const CHECKED_STATE: usize = 3;
/// The first fault, by its refusal's number; 0 where the capture passes.
pub const CHECKED_REFUSAL: usize = 4;
/// Where the refused packet starts; the capture's size where it passes.
pub const CHECKED_PLACE: usize = 5;

// Positions in the fixed numbers of a Forward.

/// The method's code.
pub const FIXED_METHOD: usize = 0;
/// The server_port.
pub const FIXED_PORT: usize = 1;
/// is_ssl, 0 or 1.
pub const FIXED_IS_SSL: usize = 2;
/// 1 where the protocol is null.
pub const FIXED_NO_PROTOCOL: usize = 3;
/// 1 where the req_uri is null.
pub const FIXED_NO_REQ_URI: usize = 4;
/// 1 where the remote_addr is null.
pub const FIXED_NO_REMOTE_ADDR: usize = 5;
/// 1 where the remote_host is null.
pub const FIXED_NO_REMOTE_HOST: usize = 6;
/// 1 where the server_name is null.
pub const FIXED_NO_SERVER_NAME: usize = 7;

// Kinds of an attribute's value.

/// No attribute that is served.
pub const VALUE_NOT_SERVED: u32 = 0;
/// A string.
pub const VALUE_TEXT: u32 = 1;
/// An integer.
pub const VALUE_INTEGER: u32 = 2;
/// A name and a string.
pub const VALUE_PAIR: u32 = 3;

// Lists of names.

/// The methods.
pub const LIST_METHODS: u32 = 0;
/// The headers of requests.
pub const LIST_REQUEST_HEADERS: u32 = 1;
/// The headers of responses.
pub const LIST_RESPONSE_HEADERS: u32 = 2;
/// The attributes.
pub const LIST_ATTRIBUTES: u32 = 3;
