//! The library's C calls, and a safe function for each of them. All unsafe code of the crate is here.
//!
//! What makes each of them safe is the same. A slice goes across as its pointer and its length, so the pointer is
//! valid for that many elements, aligned, and not null, also where the slice is empty. A slice lent for writing is a
//! `&mut`, so it overlaps no other. The library reads and writes inside the slices only, it answers for any contents
//! and any lengths, and it keeps no pointer.

// A Forward's five strings are five slices, as in the C call.
#![allow(clippy::too_many_arguments)]

mod c {
    extern "C" {
        pub fn ajp13_words_fresh(connection: *mut u32, connection_length: usize) -> u32;
        pub fn ajp13_words_largest_body(connection: *const u32, connection_length: usize) -> u32;
        pub fn ajp13_words_read_at_container(
            connection: *mut u32,
            connection_length: usize,
            bytes: *const u8,
            bytes_length: usize,
            table: *mut u16,
            table_length: usize,
            answer: *mut u32,
            answer_length: usize,
        ) -> u32;
        pub fn ajp13_words_read_at_server(
            connection: *mut u32,
            connection_length: usize,
            bytes: *const u8,
            bytes_length: usize,
            table: *mut u16,
            table_length: usize,
            answer: *mut u32,
            answer_length: usize,
        ) -> u32;
        pub fn ajp13_words_cping(
            connection: *mut u32,
            connection_length: usize,
            buffer: *mut u8,
            buffer_length: usize,
            answer: *mut u32,
            answer_length: usize,
        ) -> u32;
        pub fn ajp13_words_cpong(
            connection: *mut u32,
            connection_length: usize,
            buffer: *mut u8,
            buffer_length: usize,
            answer: *mut u32,
            answer_length: usize,
        ) -> u32;
        pub fn ajp13_words_body(
            connection: *mut u32,
            connection_length: usize,
            buffer: *mut u8,
            buffer_length: usize,
            bytes: *const u8,
            bytes_length: usize,
            answer: *mut u32,
            answer_length: usize,
        ) -> u32;
        pub fn ajp13_words_body_chunk(
            connection: *mut u32,
            connection_length: usize,
            buffer: *mut u8,
            buffer_length: usize,
            bytes: *const u8,
            bytes_length: usize,
            answer: *mut u32,
            answer_length: usize,
        ) -> u32;
        pub fn ajp13_words_get_body(
            connection: *mut u32,
            connection_length: usize,
            buffer: *mut u8,
            buffer_length: usize,
            asked: u32,
            answer: *mut u32,
            answer_length: usize,
        ) -> u32;
        pub fn ajp13_words_end(
            connection: *mut u32,
            connection_length: usize,
            buffer: *mut u8,
            buffer_length: usize,
            reuse: u32,
            answer: *mut u32,
            answer_length: usize,
        ) -> u32;
        pub fn ajp13_words_begin_forward(
            building: *mut u32,
            building_length: usize,
            buffer: *mut u8,
            buffer_length: usize,
            fixed: *const u32,
            fixed_length: usize,
            protocol: *const u8,
            protocol_length: usize,
            req_uri: *const u8,
            req_uri_length: usize,
            remote_addr: *const u8,
            remote_addr_length: usize,
            remote_host: *const u8,
            remote_host_length: usize,
            server_name: *const u8,
            server_name_length: usize,
        ) -> u32;
        pub fn ajp13_words_begin_send_headers(
            building: *mut u32,
            building_length: usize,
            buffer: *mut u8,
            buffer_length: usize,
            status: u32,
            message: *const u8,
            message_length: usize,
            null: u32,
        ) -> u32;
        pub fn ajp13_words_header_coded(
            building: *mut u32,
            building_length: usize,
            buffer: *mut u8,
            buffer_length: usize,
            code: u32,
            value: *const u8,
            value_length: usize,
            null: u32,
        ) -> u32;
        pub fn ajp13_words_header_spelled(
            building: *mut u32,
            building_length: usize,
            buffer: *mut u8,
            buffer_length: usize,
            name: *const u8,
            name_length: usize,
            noname: u32,
            value: *const u8,
            value_length: usize,
            novalue: u32,
        ) -> u32;
        pub fn ajp13_words_header_named(
            building: *mut u32,
            building_length: usize,
            buffer: *mut u8,
            buffer_length: usize,
            name: *const u8,
            name_length: usize,
            value: *const u8,
            value_length: usize,
            null: u32,
        ) -> u32;
        pub fn ajp13_words_attribute_text(
            building: *mut u32,
            building_length: usize,
            buffer: *mut u8,
            buffer_length: usize,
            code: u32,
            value: *const u8,
            value_length: usize,
            null: u32,
        ) -> u32;
        pub fn ajp13_words_attribute_integer(
            building: *mut u32,
            building_length: usize,
            buffer: *mut u8,
            buffer_length: usize,
            code: u32,
            value: u32,
        ) -> u32;
        pub fn ajp13_words_attribute_pair(
            building: *mut u32,
            building_length: usize,
            buffer: *mut u8,
            buffer_length: usize,
            code: u32,
            name: *const u8,
            name_length: usize,
            noname: u32,
            value: *const u8,
            value_length: usize,
            novalue: u32,
        ) -> u32;
        pub fn ajp13_words_close(
            connection: *mut u32,
            connection_length: usize,
            building: *const u32,
            building_length: usize,
            buffer: *mut u8,
            buffer_length: usize,
            answer: *mut u32,
            answer_length: usize,
        ) -> u32;
        pub fn ajp13_words_text_at(
            packet: *const u8,
            packet_length: usize,
            place: u32,
            text: *mut u32,
            text_length: usize,
        ) -> u32;
        pub fn ajp13_words_attribute_name_at(
            packet: *const u8,
            packet_length: usize,
            place: u32,
            text: *mut u32,
            text_length: usize,
        ) -> u32;
        pub fn ajp13_words_check(
            capture: *const u8,
            capture_length: usize,
            checked: *mut u32,
            checked_length: usize,
        ) -> u32;
        pub fn ajp13_words_check_begin(checking: *mut u32, checking_length: usize) -> u32;
        pub fn ajp13_words_check_go_on(
            checking: *mut u32,
            checking_length: usize,
            bytes: *const u8,
            bytes_length: usize,
        ) -> u32;
        pub fn ajp13_words_check_finish(
            checking: *const u32,
            checking_length: usize,
            size: u64,
            checked: *mut u32,
            checked_length: usize,
        ) -> u32;
        pub fn ajp13_integer_at(packet: *const u8, packet_length: usize, place: u32) -> u32;
        pub fn ajp13_header_code_at(packet: *const u8, packet_length: usize, place: u32) -> u32;
        pub fn ajp13_attribute_code_at(packet: *const u8, packet_length: usize, place: u32) -> u32;
        pub fn ajp13_attribute_kind_at(packet: *const u8, packet_length: usize, place: u32) -> u32;
        pub fn ajp13_name(list: u32, code: u32, name: *mut u8, name_length: usize) -> u32;
        pub fn ajp13_code(list: u32, text: *const u8, text_length: usize) -> u32;
    }
}

/// `ajp13_words_fresh`: makes a connection fresh. Its old words do not matter.
#[inline]
pub fn fresh(connection: &mut [u32]) -> u32 {
    // SAFETY: as said at the head of this module.
    unsafe { c::ajp13_words_fresh(connection.as_mut_ptr(), connection.len()) }
}

/// `ajp13_words_largest_body`: the most bytes that the body packet which is due may hold; 0 where it has to be empty,
/// and where none is due.
#[inline]
pub fn largest_body(connection: &[u32]) -> u32 {
    // SAFETY: as said at the head of this module.
    unsafe { c::ajp13_words_largest_body(connection.as_ptr(), connection.len()) }
}

/// `ajp13_words_read_at_container`: reads the packet at the start of `bytes` at the container's end.
#[inline]
pub fn read_at_container(
    connection: &mut [u32],
    bytes: &[u8],
    table: &mut [u16],
    answer: &mut [u32],
) -> u32 {
    // SAFETY: as said at the head of this module.
    unsafe {
        c::ajp13_words_read_at_container(
            connection.as_mut_ptr(),
            connection.len(),
            bytes.as_ptr(),
            bytes.len(),
            table.as_mut_ptr(),
            table.len(),
            answer.as_mut_ptr(),
            answer.len(),
        )
    }
}

/// `ajp13_words_read_at_server`: reads the packet at the start of `bytes` at the server's end.
#[inline]
pub fn read_at_server(
    connection: &mut [u32],
    bytes: &[u8],
    table: &mut [u16],
    answer: &mut [u32],
) -> u32 {
    // SAFETY: as said at the head of this module.
    unsafe {
        c::ajp13_words_read_at_server(
            connection.as_mut_ptr(),
            connection.len(),
            bytes.as_ptr(),
            bytes.len(),
            table.as_mut_ptr(),
            table.len(),
            answer.as_mut_ptr(),
            answer.len(),
        )
    }
}

/// `ajp13_words_cping`: writes a CPing.
#[inline]
pub fn cping(connection: &mut [u32], buffer: &mut [u8], answer: &mut [u32]) -> u32 {
    // SAFETY: as said at the head of this module.
    unsafe {
        c::ajp13_words_cping(
            connection.as_mut_ptr(),
            connection.len(),
            buffer.as_mut_ptr(),
            buffer.len(),
            answer.as_mut_ptr(),
            answer.len(),
        )
    }
}

/// `ajp13_words_cpong`: writes a CPong.
#[inline]
pub fn cpong(connection: &mut [u32], buffer: &mut [u8], answer: &mut [u32]) -> u32 {
    // SAFETY: as said at the head of this module.
    unsafe {
        c::ajp13_words_cpong(
            connection.as_mut_ptr(),
            connection.len(),
            buffer.as_mut_ptr(),
            buffer.len(),
            answer.as_mut_ptr(),
            answer.len(),
        )
    }
}

/// `ajp13_words_body`: writes a body packet.
#[inline]
pub fn body(connection: &mut [u32], buffer: &mut [u8], bytes: &[u8], answer: &mut [u32]) -> u32 {
    // SAFETY: as said at the head of this module.
    unsafe {
        c::ajp13_words_body(
            connection.as_mut_ptr(),
            connection.len(),
            buffer.as_mut_ptr(),
            buffer.len(),
            bytes.as_ptr(),
            bytes.len(),
            answer.as_mut_ptr(),
            answer.len(),
        )
    }
}

/// `ajp13_words_body_chunk`: writes a Send Body Chunk.
#[inline]
pub fn body_chunk(
    connection: &mut [u32],
    buffer: &mut [u8],
    bytes: &[u8],
    answer: &mut [u32],
) -> u32 {
    // SAFETY: as said at the head of this module.
    unsafe {
        c::ajp13_words_body_chunk(
            connection.as_mut_ptr(),
            connection.len(),
            buffer.as_mut_ptr(),
            buffer.len(),
            bytes.as_ptr(),
            bytes.len(),
            answer.as_mut_ptr(),
            answer.len(),
        )
    }
}

/// `ajp13_words_get_body`: writes a Get Body Chunk that asks for `asked` bytes.
#[inline]
pub fn get_body(connection: &mut [u32], buffer: &mut [u8], asked: u32, answer: &mut [u32]) -> u32 {
    // SAFETY: as said at the head of this module.
    unsafe {
        c::ajp13_words_get_body(
            connection.as_mut_ptr(),
            connection.len(),
            buffer.as_mut_ptr(),
            buffer.len(),
            asked,
            answer.as_mut_ptr(),
            answer.len(),
        )
    }
}

/// `ajp13_words_end`: writes an End Response; `reuse` is 0 or 1, else it is refused.
#[inline]
pub fn end(connection: &mut [u32], buffer: &mut [u8], reuse: u32, answer: &mut [u32]) -> u32 {
    // SAFETY: as said at the head of this module.
    unsafe {
        c::ajp13_words_end(
            connection.as_mut_ptr(),
            connection.len(),
            buffer.as_mut_ptr(),
            buffer.len(),
            reuse,
            answer.as_mut_ptr(),
            answer.len(),
        )
    }
}

/// `ajp13_words_begin_forward`: writes the fixed fields of a Forward Request and its building record, whose old words
/// do not matter. `fixed` has the numbers, and a flag for each string that is null.
#[inline]
pub fn begin_forward(
    building: &mut [u32],
    buffer: &mut [u8],
    fixed: &[u32],
    protocol: &[u8],
    req_uri: &[u8],
    remote_addr: &[u8],
    remote_host: &[u8],
    server_name: &[u8],
) -> u32 {
    // SAFETY: as said at the head of this module.
    unsafe {
        c::ajp13_words_begin_forward(
            building.as_mut_ptr(),
            building.len(),
            buffer.as_mut_ptr(),
            buffer.len(),
            fixed.as_ptr(),
            fixed.len(),
            protocol.as_ptr(),
            protocol.len(),
            req_uri.as_ptr(),
            req_uri.len(),
            remote_addr.as_ptr(),
            remote_addr.len(),
            remote_host.as_ptr(),
            remote_host.len(),
            server_name.as_ptr(),
            server_name.len(),
        )
    }
}

/// `ajp13_words_begin_send_headers`: writes the fixed fields of a Send Headers and its building record, whose old words
/// do not matter. `null` is 1 where the message is null.
#[inline]
pub fn begin_send_headers(
    building: &mut [u32],
    buffer: &mut [u8],
    status: u32,
    message: &[u8],
    null: u32,
) -> u32 {
    // SAFETY: as said at the head of this module.
    unsafe {
        c::ajp13_words_begin_send_headers(
            building.as_mut_ptr(),
            building.len(),
            buffer.as_mut_ptr(),
            buffer.len(),
            status,
            message.as_ptr(),
            message.len(),
            null,
        )
    }
}

/// `ajp13_words_header_coded`: adds a header with a code for its name. `null` is 1 where the value is null.
#[inline]
pub fn header_coded(
    building: &mut [u32],
    buffer: &mut [u8],
    code: u32,
    value: &[u8],
    null: u32,
) -> u32 {
    // SAFETY: as said at the head of this module.
    unsafe {
        c::ajp13_words_header_coded(
            building.as_mut_ptr(),
            building.len(),
            buffer.as_mut_ptr(),
            buffer.len(),
            code,
            value.as_ptr(),
            value.len(),
            null,
        )
    }
}

/// `ajp13_words_header_spelled`: adds a header with a name that is spelled out. `noname` and `novalue` are 1 where that
/// string is null.
#[inline]
pub fn header_spelled(
    building: &mut [u32],
    buffer: &mut [u8],
    name: &[u8],
    noname: u32,
    value: &[u8],
    novalue: u32,
) -> u32 {
    // SAFETY: as said at the head of this module.
    unsafe {
        c::ajp13_words_header_spelled(
            building.as_mut_ptr(),
            building.len(),
            buffer.as_mut_ptr(),
            buffer.len(),
            name.as_ptr(),
            name.len(),
            noname,
            value.as_ptr(),
            value.len(),
            novalue,
        )
    }
}

/// `ajp13_words_header_named`: adds a header by its name, with its code where the name is listed. `null` is 1 where the
/// value is null.
#[inline]
pub fn header_named(
    building: &mut [u32],
    buffer: &mut [u8],
    name: &[u8],
    value: &[u8],
    null: u32,
) -> u32 {
    // SAFETY: as said at the head of this module.
    unsafe {
        c::ajp13_words_header_named(
            building.as_mut_ptr(),
            building.len(),
            buffer.as_mut_ptr(),
            buffer.len(),
            name.as_ptr(),
            name.len(),
            value.as_ptr(),
            value.len(),
            null,
        )
    }
}

/// `ajp13_words_attribute_text`: adds an attribute whose value is a string. `null` is 1 where the value is null.
#[inline]
pub fn attribute_text(
    building: &mut [u32],
    buffer: &mut [u8],
    code: u32,
    value: &[u8],
    null: u32,
) -> u32 {
    // SAFETY: as said at the head of this module.
    unsafe {
        c::ajp13_words_attribute_text(
            building.as_mut_ptr(),
            building.len(),
            buffer.as_mut_ptr(),
            buffer.len(),
            code,
            value.as_ptr(),
            value.len(),
            null,
        )
    }
}

/// `ajp13_words_attribute_integer`: adds an attribute whose value is an integer.
#[inline]
pub fn attribute_integer(building: &mut [u32], buffer: &mut [u8], code: u32, value: u32) -> u32 {
    // SAFETY: as said at the head of this module.
    unsafe {
        c::ajp13_words_attribute_integer(
            building.as_mut_ptr(),
            building.len(),
            buffer.as_mut_ptr(),
            buffer.len(),
            code,
            value,
        )
    }
}

/// `ajp13_words_attribute_pair`: adds an attribute that brings its own name with it. `noname` and `novalue` are 1 where
/// that string is null.
#[inline]
pub fn attribute_pair(
    building: &mut [u32],
    buffer: &mut [u8],
    code: u32,
    name: &[u8],
    noname: u32,
    value: &[u8],
    novalue: u32,
) -> u32 {
    // SAFETY: as said at the head of this module.
    unsafe {
        c::ajp13_words_attribute_pair(
            building.as_mut_ptr(),
            building.len(),
            buffer.as_mut_ptr(),
            buffer.len(),
            code,
            name.as_ptr(),
            name.len(),
            noname,
            value.as_ptr(),
            value.len(),
            novalue,
        )
    }
}

/// `ajp13_words_close`: closes a packet that was built in pieces, and steps the connection.
#[inline]
pub fn close(
    connection: &mut [u32],
    building: &[u32],
    buffer: &mut [u8],
    answer: &mut [u32],
) -> u32 {
    // SAFETY: as said at the head of this module.
    unsafe {
        c::ajp13_words_close(
            connection.as_mut_ptr(),
            connection.len(),
            building.as_ptr(),
            building.len(),
            buffer.as_mut_ptr(),
            buffer.len(),
            answer.as_mut_ptr(),
            answer.len(),
        )
    }
}

/// `ajp13_words_text_at`: where the string at a place stands, its length, and whether it is null.
#[inline]
pub fn text_at(packet: &[u8], place: u32, text: &mut [u32]) -> u32 {
    // SAFETY: as said at the head of this module.
    unsafe {
        c::ajp13_words_text_at(
            packet.as_ptr(),
            packet.len(),
            place,
            text.as_mut_ptr(),
            text.len(),
        )
    }
}

/// `ajp13_words_attribute_name_at`: where the name stands that an attribute 0A brings with it, by its code's place.
#[inline]
pub fn attribute_name_at(packet: &[u8], place: u32, text: &mut [u32]) -> u32 {
    // SAFETY: as said at the head of this module.
    unsafe {
        c::ajp13_words_attribute_name_at(
            packet.as_ptr(),
            packet.len(),
            place,
            text.as_mut_ptr(),
            text.len(),
        )
    }
}

/// `ajp13_words_check`: checks a whole capture. A fault is told in the answer, not by the status.
#[inline]
pub fn check(capture: &[u8], checked: &mut [u32]) -> u32 {
    // SAFETY: as said at the head of this module.
    unsafe {
        c::ajp13_words_check(
            capture.as_ptr(),
            capture.len(),
            checked.as_mut_ptr(),
            checked.len(),
        )
    }
}

/// `ajp13_words_check_begin`: begins a check in parts. The old words of `checking` do not matter.
#[inline]
pub fn check_begin(checking: &mut [u32]) -> u32 {
    // SAFETY: as said at the head of this module.
    unsafe { c::ajp13_words_check_begin(checking.as_mut_ptr(), checking.len()) }
}

/// `ajp13_words_check_go_on`: goes on with bytes of the capture that start at the check's place. It takes whole
/// packets, and the place moves by as many bytes as it took.
#[inline]
pub fn check_go_on(checking: &mut [u32], bytes: &[u8]) -> u32 {
    // SAFETY: as said at the head of this module.
    unsafe {
        c::ajp13_words_check_go_on(
            checking.as_mut_ptr(),
            checking.len(),
            bytes.as_ptr(),
            bytes.len(),
        )
    }
}

/// `ajp13_words_check_finish`: the answer of a check in parts, at the end of a capture of `size` bytes.
#[inline]
pub fn check_finish(checking: &[u32], size: u64, checked: &mut [u32]) -> u32 {
    // SAFETY: as said at the head of this module.
    unsafe {
        c::ajp13_words_check_finish(
            checking.as_ptr(),
            checking.len(),
            size,
            checked.as_mut_ptr(),
            checked.len(),
        )
    }
}

/// `ajp13_integer_at`: the integer at a place, 0 where none is there.
#[inline]
pub fn integer_at(packet: &[u8], place: u32) -> u32 {
    // SAFETY: as said at the head of this module.
    unsafe { c::ajp13_integer_at(packet.as_ptr(), packet.len(), place) }
}

/// `ajp13_header_code_at`: the code of the header's name at a place, 0 where the name is spelled out.
#[inline]
pub fn header_code_at(packet: &[u8], place: u32) -> u32 {
    // SAFETY: as said at the head of this module.
    unsafe { c::ajp13_header_code_at(packet.as_ptr(), packet.len(), place) }
}

/// `ajp13_attribute_code_at`: the code of the attribute at a place, 0 where nothing is there.
#[inline]
pub fn attribute_code_at(packet: &[u8], place: u32) -> u32 {
    // SAFETY: as said at the head of this module.
    unsafe { c::ajp13_attribute_code_at(packet.as_ptr(), packet.len(), place) }
}

/// `ajp13_attribute_kind_at`: what kind of value the attribute at a place has.
#[inline]
pub fn attribute_kind_at(packet: &[u8], place: u32) -> u32 {
    // SAFETY: as said at the head of this module.
    unsafe { c::ajp13_attribute_kind_at(packet.as_ptr(), packet.len(), place) }
}

/// `ajp13_name`: writes the name that a list has for a code and zeros behind it, and answers its length; 0 where the
/// code is not listed.
#[inline]
pub fn name(list: u32, code: u32, name: &mut [u8]) -> u32 {
    // SAFETY: as said at the head of this module.
    unsafe { c::ajp13_name(list, code, name.as_mut_ptr(), name.len()) }
}

/// `ajp13_code`: the code that a list has for a name, 0 where the name is not listed.
#[inline]
pub fn code(list: u32, text: &[u8]) -> u32 {
    // SAFETY: as said at the head of this module.
    unsafe { c::ajp13_code(list, text.as_ptr(), text.len()) }
}
