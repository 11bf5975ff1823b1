/*
 * ajp13.h: both ends of an AJP13 connection.
 *
 * AJP13 is the protocol between a web server and a servlet container. The library takes a packet out of lent bytes,
 * checks it, gives views of its fields, builds packets, and keeps the connection's cycle. It also checks a capture of
 * what others sent. It opens no sockets, allocates nothing and keeps nothing between calls.
 *
 * What holds for every call:
 *
 * - A connection, a building record, an answer, a text, a check on the way and a checker's answer each have a type, an
 *   array of words with named positions: answer.words[AJP13_ANSWER_BYTES]. Bytes, buffers and tables are given as a
 *   pointer and a length, which counts elements. A string to write is an ajp13_string.
 * - No pointer may be NULL, also where its length is 0; each must be aligned for its type. The one exception is the
 *   pointer in an ajp13_string.
 * - What is lent for writing (its pointer is not to const) may not overlap anything else that the call is given.
 * - Any bytes, any record, any table, any buffer and any numbers get an answer.
 * - A number that is out of range is refused or is an error. No number is cut to fit.
 * - A refusal or an error writes nothing: everything lent is as it was before the call.
 * - No pointer is kept. Calls may be made from several threads at once, on different records, buffers, tables and
 *   answers.
 *
 * What is written "whole" is written at every element. What a call does not name as written stays as it was.
 *
 * The header is for C99 and later and for C++11 and later. Link with libajp13.a.
 */
#ifndef AJP13_H
#define AJP13_H

#include <stddef.h>
#include <stdint.h>
#include <string.h>

#include "ajp13_words.h"

#define AJP13_VERSION "0.4.0"
#define AJP13_VERSION_MAJOR 0
#define AJP13_VERSION_MINOR 4
#define AJP13_VERSION_PATCH 0

#ifdef __cplusplus
extern "C" {
#endif

/* ---------------------------------------------------------------------------------------------------------------------
 * Status: what most calls return
 * ------------------------------------------------------------------------------------------------------------------ */

/*
 * Done is 0, a refusal is 1 to 65535, AJP13_NEEDS is 65536, an error is above that.
 *
 * A refusal says what is wrong with the packet, or with what was asked: it is an ordinary answer. An error says that
 * the call was given an array of the wrong length, or a record or an argument with a number out of range that no
 * refusal is for: it is a fault of the program. Errors are looked for before refusals, in the order of their numbers,
 * and the first one is told.
 *
 * The comment above each call names, under "Status" or "Returns", all that it can return.
 */
enum {
    /* Accepted, written or added. */
    AJP13_DONE = 0,

    /* Refusals. A later version may have more: look for the names, not for a greatest number. */
    AJP13_LEADING_WRONG = 1,          /* the leading bytes are wrong for this direction */
    AJP13_TOO_LONG = 2,               /* the payload's length is above 8188, or what was given to write is too long */
    AJP13_CUT_SHORT = 3,              /* the payload ends inside a field, or before a code that is due */
    AJP13_CODE_WRONG = 4,             /* the packet's code is not one of this direction */
    AJP13_CODE_NOT_SERVED = 5,        /* Shutdown (7) or Ping (8), which are not served */
    AJP13_STRING_WRONG = 6,           /* a string that is null or empty where it may not be, that holds a zero or a line
                                         end (a line feed, a carriage return), or whose last byte is not zero; also a
                                         body chunk's last byte */
    AJP13_OUT_OF_RANGE = 7,           /* a method, a boolean or a status out of range */
    AJP13_NAME_WRONG = 8,             /* a header's name: a code that is not listed, not a token, or listed but
                                         spelled out */
    AJP13_ATTRIBUTE_WRONG = 9,        /* an attribute's code is not served, has another kind of value, or comes again */
    AJP13_CONTENT_LENGTH_WRONG = 10,  /* content-length is no such number, null, or there twice; or transfer-encoding */
    AJP13_TOO_MANY = 11,              /* over 100 headers or over 64 attributes */
    AJP13_LEFT_OVER = 12,             /* bytes are left after the last field */
    AJP13_NOT_NOW = 13,               /* not allowed in this state of the connection */
    AJP13_BODY_SIZE_WRONG = 14,       /* a body packet of another size than the cycle allows now, or a chunk with bytes
                                         where the request is HEAD */
    AJP13_BUFFER_TOO_SHORT = 15,      /* the lent buffer, or the lent table, is too short */
    AJP13_RECORD_WRONG = 16,          /* a header after an attribute, an attribute on a Send Headers, or an
                                         impossible building record; see ajp13_building */

    /* Refusals of a capture. They stand in the checker's answer (ajp13_checked), and no call returns them. */
    AJP13_UNFINISHED_PACKET = 17,     /* the capture's last packet is not whole */
    AJP13_CAPTURE_TOO_LONG = 18,      /* the capture has over AJP13_MAX_CAPTURE bytes, and those judged show no other
                                         fault */

    /* Only from reading: the packet is not whole yet. See ajp13_read_at_container. */
    AJP13_NEEDS = 0x10000,

    /* Errors. Those of a length come only from the calls of ajp13_words.h, and from ajp13_name. */
    AJP13_ERROR_CONNECTION_LENGTH = 0x10001, /* the connection has not AJP13_SIZE_CONNECTION words */
    AJP13_ERROR_CONNECTION_WORD = 0x10002,   /* a word of it is out of range; see ajp13_connection */
    AJP13_ERROR_BUILDING_LENGTH = 0x10003,   /* the building record has not AJP13_SIZE_BUILDING words */
    AJP13_ERROR_BUILDING_WORD = 0x10004,     /* a word of it is out of range; see ajp13_building */
    AJP13_ERROR_FIXED_LENGTH = 0x10005,      /* the fixed numbers of a Forward are not AJP13_SIZE_FIXED words */
    AJP13_ERROR_FIXED_WORD = 0x10006,        /* a Forward's server_port above 65535, or the null of one of its strings
                                                above 1 */
    AJP13_ERROR_ANSWER_LENGTH = 0x10007,     /* an array lent for the answer has not its length: answer
                                                AJP13_SIZE_ANSWER, text AJP13_SIZE_TEXT, name AJP13_SIZE_NAME, checked
                                                AJP13_SIZE_CHECKED */
    AJP13_ERROR_ARGUMENT = 0x10008,          /* a place, the integer of an attribute or what a Get Body asks for above
                                                65535; the null of a string above 1; a list above 3 */
    AJP13_ERROR_CHECKING_LENGTH = 0x10009,   /* the check on the way has not AJP13_SIZE_CHECKING words */
    AJP13_ERROR_CHECKING_WORD = 0x1000A      /* a word of it is out of range; see ajp13_checking */
};

/* 1 where a status is a refusal, which is a number of the protocol; else 0. */
static inline int ajp13_is_refusal(uint32_t status)
{
    return status >= 1 && status <= 65535;
}

/* 1 where a status, or another number that a call returned, is an error; else 0. */
static inline int ajp13_is_error(uint32_t status)
{
    return status > AJP13_NEEDS;
}

/* A status, or a refusal of a capture, in words, for messages to people. Never NULL. */
static inline const char *ajp13_status_text(uint32_t status)
{
    switch (status) {
    case AJP13_DONE: return "done";
    case AJP13_LEADING_WRONG: return "wrong leading bytes";
    case AJP13_TOO_LONG: return "packet too long";
    case AJP13_CUT_SHORT: return "cut short";
    case AJP13_CODE_WRONG: return "code not of this direction";
    case AJP13_CODE_NOT_SERVED: return "code not served";
    case AJP13_STRING_WRONG: return "bad string, or a zero or a line end in one";
    case AJP13_OUT_OF_RANGE: return "number out of range";
    case AJP13_NAME_WRONG: return "bad header name";
    case AJP13_ATTRIBUTE_WRONG: return "bad attribute code";
    case AJP13_CONTENT_LENGTH_WRONG: return "bad content-length, or transfer-encoding";
    case AJP13_TOO_MANY: return "too many headers or attributes";
    case AJP13_LEFT_OVER: return "bytes left after the last field";
    case AJP13_NOT_NOW: return "not allowed in this state";
    case AJP13_BODY_SIZE_WRONG: return "wrong body size";
    case AJP13_BUFFER_TOO_SHORT: return "lent table or buffer too short";
    case AJP13_RECORD_WRONG: return "building record does not allow this";
    case AJP13_UNFINISHED_PACKET: return "unfinished packet";
    case AJP13_CAPTURE_TOO_LONG: return "capture too long";
    case AJP13_NEEDS: return "packet not whole yet";
    case AJP13_ERROR_CONNECTION_LENGTH: return "error: connection of the wrong length";
    case AJP13_ERROR_CONNECTION_WORD: return "error: connection with a word out of range";
    case AJP13_ERROR_BUILDING_LENGTH: return "error: building record of the wrong length";
    case AJP13_ERROR_BUILDING_WORD: return "error: building record with a word out of range";
    case AJP13_ERROR_FIXED_LENGTH: return "error: fixed numbers of the wrong length";
    case AJP13_ERROR_FIXED_WORD: return "error: fixed number out of range";
    case AJP13_ERROR_ANSWER_LENGTH: return "error: array for the answer of the wrong length";
    case AJP13_ERROR_ARGUMENT: return "error: argument out of range";
    case AJP13_ERROR_CHECKING_LENGTH: return "error: check on the way of the wrong length";
    case AJP13_ERROR_CHECKING_WORD: return "error: check on the way with a word out of range";
    default: return "no such status";
    }
}

/* ---------------------------------------------------------------------------------------------------------------------
 * Types: how many words each has, and what stands at each position
 * ------------------------------------------------------------------------------------------------------------------ */

/* Sizes of arrays, in elements. */
enum {
    AJP13_SIZE_CONNECTION = 8,
    AJP13_SIZE_BUILDING = 5,
    AJP13_SIZE_ANSWER = 16,
    AJP13_SIZE_TEXT = 3,
    AJP13_SIZE_FIXED = 8,
    AJP13_SIZE_NAME = 17,
    AJP13_SIZE_CHECKING = 16,
    AJP13_SIZE_CHECKED = 8
};

/* Limits. */
enum {
    AJP13_MAX_PACKET = 8192, /* bytes of a whole packet: a buffer of this length is never too short */
    AJP13_MAX_PLACES = 328,  /* places of a table: a table of this length is never too short */
    AJP13_MAX_BODY = 8186,   /* bytes of a body in one body packet */
    AJP13_MAX_CHUNK = 8184   /* bytes of one body chunk */
};

/* Bytes of a capture: of a longer one only so many are judged. An enumeration need not hold so great a number. */
#define AJP13_MAX_CAPTURE UINT32_C(4294967295)

/* The kinds of packets. */
enum {
    AJP13_KIND_CPING = 1,        /* to the container */
    AJP13_KIND_CPONG = 2,        /* to the server */
    AJP13_KIND_FORWARD = 3,      /* Forward Request, to the container */
    AJP13_KIND_BODY = 4,         /* body packet, to the container */
    AJP13_KIND_GET_BODY = 5,     /* Get Body Chunk, to the server */
    AJP13_KIND_SEND_HEADERS = 6, /* to the server */
    AJP13_KIND_BODY_CHUNK = 7,   /* Send Body Chunk, to the server */
    AJP13_KIND_END = 8           /* End Response, to the server */
};

/*
 * A connection. Each end keeps its own. A send steps the sender's, an accepted packet steps the receiver's, both by the
 * same cycle:
 *
 *   state                          packet            after
 *   Idle                           CPing             Pinged
 *   Pinged                         CPong             Idle
 *   Idle                           Forward           Busy; where a body is declared, a body packet is due, asked 8186;
 *                                                    head where its method is AJP13_METHOD_HEAD
 *   Busy, due                      body packet       its bytes fewer left, none due
 *   Busy, none due                 Get Body Chunk    due, asked as many as it says
 *   Busy, no headers yet           Send Headers      headers sent
 *   Busy, headers sent             Send Body Chunk   the same
 *   Busy, headers sent, none due   End Response      Idle where the connection is to be reused, else Closed
 *
 * Nothing else is allowed (AJP13_NOT_NOW). A body packet holds at least one byte and at most ajp13_largest_body; where
 * that is 0, the body packet is empty (else AJP13_BODY_SIZE_WRONG). An empty one is written as 12 34 00 00; with a size
 * of 0, as 12 34 00 02 00 00, it is read as the same packet. The response to a HEAD has no body: while one is under way a
 * Send Body Chunk has to be empty (else AJP13_BODY_SIZE_WRONG), at both ends.
 *
 * A Forward declares a body by its header content-length, and none without it. The server sends the first body packet
 * unasked, right behind the Forward, and each further one when a Get Body Chunk came. The container need not ask for
 * all of the body before it ends the response.
 *
 * A connection does not say which end holds it. A program at the server's end calls ajp13_read_at_server, ajp13_cping,
 * ajp13_begin_forward and ajp13_body; one at the container's end ajp13_read_at_container, ajp13_cpong,
 * ajp13_begin_send_headers, ajp13_body_chunk, ajp13_get_body and ajp13_end.
 *
 * Left, due, asked, headers and head count only in Busy, and asked only where a body packet is due. What does not count
 * is not looked at, and a step sets to 0 what does not count after it.
 *
 * Words out of range (AJP13_ERROR_CONNECTION_WORD): state above 3; edition or open not 0; in Busy due, headers or head
 * above 1, or asked above 65535 where a body packet is due.
 */
typedef struct ajp13_connection {
    uint32_t words[AJP13_SIZE_CONNECTION];
} ajp13_connection;

enum {
    AJP13_CONNECTION_STATE = 0,   /* AJP13_STATE_IDLE .. AJP13_STATE_CLOSED */
    AJP13_CONNECTION_LEFT = 1,    /* bytes of the request's body still to come, any number */
    AJP13_CONNECTION_DUE = 2,     /* 1 where a body packet is due */
    AJP13_CONNECTION_ASKED = 3,   /* how many bytes were asked for, where one is due */
    AJP13_CONNECTION_HEADERS = 4, /* 1 once Send Headers went */
    AJP13_CONNECTION_HEAD = 5,    /* 1 where the request is a HEAD: its method is AJP13_METHOD_HEAD */

    /* Kept for a later version: written as 0, and must be 0. */
    AJP13_CONNECTION_EDITION = 6,
    AJP13_CONNECTION_OPEN = 7
};

/* The states of a connection. */
enum {
    AJP13_STATE_IDLE = 0,
    AJP13_STATE_PINGED = 1,
    AJP13_STATE_BUSY = 2,
    AJP13_STATE_CLOSED = 3
};

/* The name of a state, as the checker's figures are printed. Never NULL. */
static inline const char *ajp13_state_text(uint32_t state)
{
    switch (state) {
    case AJP13_STATE_IDLE: return "idle";
    case AJP13_STATE_PINGED: return "pinged";
    case AJP13_STATE_BUSY: return "busy";
    case AJP13_STATE_CLOSED: return "closed";
    default: return "no such state";
    }
}

/*
 * A building record. It says how far a Forward or a Send Headers is built. The calls that begin a packet make it, the
 * pieces step it.
 *
 * Words out of range (AJP13_ERROR_BUILDING_WORD): kind neither AJP13_KIND_FORWARD nor AJP13_KIND_SEND_HEADERS, as in a
 * record of zeros; attributes above 1.
 *
 * Impossible (AJP13_RECORD_WRONG): next above 8192 or past the buffer, count_place under 4 or less than two before
 * next, headers above 100, or another byte at the buffer's place 4 than that packet's code.
 */
typedef struct ajp13_building {
    uint32_t words[AJP13_SIZE_BUILDING];
} ajp13_building;

enum {
    AJP13_BUILDING_KIND = 0,        /* AJP13_KIND_FORWARD or AJP13_KIND_SEND_HEADERS */
    AJP13_BUILDING_NEXT = 1,        /* the place of the next piece in the buffer */
    AJP13_BUILDING_COUNT_PLACE = 2, /* the place of the number of headers */
    AJP13_BUILDING_HEADERS = 3,     /* how many headers there are so far */
    AJP13_BUILDING_ATTRIBUTES = 4   /* 1 once there was an attribute: no header may follow */
};

/*
 * An answer. A call that is given one writes it whole where its status is AJP13_DONE or AJP13_NEEDS; words that the
 * answer does not use are 0 then, those behind AJP13_ANSWER_DECLARED always. A call that sends writes the kind, the
 * packet's length and zeros.
 */
typedef struct ajp13_answer {
    uint32_t words[AJP13_SIZE_ANSWER];
} ajp13_answer;

enum {
    AJP13_ANSWER_KIND = 0,  /* AJP13_KIND_CPING .. AJP13_KIND_END; 0 with AJP13_NEEDS */
    AJP13_ANSWER_BYTES = 1, /* read: the bytes taken. AJP13_NEEDS: the bytes needed in all. Sent: the packet's length */

    /* Forward Request. A place is where the string stands in the packet; see ajp13_text_at. */
    AJP13_ANSWER_METHOD = 2,      /* AJP13_METHOD_.. */
    AJP13_ANSWER_PROTOCOL = 3,    /* place */
    AJP13_ANSWER_REQ_URI = 4,     /* place */
    AJP13_ANSWER_REMOTE_ADDR = 5, /* place */
    AJP13_ANSWER_REMOTE_HOST = 6, /* place */
    AJP13_ANSWER_SERVER_NAME = 7, /* place */
    AJP13_ANSWER_SERVER_PORT = 8,
    AJP13_ANSWER_IS_SSL = 9,      /* 0 or 1 */
    AJP13_ANSWER_HEADERS = 10,    /* how many headers; also of a Send Headers */
    AJP13_ANSWER_ATTRIBUTES = 11, /* how many attributes */
    AJP13_ANSWER_DECLARED = 12,   /* the declared length of the body, 0 where no content-length is there */

    /* Send Headers; how many headers is AJP13_ANSWER_HEADERS. */
    AJP13_ANSWER_STATUS = 2,
    AJP13_ANSWER_MESSAGE = 3, /* place */

    /* Body packet and Send Body Chunk: the bytes delivered are packet + start. Of an empty body packet start is 4, in
       either of its forms. */
    AJP13_ANSWER_START = 2,
    AJP13_ANSWER_LENGTH = 3,

    /* Get Body Chunk. */
    AJP13_ANSWER_ASKED = 2,

    /* End Response. */
    AJP13_ANSWER_REUSE = 2 /* 0 or 1 */
};

/* A string of a packet, as ajp13_text_at shows it: where its bytes are in the packet. */
typedef struct ajp13_text {
    uint32_t words[AJP13_SIZE_TEXT];
} ajp13_text;

enum {
    AJP13_TEXT_START = 0,  /* the place of its first byte */
    AJP13_TEXT_LENGTH = 1, /* how many bytes it has; 0 where it is null */
    AJP13_TEXT_NULL = 2    /* 1: the string is null. A null string is not the same as an empty one */
};

/*
 * A check on the way: how far a capture was checked. ajp13_check_begin makes it, ajp13_check_go_on steps it. Its first
 * AJP13_SIZE_CONNECTION words are the connection after the packets so far, at the positions AJP13_CONNECTION_.. Those
 * that do not count may be any words; where ajp13_check_go_on takes no packet, it leaves them as they are, but due and
 * headers that are above 1 become 0, and asked that is above 65535 becomes 65535.
 *
 * Words out of range (AJP13_ERROR_CHECKING_WORD): a word of the connection, by the rule of ajp13_connection; packets,
 * requests or body above place, which no capture has, for no packet is empty; refusal not 0 and no refusal's number;
 * one of the words behind refusal not 0.
 */
typedef struct ajp13_checking {
    uint32_t words[AJP13_SIZE_CHECKING];
} ajp13_checking;

enum {
    AJP13_CHECKING_PACKETS = 8,  /* how many packets were accepted */
    AJP13_CHECKING_REQUESTS = 9, /* how many of them are Forward Requests */
    AJP13_CHECKING_BODY = 10,    /* how many bytes of requests' bodies they hold, in body packets */
    AJP13_CHECKING_PLACE = 11,   /* how many bytes they have: where the next packet starts, or the refused one */
    AJP13_CHECKING_REFUSAL = 12  /* why the packet at place is refused; 0 where nothing was refused */

    /* Words 13, 14 and 15 are kept for a later version: written as 0, and must be 0. */
};

/*
 * The checker's answer. The figures are those of the packets that were accepted. A capture passes where refusal is 0,
 * in whichever state it ends.
 */
typedef struct ajp13_checked {
    uint32_t words[AJP13_SIZE_CHECKED];
} ajp13_checked;

enum {
    AJP13_CHECKED_PACKETS = 0,  /* how many packets were accepted */
    AJP13_CHECKED_REQUESTS = 1, /* how many of them are Forward Requests */
    AJP13_CHECKED_BODY = 2,     /* how many bytes of requests' bodies they hold, in body packets */
    AJP13_CHECKED_STATE = 3,    /* the connection's state after them, AJP13_STATE_.. */
    AJP13_CHECKED_REFUSAL = 4,  /* the first fault: 0 for none, AJP13_LEADING_WRONG to AJP13_BODY_SIZE_WRONG,
                                   AJP13_UNFINISHED_PACKET or AJP13_CAPTURE_TOO_LONG */
    AJP13_CHECKED_PLACE = 5     /* where the refused or unfinished packet starts; the capture's size where it passes;
                                   AJP13_MAX_CAPTURE with AJP13_CAPTURE_TOO_LONG */

    /* Words 6 and 7 are kept for a later version: written as 0. */
};

/*
 * The fixed numbers of a Forward, as ajp13_words_begin_forward takes them; ajp13_begin_forward fills them in. Where
 * AJP13_FIXED_NO_.. is 1, that string is null.
 */
enum {
    AJP13_FIXED_METHOD = 0,
    AJP13_FIXED_PORT = 1,
    AJP13_FIXED_IS_SSL = 2,
    AJP13_FIXED_NO_PROTOCOL = 3,
    AJP13_FIXED_NO_REQ_URI = 4,
    AJP13_FIXED_NO_REMOTE_ADDR = 5,
    AJP13_FIXED_NO_REMOTE_HOST = 6,
    AJP13_FIXED_NO_SERVER_NAME = 7
};

/* ---------------------------------------------------------------------------------------------------------------------
 * The connection
 * ------------------------------------------------------------------------------------------------------------------ */

/*
 * Makes a connection fresh: Idle, 0 in all else. A fresh connection is the same at either end.
 *
 *   connection  written whole; what it held does not matter.
 *
 * Status: AJP13_DONE, always.
 */
static inline uint32_t ajp13_fresh(ajp13_connection *connection)
{
    return ajp13_words_fresh(connection->words, AJP13_SIZE_CONNECTION);
}

/*
 * The most bytes that the next body packet may hold: the least of what was asked for, AJP13_MAX_BODY and what is left.
 * Where a body packet is due and this is 0, it must be empty; else it must hold at least one byte. Where no body packet
 * is due, this is 0 too.
 *
 * Returns that number, at most AJP13_MAX_BODY, or AJP13_ERROR_CONNECTION_WORD.
 */
static inline uint32_t ajp13_largest_body(const ajp13_connection *connection)
{
    return ajp13_words_largest_body(connection->words, AJP13_SIZE_CONNECTION);
}

/* ---------------------------------------------------------------------------------------------------------------------
 * Reading
 * ------------------------------------------------------------------------------------------------------------------ */

/*
 * Reads the packet at the start of bytes, at the container's end: CPing, Forward Request or body packet.
 *
 *   connection  the container's connection; stepped where the packet is accepted.
 *   bytes       what came and was not taken yet: part of a packet, a packet, or a packet with more behind it.
 *   table       lent for the places of headers and attributes. AJP13_MAX_PLACES are always enough; a packet needs
 *               2 * (headers + attributes). Where the packet is accepted, the table holds, from its start on, for each
 *               header the place of its name and the place of its value, then for each attribute the place of its code
 *               and the place of its value (of the second string for code 0A). The rest of it is unchanged.
 *   answer      what the packet says.
 *
 * Status
 *   AJP13_DONE                   accepted. The connection has stepped, the table and the answer are written. The packet
 *                                is the first AJP13_ANSWER_BYTES of the bytes; the next packet starts behind it.
 *   AJP13_NEEDS                  the packet is not whole yet: call again when AJP13_ANSWER_BYTES bytes are there in
 *                                all, which is at most AJP13_MAX_PACKET. Only the answer is written.
 *   a refusal, 1 to 15           nothing is written. The bytes are no packet that this connection may get now, and more
 *                                of them would not change that: a program closes its socket then. With
 *                                AJP13_BUFFER_TOO_SHORT the packet is good and the table too short for it: call again
 *                                with a longer one.
 *   AJP13_ERROR_CONNECTION_WORD  nothing is written.
 */
static inline uint32_t ajp13_read_at_container(ajp13_connection *connection,
                                               const uint8_t *bytes, size_t bytes_length,
                                               uint16_t *table, size_t table_length,
                                               ajp13_answer *answer)
{
    return ajp13_words_read_at_container(connection->words, AJP13_SIZE_CONNECTION, bytes, bytes_length,
                                         table, table_length, answer->words, AJP13_SIZE_ANSWER);
}

/*
 * Reads the packet at the start of bytes, at the server's end: CPong, Get Body Chunk, Send Headers, Send Body Chunk or
 * End Response. Arguments and status are those of ajp13_read_at_container; connection is the server's. Of the refusals,
 * AJP13_CODE_NOT_SERVED, AJP13_ATTRIBUTE_WRONG and AJP13_CONTENT_LENGTH_WRONG do not come here.
 */
static inline uint32_t ajp13_read_at_server(ajp13_connection *connection,
                                            const uint8_t *bytes, size_t bytes_length,
                                            uint16_t *table, size_t table_length,
                                            ajp13_answer *answer)
{
    return ajp13_words_read_at_server(connection->words, AJP13_SIZE_CONNECTION, bytes, bytes_length,
                                      table, table_length, answer->words, AJP13_SIZE_ANSWER);
}

/* ---------------------------------------------------------------------------------------------------------------------
 * Sending: the packets that one call writes
 *
 *   connection  the sender's connection; stepped where the packet is written.
 *   buffer      the packet is written from its first byte on; bytes past the packet are unchanged.
 *   answer      the packet's kind and, at AJP13_ANSWER_BYTES, its length.
 *
 * The status of each is AJP13_DONE, one of the refusals named above it, which are looked for in the order in which they
 * are named, or one of the errors named there. With a refusal or an error nothing is written and the connection has not
 * stepped.
 * ------------------------------------------------------------------------------------------------------------------ */

/*
 * CPing, from the server: 5 bytes.
 *
 * Status: AJP13_DONE; AJP13_NOT_NOW, AJP13_BUFFER_TOO_SHORT; AJP13_ERROR_CONNECTION_WORD.
 */
static inline uint32_t ajp13_cping(ajp13_connection *connection, uint8_t *buffer, size_t buffer_length,
                                   ajp13_answer *answer)
{
    return ajp13_words_cping(connection->words, AJP13_SIZE_CONNECTION, buffer, buffer_length,
                             answer->words, AJP13_SIZE_ANSWER);
}

/*
 * CPong, from the container: 5 bytes.
 *
 * Status: AJP13_DONE; AJP13_NOT_NOW, AJP13_BUFFER_TOO_SHORT; AJP13_ERROR_CONNECTION_WORD.
 */
static inline uint32_t ajp13_cpong(ajp13_connection *connection, uint8_t *buffer, size_t buffer_length,
                                   ajp13_answer *answer)
{
    return ajp13_words_cpong(connection->words, AJP13_SIZE_CONNECTION, buffer, buffer_length,
                             answer->words, AJP13_SIZE_ANSWER);
}

/*
 * A body packet, from the server: the bytes and 6 more; 4 bytes where there are none.
 *
 *   bytes  the part of the request's body that goes now, 1 to ajp13_largest_body of them, or none where that is 0 (else
 *          AJP13_BODY_SIZE_WRONG).
 *
 * Status: AJP13_DONE; AJP13_NOT_NOW, AJP13_BODY_SIZE_WRONG, AJP13_BUFFER_TOO_SHORT; AJP13_ERROR_CONNECTION_WORD.
 */
static inline uint32_t ajp13_body(ajp13_connection *connection, uint8_t *buffer, size_t buffer_length,
                                  const uint8_t *bytes, size_t bytes_length, ajp13_answer *answer)
{
    return ajp13_words_body(connection->words, AJP13_SIZE_CONNECTION, buffer, buffer_length, bytes, bytes_length,
                            answer->words, AJP13_SIZE_ANSWER);
}

/*
 * Send Body Chunk, from the container: the bytes and 8 more.
 *
 *   bytes  the part of the response's body that goes now, none where the request is a HEAD (else AJP13_BODY_SIZE_WRONG),
 *          and at most AJP13_MAX_CHUNK (else AJP13_TOO_LONG).
 *
 * Status: AJP13_DONE; AJP13_NOT_NOW, AJP13_BODY_SIZE_WRONG, AJP13_TOO_LONG, AJP13_BUFFER_TOO_SHORT;
 * AJP13_ERROR_CONNECTION_WORD.
 */
static inline uint32_t ajp13_body_chunk(ajp13_connection *connection, uint8_t *buffer, size_t buffer_length,
                                        const uint8_t *bytes, size_t bytes_length, ajp13_answer *answer)
{
    return ajp13_words_body_chunk(connection->words, AJP13_SIZE_CONNECTION, buffer, buffer_length, bytes, bytes_length,
                                  answer->words, AJP13_SIZE_ANSWER);
}

/*
 * Get Body Chunk, from the container: 7 bytes.
 *
 *   asked  how many bytes of the request's body the container asks for, at most 65535 (else AJP13_ERROR_ARGUMENT).
 *
 * Status: AJP13_DONE; AJP13_NOT_NOW, AJP13_BUFFER_TOO_SHORT; AJP13_ERROR_CONNECTION_WORD, AJP13_ERROR_ARGUMENT.
 */
static inline uint32_t ajp13_get_body(ajp13_connection *connection, uint8_t *buffer, size_t buffer_length,
                                      uint32_t asked, ajp13_answer *answer)
{
    return ajp13_words_get_body(connection->words, AJP13_SIZE_CONNECTION, buffer, buffer_length, asked,
                                answer->words, AJP13_SIZE_ANSWER);
}

/*
 * End Response, from the container: 6 bytes.
 *
 *   reuse  1 where the connection is used again (Idle after this), 0 where it is not (Closed); else AJP13_OUT_OF_RANGE.
 *
 * Status: AJP13_DONE; AJP13_NOT_NOW, AJP13_OUT_OF_RANGE, AJP13_BUFFER_TOO_SHORT; AJP13_ERROR_CONNECTION_WORD.
 */
static inline uint32_t ajp13_end(ajp13_connection *connection, uint8_t *buffer, size_t buffer_length,
                                 uint32_t reuse, ajp13_answer *answer)
{
    return ajp13_words_end(connection->words, AJP13_SIZE_CONNECTION, buffer, buffer_length, reuse,
                           answer->words, AJP13_SIZE_ANSWER);
}

/* ---------------------------------------------------------------------------------------------------------------------
 * Strings to write
 * ------------------------------------------------------------------------------------------------------------------ */

/*
 * A string as it is given to the calls that build: its bytes, and whether it is null. A null string is not the same as
 * an empty one. Among its bytes may be no zero, no line feed (10) and no carriage return (13): such a string is refused
 * with AJP13_STRING_WRONG, whichever field it is for. A certificate in PEM form has line ends.
 *
 *   bytes   may be NULL: the string has no bytes then, whatever length says.
 *   length  how many bytes there are; no zero behind them is needed, and none is counted.
 *   null    1 where the string is null, and its bytes do not matter; else 0 (above 1 is an error).
 */
typedef struct ajp13_string {
    const uint8_t *bytes;
    size_t length;
    uint32_t null;
} ajp13_string;

/* The string of these bytes. */
static inline ajp13_string ajp13_bytes(const void *bytes, size_t length)
{
    ajp13_string string;

    string.bytes = (const uint8_t *)bytes;
    string.length = length;
    string.null = 0;
    return string;
}

/* The null string. */
static inline ajp13_string ajp13_null(void)
{
    ajp13_string string = ajp13_bytes("", 0);

    string.null = 1;
    return string;
}

/* The string of a C string, without its zero. The null string where text is NULL. */
static inline ajp13_string ajp13_chars(const char *text)
{
    return text == NULL ? ajp13_null() : ajp13_bytes(text, strlen(text));
}

/* What a string is handed to the library as: a pointer that is not NULL, and a length. */
static inline const uint8_t *ajp13_string_bytes(ajp13_string string)
{
    return string.bytes == NULL ? (const uint8_t *)"" : string.bytes;
}

static inline size_t ajp13_string_length(ajp13_string string)
{
    return string.bytes == NULL ? 0 : string.length;
}

/* ---------------------------------------------------------------------------------------------------------------------
 * Building: Forward Request and Send Headers in pieces
 *
 * First the fixed fields, then each header, then (Forward only) each attribute, then closing. The pieces touch no
 * connection; closing does.
 *
 *   building  the building record. Beginning writes it; a piece that is added steps it.
 *   buffer    the same one for all pieces of a packet, unchanged between them. The packet stands from its first byte.
 *             A buffer of AJP13_MAX_PACKET bytes is never too short.
 *
 * The status of each is AJP13_DONE, one of the refusals named above it, or one of the errors named there. With a
 * refusal or an error nothing is written: the packet is as far as it was before, and another piece may be added, or it
 * may be closed. A piece looks for refusals in this order: AJP13_RECORD_WRONG, those of its own fields from left to
 * right, AJP13_TOO_MANY for a 101st header, AJP13_TOO_LONG, AJP13_BUFFER_TOO_SHORT.
 * ------------------------------------------------------------------------------------------------------------------ */

/*
 * The fixed fields of a Forward Request, in the packet's order.
 *
 *   method                                 1 to 27, AJP13_METHOD_.. (else AJP13_OUT_OF_RANGE)
 *   protocol, req_uri                      neither null nor empty (else AJP13_STRING_WRONG)
 *   remote_addr, remote_host, server_name  may be null or empty
 *   server_port                            at most 65535 (else AJP13_ERROR_FIXED_WORD)
 *   is_ssl                                 0 or 1 (else AJP13_OUT_OF_RANGE)
 */
typedef struct ajp13_forward {
    uint32_t method;
    ajp13_string protocol;
    ajp13_string req_uri;
    ajp13_string remote_addr;
    ajp13_string remote_host;
    ajp13_string server_name;
    uint32_t server_port;
    uint32_t is_ssl;
} ajp13_forward;

/*
 * Begins a Forward Request: writes its fixed fields, with 0 for its length and for its number of headers.
 *
 *   building  written whole; what it held does not matter.
 *   forward   the fixed fields.
 *
 * Status: AJP13_DONE; AJP13_OUT_OF_RANGE, AJP13_STRING_WRONG, AJP13_TOO_LONG, AJP13_BUFFER_TOO_SHORT;
 * AJP13_ERROR_FIXED_WORD.
 */
static inline uint32_t ajp13_begin_forward(ajp13_building *building, uint8_t *buffer, size_t buffer_length,
                                           const ajp13_forward *forward)
{
    uint32_t fixed[AJP13_SIZE_FIXED];

    fixed[AJP13_FIXED_METHOD] = forward->method;
    fixed[AJP13_FIXED_PORT] = forward->server_port;
    fixed[AJP13_FIXED_IS_SSL] = forward->is_ssl;
    fixed[AJP13_FIXED_NO_PROTOCOL] = forward->protocol.null;
    fixed[AJP13_FIXED_NO_REQ_URI] = forward->req_uri.null;
    fixed[AJP13_FIXED_NO_REMOTE_ADDR] = forward->remote_addr.null;
    fixed[AJP13_FIXED_NO_REMOTE_HOST] = forward->remote_host.null;
    fixed[AJP13_FIXED_NO_SERVER_NAME] = forward->server_name.null;
    return ajp13_words_begin_forward(
        building->words, AJP13_SIZE_BUILDING, buffer, buffer_length, fixed, AJP13_SIZE_FIXED,
        ajp13_string_bytes(forward->protocol), ajp13_string_length(forward->protocol),
        ajp13_string_bytes(forward->req_uri), ajp13_string_length(forward->req_uri),
        ajp13_string_bytes(forward->remote_addr), ajp13_string_length(forward->remote_addr),
        ajp13_string_bytes(forward->remote_host), ajp13_string_length(forward->remote_host),
        ajp13_string_bytes(forward->server_name), ajp13_string_length(forward->server_name));
}

/*
 * Begins a Send Headers: writes its fixed fields, with 0 for its length and for its number of headers.
 *
 *   building  written whole; what it held does not matter.
 *   status    the response's status, 100 to 599 (else AJP13_OUT_OF_RANGE).
 *   message   the status's message, which may be null or empty.
 *
 * Status: AJP13_DONE; AJP13_OUT_OF_RANGE, AJP13_STRING_WRONG, AJP13_TOO_LONG, AJP13_BUFFER_TOO_SHORT;
 * AJP13_ERROR_ARGUMENT (message.null above 1).
 */
static inline uint32_t ajp13_begin_send_headers(ajp13_building *building, uint8_t *buffer, size_t buffer_length,
                                                uint32_t status, ajp13_string message)
{
    return ajp13_words_begin_send_headers(building->words, AJP13_SIZE_BUILDING, buffer, buffer_length, status,
                                          ajp13_string_bytes(message), ajp13_string_length(message), message.null);
}

/*
 * Adds a header with a code for its name.
 *
 *   code   A001 to A00E for a Forward, A001 to A00B for a Send Headers (else AJP13_NAME_WRONG); the lists are at the
 *          end of this file.
 *   value  the header's value, which may be null or empty. A Forward's content-length must be 1 to 10 decimal digits,
 *          at most 4294967295 (else AJP13_CONTENT_LENGTH_WRONG). That there are not two of them is looked for when the
 *          packet is closed.
 *
 * Status: AJP13_DONE; AJP13_RECORD_WRONG, AJP13_NAME_WRONG, AJP13_STRING_WRONG, AJP13_CONTENT_LENGTH_WRONG,
 * AJP13_TOO_MANY, AJP13_TOO_LONG, AJP13_BUFFER_TOO_SHORT; AJP13_ERROR_BUILDING_WORD, AJP13_ERROR_ARGUMENT (value.null
 * above 1).
 */
static inline uint32_t ajp13_header_coded(ajp13_building *building, uint8_t *buffer, size_t buffer_length,
                                          uint32_t code, ajp13_string value)
{
    return ajp13_words_header_coded(building->words, AJP13_SIZE_BUILDING, buffer, buffer_length, code,
                                    ajp13_string_bytes(value), ajp13_string_length(value), value.null);
}

/*
 * Adds a header with a name that is spelled out.
 *
 *   name   neither null nor empty (AJP13_STRING_WRONG), a token that is not listed for this packet, case ignored
 *          (AJP13_NAME_WRONG). In a Forward not transfer-encoding (AJP13_CONTENT_LENGTH_WRONG).
 *   value  the header's value, which may be null or empty.
 *
 * Status: AJP13_DONE; AJP13_RECORD_WRONG, AJP13_STRING_WRONG, AJP13_NAME_WRONG, AJP13_CONTENT_LENGTH_WRONG,
 * AJP13_TOO_MANY, AJP13_TOO_LONG, AJP13_BUFFER_TOO_SHORT; AJP13_ERROR_BUILDING_WORD, AJP13_ERROR_ARGUMENT (name.null or
 * value.null above 1).
 */
static inline uint32_t ajp13_header_spelled(ajp13_building *building, uint8_t *buffer, size_t buffer_length,
                                            ajp13_string name, ajp13_string value)
{
    return ajp13_words_header_spelled(building->words, AJP13_SIZE_BUILDING, buffer, buffer_length,
                                      ajp13_string_bytes(name), ajp13_string_length(name), name.null,
                                      ajp13_string_bytes(value), ajp13_string_length(value), value.null);
}

/*
 * Adds a header by its name: with its code where the name is listed for this packet (case ignored), else spelled out.
 * This is the call for a program that has a header's name as a text.
 *
 *   name   the header's name, neither null nor empty (AJP13_STRING_WRONG).
 *   value  the header's value, as for ajp13_header_coded.
 *
 * Status: that of ajp13_header_coded or of ajp13_header_spelled.
 */
static inline uint32_t ajp13_header_named(ajp13_building *building, uint8_t *buffer, size_t buffer_length,
                                          ajp13_string name, ajp13_string value)
{
    /* The exported call takes no null name; the one for spelled names refuses it. */
    if (name.null != 0)
        return ajp13_header_spelled(building, buffer, buffer_length, name, value);
    return ajp13_words_header_named(building->words, AJP13_SIZE_BUILDING, buffer, buffer_length,
                                    ajp13_string_bytes(name), ajp13_string_length(name),
                                    ajp13_string_bytes(value), ajp13_string_length(value), value.null);
}

/*
 * Adds an attribute whose value is a string. No header may follow.
 *
 *   code   one of AJP13_ATTRIBUTE_.. other than SSL_KEY_SIZE and REQ_ATTRIBUTE (else AJP13_ATTRIBUTE_WRONG). That none
 *          comes twice, and that there are at most 64 attributes, is looked for when the packet is closed.
 *   value  the attribute's value, which may be null or empty.
 *
 * Status: AJP13_DONE; AJP13_RECORD_WRONG, AJP13_ATTRIBUTE_WRONG, AJP13_STRING_WRONG, AJP13_TOO_LONG,
 * AJP13_BUFFER_TOO_SHORT; AJP13_ERROR_BUILDING_WORD, AJP13_ERROR_ARGUMENT (value.null above 1).
 */
static inline uint32_t ajp13_attribute_text(ajp13_building *building, uint8_t *buffer, size_t buffer_length,
                                            uint32_t code, ajp13_string value)
{
    return ajp13_words_attribute_text(building->words, AJP13_SIZE_BUILDING, buffer, buffer_length, code,
                                      ajp13_string_bytes(value), ajp13_string_length(value), value.null);
}

/*
 * Adds an attribute whose value is an integer. No header may follow.
 *
 *   code   AJP13_ATTRIBUTE_SSL_KEY_SIZE (else AJP13_ATTRIBUTE_WRONG).
 *   value  at most 65535 (else AJP13_ERROR_ARGUMENT).
 *
 * Status: AJP13_DONE; AJP13_RECORD_WRONG, AJP13_ATTRIBUTE_WRONG, AJP13_TOO_LONG, AJP13_BUFFER_TOO_SHORT;
 * AJP13_ERROR_BUILDING_WORD, AJP13_ERROR_ARGUMENT.
 */
static inline uint32_t ajp13_attribute_integer(ajp13_building *building, uint8_t *buffer, size_t buffer_length,
                                               uint32_t code, uint32_t value)
{
    return ajp13_words_attribute_integer(building->words, AJP13_SIZE_BUILDING, buffer, buffer_length, code, value);
}

/*
 * Adds an attribute that brings its own name with it. It may come any number of times. No header may follow.
 *
 *   code   AJP13_ATTRIBUTE_REQ_ATTRIBUTE (else AJP13_ATTRIBUTE_WRONG).
 *   name   neither null nor empty (AJP13_STRING_WRONG).
 *   value  the attribute's value, which may be null or empty.
 *
 * Status: AJP13_DONE; AJP13_RECORD_WRONG, AJP13_ATTRIBUTE_WRONG, AJP13_STRING_WRONG, AJP13_TOO_LONG,
 * AJP13_BUFFER_TOO_SHORT; AJP13_ERROR_BUILDING_WORD, AJP13_ERROR_ARGUMENT (name.null or value.null above 1).
 */
static inline uint32_t ajp13_attribute_pair(ajp13_building *building, uint8_t *buffer, size_t buffer_length,
                                            uint32_t code, ajp13_string name, ajp13_string value)
{
    return ajp13_words_attribute_pair(building->words, AJP13_SIZE_BUILDING, buffer, buffer_length, code,
                                      ajp13_string_bytes(name), ajp13_string_length(name), name.null,
                                      ajp13_string_bytes(value), ajp13_string_length(value), value.null);
}

/*
 * Closes a packet that was built in pieces, and sends it: sets its number of headers and its length, and ends a Forward
 * with FF. The packet is then judged as the end that it goes to would judge it.
 *
 *   connection  the sender's connection; stepped where the packet is written.
 *   building    the building record, which is only read.
 *   buffer      where the pieces stand.
 *   answer      the packet's kind and, at AJP13_ANSWER_BYTES, its length.
 *
 * AJP13_RECORD_WRONG is looked for first, then AJP13_NOT_NOW, AJP13_TOO_LONG and AJP13_BUFFER_TOO_SHORT, then what the
 * reader of the other end would refuse. Where it is refused, the buffer is as it was before closing, the connection has
 * not stepped, and more pieces may be added.
 *
 * Status: AJP13_DONE; AJP13_LEADING_WRONG to AJP13_RECORD_WRONG but not AJP13_CODE_NOT_SERVED nor
 * AJP13_BODY_SIZE_WRONG; AJP13_ERROR_CONNECTION_WORD, AJP13_ERROR_BUILDING_WORD.
 */
static inline uint32_t ajp13_close(ajp13_connection *connection, const ajp13_building *building,
                                   uint8_t *buffer, size_t buffer_length, ajp13_answer *answer)
{
    return ajp13_words_close(connection->words, AJP13_SIZE_CONNECTION, building->words, AJP13_SIZE_BUILDING,
                             buffer, buffer_length, answer->words, AJP13_SIZE_ANSWER);
}

/* ---------------------------------------------------------------------------------------------------------------------
 * Views: the fields of a packet at the places that reading told
 *
 *   packet  the bytes that were read; there may be more behind the packet.
 *   place   a place from the answer or from the table, at most 65535 (else AJP13_ERROR_ARGUMENT). Any place gets an
 *           answer; at those that reading told for a field of that sort it is the packet's field.
 *
 * No string of a packet that was accepted holds a zero, a line feed or a carriage return, so none can end a line or
 * become a second header where it is passed on. The bytes of bodies and chunks may be any.
 *
 * With h headers, header i has its name's place in table[2 * i] and its value's in table[2 * i + 1]; attribute j has
 * its code's place in table[2 * (h + j)] and its value's in table[2 * (h + j) + 1].
 * ------------------------------------------------------------------------------------------------------------------ */

/*
 * The string at a place.
 *
 *   text  written whole:
 *         - Where the two bytes of a length stand at place, start is place + 2. Where they are FF FF, the string is
 *           null, and length is 0. Else length is the number that they are. A length that runs past the packet's end is
 *           cut: the string shown then ends at the packet's end, and length is packet_length - start.
 *         - Where those two bytes are not both there (also where place is past the end), start is packet_length, length
 *           is 0 and null is 0.
 *         So start + length is never more than packet_length.
 *
 * Status: AJP13_DONE; AJP13_ERROR_ARGUMENT.
 */
static inline uint32_t ajp13_text_at(const uint8_t *packet, size_t packet_length, uint32_t place, ajp13_text *text)
{
    return ajp13_words_text_at(packet, packet_length, place, text->words, AJP13_SIZE_TEXT);
}

/*
 * The name that an attribute with code 0A brings with it.
 *
 *   place  the place of the attribute's code.
 *   text   written whole: what ajp13_text_at shows at place + 1.
 *
 * Status: AJP13_DONE; AJP13_ERROR_ARGUMENT.
 */
static inline uint32_t ajp13_attribute_name_at(const uint8_t *packet, size_t packet_length, uint32_t place,
                                               ajp13_text *text)
{
    return ajp13_words_attribute_name_at(packet, packet_length, place, text->words, AJP13_SIZE_TEXT);
}

/*
 * The integer at a place.
 *
 * Returns it, 0 where its two bytes are not both there; or AJP13_ERROR_ARGUMENT.
 */
uint32_t ajp13_integer_at(const uint8_t *packet, size_t packet_length, uint32_t place);

/*
 * The code of the header's name at a place.
 *
 * Returns it, 0 where the name is spelled out (ajp13_text_at shows it then) or is not there; or AJP13_ERROR_ARGUMENT.
 */
uint32_t ajp13_header_code_at(const uint8_t *packet, size_t packet_length, uint32_t place);

/*
 * The code of the attribute at a place.
 *
 * Returns it, 0 where nothing is there; or AJP13_ERROR_ARGUMENT.
 */
uint32_t ajp13_attribute_code_at(const uint8_t *packet, size_t packet_length, uint32_t place);

/* What kind of value an attribute has. */
enum {
    AJP13_VALUE_NOT_SERVED = 0, /* no attribute that is served is there */
    AJP13_VALUE_TEXT = 1,       /* a string: ajp13_text_at with the value's place */
    AJP13_VALUE_INTEGER = 2,    /* an integer: ajp13_integer_at with the value's place */
    AJP13_VALUE_PAIR = 3        /* a name and a string: ajp13_attribute_name_at with the code's place, ajp13_text_at
                                   with the value's */
};

/*
 * The kind of value of the attribute whose code is at a place.
 *
 * Returns it, AJP13_VALUE_..; or AJP13_ERROR_ARGUMENT.
 */
uint32_t ajp13_attribute_kind_at(const uint8_t *packet, size_t packet_length, uint32_t place);

/* ---------------------------------------------------------------------------------------------------------------------
 * Checking a capture: does what others sent keep the rules?
 *
 * A capture is what went over one connection: the packets of both directions back to back, in the order in which they
 * were seen at the server's end. The leading bytes of a packet tell its direction; those of neither direction are
 * refused with AJP13_LEADING_WRONG. The packets step one connection, which is fresh at first, and each is judged as
 * the end that it goes to judges it. The checker stops at the first fault.
 *
 * A fault is no error of the call: it stands in the answer, and the status is AJP13_DONE.
 *
 * A capture has at most AJP13_MAX_CAPTURE bytes. Of a longer one the first AJP13_MAX_CAPTURE are judged. A packet among
 * them that is refused is its fault; else, also where the last of them are a packet that is not whole, its fault is
 * AJP13_CAPTURE_TOO_LONG.
 *
 * A capture that is in memory as a whole is checked by ajp13_check. Any other is checked in parts, in a window of
 * AJP13_MAX_PACKET bytes: ajp13_check_begin, then ajp13_check_go_on for each part that comes, then ajp13_check_finish.
 * However it is cut into parts, the answer is the one of ajp13_check. checker.c is such a program.
 * ------------------------------------------------------------------------------------------------------------------ */

/*
 * Checks a whole capture.
 *
 *   capture  all its bytes.
 *   checked  written whole: the figures and the first fault.
 *
 * Status: AJP13_DONE, always.
 */
static inline uint32_t ajp13_check(const uint8_t *capture, size_t capture_length, ajp13_checked *checked)
{
    return ajp13_words_check(capture, capture_length, checked->words, AJP13_SIZE_CHECKED);
}

/*
 * Begins a check in parts: a fresh connection, 0 in all else.
 *
 *   checking  written whole; what it held does not matter.
 *
 * Status: AJP13_DONE, always.
 */
static inline uint32_t ajp13_check_begin(ajp13_checking *checking)
{
    return ajp13_words_check_begin(checking->words, AJP13_SIZE_CHECKING);
}

/*
 * Goes on with bytes of the capture, from the check's place on. It takes whole packets, as many as are there.
 *
 *   checking  stepped by the packets that are taken: AJP13_CHECKING_PLACE moves by their bytes. A packet that is
 *             refused is not taken: its refusal is then at AJP13_CHECKING_REFUSAL, and the program may stop reading.
 *             Where a refusal stood there before the call, no packet is taken, and the check stays as it is.
 *   bytes     the bytes of the capture that start at AJP13_CHECKING_PLACE: those that the last call did not take, and
 *             more behind them. None of them that stands at AJP13_MAX_CAPTURE or behind it is looked at.
 *   taken     how many of the bytes were taken; written where the status is AJP13_DONE. The others are to be given
 *             again, with more behind them. They are fewer than AJP13_MAX_PACKET, but where something was refused, and
 *             where they reach past AJP13_MAX_CAPTURE. So a window of AJP13_MAX_PACKET bytes always has room for more
 *             until the answer is known.
 *
 * Status: AJP13_DONE; AJP13_ERROR_CHECKING_WORD.
 */
static inline uint32_t ajp13_check_go_on(ajp13_checking *checking, const uint8_t *bytes, size_t bytes_length,
                                         size_t *taken)
{
    const uint32_t place = checking->words[AJP13_CHECKING_PLACE];
    const uint32_t status = ajp13_words_check_go_on(checking->words, AJP13_SIZE_CHECKING, bytes, bytes_length);

    if (status == AJP13_DONE)
        *taken = checking->words[AJP13_CHECKING_PLACE] - place;
    return status;
}

/*
 * The answer of a check in parts, at the capture's end. The check may go on after it.
 *
 *   checking  the check on the way, which is only read.
 *   size      how many bytes the capture has in all: AJP13_CHECKING_PLACE and those that were not taken. Where there
 *             are more than AJP13_MAX_CAPTURE, any number above it will do; where something was refused, any number.
 *   checked   written whole. The refusal is that of the check; where it has none, AJP13_CAPTURE_TOO_LONG for a size
 *             above AJP13_MAX_CAPTURE, 0 for a size that is the check's place, else AJP13_UNFINISHED_PACKET.
 *
 * Status: AJP13_DONE; AJP13_ERROR_CHECKING_WORD.
 */
static inline uint32_t ajp13_check_finish(const ajp13_checking *checking, uint64_t size, ajp13_checked *checked)
{
    return ajp13_words_check_finish(checking->words, AJP13_SIZE_CHECKING, size, checked->words, AJP13_SIZE_CHECKED);
}

/* ---------------------------------------------------------------------------------------------------------------------
 * Names: of methods, headers and attributes, and their codes
 *
 * Request headers, from A001 on: accept, accept-charset, accept-encoding, accept-language, authorization, connection,
 * content-type, content-length, cookie, cookie2, host, pragma, referer, user-agent.
 *
 * Response headers, from A001 on: Content-Type, Content-Language, Content-Length, Date, Last-Modified, Location,
 * Set-Cookie, Set-Cookie2, Servlet-Engine, Status, WWW-Authenticate.
 * ------------------------------------------------------------------------------------------------------------------ */

/* The lists of names. */
enum {
    AJP13_LIST_METHODS = 0,
    AJP13_LIST_REQUEST_HEADERS = 1,
    AJP13_LIST_RESPONSE_HEADERS = 2,
    AJP13_LIST_ATTRIBUTES = 3
};

/* The codes of the methods; the name is as it stands here, but for VERSION-CONTROL. */
enum {
    AJP13_METHOD_OPTIONS = 1,
    AJP13_METHOD_GET = 2,
    AJP13_METHOD_HEAD = 3,
    AJP13_METHOD_POST = 4,
    AJP13_METHOD_PUT = 5,
    AJP13_METHOD_DELETE = 6,
    AJP13_METHOD_TRACE = 7,
    AJP13_METHOD_PROPFIND = 8,
    AJP13_METHOD_PROPPATCH = 9,
    AJP13_METHOD_MKCOL = 10,
    AJP13_METHOD_COPY = 11,
    AJP13_METHOD_MOVE = 12,
    AJP13_METHOD_LOCK = 13,
    AJP13_METHOD_UNLOCK = 14,
    AJP13_METHOD_ACL = 15,
    AJP13_METHOD_REPORT = 16,
    AJP13_METHOD_VERSION_CONTROL = 17,
    AJP13_METHOD_CHECKIN = 18,
    AJP13_METHOD_CHECKOUT = 19,
    AJP13_METHOD_UNCHECKOUT = 20,
    AJP13_METHOD_SEARCH = 21,
    AJP13_METHOD_MKWORKSPACE = 22,
    AJP13_METHOD_UPDATE = 23,
    AJP13_METHOD_LABEL = 24,
    AJP13_METHOD_MERGE = 25,
    AJP13_METHOD_BASELINE_CONTROL = 26,
    AJP13_METHOD_MKACTIVITY = 27
};

/* The codes of the attributes; the name is the same in small letters. */
enum {
    AJP13_ATTRIBUTE_REMOTE_USER = 0x03,
    AJP13_ATTRIBUTE_AUTH_TYPE = 0x04,
    AJP13_ATTRIBUTE_QUERY_STRING = 0x05,
    AJP13_ATTRIBUTE_ROUTE = 0x06,
    AJP13_ATTRIBUTE_SSL_CERT = 0x07,
    AJP13_ATTRIBUTE_SSL_CIPHER = 0x08,
    AJP13_ATTRIBUTE_SSL_SESSION = 0x09,
    AJP13_ATTRIBUTE_REQ_ATTRIBUTE = 0x0A, /* brings its own name with it */
    AJP13_ATTRIBUTE_SSL_KEY_SIZE = 0x0B,  /* an integer */
    AJP13_ATTRIBUTE_SECRET = 0x0C,
    AJP13_ATTRIBUTE_STORED_METHOD = 0x0D
};

/*
 * The name that is listed for a code.
 *
 *   list  AJP13_LIST_..
 *   code  any number.
 *   name  AJP13_SIZE_NAME bytes, written whole where the code is listed: the name and zeros behind it (at least one, so
 *         that it is a C string). Else nothing is written.
 *
 * Returns the name's length, 0 where no such code is listed; or AJP13_ERROR_ANSWER_LENGTH (name_length is another one),
 * AJP13_ERROR_ARGUMENT (list above 3).
 */
uint32_t ajp13_name(uint32_t list, uint32_t code, uint8_t *name, size_t name_length);

/*
 * The code that is listed for a name. Headers' names are compared with case ignored, all others as they stand.
 *
 *   list  AJP13_LIST_..
 *   text  the name.
 *
 * Returns the code, 0 where the name is not listed; or AJP13_ERROR_ARGUMENT (list above 3).
 */
uint32_t ajp13_code(uint32_t list, const uint8_t *text, size_t text_length);

#ifdef __cplusplus
}
#endif

#endif
