/*
 * What a call answers to numbers out of range, to a zero or a line end in a string, to words that do not count, to
 * impossible building records and checks, to both forms of an empty body packet, to captures that are as long as can be
 * and to arrays of the wrong length. Every status is looked at, and where a call is not done, that everything lent is as
 * it was.
 *
 * Prints how many calls were looked at, and a line for each that is wrong. It is C and C++ alike.
 */
#include <stdio.h>
#include <string.h>

#include "ajp13.h"

/* All that is lent to the calls. The arrays have room for lengths that are wrong. */
static struct lent {
    ajp13_connection connection;
    ajp13_building building;
    ajp13_answer answer;
    ajp13_text text;
    ajp13_checking checking;
    ajp13_checked checked;
    size_t taken;
    uint32_t connection_words[AJP13_SIZE_CONNECTION + 1];
    uint32_t building_words[AJP13_SIZE_BUILDING + 1];
    uint32_t answer_words[AJP13_SIZE_ANSWER + 1];
    uint32_t text_words[AJP13_SIZE_TEXT + 1];
    uint32_t checking_words[AJP13_SIZE_CHECKING + 1];
    uint32_t checked_words[AJP13_SIZE_CHECKED + 1];
    uint16_t table[AJP13_MAX_PLACES];
    uint8_t buffer[AJP13_MAX_PACKET];
    uint8_t name[AJP13_SIZE_NAME + 1];
} lent, before;

static unsigned long looked, wrong;

static void keep(void)
{
    memcpy(&before, &lent, sizeof lent);
}

static void look(int line, const char *what, unsigned long is, unsigned long should, int unchanged)
{
    looked++;
    if (is != should) {
        printf("line %d: %s is %lu and should be %lu\n", line, what, is, should);
        wrong++;
    } else if (unchanged && memcmp(&before, &lent, sizeof lent) != 0) {
        printf("line %d: %s has written something\n", line, what);
        wrong++;
    }
}

/* What a call returned, or another number, is this one. */
#define IS(what, should) look(__LINE__, #what, (unsigned long)(what), (should), 0)

/* What a call returned is this number, and it has written nothing. */
#define LEFT(what, should) look(__LINE__, #what, (keep(), (unsigned long)(what)), (should), 1)

#define COUNT(array) (sizeof(array) / sizeof *(array))

/* The buffer, and bytes that are given, each with its length. */
#define OUT lent.buffer, sizeof lent.buffer
#define BYTES(text) (const uint8_t *)(text), sizeof(text) - 1

/* ---- Records ---------------------------------------------------------------------------------------------------- */

static void connection(uint32_t state, uint32_t left, uint32_t due, uint32_t asked, uint32_t headers)
{
    memset(&lent.connection, 0, sizeof lent.connection);
    lent.connection.words[AJP13_CONNECTION_STATE] = state;
    lent.connection.words[AJP13_CONNECTION_LEFT] = left;
    lent.connection.words[AJP13_CONNECTION_DUE] = due;
    lent.connection.words[AJP13_CONNECTION_ASKED] = asked;
    lent.connection.words[AJP13_CONNECTION_HEADERS] = headers;
}

static int connection_is(uint32_t state, uint32_t left, uint32_t due, uint32_t asked, uint32_t headers)
{
    const uint32_t words[AJP13_SIZE_CONNECTION] = {state, left, due, asked, headers, 0, 0, 0};

    return memcmp(words, lent.connection.words, sizeof words) == 0;
}

/* A connection with the mark of a HEAD, and no body packet due. */
static void connection_of_head(uint32_t state, uint32_t left, uint32_t headers, uint32_t head)
{
    connection(state, left, 0, 0, headers);
    lent.connection.words[AJP13_CONNECTION_HEAD] = head;
}

static ajp13_forward request(void)
{
    ajp13_forward forward;

    forward.method = AJP13_METHOD_GET;
    forward.protocol = ajp13_chars("HTTP/1.1");
    forward.req_uri = ajp13_chars("/");
    forward.remote_addr = ajp13_null();
    forward.remote_host = ajp13_null();
    forward.server_name = ajp13_null();
    forward.server_port = 80;
    forward.is_ssl = 0;
    return forward;
}

static void begin_forward(void)
{
    ajp13_forward forward = request();

    IS(ajp13_begin_forward(&lent.building, OUT, &forward), AJP13_DONE);
}

static void begin_send_headers(void)
{
    IS(ajp13_begin_send_headers(&lent.building, OUT, 200, ajp13_chars("OK")), AJP13_DONE);
}

/* ---- Numbers out of range that are refused ---------------------------------------------------------------------- */

/* An impossible building record, with a place or a number of headers of any size: 16 from closing and each piece. */
static void building_records(void)
{
    static const uint32_t positions[] = {AJP13_BUILDING_NEXT, AJP13_BUILDING_COUNT_PLACE, AJP13_BUILDING_HEADERS};
    static const uint32_t numbers[] = {65535, 65536, 70000, 0xFFFFFFFF};
    ajp13_string a = ajp13_chars("a");
    size_t i, j;

    for (i = 0; i < COUNT(positions); i++)
        for (j = 0; j < COUNT(numbers); j++) {
            begin_send_headers();
            lent.building.words[positions[i]] = numbers[j];
            connection(AJP13_STATE_BUSY, 0, 0, 0, 0);
            LEFT(ajp13_close(&lent.connection, &lent.building, OUT, &lent.answer), AJP13_RECORD_WRONG);
            connection(AJP13_STATE_IDLE, 0, 0, 0, 0);
            LEFT(ajp13_close(&lent.connection, &lent.building, OUT, &lent.answer), AJP13_RECORD_WRONG);
            LEFT(ajp13_header_coded(&lent.building, OUT, 0xA001, a), AJP13_RECORD_WRONG);
            LEFT(ajp13_header_spelled(&lent.building, OUT, a, a), AJP13_RECORD_WRONG);
            LEFT(ajp13_header_named(&lent.building, OUT, a, a), AJP13_RECORD_WRONG);
            LEFT(ajp13_header_named(&lent.building, OUT, ajp13_null(), a), AJP13_RECORD_WRONG);

            begin_forward();
            lent.building.words[positions[i]] = numbers[j];
            LEFT(ajp13_close(&lent.connection, &lent.building, OUT, &lent.answer), AJP13_RECORD_WRONG);
            LEFT(ajp13_attribute_text(&lent.building, OUT, AJP13_ATTRIBUTE_ROUTE, a), AJP13_RECORD_WRONG);
            LEFT(ajp13_attribute_integer(&lent.building, OUT, AJP13_ATTRIBUTE_SSL_KEY_SIZE, 1), AJP13_RECORD_WRONG);
            LEFT(ajp13_attribute_pair(&lent.building, OUT, AJP13_ATTRIBUTE_REQ_ATTRIBUTE, a, a), AJP13_RECORD_WRONG);
        }
}

/* A reuse that is no boolean: 13 where End is not allowed, else 7, also where the buffer is too short. */
static void ends(void)
{
    static const uint32_t reuses[] = {2, 65535, 65536, 65537, 0xFFFFFFFF};
    size_t i;

    for (i = 0; i < COUNT(reuses); i++) {
        connection(AJP13_STATE_IDLE, 0, 0, 0, 0);
        LEFT(ajp13_end(&lent.connection, OUT, reuses[i], &lent.answer), AJP13_NOT_NOW);
        connection(AJP13_STATE_BUSY, 5, 1, 5, 1);
        LEFT(ajp13_end(&lent.connection, OUT, reuses[i], &lent.answer), AJP13_NOT_NOW);
        connection(AJP13_STATE_BUSY, 5, 0, 0, 1);
        LEFT(ajp13_end(&lent.connection, OUT, reuses[i], &lent.answer), AJP13_OUT_OF_RANGE);
        LEFT(ajp13_end(&lent.connection, lent.buffer, 0, reuses[i], &lent.answer), AJP13_OUT_OF_RANGE);
    }
    LEFT(ajp13_end(&lent.connection, lent.buffer, 5, 1, &lent.answer), AJP13_BUFFER_TOO_SHORT);
    IS(ajp13_end(&lent.connection, OUT, 1, &lent.answer), AJP13_DONE);
    IS(connection_is(AJP13_STATE_IDLE, 0, 0, 0, 0), 1);
}

/* A Forward's method and is_ssl: 7, each at its place among the fields. */
static void forwards(void)
{
    static const uint32_t methods[] = {0, 28, 258, 65535, 65536, 65538, 70000, 0xFFFFFFFF};
    static const uint32_t flags[] = {2, 65535, 65536, 65537, 70000, 0xFFFFFFFF};
    static uint8_t path[9000];
    ajp13_forward forward;
    size_t i;

    memset(path, '/', sizeof path);
    for (i = 0; i < COUNT(methods); i++) {
        forward = request();
        forward.method = methods[i];
        LEFT(ajp13_begin_forward(&lent.building, OUT, &forward), AJP13_OUT_OF_RANGE);
        LEFT(ajp13_begin_forward(&lent.building, lent.buffer, 0, &forward), AJP13_OUT_OF_RANGE);
        forward.protocol = ajp13_null();
        LEFT(ajp13_begin_forward(&lent.building, OUT, &forward), AJP13_OUT_OF_RANGE);
    }
    for (i = 0; i < COUNT(flags); i++) {
        forward = request();
        forward.is_ssl = flags[i];
        LEFT(ajp13_begin_forward(&lent.building, OUT, &forward), AJP13_OUT_OF_RANGE);
        LEFT(ajp13_begin_forward(&lent.building, lent.buffer, 0, &forward), AJP13_OUT_OF_RANGE);
        forward.protocol = ajp13_null();
        LEFT(ajp13_begin_forward(&lent.building, OUT, &forward), AJP13_STRING_WRONG);
        forward = request();
        forward.is_ssl = flags[i];
        forward.server_name = ajp13_bytes("a\0b", 3);
        LEFT(ajp13_begin_forward(&lent.building, OUT, &forward), AJP13_STRING_WRONG);
        forward.server_name = ajp13_chars("");
        forward.req_uri = ajp13_bytes(path, sizeof path);
        LEFT(ajp13_begin_forward(&lent.building, OUT, &forward), AJP13_OUT_OF_RANGE);
        forward.is_ssl = 1;
        LEFT(ajp13_begin_forward(&lent.building, OUT, &forward), AJP13_TOO_LONG);
    }
}

/* A zero or a line end in a string, of each field: refused as a string, before what a name or a length is refused with. */
static void line_ends(void)
{
    static const unsigned char barred[] = {0, 10, 13};
    static const unsigned char others[] = {9, 11, 12, 14, 127, 255};
    ajp13_string a = ajp13_chars("a");
    ajp13_forward forward;
    unsigned char text[40];
    ajp13_string with;
    size_t i;

    memset(text, '7', sizeof text);
    with = ajp13_bytes(text, sizeof text);
    for (i = 0; i < COUNT(barred); i++) {
        text[COUNT(text) - 1 - i * 16] = barred[i];
        forward = request();
        forward.protocol = with;
        LEFT(ajp13_begin_forward(&lent.building, OUT, &forward), AJP13_STRING_WRONG);
        forward = request();
        forward.req_uri = with;
        LEFT(ajp13_begin_forward(&lent.building, OUT, &forward), AJP13_STRING_WRONG);
        forward = request();
        forward.remote_addr = with;
        LEFT(ajp13_begin_forward(&lent.building, OUT, &forward), AJP13_STRING_WRONG);
        forward = request();
        forward.remote_host = with;
        LEFT(ajp13_begin_forward(&lent.building, OUT, &forward), AJP13_STRING_WRONG);
        forward = request();
        forward.server_name = with;
        LEFT(ajp13_begin_forward(&lent.building, OUT, &forward), AJP13_STRING_WRONG);
        LEFT(ajp13_begin_send_headers(&lent.building, OUT, 200, with), AJP13_STRING_WRONG);

        begin_forward();
        LEFT(ajp13_header_named(&lent.building, OUT, with, a), AJP13_STRING_WRONG);
        LEFT(ajp13_header_spelled(&lent.building, OUT, with, a), AJP13_STRING_WRONG);
        LEFT(ajp13_header_named(&lent.building, OUT, ajp13_chars("Content-Length"), with), AJP13_STRING_WRONG);
        LEFT(ajp13_header_coded(&lent.building, OUT, 0xA001, with), AJP13_STRING_WRONG);
        LEFT(ajp13_attribute_text(&lent.building, OUT, AJP13_ATTRIBUTE_SSL_CERT, with), AJP13_STRING_WRONG);
        LEFT(ajp13_attribute_pair(&lent.building, OUT, AJP13_ATTRIBUTE_REQ_ATTRIBUTE, with, a), AJP13_STRING_WRONG);
        LEFT(ajp13_attribute_pair(&lent.building, OUT, AJP13_ATTRIBUTE_REQ_ATTRIBUTE, a, with), AJP13_STRING_WRONG);

        /* The same byte put into the buffer behind a piece: closing finds it. */
        IS(ajp13_header_coded(&lent.building, OUT, 0xA001, ajp13_chars("7777")), AJP13_DONE);
        lent.buffer[lent.building.words[AJP13_BUILDING_NEXT] - 3] = barred[i];
        connection(AJP13_STATE_IDLE, 0, 0, 0, 0);
        LEFT(ajp13_close(&lent.connection, &lent.building, OUT, &lent.answer), AJP13_STRING_WRONG);
        text[COUNT(text) - 1 - i * 16] = '7';
    }
    for (i = 0; i < COUNT(others); i++) {
        text[i] = others[i];
        begin_forward();
        LEFT(ajp13_header_spelled(&lent.building, OUT, with, a), AJP13_NAME_WRONG);
        LEFT(ajp13_header_coded(&lent.building, OUT, 0xA008, with), AJP13_CONTENT_LENGTH_WRONG);
        IS(ajp13_header_coded(&lent.building, OUT, 0xA001, with), AJP13_DONE);
        IS(ajp13_attribute_text(&lent.building, OUT, AJP13_ATTRIBUTE_SSL_CERT, with), AJP13_DONE);
    }
    IS(strcmp(ajp13_status_text(AJP13_STRING_WRONG), "bad string, or a zero or a line end in one"), 0);
}

/* Codes and a status above 65535: those of a number that is not listed or out of range. None is cut to 16 bits. */
static void codes(void)
{
    ajp13_string a = ajp13_chars("a");

    LEFT(ajp13_begin_send_headers(&lent.building, OUT, 70000, a), AJP13_OUT_OF_RANGE);
    LEFT(ajp13_begin_send_headers(&lent.building, OUT, 65536 + 200, a), AJP13_OUT_OF_RANGE);
    LEFT(ajp13_begin_send_headers(&lent.building, OUT, 0xFFFFFFFF, a), AJP13_OUT_OF_RANGE);
    LEFT(ajp13_begin_send_headers(&lent.building, OUT, 600, a), AJP13_OUT_OF_RANGE);

    begin_send_headers();
    LEFT(ajp13_header_coded(&lent.building, OUT, 70000, a), AJP13_NAME_WRONG);
    LEFT(ajp13_header_coded(&lent.building, OUT, 0x1A001, a), AJP13_NAME_WRONG);
    LEFT(ajp13_header_coded(&lent.building, OUT, 0xFFFFFFFF, a), AJP13_NAME_WRONG);
    LEFT(ajp13_header_named(&lent.building, OUT, ajp13_null(), a), AJP13_STRING_WRONG);
    LEFT(ajp13_header_named(&lent.building, OUT, ajp13_chars(""), a), AJP13_STRING_WRONG);
    LEFT(ajp13_header_spelled(&lent.building, OUT, ajp13_chars(NULL), a), AJP13_STRING_WRONG);
    LEFT(ajp13_attribute_text(&lent.building, OUT, AJP13_ATTRIBUTE_ROUTE, a), AJP13_RECORD_WRONG);

    begin_forward();
    LEFT(ajp13_header_coded(&lent.building, OUT, 70000, a), AJP13_NAME_WRONG);
    LEFT(ajp13_header_coded(&lent.building, OUT, 0x1A001, a), AJP13_NAME_WRONG);
    LEFT(ajp13_attribute_text(&lent.building, OUT, 70000, a), AJP13_ATTRIBUTE_WRONG);
    LEFT(ajp13_attribute_text(&lent.building, OUT, 65536 + AJP13_ATTRIBUTE_ROUTE, a), AJP13_ATTRIBUTE_WRONG);
    LEFT(ajp13_attribute_text(&lent.building, OUT, AJP13_ATTRIBUTE_SSL_KEY_SIZE, a), AJP13_ATTRIBUTE_WRONG);
    LEFT(ajp13_attribute_integer(&lent.building, OUT, 70000, 1), AJP13_ATTRIBUTE_WRONG);
    LEFT(ajp13_attribute_integer(&lent.building, OUT, 65536 + AJP13_ATTRIBUTE_SSL_KEY_SIZE, 1), AJP13_ATTRIBUTE_WRONG);
    LEFT(ajp13_attribute_pair(&lent.building, OUT, 70000, a, a), AJP13_ATTRIBUTE_WRONG);
    LEFT(ajp13_attribute_pair(&lent.building, OUT, 65536 + AJP13_ATTRIBUTE_REQ_ATTRIBUTE, a, a), AJP13_ATTRIBUTE_WRONG);
    LEFT(ajp13_attribute_pair(&lent.building, OUT, 70000, ajp13_null(), a), AJP13_ATTRIBUTE_WRONG);

    LEFT(ajp13_name(AJP13_LIST_METHODS, 70000, lent.name, AJP13_SIZE_NAME), 0);
    LEFT(ajp13_name(AJP13_LIST_METHODS, 65536 + AJP13_METHOD_GET, lent.name, AJP13_SIZE_NAME), 0);
    LEFT(ajp13_name(AJP13_LIST_REQUEST_HEADERS, 0x1A001, lent.name, AJP13_SIZE_NAME), 0);
    LEFT(ajp13_name(AJP13_LIST_ATTRIBUTES, 0xFFFFFFFF, lent.name, AJP13_SIZE_NAME), 0);
    IS(ajp13_name(AJP13_LIST_METHODS, AJP13_METHOD_GET, lent.name, AJP13_SIZE_NAME), 3);
    IS(memcmp(lent.name, "GET\0\0\0\0\0\0\0\0\0\0\0\0\0", AJP13_SIZE_NAME) == 0, 1);
    IS(ajp13_code(AJP13_LIST_METHODS, BYTES("GET")), AJP13_METHOD_GET);
    IS(ajp13_code(AJP13_LIST_METHODS, BYTES("get")), 0);
}

/* ---- Words of a connection that do not count --------------------------------------------------------------------- */

static void words_that_do_not_count(void)
{
    static const uint8_t cping[] = {0x12, 0x34, 0, 1, 0x0A}, cpong[] = {0x41, 0x42, 0, 1, 0x09};
    const size_t places = AJP13_MAX_PLACES;

    /* Outside Busy only the state is looked at, and a step clears the others. */
    connection(AJP13_STATE_IDLE, 5, 2, 70000, 9);
    IS(ajp13_cping(&lent.connection, OUT, &lent.answer), AJP13_DONE);
    IS(lent.answer.words[AJP13_ANSWER_BYTES], 5);
    IS(memcmp(lent.buffer, cping, sizeof cping) == 0, 1);
    IS(connection_is(AJP13_STATE_PINGED, 0, 0, 0, 0), 1);
    connection(AJP13_STATE_IDLE, 5, 2, 70000, 9);
    IS(ajp13_read_at_container(&lent.connection, cping, sizeof cping, lent.table, places, &lent.answer), AJP13_DONE);
    IS(connection_is(AJP13_STATE_PINGED, 0, 0, 0, 0), 1);
    connection(AJP13_STATE_IDLE, 5, 1, 70000, 1);
    begin_forward();
    IS(ajp13_close(&lent.connection, &lent.building, OUT, &lent.answer), AJP13_DONE);
    IS(connection_is(AJP13_STATE_BUSY, 0, 0, 0, 0), 1);
    connection(AJP13_STATE_PINGED, 5, 2, 70000, 9);
    IS(ajp13_cpong(&lent.connection, OUT, &lent.answer), AJP13_DONE);
    IS(connection_is(AJP13_STATE_IDLE, 0, 0, 0, 0), 1);
    connection(AJP13_STATE_PINGED, 5, 2, 70000, 9);
    IS(ajp13_read_at_server(&lent.connection, cpong, sizeof cpong, lent.table, places, &lent.answer), AJP13_DONE);
    IS(connection_is(AJP13_STATE_IDLE, 0, 0, 0, 0), 1);
    connection(AJP13_STATE_CLOSED, 5, 2, 70000, 9);
    LEFT(ajp13_cping(&lent.connection, OUT, &lent.answer), AJP13_NOT_NOW);

    /* In Busy with no body packet due, asked is not looked at. */
    connection(AJP13_STATE_BUSY, 5, 0, 70000, 1);
    IS(ajp13_body_chunk(&lent.connection, OUT, BYTES("ok"), &lent.answer), AJP13_DONE);
    IS(connection_is(AJP13_STATE_BUSY, 5, 0, 0, 1), 1);
    connection(AJP13_STATE_BUSY, 5, 0, 70000, 0);
    IS(ajp13_get_body(&lent.connection, OUT, 65535, &lent.answer), AJP13_DONE);
    IS(connection_is(AJP13_STATE_BUSY, 5, 1, 65535, 0), 1);
    connection(AJP13_STATE_BUSY, 5, 0, 70000, 1);
    IS(ajp13_end(&lent.connection, OUT, 0, &lent.answer), AJP13_DONE);
    IS(connection_is(AJP13_STATE_CLOSED, 0, 0, 0, 0), 1);

    /* Left may be any number. */
    connection(AJP13_STATE_BUSY, 0xFFFFFFFF, 1, 2, 1);
    IS(ajp13_body(&lent.connection, OUT, BYTES("hi"), &lent.answer), AJP13_DONE);
    IS(connection_is(AJP13_STATE_BUSY, 0xFFFFFFFD, 0, 0, 1), 1);

    /* Outside Busy the mark of a HEAD may be any number too. */
    connection_of_head(AJP13_STATE_IDLE, 5, 9, 70000);
    IS(ajp13_cping(&lent.connection, OUT, &lent.answer), AJP13_DONE);
    IS(connection_is(AJP13_STATE_PINGED, 0, 0, 0, 0), 1);
    connection_of_head(AJP13_STATE_IDLE, 0, 0, 1);
    begin_forward();
    IS(ajp13_close(&lent.connection, &lent.building, OUT, &lent.answer), AJP13_DONE);
    IS(connection_is(AJP13_STATE_BUSY, 0, 0, 0, 0), 1);
}

/* ---- The response to a HEAD -------------------------------------------------------------------------------------- */

static void response_to_head(void)
{
    static const uint8_t full[] = {0x41, 0x42, 0, 5, 3, 0, 1, 'a', 0}, empty[] = {0x41, 0x42, 0, 4, 3, 0, 0, 0};
    static const uint8_t unclosed[] = {0x41, 0x42, 0, 5, 3, 0, 1, 'a', 1}, end[] = {0x41, 0x42, 0, 2, 5, 1};
    static const uint8_t left_over[] = {0x41, 0x42, 0, 6, 3, 0, 1, 'a', 0, 0};
    static const uint8_t cut_short[] = {0x41, 0x42, 0, 5, 3, 0, 2, 'a', 0};
    static const uint8_t chunk[AJP13_MAX_CHUNK + 1] = {0};
    const size_t places = AJP13_MAX_PLACES, method_place = 5;

    /* The mark is that of the method byte in the packet that is closed, and in the one that is read. */
    connection(AJP13_STATE_IDLE, 0, 0, 0, 0);
    begin_forward();
    lent.buffer[method_place] = AJP13_METHOD_HEAD;
    IS(ajp13_close(&lent.connection, &lent.building, OUT, &lent.answer), AJP13_DONE);
    IS(lent.connection.words[AJP13_CONNECTION_HEAD], 1);
    connection(AJP13_STATE_IDLE, 0, 0, 0, 0);
    IS(ajp13_read_at_container(&lent.connection, lent.buffer, lent.answer.words[AJP13_ANSWER_BYTES], lent.table, places,
                               &lent.answer), AJP13_DONE);
    IS(lent.connection.words[AJP13_CONNECTION_HEAD], 1);

    /* A chunk with bytes is refused before its length and the buffer are looked at; an empty one goes. */
    connection_of_head(AJP13_STATE_BUSY, 0, 1, 1);
    LEFT(ajp13_body_chunk(&lent.connection, OUT, BYTES("ok"), &lent.answer), AJP13_BODY_SIZE_WRONG);
    LEFT(ajp13_body_chunk(&lent.connection, lent.buffer, 0, BYTES("ok"), &lent.answer), AJP13_BODY_SIZE_WRONG);
    LEFT(ajp13_body_chunk(&lent.connection, OUT, chunk, sizeof chunk, &lent.answer), AJP13_BODY_SIZE_WRONG);
    IS(ajp13_body_chunk(&lent.connection, OUT, chunk, 0, &lent.answer), AJP13_DONE);
    IS(memcmp(lent.buffer, empty, sizeof empty) == 0, 1);
    IS(lent.connection.words[AJP13_CONNECTION_HEAD], 1);
    connection_of_head(AJP13_STATE_BUSY, 0, 0, 1);
    LEFT(ajp13_body_chunk(&lent.connection, OUT, BYTES("ok"), &lent.answer), AJP13_NOT_NOW);

    /* Where one is read, its fields are looked at first. */
    connection_of_head(AJP13_STATE_BUSY, 0, 1, 1);
    LEFT(ajp13_read_at_server(&lent.connection, full, sizeof full, lent.table, places, &lent.answer),
         AJP13_BODY_SIZE_WRONG);
    LEFT(ajp13_read_at_server(&lent.connection, unclosed, sizeof unclosed, lent.table, places, &lent.answer),
         AJP13_STRING_WRONG);
    LEFT(ajp13_read_at_server(&lent.connection, left_over, sizeof left_over, lent.table, places, &lent.answer),
         AJP13_LEFT_OVER);
    LEFT(ajp13_read_at_server(&lent.connection, cut_short, sizeof cut_short, lent.table, places, &lent.answer),
         AJP13_CUT_SHORT);
    IS(ajp13_read_at_server(&lent.connection, empty, sizeof empty, lent.table, places, &lent.answer), AJP13_DONE);
    IS(ajp13_read_at_server(&lent.connection, end, sizeof end, lent.table, places, &lent.answer), AJP13_DONE);
    IS(connection_is(AJP13_STATE_IDLE, 0, 0, 0, 0), 1);
}

/* ---- Errors ------------------------------------------------------------------------------------------------------ */

/* Each of the calls that take a connection and an answer, over words. */
enum { CALLS = 9 };

static uint32_t call(int number, uint32_t *c, size_t c_length, uint32_t *a, size_t a_length)
{
    static const uint8_t packet[] = {0x12, 0x34, 0, 1, 0x0A};

    switch (number) {
    case 0: return ajp13_words_read_at_container(c, c_length, packet, 5, lent.table, COUNT(lent.table), a, a_length);
    case 1: return ajp13_words_read_at_server(c, c_length, packet, 5, lent.table, COUNT(lent.table), a, a_length);
    case 2: return ajp13_words_cping(c, c_length, OUT, a, a_length);
    case 3: return ajp13_words_cpong(c, c_length, OUT, a, a_length);
    case 4: return ajp13_words_body(c, c_length, OUT, packet, 5, a, a_length);
    case 5: return ajp13_words_body_chunk(c, c_length, OUT, packet, 5, a, a_length);
    case 6: return ajp13_words_get_body(c, c_length, OUT, 5, a, a_length);
    case 7: return ajp13_words_end(c, c_length, OUT, 1, a, a_length);
    default: return ajp13_words_close(c, c_length, lent.building.words, AJP13_SIZE_BUILDING, OUT, a, a_length);
    }
}

/* A connection with a word out of range: the error of every call, before all else. */
static void out_of_range(void)
{
    int i;

    begin_forward();
    for (i = 0; i < CALLS; i++)
        LEFT(call(i, lent.connection.words, AJP13_SIZE_CONNECTION, lent.answer.words, AJP13_SIZE_ANSWER),
             AJP13_ERROR_CONNECTION_WORD);
    LEFT(ajp13_largest_body(&lent.connection), AJP13_ERROR_CONNECTION_WORD);
    LEFT(ajp13_get_body(&lent.connection, OUT, 70000, &lent.answer), AJP13_ERROR_CONNECTION_WORD);
    lent.building.words[AJP13_BUILDING_KIND] = 0;
    LEFT(ajp13_close(&lent.connection, &lent.building, OUT, &lent.answer), AJP13_ERROR_CONNECTION_WORD);
}

static void connections_out_of_range(void)
{
    uint32_t state, position;

    connection(4, 0, 0, 0, 0);
    out_of_range();
    connection(9, 0, 0, 0, 0);
    out_of_range();
    connection(0xFFFFFFFF, 0, 0, 0, 0);
    out_of_range();
    connection_of_head(AJP13_STATE_BUSY, 0, 0, 2);
    out_of_range();
    connection_of_head(AJP13_STATE_BUSY, 0, 1, 0xFFFFFFFF);
    out_of_range();
    for (state = AJP13_STATE_IDLE; state <= AJP13_STATE_CLOSED; state++)
        for (position = AJP13_CONNECTION_EDITION; position <= AJP13_CONNECTION_OPEN; position++) {
            connection(state, 0, 0, 0, 0);
            lent.connection.words[position] = 1;
            out_of_range();
        }
    connection(AJP13_STATE_BUSY, 5, 1, 70000, 1);
    out_of_range();
    connection(AJP13_STATE_BUSY, 5, 1, 65536, 0);
    out_of_range();
    connection(AJP13_STATE_BUSY, 5, 2, 5, 1);
    out_of_range();
    connection(AJP13_STATE_BUSY, 5, 0, 0, 2);
    out_of_range();
    connection(AJP13_STATE_BUSY, 5, 1, 5, 9);
    out_of_range();
}

/* Arrays of the wrong length, through the calls over words. */
static void lengths(void)
{
    static const size_t connections[] = {0, 5, 7, 9}, answers[] = {0, 13, 15, 17}, buildings[] = {0, 4, 6};
    static const size_t fixeds[] = {0, 7, 9}, texts[] = {0, 2, 4}, names[] = {0, 16, 18};
    static const uint32_t fixed[AJP13_SIZE_FIXED + 1] = {AJP13_METHOD_GET, 80, 0, 0, 0, 0, 0, 0, 0};
    uint32_t *c = lent.connection_words, *b = lent.building_words, *a = lent.answer_words, *t = lent.text_words;
    size_t i, j;
    int k;

    begin_forward();
    memcpy(b, lent.building.words, sizeof lent.building.words);
    for (i = 0; i < COUNT(connections); i++) {
        LEFT(ajp13_words_fresh(c, connections[i]), AJP13_ERROR_CONNECTION_LENGTH);
        LEFT(ajp13_words_largest_body(c, connections[i]), AJP13_ERROR_CONNECTION_LENGTH);
        for (k = 0; k < CALLS; k++) {
            LEFT(call(k, c, connections[i], a, AJP13_SIZE_ANSWER), AJP13_ERROR_CONNECTION_LENGTH);
            LEFT(call(k, c, connections[i], a, 13), AJP13_ERROR_CONNECTION_LENGTH);
        }
    }
    for (i = 0; i < COUNT(answers); i++)
        for (k = 0; k < CALLS; k++)
            LEFT(call(k, c, AJP13_SIZE_CONNECTION, a, answers[i]), AJP13_ERROR_ANSWER_LENGTH);
    for (i = 0; i < COUNT(buildings); i++) {
        size_t n = buildings[i];

        LEFT(ajp13_words_begin_forward(b, n, OUT, fixed, 7, BYTES("HTTP/1.1"), BYTES("/"), BYTES(""), BYTES(""),
                                       BYTES("")), AJP13_ERROR_BUILDING_LENGTH);
        LEFT(ajp13_words_begin_send_headers(b, n, OUT, 200, BYTES("OK"), 2), AJP13_ERROR_BUILDING_LENGTH);
        LEFT(ajp13_words_header_coded(b, n, OUT, 0xA001, BYTES("a"), 2), AJP13_ERROR_BUILDING_LENGTH);
        LEFT(ajp13_words_header_spelled(b, n, OUT, BYTES("a"), 2, BYTES("a"), 0), AJP13_ERROR_BUILDING_LENGTH);
        LEFT(ajp13_words_header_named(b, n, OUT, BYTES("a"), BYTES("a"), 2), AJP13_ERROR_BUILDING_LENGTH);
        LEFT(ajp13_words_attribute_text(b, n, OUT, 3, BYTES("a"), 2), AJP13_ERROR_BUILDING_LENGTH);
        LEFT(ajp13_words_attribute_integer(b, n, OUT, 11, 70000), AJP13_ERROR_BUILDING_LENGTH);
        LEFT(ajp13_words_attribute_pair(b, n, OUT, 10, BYTES("a"), 0, BYTES("a"), 2), AJP13_ERROR_BUILDING_LENGTH);
        LEFT(ajp13_words_close(c, AJP13_SIZE_CONNECTION, b, n, OUT, a, 13), AJP13_ERROR_BUILDING_LENGTH);
        for (j = 0; j < COUNT(connections); j++)
            LEFT(ajp13_words_close(c, connections[j], b, n, OUT, a, 13), AJP13_ERROR_CONNECTION_LENGTH);
    }
    for (i = 0; i < COUNT(fixeds); i++)
        LEFT(ajp13_words_begin_forward(b, AJP13_SIZE_BUILDING, OUT, fixed, fixeds[i], BYTES("HTTP/1.1"), BYTES("/"),
                                       BYTES(""), BYTES(""), BYTES("")), AJP13_ERROR_FIXED_LENGTH);
    for (i = 0; i < COUNT(texts); i++) {
        LEFT(ajp13_words_text_at(BYTES("\0\1a"), 0, t, texts[i]), AJP13_ERROR_ANSWER_LENGTH);
        LEFT(ajp13_words_attribute_name_at(BYTES("\n\0\1a"), 70000, t, texts[i]), AJP13_ERROR_ANSWER_LENGTH);
    }
    for (i = 0; i < COUNT(names); i++)
        LEFT(ajp13_name(4, AJP13_METHOD_GET, lent.name, names[i]), AJP13_ERROR_ANSWER_LENGTH);
}

/* Arguments whose numbers out of range are errors, and a building record with a word out of range. */
static void arguments(void)
{
    ajp13_string a = ajp13_chars("a"), bad = ajp13_chars("a");
    ajp13_forward forward = request();

    bad.null = 2;
    connection(AJP13_STATE_IDLE, 0, 0, 0, 0);
    LEFT(ajp13_get_body(&lent.connection, OUT, 65536, &lent.answer), AJP13_ERROR_ARGUMENT);
    LEFT(ajp13_get_body(&lent.connection, OUT, 65535, &lent.answer), AJP13_NOT_NOW);
    LEFT(ajp13_begin_send_headers(&lent.building, OUT, 70000, bad), AJP13_ERROR_ARGUMENT);
    forward.server_port = 65536;
    LEFT(ajp13_begin_forward(&lent.building, OUT, &forward), AJP13_ERROR_FIXED_WORD);
    forward = request();
    forward.method = 70000;
    forward.remote_host = bad;
    LEFT(ajp13_begin_forward(&lent.building, OUT, &forward), AJP13_ERROR_FIXED_WORD);

    begin_forward();
    LEFT(ajp13_header_coded(&lent.building, OUT, 70000, bad), AJP13_ERROR_ARGUMENT);
    LEFT(ajp13_header_spelled(&lent.building, OUT, bad, a), AJP13_ERROR_ARGUMENT);
    LEFT(ajp13_header_spelled(&lent.building, OUT, a, bad), AJP13_ERROR_ARGUMENT);
    LEFT(ajp13_header_named(&lent.building, OUT, bad, a), AJP13_ERROR_ARGUMENT);
    LEFT(ajp13_header_named(&lent.building, OUT, a, bad), AJP13_ERROR_ARGUMENT);
    LEFT(ajp13_attribute_text(&lent.building, OUT, 70000, bad), AJP13_ERROR_ARGUMENT);
    LEFT(ajp13_attribute_integer(&lent.building, OUT, 70000, 65536), AJP13_ERROR_ARGUMENT);
    LEFT(ajp13_attribute_pair(&lent.building, OUT, AJP13_ATTRIBUTE_REQ_ATTRIBUTE, bad, a), AJP13_ERROR_ARGUMENT);
    LEFT(ajp13_attribute_pair(&lent.building, OUT, AJP13_ATTRIBUTE_REQ_ATTRIBUTE, a, bad), AJP13_ERROR_ARGUMENT);
    lent.building.words[AJP13_BUILDING_ATTRIBUTES] = 2;
    LEFT(ajp13_header_coded(&lent.building, OUT, 0xA001, bad), AJP13_ERROR_BUILDING_WORD);
    LEFT(ajp13_close(&lent.connection, &lent.building, OUT, &lent.answer), AJP13_ERROR_BUILDING_WORD);
    begin_forward();
    lent.building.words[AJP13_BUILDING_KIND] = AJP13_KIND_BODY;
    LEFT(ajp13_attribute_text(&lent.building, OUT, 70000, bad), AJP13_ERROR_BUILDING_WORD);
    LEFT(ajp13_close(&lent.connection, &lent.building, OUT, &lent.answer), AJP13_ERROR_BUILDING_WORD);

    LEFT(ajp13_text_at(BYTES("\0\1a"), 65536, &lent.text), AJP13_ERROR_ARGUMENT);
    LEFT(ajp13_attribute_name_at(BYTES("\n\0\1a"), 65536, &lent.text), AJP13_ERROR_ARGUMENT);
    LEFT(ajp13_integer_at(BYTES("\0\1"), 65536), AJP13_ERROR_ARGUMENT);
    LEFT(ajp13_header_code_at(BYTES("\0\1"), 65536), AJP13_ERROR_ARGUMENT);
    LEFT(ajp13_attribute_code_at(BYTES("\0\1"), 65536), AJP13_ERROR_ARGUMENT);
    LEFT(ajp13_attribute_kind_at(BYTES("\0\1"), 65536), AJP13_ERROR_ARGUMENT);
    LEFT(ajp13_name(4, 1, lent.name, AJP13_SIZE_NAME), AJP13_ERROR_ARGUMENT);
    LEFT(ajp13_code(4, BYTES("GET")), AJP13_ERROR_ARGUMENT);
}

/* ---- The largest body packet ------------------------------------------------------------------------------------- */

static void largest(void)
{
    static const struct {
        uint32_t state, left, due, asked, largest;
    } rows[] = {
        {AJP13_STATE_IDLE, 0, 0, 0, 0},
        {AJP13_STATE_IDLE, 10, 1, 10, 0},
        {AJP13_STATE_IDLE, 10, 2, 70000, 0},
        {AJP13_STATE_PINGED, 10, 1, 10, 0},
        {AJP13_STATE_CLOSED, 10, 1, 10, 0},
        {AJP13_STATE_BUSY, 10, 0, 10, 0},
        {AJP13_STATE_BUSY, 10, 0, 70000, 0},
        {AJP13_STATE_BUSY, 10, 1, 8186, 10},
        {AJP13_STATE_BUSY, 10, 1, 4, 4},
        {AJP13_STATE_BUSY, 10, 1, 0, 0},
        {AJP13_STATE_BUSY, 0, 1, 8186, 0},
        {AJP13_STATE_BUSY, 8186, 1, 65535, 8186},
        {AJP13_STATE_BUSY, 8187, 1, 8187, 8186},
        {AJP13_STATE_BUSY, 0xFFFFFFFF, 1, 65535, 8186},
        {AJP13_STATE_BUSY, 65536, 1, 3, 3},
        {AJP13_STATE_BUSY, 65536, 1, 65536, AJP13_ERROR_CONNECTION_WORD}
    };
    static const uint8_t bytes[AJP13_MAX_BODY + 1] = {0};
    size_t i;

    for (i = 0; i < COUNT(rows); i++) {
        uint32_t most = rows[i].largest;

        connection(rows[i].state, rows[i].left, rows[i].due, rows[i].asked, 0);
        LEFT(ajp13_largest_body(&lent.connection), most);
        if (rows[i].state != AJP13_STATE_BUSY || rows[i].due == 0 || ajp13_is_error(most))
            continue;

        /* One byte more is refused, none is where some may go, and so many go. */
        LEFT(ajp13_body(&lent.connection, OUT, bytes, most + 1, &lent.answer), AJP13_BODY_SIZE_WRONG);
        if (most > 0)
            LEFT(ajp13_body(&lent.connection, OUT, bytes, 0, &lent.answer), AJP13_BODY_SIZE_WRONG);
        IS(ajp13_body(&lent.connection, OUT, bytes, most, &lent.answer), AJP13_DONE);
        IS(connection_is(AJP13_STATE_BUSY, rows[i].left - most, 0, 0, 0), 1);
    }
}

static uint32_t at_container(const uint8_t *bytes, size_t size)
{
    return ajp13_read_at_container(&lent.connection, bytes, size, lent.table, AJP13_MAX_PLACES, &lent.answer);
}

/* The two forms of an empty body packet: one answer but for the bytes taken, and only the short one is written. */
static void empty_bodies(void)
{
    static const uint8_t shorter[] = {0x12, 0x34, 0, 0}, longer[] = {0x12, 0x34, 0, 2, 0, 0, 0x12};
    static const uint8_t byte_behind[] = {0x12, 0x34, 0, 3, 0, 0, 'a'};
    static const struct {
        const uint8_t *bytes;
        size_t size;
        uint32_t taken, none_due;
    } rows[] = {
        {shorter, sizeof shorter, 4, AJP13_CUT_SHORT},
        {longer, sizeof longer, 6, AJP13_CODE_WRONG},
    };
    ajp13_answer empty;
    size_t i;

    for (i = 0; i < COUNT(rows); i++) {
        connection(AJP13_STATE_BUSY, 5, 1, 0, 1);
        memset(&lent.answer, 0x5A, sizeof lent.answer);
        memset(&empty, 0, sizeof empty);
        empty.words[AJP13_ANSWER_KIND] = AJP13_KIND_BODY;
        empty.words[AJP13_ANSWER_BYTES] = rows[i].taken;
        empty.words[AJP13_ANSWER_START] = 4;
        keep();
        IS(at_container(rows[i].bytes, rows[i].size), AJP13_DONE);
        IS(memcmp(&lent.answer, &empty, sizeof empty) == 0, 1);
        IS(memcmp(lent.table, before.table, sizeof lent.table) == 0, 1);
        IS(connection_is(AJP13_STATE_BUSY, 5, 0, 0, 1), 1);
        connection(AJP13_STATE_BUSY, 5, 1, 1, 1);
        LEFT(at_container(rows[i].bytes, rows[i].size), AJP13_BODY_SIZE_WRONG);
        connection(AJP13_STATE_BUSY, 5, 0, 0, 1);
        LEFT(at_container(rows[i].bytes, rows[i].size), rows[i].none_due);
        connection(AJP13_STATE_IDLE, 0, 0, 0, 0);
        LEFT(at_container(rows[i].bytes, rows[i].size), rows[i].none_due);
    }
    LEFT(at_container(byte_behind, sizeof byte_behind), AJP13_CODE_WRONG);
    connection(AJP13_STATE_BUSY, 5, 1, 0, 1);
    LEFT(at_container(byte_behind, sizeof byte_behind), AJP13_LEFT_OVER);
    memset(lent.buffer, 0x5A, sizeof lent.buffer);
    IS(ajp13_body(&lent.connection, OUT, NULL, 0, &lent.answer), AJP13_DONE);
    IS(lent.answer.words[AJP13_ANSWER_BYTES], sizeof shorter);
    IS(memcmp(lent.buffer, shorter, sizeof shorter) == 0, 1);
    IS(lent.buffer[sizeof shorter], 0x5A);
}

/* ---- Views and strings ------------------------------------------------------------------------------------------- */

static void text_is(int line, uint32_t start, uint32_t length, uint32_t null)
{
    look(line, "start", lent.text.words[AJP13_TEXT_START], start, 0);
    look(line, "length", lent.text.words[AJP13_TEXT_LENGTH], length, 0);
    look(line, "null", lent.text.words[AJP13_TEXT_NULL], null, 0);
}

static void texts(void)
{
    static const struct {
        const char *bytes;
        size_t size;
        uint32_t place, start, length, null;
    } rows[] = {
        {"\0\2hi\0", 5, 0, 2, 2, 0},
        {"\0\5hi\0", 5, 0, 2, 3, 0},           /* cut at the packet's end */
        {"\xA0\1hi\0", 5, 0, 2, 3, 0},         /* a code is a length that runs past the end */
        {"\0\2", 2, 0, 2, 0, 0},               /* none of its bytes are there */
        {"\0\0\0", 3, 0, 2, 0, 0},             /* empty */
        {"\xFF\xFF", 2, 0, 2, 0, 1},           /* null */
        {"\xFF\xFFhi", 4, 0, 2, 0, 1},
        {"\xFF\xFE", 2, 0, 2, 0, 0},
        {"\0\2hi\0", 5, 4, 5, 0, 0},           /* half of a length */
        {"\0\2hi\0", 5, 5, 5, 0, 0},           /* at the end */
        {"\0\2hi\0", 5, 65535, 5, 0, 0},       /* past the end */
        {"", 0, 0, 0, 0, 0}
    };
    uint8_t one_more[8];
    size_t i;

    for (i = 0; i < COUNT(rows); i++) {
        IS(ajp13_text_at((const uint8_t *)rows[i].bytes, rows[i].size, rows[i].place, &lent.text), AJP13_DONE);
        text_is(__LINE__, rows[i].start, rows[i].length, rows[i].null);

        /* The name of an attribute is the string behind its code. */
        one_more[0] = AJP13_ATTRIBUTE_REQ_ATTRIBUTE;
        memcpy(one_more + 1, rows[i].bytes, rows[i].size);
        IS(ajp13_attribute_name_at(one_more, rows[i].size + 1, rows[i].place, &lent.text), AJP13_DONE);
        text_is(__LINE__, rows[i].start + 1, rows[i].length, rows[i].null);
    }
}

/* Strings without a pointer: the empty one, and the null one. */
static void strings(void)
{
    static const uint8_t empty[] = {0xA0, 1, 0, 0, 0}, null[] = {0xA0, 2, 0xFF, 0xFF};
    ajp13_string none;

    none.bytes = NULL;
    none.length = 5;
    none.null = 0;
    begin_send_headers();
    IS(ajp13_header_coded(&lent.building, OUT, 0xA001, none), AJP13_DONE);
    IS(ajp13_header_coded(&lent.building, OUT, 0xA002, ajp13_chars(NULL)), AJP13_DONE);
    IS(memcmp(lent.buffer + 14, empty, sizeof empty) == 0, 1);
    IS(memcmp(lent.buffer + 14 + sizeof empty, null, sizeof null) == 0, 1);
    none.null = 1;
    IS(ajp13_header_coded(&lent.building, OUT, 0xA002, none), AJP13_DONE);
    LEFT(ajp13_header_named(&lent.building, OUT, none, none), AJP13_STRING_WRONG);
}

static void statuses(void)
{
    IS(ajp13_is_refusal(AJP13_DONE), 0);
    IS(ajp13_is_refusal(AJP13_LEADING_WRONG), 1);
    IS(ajp13_is_refusal(65535), 1);
    IS(ajp13_is_refusal(AJP13_NEEDS), 0);
    IS(ajp13_is_refusal(AJP13_ERROR_ARGUMENT), 0);
    IS(ajp13_is_error(AJP13_DONE), 0);
    IS(ajp13_is_error(AJP13_RECORD_WRONG), 0);
    IS(ajp13_is_error(AJP13_NEEDS), 0);
    IS(ajp13_is_error(AJP13_ERROR_CONNECTION_LENGTH), 1);
    IS(ajp13_is_error(AJP13_ERROR_ARGUMENT), 1);
    IS(ajp13_is_refusal(AJP13_CAPTURE_TOO_LONG), 1);
    IS(ajp13_is_error(AJP13_ERROR_CHECKING_WORD), 1);
    IS(strcmp(ajp13_status_text(AJP13_UNFINISHED_PACKET), "unfinished packet"), 0);
    IS(strcmp(ajp13_status_text(AJP13_ERROR_CHECKING_WORD + 1), "no such status"), 0);
    IS(strcmp(ajp13_state_text(AJP13_STATE_IDLE), "idle"), 0);
    IS(strcmp(ajp13_state_text(AJP13_STATE_PINGED), "pinged"), 0);
    IS(strcmp(ajp13_state_text(AJP13_STATE_BUSY), "busy"), 0);
    IS(strcmp(ajp13_state_text(AJP13_STATE_CLOSED), "closed"), 0);
    IS(strcmp(ajp13_state_text(AJP13_STATE_CLOSED + 1), "no such state"), 0);
}

/* ---- Captures ---------------------------------------------------------------------------------------------------- */

/* CPing and CPong. */
static const uint8_t both[] = {0x12, 0x34, 0, 1, 0x0A, 0x41, 0x42, 0, 1, 0x09};

/* A check on the way with the connection of lent.connection. */
static void checking(uint32_t packets, uint32_t requests, uint32_t body, uint32_t place, uint32_t refusal)
{
    memset(&lent.checking, 0, sizeof lent.checking);
    memcpy(lent.checking.words, lent.connection.words, sizeof lent.connection.words);
    lent.checking.words[AJP13_CHECKING_PACKETS] = packets;
    lent.checking.words[AJP13_CHECKING_REQUESTS] = requests;
    lent.checking.words[AJP13_CHECKING_BODY] = body;
    lent.checking.words[AJP13_CHECKING_PLACE] = place;
    lent.checking.words[AJP13_CHECKING_REFUSAL] = refusal;
}

static int checking_is(uint32_t state, uint32_t packets, uint32_t place, uint32_t refusal)
{
    const uint32_t words[AJP13_SIZE_CHECKING] = {state, 0, 0, 0, 0, 0, 0, 0, packets, 0, 0, place, refusal, 0, 0, 0};

    return memcmp(words, lent.checking.words, sizeof words) == 0;
}

static int checked_is(uint32_t packets, uint32_t requests, uint32_t body, uint32_t state, uint32_t refusal,
                      uint32_t place)
{
    const uint32_t words[AJP13_SIZE_CHECKED] = {packets, requests, body, state, refusal, place, 0, 0};

    return memcmp(words, lent.checked.words, sizeof words) == 0;
}

/* A capture as a whole, and in parts of one byte each. */
static void captures(void)
{
    size_t i, there = 0;

    IS(ajp13_check(both, sizeof both, &lent.checked), AJP13_DONE);
    IS(checked_is(2, 0, 0, AJP13_STATE_IDLE, 0, 10), 1);
    IS(ajp13_check(both, 9, &lent.checked), AJP13_DONE);
    IS(checked_is(1, 0, 0, AJP13_STATE_PINGED, AJP13_UNFINISHED_PACKET, 5), 1);
    IS(ajp13_check(both + 5, 5, &lent.checked), AJP13_DONE);
    IS(checked_is(0, 0, 0, AJP13_STATE_IDLE, AJP13_NOT_NOW, 0), 1);
    IS(ajp13_check(BYTES("GET /"), &lent.checked), AJP13_DONE);
    IS(checked_is(0, 0, 0, AJP13_STATE_IDLE, AJP13_LEADING_WRONG, 0), 1);
    IS(ajp13_check(both, 0, &lent.checked), AJP13_DONE);
    IS(checked_is(0, 0, 0, AJP13_STATE_IDLE, 0, 0), 1);

    memset(&lent.checking, 0x5A, sizeof lent.checking);
    IS(ajp13_check_begin(&lent.checking), AJP13_DONE);
    IS(checking_is(AJP13_STATE_IDLE, 0, 0, 0), 1);
    for (i = 0; i < sizeof both; i++) {
        there++;
        IS(ajp13_check_go_on(&lent.checking, both + i + 1 - there, there, &lent.taken), AJP13_DONE);
        IS(lent.taken, there == 5 ? 5 : 0);
        there -= lent.taken;
        IS(ajp13_check_finish(&lent.checking, i + 1, &lent.checked), AJP13_DONE);
        IS(lent.checked.words[AJP13_CHECKED_REFUSAL], there == 0 ? 0 : AJP13_UNFINISHED_PACKET);
        IS(lent.checked.words[AJP13_CHECKED_PLACE], i + 1 - there);
    }
    IS(checking_is(AJP13_STATE_IDLE, 2, 10, 0), 1);
}

/* A check that has a refusal stays as it is, and the refusal is the answer for any size. */
static void checks_that_stay(void)
{
    static const uint64_t sizes[] = {0, 5, 10, AJP13_MAX_CAPTURE, UINT64_C(0x100000000), UINT64_MAX};
    uint32_t refusal;
    size_t i;

    IS(ajp13_check_begin(&lent.checking), AJP13_DONE);
    IS(ajp13_check_go_on(&lent.checking, both, 5, &lent.taken), AJP13_DONE);
    IS(lent.taken, 5);
    IS(ajp13_check_go_on(&lent.checking, both, sizeof both, &lent.taken), AJP13_DONE);
    IS(lent.taken, 0);
    IS(checking_is(AJP13_STATE_PINGED, 1, 5, AJP13_NOT_NOW), 1);
    LEFT(ajp13_check_go_on(&lent.checking, both + 5, 5, &lent.taken), AJP13_DONE);
    for (refusal = AJP13_LEADING_WRONG; refusal <= AJP13_CAPTURE_TOO_LONG; refusal++) {
        lent.taken = 0;
        lent.checking.words[AJP13_CHECKING_REFUSAL] = refusal;
        LEFT(ajp13_check_go_on(&lent.checking, both + 5, 5, &lent.taken), AJP13_DONE);
        for (i = 0; i < COUNT(sizes); i++) {
            IS(ajp13_check_finish(&lent.checking, sizes[i], &lent.checked), AJP13_DONE);
            IS(checked_is(1, 0, 0, AJP13_STATE_PINGED, refusal, 5), 1);
        }
    }

    /* Words of its connection that do not count stay as well, or are brought into range, until a packet is taken. */
    connection(AJP13_STATE_IDLE, 5, 2, 70000, 9);
    checking(1, 0, 0, 10, 0);
    IS(ajp13_check_go_on(&lent.checking, both, 0, &lent.taken), AJP13_DONE);
    memcpy(lent.connection.words, lent.checking.words, sizeof lent.connection.words);
    IS(connection_is(AJP13_STATE_IDLE, 5, 0, 65535, 0), 1);
    LEFT(ajp13_check_go_on(&lent.checking, both, 4, &lent.taken), AJP13_DONE);
    IS(ajp13_check_go_on(&lent.checking, both, 5, &lent.taken), AJP13_DONE);
    IS(checking_is(AJP13_STATE_PINGED, 2, 15, 0), 1);
}

/* Captures of the most bytes and of more; what stands behind the most is not looked at. */
static void checks_at_the_most_bytes(void)
{
    const uint32_t most = AJP13_MAX_CAPTURE;
    const uint64_t more = (uint64_t)most + 1;
    uint32_t room;

    IS(ajp13_check_begin(&lent.checking), AJP13_DONE);
    IS(ajp13_check_finish(&lent.checking, 0, &lent.checked), AJP13_DONE);
    IS(checked_is(0, 0, 0, AJP13_STATE_IDLE, 0, 0), 1);
    IS(ajp13_check_finish(&lent.checking, 1, &lent.checked), AJP13_DONE);
    IS(checked_is(0, 0, 0, AJP13_STATE_IDLE, AJP13_UNFINISHED_PACKET, 0), 1);
    IS(ajp13_check_finish(&lent.checking, most, &lent.checked), AJP13_DONE);
    IS(checked_is(0, 0, 0, AJP13_STATE_IDLE, AJP13_UNFINISHED_PACKET, 0), 1);
    IS(ajp13_check_finish(&lent.checking, more, &lent.checked), AJP13_DONE);
    IS(checked_is(0, 0, 0, AJP13_STATE_IDLE, AJP13_CAPTURE_TOO_LONG, most), 1);

    /* CPing and CPong over and over: the last CPing has just room. */
    connection(AJP13_STATE_IDLE, 0, 0, 0, 0);
    checking(858993458, 0, 0, most - 5, 0);
    IS(ajp13_check_go_on(&lent.checking, both, sizeof both, &lent.taken), AJP13_DONE);
    IS(lent.taken, 5);
    IS(checking_is(AJP13_STATE_PINGED, 858993459, most, 0), 1);
    lent.taken = 0;
    LEFT(ajp13_check_go_on(&lent.checking, both + 5, 5, &lent.taken), AJP13_DONE);
    LEFT(ajp13_check_go_on(&lent.checking, BYTES("GET /"), &lent.taken), AJP13_DONE);
    IS(ajp13_check_finish(&lent.checking, most, &lent.checked), AJP13_DONE);
    IS(checked_is(858993459, 0, 0, AJP13_STATE_PINGED, 0, most), 1);
    IS(ajp13_check_finish(&lent.checking, more, &lent.checked), AJP13_DONE);
    IS(checked_is(858993459, 0, 0, AJP13_STATE_PINGED, AJP13_CAPTURE_TOO_LONG, most), 1);
    IS(ajp13_check_finish(&lent.checking, UINT64_MAX, &lent.checked), AJP13_DONE);
    IS(checked_is(858993459, 0, 0, AJP13_STATE_PINGED, AJP13_CAPTURE_TOO_LONG, most), 1);

    /* It has no room: it is not whole, whatever follows. */
    for (room = 1; room < 5; room++) {
        checking(7, 1, 2, most - room, 0);
        LEFT(ajp13_check_go_on(&lent.checking, both, sizeof both, &lent.taken), AJP13_DONE);
        IS(ajp13_check_finish(&lent.checking, most, &lent.checked), AJP13_DONE);
        IS(checked_is(7, 1, 2, AJP13_STATE_IDLE, AJP13_UNFINISHED_PACKET, most - room), 1);
        IS(ajp13_check_finish(&lent.checking, more, &lent.checked), AJP13_DONE);
        IS(checked_is(7, 1, 2, AJP13_STATE_IDLE, AJP13_CAPTURE_TOO_LONG, most), 1);
    }

    /* A fault before the most bytes is told, and one behind them is not. */
    checking(7, 0, 0, most - 1, 0);
    LEFT(ajp13_check_go_on(&lent.checking, BYTES("\x12\x35"), &lent.taken), AJP13_DONE);
    checking(7, 0, 0, most - 2, 0);
    IS(ajp13_check_go_on(&lent.checking, BYTES("\x12\x35"), &lent.taken), AJP13_DONE);
    IS(checking_is(AJP13_STATE_IDLE, 7, most - 2, AJP13_LEADING_WRONG), 1);
    IS(ajp13_check_finish(&lent.checking, more, &lent.checked), AJP13_DONE);
    IS(checked_is(7, 0, 0, AJP13_STATE_IDLE, AJP13_LEADING_WRONG, most - 2), 1);
}

/* A check on the way with a word out of range: the error of both calls that are given one, and nothing is written. */
static void check_out_of_range(void)
{
    uint32_t *c = lent.checking.words;

    LEFT(ajp13_check_go_on(&lent.checking, both, sizeof both, &lent.taken), AJP13_ERROR_CHECKING_WORD);
    LEFT(ajp13_check_finish(&lent.checking, 10, &lent.checked), AJP13_ERROR_CHECKING_WORD);
    LEFT(ajp13_words_check_finish(c, AJP13_SIZE_CHECKING, 10, lent.checked_words, 7), AJP13_ERROR_ANSWER_LENGTH);
}

static void checks_out_of_range(void)
{
    static const uint32_t refusals[] = {19, 255, 256, 65536 + AJP13_NOT_NOW, 0xFFFFFFFF};
    uint32_t position;
    size_t i;

    lent.taken = 0x5A;
    connection(AJP13_STATE_IDLE, 0, 0, 0, 0);
    for (position = AJP13_CHECKING_PACKETS; position <= AJP13_CHECKING_BODY; position++) {
        checking(10, 10, 10, 10, 0);
        lent.checking.words[position] = 11;
        check_out_of_range();
        checking(0, 0, 0, 0, AJP13_NOT_NOW);
        lent.checking.words[position] = 1;
        check_out_of_range();
    }
    for (i = 0; i < COUNT(refusals); i++) {
        checking(1, 0, 0, 10, refusals[i]);
        check_out_of_range();
    }
    for (position = AJP13_CHECKING_REFUSAL + 1; position < AJP13_SIZE_CHECKING; position++) {
        checking(1, 0, 0, 10, 0);
        lent.checking.words[position] = 1;
        check_out_of_range();
    }
    connection(4, 0, 0, 0, 0);
    checking(1, 0, 0, 10, 0);
    check_out_of_range();
    connection(AJP13_STATE_BUSY, 5, 2, 5, 0);
    checking(1, 0, 0, 10, 0);
    check_out_of_range();
    connection(AJP13_STATE_BUSY, 5, 1, 65536, 0);
    checking(1, 0, 0, 10, 0);
    check_out_of_range();
    connection(AJP13_STATE_BUSY, 5, 0, 0, 2);
    checking(1, 0, 0, 10, 0);
    check_out_of_range();
    connection_of_head(AJP13_STATE_BUSY, 0, 1, 2);
    checking(1, 0, 0, 10, 0);
    check_out_of_range();
    for (position = AJP13_CONNECTION_EDITION; position <= AJP13_CONNECTION_OPEN; position++) {
        connection(AJP13_STATE_IDLE, 0, 0, 0, 0);
        lent.connection.words[position] = 1;
        checking(1, 0, 0, 10, 0);
        check_out_of_range();
    }
}

/* Arrays of the wrong length, through the calls over words. The words are out of range as well. */
static void check_lengths(void)
{
    static const size_t checkings[] = {0, 8, 13, 15, 17}, checkeds[] = {0, 6, 7, 9};
    uint32_t *c = lent.checking_words, *a = lent.checked_words;
    size_t i, j;

    for (i = 0; i < COUNT(checkings); i++) {
        size_t n = checkings[i];

        LEFT(ajp13_words_check_begin(c, n), AJP13_ERROR_CHECKING_LENGTH);
        LEFT(ajp13_words_check_go_on(c, n, both, sizeof both), AJP13_ERROR_CHECKING_LENGTH);
        LEFT(ajp13_words_check_finish(c, n, 10, a, AJP13_SIZE_CHECKED), AJP13_ERROR_CHECKING_LENGTH);
        for (j = 0; j < COUNT(checkeds); j++)
            LEFT(ajp13_words_check_finish(c, n, 10, a, checkeds[j]), AJP13_ERROR_ANSWER_LENGTH);
    }
    LEFT(ajp13_words_check_go_on(c, AJP13_SIZE_CHECKING, both, sizeof both), AJP13_ERROR_CHECKING_WORD);
    for (j = 0; j < COUNT(checkeds); j++) {
        LEFT(ajp13_words_check(both, sizeof both, a, checkeds[j]), AJP13_ERROR_ANSWER_LENGTH);
        LEFT(ajp13_words_check_finish(c, AJP13_SIZE_CHECKING, 10, a, checkeds[j]), AJP13_ERROR_ANSWER_LENGTH);
    }
}

int main(void)
{
    memset(&lent, 0x5A, sizeof lent);
    memset(lent.connection_words, 0, sizeof lent.connection_words);
    connection(AJP13_STATE_BUSY, 9, 9, 9, 9);
    IS(ajp13_fresh(&lent.connection), AJP13_DONE);
    IS(connection_is(AJP13_STATE_IDLE, 0, 0, 0, 0), 1);
    building_records();
    ends();
    forwards();
    line_ends();
    codes();
    words_that_do_not_count();
    response_to_head();
    connections_out_of_range();
    lengths();
    arguments();
    largest();
    empty_bodies();
    texts();
    strings();
    statuses();
    captures();
    checks_that_stay();
    checks_at_the_most_bytes();
    checks_out_of_range();
    check_lengths();
    printf("%lu calls and numbers looked at, %lu wrong\n", looked, wrong);
    return wrong != 0;
}
