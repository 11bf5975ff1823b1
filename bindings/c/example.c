/*
 * A request and its answer, both ends in one program.
 *
 * The server's end builds a request and sends the first part of its body. The container's end gets the bytes a few at a
 * time, as a socket would bring them, prints what it reads, asks for the rest of the body and answers; the server's end
 * reads the answer. At the end a call is refused.
 *
 * All memory is lent by this program: two connections, a buffer, a table of places and an answer.
 */
#include <stdio.h>
#include <stdlib.h>
#include <string.h>

#include "ajp13.h"

/* What goes one way and was not read yet. */
struct pipe {
    uint8_t bytes[2 * AJP13_MAX_PACKET];
    size_t length;
};

static uint8_t buffer[AJP13_MAX_PACKET];
static uint16_t table[AJP13_MAX_PLACES];
static ajp13_answer answer;

/* ---- Sending ---------------------------------------------------------------------------------------------------- */

/* Stops the program where a call that must be done is not. */
static void must(uint32_t status)
{
    if (status != AJP13_DONE) {
        printf("status %lu: %s\n", (unsigned long)status, ajp13_status_text(status));
        exit(1);
    }
}

/* Prints bytes in hex, 16 in a line. */
static void print_hex(const uint8_t *bytes, size_t length)
{
    size_t i;

    for (i = 0; i < length; i++)
        printf("%s%02x%s", i % 16 == 0 ? "    " : " ", bytes[i], i % 16 == 15 || i + 1 == length ? "\n" : "");
}

/* Puts the packet that was just written into a pipe. Its bytes are at the start of the buffer, and the answer has its
   length. */
static void put(struct pipe *to, const char *what)
{
    size_t length = answer.words[AJP13_ANSWER_BYTES];

    printf("%s, %lu bytes\n", what, (unsigned long)length);
    print_hex(buffer, length);
    memcpy(to->bytes + to->length, buffer, length);
    to->length += length;
}

/* Adds a header to the packet that is being built. The library takes the name's code where it has one. */
static void add_header(ajp13_building *building, const char *name, const char *value)
{
    must(ajp13_header_named(building, buffer, sizeof buffer, ajp13_chars(name), ajp13_chars(value)));
}

/* The server's end sends a request that declares a body of 27 bytes. */
static void send_request(ajp13_connection *server, struct pipe *to_container)
{
    ajp13_building building;
    ajp13_forward forward;

    forward.method = AJP13_METHOD_POST;
    forward.protocol = ajp13_chars("HTTP/1.1");
    forward.req_uri = ajp13_chars("/valves/7");
    forward.remote_addr = ajp13_chars("192.0.2.15");
    forward.remote_host = ajp13_null();
    forward.server_name = ajp13_chars("orchard.example");
    forward.server_port = 443;
    forward.is_ssl = 1;
    must(ajp13_begin_forward(&building, buffer, sizeof buffer, &forward));
    add_header(&building, "Host", "orchard.example");
    add_header(&building, "Content-Length", "27");
    add_header(&building, "X-Gardener", "Malee");
    must(ajp13_attribute_text(&building, buffer, sizeof buffer, AJP13_ATTRIBUTE_QUERY_STRING,
                              ajp13_chars("by=Malee")));
    must(ajp13_attribute_integer(&building, buffer, sizeof buffer, AJP13_ATTRIBUTE_SSL_KEY_SIZE, 256));
    must(ajp13_attribute_pair(&building, buffer, sizeof buffer, AJP13_ATTRIBUTE_REQ_ATTRIBUTE,
                              ajp13_chars("soil"), ajp13_chars("dry")));
    must(ajp13_close(server, &building, buffer, sizeof buffer, &answer));
    put(to_container, "Forward Request");
}

/* The server's end sends the body packet that is due: as many of these bytes as may go now. Tells how many went. */
static size_t send_body(ajp13_connection *server, struct pipe *to_container, const uint8_t *bytes, size_t length)
{
    size_t most = ajp13_largest_body(server);

    if (length > most)
        length = most;
    must(ajp13_body(server, buffer, sizeof buffer, bytes, length, &answer));
    put(to_container, "Body packet");
    return length;
}

/* The container's end asks for more of the body. */
static void ask_for_body(ajp13_connection *container, struct pipe *to_server, uint32_t asked)
{
    must(ajp13_get_body(container, buffer, sizeof buffer, asked, &answer));
    put(to_server, "Get Body Chunk");
}

/* The container's end sends its answer. */
static void send_response(ajp13_connection *container, struct pipe *to_server)
{
    static const uint8_t chunk[] = "valve 7 is open\n";
    ajp13_building building;

    must(ajp13_begin_send_headers(&building, buffer, sizeof buffer, 200, ajp13_chars("OK")));
    add_header(&building, "Content-Type", "text/plain");
    add_header(&building, "X-Pressure", "2.5");
    must(ajp13_close(container, &building, buffer, sizeof buffer, &answer));
    put(to_server, "Send Headers");

    must(ajp13_body_chunk(container, buffer, sizeof buffer, chunk, sizeof chunk - 1, &answer));
    put(to_server, "Send Body Chunk");

    must(ajp13_end(container, buffer, sizeof buffer, 1, &answer));
    put(to_server, "End Response");
}

/* ---- Reading ---------------------------------------------------------------------------------------------------- */

/* Prints bytes of a packet as they stand. */
static void print_bytes(const uint8_t *bytes, uint32_t length)
{
    fwrite(bytes, 1, length, stdout);
}

/* Prints a string that one of the views found. */
static void print_text(const uint8_t *packet, const ajp13_text *text)
{
    if (text->words[AJP13_TEXT_NULL])
        printf("null");
    else
        print_bytes(packet + text->words[AJP13_TEXT_START], text->words[AJP13_TEXT_LENGTH]);
}

/* Prints the string at a place. */
static void print_text_at(const uint8_t *packet, size_t length, uint32_t place)
{
    ajp13_text text;

    must(ajp13_text_at(packet, length, place, &text));
    print_text(packet, &text);
}

/* Prints a field of the packet: a line with its name and the string at a place. */
static void print_field(const char *name, const uint8_t *packet, size_t length, uint32_t place)
{
    printf("    %-12s ", name);
    print_text_at(packet, length, place);
    printf("\n");
}

/* Prints the name that a list has for a code. */
static void print_listed(uint32_t list, uint32_t code)
{
    uint8_t name[AJP13_SIZE_NAME];

    print_bytes(name, ajp13_name(list, code, name, sizeof name));
}

/* Prints the headers. Their places are the first of the table, two for each. */
static void print_headers(const uint8_t *packet, size_t length, uint32_t list)
{
    uint32_t i;

    for (i = 0; i < answer.words[AJP13_ANSWER_HEADERS]; i++) {
        uint32_t code = ajp13_header_code_at(packet, length, table[2 * i]);

        printf("    header       ");
        if (code != 0) {
            printf("%04lX ", (unsigned long)code);
            print_listed(list, code);
        } else {
            printf("     ");
            print_text_at(packet, length, table[2 * i]);
        }
        printf(": ");
        print_text_at(packet, length, table[2 * i + 1]);
        printf("\n");
    }
}

/* Prints the attributes. Their places follow those of the headers. */
static void print_attributes(const uint8_t *packet, size_t length)
{
    ajp13_text text;
    uint32_t i;

    for (i = 0; i < answer.words[AJP13_ANSWER_ATTRIBUTES]; i++) {
        uint32_t place = table[2 * (answer.words[AJP13_ANSWER_HEADERS] + i)];
        uint32_t value = table[2 * (answer.words[AJP13_ANSWER_HEADERS] + i) + 1];
        uint32_t code = ajp13_attribute_code_at(packet, length, place);

        printf("    attribute    %02lX   ", (unsigned long)code);
        switch (ajp13_attribute_kind_at(packet, length, place)) {
        case AJP13_VALUE_TEXT:
            print_listed(AJP13_LIST_ATTRIBUTES, code);
            printf(": ");
            print_text_at(packet, length, value);
            break;
        case AJP13_VALUE_INTEGER:
            print_listed(AJP13_LIST_ATTRIBUTES, code);
            printf(": %lu", (unsigned long)ajp13_integer_at(packet, length, value));
            break;
        case AJP13_VALUE_PAIR:
            must(ajp13_attribute_name_at(packet, length, place, &text));
            print_text(packet, &text);
            printf(": ");
            print_text_at(packet, length, value);
            break;
        }
        printf("\n");
    }
}

/* Prints the packet that was just read; the answer and the table tell what it says. */
static void print_packet(const uint8_t *packet)
{
    size_t length = answer.words[AJP13_ANSWER_BYTES];

    switch (answer.words[AJP13_ANSWER_KIND]) {
    case AJP13_KIND_FORWARD:
        printf("  Forward Request\n    method       ");
        print_listed(AJP13_LIST_METHODS, answer.words[AJP13_ANSWER_METHOD]);
        printf("\n");
        print_field("protocol", packet, length, answer.words[AJP13_ANSWER_PROTOCOL]);
        print_field("req_uri", packet, length, answer.words[AJP13_ANSWER_REQ_URI]);
        print_field("remote_addr", packet, length, answer.words[AJP13_ANSWER_REMOTE_ADDR]);
        print_field("remote_host", packet, length, answer.words[AJP13_ANSWER_REMOTE_HOST]);
        print_field("server_name", packet, length, answer.words[AJP13_ANSWER_SERVER_NAME]);
        printf("    server_port  %lu\n", (unsigned long)answer.words[AJP13_ANSWER_SERVER_PORT]);
        printf("    is_ssl       %lu\n", (unsigned long)answer.words[AJP13_ANSWER_IS_SSL]);
        print_headers(packet, length, AJP13_LIST_REQUEST_HEADERS);
        print_attributes(packet, length);
        printf("    body of      %lu bytes\n", (unsigned long)answer.words[AJP13_ANSWER_DECLARED]);
        break;
    case AJP13_KIND_BODY:
        printf("  Body packet: ");
        print_bytes(packet + answer.words[AJP13_ANSWER_START], answer.words[AJP13_ANSWER_LENGTH]);
        printf("\n");
        break;
    case AJP13_KIND_GET_BODY:
        printf("  Get Body Chunk: up to %lu bytes\n", (unsigned long)answer.words[AJP13_ANSWER_ASKED]);
        break;
    case AJP13_KIND_SEND_HEADERS:
        printf("  Send Headers\n    status       %lu\n", (unsigned long)answer.words[AJP13_ANSWER_STATUS]);
        print_field("message", packet, length, answer.words[AJP13_ANSWER_MESSAGE]);
        print_headers(packet, length, AJP13_LIST_RESPONSE_HEADERS);
        break;
    case AJP13_KIND_BODY_CHUNK:
        printf("  Send Body Chunk: ");
        print_bytes(packet + answer.words[AJP13_ANSWER_START], answer.words[AJP13_ANSWER_LENGTH]);
        break;
    case AJP13_KIND_END:
        printf("  End Response, the connection is %s\n", answer.words[AJP13_ANSWER_REUSE] ? "used again" : "closed");
        break;
    }
}

/* One of the two reading calls. */
typedef uint32_t reading(ajp13_connection *, const uint8_t *, size_t, uint16_t *, size_t, ajp13_answer *);

/* Reads all that is in a pipe, and empties it. One byte is there at first, and each time that more are needed, so many
   more come. */
static void read_all(reading *read_at, ajp13_connection *connection, struct pipe *from, size_t more)
{
    size_t taken = 0, there = 1, needed = 0;

    while (taken < from->length) {
        uint32_t status = read_at(connection, from->bytes + taken, there - taken, table, AJP13_MAX_PLACES, &answer);

        if (status == AJP13_NEEDS) {
            /* Not whole yet: wait for more. The answer says how many bytes the packet needs in all. */
            if (there == from->length)
                return;
            if (needed != answer.words[AJP13_ANSWER_BYTES]) {
                needed = answer.words[AJP13_ANSWER_BYTES];
                printf("  %lu there, %lu needed\n", (unsigned long)(there - taken), (unsigned long)needed);
            }
            there = from->length - there < more ? from->length : there + more;
        } else {
            must(status);
            print_packet(from->bytes + taken);
            taken += answer.words[AJP13_ANSWER_BYTES];
            needed = 0;
        }
    }
    from->length = 0;
}

int main(void)
{
    static struct pipe to_container, to_server;
    static const uint8_t body[] = "valve=open&pressure=2.5&x=1";
    size_t length = sizeof body - 1, sent;
    ajp13_connection server, container;
    uint32_t status;

    must(ajp13_fresh(&server));
    must(ajp13_fresh(&container));

    /* Ten bytes of the body are there when the request goes out. */
    printf("The server sends\n");
    send_request(&server, &to_container);
    sent = send_body(&server, &to_container, body, 10);

    printf("\nThe container reads\n");
    read_all(ajp13_read_at_container, &container, &to_container, 7);

    /* The container asks for the rest, 12 bytes at a time. The server has it all by now and sends what may go. */
    while (container.words[AJP13_CONNECTION_LEFT] > 0) {
        printf("\nThe container asks, the server sends\n");
        ask_for_body(&container, &to_server, 12);
        read_all(ajp13_read_at_server, &server, &to_server, 16);
        sent += send_body(&server, &to_container, body + sent, length - sent);
        read_all(ajp13_read_at_container, &container, &to_container, 16);
    }

    printf("\nThe container sends\n");
    send_response(&container, &to_server);

    printf("\nThe server reads\n");
    read_all(ajp13_read_at_server, &server, &to_server, 16);

    /* No request is under way any more, so there is none to end. Connection, buffer and answer stay as they are. */
    status = ajp13_end(&container, buffer, sizeof buffer, 1, &answer);
    printf("\nA second End Response: refused, %lu, %s\n", (unsigned long)status, ajp13_status_text(status));
    return 0;
}
