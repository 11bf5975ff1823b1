/*
 * A container's end over a byte stream, from standard input to standard output. It answers CPing, reads the body of a
 * request, and answers each request with its own path. With an argument it reads at most so many bytes at a time. Exit
 * status: 0 where the input ends between two requests; 1 where the other end broke off or was refused; 2 for an error.
 */
#include <stdio.h>
#include <stdlib.h>
#include <string.h>
#include <unistd.h>

#include "ajp13.h"

static ajp13_connection connection;
static ajp13_answer answer;              /* what the last call told */
static uint16_t table[AJP13_MAX_PLACES]; /* where the headers and attributes of a request stand */
static uint8_t in[AJP13_MAX_PACKET], out[AJP13_MAX_PACKET];

/* Sends the packet that a call has written to out, where its status says that it has. Returns that status. */
static uint32_t sent(uint32_t status)
{
    size_t length = answer.words[AJP13_ANSWER_BYTES];

    if (status == AJP13_DONE && (fwrite(out, 1, length, stdout) != length || fflush(stdout) != 0))
        exit(1);
    return status;
}

/* Answers the packet that was just read. Returns AJP13_DONE, or the status of the call that was not done. */
static uint32_t reply(const uint8_t *packet, size_t length)
{
    uint32_t status = AJP13_DONE;
    ajp13_building building;
    ajp13_text path;

    if (answer.words[AJP13_ANSWER_KIND] == AJP13_KIND_CPING)
        return sent(ajp13_cpong(&connection, out, sizeof out, &answer));
    if (answer.words[AJP13_ANSWER_KIND] == AJP13_KIND_FORWARD) {
        ajp13_text_at(packet, length, answer.words[AJP13_ANSWER_REQ_URI], &path);
        status = ajp13_begin_send_headers(&building, out, sizeof out, 200, ajp13_chars("OK"));
        if (status == AJP13_DONE)
            status = ajp13_header_named(&building, out, sizeof out,
                                        ajp13_chars("Content-Type"), ajp13_chars("text/plain"));
        if (status == AJP13_DONE)
            status = sent(ajp13_close(&connection, &building, out, sizeof out, &answer));
        if (status == AJP13_DONE && !connection.words[AJP13_CONNECTION_HEAD]) /* the response to a HEAD has no body */
            status = sent(ajp13_body_chunk(&connection, out, sizeof out, packet + path.words[AJP13_TEXT_START],
                                           path.words[AJP13_TEXT_LENGTH], &answer));
    } /* else a body packet: AJP13_ANSWER_LENGTH bytes from packet + AJP13_ANSWER_START on, not used here */
    if (status != AJP13_DONE || connection.words[AJP13_CONNECTION_DUE])
        return status; /* a body packet that is due comes by itself */
    if (connection.words[AJP13_CONNECTION_LEFT] > 0)
        return sent(ajp13_get_body(&connection, out, sizeof out, AJP13_MAX_BODY, &answer));
    return sent(ajp13_end(&connection, out, sizeof out, 1, &answer));
}

/* Serves the packet at the start of the bytes. Returns how many bytes it took; 0 where the packet is not whole yet, and
   then answer.words[AJP13_ANSWER_BYTES] bytes are needed in all; or minus the number of a refusal or an error. */
static long serve(const uint8_t *bytes, size_t length)
{
    uint32_t status = ajp13_read_at_container(&connection, bytes, length, table, AJP13_MAX_PLACES, &answer);
    size_t taken = answer.words[AJP13_ANSWER_BYTES];

    if (status == AJP13_NEEDS)
        return 0;
    if (status == AJP13_DONE)
        status = reply(bytes, taken);
    return status == AJP13_DONE ? (long)taken : -(long)status;
}

int main(int argc, char **argv)
{
    size_t there = 0, part = argc > 1 ? strtoul(argv[1], NULL, 10) : sizeof in;
    ssize_t came;

    ajp13_fresh(&connection);
    while ((came = read(0, in + there, part < sizeof in - there ? part : sizeof in - there)) > 0) {
        long taken;

        there += (size_t)came;
        while ((taken = serve(in, there)) > 0) { /* the bytes behind a packet are the start of the next one */
            there -= (size_t)taken;
            memmove(in, in + taken, there);
        }
        if (taken < 0) {
            fprintf(stderr, "status %ld: %s\n", -taken, ajp13_status_text((uint32_t)-taken));
            return ajp13_is_refusal((uint32_t)-taken) ? 1 : 2;
        }
    }
    return came == 0 && there == 0 && connection.words[AJP13_CONNECTION_STATE] == AJP13_STATE_IDLE ? 0 : 1;
}
