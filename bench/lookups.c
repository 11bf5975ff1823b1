/*
 * Looks up names of headers by ajp13_code, each of them once, and prints a line for each call: what sort of name it is,
 * the list, the name, and whether it was found, with tabs between them. bench/lookups counts the instructions.
 *
 * Ends with 1 where a look-up gives a wrong code.
 */
#include "ajp13.h"

#include <ctype.h>
#include <stdio.h>
#include <string.h>

/* Unlisted names that requests often have. */
static const char *const of_requests[] = {
    "cache-control", "upgrade-insecure-requests", "sec-fetch-site", "sec-fetch-mode",    "sec-fetch-dest",
    "origin",        "x-forwarded-for",           "if-none-match",  "if-modified-since", "x-requested-with",
};

/* Unlisted names that responses often have. */
static const char *const of_responses[] = {
    "etag",          "vary",             "server",     "cache-control", "expires",
    "accept-ranges", "content-encoding", "connection", "keep-alive",    "transfer-encoding",
};

/* Bytes that differ from those of a listed name in the bit by which letters differ in case, and are no letters. */
static const char *const near_requests[] = {"content\rtype", "cookie\x12"};
static const char *const near_responses[] = {"Content\rType", "Set-Cookie\x12"};

static int wrong;

/* Looks up a name, which should have this code, 0 for none. */
static void look_up(const char *sort, uint32_t list, const char *name, uint32_t should)
{
    uint32_t code = ajp13_code(list, (const uint8_t *)name, strlen(name));
    const char *at;

    printf("%s\t%s\t", sort, list == AJP13_LIST_REQUEST_HEADERS ? "request" : "response");
    for (at = name; *at != 0; at++)
        printf(isprint((unsigned char)*at) ? "%c" : "\\x%02x", (unsigned char)*at);
    printf("\t%s\n", code == 0 ? "no" : "yes");
    if (code != should) {
        fprintf(stderr, "%s has the code %04lx and not %04lx\n", name, (unsigned long)code, (unsigned long)should);
        wrong = 1;
    }
}

/* A listed name as it stands, in small letters, in capitals and with a capital at the start of each word; each spelling
   once. */
static void look_up_spellings(uint32_t list, const char *name, uint32_t code)
{
    char spelled[4][AJP13_SIZE_NAME];
    size_t at, which, other, length = strlen(name);

    for (at = 0; at <= length; at++) {
        spelled[0][at] = name[at];
        spelled[1][at] = (char)tolower((unsigned char)name[at]);
        spelled[2][at] = (char)toupper((unsigned char)name[at]);
        spelled[3][at] = at == 0 || name[at - 1] == '-' ? spelled[2][at] : spelled[1][at];
    }
    for (which = 0; which < 4; which++) {
        for (other = 0; strcmp(spelled[other], spelled[which]) != 0; other++)
            ;
        if (other == which)
            look_up("listed", list, spelled[which], code);
    }
}

/* All names of a list, and others. */
static void look_up_all(uint32_t list, const char *const *often, size_t count, const char *const *near)
{
    uint8_t name[AJP13_SIZE_NAME];
    uint32_t code;
    size_t at;

    for (code = 0xA001; ajp13_name(list, code, name, sizeof name) > 0; code++)
        look_up_spellings(list, (const char *)name, code);
    if (code < 0xA001 + 11) {
        fprintf(stderr, "only %lu names are listed\n", (unsigned long)(code - 0xA001));
        wrong = 1;
    }
    for (at = 0; at < count; at++)
        look_up("unlisted", list, often[at], 0);
    for (code = 0xA001; ajp13_name(list, code, name, sizeof name) > 0; code++) {
        name[strlen((const char *)name) - 1]++;
        look_up("near", list, (const char *)name, 0);
    }
    for (at = 0; at < 2; at++)
        look_up("near", list, near[at], 0);
}

int main(void)
{
    look_up_all(AJP13_LIST_REQUEST_HEADERS, of_requests, sizeof of_requests / sizeof *of_requests, near_requests);
    look_up_all(AJP13_LIST_RESPONSE_HEADERS, of_responses, sizeof of_responses / sizeof *of_responses, near_responses);
    return wrong;
}
