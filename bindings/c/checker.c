/*
 * Checks a capture: the packets of both directions back to back, as they were seen at the server's end of a connection.
 * It reads the file that its argument names, or standard input, in a window of one packet, so a capture may have any
 * size. It prints the six figures of the checker, a line each. Exit status: 0 where the capture passes; 1 where it does
 * not; 2 where it cannot be read.
 */
#include <fcntl.h>
#include <stdio.h>
#include <string.h>
#include <unistd.h>

#include "ajp13.h"

static ajp13_checking checking;
static ajp13_checked checked;
static uint8_t window[AJP13_MAX_PACKET]; /* the bytes of the capture from the check's place on that are there */

static void print(const char *figure, int position)
{
    printf("%s=%lu\n", figure, (unsigned long)checked.words[position]);
}

int main(int argc, char **argv)
{
    int file = argc > 1 ? open(argv[1], O_RDONLY) : 0;
    size_t there = 0, taken = 0;
    ssize_t came = 0;

    /* Only the library writes the words of checking, so that every status is AJP13_DONE. */
    ajp13_check_begin(&checking);

    /* Where the window stays full, the capture is longer than any that is judged, and what is behind does not count. */
    while (checking.words[AJP13_CHECKING_REFUSAL] == 0 && there < sizeof window
           && (came = read(file, window + there, sizeof window - there)) > 0) {
        there += (size_t)came;
        ajp13_check_go_on(&checking, window, there, &taken);
        there -= taken; /* the bytes behind the packets that were taken are the start of the next one */
        memmove(window, window + taken, there);
    }
    if (came < 0) {
        perror(argc > 1 ? argv[1] : "standard input");
        return 2;
    }
    ajp13_check_finish(&checking, (uint64_t)checking.words[AJP13_CHECKING_PLACE] + there, &checked);

    print("packets", AJP13_CHECKED_PACKETS);
    print("requests", AJP13_CHECKED_REQUESTS);
    print("body", AJP13_CHECKED_BODY);
    printf("state=%s\n", ajp13_state_text(checked.words[AJP13_CHECKED_STATE]));
    print("refusal", AJP13_CHECKED_REFUSAL);
    print("place", AJP13_CHECKED_PLACE);
    return checked.words[AJP13_CHECKED_REFUSAL] != 0;
}
