/* Asks for the kind of a fair set of messages, from C. */
#include "neltobur.h"

#include <stdio.h>

/* The length of each kind's messages; there is no kind 0. */
static const size_t lengths[] = {0, 41, 41, 9, 9, 65, 17, 9, 9, 9, 1};

static void ask(uint8_t first, size_t length) {
    uint8_t message[66] = {0};
    message[0] = first;
    printf("first byte %u of %zu: %u\n", (unsigned)first, length,
           (unsigned)neltobur_message_kind(message, length));
}

int main(void) {
    for (uint8_t kind = 1; kind <= 10; kind++) {
        ask(kind, lengths[kind]);
        ask(kind, lengths[kind] - 1);
        ask(kind, lengths[kind] + 1);
    }
    ask(0, 0);
    ask(0, 1);
    ask(0, 41);
    ask(11, 1);
    ask(11, 9);
    ask(255, 65);
    ask(1, 9);
    ask(3, 41);
    return 0;
}
