/* Two peers open a channel, and one sends the other so many messages of so many bytes, each once the one before is received and
 * acknowledged. All happens at moment 0. tests/measure.py counts its instructions.
 *
 * usage: messages MESSAGES BYTES */
#include "gondyru.h"

#include <stdio.h>
#include <stdlib.h>
#include <string.h>

#define TEXT(words) (const uint8_t *)words, sizeof words - 1
#define MOST 1024
#define LONGEST 131072

struct datagram { gondyru_address source, destination; uint8_t bytes[2048]; size_t size; };
struct side { gondyru_peer peer; bool is_open; uint64_t channel; size_t messages, bytes; size_t count; struct datagram sent[MOST]; };

static struct side left, right;
static uint8_t message[LONGEST], room[LONGEST];

static void must(uint32_t status) {
    if (status != GONDYRU_DONE) fprintf(stderr, "status %u\n", status), exit(1);
}

static void keep(struct side *side, const gondyru_output_row *row) {
    if (side->count == MOST) fprintf(stderr, "too many datagrams\n"), exit(1);
    struct datagram *next = &side->sent[side->count++];
    next->source = row->source;
    next->destination = row->destination;
    must(gondyru_copy_output(&side->peer, next->bytes, sizeof next->bytes, &next->size));
}

static void drain(struct side *side) {
    for (gondyru_output_row row = {0}; row.kind != GONDYRU_TIMEOUT;) {
        size_t size = 0;
        must(gondyru_poll_output(&side->peer, &row));
        if (row.kind == GONDYRU_TRANSMIT) keep(side, &row);
        if (row.kind == GONDYRU_CHANNEL_OPEN) side->is_open = true, side->channel = row.channel;
        if (row.kind == GONDYRU_CHANNEL_DATA) {
            must(gondyru_copy_output(&side->peer, room, sizeof room, &size));
            side->messages++;
            side->bytes += size;
        }
    }
}

static void hear(struct side *side, struct side *other) {
    for (struct datagram *it = other->sent; it < other->sent + other->count; it++) {
        must(gondyru_handle_receive(&side->peer, 0, &it->source, &it->destination, it->bytes, it->size));
        drain(side);
    }
    other->count = 0;
}

/* Polls both peers, and passes on their datagrams, until neither has one to send. */
static void settle(void) {
    drain(&left);
    drain(&right);
    while (left.count || right.count) {
        hear(&right, &left);
        hear(&left, &right);
    }
}

static void meet(void) {
    gondyru_settings here = {.first = 1, .address = {10, 0, 0, 1, 1000}}, there = {.first = 1000001, .address = {10, 0, 0, 2, 2000}};
    gondyru_channel_settings plain = {0};
    uint8_t text[8192];
    size_t size = 0;
    must(gondyru_new_peer(&left.peer, &here));
    must(gondyru_new_peer(&right.peer, &there));
    must(gondyru_add_channel(&left.peer, &plain, TEXT(""), TEXT("")));
    must(gondyru_offer(&left.peer));
    must(gondyru_copy_text(&left.peer, text, sizeof text, &size));
    must(gondyru_accept_offer(&right.peer, text, size));
    must(gondyru_copy_text(&right.peer, text, sizeof text, &size));
    must(gondyru_accept_answer(&left.peer, text, size));
    for (int wake = 0; wake < 4; wake++) {
        must(gondyru_handle_timeout(&left.peer, 0));
        must(gondyru_handle_timeout(&right.peer, 0));
        settle();
    }
}

int main(int count, char **words) {
    size_t messages = count == 3 ? strtoul(words[1], NULL, 10) : 0, size = count == 3 ? strtoul(words[2], NULL, 10) : LONGEST + 1;
    if (size > LONGEST) return fprintf(stderr, "usage: messages MESSAGES BYTES\n"), 2;
    memset(message, 7, size);
    meet();
    for (size_t number = 0; number < messages; number++) {
        must(gondyru_write(&left.peer, left.channel, true, message, size));
        settle();
    }
    gondyru_free_peer(&left.peer);
    gondyru_free_peer(&right.peer);
    printf("%zu messages, %zu bytes\n", right.messages, right.bytes);
    return !(left.is_open && right.is_open && right.messages == messages && right.bytes == messages * size);
}
