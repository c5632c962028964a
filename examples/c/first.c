/* Two peers agree on a data channel, and one sends the other a message. Their network and their clock are this program.
 *
 * cc examples/c/first.c -Iinclude crates/rtc_c/out/libgondyru.a -o first && ./first */
#include "gondyru.h"
#include <stdio.h>
#include <stdlib.h>
#define TEXT(words) (const uint8_t *)words, sizeof words - 1
struct datagram { gondyru_address source, destination; uint8_t bytes[2048]; size_t size; };
struct side { const char *name; gondyru_peer peer; bool is_open; uint64_t channel; size_t count; struct datagram sent[64]; };
static struct side left = {.name = "left"}, right = {.name = "right"};

static void must(uint32_t status) {
    if (status != GONDYRU_DONE) fprintf(stderr, "status %u\n", status), exit(1);
}

/* Polls a peer until it waits. Its datagrams are kept for the other one, and its events printed. */
static void drain(struct side *side) {
    for (gondyru_output_row row = {0}; row.kind != GONDYRU_TIMEOUT;) {
        struct datagram *next = &side->sent[side->count % 64];
        size_t size = 0;
        must(gondyru_poll_output(&side->peer, &row));
        must(gondyru_copy_output(&side->peer, next->bytes, sizeof next->bytes, &size));
        if (row.kind == GONDYRU_TRANSMIT) next->source = row.source, next->destination = row.destination, next->size = size, side->count++;
        if (row.kind == GONDYRU_CHANNEL_OPEN) side->is_open = true, side->channel = row.channel;
        if (row.kind > GONDYRU_TRANSMIT) printf("%s: output %u %.*s\n", side->name, row.kind, (int)size, (char *)next->bytes);
    }
}

static void run(struct side *side, struct side *other, uint64_t now) {
    must(gondyru_handle_timeout(&side->peer, now));
    drain(side);
    for (struct datagram *it = other->sent; it < other->sent + other->count; it++) {
        must(gondyru_handle_receive(&side->peer, now, &it->source, &it->destination, it->bytes, it->size));
        drain(side);
    }
    other->count = 0;
}

int main(void) {
    gondyru_settings here = {.first = 1, .address = {10, 0, 0, 1, 1000}}, there = {.first = 1000001, .address = {10, 0, 0, 2, 2000}};
    gondyru_channel_settings plain = {0};
    uint8_t text[8192];
    size_t size = 0;
    must(gondyru_new_peer(&left.peer, &here));
    must(gondyru_new_peer(&right.peer, &there));
    must(gondyru_add_channel(&left.peer, &plain, TEXT("chat"), TEXT("")));
    must(gondyru_offer(&left.peer));
    must(gondyru_copy_text(&left.peer, text, sizeof text, &size));
    must(gondyru_accept_offer(&right.peer, text, size));
    must(gondyru_copy_text(&right.peer, text, sizeof text, &size));
    must(gondyru_accept_answer(&left.peer, text, size));
    for (uint64_t now = 20000000, wrote = 0; now < 800000000; now += 20000000) {
        run(&left, &right, now);
        run(&right, &left, now);
        if (left.is_open && !wrote++) must(gondyru_write(&left.peer, left.channel, false, TEXT("hello")));
    }
    gondyru_free_peer(&left.peer);
    gondyru_free_peer(&right.peer);
    return 0;
}
