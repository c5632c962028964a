/* A whole session of two peers from C, with each of its allocations refused in turn, alone and then with all that follow it: each time a
 * status reports it, and every block is freed. Linked with --wrap=malloc,realloc,free. */
#include "gondyru.h"

#include <stdio.h>
#include <string.h>

#define TEXT(words) (const uint8_t *)words, sizeof words - 1
#define MOST 256

struct datagram { gondyru_address source, destination; uint8_t bytes[2048]; size_t size; };
struct side { gondyru_peer peer; bool is_open; uint64_t channel; size_t messages, closes; size_t count; struct datagram sent[MOST]; };

static size_t asked, refused, last_refused, live;
static struct side left, right;

void *__real_malloc(size_t size);
void *__real_realloc(void *at, size_t size);
void __real_free(void *at);

/* Whether the next allocation is refused. */
static bool is_refused(void) {
    asked++;
    return refused <= asked && asked <= last_refused;
}

void *__wrap_malloc(size_t size) {
    void *at = is_refused() ? NULL : __real_malloc(size);
    live += at != NULL;
    return at;
}

void *__wrap_realloc(void *at, size_t size) {
    if (!at) return __wrap_malloc(size);
    return is_refused() ? NULL : __real_realloc(at, size);
}

void __wrap_free(void *at) {
    live -= at != NULL;
    __real_free(at);
}

/* Returns the status of a call from the calling function, if it is not the expected one. */
#define MUST(call) do { uint32_t status = call; if (status != GONDYRU_DONE) return status; } while (0)
#define REFUSES(expected, call) do { uint32_t status = call; if (status != expected) return status ? status : GONDYRU_NO_ROW; } while (0)

static uint32_t drain(struct side *side) {
    for (gondyru_output_row row = {0}; row.kind != GONDYRU_TIMEOUT;) {
        struct datagram *next = &side->sent[side->count];
        size_t size = 0;
        MUST(gondyru_poll_output(&side->peer, &row));
        MUST(gondyru_copy_output(&side->peer, next->bytes, sizeof next->bytes, &size));
        if (row.kind == GONDYRU_TRANSMIT && side->count + 1 < MOST) {
            next->source = row.source;
            next->destination = row.destination;
            next->size = size;
            side->count++;
        }
        if (row.kind == GONDYRU_CHANNEL_OPEN) side->is_open = true, side->channel = row.channel;
        side->messages += row.kind == GONDYRU_CHANNEL_DATA;
        side->closes += row.kind == GONDYRU_CHANNEL_CLOSE;
    }
    return GONDYRU_DONE;
}

static uint32_t run(struct side *side, struct side *other, uint64_t now) {
    MUST(gondyru_handle_timeout(&side->peer, now));
    MUST(drain(side));
    for (struct datagram *it = other->sent; it < other->sent + other->count; it++) {
        MUST(gondyru_handle_receive(&side->peer, now, &it->source, &it->destination, it->bytes, it->size));
        MUST(drain(side));
    }
    other->count = 0;
    return GONDYRU_DONE;
}

static uint32_t exchange(uint64_t *now) {
    for (int step = 0; step < 10; step++) {
        *now += 20000000;
        MUST(run(&left, &right, *now));
        MUST(run(&right, &left, *now));
    }
    return GONDYRU_DONE;
}

/* An offer of the left side, its answer, and what follows on the network. */
static uint32_t negotiate(uint64_t *now) {
    uint8_t text[16384];
    size_t size = 0;
    MUST(gondyru_offer(&left.peer));
    MUST(gondyru_copy_text(&left.peer, text, sizeof text, &size));
    MUST(gondyru_accept_offer(&right.peer, text, size));
    MUST(gondyru_copy_text(&right.peer, text, sizeof text, &size));
    MUST(gondyru_accept_answer(&left.peer, text, size));
    return exchange(now);
}

static uint32_t session(void) {
    gondyru_settings here = {.first = 1, .address = {10, 0, 0, 1, 1000}}, there = {.first = 1000001, .address = {10, 0, 0, 2, 2000}};
    gondyru_channel_settings plain = {0};
    gondyru_line_entry line;
    uint8_t mid[32], small[1];
    size_t size = 0, wanted = 0;
    uint64_t now = 0;
    MUST(gondyru_new_peer(&left.peer, &here));
    MUST(gondyru_new_peer(&right.peer, &there));
    MUST(gondyru_add_media(&left.peer, GONDYRU_AUDIO, GONDYRU_SENDRECV));
    MUST(gondyru_add_channel(&left.peer, &plain, TEXT("chat"), TEXT("")));
    MUST(negotiate(&now));
    if (!left.is_open || !right.is_open) return GONDYRU_NO_CHANNEL;
    MUST(gondyru_write(&left.peer, left.channel, false, TEXT("hello")));
    MUST(gondyru_write(&right.peer, right.channel, true, TEXT("hello to you")));
    MUST(exchange(&now));
    MUST(gondyru_copy_line(&left.peer, 0, &line, mid, sizeof mid, &size));
    MUST(gondyru_set_direction(&left.peer, mid, size, GONDYRU_SENDONLY));
    MUST(gondyru_ice_restart(&left.peer, true));
    MUST(negotiate(&now));
    MUST(gondyru_stop_media(&left.peer, mid, size));
    MUST(gondyru_offer(&left.peer));
    REFUSES(GONDYRU_SMALL_BUFFER, gondyru_copy_text(&left.peer, small, sizeof small, &wanted));
    if (wanted < 2) return GONDYRU_NO_ROW;
    MUST(gondyru_roll_back(&left.peer));
    MUST(gondyru_add_media(&left.peer, GONDYRU_VIDEO, GONDYRU_INACTIVE));
    MUST(gondyru_discard_changes(&left.peer));
    REFUSES(GONDYRU_NOTHING_TO_OFFER, gondyru_offer(&left.peer));
    MUST(gondyru_close_channel(&left.peer, left.channel));
    MUST(exchange(&now));
    MUST(gondyru_close(&left.peer));
    MUST(exchange(&now));
    return left.messages == 1 && right.messages == 1 && left.closes == 1 && right.closes == 1 ? GONDYRU_DONE : GONDYRU_NO_ROW;
}

/* The session with the allocations from one to another refused, from an empty slot to an empty slot. */
static uint32_t refuse(size_t first, size_t last) {
    memset(&left, 0, sizeof left);
    memset(&right, 0, sizeof right);
    asked = 0;
    refused = first;
    last_refused = last;
    uint32_t status = session();
    gondyru_free_peer(&left.peer);
    gondyru_free_peer(&right.peer);
    return status;
}

/* Refuses each of so many allocations in turn, alone or with all that follow. */
static bool refuse_each(size_t whole, bool alone) {
    for (size_t number = 1; number <= whole; number++) {
        uint32_t status = refuse(number, alone ? number : SIZE_MAX);
        if (live) return printf("allocation %zu: %zu blocks are not freed\n", number, live), false;
        if (status != GONDYRU_NO_MEMORY) return printf("allocation %zu: status %u\n", number, status), false;
    }
    return true;
}

int main(void) {
    uint32_t status = refuse(1, 0);
    size_t whole = asked;
    if (status != GONDYRU_DONE || live) return printf("the session ends with status %u, and %zu blocks\n", status, live), 1;
    if (!refuse_each(whole, true) || !refuse_each(whole, false)) return 1;
    printf("a status reports each of %zu allocations that are refused, alone or with all that follow\n", whole);
    return 0;
}
