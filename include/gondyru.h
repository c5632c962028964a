/* A WebRTC peer for callers in C. tests/c_header.py compares this file with the exports of crates/rtc_c.
 *
 * What the library does with a slot is proved. What the caller has to keep, nothing checks:
 * - A slot lies still from its first call to `gondyru_free_peer`. All its bytes are 0 before the first call. The caller never copies
 *   it, and never reads or writes its bytes.
 * - A slot is given to one call at a time, and all its calls are made by one thread.
 * - No pointer is null, and each points to as many values as the call reads or writes. An empty text is a pointer to a byte, and a
 *   length of 0. What one call writes to is given to it once: a buffer is no part of a slot, a row, or another buffer.
 * - A bool is 0 or 1.
 * - `malloc`, `realloc` and `free` are those of one allocator, which aligns as C asks. No call is made from a signal handler.
 *
 * Every call returns a status, but `gondyru_free_peer`. crates/rtc_c_handle/README.md has what each leaves as it was. One that returns
 * GONDYRU_DONE has done all of it. If memory for a later poll was refused meanwhile, that poll returns GONDYRU_NO_MEMORY, and the peer is
 * closed. Nothing is called back, and no clock and no socket is read: moments and datagrams are handed in, and polls hand datagrams out.
 * The parts of the peer are those in memory: they protect nothing. */
#ifndef GONDYRU_H
#define GONDYRU_H

#include <stdbool.h>
#include <stddef.h>
#include <stdint.h>

#ifdef __cplusplus
extern "C" {
#endif

/* How a call ended. `gondyru_copy_status_text` has a sentence for each. */
enum {
    GONDYRU_DONE = 0,
    GONDYRU_NO_MEMORY = 1,
    GONDYRU_NO_PEER = 2,
    GONDYRU_HAS_PEER = 3,
    GONDYRU_NOT_UTF8 = 4,
    GONDYRU_NO_OFFER = 5,
    GONDYRU_SMALL_BUFFER = 6,
    GONDYRU_REMOTE_SDP = 7,
    GONDYRU_BAD_SDP = 8,
    GONDYRU_BAD_DATAGRAM = 9,
    GONDYRU_DTLS_FAILED = 10,
    GONDYRU_SCTP_FAILED = 11,
    GONDYRU_MEDIA_FAILED = 12,
    GONDYRU_OUT_OF_ORDER = 13,
    GONDYRU_BAD_CHANNEL = 14,
    GONDYRU_GLARE = 15,
    GONDYRU_NOTHING_TO_OFFER = 16,
    GONDYRU_BAD_NUMBER = 17,
    GONDYRU_BAD_MID = 18,
    GONDYRU_NO_ROW = 19,
    GONDYRU_NO_CHANNEL = 20,
    GONDYRU_BUFFER_FULL = 21
};

/* Kinds of outputs, and which fields of a row they fill. `size` counts the bytes that `gondyru_copy_output` has. */
enum {
    GONDYRU_TIMEOUT = 1,          /* moment: call gondyru_handle_timeout then, at the latest; nothing more is to be polled now */
    GONDYRU_TRANSMIT = 2,         /* source, destination, protocol, size: a datagram to be sent */
    GONDYRU_CONNECTED = 3,        /* the DTLS handshake is finished */
    GONDYRU_ICE_STATE = 4,        /* state */
    GONDYRU_CHANNEL_OPEN = 5,     /* channel, size: its label */
    GONDYRU_CHANNEL_DATA = 6,     /* channel, binary, size: a message */
    GONDYRU_CHANNEL_CLOSE = 7,    /* channel */
    GONDYRU_BUFFERED_LOW = 8,     /* channel */
    GONDYRU_PEER_STATS = 9,       /* statistics are not handed on */
    GONDYRU_INGRESS_STATS = 10,
    GONDYRU_EGRESS_STATS = 11,
    GONDYRU_MEDIA_ADDED = 12,     /* media, direction, size: the mid of a line that an offer made live */
    GONDYRU_MEDIA_CHANGED = 13,   /* direction, size: the mid of a line */
    GONDYRU_RTP = 14,             /* size: that of a packet, which is not handed on */
    GONDYRU_RTCP = 15,
    GONDYRU_RAW_PACKET = 16,
    GONDYRU_CLOSED = 17           /* the other side closed the connection */
};

enum { GONDYRU_AUDIO = 0, GONDYRU_VIDEO = 1 };
enum { GONDYRU_SENDRECV = 0, GONDYRU_SENDONLY = 1, GONDYRU_RECVONLY = 2, GONDYRU_INACTIVE = 3 };
enum { GONDYRU_NO_ROLE = 0, GONDYRU_POLITE = 1, GONDYRU_IMPOLITE = 2 };
enum { GONDYRU_RELIABLE = 0, GONDYRU_MAX_LIFETIME = 1, GONDYRU_MAX_RETRANSMITS = 2 };

/* A place for a peer. */
typedef struct {
    bool full;
    void *place;
} gondyru_peer;

/* The IPv4 address a.b.c.d, and a port. */
typedef struct {
    uint8_t a;
    uint8_t b;
    uint8_t c;
    uint8_t d;
    uint16_t port;
} gondyru_address;

/* What a peer is built from. Its random numbers count up from `first`: no two peers of a session should draw the same ones. */
typedef struct {
    uint64_t first;
    gondyru_address address;
    uint32_t role;
    bool ice_lite;
    bool snap;
} gondyru_settings;

/* What a data channel is opened with. If all is 0, it is ordered, reliable, and announced in-band. */
typedef struct {
    uint32_t reliability;
    uint16_t limit;
    uint16_t stream;
    bool negotiated;
    bool unordered;
} gondyru_channel_settings;

/* What a poll returned. Numbers that its kind does not fill are 0. */
typedef struct {
    uint32_t kind;
    uint32_t state;
    uint64_t moment;
    uint64_t channel;
    size_t size;
    gondyru_address source;
    gondyru_address destination;
    uint32_t protocol;
    uint32_t media;
    uint32_t direction;
    bool binary;
} gondyru_output_row;

/* An m-line. That of the data channels has `channels`. */
typedef struct {
    uint32_t place;
    uint32_t media;
    uint32_t direction;
    bool channels;
    bool stopped;
    bool remote_created;
} gondyru_line_entry;

/* A data channel. */
typedef struct {
    uint64_t id;
    uint64_t generation;
    uint16_t stream;
    bool has_stream;
    bool is_open;
} gondyru_channel_entry;

/* Builds a peer in an empty slot. */
uint32_t gondyru_new_peer(gondyru_peer *slot, const gondyru_settings *settings);

/* Frees the peer of a slot, if it has one. The slot is then empty. */
void gondyru_free_peer(gondyru_peer *slot);

/* Changes that the next offer is to make: a media line, a data channel, a direction, a line that is stopped for good, new
 * credentials of ICE. Texts are UTF-8. */
uint32_t gondyru_add_media(gondyru_peer *slot, uint32_t media, uint32_t direction);
uint32_t gondyru_add_channel(gondyru_peer *slot, const gondyru_channel_settings *settings, const uint8_t *label, size_t label_len,
                             const uint8_t *protocol, size_t protocol_len);
uint32_t gondyru_set_direction(gondyru_peer *slot, const uint8_t *mid, size_t mid_len, uint32_t direction);
uint32_t gondyru_stop_media(gondyru_peer *slot, const uint8_t *mid, size_t mid_len);
uint32_t gondyru_ice_restart(gondyru_peer *slot, bool keep);

/* Offers these changes; the text of the offer is then to be sent. GONDYRU_NOTHING_TO_OFFER if there is nothing that the other side
 * has to know: a channel over a line that both sides have opens without an offer. If the peer refuses a change, all of them are kept
 * until they are discarded. GONDYRU_NO_MEMORY may leave an offer pending, whose text is lost: roll back then. */
uint32_t gondyru_offer(gondyru_peer *slot);
uint32_t gondyru_discard_changes(gondyru_peer *slot);

/* Accepts the offer of the other side; the text of the answer is then to be sent. GONDYRU_NO_MEMORY may be returned once the offer is
 * accepted; the text of the answer is then lost. */
uint32_t gondyru_accept_offer(gondyru_peer *slot, const uint8_t *text, size_t text_len);

/* Accepts the answer to the pending offer. A text that cannot be read leaves the offer pending. */
uint32_t gondyru_accept_answer(gondyru_peer *slot, const uint8_t *text, size_t text_len);

/* Rolls the pending offer back. */
uint32_t gondyru_roll_back(gondyru_peer *slot);

/* Copies the text that is to be sent into a buffer, and its size into `size`. If the buffer is too small, it is unchanged, and `size`
 * is what is needed; so it is with all calls below that fill a buffer. */
uint32_t gondyru_copy_text(gondyru_peer *slot, uint8_t *out, size_t out_len, size_t *size);

/* Hands in a moment, in nanoseconds since a start that the caller chooses, or a datagram of UDP that was received at one, with its
 * addresses as the other side sent it. */
uint32_t gondyru_handle_timeout(gondyru_peer *slot, uint64_t now);
uint32_t gondyru_handle_receive(gondyru_peer *slot, uint64_t now, const gondyru_address *source, const gondyru_address *destination,
                                const uint8_t *bytes, size_t bytes_len);

/* Hands out the next output. After every call on a peer, poll it until it returns a timeout. */
uint32_t gondyru_poll_output(gondyru_peer *slot, gondyru_output_row *row);

/* Copies the bytes of the last output into a buffer. They are kept until the next poll. */
uint32_t gondyru_copy_output(gondyru_peer *slot, uint8_t *out, size_t out_len, size_t *size);

/* Writes a message to an open channel; or closes a channel, or the whole peer. */
uint32_t gondyru_write(gondyru_peer *slot, uint64_t channel, bool binary, const uint8_t *bytes, size_t bytes_len);
uint32_t gondyru_close_channel(gondyru_peer *slot, uint64_t channel);
uint32_t gondyru_close(gondyru_peer *slot);

/* Copies the row of an m-line or a channel by its number, from 0; GONDYRU_NO_ROW past the last. A mid has at most 32 bytes. */
uint32_t gondyru_copy_line(gondyru_peer *slot, size_t number, gondyru_line_entry *row, uint8_t *out, size_t out_len, size_t *size);
uint32_t gondyru_copy_channel(gondyru_peer *slot, size_t number, gondyru_channel_entry *row);

/* The name of a status, as no_memory, and what it says to a person. */
uint32_t gondyru_copy_status_name(uint32_t number, uint8_t *out, size_t out_len, size_t *size);
uint32_t gondyru_copy_status_text(uint32_t number, uint8_t *out, size_t out_len, size_t *size);

#ifdef __cplusplus
}
#endif
#endif
