"""The numbers of include/gondyru.h, enum by enum, in its order."""
from enum import IntEnum


class Status(IntEnum):
    """How a call ended."""

    DONE = 0
    NO_MEMORY = 1
    NO_PEER = 2
    HAS_PEER = 3
    NOT_UTF8 = 4
    NO_OFFER = 5
    SMALL_BUFFER = 6
    REMOTE_SDP = 7
    BAD_SDP = 8
    BAD_DATAGRAM = 9
    DTLS_FAILED = 10
    SCTP_FAILED = 11
    MEDIA_FAILED = 12
    OUT_OF_ORDER = 13
    BAD_CHANNEL = 14
    GLARE = 15
    NOTHING_TO_OFFER = 16
    BAD_NUMBER = 17
    BAD_MID = 18
    NO_ROW = 19
    NO_CHANNEL = 20
    BUFFER_FULL = 21


class Kind(IntEnum):
    """What a poll returned."""

    TIMEOUT = 1
    TRANSMIT = 2
    CONNECTED = 3
    ICE_STATE = 4
    CHANNEL_OPEN = 5
    CHANNEL_DATA = 6
    CHANNEL_CLOSE = 7
    BUFFERED_LOW = 8
    PEER_STATS = 9
    INGRESS_STATS = 10
    EGRESS_STATS = 11
    MEDIA_ADDED = 12
    MEDIA_CHANGED = 13
    RTP = 14
    RTCP = 15
    RAW_PACKET = 16
    CLOSED = 17


class MediaKind(IntEnum):
    """What a media line carries."""

    AUDIO = 0
    VIDEO = 1


class Direction(IntEnum):
    """Which way media flows, as this side sees it."""

    SENDRECV = 0
    SENDONLY = 1
    RECVONLY = 2
    INACTIVE = 3


class Role(IntEnum):
    """What a peer does on glare."""

    NO_ROLE = 0
    POLITE = 1
    IMPOLITE = 2


class Reliability(IntEnum):
    """How long a message of a channel is resent."""

    RELIABLE = 0
    MAX_LIFETIME = 1
    MAX_RETRANSMITS = 2
