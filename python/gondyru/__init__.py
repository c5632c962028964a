"""A WebRTC peer that does no I/O of its own, over libgondyru (include/gondyru.h).

Moments, datagrams and the texts of offers and answers are arguments and results. The parts of the peer are those in memory, which
protect nothing.
"""
from .events import (
    BufferedAmountLow,
    Channel,
    ChannelClose,
    ChannelData,
    ChannelOpen,
    Closed,
    Connected,
    Event,
    IceConnectionStateChange,
    IceState,
    Line,
    MediaAdded,
    MediaChanged,
    Output,
    PacketReceived,
    StatisticsDue,
    Timeout,
    Transmit,
)
from .numbers import Direction, Kind, MediaKind, Reliability, Role, Status
from .peer import GondyruError, Peer

__all__ = [
    "BufferedAmountLow",
    "Channel",
    "ChannelClose",
    "ChannelData",
    "ChannelOpen",
    "Closed",
    "Connected",
    "Direction",
    "Event",
    "GondyruError",
    "IceConnectionStateChange",
    "IceState",
    "Kind",
    "Line",
    "MediaAdded",
    "MediaChanged",
    "MediaKind",
    "Output",
    "PacketReceived",
    "Peer",
    "Reliability",
    "Role",
    "StatisticsDue",
    "Status",
    "Timeout",
    "Transmit",
]
