"""What a poll returns, and the rows of a peer."""
from dataclasses import dataclass
from enum import IntEnum
from typing import Optional, Tuple, Union

from .numbers import Direction, Kind, MediaKind

Address = Tuple[str, int]


class IceState(IntEnum):
    """The progress of ICE."""

    NEW = 0
    CHECKING = 1
    CONNECTED = 2
    COMPLETED = 3
    DISCONNECTED = 4


@dataclass(frozen=True)
class Timeout:
    """Nothing is left until this moment, in nanoseconds; None if the peer waits for no moment."""

    moment: Optional[int]


@dataclass(frozen=True)
class Transmit:
    """A datagram to be sent."""

    source: Address
    destination: Address
    protocol: int
    data: bytes


@dataclass(frozen=True)
class Connected:
    """The DTLS handshake is finished."""


@dataclass(frozen=True)
class IceConnectionStateChange:
    state: IceState


@dataclass(frozen=True)
class ChannelOpen:
    channel: int
    label: str


@dataclass(frozen=True)
class ChannelData:
    channel: int
    binary: bool
    data: bytes


@dataclass(frozen=True)
class ChannelClose:
    channel: int


@dataclass(frozen=True)
class BufferedAmountLow:
    channel: int


@dataclass(frozen=True)
class MediaAdded:
    mid: str
    kind: MediaKind
    direction: Direction


@dataclass(frozen=True)
class MediaChanged:
    mid: str
    direction: Direction


@dataclass(frozen=True)
class PacketReceived:
    """A packet of media, of which only the size is reported."""

    kind: Kind
    size: int


@dataclass(frozen=True)
class StatisticsDue:
    """Statistics, which are not handed on."""

    kind: Kind


@dataclass(frozen=True)
class Closed:
    """The other side closed the connection."""


Event = Union[
    Connected,
    IceConnectionStateChange,
    ChannelOpen,
    ChannelData,
    ChannelClose,
    BufferedAmountLow,
    MediaAdded,
    MediaChanged,
    PacketReceived,
    StatisticsDue,
    Closed,
]
Output = Union[Timeout, Transmit, Event]


@dataclass(frozen=True)
class Line:
    """An m-line. That of the data channels has no kind and no direction."""

    place: int
    mid: str
    kind: Optional[MediaKind]
    direction: Optional[Direction]
    stopped: bool
    remote_created: bool


@dataclass(frozen=True)
class Channel:
    """A data channel."""

    id: int
    stream: Optional[int]
    generation: int
    is_open: bool
