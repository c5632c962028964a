"""A peer, by the names of str0m."""
import threading
import weakref
from ctypes import byref, c_size_t, create_string_buffer
from typing import Any, Callable, Iterator, List, Optional, Union

from . import library
from .events import (
    Address,
    BufferedAmountLow,
    Channel,
    ChannelClose,
    ChannelData,
    ChannelOpen,
    Closed,
    Connected,
    IceConnectionStateChange,
    IceState,
    Line,
    MediaAdded,
    MediaChanged,
    Output,
    PacketReceived,
    StatisticsDue,
    Timeout,
    Transmit,
)
from .numbers import Direction, Kind, MediaKind, Reliability, Role, Status

_calls = library.load()
_FAR_FUTURE = 2**64 - 1
_MID_ROOM = 32
_TEXT_ROOM = 256


# What a status says to a person: none of these texts is as long as the buffer.
def _text_of(status: Status) -> str:
    buffer, size = create_string_buffer(_TEXT_ROOM), c_size_t()
    if _calls.gondyru_copy_status_text(status, buffer, _TEXT_ROOM, byref(size)) != Status.DONE:
        return status.name
    return buffer.raw[: size.value].decode()


class GondyruError(Exception):
    """A call that did not do what was asked, with its status."""

    def __init__(self, status: Status) -> None:
        super().__init__(_text_of(status))
        self.status = status


# The bytes that a call copies into a buffer, in a second try if the first buffer is too small.
def _copied(call: Callable[..., int], *given: Any, room: int = 256) -> bytes:
    size = c_size_t()
    while True:
        buffer = create_string_buffer(max(room, 1))
        status = call(*given, buffer, room, byref(size))
        if status == Status.DONE:
            return buffer.raw[: size.value]
        if status != Status.SMALL_BUFFER:
            raise GondyruError(Status(status))
        room = size.value


def _row_of(address: Address) -> library.AddressRow:
    parts = [int(part) for part in address[0].split(".")]
    if len(parts) != 4 or not all(0 <= part < 256 for part in parts) or not 0 <= address[1] < 65536:
        raise ValueError(f"no IPv4 address and port: {address}")
    return library.AddressRow(*parts, address[1])


def _address_of(row: library.AddressRow) -> Address:
    return (f"{row.a}.{row.b}.{row.c}.{row.d}", row.port)


def _within(number: int, bits: int) -> int:
    if not 0 <= number < 2**bits:
        raise ValueError(f"{number} is not below 2^{bits}")
    return number


# Frees the peer of a slot, if it has one. Another thread than the one that made the peer may not.
def _free_dropped(slot: library.Slot, thread: int) -> None:
    if threading.get_ident() == thread:
        _calls.gondyru_free_peer(byref(slot))


class Peer:
    """A WebRTC peer over the parts in memory, with the address that it sends from.

    Its random numbers count up from `first`: no two peers of a session should draw the same ones. All its calls are made by the thread
    that made it. It is freed at the end of a `with` block, by `free`, or when that thread drops it. One that another thread drops is
    never freed.
    """

    def __init__(self, address: Address, first: int, *, role: Role = Role.NO_ROLE, ice_lite: bool = False, snap: bool = False) -> None:
        self._slot = library.Slot()
        self._thread = threading.get_ident()
        self._row = library.OutputRow()
        settings = library.Settings(_within(first, 64), _row_of(address), role, ice_lite, snap)
        self._do(_calls.gondyru_new_peer, byref(settings))
        weakref.finalize(self, _free_dropped, self._slot, self._thread)

    def __enter__(self) -> "Peer":
        return self

    def __exit__(self, *_: Any) -> None:
        self.free()

    def free(self) -> None:
        """Frees the peer. Every later call on it is refused."""
        _calls.gondyru_free_peer(self._here())

    def _here(self) -> Any:
        if threading.get_ident() != self._thread:
            raise RuntimeError("a peer is called by the thread that made it")
        return byref(self._slot)

    def _do(self, call: Callable[..., int], *given: Any) -> None:
        status = call(self._here(), *given)
        if status != Status.DONE:
            raise GondyruError(Status(status))

    def add_media(self, kind: MediaKind, direction: Direction) -> None:
        """Adds a media line by the next offer."""
        self._do(_calls.gondyru_add_media, kind, direction)

    def add_channel(
        self,
        label: str,
        *,
        protocol: str = "",
        ordered: bool = True,
        reliability: Reliability = Reliability.RELIABLE,
        limit: int = 0,
        stream: Optional[int] = None,
    ) -> None:
        """Adds a data channel by the next offer; with a stream, it is negotiated out-of-band."""
        settings = library.ChannelSettings(reliability, _within(limit, 16), _within(stream or 0, 16), stream is not None, not ordered)
        name, other = label.encode(), protocol.encode()
        self._do(_calls.gondyru_add_channel, byref(settings), name, len(name), other, len(other))

    def set_direction(self, mid: str, direction: Direction) -> None:
        """Sets the direction of a media line by the next offer."""
        self._do(_calls.gondyru_set_direction, mid.encode(), len(mid.encode()), direction)

    def stop_media(self, mid: str) -> None:
        """Stops a media line for good by the next offer."""
        self._do(_calls.gondyru_stop_media, mid.encode(), len(mid.encode()))

    def ice_restart(self, keep_local_candidates: bool) -> None:
        """Restarts ICE by the next offer."""
        self._do(_calls.gondyru_ice_restart, keep_local_candidates)

    def offer(self) -> Optional[str]:
        """Offers what was added, set and stopped. None if the other side has nothing to know of it.

        If the peer refuses a change, all of them are kept until `discard_changes`.
        """
        status = _calls.gondyru_offer(self._here())
        if status == Status.NOTHING_TO_OFFER:
            return None
        if status != Status.DONE:
            raise GondyruError(Status(status))
        return self._text()

    def discard_changes(self) -> None:
        """Drops what was added, set and stopped since the last offer."""
        self._do(_calls.gondyru_discard_changes)

    def accept_offer(self, text: str) -> str:
        """Accepts the offer of the other side, and returns the answer."""
        self._do(_calls.gondyru_accept_offer, text.encode(), len(text.encode()))
        return self._text()

    def accept_answer(self, text: str) -> None:
        """Accepts the answer to the pending offer."""
        self._do(_calls.gondyru_accept_answer, text.encode(), len(text.encode()))

    def rollback(self) -> None:
        """Rolls the pending offer back."""
        self._do(_calls.gondyru_roll_back)

    def _text(self) -> str:
        return _copied(_calls.gondyru_copy_text, self._here(), room=4096).decode()

    def handle_timeout(self, now: int) -> None:
        """Hands in a moment, in nanoseconds since a start that the caller chooses."""
        self._do(_calls.gondyru_handle_timeout, _within(now, 64))

    def handle_receive(self, now: int, source: Address, destination: Address, data: bytes) -> None:
        """Hands in a datagram of UDP, with its addresses as the other side sent it."""
        one, other = _row_of(source), _row_of(destination)
        self._do(_calls.gondyru_handle_receive, _within(now, 64), byref(one), byref(other), data, len(data))

    def poll_output(self) -> Output:
        """Returns the next output. After every other call, poll until it is a `Timeout`."""
        self._do(_calls.gondyru_poll_output, byref(self._row))
        return self._output(self._row)

    def outputs(self) -> Iterator[Output]:
        """The outputs up to a `Timeout`, which is the last."""
        while True:
            output = self.poll_output()
            yield output
            if isinstance(output, Timeout):
                return

    def _output(self, row: library.OutputRow) -> Output:
        kind = Kind(row.kind)
        data = _copied(_calls.gondyru_copy_output, self._here(), room=row.size) if kind in _WITH_BYTES else b""
        if kind == Kind.TIMEOUT:
            return Timeout(None if row.moment == _FAR_FUTURE else row.moment)
        if kind == Kind.TRANSMIT:
            return Transmit(_address_of(row.source), _address_of(row.destination), row.protocol, data)
        if kind == Kind.ICE_STATE:
            return IceConnectionStateChange(IceState(row.state))
        if kind == Kind.CHANNEL_OPEN:
            return ChannelOpen(row.channel, data.decode())
        if kind == Kind.CHANNEL_DATA:
            return ChannelData(row.channel, row.binary, data)
        if kind == Kind.CHANNEL_CLOSE:
            return ChannelClose(row.channel)
        if kind == Kind.BUFFERED_LOW:
            return BufferedAmountLow(row.channel)
        if kind == Kind.MEDIA_ADDED:
            return MediaAdded(data.decode(), MediaKind(row.media), Direction(row.direction))
        if kind == Kind.MEDIA_CHANGED:
            return MediaChanged(data.decode(), Direction(row.direction))
        if kind in (Kind.RTP, Kind.RTCP, Kind.RAW_PACKET):
            return PacketReceived(kind, row.size)
        if kind == Kind.CONNECTED:
            return Connected()
        return Closed() if kind == Kind.CLOSED else StatisticsDue(kind)

    def write(self, channel: int, message: Union[str, bytes]) -> bool:
        """Writes a message, text or binary, to an open channel. False if too much is buffered; nothing is written then."""
        data = message.encode() if isinstance(message, str) else message
        binary = not isinstance(message, str)
        status = _calls.gondyru_write(self._here(), _within(channel, 64), binary, data, len(data))
        if status not in (Status.DONE, Status.BUFFER_FULL):
            raise GondyruError(Status(status))
        return status == Status.DONE

    def close_data_channel(self, channel: int) -> None:
        """Closes a channel."""
        self._do(_calls.gondyru_close_channel, _within(channel, 64))

    def close(self) -> None:
        """Begins to close the peer, which polls end."""
        self._do(_calls.gondyru_close)

    def lines(self) -> List[Line]:
        """The m-lines, by place."""
        found: List[Line] = []
        row = library.LineEntry()
        while True:
            try:
                mid = _copied(_calls.gondyru_copy_line, self._here(), len(found), byref(row), room=_MID_ROOM).decode()
            except GondyruError as error:
                if error.status == Status.NO_ROW:
                    return found
                raise
            kind = None if row.channels else MediaKind(row.media)
            direction = None if row.channels else Direction(row.direction)
            found.append(Line(row.place, mid, kind, direction, row.stopped, row.remote_created))

    def channels(self) -> List[Channel]:
        """The data channels, by id."""
        found: List[Channel] = []
        row = library.ChannelEntry()
        while True:
            status = _calls.gondyru_copy_channel(self._here(), len(found), byref(row))
            if status == Status.NO_ROW:
                return found
            if status != Status.DONE:
                raise GondyruError(Status(status))
            found.append(Channel(row.id, row.stream if row.has_stream else None, row.generation, row.is_open))


_WITH_BYTES = (Kind.TRANSMIT, Kind.CHANNEL_OPEN, Kind.CHANNEL_DATA, Kind.MEDIA_ADDED, Kind.MEDIA_CHANGED)
