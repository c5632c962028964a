"""libgondyru by ctypes, with the structs and prototypes of include/gondyru.h."""
import ctypes
import os
from ctypes import POINTER, Structure, c_bool, c_char_p, c_size_t, c_uint8, c_uint16, c_uint32, c_uint64, c_void_p


class Slot(Structure):
    _fields_ = [("full", c_bool), ("place", c_void_p)]


class AddressRow(Structure):
    _fields_ = [("a", c_uint8), ("b", c_uint8), ("c", c_uint8), ("d", c_uint8), ("port", c_uint16)]


class Settings(Structure):
    _fields_ = [("first", c_uint64), ("address", AddressRow), ("role", c_uint32), ("ice_lite", c_bool), ("snap", c_bool)]


class ChannelSettings(Structure):
    _fields_ = [("reliability", c_uint32), ("limit", c_uint16), ("stream", c_uint16), ("negotiated", c_bool), ("unordered", c_bool)]


class OutputRow(Structure):
    _fields_ = [
        ("kind", c_uint32),
        ("state", c_uint32),
        ("moment", c_uint64),
        ("channel", c_uint64),
        ("size", c_size_t),
        ("source", AddressRow),
        ("destination", AddressRow),
        ("protocol", c_uint32),
        ("media", c_uint32),
        ("direction", c_uint32),
        ("binary", c_bool),
    ]


class LineEntry(Structure):
    _fields_ = [
        ("place", c_uint32),
        ("media", c_uint32),
        ("direction", c_uint32),
        ("channels", c_bool),
        ("stopped", c_bool),
        ("remote_created", c_bool),
    ]


class ChannelEntry(Structure):
    _fields_ = [("id", c_uint64), ("generation", c_uint64), ("stream", c_uint16), ("has_stream", c_bool), ("is_open", c_bool)]


# A bytes object is handed in as it lies, with its length; a buffer of the caller is filled.
_SLOT, _BYTES, _ROOM, _SIZE = POINTER(Slot), [c_char_p, c_size_t], [c_char_p, c_size_t], POINTER(c_size_t)

PROTOTYPES = {
    "gondyru_new_peer": [_SLOT, POINTER(Settings)],
    "gondyru_free_peer": [_SLOT],
    "gondyru_add_media": [_SLOT, c_uint32, c_uint32],
    "gondyru_add_channel": [_SLOT, POINTER(ChannelSettings), *_BYTES, *_BYTES],
    "gondyru_set_direction": [_SLOT, *_BYTES, c_uint32],
    "gondyru_stop_media": [_SLOT, *_BYTES],
    "gondyru_ice_restart": [_SLOT, c_bool],
    "gondyru_offer": [_SLOT],
    "gondyru_discard_changes": [_SLOT],
    "gondyru_accept_offer": [_SLOT, *_BYTES],
    "gondyru_accept_answer": [_SLOT, *_BYTES],
    "gondyru_roll_back": [_SLOT],
    "gondyru_copy_text": [_SLOT, *_ROOM, _SIZE],
    "gondyru_handle_timeout": [_SLOT, c_uint64],
    "gondyru_handle_receive": [_SLOT, c_uint64, POINTER(AddressRow), POINTER(AddressRow), *_BYTES],
    "gondyru_poll_output": [_SLOT, POINTER(OutputRow)],
    "gondyru_copy_output": [_SLOT, *_ROOM, _SIZE],
    "gondyru_write": [_SLOT, c_uint64, c_bool, *_BYTES],
    "gondyru_close_channel": [_SLOT, c_uint64],
    "gondyru_close": [_SLOT],
    "gondyru_copy_line": [_SLOT, c_size_t, POINTER(LineEntry), *_ROOM, _SIZE],
    "gondyru_copy_channel": [_SLOT, c_size_t, POINTER(ChannelEntry)],
    "gondyru_copy_status_name": [c_uint32, *_ROOM, _SIZE],
    "gondyru_copy_status_text": [c_uint32, *_ROOM, _SIZE],
}


def _path() -> str:
    here = os.path.dirname(os.path.abspath(__file__))
    built = os.path.join(here, "..", "..", "crates", "rtc_c", "out", "libgondyru.so")
    places = [os.environ.get("GONDYRU_LIBRARY", ""), os.path.join(here, "libgondyru.so"), built]
    for place in places:
        if place and os.path.isfile(place):
            return place
    raise ImportError("libgondyru.so is not there: build it by tools/build-c, or name it in GONDYRU_LIBRARY")


def load() -> ctypes.CDLL:
    """The library, with the prototypes of its calls."""
    library = ctypes.CDLL(_path())
    for name, arguments in PROTOTYPES.items():
        call = getattr(library, name)
        call.argtypes = arguments
        call.restype = None if name == "gondyru_free_peer" else c_uint32
    return library
