"""A chord in quarter-comma meantone on three MIDI channels, tuned by bends: every call's MIDI bytes are printed.

`make run` builds the library and runs this."""

import ctypes
import sys
from ctypes import POINTER, Structure, byref, c_double, c_int16, c_int32, c_size_t, c_uint8, c_uint16

DONE, UNTUNED, REJECTED, NOT_FOUND, REFUSED = range(5)
BEND, STOP, RETRIGGER_OFF, RETRIGGER_ON = 1, 1, 0, 1


class Pool(Structure):
    _fields_ = [("cells", c_uint16 * 677)]


class Answer(Structure):
    _fields_ = [("outcome", c_uint8), ("refusal", c_uint8), ("channels", c_uint16), ("bytes", c_size_t)]


class Note(Structure):
    _fields_ = [("outcome", c_uint8), ("refusal", c_uint8), ("channel", c_uint16), ("note", c_int32), ("detuning", c_double)]


class Message(Structure):
    _fields_ = [("kind", c_uint8), ("first", c_uint8), ("second", c_uint8), ("bend", c_int16)]


library = ctypes.CDLL(sys.argv[1])
bytes_at = POINTER(c_uint8)
for name, result, arguments in [
    ("pool_open", Answer, [POINTER(Pool), bytes_at, c_size_t, c_uint8, c_uint8, c_uint8]),
    ("pool_note_on", Answer, [POINTER(Pool), c_uint8, c_double, c_uint8, bytes_at, c_size_t]),
    ("pool_note_off", Answer, [POINTER(Pool), c_uint8, c_uint8, bytes_at, c_size_t]),
    ("pool_global_attr", Answer, [POINTER(Pool), Message, bytes_at, c_size_t]),
    ("pool_stop", Answer, [POINTER(Pool), bytes_at, c_size_t]),
    ("pool_lookup", Note, [POINTER(Pool), c_uint8]),
    ("message_control_change", Message, [c_uint8, c_uint8]),
]:
    function = getattr(library, "tarvoued_" + name)
    function.restype, function.argtypes = result, arguments


def pitch(fifths_from_a, octaves):
    """Four fifths of quarter-comma meantone make a pure third and two octaves."""
    return 440 * 5 ** (fifths_from_a / 4) * 2**octaves


def show(what, answer):
    words = [f"{what:9}"]
    if answer.outcome == REFUSED:
        words.append(f"refusal {answer.refusal}")
    if answer.outcome == REJECTED:
        words.append("rejected")
    print(" ".join(words + [f"{b:02X}" for b in out[: answer.bytes]]))


channels = (c_uint8 * 3)(0, 1, 2)
pool, out = Pool(), (c_uint8 * 64)()
show("open", library.tarvoued_pool_open(byref(pool), channels, len(channels), BEND, STOP, RETRIGGER_OFF))
for name, key, hz in [("C", 60, pitch(-3, 1)), ("E", 64, pitch(1, -1)), ("G", 67, pitch(-2, 1)), ("G again", 67, pitch(-2, 1))]:
    show(name, library.tarvoued_pool_note_on(byref(pool), key, hz, 100, out, len(out)))
show("volume", library.tarvoued_pool_global_attr(byref(pool), library.tarvoued_message_control_change(7, 90), out, len(out)))
e = library.tarvoued_pool_lookup(byref(pool), 64)
print(f"E is note {e.note} on MIDI channel {channels[e.channel]}")
show("E off", library.tarvoued_pool_note_off(byref(pool), 64, 64, out, len(out)))
show("stop", library.tarvoued_pool_stop(byref(pool), out, len(out)))
