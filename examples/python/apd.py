"""Programs of the BPF instruction set, verified and run, and an access point that they judge, by libapd.so.

    program = apd.verify(apd.DATA, code)
    report = apd.run(program, apd.Maps(), frame, apd.context(apd.DATA))

LIBAPD names the library if the system's loader doesn't find libapd.so. A program, maps and a link may go from thread to
thread, but are used by one at a time.
"""
import ctypes
import os
import struct
from ctypes import POINTER, byref, c_bool, c_char, c_char_p, c_size_t, c_uint8, c_uint16, c_uint32, c_uint64, c_void_p
from dataclasses import dataclass
from typing import NamedTuple, Optional

ASSOCIATION, ADDBA, DATA = 1, 2, 3
NO_TID = 255
SEND, UP, NOTE = 1, 2, 3


class Shape(NamedTuple):
    """A map: 1 to 4096 entries of 1 to 8 words of 4 or 8 bytes."""

    entries: int
    words: int
    width: int


class _Handle(ctypes.Structure):
    _fields_ = [("full", c_bool), ("at", c_void_p)]


class _Answer(ctypes.Structure):
    _fields_ = [("number", c_uint32), ("slot", c_size_t)]


class _Shape(ctypes.Structure):
    _fields_ = [("entries", c_uint32), ("words", c_uint32), ("width", c_uint32)]


class _Loaded(ctypes.Structure):
    _fields_ = [("number", c_uint32), ("value", c_uint64)]


class _Given(ctypes.Structure):
    _fields_ = [("clock", c_uint64), ("stations", c_uint16), ("context", c_uint8 * 32)]


class _Report(ctypes.Structure):
    _fields_ = [("number", c_uint32), ("steps", c_uint32), ("r0", c_uint64), ("count", c_size_t), ("notes", c_uint64 * 16)]


class _Network(ctypes.Structure):
    _fields_ = [("bssid", c_uint8 * 6), ("name_length", c_uint8), ("name", c_uint8 * 32), ("rate_count", c_uint8),
                ("rates", c_uint8 * 8)]


class _Station(ctypes.Structure):
    _fields_ = [("octets", c_uint8 * 6)]


class _Out(ctypes.Structure):
    _fields_ = [("kind", c_uint32), ("length", c_size_t), ("user", c_uint64), ("source", c_uint8 * 6),
                ("destination", c_uint8 * 6), ("number", c_uint16), ("tid", c_uint8), ("mark", c_uint8),
                ("note", c_uint8)]


class _Standing(ctypes.Structure):
    _fields_ = [("station", _Station), ("state", c_uint8), ("aid", c_uint16)]


class _Agreement(ctypes.Structure):
    _fields_ = [("station", _Station), ("tid", c_uint8), ("start", c_uint16), ("size", c_uint16), ("timeout", c_uint16),
                ("held", c_size_t)]


_HANDLE = POINTER(_Handle)
_SHAPES = POINTER(_Shape)
_EVENT = [_HANDLE, _HANDLE, _HANDLE]
_CALLS = {
    "verify_limited": (_Answer, [_HANDLE, c_uint32, c_char_p, c_size_t, _SHAPES, c_size_t, c_uint32, c_uint64]),
    "check_within": (_Answer, [_HANDLE, c_uint32, c_char_p, c_size_t, _SHAPES, c_size_t, c_char_p, c_size_t, c_uint64]),
    "why": (c_size_t, [c_uint32, c_char_p, c_size_t, _SHAPES, c_size_t, c_uint32, c_char_p, c_size_t]),
    "certify": (_Answer, [_HANDLE, _HANDLE]),
    "budget": (c_uint32, [_HANDLE]),
    "read": (c_size_t, [_HANDLE, c_void_p, c_size_t]),
    "explain": (c_size_t, [c_uint32, POINTER(c_char), c_size_t]),
    "maps": (c_uint32, [_HANDLE, _SHAPES, c_size_t, c_uint64]),
    "load": (_Loaded, [_HANDLE, c_uint32, c_uint32]),
    "store": (c_uint32, [_HANDLE, c_uint32, c_uint32, c_uint64]),
    "fetch_add": (_Loaded, [_HANDLE, c_uint32, c_uint32, c_uint64]),
    "run": (_Report, [_HANDLE, _HANDLE, c_char_p, c_size_t, POINTER(_Given)]),
    "link": (c_uint32, [_HANDLE, POINTER(_Network), _SHAPES, c_size_t]),
    "link_load": (c_uint32, [_HANDLE, c_uint32, _HANDLE]),
    "link_unload": (c_uint32, [_HANDLE, c_uint32]),
    "link_frame": (c_uint32, [*_EVENT, c_char_p, c_size_t, c_uint64]),
    "link_tick": (c_uint32, [*_EVENT, c_uint32, c_uint64]),
    "link_kick": (c_uint32, [*_EVENT, POINTER(_Station), c_uint16, c_uint64]),
    "link_close": (c_uint32, [*_EVENT, POINTER(_Station), c_uint8, c_uint64]),
    "link_stations": (c_uint32, [_HANDLE, _HANDLE]),
    "link_agreements": (c_uint32, [_HANDLE, _HANDLE]),
    "station_count": (c_size_t, [_HANDLE]),
    "station_at": (_Standing, [_HANDLE, c_size_t]),
    "agreement_count": (c_size_t, [_HANDLE]),
    "agreement_at": (_Agreement, [_HANDLE, c_size_t]),
    "outs": (c_size_t, [_HANDLE]),
    "out_at": (_Out, [_HANDLE, c_size_t]),
    "out_bytes": (c_size_t, [_HANDLE, c_size_t, c_void_p, c_size_t]),
    "free": (None, [_HANDLE]),
}


def _opened():
    """The library, whose functions know their types."""
    library = ctypes.CDLL(os.environ.get("LIBAPD", "libapd.so"))
    for name, (result, arguments) in _CALLS.items():
        call = getattr(library, f"apd_{name}")
        call.restype, call.argtypes = result, arguments
    return library


_apd = _opened()
VERSION = (c_char * 16).in_dll(_apd, "apd_version").value.decode()


def explain(number):
    """What the number of a refusal means, in a few words; an empty text if no refusal has it."""
    room = ctypes.create_string_buffer(128)
    _apd.apd_explain(number, room, len(room))
    return room.value.decode()


class Refused(Exception):
    """A call is refused, for the reason of this number, at this slot of a program."""

    def __init__(self, number, slot=0):
        super().__init__(f"{number} at {slot}: {explain(number)}")
        self.number, self.slot = number, slot


def _admit(number, slot=0):
    if number:
        raise Refused(number, slot)


class _Owner:
    """What a handle holds, until it is given up."""

    def __init__(self):
        self._handle = _Handle()

    def free(self):
        """Frees it; afterwards calls on it are refused (91)."""
        _apd.apd_free(byref(self._handle))

    def __enter__(self):
        return self

    def __exit__(self, *_):
        self.free()

    def __del__(self):
        if hasattr(self, "_handle"):
            self.free()


def _shapes_of(shapes):
    return (_Shape * len(shapes))(*(_Shape(*shape) for shape in shapes)), len(shapes)


def _octets(octets, count):
    if len(octets) != count:
        raise ValueError(f"{count} octets are wanted, not {len(octets)}")
    return (c_uint8 * count)(*octets)


class Program(_Owner):
    """An admitted program; `verify` and `check` make one."""

    def __init__(self, hook, shapes):
        super().__init__()
        self.hook, self.shapes = hook, tuple(shapes)

    @property
    def budget(self):
        """The most instructions that a run takes."""
        return _apd.apd_budget(byref(self._handle))

    def certificate(self):
        """Bytes by which `check` admits the program again."""
        with _Owner() as made:
            answer = _apd.apd_certify(byref(made._handle), byref(self._handle))
            _admit(answer.number, answer.slot)
            room = ctypes.create_string_buffer(_apd.apd_read(byref(made._handle), None, 0))
            _apd.apd_read(byref(made._handle), room, len(room))
            return room.raw


def verify(hook, code, shapes=(), states=0, work=0):
    """Admits a program for a hook and maps of these shapes, or raises Refused. `states` is the most states that are
    examined; 0 for no limit but the verifier's own. `work` is the most work that the verifier does: parts of states that
    are examined, made again, or compared with a finished one; 0 for no limit."""
    program = Program(hook, shapes)
    answer = _apd.apd_verify_limited(byref(program._handle), hook, code, len(code), *_shapes_of(shapes), states, work)
    _admit(answer.number, answer.slot)
    return program


def why(hook, code, shapes=(), states=0):
    """Why `verify` refuses these, in lines of text; of a program that it admits, what its states were. The program is
    explored again. Empty for lack of memory, or if the hook or the shapes are out of their limits."""
    told = (hook, code, len(code), *_shapes_of(shapes), states)
    room = ctypes.create_string_buffer(_apd.apd_why(*told, None, 0) + 1)
    _apd.apd_why(*told, room, len(room))
    return room.value.decode()


def check(hook, code, certificate, shapes=(), work=0):
    """Admits a program by a certificate, or raises Refused. `work` is the most work that the check does: parts of states
    that are examined, and of those that are compared with one of the certificate; 0 for no limit."""
    program = Program(hook, shapes)
    answer = _apd.apd_check_within(byref(program._handle), hook, code, len(code), *_shapes_of(shapes), certificate,
                                   len(certificate), work)
    _admit(answer.number, answer.slot)
    return program


class Maps(_Owner):
    """The words of maps, all 0 at first; programs draw `draw` first."""

    def __init__(self, shapes=(), draw=0):
        super().__init__()
        self.shapes = tuple(shapes)
        _admit(_apd.apd_maps(byref(self._handle), *_shapes_of(self.shapes), draw))

    def load(self, at, word):
        """A word of map `at`. Its number is its entry's index times the words of an entry, plus its place there."""
        loaded = _apd.apd_load(byref(self._handle), at, word)
        _admit(loaded.number)
        return loaded.value

    def store(self, at, word, value):
        _admit(_apd.apd_store(byref(self._handle), at, word, value))

    def fetch_add(self, at, word, value):
        """Adds to a word, and answers what it was."""
        loaded = _apd.apd_fetch_add(byref(self._handle), at, word, value)
        _admit(loaded.number)
        return loaded.value


def context(hook, station=bytes(6), state=3, aid=0, tid=NO_TID, numbers=(0, 0, 0)):
    """The 32 bytes that a program is told; `numbers` are the hook's own three (include/apd_context.h)."""
    return struct.pack("<6sBBHBx3H14x", station, hook, state, aid, tid, *numbers)


@dataclass
class Report:
    """What a run came to: R0, the instructions that it took, and the first 16 notes."""

    r0: int
    steps: int
    notes: list


def run(program, maps, frame, told, clock=0, stations=0):
    """Runs a program on a frame of at most 2400 bytes; `told` is its context."""
    given = _Given(clock, stations, _octets(told, 32))
    report = _apd.apd_run(byref(program._handle), byref(maps._handle), frame, len(frame), byref(given))
    _admit(report.number)
    return Report(report.r0, report.steps, list(report.notes[: report.count]))


@dataclass
class Out:
    """What came out of an event: a frame to be sent, data to be passed up, or the number of a note. What a kind doesn't
    have is 0 or empty; the TID is None if the data has none. `user` is what the event was given."""

    kind: int
    body: bytes
    source: bytes
    destination: bytes
    number: int
    tid: Optional[int]
    mark: int
    note: int
    user: int


def _read_outs(outs):
    found = []
    for at in range(_apd.apd_outs(byref(outs))):
        out = _apd.apd_out_at(byref(outs), at)
        room = ctypes.create_string_buffer(out.length) if out.length else None
        _apd.apd_out_bytes(byref(outs), at, room, out.length)
        found.append(Out(out.kind, room.raw if room else b"", bytes(out.source), bytes(out.destination), out.number,
                         None if out.tid == NO_TID else out.tid, out.mark, out.note, out.user))
    return found


class Station(NamedTuple):
    """A known station: state 2 is authenticated, 3 is associated, with an association identifier."""

    station: bytes
    state: int
    aid: int


class Agreement(NamedTuple):
    """An agreement in force: its window's first number and size, how many numbers that holds, and its timeout in units of
    1024 microseconds, 0 for none."""

    station: bytes
    tid: int
    start: int
    size: int
    held: int
    timeout: int


class Link(_Owner):
    """An access point that has handled nothing and has no programs yet. Its programs run over `maps`."""

    def __init__(self, bssid, name, rates, shapes=(), draw=0):
        super().__init__()
        if len(name) > 32 or len(rates) > 8:
            raise Refused(90)
        network = _Network(_octets(bssid, 6), len(name), (c_uint8 * 32)(*name), len(rates), (c_uint8 * 8)(*rates))
        _admit(_apd.apd_link(byref(self._handle), byref(network), *_shapes_of(shapes)))
        self.maps = Maps(shapes, draw)

    def load(self, program):
        """Judges by a program on its hook from now on; the program is the link's afterwards."""
        _admit(_apd.apd_link_load(byref(self._handle), program.hook, byref(program._handle)))

    def unload(self, hook):
        """Judges by no program on this hook from now on."""
        _admit(_apd.apd_link_unload(byref(self._handle), hook))

    def _listed(self, fill, count, row_at):
        rows = _Handle()
        _admit(fill(byref(self._handle), byref(rows)))
        try:
            return [row_at(byref(rows), at) for at in range(count(byref(rows)))]
        finally:
            _apd.apd_free(byref(rows))

    def stations(self):
        """The stations that it knows, by increasing addresses."""
        rows = self._listed(_apd.apd_link_stations, _apd.apd_station_count, _apd.apd_station_at)
        return [Station(bytes(row.station.octets), row.state, row.aid) for row in rows]

    def agreements(self):
        """The agreements in force, by increasing addresses and TIDs."""
        rows = self._listed(_apd.apd_link_agreements, _apd.apd_agreement_count, _apd.apd_agreement_at)
        return [Agreement(bytes(row.station.octets), row.tid, row.start, row.size, row.held, row.timeout) for row in rows]

    def _event(self, call, *arguments):
        outs = _Handle()
        _admit(call(byref(self._handle), byref(self.maps._handle), byref(outs), *arguments))
        try:
            return _read_outs(outs)
        finally:
            _apd.apd_free(byref(outs))

    def frame(self, octets, user=0):
        """A frame without its check sequence comes; the outs, each with `user`."""
        return self._event(_apd.apd_link_frame, octets, len(octets), user)

    def tick(self, units=1, user=0):
        """Units of 1024 microseconds pass; the outs."""
        return self._event(_apd.apd_link_tick, units, user)

    def kick(self, station, reason, user=0):
        """Sends a station away; the outs."""
        return self._event(_apd.apd_link_kick, byref(_Station(_octets(station, 6))), reason, user)

    def close_agreement(self, station, tid, user=0):
        """Ends a station's agreement for a TID; the outs."""
        return self._event(_apd.apd_link_close, byref(_Station(_octets(station, 6))), tid, user)
