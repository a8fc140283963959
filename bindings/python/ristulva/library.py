"""The library for C in ctypes: its statuses, its structures and its calls, as ristulva.h declares them."""

from __future__ import annotations

import ctypes
import os
import pathlib
import typing
from ctypes import POINTER, Structure, c_char_p, c_size_t, c_uint8, c_uint16, c_uint32, c_uint64, c_void_p

OK, NO_SESSION, MEMORY, RANGE, INCOMPLETE, ROOM, END, REFUSED, UNWRITABLE, STATE, CONFIG, IN_USE, MIXED = range(13)
# The first two numbers of the versions whose header this file has: while the first is 0, a new second one may change any call.
SERIES = (0, 4)
DATA, MESSAGE, HEADER, ACTIONS, BATCH, PARTS, REFRESH_MESSAGE = 4075, 4096, 19, 5, 4073, 12288, 23


class Span(Structure):
    _fields_ = [("at", c_uint32), ("len", c_uint32)]


class Said(Structure):
    """What both speakers agreed on, in C's form."""

    _fields_ = [("internal", c_uint8), ("as4", c_uint8), ("ip4", c_uint8), ("ip6", c_uint8)]


class SaidTerms(Structure):
    """What holds for one direction of a session, in C's form."""

    _fields_ = [("context", Said), ("refresh", c_uint8), ("long_messages", c_uint8), ("long_back", c_uint8), ("paths4", c_uint8), ("paths6", c_uint8),
                ("hop6", c_uint8)]


class Verdict(Structure):
    _fields_ = [("verdict", c_uint8), ("kind", c_uint8), ("code", c_uint8), ("subcode", c_uint8), ("len", c_uint32), ("data_len", c_uint32),
                ("withdrawn", Span), ("attributes", Span), ("nlri", Span)]


class Attributes(Structure):
    _fields_ = [("at", c_uint32), ("end", c_uint32)]


class CAttribute(Structure):
    _fields_ = [("at", c_uint32), ("flags", c_uint8), ("kind", c_uint8), ("value", Span)]


class Prefixes(Structure):
    _fields_ = [("at", c_uint32), ("end", c_uint32), ("afi", c_uint16)]


class CPrefix(Structure):
    _fields_ = [("afi", c_uint16), ("len", c_uint8), ("addr", c_uint8 * 16)]


class Segments(Structure):
    _fields_ = [("at", c_uint32), ("end", c_uint32), ("wide", c_uint8), ("confederations", c_uint8)]


class CSegment(Structure):
    _fields_ = [("kind", c_uint8), ("numbers", Span)]


class CNote(Structure):
    _fields_ = [("at", c_uint32), ("kind", c_uint8), ("why", c_uint8)]


class CField(Structure):
    _fields_ = [("at", c_uint16), ("len", c_uint16), ("group", c_uint16), ("kind", c_uint8), ("type", c_uint8)]


class CCleaned(Structure):
    _fields_ = [("ends", c_uint8), ("verdict", c_uint8), ("code", c_uint8), ("subcode", c_uint8), ("len", c_uint32), ("discarded", c_size_t),
                ("left_out", c_size_t), ("capabilities", c_size_t)]


class Numbers(Structure):
    _fields_ = [("at", c_uint32), ("end", c_uint32), ("width", c_uint8)]


class LargeCommunities(Structure):
    _fields_ = [("first", c_uint32), ("at", c_uint32), ("end", c_uint32)]


class CLargeCommunity(Structure):
    _fields_ = [("numbers", c_uint32 * 3)]


class Capabilities(Structure):
    _fields_ = [("at", c_uint32), ("stop", c_uint32), ("end", c_uint32)]


class CCapability(Structure):
    _fields_ = [("code", c_uint8), ("value", Span)]


class COpen(Structure):
    _fields_ = [("as_number", c_uint32), ("as_field", c_uint16), ("hold", c_uint16), ("id", c_uint8 * 4), ("as4", c_uint8), ("ip4", c_uint8),
                ("ip6", c_uint8), ("capabilities", Capabilities)]


class CRefresh(Structure):
    _fields_ = [("afi", c_uint16), ("safi", c_uint8), ("subtype", c_uint8), ("rest", Span)]


class CConfig(Structure):
    _fields_ = [("local_as", c_uint32), ("peer_as", c_uint32), ("id", c_uint8 * 4), ("hold", c_uint16), ("as4", c_uint8), ("ip4", c_uint8),
                ("ip6", c_uint8)]


class CAction(Structure):
    _fields_ = [("kind", c_uint8), ("timer", c_uint8), ("seconds", c_uint16), ("code", c_uint8), ("subcode", c_uint8)]


class CActions(Structure):
    _fields_ = [("count", c_size_t), ("list", CAction * ACTIONS)]


class CHeard(Structure):
    _fields_ = [("heard", c_uint8), ("code", c_uint8), ("subcode", c_uint8), ("len", c_uint32), ("withdrawn", Span), ("attributes", Span),
                ("nlri", Span)]


class CPeer(Structure):
    _fields_ = [("as_number", c_uint32), ("id", c_uint8 * 4), ("hold", c_uint16), ("as4", c_uint8), ("ip4", c_uint8), ("ip6", c_uint8)]


class CNextHops(Structure):
    _fields_ = [("next_hop", c_uint8 * 4), ("mp_next_hop", c_uint8 * 16), ("link_local", c_uint8 * 16), ("mp_afi", c_uint16), ("has_next_hop", c_uint8),
                ("has_link_local", c_uint8)]


class CPaths(Structure):
    _fields_ = [("as_path", Span), ("as4_path", Span), ("communities", Span), ("large_communities", Span), ("origin_as", c_uint32),
                ("has_as_path", c_uint8), ("has_as4_path", c_uint8), ("has_communities", c_uint8), ("has_large_communities", c_uint8),
                ("has_origin_as", c_uint8)]


class CFacts(Structure):
    _fields_ = [("hops", CNextHops), ("paths", CPaths), ("med", c_uint32), ("local_pref", c_uint32), ("aggregator_as", c_uint32),
                ("aggregator_address", c_uint8 * 4), ("unrecognised", c_uint32), ("origin", c_uint8), ("has_origin", c_uint8), ("has_med", c_uint8),
                ("has_local_pref", c_uint8), ("has_aggregator", c_uint8), ("atomic_aggregate", c_uint8)]


class RouteCursor(Structure):
    _fields_ = [("withdrawn", Prefixes), ("unreached", Prefixes), ("reached", Prefixes), ("nlri", Prefixes), ("announces", c_uint8),
                ("loses_ip6", c_uint8)]


class CRoute(Structure):
    _fields_ = [("announced", c_uint8), ("prefix", CPrefix)]


class Handle(Structure):
    """The handle of a session, a decoder or a stream: None where it has none."""

    _fields_ = [("body", c_void_p)]


def place() -> str:
    """The path of the shared library: what RISTULVA_LIBRARY says, else beside this file, else where the loader finds its soname. Never in the folder
    that Python was started in."""
    named = os.environ.get("RISTULVA_LIBRARY")
    if named is not None:
        if not os.path.isabs(named):
            raise ImportError(f"RISTULVA_LIBRARY has to be an absolute path, and is {named!r}")
        return named
    soname = "libristulva.so.{}.{}".format(*SERIES)
    beside = pathlib.Path(__file__).resolve().with_name(soname)
    return str(beside) if beside.exists() else soname


# Calls that take no longer than releasing and taking Python's lock again: they keep it.
SHORT = (
    "next_attribute", "next_prefix", "next_route", "next_segment", "next_number", "next_large_community", "next_capability", "reached", "unreached", "open", "judge",
    "facts", "begin_routes", "agree", "name", "session_state", "session_context", "terms_of", "judge_in", "refresh_in", "encode_refresh",
    "judge_paths", "without_paths", "paths",
)


class Library:
    """The calls of the shared library by their names."""

    def __init__(self, where: str) -> None:
        self._long, self._short = opened(where, ctypes.CDLL), opened(where, ctypes.PyDLL)

    def bind(self, name: str, arguments: list[typing.Any]) -> bool:
        """Makes a call an attribute. Whether the library has it."""
        call = getattr(self._short if name in SHORT else self._long, f"ristulva_{name}", None)
        if call is None:
            return False
        call.argtypes, call.restype = arguments, c_uint32
        setattr(self, f"ristulva_{name}", call)
        return True

    def __getattr__(self, name: str) -> typing.Any:
        raise AttributeError(name)


def opened(where: str, form: typing.Type[ctypes.CDLL]) -> ctypes.CDLL:
    """The shared library at this path."""
    try:
        return form(where)
    except OSError as error:
        package = "libristulva{}.{}".format(*SERIES)
        raise ImportError(f"there is no library for ristulva: {error}; install the wheel or {package}, or set RISTULVA_LIBRARY to its absolute path") from error


def load() -> tuple[Library, int]:
    """The shared library, with the types of its calls, and its version."""
    where = place()
    library = Library(where)
    octets: list[typing.Any] = [c_char_p, c_size_t]
    # A buffer and its room precede the other results.
    buffer: list[typing.Any] = [c_char_p, c_size_t]
    # Rows of numpy and octets anywhere in a buffer are passed by their addresses.
    batch = [POINTER(Said), c_void_p, c_size_t, c_void_p, c_size_t, POINTER(c_size_t), POINTER(c_size_t)]
    session = decoder = stream = POINTER(Handle)
    takes = {
        "judge": [POINTER(Said), *octets, *buffer, POINTER(Verdict)],
        "notes": [POINTER(Said), *octets, POINTER(CNote), c_size_t, POINTER(c_size_t)],
        "facts": [POINTER(Said), *octets, POINTER(CFacts)],
        "begin_routes": [POINTER(Said), *octets, POINTER(RouteCursor)],
        "next_route": [*octets, POINTER(RouteCursor), POINTER(CRoute)],
        "routes": batch,
        "path_numbers": batch,
        "communities_of": batch,
        "large_communities_of": batch,
        "agree": [*octets, *octets, POINTER(Said), POINTER(c_uint16)],
        "terms_of": [*octets, *octets, POINTER(SaidTerms), POINTER(c_uint16)],
        "judge_in": [POINTER(SaidTerms), *octets, *buffer, POINTER(Verdict)],
        "text_in": [POINTER(SaidTerms), c_uint64, *octets, *buffer, POINTER(c_size_t)],
        "refresh_in": [POINTER(SaidTerms), *octets, POINTER(CRefresh)],
        "judge_paths": [POINTER(SaidTerms), *octets, *buffer, POINTER(Verdict)],
        "without_paths": [POINTER(SaidTerms), *octets, *buffer, POINTER(c_size_t)],
        "paths": [POINTER(SaidTerms), *octets, POINTER(c_uint32), c_size_t, POINTER(c_size_t)],
        "encode_refresh": [c_uint16, c_uint8, c_uint8, *buffer, POINTER(c_size_t)],
        "name": [c_uint8, c_uint8, c_uint8, *buffer, POINTER(c_size_t)],
        "fields": [POINTER(Said), *octets, POINTER(CField), c_size_t, POINTER(c_size_t)],
        "fault": [POINTER(Said), *octets, POINTER(Span)],
        "fault_section": [POINTER(Said), *octets, *buffer, POINTER(c_size_t)],
        "note_section": [POINTER(CNote), *buffer, POINTER(c_size_t)],
        "field_name": [c_uint32, *buffer, POINTER(c_size_t)],
        "text": [POINTER(Said), c_uint64, *octets, *buffer, POINTER(c_size_t)],
        "encode": [POINTER(Said), *octets, *buffer, POINTER(c_size_t)],
        "narrow": [POINTER(Said), *octets, *buffer, POINTER(c_size_t)],
        "reconcile": [POINTER(Said), *octets, *buffer, POINTER(c_size_t)],
        "clean": [POINTER(Said), *octets, c_uint8, *octets, *buffer, POINTER(c_size_t), POINTER(CCleaned)],
        "next_attribute": [*octets, POINTER(Attributes), POINTER(CAttribute)],
        "next_prefix": [*octets, POINTER(Prefixes), POINTER(CPrefix)],
        "next_segment": [*octets, POINTER(Segments), POINTER(CSegment)],
        "next_number": [*octets, POINTER(Numbers), POINTER(c_uint32)],
        "next_large_community": [*octets, POINTER(LargeCommunities), POINTER(CLargeCommunity)],
        "reached": [*octets, POINTER(Span), POINTER(Span), POINTER(Prefixes)],
        "unreached": [*octets, POINTER(Span), POINTER(Prefixes)],
        "open": [*octets, POINTER(COpen)],
        "next_capability": [*octets, POINTER(Capabilities), POINTER(CCapability)],
        "decoder_new": [POINTER(Said), decoder],
        "decoder_free": [decoder],
        "decoder_pull": [decoder, *octets, *buffer, *buffer, POINTER(c_size_t), POINTER(Verdict)],
        "decoder_held": [decoder, POINTER(c_size_t)],
        "stream_new": [POINTER(SaidTerms), stream],
        "stream_free": [stream],
        "stream_pull": [stream, *octets, *buffer, *buffer, POINTER(c_size_t), POINTER(Verdict)],
        "stream_held": [stream, POINTER(c_size_t)],
        "session_new": [POINTER(CConfig), session],
        "session_free": [session],
        "session_state": [session, POINTER(c_uint8)],
        "session_event": [session, c_uint32, POINTER(CActions), *buffer, POINTER(c_size_t)],
        "session_hear": [session, *octets, POINTER(CHeard), POINTER(CActions), *buffer, POINTER(c_size_t)],
        "session_context": [session, POINTER(Said), POINTER(c_uint16)],
        "session_peer": [session, POINTER(CPeer)],
        "session_codes": [session, *buffer, POINTER(c_size_t)],
        "session_open": [session, *buffer, POINTER(c_size_t)],
        "session_send": [session, *octets, POINTER(CActions), *buffer, POINTER(c_size_t)],
    }
    # The version first: a library of another series may lack a call.
    if not library.bind("version", []):
        raise ImportError(f"{where} is another library")
    version: int = library.ristulva_version()
    if divmod(version // 1000, 1000) != SERIES:
        raise ImportError("{} is version {}.{}, and this package is for {}.{}".format(where, *divmod(version // 1000, 1000), *SERIES))
    for name, arguments in takes.items():
        if not library.bind(name, arguments):
            raise ImportError(f"{where} has no ristulva_{name}: this package is for a later version")
    return library, version


LIBRARY, VERSION = load()
