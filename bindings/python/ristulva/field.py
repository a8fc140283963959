"""The fields of a message: each octet of it is in exactly one of them, whatever the message is."""

from __future__ import annotations

import ctypes
import dataclasses
import typing
from ctypes import c_size_t

from .library import LIBRARY, CField, CNote, Said, Span

# What a field is, by the numbers of ristulva.h from 1 on. A prefix's kind says its family and its field.
KINDS = (
    "Marker", "MessageLength", "MessageType", "Version", "MyAs", "HoldTime", "Identifier", "ParametersLength", "ParameterType",
    "ParameterLength", "CapabilityCode", "CapabilityLength", "CapabilityValue", "Afi", "Safi", "Reserved", "AsNumber", "WithdrawnLength",
    "AttributesLength", "AttributeFlags", "AttributeType", "AttributeLength", "Origin", "SegmentType", "SegmentCount", "Address", "Med",
    "LocalPref", "Community", "LargeCommunity", "NextHopLength", "NextHop", "LinkLocal", "AttributeValue", "WithdrawnPrefix", "UnreachPrefix4",
    "UnreachPrefix6", "ReachPrefix4", "ReachPrefix6", "NlriPrefix", "ErrorCode", "ErrorSubcode", "Data", "Unread",
)


@dataclasses.dataclass(frozen=True)
class Field:
    """Octets of a message that have one meaning together."""

    at: int  # its offset in the message
    octets: bytes  # at least one
    kind: str  # one of KINDS
    group: typing.Optional[tuple[int, int]]  # where the attribute, parameter or capability begins that it belongs to, and its type or code

    @property
    def name(self) -> str:
        """The name that `bgp explain` prints."""
        return NAMES[self.kind]


def name_of(number: int) -> str:
    room, written = 64, c_size_t()
    name = ctypes.create_string_buffer(room)
    LIBRARY.ristulva_field_name(number, name, room, written)
    return ctypes.string_at(name, written.value).decode("ascii")


NAMES = {kind: name_of(number) for number, kind in enumerate(KINDS, 1)}


def fields_of(octets: bytes, said: Said) -> list[Field]:
    """The fields of a whole message, or of a header with a fault. There are no more than octets."""
    found, count = (CField * len(octets))(), c_size_t()
    LIBRARY.ristulva_fields(said, octets, len(octets), found, len(found), count)
    groups = [(it.group, it.type) if it.group else None for it in found[: count.value]]
    return [Field(it.at, octets[it.at : it.at + it.len], KINDS[it.kind - 1], group) for it, group in zip(found, groups)]


def fault_of(octets: bytes, said: Said) -> typing.Optional[tuple[int, int]]:
    span = Span()
    LIBRARY.ristulva_fault(said, octets, len(octets), span)
    return (span.at, span.len) if span.len else None


def fault_section_of(octets: bytes, said: Said) -> str:
    room, written = 64, c_size_t()
    text = ctypes.create_string_buffer(room)
    LIBRARY.ristulva_fault_section(said, octets, len(octets), text, room, written)
    return ctypes.string_at(text, written.value).decode("ascii")


def note_section_of(kind: int, why: int) -> str:
    room, written = 64, c_size_t()
    text = ctypes.create_string_buffer(room)
    LIBRARY.ristulva_note_section(CNote(0, kind, why), text, room, written)
    return ctypes.string_at(text, written.value).decode("ascii")
