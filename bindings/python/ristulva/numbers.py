"""Numbers of BGP-4 (the registries of IANA), and their names."""

from __future__ import annotations

import ctypes
import enum
from ctypes import c_size_t

from .library import LIBRARY


class AttributeType(enum.IntEnum):
    """Types of path attributes."""

    ORIGIN = 1
    AS_PATH = 2
    NEXT_HOP = 3
    MULTI_EXIT_DISC = 4
    LOCAL_PREF = 5
    ATOMIC_AGGREGATE = 6
    AGGREGATOR = 7
    COMMUNITIES = 8
    ORIGINATOR_ID = 9
    CLUSTER_LIST = 10
    MP_REACH_NLRI = 14
    MP_UNREACH_NLRI = 15
    EXTENDED_COMMUNITIES = 16
    AS4_PATH = 17
    AS4_AGGREGATOR = 18
    PMSI_TUNNEL = 22
    TUNNEL_ENCAPSULATION = 23
    IP6_EXTENDED_COMMUNITIES = 25
    AIGP = 26
    BGP_LS = 29
    LARGE_COMMUNITY = 32
    BGPSEC_PATH = 33
    ONLY_TO_CUSTOMER = 35
    D_PATH = 36
    PREFIX_SID = 40
    ATTR_SET = 128


class CapabilityCode(enum.IntEnum):
    """Codes of capabilities."""

    MULTIPROTOCOL = 1
    ROUTE_REFRESH = 2
    OUTBOUND_ROUTE_FILTERING = 3
    EXTENDED_NEXT_HOP = 5
    EXTENDED_MESSAGE = 6
    BGPSEC = 7
    MULTIPLE_LABELS = 8
    ROLE = 9
    GRACEFUL_RESTART = 64
    AS4 = 65
    DYNAMIC_CAPABILITY = 67
    MULTISESSION = 68
    ADD_PATH = 69
    ENHANCED_ROUTE_REFRESH = 70
    LONG_LIVED_GRACEFUL_RESTART = 71
    ROUTING_POLICY_DISTRIBUTION = 72
    FQDN = 73
    SOFTWARE_VERSION = 75
    PATHS_LIMIT = 76
    PRESTANDARD_ROUTE_REFRESH = 128


class ErrorCode(enum.IntEnum):
    """Codes of NOTIFICATIONs."""

    HEADER = 1
    OPEN = 2
    UPDATE = 3
    HOLD_TIMER = 4
    STATE_MACHINE = 5
    CEASE = 6
    ROUTE_REFRESH = 7
    SEND_HOLD_TIMER = 8


class HeaderError(enum.IntEnum):
    """Subcodes of Message Header Error."""

    NOT_SYNCHRONIZED = 1
    BAD_LENGTH = 2
    BAD_TYPE = 3


class OpenError(enum.IntEnum):
    """Subcodes of OPEN Message Error."""

    UNSUPPORTED_VERSION = 1
    BAD_PEER_AS = 2
    BAD_IDENTIFIER = 3
    UNSUPPORTED_PARAMETER = 4
    UNACCEPTABLE_HOLD_TIME = 6
    UNSUPPORTED_CAPABILITY = 7
    ROLE_MISMATCH = 11


class UpdateError(enum.IntEnum):
    """Subcodes of UPDATE Message Error."""

    MALFORMED_ATTRIBUTE_LIST = 1
    UNRECOGNIZED_WELL_KNOWN = 2
    MISSING_WELL_KNOWN = 3
    ATTRIBUTE_FLAGS = 4
    ATTRIBUTE_LENGTH = 5
    INVALID_ORIGIN = 6
    INVALID_NEXT_HOP = 8
    OPTIONAL_ATTRIBUTE = 9
    INVALID_NETWORK_FIELD = 10
    MALFORMED_AS_PATH = 11


class StateError(enum.IntEnum):
    """Subcodes of Finite State Machine Error."""

    IN_OPEN_SENT = 1
    IN_OPEN_CONFIRM = 2
    IN_ESTABLISHED = 3


class CeaseError(enum.IntEnum):
    """Subcodes of Cease."""

    MAXIMUM_PREFIXES = 1
    ADMINISTRATIVE_SHUTDOWN = 2
    PEER_DE_CONFIGURED = 3
    ADMINISTRATIVE_RESET = 4
    CONNECTION_REJECTED = 5
    OTHER_CONFIGURATION_CHANGE = 6
    CONNECTION_COLLISION = 7
    OUT_OF_RESOURCES = 8
    HARD_RESET = 9
    BFD_DOWN = 10


class RefreshError(enum.IntEnum):
    """Subcodes of ROUTE-REFRESH Message Error."""

    INVALID_LENGTH = 1


def name(kind: int, number: int, subcode: int = 0) -> str:
    room, written = 64, c_size_t()
    text = ctypes.create_string_buffer(room)
    if not (0 <= number < 256 and 0 <= subcode < 256):
        return ""
    LIBRARY.ristulva_name(kind, number, subcode, text, room, written)
    return ctypes.string_at(text, written.value).decode("ascii")


def attribute_name(kind: int) -> str:
    """The name of a type of path attribute; empty where it has none here."""
    return name(3, kind)


def capability_name(code: int) -> str:
    """The name of a capability's code."""
    return name(4, code)


def error_name(code: int) -> str:
    """The name of a NOTIFICATION's code."""
    return name(5, code)


def subcode_name(code: int, subcode: int) -> str:
    """The name of a subcode of a code."""
    return name(6, code, subcode)
