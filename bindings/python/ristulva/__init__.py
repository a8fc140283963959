"""Ristulva for Python: BGP-4 messages, read and judged, and sessions, by the library for C.

It is the file that RISTULVA_LIBRARY names by an absolute path, else libristulva.so.0.4 beside this file, else what the loader finds by that name.

    for message in ristulva.messages(octets, ristulva.Context(as4=True)):
        print(message, end="")
        if message.verdict == "update":  # the routes of a "withdraw" are all withdrawn, and a "reset" is the last
            for prefix in message.announced():
                ...

    terms, hold_time = ristulva.terms_of(our_open, their_open)  # what they send to us is read by these: with ROUTE-REFRESH, where we offer that
    for message in ristulva.messages(their_octets, terms):
        if message.verdict == "refresh":
            print(message.refresh().afi, message.refresh().safi)

    table = ristulva.table(octets, ristulva.Context(as4=True))  # the routes of a whole stream as an array of numpy, which has to be installed
    print(table.routes["origin_as"][table.routes["announced"]])

    with ristulva.Decoder(ristulva.Context(as4=True)) as decoder:  # or Terms, which `table` takes too
        for piece in pieces:
            for message in decoder.feed(piece):
                ...

    with ristulva.Session(ristulva.Config(65001, 65002, "192.0.2.1")) as session:
        for action in session.event(ristulva.Event.START):
            ..."""

from .decoder import Decoder, DecoderClosed
from .facts import ORIGINS, Facts
from .field import KINDS, Field
from .library import MESSAGE, VERSION
from .message import (
    ENDS, VERDICTS, WHYS, Attribute, Cleaned, Context, FamilyNotAgreed, Incomplete, Message, Open, Prefix, Refresh, Refreshes, Refused, Route, Subtype, Terms,
    WrongState, agree, directions, encode, encode_refresh, judge, messages, narrow, note_section, reconcile, terms_of,
)
from .numbers import (
    AttributeType, CapabilityCode, CeaseError, ErrorCode, HeaderError, OpenError, RefreshError, StateError, UpdateError, attribute_name,
    capability_name, error_name, subcode_name,
)
from .session import (
    Action, Announce, Arm, Close, Config, Disarm, Event, Flush, Heard, Peer, Seek, Send, Session, SessionClosed, State, Timer, Withdraw,
)
from .tables import Reset, Table, arrow, frame, joined, prefixes, table

__version__ = "0.4.0"

__all__ = [
    "ENDS", "KINDS", "MESSAGE", "ORIGINS", "VERDICTS", "VERSION", "WHYS", "Action", "Announce", "Arm", "Attribute", "AttributeType",
    "CapabilityCode", "CeaseError", "Cleaned", "Close", "Config", "Context", "Decoder", "DecoderClosed", "Disarm", "ErrorCode", "Event",
    "Facts", "FamilyNotAgreed", "Field", "Flush", "HeaderError", "Heard", "Incomplete", "Message", "Open", "OpenError", "Peer", "Prefix",
    "Refresh", "RefreshError", "Refreshes", "Refused", "Reset", "Route", "Seek", "Send", "Session", "SessionClosed", "State", "StateError", "Subtype",
    "Table", "Terms", "Timer", "UpdateError", "Withdraw", "WrongState", "__version__", "agree", "arrow", "attribute_name", "capability_name", "directions",
    "encode", "encode_refresh", "error_name", "frame", "joined", "judge", "messages", "narrow", "note_section", "prefixes", "reconcile", "subcode_name",
    "table", "terms_of",
]
