"""What everybody asks of an UPDATE, of the attributes that are kept."""

from __future__ import annotations

import dataclasses
import ipaddress
import typing

from .library import CFacts, Span

Address = typing.Union[ipaddress.IPv4Address, ipaddress.IPv6Address]
ORIGINS = ("IGP", "EGP", "INCOMPLETE")


@dataclasses.dataclass(frozen=True)
class Facts:
    """What is kept of an UPDATE that is accepted: neither what is discarded nor what is in one that is treated as a withdrawal. What is missing is None."""

    origin: typing.Optional[str]  # one of ORIGINS
    next_hop: typing.Optional[ipaddress.IPv4Address]  # NEXT_HOP
    mp_next_hop: typing.Optional[Address]  # the next hop of MP_REACH_NLRI, for IPv6 its global address
    link_local: typing.Optional[ipaddress.IPv6Address]  # the link-local address after that one (RFC 2545)
    med: typing.Optional[int]
    local_pref: typing.Optional[int]
    atomic_aggregate: bool
    aggregator: typing.Optional[tuple[int, ipaddress.IPv4Address]]  # what AGGREGATOR and AS4_AGGREGATOR give together (RFC 6793, section 4.2.3)
    # The origin AS of the route: the last number of the path that AS_PATH and AS4_PATH give together. None where that is empty or ends in a set.
    origin_as: typing.Optional[int]
    as_path: typing.Optional[slice]  # where the value of AS_PATH lies in the message's octets; so with the three others
    as4_path: typing.Optional[slice]
    communities: typing.Optional[slice]
    large_communities: typing.Optional[slice]
    unrecognised: int  # the number of attributes of types that aren't recognised

    @property
    def next_hops(self) -> list[Address]:
        """NEXT_HOP, and the next hop of MP_REACH_NLRI: those that are present."""
        return [hop for hop in (self.next_hop, self.mp_next_hop) if hop is not None]


def lies(has: int, span: Span) -> typing.Optional[slice]:
    return slice(span.at, span.at + span.len) if has else None


def facts_of(it: CFacts) -> Facts:
    """From C's form."""
    hops, paths = it.hops, it.paths
    over = {0: None, 1: ipaddress.IPv4Address(bytes(hops.mp_next_hop)[:4]), 2: ipaddress.IPv6Address(bytes(hops.mp_next_hop))}
    return Facts(
        origin=ORIGINS[it.origin] if it.has_origin else None,
        next_hop=ipaddress.IPv4Address(bytes(hops.next_hop)) if hops.has_next_hop else None,
        mp_next_hop=over[hops.mp_afi],
        link_local=ipaddress.IPv6Address(bytes(hops.link_local)) if hops.has_link_local else None,
        med=it.med if it.has_med else None,
        local_pref=it.local_pref if it.has_local_pref else None,
        atomic_aggregate=bool(it.atomic_aggregate),
        aggregator=(it.aggregator_as, ipaddress.IPv4Address(bytes(it.aggregator_address))) if it.has_aggregator else None,
        origin_as=paths.origin_as if paths.has_origin_as else None,
        as_path=lies(paths.has_as_path, paths.as_path),
        as4_path=lies(paths.has_as4_path, paths.as4_path),
        communities=lies(paths.has_communities, paths.communities),
        large_communities=lies(paths.has_large_communities, paths.large_communities),
        unrecognised=it.unrecognised,
    )
