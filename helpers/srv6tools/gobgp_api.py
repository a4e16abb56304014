"""The API of GoBGP, as far as candidate paths of policies and the link-state table need it: its messages, and calls over gRPC.

The messages are those of api/gobgp.proto and api/attribute.proto of GoBGP 3.10.
"""

from __future__ import annotations

import base64
from collections.abc import Iterator
from ipaddress import IPv4Address
from typing import Any

from .bgp_policy import CandidatePath, path_of
from .command import Fault, Status, missing_package
from .protobuf import ANY, encoded, fields_of

SECONDS = 20
ROUTE_TARGET = 2  # RFC 4360 section 4
FAMILY = {"afi": "AFI_IP6", "safi": "SAFI_SR_POLICY"}
LINK_STATE = {"afi": "AFI_LS", "safi": "SAFI_LS"}
ENUMS = {
    "Afi": {"AFI_IP6": 2, "AFI_LS": 16388}, "Safi": {"SAFI_SR_POLICY": 73, "SAFI_LS": 71}, "TableType": {"GLOBAL": 0},
}  # fmt: skip
SCHEMA = {
    "AddPathRequest": {"tableType": (1, "TableType"), "path": (3, "Path")},
    "ListPathRequest": {
        "tableType": (1, "TableType"), "family": (3, "Family"), "enableNlriBinary": (7, "int"), "enableAttributeBinary": (8, "int"),
    },
    "Path": {"nlri": (1, "any"), "pattrs": (2, "any"), "family": (9, "Family")},
    "Family": {"afi": (1, "Afi"), "safi": (2, "Safi")},
    "SRPolicyNLRI": {"length": (1, "int"), "distinguisher": (2, "int"), "color": (3, "int"), "endpoint": (4, "bytes")},
    "OriginAttribute": {"origin": (1, "int")},
    "NextHopAttribute": {"nextHop": (1, "text")},
    "ExtendedCommunitiesAttribute": {"communities": (1, "any")},
    "IPv4AddressSpecificExtended": {"isTransitive": (1, "int"), "subType": (2, "int"), "address": (3, "text"), "localAdmin": (4, "int")},
    "TunnelEncapAttribute": {"tlvs": (1, "TunnelEncapTLV")},
    "TunnelEncapTLV": {"type": (1, "int"), "tlvs": (2, "any")},
    "TunnelEncapSubTLVSRPreference": {"flags": (1, "int"), "preference": (2, "int")},
    "TunnelEncapSubTLVSRCandidatePathName": {"candidatePathName": (1, "text")},
    "TunnelEncapSubTLVSRSegmentList": {"weight": (1, "SRWeight"), "segments": (2, "any")},
    "SRWeight": {"flags": (1, "int"), "weight": (2, "int")},
    "SegmentTypeB": {"flags": (1, "SegmentFlags"), "sid": (2, "bytes")},
    "SegmentFlags": {},
}  # fmt: skip


def typed(name: str, **keys: Any) -> dict[str, Any]:
    """A message that says its type, as JSON has it."""
    return {"@type": f"{ANY}apipb.{name}"} | keys


def text_of(content: bytes) -> str:
    """Bytes as JSON has them."""
    return base64.b64encode(content).decode()


def add_request(path: CandidatePath, headend: IPv4Address, next_hop: str) -> dict[str, Any]:
    """The request that adds a candidate path, as JSON, for a headend that its BGP identifier names: a route target (RFC 9830 section 4.1).

    GoBGP 3.10 gives no neighbour a path with NO_ADVERTISE, the other way to say whose it is.
    """
    nlri = typed("SRPolicyNLRI", length=192, distinguisher=path.distinguisher, color=path.color, endpoint=text_of(path.endpoint.packed))
    segments = [typed("SegmentTypeB", flags={}, sid=text_of(one.packed)) for one in path.segments]
    inside = [typed("TunnelEncapSubTLVSRPreference", preference=path.preference)]
    if path.name:
        inside.append(typed("TunnelEncapSubTLVSRCandidatePathName", candidatePathName=path.name))
    inside.append(typed("TunnelEncapSubTLVSRSegmentList", weight={"weight": 1}, segments=segments))
    target = typed("IPv4AddressSpecificExtended", isTransitive=True, subType=ROUTE_TARGET, address=str(headend), localAdmin=0)
    attributes = [
        typed("OriginAttribute", origin=0),
        typed("NextHopAttribute", nextHop=next_hop),
        typed("ExtendedCommunitiesAttribute", communities=[target]),
        typed("TunnelEncapAttribute", tlvs=[{"type": 15, "tlvs": inside}]),
    ]
    return {"tableType": "GLOBAL", "path": {"nlri": nlri, "pattrs": attributes, "family": FAMILY}}


class Api:
    """A running GoBGP."""

    def __init__(self, place: str) -> None:
        try:
            import grpc
        except ImportError:
            raise missing_package("grpc", "python3-grpcio") from None
        self.place, self.fault = place, grpc.RpcError
        self.channel = grpc.insecure_channel(place)

    def add(self, request: dict[str, Any]) -> None:
        """Adds a path."""
        call = self.channel.unary_unary("/apipb.GobgpApi/AddPath")
        try:
            call(encoded(SCHEMA, ENUMS, "AddPathRequest", request), timeout=SECONDS)
        except self.fault as fault:
            raise self._said(fault) from None

    def paths(self) -> Iterator[CandidatePath]:
        """The candidate paths in the table; those of another form are left out."""
        for nlri, attributes in self.routes(FAMILY):
            try:
                yield path_of(nlri, attributes)
            except ValueError:
                continue

    def routes(self, family: dict[str, str]) -> Iterator[tuple[bytes, list[bytes]]]:
        """The routes of a family in the table, each with its attributes, as the bytes that neighbours get."""
        asked = {"tableType": "GLOBAL", "family": family, "enableNlriBinary": 1, "enableAttributeBinary": 1}
        call = self.channel.unary_stream("/apipb.GobgpApi/ListPath")
        try:
            answers = list(call(encoded(SCHEMA, ENUMS, "ListPathRequest", asked), timeout=SECONDS))
        except self.fault as fault:
            raise self._said(fault) from None
        for answer in answers:
            for path in _of_path(answer):
                fields = list(fields_of(path))
                for nlri in (value for number, value in fields if number == 20):
                    yield nlri, [value for number, value in fields if number == 21]

    def _said(self, fault: Exception) -> Fault:
        reason = getattr(fault, "details", lambda: "")() or str(fault)
        return Fault(f"GoBGP at {self.place}: {reason}", Status.OUTSIDE_FAULT)


def _of_path(answer: bytes) -> Iterator[bytes]:
    """The paths of an answer: of its destination, field 2."""
    for number, destination in fields_of(answer):
        if number == 1:
            yield from (value for inner, value in fields_of(destination) if inner == 2)
