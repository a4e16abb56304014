"""What the headend of a policy chooses by itself."""

from __future__ import annotations

from collections.abc import Iterator

from .intent import Intent
from .report import Report


def unsaid(intent: Intent, report: Report) -> Iterator[str]:
    """What the headend of a policy chooses by itself, one each."""
    yield (
        "which packets take the list says the headend, by the color of their routes or otherwise (RFC 9256 section 8);"
        f" the intent's are of IPv{intent.family}"
    )
    yield f"the outer source, {intent.source} by the intent, is the headend's own"
    yield (
        f"hop limit, traffic class and flow label of the outer header ({intent.hop_limit}, {intent.traffic_class},"
        f" {intent.flow_label} by the intent) are the headend's own; the list needs a hop limit above {report.need}"
    )
    yield f"whether the header is {intent.mode}, as the intent says, is the headend's own; it has {report.header} bytes so"
    yield (
        f"the last segment, {report.containers[-1]}, ends in the intent's function: a headend that adds the SID of a service"
        " behind the list (RFC 9252 section 5) would have two"
    )
