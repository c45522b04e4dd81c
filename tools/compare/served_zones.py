"""Zones that are served, alone or a parent together with its children: their records, how each is signed, and their files."""
import dataclasses
import random

import signed_zones
from random_zones import random_zone, under


@dataclasses.dataclass(frozen=True)
class Zone:
    """The records of a zone without its signatures, how it is signed, if it is, and its file."""

    records: list
    way: signed_zones.Way | None
    path: str

    @property
    def opts_out(self):
        return bool(self.way and self.way.opts_out)


def made(folder, origin, records, way):
    """A zone, and its file in a folder. One with an octet 0 in a name isn't signed by kzonesign, which now and then writes its chain in
    another order than that of RFC 4034 section 6.1."""
    if way and way.signer == "kzonesign" and any("\\000" in owner for owner, _, _ in records):
        way = dataclasses.replace(way, signer="dnssec-signzone")
    path = signed_zones.written(folder, origin, records, random.random() < 0.3)
    return Zone(records, way, signed_zones.signed(folder, origin, path, way)[0] if way else path)


def child_of(folder, origin, label, way, has_digest):
    """A child of a zone by its origin, and the records of its cut in the parent."""
    child = under(label, origin)
    zone = made(folder, child, random_zone(child, bool(way)), way)
    cut = [(child, "NS", f"ns.{child}"), (f"ns.{child}", "A", "192.0.2.1")]
    digest = [(child, "DS", signed_zones.delegation_signer(folder, child))] if has_digest and way else []
    return {child: zone}, cut + digest


def parent_and_children(folder, origin, way, children):
    """A zone with children that are served beside it."""
    zones, records = {}, random_zone(origin, bool(way))
    for label, child_way, has_digest in children:
        child, cut = child_of(folder, origin, label, child_way, has_digest)
        zones, records = zones | child, records + cut
    return {origin: made(folder, origin, records, way), **zones}


def files(zones):
    """The files of zones, by their origins."""
    return {origin: zone.path for origin, zone in zones.items()}
