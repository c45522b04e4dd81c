"""What servers may choose, so that differences between the answers of NSD, Knot DNS and BIND and those of zoned aren't reported:

- NSD adds the zone's NS set and its servers' addresses to positive answers, which is up to the server.
- NSD adds addresses that a wildcard gives a host to an answer or a referral, now and then under the wildcard's own name. By RFC 4592
  wildcards answer queries; it doesn't require any additional records from them.
- NSD sends an alias twice if a wildcard leads it back to itself, and Knot sends a DNAME set twice if it is asked for and a name below it
  leads back to its owner. By RFC 2181 section 5.5 an RRset appears once.
- Knot adds addresses at a zone cut and below it to answers that name such a host. They are glue, which RFC 1034 section 4.2.1 intends for
  referrals.
- For a name that begins with `*` and has no data, and for an alias's target that does, NSD sends one NSEC3 record more than the one that
  RFC 5155 section 7.2.3 requires, as if a wildcard had answered; if a wildcard does answer for such a name, Knot leaves out the records
  that deny the name itself (section 7.2.5 and RFC 4035 section 3.1.3.4). So NSEC and NSEC3 records aren't compared there.
- Below an empty non-terminal that opt-out leaves out, NSD takes that name for the encloser, although no NSEC3 record matches it, whereas
  zoned takes the closest provable one (RFC 5155 section 7.2.1). So the NSEC3 records of zones with opt-out aren't compared.
- BIND now and then leaves out the addresses of a referral's servers that aren't at or below the zone cut, behind an alias too, and glue
  with answers, so these aren't compared with it. It answers aliases that form a loop with SERVFAIL.
- If such a name doesn't exist and there is a wildcard above the empty non-terminal, no NSEC3 records prove that; Knot then sends a code
  alone, with DNSSEC. So that isn't compared.
- For ANY below a DNAME, NSD and Knot continue at the new name (RFC 6672 section 3.2). zoned and BIND stop at the CNAME synthesized from
  the DNAME, which is an answer to ANY (RFC 8482 section 4.1). So only BIND is asked for ANY.
- With YXDOMAIN, Knot sends the SOA, and with DNSSEC denials. RFC 2308 section 3 requires the SOA for name errors and no data, and the
  DNAME itself shows that the name gets too long (RFC 6672 section 2.2). So that authority section isn't compared with Knot.
- If an alias or another DNAME leads to a name that gets too long, NSD answers NOERROR, although the code is that of the last name (RFC
  6604 section 3). So this isn't compared with NSD.
- For the name that a DNAME gives, NSD sends another NSEC record than the one that covers it, or none (RFC 4035 sections 3.1.3.2 to
  3.1.3.4). So NSEC records below a DNAME aren't compared with NSD.
- If a label comes before `*` in the canonical order, NSD now and then denies a sibling wildcard with the record of a name before that
  label, although names below the label are in between. So NSEC records of zones with such labels aren't compared with NSD.
- Of two chains, and of NSEC and NSEC3 records in one zone, a server uses the one it chooses (RFC 5155 section 7.3). So denials from
  different chains aren't compared; but those of one response have to be from one chain.
- BIND adds no addresses to the NS set of the root.
- Knot now and then mistakes names with an octet 0 for others, such as for one that a wildcard answers. So they aren't compared with it.
- An alias that leads into another zone that is served ends there here, and in Knot. NSD and BIND continue in that zone, as RFC 1034
  section 4.3.2 step 3a says. So such aliases aren't compared.
- RFC 1034 section 3.6.2 requires chains of aliases to be followed, but doesn't say how far; zoned stops after 8 names. So chains of 8
  aliases and more, such as with a DNAME that leads below itself, aren't compared.
"""
import frames
from questions import chains, zone_of
from random_zones import is_below

# How many names zoned searches for one question.
FOLLOWED = 8


def without_servers(origin, ours, theirs):
    """The sections of another server without the zone's servers beside a positive answer, and their addresses."""
    servers = [line for line in theirs["AUTHORITY"] if line.startswith(f"{origin} ") and line.split()[3] in ("ns", "rrsig")]
    servers = [line for line in servers if line.split()[3] == "ns" or line.split()[6].startswith("0002")]
    if not theirs["ANSWER"] or not servers or any(line in ours["AUTHORITY"] for line in servers):
        return theirs
    names = {line.split()[4] for line in servers if line.split()[3] == "ns"}
    additional = [line for line in theirs["ADDITIONAL"] if line in ours["ADDITIONAL"] or line.split()[0] not in names]
    authority = [line for line in theirs["AUTHORITY"] if line not in servers]
    return {"ANSWER": theirs["ANSWER"], "AUTHORITY": authority, "ADDITIONAL": additional}


def without_denials(parts, types):
    """Sections without the sets of these types in the authority section, and without their signatures."""
    covered = tuple(f"{frames.TYPES[word]:04x}" for word in types)
    kept = [line for line in parts["AUTHORITY"] if line.split()[3].upper() not in types]
    return parts | {"AUTHORITY": [line for line in kept if line.split()[3] != "rrsig" or not line.split()[6].startswith(covered)]}


def has_no_proof(name, code, records):
    """Whether a name error may be one that opt-out leaves without a proof: the name stands below a wildcard's parent."""
    return code == 3 and any(owner.startswith("*.") and name.endswith(owner[1:]) for owner, _, _ in records)


def without_glue(origin, records, ours, theirs):
    """The sections of one server without addresses at and below cuts beside an answer, which the other doesn't have there."""
    cuts = [owner for owner, kind, _ in records if kind == "NS" and owner != origin]
    glue = [line for line in theirs["ADDITIONAL"] if any(f".{line.split()[0]}".endswith(f".{cut}") for cut in cuts)]
    additional = [line for line in theirs["ADDITIONAL"] if line in ours["ADDITIONAL"] or line not in glue]
    return theirs | {"ADDITIONAL": additional} if theirs["ANSWER"] else theirs


def without_choices(origin, records, ours, theirs):
    """The sections of another server without what the head of this file tells of, but for NSEC3 sets."""
    owners = {owner for owner, kind, _ in records if kind in ("A", "AAAA") and not owner.startswith("*.")}
    theirs = without_glue(origin, records, ours, without_servers(origin, ours, theirs))
    additional = [line for line in theirs["ADDITIONAL"] if line in ours["ADDITIONAL"] or line.split()[0] in owners]
    return {"ANSWER": sorted(set(theirs["ANSWER"])), "AUTHORITY": theirs["AUTHORITY"], "ADDITIONAL": additional}


def leads_round(ours):
    """Whether the aliases of an answer lead round in a circle."""
    aliases = {line.split()[0]: line.split()[4] for line in ours["ANSWER"] if line.split()[3] == "cname"}
    return bool(aliases) and set(aliases.values()) <= set(aliases)


def without_hosts_beside(ours):
    """The sections of a referral without addresses that don't stand at or below the cut."""
    cuts = [f".{line.split()[0]}" for line in ours["AUTHORITY"] if line.split()[3] == "ns"]
    below = [line for line in ours["ADDITIONAL"] if f".{line.split()[0]}".endswith(tuple(cuts))]
    return ours | {"ADDITIONAL": below} if cuts else ours


def asks_for_star(name, ours):
    """Whether the name that is asked for, or an alias's target, begins with `*`."""
    return any(it.startswith("*.") for it in (name, *targets(ours)))


def count_of(kind, ours):
    """How many records of a type an answer has."""
    return sum(line.split()[3] == kind for line in ours["ANSWER"])


def targets(ours):
    """What the aliases of an answer lead to."""
    return [line.split()[4] for line in ours["ANSWER"] if line.split()[3] == "cname"]


def leads_into_other_zone(ours, origin, zones):
    """Whether an alias of an answer leads to a name of another zone that is served."""
    return any(zone_of(it, "A", zones) != origin for it in targets(ours) if any(it == other or other == "." or is_below(it, other) for other in zones))


def is_left_out(server, name, kind, words, head, ours, zone, zones):
    """Whether a question is one that the head of this file leaves out."""
    if kind == "ANY" and server != "named" or count_of("cname", ours) >= FOLLOWED:
        return True
    if server == "nsd" and head[1] == frames.YXDOMAIN and count_of("cname", ours):
        return True
    if server == "named" and (name, kind) == (".", "NS") or server == "knotd" and any("\\000" in it for it in (name, *targets(ours))):
        return True
    if leads_into_other_zone(ours, zone_of(name, kind, zones), zones):
        return True
    return zone.opts_out and "do" in words and has_no_proof(name, head[1], zone.records) or server == "named" and leads_round(ours)


def has_labels_before_star(records):
    """Whether a label of an owner stands in order before `*`."""
    return any(frames.octets_of(label)[1] < ord("*") for owner, _, _ in records for label in owner.split(".") if label)


def compared_sections(server, origin, zone, name, code, ours, theirs):
    """The sections of both servers without what they may choose."""
    theirs = without_choices(origin, zone.records, ours, theirs)
    if server == "named":
        ours, theirs = without_hosts_beside(ours), without_hosts_beside(theirs)
        ours = without_glue(origin, zone.records, theirs, ours)
    if server == "knotd" and code == frames.YXDOMAIN:
        theirs["AUTHORITY"] = []
    is_other_chain = chains(ours) != chains(theirs) and zone.way and zone.way.beside
    types = ["NSEC", "NSEC3"] if asks_for_star(name, ours) or is_other_chain else ["NSEC3"] if zone.opts_out else []
    if server == "nsd" and (count_of("dname", ours) or has_labels_before_star(zone.records)):
        types += ["NSEC"]
    return without_denials(ours, types), without_denials(theirs, types)
