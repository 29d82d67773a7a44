#!/usr/bin/env python3
"""Whether an answer keeps the rules of offer and answer, by the texts alone: nothing here is the library's.

    scripts/answer_rules.py OFFER ANSWER [OFFER ANSWER..]   files; each broken rule is a line, and the status is 1 where there is one

Each rule is a function that names what breaks it, with the section counted from 0 and the standard's section."""
import re
import sys
from dataclasses import dataclass, field
from pathlib import Path

SENDS, RECEIVES = ("sendrecv", "sendonly"), ("sendrecv", "recvonly")
DIRECTIONS = ("sendrecv", "sendonly", "recvonly", "inactive")
SRTP = ("UDP/TLS/RTP/SAVPF", "UDP/TLS/RTP/SAVP", "RTP/SAVPF", "RTP/SAVP", "TCP/TLS/RTP/SAVPF")
SCTP = ("UDP/DTLS/SCTP", "DTLS/SCTP", "TCP/DTLS/SCTP")
TURNED = {"actpass": ("active", "passive"), "active": ("passive",), "passive": ("active",), None: ("active",)}
RTP_STREAM_ID = "urn:ietf:params:rtp-hdrext:sdes:rtp-stream-id"


@dataclass
class Section:
    """An m-section: the parts of its m-line, and its attributes."""

    kind: str = ""
    port: str = ""
    protocol: str = ""
    formats: list[str] = field(default_factory=list)
    attributes: list[str] = field(default_factory=list)

    def values(self, name):
        return [it.partition(":")[2] for it in self.attributes if it.partition(":")[0] == name]

    def value(self, name):
        return next(iter(self.values(name)), None)

    def has(self, name):
        return name in self.attributes

    @property
    def mid(self):
        return self.value("mid")

    @property
    def direction(self):
        return next((it for it in self.attributes if it in DIRECTIONS), "sendrecv")

    @property
    def is_media(self):
        return self.kind in ("audio", "video")

    def codecs(self):
        """The codec of each format that an rtpmap line names, by its name in small letters with the rate."""
        return {pt: name.lower() for pt, _, name in (it.partition(" ") for it in self.values("rtpmap"))}

    def parameters(self, pt):
        said = [it.partition(" ")[2] for it in self.values("fmtp") if it.partition(" ")[0] == pt]
        return dict(pair.strip().partition("=")[::2] for it in said for pair in it.split(";"))

    def feedback(self, pt):
        """What rtcp-fb lines say of the format, or of all."""
        lines = [it.partition(" ")[::2] for it in self.values("rtcp-fb")]
        return {value for own, value in lines if own in (pt, "*")}

    def extensions(self):
        """Each header extension, its number with its URI, without a direction and what follows the URI."""
        return {(re.split(r"[ /]", it)[0], it.split(" ")[1]) for it in self.values("extmap") if " " in it}

    def rids(self, direction):
        """The rids of a direction, with their payload types, if they list some."""
        found = [it.split(" ", 2) for it in self.values("rid")]
        types = [re.search(r"\bpt=([\d,]*)", it[2] if len(it) > 2 else "") for it in found]
        return {it[0]: pts and pts[1].split(",") for it, pts in zip(found, types) if len(it) > 1 and it[1] == direction}

    def layers(self, direction):
        found = re.search(rf"\b{direction} (\S+)", self.value("simulcast") or "")
        return [it.lstrip("~") for it in re.split("[;,]", found[1])] if found else []


@dataclass
class Description:
    session: Section
    sections: list[Section]

    def bundle(self):
        """The mids of the first BUNDLE group; none where there is no such group."""
        groups = [it.split(" ") for it in self.session.values("group")]
        return next((it[1:] for it in groups if it[0] == "BUNDLE"), [])


def described(text):
    """What the text describes."""
    parts = [Section()]
    for line in re.split(r"\r?\n", text):
        if line.startswith("m="):
            kind, port, protocol, *formats = line[2:].split(" ")
            parts.append(Section(kind, port, protocol, formats))
        elif line.startswith("a="):
            parts[-1].attributes.append(line[2:])
    return Description(parts[0], parts[1:])


def is_stopped(offer, section):
    """Port 0, unless the section is bundle-only (RFC 9143, section 6)."""
    return section.port == "0" and not (section.has("bundle-only") and section.mid in offer.bundle())


def is_carried(section):
    return section.is_media and section.protocol in SRTP or section.kind == "application" and section.protocol in SCTP


def pairs(offer, answer):
    """The sections of both sides that stand in the same place."""
    return list(zip(offer.sections, answer.sections))


def accepted(offer, answer):
    """The pairs of accepted sections, with their places."""
    return [(i, a, b) for i, (a, b) in enumerate(pairs(offer, answer)) if b.port != "0"]


def protocol(section):
    """The protocol; `DTLS/SCTP` is what drafts of RFC 8841 called `UDP/DTLS/SCTP`, and is answered by that name."""
    return section.protocol.replace("UDP/DTLS/SCTP", "DTLS/SCTP")


def same_sections(offer, answer):
    if len(offer.sections) != len(answer.sections):
        yield f"{len(answer.sections)} m-sections for {len(offer.sections)} (RFC 3264, section 6)"
    for i, (a, b) in enumerate(pairs(offer, answer)):
        if (a.kind, protocol(a), a.mid) != (b.kind, protocol(b), b.mid):
            yield f"section {i}: {b.kind} {b.protocol} mid {b.mid} for {a.kind} {a.protocol} mid {a.mid} (RFC 8829, section 5.3.1)"


def rejected_sections(offer, answer):
    for i, a, _ in accepted(offer, answer):
        if is_stopped(offer, a):
            yield f"section {i}: a stopped one is accepted (RFC 3264, section 8.2)"
        if not is_carried(a):
            yield f"section {i}: {a.kind} over {a.protocol} is accepted"


def directions(offer, answer):
    for i, a, b in accepted(offer, answer):
        if not a.is_media:
            continue
        if b.direction in SENDS and a.direction not in RECEIVES:
            yield f"section {i}: it sends what isn't received (RFC 3264, section 6.1)"
        if b.direction in RECEIVES and a.direction not in SENDS:
            yield f"section {i}: it receives what isn't sent (RFC 3264, section 6.1)"


def roles(offer, answer):
    for i, a, b in accepted(offer, answer):
        said, own = a.value("setup") or offer.session.value("setup"), b.value("setup")
        if own not in TURNED.get(said, ("active", "passive")):
            yield f"section {i}: setup {own} for {said} (RFC 8842, section 5.3)"


def primaries(section):
    """The formats of a section that stand for themselves, in order: no retransmissions, no redundancy, no repair."""
    names = section.codecs()
    return [it for it in section.formats if names.get(it, "").split("/")[0] not in ("rtx", "red", "ulpfec", "flexfec-03")]


def rows(offer, answer):
    for i, a, b in accepted(offer, answer):
        if not a.is_media:
            continue
        theirs, ours, own = a.codecs(), b.codecs(), primaries(b)
        if not own:
            yield f"section {i}: it has no row (RFC 3264, section 6)"
        if len(set(b.formats)) != len(b.formats):
            yield f"section {i}: a format stands twice"
        for pt in b.formats if a.direction in RECEIVES else []:
            if pt not in a.formats:
                yield f"section {i}: format {pt} isn't offered (RFC 3264, section 6.1)"
            elif pt in theirs and pt in ours and theirs[pt].removesuffix("/1") != ours[pt].removesuffix("/1"):
                yield f"section {i}: format {pt} is {ours[pt]}, and offered as {theirs[pt]}"
        order = [a.formats.index(it) for it in own if it in a.formats]
        if a.direction in RECEIVES and order != sorted(order):
            yield f"section {i}: its rows stand in another order than those of the offer (RFC 8829, section 5.3.1)"
        for pt in (it for it in b.formats if ours.get(it, "").startswith("rtx/")):
            apt = b.parameters(pt).get("apt")
            if apt not in own:
                yield f"section {i}: retransmissions {pt} are of {apt}, which isn't there (RFC 4588, section 8.1)"
            if a.direction in RECEIVES and a.parameters(pt).get("apt") != apt:
                yield f"section {i}: retransmissions {pt} of {apt} aren't offered"


def bundles(offer, answer):
    carried = {b.mid for _, _, b in accepted(offer, answer)}
    wanted = [it for it in offer.bundle() if it in carried]
    if answer.bundle() != wanted:
        yield f"BUNDLE {' '.join(answer.bundle())} for {' '.join(wanted)} (RFC 9143, section 7.3)"
    if not wanted and any(it.startswith("BUNDLE") for it in answer.session.values("group")):
        yield "an empty BUNDLE group"


def only_as_offered(offer, answer):
    for i, a, b in accepted(offer, answer):
        for word in ("rtcp-mux", "rtcp-rsize", "extmap-allow-mixed"):
            if b.has(word) and not (a.has(word) or offer.session.has(word)):
                yield f"section {i}: {word} isn't offered (RFC 5761, section 5.1.1; RFC 5506, section 5; RFC 8285, section 6)"
        for number, uri in b.extensions() - a.extensions() - offer.session.extensions():
            yield f"section {i}: extension {number} {uri} isn't offered (RFC 8285, section 6)"
        for pt in b.formats if a.direction in RECEIVES else []:
            for value in b.feedback(pt) - a.feedback(pt):
                yield f"section {i}: feedback {value} of {pt} isn't offered (RFC 4585, section 4.2)"


def layers(offer, answer):
    for i, a, b in accepted(offer, answer):
        for here, there in (("recv", "send"), ("send", "recv")):
            theirs = a.rids(there)
            for rid, pts in b.rids(here).items():
                if rid not in theirs:
                    yield f"section {i}: rid {rid} isn't offered to {there} (RFC 8851, section 6)"
                for pt in pts or []:
                    if pt not in b.formats or (theirs.get(rid) and pt not in theirs[rid]):
                        yield f"section {i}: rid {rid} names type {pt} (RFC 8851, section 6.3)"
            for layer in b.layers(here):
                if layer not in a.layers(there) or layer not in b.rids(here):
                    yield f"section {i}: layer {layer} isn't offered to {there}, or has no rid (RFC 8853, section 5.3.2)"


def transports(offer, answer):
    for i, _, b in accepted(offer, answer):
        for name in ("ice-ufrag", "ice-pwd", "fingerprint", "setup"):
            if b.value(name) is None and answer.session.value(name) is None:
                yield f"section {i}: no {name} (RFC 8829, section 5.3.1)"


def own_transports(_, answer):
    """Of an answer of this side: in each section. Firefox ends its process where a section of a bundle has no fingerprint."""
    for i, b in enumerate(answer.sections):
        if b.port != "0" and b.value("fingerprint") is None:
            yield f"section {i}: no fingerprint of its own"


def own_layers(_, answer):
    """Of an answer of this side: Chromium refuses layers where no header extension tells of a packet which layer it is of."""
    for i, b in enumerate(answer.sections):
        if b.layers("recv") and RTP_STREAM_ID not in {uri for _, uri in b.extensions()}:
            yield f"section {i}: layers without the extension that tells them (RFC 8852, section 3.3)"


def names(offer, answer):
    """Pairwise different mids and track ids."""
    tracks = [it.partition(" ")[2] for b in answer.sections for it in b.values("msid")]
    mids = [b.mid for b in answer.sections if b.mid is not None]
    for what, all_of in (("track", tracks), ("mid", mids)):
        for name in sorted({it for it in all_of if all_of.count(it) > 1}):
            yield f"{what} {name} stands in two sections (RFC 8830, section 2; RFC 5888, section 4)"


RULES = (same_sections, rejected_sections, directions, roles, rows, bundles, only_as_offered, layers, transports, names)


def broken(offer, answer, is_own=True):
    """The rules that the answer breaks, a line each; of an answer of this side further ones."""
    both, rules = (described(offer), described(answer)), (*RULES, own_transports, own_layers) if is_own else RULES
    return [f"{rule.__name__}: {fault}" for rule in rules for fault in rule(*both)]


def main(words):
    if not words or len(words) % 2:
        print(__doc__)
        return 2
    texts = [Path(it).read_text(encoding="utf-8", errors="replace") for it in words]
    found = [(name, fault) for name, offer, answer in zip(words[1::2], texts[::2], texts[1::2]) for fault in broken(offer, answer)]
    for name, fault in found:
        print(f"{name}: {fault}")
    print(f"{len(words) // 2 - len({name for name, _ in found})} passed, {len({name for name, _ in found})} failed")
    return 1 if found else 0


if __name__ == "__main__":
    sys.exit(main(sys.argv[1:]))
