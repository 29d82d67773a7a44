"""Whether an offer of this side keeps the rules of offers, by the texts alone: nothing here is the library's.

Each rule is a function of the descriptions that this side has given before, the first one first, and of the offer; it names what breaks it,
with the section counted from 0 and the standard's section."""
from answer_rules import described


def names(_, offer):
    mids = [it.mid for it in offer.sections]
    for mid in sorted({str(it) for it in mids if mids.count(it) > 1 or it is None}):
        yield f"mid {mid} stands twice, or a section has none (RFC 5888, section 4)"


def places(before, offer):
    """Each earlier section has its place; a name that is new there wasn't used before."""
    used = {it.mid for earlier in before for it in earlier.sections}
    last = before[-1].sections if before else []
    if len(offer.sections) < len(last):
        yield f"{len(offer.sections)} m-sections after {len(last)} (RFC 3264, section 8)"
    for i, now in enumerate(offer.sections):
        was = last[i] if i < len(last) else None
        if was and was.mid == now.mid and was.kind != now.kind:
            yield f"section {i}: {now.kind} was {was.kind} (RFC 8829, section 5.2.2)"
        if (was is None or was.mid != now.mid) and now.mid in used:
            yield f"section {i}: mid {now.mid} was another section's (RFC 8829, section 5.2.2)"


def bundle(_, offer):
    wanted = [it.mid for it in offer.sections if it.port != "0"]
    if offer.bundle() != wanted:
        yield f"BUNDLE {' '.join(offer.bundle())} for {' '.join(wanted)} (RFC 9143, section 7.2)"


def transports(_, offer):
    for i, it in enumerate(offer.sections):
        missing = [name for name in ("ice-ufrag", "ice-pwd", "fingerprint") if it.value(name) is None]
        if it.port != "0" and (missing or it.value("setup") != "actpass"):
            yield f"section {i}: no {', '.join(missing) or 'setup:actpass'} (RFC 8829, section 5.2.1)"


def rows(_, offer):
    for i, it in enumerate(offer.sections):
        if it.port != "0" and it.is_media and (not it.codecs() or len(set(it.formats)) != len(it.formats)):
            yield f"section {i}: a format stands twice, or there is none (RFC 8866, section 5.14)"


def agreed(before, offer):
    """A type names one codec in all sections that were ever accepted."""
    known = {}
    for earlier in [*before, offer]:
        for i, it in enumerate(earlier.sections):
            for pt, codec in it.codecs().items() if it.port != "0" else ():
                if known.setdefault(pt, codec) != codec and earlier is offer:
                    yield f"section {i}: format {pt} is {codec}, and was {known[pt]} (RFC 3264, section 8.3.2)"


RULES = (names, places, bundle, transports, rows, agreed)


def broken(before, offer):
    """The rules that the offer breaks after these texts of this side, a line each."""
    said, now = [described(it) for it in before], described(offer)
    return [f"{rule.__name__}: {fault}" for rule in RULES for fault in rule(said, now)]
