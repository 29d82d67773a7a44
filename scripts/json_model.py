"""What `zax_json` is to write, and what the calls of sections and of the transport are to answer, by a second way: the printed text
is read line by line, with a pattern for each key, as sdp-transform does.
The forms are those of docs/GRAMMAR.md, as they print; nothing of the library is asked."""
import ipaddress
import json
import re

NUMBER = re.compile(r"0|[1-9]\d*")
EXACT = 2**53 - 1  # up to here JavaScript has each whole number
TYPE = r"(?:12[0-7]|1[01]\d|[1-9]\d|\d)"
BYTE = r"(?:25[0-5]|2[0-4]\d|1\d\d|[1-9]\d|\d)"
NAME = r"[^\W_]+"
LAYERS = rf"~?{NAME}(?:;~?{NAME})*"
PAIRS = r"[^=\s]+=[^;\s]+(?:;[^=\s]+=[^;\s]+)*"
LISTS = rf"pt={TYPE}(?:,{TYPE})*(?:;{PAIRS})?|(?!pt=){PAIRS}"
CANDIDATE = (
    r"candidate:(\S+) (\d+) (udp|tcp|ssltcp|tls) (\d+) (\S+) (\d+) typ (host|srflx|prflx|relay)"
    r"(?: raddr (\S+) rport (\d+))?(?: tcptype (active|passive|so))?(?: ufrag (\S+))?"
)
# Of each key: the pattern of what stands after `a=`, and the names of its parts; one that has no name is the value itself. A key in
# brackets is a list, and a name with a colon a number.
BOTH = {
    "iceUfrag": (r"ice-ufrag:(.+)", ""),
    "icePwd": (r"ice-pwd:(.+)", ""),
    "iceOptions": (r"ice-options:(.+)", ""),
    "fingerprint": (r"fingerprint:(\S+) ([0-9A-F]{2}(?::[0-9A-F]{2})*)", "type hash"),
    "setup": (r"setup:(actpass|active|passive)", ""),
    "[candidates]": (CANDIDATE, "foundation component: transport priority: ip port: type raddr rport: tcptype ufrag"),
    "endOfCandidates": (r"(end-of-candidates)", ""),
}
SESSION = {
    **BOTH,
    "[groups]": (r"group:(\S+) ?(.*)", "type mids"),
    "msidSemantic": (r"msid-semantic: (\S+) (\S+(?: \S+)*)", "semantic token"),
    "extmapAllowMixed": (r"(extmap-allow-mixed)", ""),
    "icelite": (r"(ice-lite)", ""),
}
MEDIA = {
    **BOTH,
    "[rtp]": (rf"rtpmap:({TYPE}) ([^/]+)/(\d+)(?:/(\d+))?", "payload: codec rate: encoding:"),
    "[fmtp]": (rf"fmtp:({TYPE}) (.+)", "payload: config"),
    "[rtcpFb]": (rf"rtcp-fb:({TYPE}) (\S*)(?: (.*))?", "payload: type subtype"),
    "[ext]": (rf"extmap:({BYTE}) (\S+)", "value: uri"),
    "rtcp": (r"rtcp:(\S+) (\S+) IP(\S+) (.+)|rtcp:(.+)", "port: netType ipVer: address port:"),
    "mid": (r"mid:(.+)", ""),
    "msid": (r"msid:(\S+ .+)", ""),
    "direction": (r"(sendrecv|sendonly|recvonly|inactive)", ""),
    "rtcpMux": (r"(rtcp-mux)", ""),
    "rtcpMuxOnly": (r"(rtcp-mux-only)", ""),
    "rtcpRsize": (r"(rtcp-rsize)", ""),
    "sctpPort": (r"sctp-port:(\d+)", ":"),
    "maxMessageSize": (r"max-message-size:(\d+)", ":"),
    "sctpInit": (r"sctp-init:(.+)", ""),
    "[rids]": (rf"rid:({NAME}) (send|recv)(?: ({LISTS}))?", "id direction params"),
    "simulcast": (rf"simulcast:(send|recv) ({LAYERS})(?: (send|recv) ({LAYERS}))?", "dir1 list1 dir2 list2"),
    "[ssrcGroups]": (r"ssrc-group:(\S+) (\d+(?: \d+)*)", "semantics ssrcs"),
    "[ssrcs]": (r"ssrc:(\d+) ([^:]+):(.+)", "id: attribute value"),
}
HEAD = {
    "v": ("version", r"(.*)", ":"),
    "o": ("origin", r"(\S+) (\d+) (\d+) (\S+) IP(\d) (\S+)", "username sessionId: sessionVersion: netType ipVer: address"),
    "s": ("name", r"(.*)", ""),
    "t": ("timing", r"(\d+) (\d+)", "start: stop:"),
    "c": ("connection", r"IN IP(\d) (\S+)", "version: ip"),
    "b": ("[bandwidth]", r"([^:]+):(.+)", "type limit:"),
}
HEADING = (r"(\S+) (\d+) (\S+) (.+)", "type port: protocol payloads")
KINDS = {"audio": 0, "video": 1, "application": 2}
PROTOCOLS = ("UDP/TLS/RTP/SAVPF", "UDP/DTLS/SCTP")
DIRECTIONS = ("sendrecv", "sendonly", "recvonly", "inactive")
SETUPS = ("", "actpass", "active", "passive")
WAYS = {"send": DIRECTIONS.index("sendonly"), "recv": DIRECTIONS.index("recvonly")}
HASH = r"\S+ [0-9A-F]{2}(?::[0-9A-F]{2})*"
HASHES = {"sha-256": 0, "sha-1": 1}  # (RFC 8122, section 5.1: how they are preferred)
WORDS = ("transport-cc", "nack", "nack pli", "ccm fir", "goog-remb")  # of rows, as docs/C.md has them
VIDEO = {"VP8", "VP9", "AV1", "H264", "H265", "H266"}


def part(name, text):
    """A part of a line: a number, where JavaScript has just that one, or a text."""
    return int(text) if name.endswith(":") and NUMBER.fullmatch(text) and int(text) <= EXACT else text


def parts(found, names):
    """The value that a line has by such names."""
    if names in ("", ":"):
        return part(names, found[1])
    return {name.rstrip(":"): part(name, text) for name, text in zip(names.split(), found.groups(), strict=True) if text is not None}


def is_address(text):
    try:
        return bool(ipaddress.ip_address(text))
    except ValueError:
        return False


def added(to, key, value):
    if key.startswith("["):
        to.setdefault(key.strip("[]"), []).append(value)
    else:
        to[key] = value


def add_attribute(to, text, forms):
    for key, (pattern, names) in forms.items():
        found = re.fullmatch(pattern, text)
        if found and (key != "[candidates]" or all(is_address(it) for it in (found[5], found[8]) if it)):
            added(to, key, parts(found, names))
            return
    added(to, "[invalid]", {"value": text})


def description(text):
    """A printed text as JSON has it, without rows."""
    at, forms = {"media": []}, SESSION
    whole = at
    for line in text.removesuffix("\r\n").split("\r\n"):
        letter, _, rest = line.partition("=")
        if letter == "m":
            at, forms = parts(re.fullmatch(HEADING[0], rest), HEADING[1]), MEDIA
            whole["media"].append(at)
        elif letter == "a":
            add_attribute(at, rest, forms)
        else:
            key, pattern, names = HEAD[letter]
            added(at, key, parts(re.fullmatch(pattern, rest), names))
    return whole


def said(lines, pattern):
    return [found[1] for line in lines if (found := re.fullmatch(pattern, line))]


def streams(lines):
    """What `texts facts` is to print of a section's streams."""
    yield (said(lines, MEDIA["msid"][0]) or [""])[0]
    yield from (line.removeprefix("extmap:") for line in lines if re.fullmatch(MEDIA["[ext]"][0], line))
    for rid in filter(None, (re.fullmatch(MEDIA["[rids]"][0], it) for it in lines)):
        yield f"{WAYS[rid[2]]} {rid[1]} {rid[3] or ''}"
    for line in [it for it in (re.fullmatch(MEDIA["simulcast"][0], it) for it in lines) if it][-1:]:
        sides = [(line[1], line[2]), (line[3], line[4])]
        yield from (f"{WAYS[way]} {int(it.startswith('~'))} {it.removeprefix('~')}" for way, names in sides if way for it in names.split(";"))


def sources(lines):
    """What it is to print of a section's sources and their groups (RFC 5576): a group FID of two says that the second repairs the first."""
    grouped = [(it[1], it[2].split(" ")) for it in (re.fullmatch(MEDIA["[ssrcGroups]"][0], line) for line in lines) if it]
    described = [it.groups() for it in (re.fullmatch(MEDIA["[ssrcs]"][0], line) for line in lines) if it]
    repaired = {pair[1]: pair[0] for kind, pair in grouped if kind.upper() == "FID" and len(pair) == 2}
    for ssrc in dict.fromkeys([*(it[0] for it in described), *repaired]):
        said = {name.lower(): value for of, name, value in described if of == ssrc}
        ids = [ids_of(value) for of, name, value in described if of == ssrc and name.lower() == "msid"]
        stream, track = ((pieces or [""])[-1] for pieces in ([it[0] for it in ids], [it[1] for it in ids if len(it) > 1]))
        yield f"{ssrc} {repaired.get(ssrc, 0)} {int(ssrc in repaired)} [{said.get('cname', '')}] [{stream}] [{track}]"
    yield from (f"{i} {kind} {ssrc}" for i, (kind, ssrcs) in enumerate(grouped) for ssrc in ssrcs)


def ids_of(value):
    """The id of a stream and, where a space stands behind it, that of its track; `-` is none."""
    return ["" if it.strip() == "-" else it.strip() for it in value.split(" ")[:2]]


def facts(text):
    """What `texts facts` is to print of a printed text: each section in numbers and with its streams, credentials, fingerprint, role, candidates."""
    parts = [[]]
    for line in text.removesuffix("\r\n").split("\r\n"):
        if line.startswith("m="):
            parts.append([])
        parts[-1].append(line.removeprefix("a="))

    for head, *lines in parts[1:]:
        kind, port, protocol, _ = head.removeprefix("m=").split(" ", 3)
        direction = (said(lines, MEDIA["direction"][0]) or ["inactive"])[0]
        setup = (said(lines, BOTH["setup"][0]) or [""])[0]
        numbers = KINDS.get(kind, 3), PROTOCOLS.index(protocol), DIRECTIONS.index(direction), SETUPS.index(setup), int(port == "0")
        yield " ".join(map(str, numbers))
        yield from streams(lines)
        yield from sources(lines)
    pairs = ((said(lines, BOTH["iceUfrag"][0]), said(lines, BOTH["icePwd"][0])) for lines in parts)
    yield from next(((ufrags[0], pwds[0]) for ufrags, pwds in pairs if ufrags and pwds), ("", ""))
    hashes = next(filter(None, (said(lines, f"fingerprint:({HASH})") for lines in parts)), [""])
    yield min(hashes, key=lambda it: HASHES.get(it.split(" ")[0].lower(), 2))
    roles = [role for lines in parts for role in said(lines, BOTH["setup"][0])]
    yield str(SETUPS.index((roles or [""])[0]))
    found = [it for lines in parts for line in lines if (it := re.fullmatch(CANDIDATE, line))]
    yield from dict.fromkeys(it[0] for it in found if all(is_address(part) for part in (it[5], it[8]) if part))


def row_line(mid, row):
    """A row as sdpshow writes it."""
    rtx, red = ("-" if row[it] is None else row[it] for it in ("rtx", "red"))
    channels = "" if row["channels"] is None else f"/{row['channels']}"
    return f"{mid or '-'} {row['pt']} {rtx} {red} {row['codec']}/{row['rate']}{channels} {row['fmtp'] or '-'}\n"


def feedback(section, row):
    """What a row has of feedback: what lines say of its type; of video all but the first word in any case."""
    said = {" ".join(it for it in (fb["type"], fb.get("subtype")) if it is not None) for fb in section.get("rtcpFb", []) if fb["payload"] == row["pt"]}
    return [it for it in WORDS if it in said or (it != WORDS[0] and row["codec"] in VIDEO)]


def in_order(members):
    """The members of an object, which has each key once, in the order of their bytes."""
    keys = [key.encode() for key, _ in members]
    if keys != sorted(set(keys)):
        raise ValueError(f"the keys {keys} aren't in order")
    return dict(members)


def fault(written, text, rows):
    """What is wrong with JSON of a description that prints this text, and whose rows are these lines; empty where it is right."""
    try:
        found = json.loads(written, object_pairs_hook=in_order)
    except ValueError as error:
        return f"it isn't read: {error}"
    lines = ""
    for section in found["media"]:
        for row in section.pop("rows"):
            lines += row_line(section.get("mid"), row)
            if row["feedback"] != feedback(section, row):
                return f"the feedback of {row['pt']} is {row['feedback']}"
    if lines != rows:
        return "its rows are others"
    wanted = description(text)
    return "" if found == wanted else f"it is\n{found}\nand not\n{wanted}"
