"""Long texts, by what grows in them: lines of one form, lines of every form, sections, and one long line."""
import re

from proved import TOP

HEADER = "v=0\r\no=- 1 1 IN IP4 127.0.0.1\r\ns=-\r\nt=0 0\r\n"
SECTION = "m=audio 9 UDP/TLS/RTP/SAVPF 111\r\na=mid:0\r\na=sendrecv\r\na=rtpmap:111 opus/48000/2\r\n"
DATA = "m=application 9 UDP/DTLS/SCTP webrtc-datachannel\r\na=mid:0\r\n"

# Attributes of sessions and of sections, one of each form, of which there may be many.
SESSION_FORMS = (
    "group:BUNDLE 0 1 2",
    "msid-semantic: WMS 5f3a",
    "extmap-allow-mixed",
    "ice-lite",
    "ice-ufrag:6yI8",
    "ice-pwd:rXq3Vn0K9cGJ2mZt5sWb7uYd",
    "ice-options:trickle renomination",
    "fingerprint:sha-256 00:0A:FF:80:00:0A:FF:80:00:0A:FF:80:00:0A:FF:80",
    "setup:actpass",
    "candidate:1 1 udp 2113937151 192.0.2.1 54400 typ srflx raddr 10.0.0.1 rport 60000 generation 0 ufrag 6yI8",
    "end-of-candidates",
    "x-one:two three four",
)
SECTION_FORMS = (
    "rtcp:9 IN IP4 0.0.0.0",
    "ice-ufrag:6yI8",
    "ice-pwd:rXq3Vn0K9cGJ2mZt5sWb7uYd",
    "ice-options:trickle renomination",
    "fingerprint:sha-256 00:0A:FF:80:00:0A:FF:80:00:0A:FF:80:00:0A:FF:80",
    "sctp-port:5000",
    "max-message-size:262144",
    "sctp-init:AQAAJA==",
    "extmap:1/sendonly urn:ietf:params:rtp-hdrext:sdes:mid more",
    "msid:stream track",
    "rtcp-mux",
    "rtcp-mux-only",
    "rtcp-rsize",
    "candidate:1 1 udp 2113937151 192.0.2.1 54400 typ srflx raddr 10.0.0.1 rport 60000 generation 0 ufrag 6yI8",
    "end-of-candidates",
    "rtpmap:96 opus/48000/2",
    "rtcp-fb:111 transport-cc",
    "fmtp:97 apt=96",
    "fmtp:111 minptime=10;useinbandfec=1",
    "fmtp:98 profile-id=1;tier-flag=0;level-id=93",
    "fmtp:63 111/111",
    "fmtp:101 0-15",
    "fmtp:111 any other",
    "rid:hi send pt=96,97;max-width=1280;max-height=720",
    "simulcast:send hi;~lo,mid recv x",
    "ssrc-group:FID 1001 1002",
    "ssrc:1001 cname:user@example.com",
    "x-one:two three four",
)
# Those that a section has once, each in a section of its own.
SINGLE_FORMS = {
    "mid": DATA,
    "setup": DATA + "a=setup:active\r\n",
    "direction": "m=audio 9 UDP/TLS/RTP/SAVPF 0\r\na=mid:0\r\na=recvonly\r\n",
}


def lines(forms, count):
    return "".join(f"a={forms[i % len(forms)]}\r\n" for i in range(count))


def repeated(text, length):
    return text * (length // len(text))


def every_form(count):
    """Lines of every form: a quarter of them in the session, the others in one section."""
    return HEADER + lines(SESSION_FORMS, count // 4) + SECTION + lines(SECTION_FORMS, count - count // 4)


def of_one_form(head, form):
    """A text by the number of its lines of that form."""
    return lambda count: HEADER + head + lines([form], count)


def of_sections(section):
    """A text by the number of its sections."""
    return lambda count: HEADER + section * count


def of_lines_each(sections, count):
    """So many sections with as many attribute lines in each."""
    section = "m=audio 9 UDP/TLS/RTP/SAVPF 0\r\na=mid:0\r\na=sendrecv\r\n"
    return sections * (section + "a=rtcp-mux\r\n" * (count - 2))


def of_video_sections(count):
    """So many times the video section of a browser's offer, each under a name of its own."""
    offer = (TOP / "examples" / "firefox-audio-video-offer.sdp").read_bytes().decode()
    head, section = re.fullmatch(r"(.*?)m=audio.*(m=video.*)", offer, re.DOTALL).groups()
    return head + "".join(re.sub(r"^a=mid:.*$", f"a=mid:{i}\r", section, flags=re.MULTILINE) for i in range(count))


# By each form's name, a text by the number of its lines.
FORMS = (
    {f"session, {form.partition(':')[0]}": of_one_form("", form) for form in SESSION_FORMS}
    | {f"section, {form[:16]}": of_one_form(SECTION, form) for form in SECTION_FORMS}
    | {f"section, {name}": of_sections(section) for name, section in SINGLE_FORMS.items()}
)


def numbered(between, form="{}"):
    """So many items of a list, each of which has its number in it."""
    return lambda count: between.join(form.format(i) for i in range(count))


def of_list(head, items):
    """A text by the number of the items that its last line lists."""
    return lambda count: f"{HEADER}{head}{items(count)}\r\n"


def of_numbered_lines(head, form):
    """A text by the number of its last lines, each of which has its number in it."""
    return lambda count: HEADER + head + "".join(f"a={form.format(i)}\r\n" for i in range(count))


def of_types(count):
    """So many payload types in an m-line, and as many lines after it."""
    return HEADER + SECTION.replace("111\r\n", "111" + " 111" * (count - 1) + "\r\n", 1) + lines(["x"], count)


def of_unlisted_type(count):
    """One type that the m-line doesn't list has half as many mappings, and as many fmtp lines."""
    return HEADER + SECTION + "a=rtpmap:96 VP8/90000\r\n" * (count // 2) + "a=fmtp:96 profile-id=2\r\n" * (count // 2)


def of_long_formats(count):
    """One type that the m-line doesn't list has half as many mappings, and one fmtp line with as many pairs."""
    pairs = "profile-id=2;" * (count // 2)
    return HEADER + SECTION + f"a=fmtp:96 {pairs}\r\n" + "a=rtpmap:96 VP8/90000\r\n" * (count // 2)


def of_named_sections(count):
    """So many sections, each under a name of its own, and a group that lists them."""
    group = f"a=group:BUNDLE {numbered(' ')(count)}\r\n"
    return HEADER + group + "".join(SECTION.replace("a=mid:0", f"a=mid:{i}", 1) for i in range(count))


def of_disabled_sections(count):
    """The same, each of them disabled: whether it takes part is asked of the group."""
    return of_named_sections(count).replace("m=audio 9 ", "m=audio 0 ")


def of_paired_sections(count):
    """The same, but that the first two of them have one name with the last two, crosswise: the first fault stands far down."""
    return of_named_sections(count - 2) + "".join(SECTION.replace("a=mid:0", f"a=mid:{i}", 1) for i in (1, 0))


# By the name of a list, a text by the number of its items.
LISTS = {
    "mids of a group": of_list("a=group:BUNDLE ", numbered(" ")),
    "streams of a session": of_list("a=msid-semantic: WMS ", numbered(" ")),
    "options of ICE": of_list("a=ice-options:", numbered(" ", "o{}")),
    "payload types of an m-line": of_list("", lambda count: SECTION.replace("111\r\n", "111" + " 111" * count + "\r\n", 1)[:-2]),
    "payload types of a rid": of_list(SECTION + "a=rid:hi send pt=", lambda count: ",".join(["111"] * count)),
    "restrictions of a rid": of_list(SECTION + "a=rid:hi send ", numbered(";", "k{}=1")),
    "layers of a simulcast line": of_list(SECTION + "a=simulcast:send ", numbered(";")),
    "choices for a layer": of_list(SECTION + "a=simulcast:send ", numbered(",")),
    "sources of a group": of_list(SECTION + "a=ssrc-group:FID ", numbered(" ")),
    "pairs of an fmtp line": of_list(SECTION + "a=fmtp:111 ", numbered(";", "k{}=1")),
    "types of a RED line": of_list(SECTION + "a=rtpmap:63 red/48000/2\r\na=fmtp:63 ", lambda count: "/".join(["111"] * count)),
}

# The shortest items of lists and the shortest lines, and how many bytes may be held for a byte of them: a layer takes 72 (docs/DECISIONS.md),
# a line 64.
SHORTEST = {
    "types of a rid": (of_list(SECTION + "a=rid:a send pt=", lambda count: ",".join(["1"] * count)), 12),
    "sources of a group": (of_list(SECTION + "a=ssrc-group:x ", lambda count: " ".join(["1"] * count)), 12),
    "layers of a simulcast line": (of_list(SECTION + "a=simulcast:send ", lambda count: ";".join(["a"] * count)), 37),
    "lines": (lambda count: HEADER + SECTION + "a=x\n" * count, 17),
}

# By the name of what grows, a text by the number of its lines.
LINES_OF = {
    "lines of every form": every_form,
    "payload types, and as many lines": of_types,
    "mappings and formats of a type that the m-line doesn't list": of_unlisted_type,
    "mappings of such a type, and pairs of its fmtp line": of_long_formats,
    "sources, each said of once": of_numbered_lines(SECTION, "ssrc:{} cname:user@example.com"),
    "pairs of sources": of_numbered_lines(SECTION, "ssrc-group:FID 1 {}"),
    "different candidates": of_numbered_lines(SECTION, "candidate:{} 1 udp 2113937151 192.0.2.1 54400 typ host"),
    "different candidates of the session": of_numbered_lines("", "candidate:{} 1 udp 2113937151 192.0.2.1 54400 typ host"),
    "different layers": of_numbered_lines(SECTION, "rid:r{} send"),
}

# By the name of a line, a text by its bytes.
LONG_LINES = {
    "bytes of an attribute line": lambda count: f"{HEADER}{SECTION}a={repeated('x', count)}\r\n",
    "bytes of an fmtp line": lambda count: f"{HEADER}{SECTION}a=fmtp:111 {repeated('minptime=10; ', count)}minptime=10\r\n",
    "bytes of a name": lambda count: f"{HEADER}{DATA}a=msid:{repeated('x', count)} track\r\n",
}
