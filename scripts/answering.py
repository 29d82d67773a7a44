"""How the proved sdpexchange is called, and what this side says of itself: as when browsers were asked, and in cases."""
import proved

# What this side said when browsers took its answers: lines of an option of sdpexchange and its value
SIDE = proved.TOP / "examples" / "own-side.txt"
SAID = [tuple(line.split(" ", 1)) for line in SIDE.read_text().splitlines()]
OWN = [word for option, value in SAID for word in (f"--{option}", value)]


# In the cases that were worked out by hand.
OF_CASES = ["--ufrag", "ansr", "--pwd", "0123456789abcdefansr", "--session-id", "7", "--codec", "opus", "--codec", "vp8"]
OF_CASES += ["--candidate", "candidate:1 1 udp 2130706431 192.0.2.1 9999 typ host", "--extension", "urn:ietf:params:rtp-hdrext:sdes:mid"]
REST = {"--fingerprint": "sha-256 AB:CD", "--stream": "stream"}  # (what a case may give itself)


def command(files, *own):
    """How the program is called with these offers, where this side says something else of itself."""
    rest = [word for option, value in REST.items() if option not in own for word in (option, value)]
    return [str(proved.program("sdpexchange")), *([*own, *rest] if own else OWN), *map(str, files)]
