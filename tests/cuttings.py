"""Lines off the wire cut into pieces, the rest of a piece given again: call scripts with their answers.

What a line comes to is known from how it is made: each part of it is a frame, a frame with a wrong
block, or a byte at which the rule refuses a header. The answers follow from the parts and from where
the line is cut; no program is asked. Each line ends with a frame or a wrong block, so that nothing is
kept before the next.
"""

from itertools import combinations


def check(data):
    """The two check bytes of some bytes."""
    c = 0
    for byte in data:
        c ^= byte
        for _ in range(8):
            c = (c >> 1) ^ 0xA6BC if c & 1 else c >> 1
    return (c ^ 0xFFFF).to_bytes(2, "little")


def frame(user, control=0xC4, destination=7, source=1000, length=None):
    """A frame's bytes; `length` puts another length byte under a right header check."""
    head = bytes([5, 0x64, len(user) + 5 if length is None else length, control])
    head += destination.to_bytes(2, "little") + source.to_bytes(2, "little")
    blocks = (user[at:at + 16] for at in range(0, len(user), 16))
    return head + check(head) + b"".join(block + check(block) for block in blocks)


def wrong(frame_bytes, at):
    """The bytes with one bit turned."""
    return frame_bytes[:at] + bytes([frame_bytes[at] ^ 1]) + frame_bytes[at + 1:]


def text(data):
    return data.hex().upper() or "-"


# A part of a line: how many bytes the rule reads until it decides, how many it moves on, and what it says.
def refused(number):
    return 10, 1, f"no {number}"


def whole(size, says):
    return size, size, says


USER = bytes((7 * i + 1) % 256 for i in range(250))
RESET = frame(b"", 0xC0, 1, 1024)                     # the standard's example, 05 64 05 C0 01 00 00 04 E9 21
ONE = frame(USER[:1])
FULL = frame(USER)
IS_RESET = whole(10, "user C0 1 1024 -")
IS_ONE = whole(13, f"user C4 7 1000 {text(USER[:1])}")
IS_FULL = whole(292, f"user C4 7 1000 {text(USER)}")
# A header of length 4 with a right check; from its fourth byte on it begins like a frame, whose check is then wrong.
START = bytes([5, 0x64, 4]) + RESET[:5]
CHECKED = START + check(START)

# What it is, its bytes, its parts, and into how many pieces it is cut: 0 for every cutting.
LINES = [
    ("05, then a frame: 12 and the frame", b"\x05" + RESET, [refused(12), IS_RESET], 0),
    ("05 64, then a frame: 13, 12 and the frame", b"\x05\x64" + RESET, [refused(13), refused(12), IS_RESET], 0),
    ("frames back to back", RESET * 3, [IS_RESET] * 3, 3),
    ("a frame with one user byte, then another frame", ONE + RESET, [IS_ONE, IS_RESET], 3),
    ("its block wrong, then a frame", wrong(ONE, 10) + RESET, [whole(13, "no 15 0"), IS_RESET], 3),
    ("its header's check wrong, then a frame", wrong(RESET, 9) + RESET, [refused(13)] + [refused(12)] * 9 + [IS_RESET], 3),
    ("a length of 4, then a frame", CHECKED + RESET, [refused(14)] + [refused(12)] * 2 + [refused(13)] + [refused(12)] * 6 + [IS_RESET], 3),
    ("05 64 five times, then a frame", b"\x05\x64" * 5 + RESET, [refused(13), refused(12)] * 5 + [IS_RESET], 3),
    ("292 bytes", FULL, [IS_FULL], 2),
    ("292 bytes, the last block wrong", wrong(FULL, 291), [whole(292, "no 15 15")], 2),
]


def cuts(size, pieces):
    """Where the line is cut: every way into so many pieces, or into any number."""
    for count in range(size) if pieces == 0 else [pieces - 1]:
        yield from combinations(range(1, size), count)


def calls(line, parts, ends):
    """The calls and answers for one cutting."""
    told, start = [], 0
    for reads, moves, says in parts:
        told.append((start + reads, says))
        start += moves
    assert start == len(line)
    at = 0
    for end in list(ends) + [len(line)]:
        while at < end:
            place, says = next(((p, s) for p, s in told if at < p <= end), (end, "waits"))
            yield f"piece 250 {text(line[at:end])}", f"{says} taken {place - at}"
            at = place


def scripts():
    """The name of each script, its text and its answers."""
    for name, line, parts, pieces in LINES:
        made = [call for ends in cuts(len(line), pieces) for call in calls(line, parts, ends)]
        kind = "every cutting" if pieces == 0 else f"every cutting into {pieces}"
        yield f"{name}, {kind}", "".join(c + "\n" for c, _ in made), "".join(a + "\n" for _, a in made)
