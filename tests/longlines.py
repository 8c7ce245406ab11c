"""A script of lines on both sides of the longest one, with its answers, and the pieces it comes in.

A line that is longer than `LINE` is no call: it is answered once, with `fault`, however it comes,
and the calls after it are answered as ever.
"""

# Longest line that is a call, in bytes.
LINE = 65536

# The bytes that come with one read: a pipe gives at most 4,096 at once.
PIECES = (1, 4095, 4096)


def long_call(length):
    """A call of so many bytes, its digits in pairs, that is refused for the few bytes lent."""
    name = b"frame-read 1 " if length % 2 else b"frame-read 10 "
    return name + b"A" * (length - len(name))


def calls():
    """Each call and its answer."""
    for length in (LINE - 1, LINE, LINE + 1, LINE, 2 * LINE - 1, 2 * LINE, 2 * LINE + 1, LINE - 1):
        yield long_call(length), b"no 33" if length <= LINE else b"fault"
        yield b"held", b"none"


def script():
    """The text, whose last line has no end, and its answers."""
    made = list(calls())
    return b"\n".join(call for call, _ in made), b"".join(answer + b"\n" for _, answer in made)
