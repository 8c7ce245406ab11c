"""Fragments cut into segments, some of them heard again: call scripts with their answers.

What a call comes to is known from how the fragment is cut: a segment heard again where it may be adds
nothing, and the end gives the fragment. No program is asked. Each fragment ends whole or forgotten, so that
nothing is begun before the next.
"""

from itertools import combinations, product

SETUP = ("setup 7 1000 5000 5000 0 0 0", "ok")
FIN, FIR = 0x80, 0x40


def segments(fragment, ends, sequence):
    """The fragment's segments, cut at these places."""
    places = [0, *ends, len(fragment)]
    for number, (start, end) in enumerate(zip(places, places[1:])):
        bits = (FIR if start == 0 else 0) | (FIN if end == len(fragment) else 0)
        yield bytes([bits | (sequence + number) % 64]) + fragment[start:end]


def call(segment, answer):
    return f"seg 2048 {segment.hex().upper()}", answer


def whole(fragment):
    return f"whole {fragment.hex().upper()}"


def every_cutting(fragment, sequence):
    """Every cutting, each segment but the last heard once to three times; the last again is 22, or whole at once."""
    for count in range(len(fragment)):
        for ends in combinations(range(1, len(fragment)), count):
            *begun, last = segments(fragment, ends, sequence)
            for times in product((1, 2, 3), repeat=len(begun)):
                for segment, heard in zip(begun, times):
                    yield from [call(segment, "more")] * heard
                yield call(last, whole(fragment))
                yield call(last, "no 22" if begun else whole(fragment))


def every_byte(first, middle, end):
    """Each transport byte without FIR, with the data of a middle segment just heard."""
    fragment = first[1:] + middle[1:] + end[1:]
    for bits in range(256):
        if bits & FIR:
            continue
        heard = bytes([bits]) + middle[1:]
        yield call(first, "more")
        yield call(middle, "more")
        if heard == middle:
            yield call(heard, "more")
            yield call(end, whole(fragment))
        elif bits == end[0]:
            yield call(heard, whole(first[1:] + middle[1:] + heard[1:]))
            yield call(end, "no 22")
        elif bits == end[0] & ~FIN:
            yield call(heard, "more")
            yield call(end, "no 22")
        else:
            yield call(heard, "no 22")
            yield call(end, "no 22")


def every_bit(first, middle, end):
    """Each bit of a middle segment's data turned."""
    for bit in range(8, 8 * len(middle)):
        heard = bytearray(middle)
        heard[bit // 8] ^= 1 << bit % 8
        yield call(first, "more")
        yield call(middle, "more")
        yield call(middle, "more")
        yield call(bytes(heard), "no 22")
        yield call(end, "no 22")


def scripts():
    """The name of each script, its text and its answers."""
    three = list(segments(bytes(range(1, 10)), (3, 6), 19))
    made = [
        ("every cutting of 4 bytes", every_cutting(bytes([1, 2, 3, 4]), 5)),
        ("every cutting of 4 like bytes, from 62 on", every_cutting(bytes(4), 62)),
        ("every transport byte after a middle segment", every_byte(*three)),
        ("every bit of a middle segment", every_bit(*three)),
    ]
    for name, calls in made:
        calls = [SETUP, *calls]
        yield name, "".join(c + "\n" for c, _ in calls), "".join(a + "\n" for _, a in calls)
