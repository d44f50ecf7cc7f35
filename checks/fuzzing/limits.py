"""Captures at the limits that only long ones reach: how many bytes, events, vertices and indices there may be."""
from captures import MOST_BYTES, MOST_CORNERS, MOST_EVENTS

FRAME = '{"format":"framedbg","version":1,"width":1,"height":1,"events":[%s]}'
DRAW = '{"kind":"draw","interp":"flat","vertices":[%s],"indices":[%s]}'
VERTEX = '{"x":0,"y":0,"color":[0,0,0,0]}'
CLEAR = '{"kind":"clear","color":[0,0,0,0]}'


def listed(item, count):
    return ",".join([item] * count)


def of_bytes(count):
    return (FRAME % CLEAR).ljust(count)


def of_events(count):
    return FRAME % listed("0", count)


def of_vertices(count):
    return FRAME % (DRAW % (listed(VERTEX, count), count - 1))


def of_indices(count):
    return FRAME % (DRAW % (VERTEX, listed("0", count)))


MOST = [(of_bytes, MOST_BYTES), (of_events, MOST_EVENTS), (of_vertices, MOST_CORNERS), (of_indices, MOST_CORNERS)]
CASES = [(make, most + more) for make, most in MOST for more in (0, 1)]


def case(number):
    make, count = CASES[number % len(CASES)]
    return make(count).encode()
