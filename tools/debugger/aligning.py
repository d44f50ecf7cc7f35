"""Two lists beside each other: what they have in common in its order, and the steps that go through both."""
import bisect
import collections
import difflib
from collections.abc import Sequence
from typing import Any

Pair = tuple[int, int]

MOST = 1 << 22  # of the product of two lengths: above it difflib leaves what stands often out


def common(one: Sequence[Any], other: Sequence[Any]) -> list[tuple[int, int]]:
    """Pairs of places at which both lists have the same, in order. What stands in each of them once is paired first,
    and the rest by difflib."""
    found: list[Pair] = []
    gaps = [(0, len(one), 0, len(other))]
    while gaps:
        start, end, first, last = gaps.pop()
        while start < end and first < last and one[start] == other[first]:
            found.append((start, first))
            start, first = start + 1, first + 1
        while start < end and first < last and one[end - 1] == other[last - 1]:
            end, last = end - 1, last - 1
            found.append((end, last))
        pairs = [(start + i, first + j) for i, j in singles(one[start:end], other[first:last])]
        found += pairs
        if pairs:
            borders = [(start - 1, first - 1), *pairs, (end, last)]
            gaps += [(i + 1, next_i, j + 1, next_j) for (i, j), (next_i, next_j) in zip(borders, borders[1:])]
        elif start < end and first < last:
            matcher = difflib.SequenceMatcher(
                None, one[start:end], other[first:last], autojunk=(end - start) * (last - first) > MOST
            )
            found += [
                (start + block.a + k, first + block.b + k)
                for block in matcher.get_matching_blocks()
                for k in range(block.size)
            ]
    return sorted(found)


def singles(one: Sequence[Any], other: Sequence[Any]) -> list[tuple[int, int]]:
    """The places of what both lists have once, of which as many as can stand in order."""
    counts = [collections.Counter(one), collections.Counter(other)]
    places = {item: j for j, item in enumerate(other) if counts[1][item] == 1}
    pairs = [(i, places[item]) for i, item in enumerate(one) if counts[0][item] == 1 and item in places]
    before: dict[Pair, Pair | None] = {}
    ends: list[int] = []  # of each length the least place that ends it
    tops: list[Pair] = []  # and the pair that has it
    for i, j in pairs:
        length = bisect.bisect_left(ends, j)
        before[i, j] = tops[length - 1] if length else None
        ends[length : length + 1], tops[length : length + 1] = [j], [(i, j)]
    chain: list[Pair] = []
    pair = tops[-1] if tops else None
    while pair:
        chain.append(pair)
        pair = before[pair]
    return chain[::-1]


def aligned(one: Sequence[Any], other: Sequence[Any], kinds: Sequence[Sequence[str]]) -> list[tuple[int, int]]:
    """Steps through both lists, each (number in the one, number in the other), counted from 1; 0 where a step goes
    over nothing of a list. Between what is the same those go together that have the same kind, of the lists of
    kinds."""
    steps: list[Pair] = []
    borders = [(-1, -1), *common(one, other), (len(one), len(other))]
    for (i, j), (next_i, next_j) in zip(borders, borders[1:]):
        i, j = i + 1, j + 1
        alike = [(i + a, j + b) for a, b in common(kinds[0][i:next_i], kinds[1][j:next_j])]
        for a, b in [*alike, (next_i, next_j)]:
            steps += [(gone + 1, 0) for gone in range(i, a)] + [(0, new + 1) for new in range(j, b)]
            steps += [(a + 1, b + 1)] if a < len(one) else []
            i, j = a + 1, b + 1
    return steps
