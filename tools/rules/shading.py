"""What lies between the corners of a triangle: the mean of their values by weights, in whole numbers."""
from collections.abc import Iterable


def mean(weights: Iterable[int], values: Iterable[int], whole: int) -> int:
    """The whole number nearest to a weighted mean, the larger on a tie."""
    quotient, rest = divmod(sum(weight * value for weight, value in zip(weights, values)), whole)
    return quotient + (2 * rest >= whole)


def means_along(total: int, step: int, whole: int, count: int) -> list[int]:
    """The same for so many pixels of a row: of a sum of weighted values, and of those that follow it by a step each."""
    first, double = 2 * total + whole, 2 * whole
    return [(first + 2 * i * step) // double for i in range(count)]
