"""The steps of the part `differences`: differences, interval differences and medians."""
from cases.steps import COLUMNS, MATRIX_SIZE, alike, example, row, rows, weights


def difference(n, m, a, b):
    """The difference of two nodes."""
    return ('difference', n, m, a, b)


def lent(codes, weights, n, m, a, b):
    """The same where so many codes and weights are lent."""
    return ('lent', n, m, a, b, codes, weights)


def interval(n, m, b, c, d):
    """The interval difference of node b from the interval between nodes c and d."""
    return ('interval', n, m, b, c, d)


def medians(n, m, nodes, shown, size=COLUMNS):
    """The medians of three nodes in a row of sevens, of which the first ones are shown."""
    return ('medians', n, m, *nodes, shown, size)


def weighing(*first):
    """Weights of 128 characters, of which the first three are these and the last is 9; the others are 1."""
    return weights(*first, *[1] * (COLUMNS - 4), 9)


def three(m, shown):
    """The difference, interval difference and medians of nodes 1, 2 and 3."""
    return [difference(3, m, 1, 2), interval(3, m, 1, 2, 3), medians(3, m, [1, 2, 3], shown)]


def handout():
    """The handout's sums: rows with its differences, ANC as node 1, then C, A, B and D. The handout's own data sheet is not in the paper."""
    yield alike(0)
    yield from rows(
        [0, 0, 0, 0, 0, 0, 0, 0, 0, 0, 0, 0],
        [1, 1, 1, 1, 0, 0, 0, 0, 0, 0, 0, 0],
        [0, 0, 0, 0, 1, 1, 1, 1, 1, 1, 1, 0],
        [1, 0, 0, 0, 1, 1, 1, 1, 1, 1, 1, 1],
        [1, 0, 0, 0, 1, 1, 1, 1, 1, 0, 0, 0],
    )
    for a, b in [(3, 1), (3, 2), (1, 2)]:
        yield difference(5, 12, a, b)
    for b in [3, 4, 5]:
        yield interval(5, 12, b, 2, 1)
    yield medians(5, 12, [5, 2, 1], 13)


def about_zero():
    """Codes about zero: the median of -1, 2 and 0 is 0."""
    yield alike(0)
    yield from rows([-1, 0, 1, -3, -1], [2, 0, -1, -1, -1], [0, 0, 0, -2, 1])
    yield from three(5, 6)


def ends():
    """Both ends of the range: one character, and 128 of them, the largest difference."""
    yield alike(0)
    yield from rows([-999] * COLUMNS, [999] * COLUMNS, [999] * COLUMNS)
    yield from three(1, 2)
    yield from three(128, 3)


def equal_rows():
    """Equal rows, and one row named twice and three times."""
    yield alike(4)
    yield from three(128, 2)
    yield row(2, 5)
    yield difference(3, 128, 2, 2)
    yield interval(3, 128, 2, 2, 2)


def refused_matrix():
    """Refusals of a matrix: its size, its limits, its taxa's codes, then its nodes."""
    yield alike(0)
    yield lent(MATRIX_SIZE - 1, COLUMNS, 65, 0, 9, 9)
    yield row(3, 1000)
    for n, m, a, b in [(65, 1, 9, 9), (0, 1, 1, 1), (64, 129, 1, 1), (3, 1, 9, 9), (2, 1, 1, 3), (2, 1, 0, 1), (1, 1, 1, 1), (1, 1, 1, 2)]:
        yield difference(n, m, a, b)


def refused_rows():
    """Refusals of an HTU's row, which come last. A row that is not written keeps its sevens. Then a lent row that is one code short."""
    yield alike(0)
    yield row(3, 999)
    yield row(5, 0, -1000)
    yield interval(4, 1, 1, 5, 6)
    yield interval(4, 2, 1, 5, 7)
    yield interval(4, 2, 1, 5, 6)
    yield medians(4, 2, [1, 2, 5], 2)
    yield alike(0)
    yield medians(4, 1, [1, 2, 3], 2, COLUMNS - 1)


def every_code():
    """The codes' own functions, at both ends of 32 bits: how far two are apart, and three medians."""
    low, high = -2 ** 31, 2 ** 31 - 1
    return ('codes', low, high, low, high, -1, high, low, high, low, low, 0)


def weighted():
    """Document 01's example: differences and interval differences go by the weights, medians do not."""
    yield alike(0)
    yield from example()
    yield difference(4, 3, 1, 2)
    yield difference(4, 3, 3, 4)
    yield difference(4, 2, 4, 3)
    yield interval(4, 3, 3, 1, 2)
    yield interval(4, 3, 4, 2, 3)
    yield medians(4, 3, [4, 2, 3], 4)


def heaviest():
    """The last of 128 characters has its own weight, and each of them 9: the largest difference."""
    yield weighing(1, 1, 1)
    yield alike(0)
    yield row(2, *[0] * (COLUMNS - 1), 5)
    yield from three(128, 2)
    yield from three(127, 2)
    yield weights(*[9] * COLUMNS)
    yield from ends()


def refused_weights():
    """Refusals of weights: their number before the limits, the weights behind the limits and before the codes, then the nodes."""
    yield alike(0)
    yield lent(MATRIX_SIZE, COLUMNS - 1, 65, 0, 9, 9)
    yield lent(MATRIX_SIZE, COLUMNS + 1, 3, 3, 1, 2)
    yield weights(*[0] * COLUMNS)
    yield difference(65, 1, 9, 9)
    yield difference(3, 129, 1, 1)
    yield row(2, 4, 1)
    yield row(3, 1000)
    for refused in [weights(*[0] * COLUMNS), weights(*[10] * COLUMNS), weighing(1, 1, 0)]:
        yield refused
        # three characters are asked, then two: a weight behind the last character is not read
        yield difference(3, 3, 9, 9)
        yield interval(2, 3, 1, 2, 2)
        yield medians(2, 3, [1, 2, 2], 2)
        yield difference(3, 2, 1, 2)
        yield difference(2, 2, 1, 2)


STEPS = [*handout(), *about_zero(), *ends(), *equal_rows(), *refused_matrix(), *refused_rows(), every_code(), *weighted()]
for first in [[1, 3, 2], [9, 1, 4]]:
    STEPS += [weighing(*first), *weighted()]
STEPS += [*heaviest(), *refused_weights()]
