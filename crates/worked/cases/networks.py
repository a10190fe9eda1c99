"""The steps of the part `networks`: Prim Networks."""
from cases.steps import COLUMNS, FEW, MATRIX_SIZE, WIDE
from cases.steps import example, filled, generated_weights, row, rows, show, show_example, show_generated, weights


def lent(codes, weights, n, m):
    """The lines of n taxa and m characters where so many codes and weights are lent."""
    return ('lent', n, m, codes, weights)


def ties():
    """Ties: rows 2 and 3 equally near to row 1; then row 4 equally near to rows 2 and 3, of which row 3 was placed first; then equal rows."""
    yield from rows([0, 0, 0], [1, 0, 0], [-1, 0, 0])
    yield show(3, 1)
    yield from rows([0, 0, 0], [4, 0, 0], [2, 0, 0], [3, 5, 0])
    yield show(4, 2)
    yield from rows([0, 0, 0], [0, 0, 0], [2, 0, 0], [2, 0, 0])
    yield show(4, 3)


def rows_of_ends():
    """Rows of both ends of the range, and one of zeros."""
    return rows([-999] * COLUMNS, [999] * COLUMNS, [0] * COLUMNS)


def ends():
    """Both ends of the range: one character, and 128 of them, the largest difference."""
    return [*rows_of_ends(), show(3, 1), show(3, COLUMNS), row(3, *[-999] * COLUMNS), show(3, COLUMNS)]


def refusals():
    """Refusals: a matrix that is not of full size, then n, then m, then a code; the first "no" counts."""
    yield lent(MATRIX_SIZE - 1, COLUMNS, 0, 0)
    yield lent(3, COLUMNS, 3, 3)
    for n, m in [(0, 3), (65, 3), (3, 0), (3, 129)]:
        yield show(n, m)
    yield row(3, 0, 0, 1000, -1000)
    yield show(3, 3)
    yield show(65, 3)


def unread():
    """A code out of range behind the last character, and in the row behind the last taxon: neither is read."""
    yield row(4, *[-1000] * COLUMNS)
    yield show(3, 2)
    yield row(3, 0, 0, 0, -1000)
    yield show(3, 3)
    yield show(3, 4)
    yield show(4, 2)


def weighted():
    """Document 01's example by weights: D joins B, and before C. Then rows 2 and 3, equally near to row 1 before, by weights 2 and 1."""
    yield from example()
    yield from [weights(1, 3, 2), show(4, 3)]
    yield from [weights(9, 1, 4), show(4, 3)]
    yield row(2, 1, 0, 0)
    yield row(3, 0, 1, 0)
    yield from [weights(), show(3, 3)]
    yield from [weights(2, 1, 1), show(3, 3)]


def heavier():
    """The largest difference, and generated matrices: with weights that leave many taxa equally near, and with generated ones."""
    yield from rows_of_ends()
    yield weights(*[9] * COLUMNS)
    yield show(2, COLUMNS)
    yield show(3, COLUMNS)
    yield filled(FEW, 1)
    yield from [weights(1, 2, 1), show(64, 4)]
    yield from [generated_weights(4), show(23, 9)]
    yield filled(WIDE, 3)
    yield from [generated_weights(5), show(64, 20)]
    yield from [generated_weights(6), show(9, COLUMNS)]


def refused_weights():
    """Refusals of weights: their number before the limits, the weights behind the limits and before the codes. A weight behind the last
    character is not read."""
    yield lent(MATRIX_SIZE, COLUMNS - 1, 0, 0)
    yield lent(MATRIX_SIZE, COLUMNS + 1, 3, 3)
    yield row(3, 0, 1000, 0)
    yield weights(*[0] * COLUMNS)
    yield show(0, 3)
    yield show(3, 3)
    yield from [weights(*[10] * COLUMNS), show(3, 3)]
    yield weights(1, 9, 0)
    yield show(3, 3)
    yield show(3, 2)
    yield from [weights(9, 0, 1), show(3, 1)]


STEPS = [*show_example(), *ties(), *ends(), *refusals(), *unread(), *show_generated(), *weighted(), *heavier(), *refused_weights()]
