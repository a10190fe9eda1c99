"""The steps of the part `trees`: Wagner trees and placements."""
from cases.steps import COLUMNS, MATRIX_SIZE, generated_weights, row, rows, show, show_example, show_generated, weights

ADVANCE = ('advance',)  # by rising advancement
CLOSEST = ('closest',)  # the closest first


def tree(*grown):
    """A tree grown from row 1 alone: by a taxon that is linked to it, or a taxon, a node and an HTU, by which the taxon is hung above the node."""
    return [('alone',), *(('link' if len(numbers) == 1 else 'hang', *numbers) for numbers in grown)]


def place(n, m, b):
    """The lines of a placement of taxon b on the tree, which is then the one that is handed back."""
    return ('place', n, m, b)


def hand(n, m, b, *grown):
    """The same on a tree that is handed in."""
    return [*tree(*grown), place(n, m, b)]


def lent(codes, weights):
    """What a build and a placement answer where so many codes and weights are lent."""
    return ('sizes', codes, weights)


def one_by_one():
    """Placements one by one, in another order than by advancement; taxa that are in the tree, and taxa that do not exist."""
    yield from tree()
    for b in [3, 3, 1, 0, 5, 2, 4, 4]:
        yield place(4, 3, b)
    yield from hand(4, 3, 1)


def handed_in():
    """Trees of others, with codes of their own for the HTUs: taxa 2 and 4 below HTU 5; then one more HTU."""
    for codes in [[1, 1, 1], [-7, 9, 999]]:
        yield row(5, *codes)
        yield from hand(4, 3, 3, [2], [4, 2, 5])
    yield row(5, 3, 3, 3)
    yield row(6, 4, 4, 4)
    yield row(7, 5, 5, 5)
    yield from hand(5, 3, 5, [4], [3, 4, 6], [2, 6, 7])
    yield from hand(5, 3, 5, [4], [3, 4, 6], [2, 3, 7])


def no_trees():
    """Trees that are none: two descendants of row 1, an HTU of another number, an HTU alone, an ancestor that is not in the tree."""
    yield from hand(4, 3, 3, [2], [4])
    yield from hand(4, 3, 3, [2], [4, 2, 6])
    yield from hand(4, 3, 3, [5])
    yield from hand(4, 3, 3, [2], [4, 3, 5])
    yield from hand(4, 3, 3, [2], [4, 2, 5], [5, 2, 6])
    yield from hand(4, 3, 5, [2], [4])
    yield from hand(4, 3, 2, [2], [4])


def refusals():
    """Refusals of the matrix: n, then m, then a code of a taxon; then the code of an HTU of the tree; codes that are not read."""
    handed = [[2], [4, 2, 5]]
    for n, m in [(0, 3), (65, 3), (4, 0), (4, 129)]:
        yield show(n, m)
    yield from hand(65, 3, 3, *handed)
    yield from hand(4, 129, 3, *handed)
    yield row(5, 0, 1000, 0)
    yield from hand(4, 3, 3, *handed)
    yield from hand(4, 3, 2, *handed)
    yield from hand(4, 1, 3, *handed)
    yield row(6, -1000, 0, 0)
    yield from hand(4, 1, 3, *handed)
    yield row(3, 0, 0, -1000)
    yield show(4, 3)
    yield from hand(4, 3, 3, *handed)
    yield from hand(4, 3, 9, *handed)
    yield show(4, 2)


def short():
    """A matrix that is not of full size; weights that are not 128."""
    return [lent(MATRIX_SIZE - 1, COLUMNS), lent(MATRIX_SIZE, COLUMNS - 1), lent(MATRIX_SIZE, COLUMNS + 1)]


def weights_refused():
    """Refusals of a weight: 0, 10 and 255; after the limits, before a taxon that does not exist and a tree that is none; a weight past m is
    not asked."""
    for first, n, m in [([1, 0, 1], 4, 3), ([1, 1, 10], 4, 3), ([255, 1, 1], 4, 3), ([9, 1, 0], 4, 2), ([0, 1, 1], 65, 3)]:
        yield weights(*first)
        yield show(n, m)
    yield weights(1, 1, 0)
    yield from hand(4, 3, 3)
    yield from hand(4, 3, 9, [2], [4])
    yield weights(0, 1, 1)
    yield from hand(4, 129, 3)
    yield weights(1, 1, 0)
    yield from hand(4, 2, 3, [2])


def ends():
    """Both ends of the range, and equal rows."""
    return [*rows([-999] * COLUMNS, [999] * COLUMNS, [0] * COLUMNS, [999] * COLUMNS), show(4, 1), show(4, COLUMNS)]


def shown(*codes):
    """Rows of two characters, and their lines."""
    return [*rows(*codes), show(len(codes), 2)]


def nearness():
    """One to three taxa; two taxa equally near to the one interval, the lower row more advanced; a taxon that is closer and more advanced than
    another; two taxa equally near to one interval each, that of the lower row with the higher lower end."""
    yield from rows([0, 0], [2, 0], [1, 3])
    for n in [1, 2, 3]:
        yield show(n, 2)
    yield from shown([0, 0], [2, 0], [1, 3], [0, 3])
    yield from shown([0, 0], [10, 0], [0, 11], [12, 0])
    yield from shown([0, 0], [1, 0], [0, 1], [0, 3], [3, 0])


def renewals():
    """Equal rows; a taxon equally near to three intervals; one that a placement brings nearer than the one that was next; one that a placement
    takes the nearest interval from, so that another is next."""
    yield from shown([0, 0], [0, 0], [0, 0], [0, 0])
    yield from shown([0, 0], [0, 3], [2, 0], [-4, 0])
    yield from shown([0, 0], [1, 0], [5, 0], [0, 6], [9, 1])
    yield from shown([0, 0], [4, 4], [0, 9], [4, -6], [-8, 2])


def builds():
    """What is built beside the example, every character alike."""
    return [*refusals(), *short(), *ends(), *show_generated(), *nearness(), *renewals()]


def weighed():
    """What is built where characters weigh differently: the example with each of its characters the heaviest; both ends of the range at the
    heaviest; generated matrices with generated weights."""
    for first in [[3, 1, 1], [1, 2, 1], [1, 1, 9]]:
        yield weights(*first)
        yield from show_example()
    yield from weights_refused()
    yield weights(*[9] * COLUMNS)
    yield from ends()
    yield generated_weights(4)
    yield from show_generated()
    yield weights(2, 1, 1)
    yield from nearness()
    yield weights(1, 7, 1)
    yield from renewals()


STEPS = [ADVANCE, *show_example(), *one_by_one(), *handed_in(), *no_trees(), *builds()]
STEPS += [CLOSEST, *show_example(), *builds()]
for order in [ADVANCE, CLOSEST]:
    STEPS += [order, *weighed()]
STEPS += [weights(2, 5, 3), *show_example(), *one_by_one(), *handed_in()]
