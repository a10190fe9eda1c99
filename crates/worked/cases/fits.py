"""The steps of the part `fits`: fits of branch records. What a step brings is shown on what earlier steps wrote.

    ancestors a2 a3 ..                 branch records of these immediate ancestors, by node number from 2
    record v node ancestor             writes another node and ancestor into the record of node v
    fit n m                            the fit, the total, and the digests of the three lists that the fit writes
    states n m                         the same, then the states of all nodes by the call for one, and those of the HTUs in the three lists
    node n m v j                       the states of node v in character j
    own n m                            our own tree: its fit by its branch records, by the tree, and with its HTUs numbered from the last on
    fit_of_sizes n m and five sizes    the fit by a matrix, weights and three lists of these sizes, with weights of 1
    others_of_sizes n m and two sizes  the total, and the states of node 9 in character 9, by a matrix and weights of these sizes
    ends                               the digests of the lists of lowest and highest states
"""
from cases.steps import COLUMNS, FEW, MATRIX_SIZE as FULL, TWO, WIDE, example, filled, row, rows, weights

HEAVIEST = 9
TREE = ('ancestors', 6, 6, 5, 1, 5)
NO_TREE = ('ancestors', 6, 6, 5, 1, 6)


def shown(word, n, m, *ancestors):
    """A step for n taxa and m characters on branch records of these ancestors."""
    return [('ancestors', *ancestors), (word, n, m)]


def generated(seed):
    """Weights from 1 to 9 by the sequence of pseudo-random numbers, each written out."""
    numbers = []
    for _ in range(COLUMNS):
        seed = (seed * 1103515245 + 12345) % 2 ** 31
        numbers.append(1 + seed // 65536 % 9)
    return weights(*numbers)


def worked():
    """Document 01's example, where #1 has the range 0 to 1 in character 3; then one, two and three of its taxa."""
    return [*example(), TREE, ('states', 4, 3), ('states', 1, 3), *shown('states', 2, 3, 1), *shown('states', 3, 3, 4, 4, 1)]


def unordered():
    """Five and eight taxa whose HTUs are numbered in no order."""
    five = rows([-4, 5], [-3, 5], [-2, 2], [1, 0], [0, 4])
    eight = rows([1, -1, -2], [1, 0, -3], [1, 1, 0], [-1, 1, 1], [2, -2, 2], [3, 0, -1], [0, 5, 1], [-2, 1, -3])
    return (five + shown('states', 5, 2, 8, 8, 6, 7, 7, 1, 6)
            + eight + shown('states', 8, 3, 11, 11, 14, 10, 13, 12, 9, 14, 1, 9, 13, 10, 12))


def larger():
    """Eleven and thirteen taxa with made-up codes, HTUs numbered in no order."""
    eleven = [17, 19, 18, 15, 17, 13, 16, 20, 16, 12, 1, 15, 12, 18, 19, 14, 14, 20, 13]
    thirteen = [21, 22, 15, 24, 19, 18, 16, 17, 14, 20, 22, 19, 23, 18, 20, 24, 1, 21, 15, 17, 14, 16, 23]
    return ([filled(FEW, 5)] + shown('states', 11, 4, *eleven)
            + [filled(WIDE, 6)] + shown('states', 13, 2, *thirteen) + [('fit', 13, 128)])


def own_trees():
    """Our own trees: of the example, of few codes, where many branches have length 0, and of codes over the whole range."""
    return [*example(), ('own', 4, 3), filled(FEW, 1), ('own', 64, 1), ('own', 23, 9), filled(TWO, 2), ('own', 64, 12), ('own', 16, 128),
            filled(WIDE, 3), ('own', 9, 128), ('own', 1, 5), ('own', 2, 5), ('own', 3, 5)]


def refusals():
    """Refusals of every number, each beside those that come after it: n and m, then a code, then node and character, then the branching.
    The lists stay as they are, and HTU rows are not read."""
    beside = [row(5, 1000, 1000, 1000), row(6, -1000, -1000, -1000), TREE, ('states', 4, 3), NO_TREE, ('fit', 0, 3),
              TREE, ('fit', 65, 3), ('fit', 4, 0), ('fit', 4, 129), NO_TREE, ('fit', 4, 3), TREE, ('fit', 3, 3), ('fit', 5, 3)]
    nodes = [NO_TREE, ('node', 65, 3, 0, 4), TREE, ('node', 4, 3, 0, 1), NO_TREE, ('node', 4, 3, 7, 1), ('node', 4, 3, 5, 0),
             TREE, ('node', 4, 3, 5, 4), NO_TREE, ('node', 4, 3, 5, 1)]
    codes = [row(4, -1, 1, 1000), NO_TREE, ('fit', 4, 3), TREE, ('fit', 4, 2), NO_TREE, ('node', 4, 3, 7, 4), TREE, ('node', 4, 3, 5, 1)]
    return beside + nodes + codes


def no_branchings():
    """Branch records that are no branching: nodes not by number, a ring, an HTU with three descendants, a taxon with descendants, no
    ancestor, one that does not exist, row 1 above all; and a record past the first 2n-3, which is not read."""
    unread = [row(4, -1, 1, 2), TREE, ('record', 3, 4, 6), ('fit', 4, 3), ('record', 3, 3, 6), ('record', 7, 1, 0), ('fit', 4, 3)]
    trees = [[6, 6, 1, 6, 5], [5, 5, 5, 1, 6], [6, 2, 2, 1, 5], [6, 6, 5, 0, 5], [6, 6, 5, 127, 5], [1, 1, 1, 1, 1]]
    return unread + [step for tree in trees for step in shown('fit', 4, 3, *tree)]


def sizes(n, m, matrix=FULL, weights=COLUMNS, low=FULL, high=FULL, chosen=FULL):
    return (n, m, matrix, weights, low, high, chosen)


def not_full():
    """Lists that are not of full size, each of the three and the matrix, with more taxa than a matrix has."""
    fits = [sizes(65, 3, low=FULL - 1), sizes(65, 3, high=FULL - 1), sizes(65, 3, chosen=FULL - 1), sizes(65, 3, chosen=FULL + 1),
            sizes(65, 3, matrix=FULL - 1)]
    others = [sizes(65, 3, matrix=size) for size in [FULL - 1, FULL + 1]]
    return [NO_TREE, *(('fit_of_sizes', *of) for of in fits), *(('others_of_sizes', *of[:4]) for of in others), ('ends',)]


def weights_refused():
    """Weights that are not 128; then a weight of 0, of 10 and of 255: after the limits, before a code, a node that does not exist and records
    that are no branching. A weight past m is not asked. The lists stay as they are."""
    other = [sizes(65, 3, weights=size) for size in [COLUMNS - 1, COLUMNS + 1]]
    number = [NO_TREE, *(('fit_of_sizes', *of) for of in other), *(('others_of_sizes', *of[:4]) for of in other)]
    fits = [TREE, weights(1, 0, 1), ('fit', 4, 3), NO_TREE, weights(1, 1, 10), ('fit', 4, 3), TREE, weights(9, 1, 0), ('fit', 4, 2),
            weights(0, 1, 1), ('fit', 65, 3)]
    nodes = [('node', 4, 129, 5, 1), NO_TREE, weights(255, 1, 1), ('node', 4, 3, 7, 4), TREE, weights(9, 1, 0), ('node', 4, 2, 5, 1)]
    codes = [row(4, -1, 1000, 2), weights(1, 1, 0), ('fit', 4, 3), weights(1, 1, 10), ('fit', 4, 2), ('node', 4, 3, 5, 1)]
    return number + fits + nodes + codes


def weighed():
    """Where characters weigh differently: document 01's example by 3, 1 and 2, HTUs numbered in no order, our own trees by generated weights,
    and the whole range at the heaviest."""
    return [weights(3, 1, 2), *worked(), weights(2, 9, 5), *unordered(), generated(7), *larger(), generated(8), *own_trees(),
            weights(*[HEAVIEST] * COLUMNS), ('own', 9, 128)]


STEPS = [*worked(), *unordered(), *larger(), *own_trees(), *worked(), *refusals(), *no_branchings(), *not_full(), *weights_refused(),
         *weighed()]
