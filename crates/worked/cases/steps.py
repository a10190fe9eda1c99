"""The cases of a part as steps, each a word and numbers behind it: what `src/shared/cases.rt` reads and `driver/cases.rs` reads as well.

The steps of this file write into the matrix that a part holds, and into its weights; each part has words of its own besides.

    row v codes ..      writes codes at the front of the row of node v
    fill seed c1 .. c8  fills the matrix with some of eight codes, by a sequence of pseudo-random numbers
    weights w1 ..       weighs the first characters as given, and the others by 1
    generated seed      weighs each character by a number from 1 to 9, by a sequence of pseudo-random numbers
"""
COLUMNS = 128
MATRIX_SIZE = 126 * COLUMNS
FEW = [-2, -1, -1, 0, 0, 0, 1, 2]                # five codes about zero, of which 0 is the most frequent
TWO = [0, 1, 0, 1, 0, 1, 0, 1]                   # two codes, equally frequent
WIDE = [-999, -500, -37, 0, 1, 250, 998, 999]    # codes over the whole range


def row(v, *codes):
    """Codes into the row of node v."""
    return ('row', v, *codes)


def rows(*rows):
    """Codes into row 1 and on."""
    return [row(v, *codes) for v, codes in enumerate(rows, 1)]


def example():
    """The four taxa of document 01's example, three characters each."""
    return rows([0, 0, 0], [2, 1, 0], [2, 3, 1], [-1, 1, 2])


def filled(codes, seed):
    """A matrix of some of eight codes."""
    return ('fill', seed, *codes)


def alike(code):
    """A matrix of one code."""
    return filled([code] * 8, 0)


def weights(*first):
    """The weights of the first characters, those of the others being 1."""
    return ('weights', *first)


def generated_weights(seed):
    """Weights from 1 to 9."""
    return ('generated', seed)


def show(n, m):
    """The lines of n taxa and m characters."""
    return ('show', n, m)


def show_example():
    """Document 01's example, and the first one and two of its taxa."""
    return [*example(), show(4, 3), show(1, 3), show(2, 3)]


def show_generated():
    """Matrices of few codes, where many taxa or intervals are equally near, and of codes over the whole range."""
    return [
        filled(FEW, 1), show(64, 1), show(64, 4), show(23, 9),
        filled(TWO, 2), show(64, 12), show(16, 128),
        filled(WIDE, 3), show(64, 20), show(9, 128),
    ]
