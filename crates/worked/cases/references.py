"""The steps of the part `references`: the forms over references. What a step brings is shown on what earlier steps wrote.

    begin                         codes of 0, weights of 1, row 1 alone in the tree, lists as no call wrote them, all of full size
    sizes matrix weights chosen   lends so many of the codes, of the weights and of the chosen states
    place n m b                   a placement of taxon b on the tree, the tree, and the rows of nodes 5 and 6
    write n m                     the tree written over other branch records
    write_alone n m               the same of a tree of row 1 alone
    fit n m                       the fit of the records as last written, and the states of node 5 in the three lists
    fit_others n m                the fit of the other records, and these states
    node v                        the states of node v in the three lists
"""
from cases.steps import COLUMNS, MATRIX_SIZE as FULL, example, row, weights

EXAMPLE = [('begin',), *example()]


def worked(*first):
    """The three calls on document 01's example with these weights. The placements are by advancement; between them a taxon that is in the
    tree, one that does not exist, and too many taxa. The finished tree is written over other records, beside trees and matrices that are
    refused. The fit is of other records, of the records written with a list of three states, and of the records written."""
    placements = [('place', n, 3, b) for n, b in [(4, 2), (4, 2), (4, 4), (4, 9), (65, 3), (4, 3)]]
    records = [('sizes', 3, COLUMNS, FULL), ('write', 4, 3), ('sizes', FULL, COLUMNS, FULL), ('write', 65, 3), ('write_alone', 4, 3),
               ('write_alone', 1, 3), row(6, 0, 1000, 0), ('write', 4, 3), ('write', 4, 1), row(6, 2, 1, 0), ('write', 4, 3)]
    fits = [('fit_others', 4, 3), ('sizes', FULL, COLUMNS, 3), ('fit', 4, 3), ('sizes', FULL, COLUMNS, FULL), ('fit', 4, 3), ('node', 4), ('node', 6)]
    return [*EXAMPLE, weights(*first), *placements, *records, *fits]


def asked(setting, m):
    """What the three calls ask of weights in m characters, before they ask whether tree and records are a branching: a placement, a tree
    that is none written, and the fit of other records."""
    return [*EXAMPLE, setting, ('place', 4, m, 2), ('write_alone', 4, m), ('fit_others', 4, m)]


STEPS = [*worked(1, 1, 1), *worked(3, 1, 2), *worked(1, 9, 4), *asked(('sizes', FULL, COLUMNS - 1, FULL), 3),
         *asked(weights(1, 1, 0), 3), *asked(weights(1, 10, 1), 3), *asked(weights(1, 9, 0), 2)]
