#!/usr/bin/env python3
"""Writes data/cases and stdout of this crate.

    cases.py BIN

BIN is the folder of the reference's two programs, wagner-reference and wagner-files (cargo build --release in a copy of reference/). What
a file brings is what wagner-reference prints with the requests in force; a text of more than 1,500 bytes stands as its length and its
checksum Adler-32. Behind each stands how many of 1,048,576 lent bytes are left. The files of the base come first: they bring what they
bring with --requests 0 and a `c` line after the `t` line, but for a fourth field in line 1 and the letter `F`, which the base refuses, and
for a row 1 named `V`, which is read as weights. The files of each request follow; those from before M-103 bring what they brought, but for
the ones that begin with `F`. A case is the length of the file and the number of bytes that are kept of it, each in three bytes, the highest
first, and these bytes; the file goes on with `x`.
"""
import itertools
import os
import subprocess
import sys
import zlib

BIN = sys.argv[1]
HERE = os.path.dirname(os.path.abspath(__file__))
LENT = 1048576
MOST_PRINTED = 1500
IN_FORCE = 4  # so many requests, from M-100 on
EXAMPLE = b'W\t4\t3\nA\t0\t0\t0\nB\t2\t1\t0\nC\t2\t3\t1\nD\t-1\t1\t2\n'


def run(program, *words, requests, given=b''):
    """What one of the reference's programs prints with so many requests in force."""
    command = [os.path.join(BIN, program), *words, '--requests', str(requests)]
    return subprocess.run(command, input=given, stdout=subprocess.PIPE, check=True).stdout


def matrix(n, m, code=lambda v, j: (v * 7 + j * 3) % 19 - 9):
    """A file of n taxa and m characters."""
    rows = (b'T%d' % v + b''.join(b'\t%d' % code(v, j) for j in range(1, m + 1)) + b'\n' for v in range(1, n + 1))
    return b'W\t%d\t%d\n' % (n, m) + b''.join(rows)


def named_edges():
    """The scope paper's edges, and a refusal of every number from 1 to 11."""
    small = b'W\t1\t1\nA\t0\n'
    yield EXAMPLE
    for code in [b'999', b'-999', b'1000', b'-1000', b'1000000', b'-1000000', b'-0']:
        yield b'W\t2\t2\nA\t0\t0\nB\t5\t' + code + b'\n'
    yield matrix(2, 2, lambda v, j: -999 if v == 1 else 999)    # the greatest difference of a code, twice
    yield matrix(64, 1)
    yield matrix(65, 1)
    yield matrix(1, 128)
    yield matrix(1, 129)
    yield matrix(64, 128, lambda v, j: (v * v + j * j * v) % 10)  # a listing above 64 KiB
    yield EXAMPLE[:-1]                                          # a missing last line feed
    yield b'W\t2\t2\nA\t1\t2\nB\t1\t2\n'                        # equal rows under two names
    yield b'W\t5\t2\nA\t1\t2\nB\t1\t2\nC\t1\t2\nD\t1\t2\nE\t1\t2\n'
    yield b'W\t2\t2\nA\t1\t2\n1B\t1\n'                          # a bad name and too few codes
    for n in [1, 2, 3]:
        for m in [1, 3]:
            yield matrix(n, m)
    yield b''                                                   # 2
    yield b'W\t1\t1'                                            # 3
    yield b'V\t1\t1\nA\t0\n'
    yield b'W\t0\t1\n'                                          # 4
    yield b'W\t2\t1\nA\t0\n'                                    # 5
    yield b'W\t2\t1\nA\t0\n_B\t0\n'                             # 6
    yield b'W\t2\t1\nA\t0\nA\t0\n'                              # 7
    yield b'W\t2\t1\nA\t0\nB\t0\t0\n'                           # 8
    yield b'W\t2\t1\nA\t0\nB\t00\n'                             # 9
    yield b'W\t2\t1\nA\t0\nB\t-1000\n'                          # 10
    yield small + b'B\t0\n'                                     # 11
    for length in [44999, 45000, 45001, 45002, 65536]:          # 11, and 1 from 45,001 bytes on
        yield small + b'x' * (length - len(small))


def fields_of_line_1(file):
    return file.split(b'\n')[0].count(b'\t') + 1


def with_field(file, word):
    """A file with one field more in line 1."""
    return file.replace(b'\n', b'\t' + word + b'\n', 1)


def fourth_fields():
    """The fourth field of line 1, right and wrong, and beside what is asked before and after it."""
    small = b'W\t1\t1\nA\t0\n'
    for word in [b'advance', b'closest']:
        yield with_field(small, word)
        yield with_field(b'W\t0\t1\nA\t0\n', word)             # 4
        yield with_field(b'W\t1\t129\nA\t0\n', word)
        yield with_field(b'W\t2\t1\nA\t0\n', word)             # 5
        yield with_field(small, word) + b'B\t0\n'               # 11
    for word in [b'', b'Closest', b'ADVANCE', b'closest ', b' advance', b'closest\r', b'clos', b'closestt', b'advance,closest', b'3',
                 b'clo\xf3est', b'closest\0']:
        yield with_field(small, word)                           # 15
    for line in [b'W\t01\t1\tnot', b'W\t1\t1000000\tnot', b'V\t1\t1\tnot', b'W\t1\t1\tnot\t', b'W\t1\t1\tclosest\tadvance',
                 b'W\t1\tclosest', b'W\tclosest\t1\t1']:
        yield line + b'\nA\t0\n'                               # 3, before 15
    yield b'W\t1\t1\tclosest'
    yield b'W\t1\t1\tnot'
    for line in [b'W\t0\t1\tnot', b'W\t65\t1\t', b'W\t1\t129\tnot', b'W\t2\t1\tnot']:
        yield line + b'\nA\t0\n'                               # 15, before 4 and 5
    for length in [45000, 45001]:
        start = with_field(small, b'closest')
        yield start + b'x' * (length - len(start))


def in_both_orders():
    """Files that are placed in both orders: ties, taxa that a placement brings nearer or puts farther off, the least and the largest."""
    tied = [
        [(0, 0), (2, 0), (1, 3), (0, 3)],                       # two taxa equally near, the lower row more advanced
        [(0, 0), (10, 0), (0, 11), (12, 0)],                    # the closer one more advanced
        [(0, 0), (1, 0), (0, 1), (0, 3), (3, 0)],               # equally near, the lower row to the higher lower end
        [(0, 0), (0, 3), (2, 0), (-4, 0)],                      # three intervals equally near
        [(1, 2)] * 5,
        [(0, 0), (1, 0), (5, 0), (0, 6), (9, 1)],               # brought nearer
        [(0, 0), (4, 4), (0, 9), (4, -6), (-8, 2)],             # put farther off
    ]
    files = [EXAMPLE, *(matrix(n, 3) for n in [1, 2, 3]), *(matrix(len(rows), 2, lambda v, j: rows[v - 1][j - 1]) for rows in tied)]
    files += [matrix(64, 1), matrix(1, 128), matrix(64, 128, lambda v, j: (v * v + j * j * v) % 10)]
    for file in files:
        yield with_field(file, b'advance')
        yield with_field(file, b'closest')


def first_field(file, line):
    """The first field of a line counted from 1, empty where there is no such line."""
    return (file.split(b'\n') + [b''] * line)[line - 1].split(b'\t')[0]


def weighed(file, weights):
    """A file with a line of weights behind line 1."""
    return file.replace(b'\n', b'\nV' + b''.join(b'\t' + weight for weight in weights) + b'\n', 1)


def weight_lines():
    """The `V` line, right and wrong, and beside what is asked before and after it."""
    for weight in [b'1', b'9', b'0', b'10', b'01', b'-1', b'', b' 1', b'1\r', b':', b'a', b'5\0']:
        yield weighed(b'W\t1\t1\nA\t5\n', [weight])           # 16 but for the first two
    for line in [b'V', b'V\t', b'V\t1', b'V\t1\t2\t3', b'V\t1\t2\t', b'v\t1\t2', b'VV\t1\t2', b'V \t1\t2', b'U\to\to', b'N\t1']:
        yield b'W\t1\t2\n' + line + b'\nA\t5\t6\n'            # 16, and 11 for a row of another name
    for rest in [b'V', b'V\t3', b'V\t0', b'VA\t3']:
        yield b'W\t1\t1\n' + rest                              # no line feed: 16, and 5 for a row
    for line in [b'W\t0\t1', b'W\t1\t129', b'W\t1\t1\tnot', b'W\t1', b'V\t1\t1']:
        yield line + b'\nV\t0\nA\t5\n'                        # 3, 15 and 4, before 16
    for row in [b'', b'A\t5', b'A\t5\t5\n', b'1\t5\n', b'A\tx\n', b'A\t1000\n', b'A\t5\nx', b'V\t5\n', b'V\t5\nV\t5\n']:
        yield b'W\t1\t1\nV\t7\n' + row                        # rows are lines 3 and on, 11 is line 4
        yield b'W\t1\t1\nV\t0\n' + row                        # 16, before every question of the rows
    yield b'W\t2\t1\nA\t1\nV\t2\n'                           # a later row may have the name
    yield b'W\t2\t1\nV\t1\nA\t1\nA\t2\n'                     # 7 at line 4


def by_weights():
    """Files in both orders by weights of 1, by other ones that turn a tie, and by the heaviest."""
    largest = matrix(64, 128, lambda v, j: 999 if (v + j) % 2 else -999)
    for file, count in [(EXAMPLE, 3), (matrix(1, 3), 3), (matrix(2, 3), 3), (matrix(3, 3), 3), (matrix(7, 4), 4)]:
        lists = [[b'1'] * count, [b'9'] * count, [b'%d' % (j % 9 + 1) for j in range(count)], [b'%d' % (9 - j % 9) for j in range(count)]]
        for weights in lists:
            yield weighed(file, weights)
            yield with_field(weighed(file, weights), b'closest')
    for turned in [[b'1', b'9', b'1'], [b'1', b'1', b'9'], [b'9', b'1', b'1']]:
        yield weighed(EXAMPLE, turned)
    yield weighed(largest, [b'9'] * 128)                        # differences of 2,301,696
    yield with_field(weighed(largest, [b'%d' % (j % 9 + 1) for j in range(128)]), b'closest')


def rows(*codes):
    """A file with these rows of codes."""
    return matrix(len(codes), len(codes[0]), lambda v, j: codes[v - 1][j - 1])


def indices():
    """The consistency index: none, of a total that equals the floor, of greater ones, and by weights."""
    yield rows([-7, 0, 999])                                    # one taxon, a total of 0
    yield weighed(rows([-7, 0, 999]), [b'9', b'1', b'5'])
    yield rows(*[[-7, 0, 999]] * 6)                             # equal rows, a total of 0
    yield with_field(weighed(rows(*[[3, -3]] * 64), [b'9', b'2']), b'closest')
    yield rows([0], [1])                                        # a total of 1
    yield rows([0, 5], [0, 5], [0, 6], [0, 5])                  # one character that varies, by one taxon
    yield rows([0], [10], [20], [40], [30])                     # a total that equals the floor: row 1 lowest
    yield rows([40], [10], [20], [0], [30])                     # row 1 highest
    yield rows([20], [10], [40], [0], [30])                     # row 1 between
    yield rows([-9, 4], [-2, 4], [-5, 9], [-9, 6])              # row 1 lowest in both, codes below 0 in one
    yield rows([-2, 9], [-9, 4], [-5, 9], [-9, 6])              # highest in both
    yield rows([-3, 3], [5, -5], [-8, 8], [1, -1], [-8, -5])    # codes on both sides of 0
    yield rows([999, -999], [-999, 999], [-999, -999], [999, 999])
    crossed = rows([0, 0], [0, 1], [1, 0], [1, 1])              # floor 2, total 3
    yield crossed
    for weights in [b'11', b'12', b'21', b'19', b'91', b'99']:
        yield weighed(crossed, [b'%c' % weight for weight in weights])
    yield rows([0, 0, 0], [0, 1, 1], [1, 0, 1], [1, 1, 0])      # floor 3, total 5: nothing left over
    apart = matrix(9, 4, lambda v, j: (v * v * j + v) % 11 - 5)
    for weights in [b'1111', b'9111', b'1191', b'1239', b'9999']:  # other totals in the other order, but for the third
        yield weighed(apart, [b'%c' % weight for weight in weights])
        yield with_field(weighed(apart, [b'%c' % weight for weight in weights]), b'closest')
    yield matrix(64, 6, lambda v, j: (v - 1 >> j - 1) % 2)      # every combination of six characters
    mixed = matrix(64, 128, lambda v, j: 999 if (40503 * v ** 3 * j ** 2 + 7919 * v * j >> 9) % 2 else -999)
    yield weighed(mixed, [b'9'] * 128)                          # the largest floor, 2,301,696


def branch_lines(ancestors):
    """The `C` lines of nodes 2, 3 and so on with these ancestors."""
    return [b'C\t%d\t%d\n' % branch for branch in enumerate(ancestors, 2)]


def own(file, ancestors=()):
    """The `F` file with the rows of a `W` file and this branching."""
    return b'F' + file[1:] + b''.join(branch_lines(ancestors))


def hung(n, place):
    """A branching of n taxa: each from row 3 on is hung on the branch above a node, by a place among those that are there."""
    ancestors = {2: 1}
    nodes = [2]
    for taxon in range(3, n + 1):
        lower, htu = nodes[place(taxon) % len(nodes)], n + taxon - 2
        ancestors |= {htu: ancestors[lower], lower: htu, taxon: htu}
        nodes += [taxon, htu]
    return [ancestors[v] for v in range(2, 2 * n - 1)]


def turned(n, ancestors):
    """The same branching with its HTUs numbered from the last to the first."""
    number = [*range(n + 1), *range(2 * n - 2, n, -1)]
    return [number[ancestors[number[v] - 2]] for v in range(2, 2 * n - 1)]


def own_branchings():
    """`F` files that are accepted: the least and the largest, by weights, every branching of four taxa, HTUs in another order, and taxa
    named like lines; such names in `W` files."""
    for m in [1, 3, 128]:
        yield own(matrix(1, m))                                 # no `C` line, no `T` and no `H` line
    yield own(weighed(matrix(1, 3), [b'2', b'9', b'1']))
    yield own(matrix(2, 3), [1])
    yield own(weighed(matrix(2, 3), [b'2', b'9', b'1']), [1])
    yield own(matrix(3, 3), [4, 4, 1])
    yield own(rows([-7, 0], [-7, 0]), [1])                      # a total of 0
    yield own(rows(*[[-7, 0]] * 5), hung(5, lambda taxon: 0))
    for pair in [(2, 3), (2, 4), (3, 4)]:                       # the two below the lower HTU, by either number of it
        for lower, upper in [(5, 6), (6, 5)]:
            ancestors = [lower if taxon in pair else upper for taxon in [2, 3, 4]] + ([upper, 1] if lower == 5 else [1, upper])
            yield own(EXAMPLE, ancestors)                       # the Wagner tree is the second
            yield own(weighed(EXAMPLE, [b'3', b'1', b'2']), ancestors)
    crossed = rows([0], [1], [1], [0])
    yield own(crossed, [5, 5, 6, 6, 1])                         # the floor, 1000 thousandths
    yield own(crossed, [5, 6, 5, 6, 1])                         # twice the floor, 500
    places = [lambda taxon: 0, lambda taxon: -1, lambda taxon: taxon // 2, lambda taxon: taxon * taxon]
    for place in places:                                        # row by row on one taxon, on the top, and in other shapes
        ancestors = hung(9, place)
        yield own(matrix(9, 2), ancestors)
        yield own(weighed(matrix(9, 2), [b'9', b'2']), turned(9, ancestors))
        yield own(matrix(64, 1), hung(64, place))
        yield own(matrix(64, 1), turned(64, hung(64, place)))
    largest = matrix(64, 128, lambda v, j: 999 if (v + j) % 2 else -999)
    mixed = matrix(64, 128, lambda v, j: (v * v + j * j * v) % 10)
    yield own(mixed, hung(64, lambda taxon: taxon * taxon))
    yield own(weighed(mixed, [b'%d' % (j % 9 + 1) for j in range(128)]), turned(64, hung(64, lambda taxon: 5 * taxon)))
    yield own(weighed(largest, [b'9'] * 128), hung(64, lambda taxon: 0))  # branches of 2,301,696
    letters = b'F\t4\t2\nF\t0\t1\nC\t2\t4\nW\t3\t3\nT\t4\t1\n'
    yield letters + b''.join(branch_lines([5, 5, 6, 6, 1]))     # a row that reads like a `C` line
    yield b'F\t2\t2\nC\t2\t1\nD\t2\t1\nC\t2\t1\n'
    yield b'F\t3\t1\nV\t5\nV\t0\nU\t1\nN\t2\n' + b''.join(branch_lines([4, 4, 1]))
    for row in [b'C\t2\t1\n', b'F\t2\t1\n']:
        yield b'W\t1\t2\n' + row                              # names of taxa in a `W` file
        yield b'W\t2\t2\nA\t1\t1\n' + row
        yield b'W\t2\t2\n' + row + b'A\t1\t1\n'


def wrong_lines(v, above):
    """What may stand where the `C` line of a node is wanted, each of another form or for another node."""
    yield from [b'', b'\n', b'C\n', b'C\t\n', b'C\t\t\n', b'C\t%d\n' % v, b'C %d %d\n' % (v, above), b'%d\t%d\n' % (v, above)]
    for more in [b'\t', b'\t0', b'\t1\t', b'\r', b' ', b'\0']:
        yield b'C\t%d\t%d%s\n' % (v, above, more)              # too many fields, or a byte that is no digit
    for letter in [b'c', b'', b'CC', b' C', b'C ', b'\tC', b'T', b'D', b'\xc3']:
        yield b'%s\t%d\t%d\n' % (letter, v, above)
    for form in [b'0%d', b'-%d', b'+%d', b'%d000000', b' %d', b'%d ', b'%d.0', b'#%d', b'T%d', b'%d..%d']:
        yield b'C\t%s\t%d\n' % (form.replace(b'%d', b'%d' % v), above)
        yield b'C\t%d\t%s\n' % (v, form.replace(b'%d', b'%d' % above))
    for field in [b'', b'-0', b'00', b'-', b'1000000', b'x']:
        yield b'C\t%s\t%d\n' % (field, above)
        yield b'C\t%d\t%s\n' % (v, field)
    for node in sorted({0, 1, v - 1, v + 1, 2 * v, 999999}):
        yield b'C\t%d\t%d\n' % (node, above)


def lines_of_branchings():
    """The `C` lines of `F` files in a wrong form, in another order, missing and too many, and beside what is asked before and after."""
    start = b'F\t3\t1\nA\t0\nB\t5\nC\t2\n'
    ancestors = [4, 4, 1]
    right = branch_lines(ancestors)
    for at in range(3):
        before, behind = start + b''.join(right[:at]), b''.join(right[at + 1:])
        for wrong in wrong_lines(at + 2, ancestors[at]):
            yield before + wrong + behind                       # 17
        for end in [b'', right[at][:-1], b'C', b'C\t', b'x']:
            yield before + end                                  # 17: no line, or no line feed
        for wrong in [b'C\t9\t9\n', b'\n', b'D\t1\n']:
            yield before + wrong + behind + b'x'                # 17, before 11
    for order in itertools.permutations(right):
        yield start + b''.join(order)                           # 17 but for the first
    yield start + right[0] + b''.join(right)
    for rest in [b'C\t5\t1\n', b'C\t4\t1\n', b'\n', b'x', b'D\t1\n', b'V\t1\n', b'\0', b'C']:
        yield start + b''.join(right) + rest                    # 11 at line 8
        yield weighed(start, [b'7']) + b''.join(right) + rest   # at line 9
        yield start + b''.join(branch_lines([4, 4, 4])) + rest  # 11, before 14
    yield own(matrix(1, 1)) + b'C\t2\t1\n'                     # 11 at line 3
    yield own(matrix(1, 1)) + b'C\t1\t0\n'
    for n in [1, 2, 3]:
        yield matrix(n, 1) + b''.join(branch_lines([1]))        # 11: a `W` file has no `C` lines
        yield with_field(matrix(n, 1), b'closest') + b''.join(branch_lines([4, 4, 1]))
    yield weighed(start, [b'7']) + b''.join(right[:2])          # 17 at line 8
    yield start + b'C\t2\t2\nC\t3\t4\nC\t4\t01\n'             # 17, before 14
    yield start + b'C\t2\t0\nC\t3\t4\n'
    yield start[:-4] + b''.join(right)                          # a row missing: the first `C` line is none, 8
    yield b'F\t3\t2\nA\t0\t0\nB\t5\t5\n' + b''.join(right)    # a row missing: the first `C` line is one, 17
    yield b'F\t3\t2\nA\t0\t0\nC\t5\t5\n' + b''.join(right)    # 7
    yield b'F\t2\t1\nC\t2\t1\nA\t0\nB\t5\n'                  # the `C` line before the rows, 8


def no_branchings():
    """`F` files whose ancestors are no branching: 14."""
    for above in [0, 2, 3, 257, 65537, 999999]:                 # no node, or the node itself
        yield own(matrix(2, 1), [above])
    for ancestors in [*itertools.product(range(1, 5), repeat=3), (0, 4, 1), (4, 0, 1), (4, 4, 0), (5, 4, 1), (4, 5, 1), (4, 4, 5)]:
        yield own(matrix(3, 1), ancestors)                      # but for 4, 4, 1
    for ancestors in [
        [5, 5, 5, 1, 5],                                        # an HTU above four nodes, one above none
        [3, 5, 3, 1, 5],                                        # a taxon above two nodes
        [1, 5, 6, 6, 5],                                        # two HTUs in a ring, row 1 with its taxon apart
        [5, 6, 6, 6, 5],                                        # no node below row 1
        [5, 5, 6, 1, 1],                                        # two nodes below row 1
        [6, 6, 1, 7, 8, 8, 7],                                  # two HTUs in a ring, one below them
        [1, 6, 7, 8, 7, 8, 6],                                  # three HTUs in a ring
    ]:
        yield own(matrix(len(ancestors) // 2 + 2, 1), ancestors)
        yield own(weighed(matrix(len(ancestors) // 2 + 2, 1), [b'3']), ancestors)
        yield own(matrix(len(ancestors) // 2 + 2, 1), ancestors) + b'\n'  # 11, before 14
    long = hung(64, lambda taxon: -1)
    for v, above in [(2, 0), (2, 127), (64, 64), (126, 126), (65, 1), (125, 1), (126, 65), (126, 2), (100, 3)]:
        yield own(matrix(64, 1), long[:v - 2] + [above] + long[v - 1:])
    ring = long.copy()
    ring[0], ring[126 - 2] = 1, 65                              # 62 HTUs in a ring
    yield own(matrix(64, 1), ring)


def own_files_refused():
    """`F` files that are refused before their `C` lines: by each number that a file of this kind can meet, and beside later ones."""
    lines = b''.join(branch_lines([4, 4, 1]))
    start = own(matrix(1, 1))
    for length in [44999, 45000, 45001, 65536]:                 # 11, and 1 from 45,001 bytes on
        yield start + b'x' * (length - len(start))
    for rest in [b'', b'\t1', b'\t\t', b'\t01\t1', b'\t1\t-1', b'\t1\t1000000', b'\t1\t1\t', b'\t1\t1\tadvance', b'\t1\t1\tclosest',
                 b'\t1\t1\tnot', b'\t0\t1\tclosest', b'\t1\t1\tclosest\tadvance']:
        yield b'F' + rest + b'\nA\t0\n'                       # 3
    for letter in [b'f', b'FF', b' F', b'F ', b'F\r', b'FW', b'WF', b'C', b'E', b'\tF']:
        yield letter + b'\t1\t1\nA\t0\n'
    yield b'F\t1\t1'
    for line in [b'F\t0\t1', b'F\t65\t1', b'F\t1\t0', b'F\t1\t129', b'F\t999999\t999999']:
        yield line + b'\nV\t0\nA\t0\n'                       # 4, before 16
    for line in [b'V\n', b'V\t0\n', b'V\t1\t1\n', b'V\t10\n', b'V\t']:
        yield b'F\t3\t1\n' + line + b'A\t0\nB\t5\nC\t6\n' + lines  # 16
    for rest in [b'', b'A\t0', b'A\t0\n', b'A\t0\nB\t5', b'A\t0\nB\t5\nC\t6']:
        yield b'F\t3\t1\n' + rest                             # 5
    for row in [b'C\n', b'C\t6\t6\n', b'1\n', b'\n', b'_C\t6\n', b'Seventeen_letters\t6\n', b'#1\t6\n', b'B\t6\n', b'A\tx\n', b'C\t06\n',
                b'C\t2..5\n', b'C\t-\n', b'U\to\n', b'C\t1000\n', b'C\t-1000\n']:
        yield b'F\t3\t1\nA\t0\nB\t5\n' + row + lines           # 8, 6, 7, 9 and 10
        yield b'F\t3\t1\nA\t0\nB\t5\n' + row + b'C\t2\t2\nx'   # before 17, 11 and 14


def generated(first, count, least, most, requests=0, right=lambda file: True):
    """Generated files from a seed on, with a length within limits, that are right for what is asked."""
    seed = first
    while count:
        file = run('wagner-files', str(seed), requests=requests)
        if least <= len(file) <= most and right(file):
            count -= 1
            yield file
        seed += 1


def packed(file):
    kept = file.rstrip(b'x')
    return len(file).to_bytes(3, 'big') + len(kept).to_bytes(3, 'big') + kept


def printed(file):
    text = run('wagner-reference', requests=IN_FORCE, given=file)
    left = b'k\t%d\n' % (LENT - len(text))
    if len(text) <= MOST_PRINTED:
        return text + left
    return b'L\t%d\t%d\n' % (len(text), zlib.adler32(text)) + left


def without_index(text):
    """A listing without the line that follows its `t` line, a `c` line; a refusal as it is."""
    before, end, behind = text.partition(b'\nt\t')
    if not end:
        return text
    total, index, *others = behind.split(b'\n')
    assert index.startswith(b'c\t')
    return before + end + b'\n'.join([total, *others])


def as_before(file):
    """A file brings what it brought with the base alone and a `c` line, but for a fourth field and the letter `F`, which the base refuses
    by 3, and a row 1 named `V`."""
    before = run('wagner-reference', requests=0, given=file)
    now = run('wagner-reference', requests=IN_FORCE, given=file)
    refused = before == b'R\t3\t1\n' and (has_word(file) or is_own(file))
    return before == without_index(now) or refused or has_weights(file)


def as_with_three(file):
    """A file brings what it brought with M-100, M-101 and M-102 alone, but for the letter `F`, which was refused by 3."""
    before = run('wagner-reference', requests=3, given=file)
    return before == run('wagner-reference', requests=IN_FORCE, given=file) or (before == b'R\t3\t1\n' and is_own(file))


def has_word(file):
    """A file with a fourth field in line 1."""
    return fields_of_line_1(file) == 4


def has_weights(file):
    """A file whose line 2 is read as weights."""
    return first_field(file, 2) == b'V'


def is_own(file):
    """A file that begins with the letter `F`."""
    return first_field(file, 1) == b'F'


def numbers_met(files):
    """The numbers by which files are refused, 0 for one that is accepted."""
    lines = (run('wagner-reference', requests=IN_FORCE, given=file).split(b'\n')[0].split(b'\t') for file in files)
    return {int(line[1]) if line[0] == b'R' else 0 for line in lines}


base = [*named_edges(), *generated(1, 300, 0, 400), *generated(20000, 40, 401, 1500), *generated(40000, 2, 5000, 9000)]
assert all(map(as_before, base))
files = [*base, *fourth_fields(), *in_both_orders()]
files += [*generated(60000, 80, 0, 400, 1, has_word), *generated(80000, 10, 401, 1500, 1, has_word)]
files += [*weight_lines(), *by_weights()]
files += [*generated(100000, 80, 0, 400, 2, has_weights), *generated(120000, 10, 401, 1500, 2, has_weights)]
files += indices()
assert all(map(as_with_three, files))
files += dict.fromkeys([*own_branchings(), *lines_of_branchings(), *no_branchings(), *own_files_refused()])
files += [*generated(140000, 80, 0, 400, 4, is_own), *generated(160000, 10, 401, 1500, 4, is_own)]
# every number that a file of its kind can meet stands here
assert numbers_met(filter(is_own, files)) == {0, 1, 3, 4, 5, 6, 7, 8, 9, 10, 11, 14, 16, 17}
assert numbers_met(file for file in files if not is_own(file)) == {0, 1, 2, 3, 4, 5, 6, 7, 8, 9, 10, 11, 15, 16}
# three numbers of lent bytes that are not the full size: refused with 12, 0 bytes counted, all of them left
refused = b''.join(b'R\t12\t0\nk\t%d\n' % size for size in [40, LENT - 1, LENT + 1])
with open(os.path.join(HERE, 'data', 'cases'), 'wb') as cases:
    cases.write(b''.join(map(packed, files)))
with open(os.path.join(HERE, 'stdout'), 'wb') as out:
    out.write(refused + b''.join(map(printed, files)))
