#!/usr/bin/env python3
"""check_rows.py: prints cases of Check at every limit of document 01, in the format of tests/vectors.

Each expected answer stands here by hand, from the page; a place is a number, or the name of the node, action, table or rule that was
broken. A line that begins with '#' names the case after it."""
from itertools import combinations

from blocks import *


def row(name, pipeline, rules, answer):
    case(name, 'check', pipeline, rules, answer)


# 2: counts and lengths

def field_counts():
    for count, answer in ((0, 'refused 2 0'), (1, 'ok'), (2, 'ok'), (31, 'ok'), (32, 'ok'), (33, 'refused 2 0')):
        p = Pipeline(*[8] * count)
        p.root = p.node(SKIP)
        row(f'{count} fields', p, [], answer)


def balanced(count):
    """A pipeline of so many nodes, an even number: skips and one assume, and sequences over two statements at a time."""
    p = Pipeline(8)
    free = [p.node(SKIP) for _ in range(count // 2 - 1)]
    free.append(p.node(ASSUME, p.node(TRUTH, 1)))
    while len(free) > 1:
        free.append(p.node(SEQUENCE, free.pop(0), free.pop(0)))
    p.root = free[0]
    return p


def node_counts():
    row('no nodes', Pipeline(8), [], 'refused 2 0')
    row('1 node', small(), [], 'ok')
    row('1,022 nodes, balanced', balanced(1022), [], 'ok')
    row('1,024 nodes, balanced', balanced(1024), [], 'ok')
    row('1,026 nodes, balanced', balanced(1026), [], 'refused 2 0')
    p = balanced(1024)
    p.root = p.node(CHOICE, p.root, p.root)
    row('1,025 nodes, the last wrong in another way too', p, [], 'refused 2 0')
    for count, answer in ((1021, 'ok'), (1022, 'ok'), (1023, 'refused 2 0')):
        p, value = complements(count)
        p.root = p.node(ASSIGN, 0, value)
        row(f'a chain of {count} complements and an assign', p, [], answer)
    p, p.root = complements(1023)
    row('a chain of 1,023 complements: 1,024 nodes and no statement', p, [], 'refused 7 0')


def action_and_table_counts():
    for count, answer in ((0, 'ok'), (1, 'ok'), (63, 'ok'), (64, 'ok'), (65, 'refused 2 0')):
        p = small()
        for _ in range(count):
            p.action(p.node(SKIP))
        row(f'{count} actions', p, [], answer)
    for count, answer in ((0, 'ok'), (1, 'ok'), (31, 'ok'), (32, 'ok'), (33, 'refused 2 0')):
        p = small()
        p.action(p.node(SKIP))
        for _ in range(count):
            p.table([], 0)
        row(f'{count} tables', p, [], answer)


def matching():
    """A pipeline with one table of one key and an action with no parameters."""
    p = Pipeline(8)
    p.action(p.node(SKIP))
    p.table([0], 0)
    p.root = p.node(APPLY, 0)
    return p


def rule_counts():
    one = rule(0, [(1, 255)], 0)
    for count, answer in ((0, 'ok'), (1, 'ok'), (255, 'ok'), (256, 'ok'), (257, 'refused 2 0')):
        row(f'{count} rules', matching(), [one] * count, answer)
    for extra in (1, 6, 11):
        row(f'a rule and {extra} words', matching(), [one, one[:extra]], 'refused 2 0')
    row('a rule block of 1 word', matching(), [[0]], 'refused 2 0')
    row('a rule less a word', matching(), [one[:11]], 'refused 2 0')
    row('256 rules less a word', matching(), [one] * 255 + [one[:11]], 'refused 2 0')
    row('256 rules and a word', matching(), [one] * 256 + [[0]], 'refused 2 0')
    row('a rule block that is wrong for a pipeline with no tables', small(), [[0] * 13], 'refused 2 0')


def lengths():
    words = small().words()
    for length in range(len(words)):
        row(f'the first {length} words of a pipeline', words[:length], [], 'refused 2 0')
    row('a word too many', words + [0], [], 'refused 2 0')
    row('four words too many', words + [SKIP, 0, 0, 0], [], 'refused 2 0')
    row('no words at all, and a rule block that is wrong', [], [[0]], 'refused 2 0')
    words = matching().words()
    row('an action and a table, a word short', words[:-1], [], 'refused 2 0')
    row('an action and a table, a word long', words + [0], [], 'refused 2 0')


def huge_counts():
    """Counts far too large; some of them give the block's length where sums and products keep only 32 bits."""
    for place, name in enumerate('F N A T'.split()):
        for count in (HUGE, 2 ** 31, 2 ** 30, 2 ** 29):
            for words in (small().words(), matching().words()):
                row(f'{name} is {count} in a block of {len(words)} words', words[:place] + [count] + words[place + 1:], [], 'refused 2 0')
    row('all counts huge', [HUGE] * 5, [], 'refused 2 0')
    row('all counts huge in a longer block', [HUGE] * 10, [], 'refused 2 0')
    row('5 + F + 4N is the length modulo 2^32', [HUGE, 1, 0, 0, 0, 0, 0, 0], [], 'refused 2 0')
    row('4N is 4 modulo 2^32', [1, 2 ** 30 + 1, 0, 0, 0, 8, SKIP, 0, 0, 0], [], 'refused 2 0')
    row('4A is 0 modulo 2^32', [1, 1, 2 ** 30, 0, 0, 8, SKIP, 0, 0, 0], [], 'refused 2 0')
    row('8T is 0 modulo 2^32', [1, 1, 0, 2 ** 29, 0, 8, SKIP, 0, 0, 0], [], 'refused 2 0')


# 3: field widths

def field_widths():
    for width in (1, 2, 31, 32):
        p = small()
        p.widths = [width]
        row(f'a field of width {width}', p, [], 'ok')
    for width in (0, 33, 64, 256 + 8, 65536 + 8, 2 ** 31, HUGE):
        p = small()
        p.widths = [width]
        row(f'a field of width {width}', p, [], 'refused 3 0')
    for place in (1, 16, 31):
        for width in (0, 33):
            p = Pipeline(*[8] * 32)
            p.widths[place] = width
            p.root = p.node(SKIP)
            row(f'field {place} of 32 of width {width}', p, [], f'refused 3 {place}')
    p = Pipeline(8, 33, 8, 0)
    p.root = p.node(SKIP)
    row('fields 1 and 3', p, [], 'refused 3 1')


# 4: nodes

def child(p, sort):
    """A good child: a value of 8 bits, a test or a statement."""
    return {'v': lambda: p.node(CONSTANT, 200, 8), 't': lambda: p.node(TRUTH, 1), 's': lambda: p.node(SKIP)}[sort]()


def good_node(p, kind):
    """A node of the kind in a pipeline whose field 0 has 8 bits; a value of 8 bits."""
    if kind == JOIN:
        return p.node(JOIN, p.node(CONSTANT, 10, 4), p.node(CONSTANT, 11, 4))
    numbers = {CONSTANT: (255, 8), PARAMETER: (0, 8), SLICE: (0, 7, 0), TRUTH: (1,)}.get(kind, (0, 0, 0))
    return p.node(kind, *[child(p, sort) if sort in 'vts' else numbers[i] if sort == 'n' else 0 for i, sort in enumerate(WORDS[kind])])


def held(p, kind, node):
    """A statement that holds the node: an assignment of the value, an assume of the test, or the statement itself."""
    return p.node(ASSIGN, 0, node) if kind in VALUES else p.node(ASSUME, node) if kind in TESTS else node


def good(kind):
    """An accepted pipeline with a node of the kind, and the node's number. A parameter stands in an action; an apply has a table."""
    p = Pipeline(8)
    node = good_node(p, kind)
    statement = held(p, kind, node)
    if kind == PARAMETER:
        p.action(statement, 8)
        statement = p.node(SKIP)
    if kind == APPLY:
        p.table([], p.action(p.node(SKIP)))
    p.root = statement
    return p, node


def each_kind():
    for kind in KINDS:
        p, node = good(kind)
        row(f'{NAMES[kind]}', p, [], 'ok')
        for word, what in enumerate(WORDS[kind], 1):
            for number in (1, HUGE) if what == '-' else ():
                p, node = good(kind)
                p.nodes[node][word] = number
                row(f'{NAMES[kind]} with {number} in unused word {" abc"[word]}', p, [], f'refused 4 {node}')


def child_words():
    """Each word of each kind that is a child: the kind, the word's place in the node, the child's sort."""
    return [(kind, word, what) for kind in KINDS for word, what in enumerate(WORDS[kind], 1) if what in 'vts']


def child_places():
    """A child's number is below its parent's."""
    for kind, word, what in child_words():
        p, node = good(kind)
        later, right = child(p, what), p.nodes[node][word]
        for number in sorted({node, node + 1, later, later + 1, right + 256, right + 1024, right + 65536, right + 2 ** 31, HUGE}):
            p.nodes[node][word] = number
            row(f'{NAMES[kind]} {node} of {later + 1} nodes with child {number} as {" abc"[word]}', p, [], f'refused 4 {node}')


def child_sorts():
    sorts = {'v': 'a value', 't': 'a test', 's': 'a statement'}
    for kind, word, what in child_words():
        for wrong in [sort for sort in sorts if sort != what]:
            p = Pipeline(8)
            other = child(p, wrong)
            node = good_node(p, kind)
            p.nodes[node][word] = other
            p.root = held(p, kind, node)
            row(f'{NAMES[kind]} with {sorts[wrong]} as {" abc"[word]}', p, [], f'refused 4 {node}')


def unequal_widths():
    for kind in (SUM, DIFFERENCE, AND, OR, XOR, EQUAL, LESS):
        for left, right in ((8, 7), (7, 8), (1, 32), (32, 1), (31, 32)):
            p = Pipeline(left)
            node = p.node(kind, p.node(CONSTANT, 0, left), p.node(CONSTANT, 0, right))
            p.root = held(p, kind, node)
            row(f'{NAMES[kind]} of widths {left} and {right}', p, [], f'refused 4 {node}')
    for left, right in ((8, 9), (9, 8), (1, 32)):
        p = Pipeline(left)
        node = p.node(SELECT, p.node(TRUTH, 0), p.node(CONSTANT, 0, left), p.node(CONSTANT, 0, right))
        p.root = p.node(ASSIGN, 0, node)
        row(f'select of widths {left} and {right}', p, [], f'refused 4 {node}')
        p = Pipeline(32, left)
        p.root = p.node(ASSIGN, 1, p.node(CONSTANT, 0, right))
        row(f'a field of width {left} assigned a value of width {right}', p, [], 'refused 4 1')


def equal_widths():
    for width in (1, 8, 31, 32):
        for kind in (SUM, DIFFERENCE, AND, OR, XOR, EQUAL, LESS):
            p = Pipeline(width)
            node = p.node(kind, p.node(FIELD, 0), p.node(CONSTANT, 1, width))
            p.root = held(p, kind, node)
            row(f'{NAMES[kind]} of widths {width} and {width}', p, [], 'ok')
        p = Pipeline(8, width)
        node = p.node(SELECT, p.node(TRUTH, 0), p.node(FIELD, 1), p.node(COMPLEMENT, p.node(FIELD, 1)))
        p.root = p.node(ASSIGN, 1, node)
        row(f'select and complement of width {width}', p, [], 'ok')


def constants():
    for width, value, answer in ((1, 0, 'ok'), (1, 1, 'ok'), (1, 2, 'refused 4 0'), (1, HUGE, 'refused 4 0'), (8, 255, 'ok'),
                                 (8, 256, 'refused 4 0'), (8, HUGE, 'refused 4 0'), (31, 2147483647, 'ok'), (31, 2147483648, 'refused 4 0'),
                                 (31, HUGE, 'refused 4 0'), (32, 2147483648, 'ok'), (32, HUGE, 'ok')):
        p = Pipeline(width)
        p.root = p.node(ASSIGN, 0, p.node(CONSTANT, value, width))
        row(f'constant {value} of width {width}', p, [], answer)
    for width in (0, 33, 64, 256 + 32, 2 ** 31, HUGE):
        p = Pipeline(32)
        p.root = p.node(ASSIGN, 0, p.node(CONSTANT, 0, width))
        row(f'constant 0 of width {width}', p, [], 'refused 4 0')


def slices():
    for width, high, low, answer in ((8, 7, 0, 'ok'), (8, 7, 7, 'ok'), (8, 0, 0, 'ok'), (8, 7, 4, 'ok'), (8, 3, 0, 'ok'), (1, 0, 0, 'ok'),
                                     (32, 31, 0, 'ok'), (32, 31, 31, 'ok'), (8, 8, 0, 'refused 4 1'), (8, 8, 8, 'refused 4 1'),
                                     (8, 9, 2, 'refused 4 1'), (8, 3, 4, 'refused 4 1'), (8, 0, 1, 'refused 4 1'), (8, 7, 8, 'refused 4 1'),
                                     (1, 1, 0, 'refused 4 1'), (32, 32, 0, 'refused 4 1'), (32, 32, 1, 'refused 4 1'),
                                     (8, HUGE, 0, 'refused 4 1'), (8, HUGE, HUGE, 'refused 4 1'), (8, 7, HUGE, 'refused 4 1')):
        p = Pipeline(width, high - low + 1 if answer == 'ok' else 1)
        p.root = p.node(ASSIGN, 1, p.node(SLICE, p.node(FIELD, 0), high, low))
        row(f'slice {high} to {low} of width {width}', p, [], answer)
    for width in (3, 5):
        p = Pipeline(8, width)
        p.root = p.node(ASSIGN, 1, p.node(SLICE, p.node(FIELD, 0), 7, 4))
        row(f'slice 7 to 4 assigned to a field of width {width}', p, [], 'refused 4 2')


def joins():
    for above, below, answer in ((1, 1, 'ok'), (16, 16, 'ok'), (31, 1, 'ok'), (1, 31, 'ok'), (32, 1, 'refused 4 2'), (1, 32, 'refused 4 2'),
                                 (17, 16, 'refused 4 2'), (16, 17, 'refused 4 2'), (32, 32, 'refused 4 2')):
        p = Pipeline(min(above + below, 32))
        p.root = p.node(ASSIGN, 0, p.node(JOIN, p.node(CONSTANT, 1, above), p.node(CONSTANT, 1, below)))
        row(f'widths {above} and {below} joined', p, [], answer)
    p = Pipeline(7)
    p.root = p.node(ASSIGN, 0, p.node(JOIN, p.node(CONSTANT, 0, 4), p.node(CONSTANT, 0, 4)))
    row('two values of width 4 joined, assigned to a field of width 7', p, [], 'refused 4 3')


def other_numbers():
    for truth, answer in ((0, 'ok'), (1, 'ok'), (2, 'refused 4 0'), (HUGE, 'refused 4 0')):
        p = Pipeline(8)
        p.root = p.node(ASSERT, p.node(TRUTH, truth))
        row(f'truth {truth}', p, [], answer)
    for field, answer in ((0, 'ok'), (2, 'ok'), (3, 'refused 4 {}'), (32, 'refused 4 {}'), (256, 'refused 4 {}'), (HUGE, 'refused 4 {}')):
        p = Pipeline(8, 8, 8)
        p.root = p.node(ASSIGN, 0, p.node(FIELD, field))
        row(f'field {field} of 3', p, [], answer.format(0))
        p = Pipeline(8, 8, 8)
        p.root = p.node(ASSIGN, field, p.node(CONSTANT, 0, 8))
        row(f'field {field} of 3 assigned', p, [], answer.format(1))
        p = Pipeline(8, 8, 8)
        p.root = p.node(HAVOC, field)
        row(f'field {field} of 3 havocked', p, [], answer.format(0))
    p = Pipeline(8)
    p.root = p.node(ASSIGN, 1, p.node(CONSTANT, 0, 1))
    row('field 1 of 1 assigned a bit, and the word after the widths is 1', p, [], 'refused 4 1')


def applies_and_parameters():
    for tables, table, answer in ((0, 0, 'refused 4 1'), (1, 0, 'ok'), (1, 1, 'refused 4 1'), (2, 1, 'ok'), (2, 2, 'refused 4 1'),
                                  (32, 31, 'ok'), (32, 32, 'refused 4 1'), (1, HUGE, 'refused 4 1')):
        p = Pipeline(8)
        p.action(p.node(SKIP))
        for _ in range(tables):
            p.table([], 0)
        p.root = p.node(APPLY, table)
        row(f'table {table} of {tables} applied', p, [], answer)
    for width, answer in ((1, 'ok'), (32, 'ok'), (0, 'refused 4 0'), (33, 'refused 4 0'), (HUGE, 'refused 4 0')):
        p = Pipeline(width if answer == 'ok' else 8)
        p.action(p.node(ASSIGN, 0, p.node(PARAMETER, 0, width)), width if answer == 'ok' else 8)
        p.root = p.node(SKIP)
        row(f'a parameter of width {width}', p, [], answer)


def unknown_kinds():
    for kind in (0, 13, 14, 15, 22, 23, 31, 40, 48, 64, 256 + SKIP, 2 ** 31 + SKIP, HUGE):
        p = Pipeline(8)
        p.root = p.node(kind)
        row(f'kind {kind} at the root', p, [], 'refused 4 0')
        p = small()
        node = p.node(kind)
        p.root = p.node(SEQUENCE, p.root, node)
        row(f'kind {kind} in a sequence', p, [], f'refused 4 {node}')


# 5: actions

def action_row(name, words, well):
    """An action's words, in the first of two actions and in the second. Node 0 is a value, 1 a test, 3 a value over both, 4 the root,
    5 and 6 are bodies; N is 7."""
    p = Pipeline(8)
    value, test = p.nodes_of((FIELD, 0), (TRUTH, 1))
    p.root = p.node(ASSIGN, 0, p.node(SELECT, test, value, p.node(CONSTANT, 0, 8)))
    p.nodes_of((SKIP,), (SKIP,))
    p.actions = [words, [6, 0, 0, 0]]
    row(f'{name}, the first of two', p, [], 'ok' if well else 'refused 5 0')
    p.actions.reverse()
    row(f'{name}, the second of two', p, [], 'ok' if well else 'refused 5 1')


def actions():
    for body, name in ((0, 'a value'), (1, 'a test'), (3, 'a value above a test'), (7, 'N'), (100, 'above N'), (HUGE, 'huge')):
        action_row(f'an action whose body is {name}', [body, 0, 0, 0], False)
    for words in ([0, 0, 0], [1, 1, 0], [1, 32, 0], [2, 1, 1], [2, 32, 32], [2, 8, 16]):
        action_row(f'an action with count and widths {words}', [5, *words], True)
    for words in ([3, 8, 8], [3, 0, 0], [4, 8, 8], [HUGE, 8, 8], [1, 0, 0], [1, 33, 0], [1, HUGE, 0], [2, 0, 8], [2, 33, 8], [2, 8, 0],
                  [2, 8, 33], [2, 8, HUGE], [0, 1, 0], [0, 0, 1], [0, 8, 8], [0, HUGE, 0], [1, 8, 1], [1, 8, 8], [1, 8, HUGE]):
        action_row(f'an action with count and widths {words}', [5, *words], False)


# 6: tables

def with_actions():
    """Three fields, of 8, 1 and 32 bits, and four actions: with no parameter, with one of 4 bits, with two of 1 and 31, of 32 and 8 bits."""
    p = small()
    p.widths = [8, 1, 32]
    for widths in ((), (4,), (1, 31), (32, 8)):
        p.action(p.node(SKIP), *widths)
    return p


def table_row(name, words, answer):
    p = with_actions()
    p.tables.append(words)
    row(name, p, [], answer)
    p.tables.insert(0, [0, 0, 0, 0, 0, 0, 0, 0])
    row(f'{name}, the second of two', p, [], answer if answer == 'ok' else 'refused 6 1')


def tables():
    for keys in ([], [0], [2], [0, 1], [0, 1, 2], [0, 1, 2, 0], [1, 1, 1, 1]):
        table_row(f'a table with keys {keys}', [len(keys), *keys, *[0] * (4 - len(keys)), 0, 0, 0], 'ok')
    for count in (5, 6, 2 ** 31, HUGE):
        table_row(f'a table with {count} keys', [count, 0, 0, 0, 0, 0, 0, 0], 'refused 6 0')
    for place in range(4):
        for key in (3, HUGE):
            keys = [0] * place + [key] + [0] * (3 - place)
            table_row(f'a table with keys {keys}', [4, *keys, 0, 0, 0], 'refused 6 0')
            table_row(f'a table with {place + 1} keys of {keys}', [place + 1, *keys, 0, 0, 0], 'refused 6 0')
        for count in range(place + 1):
            keys = [0] * place + [1] + [0] * (3 - place)
            table_row(f'a table with {count} keys of {keys}', [count, *keys, 0, 0, 0], 'refused 6 0')


# an action of `with_actions` and two data words, and whether a default or a rule may call it so
CALLS = [([0, 0, 0], True), ([0, 1, 0], False), ([0, 0, 1], False), ([0, HUGE, 0], False), ([0, 0, HUGE], False), ([1, 0, 0], True),
         ([1, 15, 0], True), ([1, 16, 0], False), ([1, HUGE, 0], False), ([1, 15, 1], False), ([1, 0, HUGE], False), ([2, 0, 0], True),
         ([2, 1, 2 ** 31 - 1], True), ([2, 2, 0], False), ([2, HUGE, 0], False), ([2, 1, 2 ** 31], False), ([2, 1, HUGE], False),
         ([3, HUGE, 255], True), ([3, HUGE, 256], False), ([3, 0, HUGE], False), ([4, 0, 0], False), ([5, 0, 0], False), ([2 ** 31, 0, 0], False), ([HUGE, 0, 0], False)]


def defaults():
    for call, well in CALLS:
        table_row(f'a default {call}', [0, 0, 0, 0, 0, *call], 'ok' if well else 'refused 6 0')
    p = small()
    p.table([], 0)
    row('a table where there are no actions', p, [], 'refused 6 0')


# 7: the root

def roots():
    p = Pipeline(8)
    value, test = p.nodes_of((FIELD, 0), (TRUTH, 1))
    statement = p.node(ASSIGN, 0, p.node(SELECT, test, value, p.node(CONSTANT, 0, 8)))
    for root, name in ((value, 'a value'), (test, 'a test'), (statement + 1, 'N'), (statement + 2, 'above N'), (2 ** 31, '2^31'), (HUGE, 'huge')):
        p.root = root
        row(f'the root is {name}', p, [], 'refused 7 0')
    p.root = statement
    row('the root is a statement', p, [], 'ok')
    p = small()
    p.action(p.node(SKIP))
    row('the root is below an action\'s body', p, [], 'ok')
    p = Pipeline(8)
    p.action(p.node(SKIP))
    p.root = p.node(SKIP)
    row('the root is above an action\'s body', p, [], 'ok')


# 8: uses

def use_rows():
    p = small()
    p.node(SKIP)
    row('a statement that nobody uses', p, [], 'refused 8 1')
    p = Pipeline(8)
    p.node(TRUTH, 1)
    p.root = p.node(SKIP)
    row('a test that nobody uses', p, [], 'refused 8 0')
    for kind in (SUM, DIFFERENCE, AND, OR, XOR, JOIN, EQUAL, LESS):
        p = Pipeline(8)
        value = p.node(CONSTANT, 1, 4 if kind == JOIN else 8)
        p.root = held(p, kind, p.node(kind, value, value))
        row(f'{NAMES[kind]} of a value and itself', p, [], 'refused 8 0')
    for kind in (BOTH, EITHER, SEQUENCE, CHOICE):
        p = Pipeline(8)
        one = p.node(TRUTH if kind in TESTS else SKIP)
        p.root = held(p, kind, p.node(kind, one, one))
        row(f'{NAMES[kind]} of a node and itself', p, [], 'refused 8 0')
    p = Pipeline(8)
    test, value = p.nodes_of((TRUTH, 1), (FIELD, 0))
    p.root = p.node(ASSIGN, 0, p.node(SELECT, test, value, value))
    row('select of a value and itself', p, [], 'refused 8 1')


def shared_nodes():
    p = Pipeline(8)
    value = p.node(CONSTANT, 1, 8)
    left, right = p.nodes_of((ASSIGN, 0, value), (ASSIGN, 0, value))
    p.root = p.node(SEQUENCE, left, right)
    row('a value with two parents', p, [], 'refused 8 0')
    p = Pipeline(8)
    test = p.node(TRUTH, 1)
    p.root = p.node(SEQUENCE, p.node(ASSUME, test), p.node(ASSERT, p.node(NOT, test)))
    row('a test with two parents', p, [], 'refused 8 0')
    p = small()
    p.action(p.root)
    row('the root is a body too', p, [], 'refused 8 0')
    p = Pipeline(8)
    left, right = p.nodes_of((SKIP,), (SKIP,))
    p.root = p.node(SEQUENCE, left, right)
    p.action(right)
    row('a body is a child too', p, [], 'refused 8 1')
    p = small()
    body = p.node(SKIP)
    p.action(body)
    p.action(body)
    row('one body for two actions', p, [], 'refused 8 1')


def many_uses():
    """A value with so many parents that a count of 8 bits would be 0, 1 and 2 again."""
    for count in (255, 256, 257, 258):
        p = Pipeline(8)
        value = p.node(CONSTANT, 1, 8)
        free = [p.node(ASSIGN, 0, value) for _ in range(count)]
        while len(free) > 1:
            free.append(p.node(SEQUENCE, free.pop(0), free.pop(0)))
        p.root = free[0]
        row(f'a value with {count} parents', p, [], 'refused 8 0')


def unused_parents():
    p = Pipeline(8)
    left, right = p.nodes_of((SKIP,), (SKIP,))
    p.node(SEQUENCE, left, right)
    p.root = right
    row('the root is a child of a node that nobody uses', p, [], 'refused 8 1')
    p.root = left
    row('the root is the first child of a node that nobody uses', p, [], 'refused 8 0')
    p = Pipeline(8)
    value = p.node(FIELD, 0)
    p.node(COMPLEMENT, value)
    p.root = p.node(ASSIGN, 0, value)
    row('a value is used by a node that nobody uses', p, [], 'refused 8 0')
    p = small()
    value = p.node(FIELD, 0)
    p.node(COMPLEMENT, value)
    row('a value is used only by a node that nobody uses', p, [], 'refused 8 2')
    p = small()
    p.root = p.node(ASSIGN, 0, p.node(SLICE, p.node(FIELD, 0), 7, 0))
    p.action(0)
    row('slice bounds and fields are no uses of the nodes with those numbers', p, [], 'ok')


# 9: parameters and applies

def parameter_rows():
    for widths, number, width, well in (((8,), 0, 8, True), ((8, 4), 0, 8, True), ((8, 4), 1, 4, True), ((4, 8), 1, 8, True), ((), 0, 8, False),
                                        ((8,), 1, 8, False), ((8,), 1, 1, False), ((8, 8), 2, 8, False), ((8, 8), 3, 8, False),
                                        ((8,), HUGE, 8, False), ((8, 8), HUGE, 8, False), ((8, 8), 2 ** 31, 8, False), ((8,), 0, 4, False),
                                        ((4,), 0, 8, False), ((8, 4), 1, 8, False), ((8, 4), 0, 4, False), ((9,), 0, 8, False)):
        p = small()
        p.widths = [width]
        node = p.node(PARAMETER, number, width)
        p.action(p.node(ASSIGN, 0, node), *widths)
        row(f'parameter {number} of width {width} in an action with widths {list(widths)}', p, [], 'ok' if well else f'refused 9 {node}')
    p = Pipeline(8)
    p.root = p.node(ASSIGN, 0, p.node(PARAMETER, 0, 8))
    row('a parameter, and no action', p, [], 'refused 9 0')
    p.action(p.node(SKIP), 8)
    row('a parameter outside the action', p, [], 'refused 9 0')


def deep_value(p, node):
    """A statement far above a value of 8 bits."""
    test = p.node(LESS, p.node(COMPLEMENT, node), p.node(CONSTANT, 7, 8))
    value = p.node(SELECT, p.node(NOT, test), p.node(FIELD, 0), p.node(CONSTANT, 1, 8))
    return p.node(CHOICE, p.node(SKIP), p.node(SEQUENCE, p.node(ASSIGN, 0, value), p.node(SKIP)))


def deep_rows():
    for number, well in ((0, True), (1, False)):
        p = small()
        node = p.node(PARAMETER, number, 8)
        p.action(deep_value(p, node), 8)
        row(f'parameter {number} deep in an action with one', p, [], 'ok' if well else f'refused 9 {node}')
    p = small()
    p.action(p.node(SKIP), 8)
    node = p.node(PARAMETER, 0, 8)
    p.root = p.node(SEQUENCE, p.root, deep_value(p, node))
    row('a parameter deep under the root', p, [], f'refused 9 {node}')
    for number, answer in ((0, 'ok'), (1, 'refused 9 0')):
        p, value = complements(1021)
        p.nodes[0] = [PARAMETER, number, 8, 0]
        p.action(p.node(ASSIGN, 0, value), 8)
        p.root = p.node(SKIP)
        row(f'parameter {number} under 1,021 complements in an action with one', p, [], answer)
    p = Pipeline(8)
    nodes = [p.node(PARAMETER, 0, 8), p.node(PARAMETER, 1, 8), p.node(PARAMETER, 0, 8)]
    total = p.node(SUM, p.node(SUM, nodes[0], nodes[1]), nodes[2])
    p.action(p.node(ASSIGN, 0, total), 8, 8)
    p.root = p.node(SKIP)
    row('a parameter twice, and another', p, [], 'ok')


def two_actions():
    for widths, answer in ((((8,), (4,)), 'ok'), (((4,), (8,)), 'refused 9 1'), (((8,), ()), 'refused 9 3'), (((), (4,)), 'refused 9 1')):
        p = small()
        p.widths = [8, 4]
        for width, field, own in ((8, 0, widths[0]), (4, 1, widths[1])):
            p.action(p.node(ASSIGN, field, p.node(PARAMETER, 0, width)), *own)
        row(f'a parameter of width 8 in an action with {list(widths[0])}, one of 4 in one with {list(widths[1])}', p, [], answer)
    p = matching()
    node = p.node(PARAMETER, 0, 8)
    p.action(p.node(ASSIGN, 0, node))
    row('a parameter in an action that has none and that nobody names', p, [], f'refused 9 {node}')
    p.actions[1][1:3] = [1, 8]
    row('a parameter in an action that nobody names', p, [], 'ok')


def apply_rows():
    p = Pipeline(8)
    p.action(p.node(SKIP))
    p.table([], 0)
    p.root = p.node(SKIP)
    node = p.node(APPLY, 0)
    p.action(node)
    row('an apply is a body', p, [], f'refused 9 {node}')
    p.tables[0][5] = 1
    row('an apply is the body of its own default', p, [], f'refused 9 {node}')
    p = small()
    p.table([], p.action(p.node(APPLY, 0)))
    row('an apply is the body of the first action, the only one', p, [], 'refused 9 1')
    p = Pipeline(8)
    p.action(p.node(SKIP))
    p.table([], 0)
    p.root = p.node(SKIP)
    node = p.node(APPLY, 0)
    p.action(p.node(SEQUENCE, p.node(SKIP), p.node(CHOICE, node, p.node(SKIP))))
    row('an apply deeper in a body', p, [], f'refused 9 {node}')
    p = matching()
    p.root = p.node(CHOICE, p.node(SEQUENCE, p.root, p.node(APPLY, 0)), p.node(APPLY, 0))
    row('three applies under the root', p, [], 'ok')


# 10: rules

def ruled():
    """with_actions and three tables: one with no keys, one with the key of 8 bits, one with the keys of 8, 1, 32 and 8 bits."""
    p = with_actions()
    p.table([], 0)
    p.table([0], 0)
    p.table([0, 1, 2, 0], 0)
    return p


def rule_row(name, words, well):
    row(name, ruled(), [words], 'ok' if well else 'refused 10 0')
    good_rule = rule(0, [], 0)
    row(f'{name}, the third of four', ruled(), [good_rule, good_rule, words, good_rule], 'ok' if well else 'refused 10 2')


def rules():
    for table, well in ((0, True), (1, True), (2, True), (3, False), (4, False), (HUGE, False)):
        rule_row(f'a rule of table {table}', rule(table, [], 0), well)
    for pair, well in (((0, 0), True), ((255, 255), True), ((0, 255), True), ((16, 240), True), ((0, 256), False), ((256, 256), False),
                       ((0, 511), False), ((0, 2 ** 31), False), ((0, HUGE), False), ((1, 0), False), ((1, 254), False), ((255, 254), False),
                       ((256, 255), False), ((HUGE, 255), False), ((2 ** 31, 0), False)):
        rule_row(f'a rule with value {pair[0]} and mask {pair[1]} at a key of 8 bits', rule(1, [pair], 0), well)
    for call, well in CALLS:
        rule_row(f'a rule that calls {call}', [1, 8, 8, 0, 0, 0, 0, 0, 0, *call], well)


def rule_keys():
    full = [(255, 255), (1, 1), (HUGE, HUGE), (255, 255)]
    rule_row('a rule with every bit of four keys', rule(2, full, 0), True)
    rule_row('a rule with no bit of four keys', rule(2, [], 0), True)
    for place, mask, value in ((0, 256, 0), (1, 2, 0), (3, 256, 0), (0, 254, 255), (1, 0, 1), (2, HUGE - 1, HUGE), (2, 0, 2 ** 31), (3, 127, 128)):
        pairs = list(full)
        pairs[place] = (value, mask)
        rule_row(f'a rule with value {value} and mask {mask} at key {place} of four', rule(2, pairs, 0), False)
    for table, keys in ((0, 0), (1, 1)):
        for place in range(keys, 4):
            for pair in ((0, 1), (1, 0), (1, 1), (0, HUGE), (HUGE, HUGE)):
                pairs = [(0, 0)] * place + [pair]
                rule_row(f'a rule of a table with {keys} keys, and {pair} at pair {place}', rule(table, pairs, 0), False)


def rules_without_tables():
    row('a rule where there are no tables', small(), [rule(0, [], 0)], 'refused 10 0')
    p = with_actions()
    p.table([], 0)
    row('two rules that are wrong', p, [rule(0, [], 0), rule(1, [], 0), rule(0, [], 9)], 'refused 10 1')
    row('the last of 256 rules is wrong', p, [rule(0, [], 0)] * 255 + [rule(0, [], 4)], 'refused 10 255')


# several faults: the smallest number, then the smallest place

# where `faulty` puts the fault with a number
PLACES = {3: 1, 4: 3, 5: 1, 6: 1, 7: 0, 8: 6, 9: 1, 10: 1}


def faulty(numbers):
    """A pipeline and rules with one fault for each of the numbers."""
    p = Pipeline(8, 33 if 3 in numbers else 8)
    p.action(p.node(SKIP))
    value = p.node(PARAMETER, 0, 8) if 9 in numbers else p.node(CONSTANT, 0, 8)
    assign = p.node(ASSIGN, 0, value)
    test = p.node(TRUTH, 2 if 4 in numbers else 1)
    statement = p.node(SEQUENCE, assign, p.node(ASSUME, test))
    p.root = HUGE if 7 in numbers else statement
    p.table([], 0)
    if 5 in numbers:
        p.action(0, 8, 33)
    if 6 in numbers:
        p.table([9], 0)
    if 8 in numbers:
        p.node(HAVOC, 0)
    return p, [rule(0, [], 0), rule(9, [], 0)] if 10 in numbers else []


def orders():
    for numbers in [some for count in range(9) for some in combinations(PLACES, count)]:
        row(f'faults {list(numbers)}', *faulty(numbers), f'refused {numbers[0]} {PLACES[numbers[0]]}' if numbers else 'ok')
    for numbers in ([3], [3, 4], [10], list(PLACES)):
        p, some_rules = faulty(numbers)
        row(f'a word too many, and faults {numbers}', p.words() + [0], some_rules, 'refused 2 0')
        row(f'a rule block that is a word too long, and faults {numbers}', p, some_rules + [[0]], 'refused 2 0')
        row(f'257 rules, and faults {numbers}', p, [rule(9, [], 9)] * 257, 'refused 2 0')


def two_places():
    p = small()
    wrong = p.nodes_of((TRUTH, 2), (SKIP, 1), (HAVOC, 1))
    row('three nodes', p, [], f'refused 4 {wrong[0]}')
    p = small()
    p.actions += [[0, 3, 0, 0], [HUGE, 0, 0, 0]]
    row('two actions', p, [], 'refused 5 0')
    p = with_actions()
    p.tables += [[0, 0, 0, 0, 0, 0, 0, 0], [5, 0, 0, 0, 0, 0, 0, 0], [0, 0, 0, 0, 0, 4, 0, 0]]
    row('two tables', p, [], 'refused 6 1')
    p = small()
    p.nodes_of((SKIP,), (TRUTH, 0))
    p.action(0)
    row('a node used twice, and two that nobody uses', p, [], 'refused 8 0')
    p = Pipeline(8)
    p.root = p.node(SEQUENCE, p.node(ASSIGN, 0, p.node(PARAMETER, 1, 8)), p.node(ASSIGN, 0, p.node(PARAMETER, 0, 8)))
    row('two parameters', p, [], 'refused 9 0')
    p = matching()
    apply, parameter = p.node(APPLY, 0), p.node(PARAMETER, 0, 8)
    p.action(p.node(SEQUENCE, apply, p.node(ASSIGN, 0, parameter)))
    row('an apply and a parameter in one body', p, [], f'refused 9 {apply}')
    p = small()
    p.nodes_of((PARAMETER, 0, 33), (FIELD, 9))
    row('a parameter of width 33 outside an action is a wrong node first', p, [], 'refused 4 1')


def last_places():
    p = balanced(1024)
    p.nodes[1023][3] = 1
    row('the last of 1,024 nodes is wrong', p, [], 'refused 4 1023')
    p = balanced(1022)
    p.nodes_of((SKIP,), (SKIP,))
    p.action(1022)
    row('the last of 1,024 nodes is unused', p, [], 'refused 8 1023')
    p = balanced(1022)
    p.action(p.node(ASSIGN, 0, p.node(PARAMETER, 0, 8)))
    row('the last but one of 1,024 nodes is a parameter that its action lacks', p, [], 'refused 9 1022')
    p = small()
    for _ in range(64):
        p.action(p.node(SKIP))
    p.actions[63][1] = 3
    row('the last of 64 actions is wrong', p, [], 'refused 5 63')
    p = with_actions()
    for _ in range(32):
        p.table([], 0)
    p.tables[31][0] = 5
    row('the last of 32 tables is wrong', p, [], 'refused 6 31')


def examples():
    """Example 8, example 9 and the listing's example."""
    p = Pipeline(8)
    choice = p.node(CHOICE, p.node(ASSIGN, 0, p.node(CONSTANT, 1, 8)), p.node(SKIP))
    p.root = p.node(SEQUENCE, choice, p.node(ASSERT, p.node(EQUAL, p.node(FIELD, 0), p.node(CONSTANT, 1, 8))))
    row('example 8', p, [], 'ok')
    p = Pipeline(8, 8)
    p.action(p.node(ASSIGN, 1, p.node(PARAMETER, 0, 8)), 8)
    p.action(p.node(SKIP))
    p.table([0], 1)
    p.root = p.node(APPLY, 0)
    row('example 9', p, [rule(0, [(16, 240)], 0, 7)], 'ok')
    p = Pipeline(8)
    p.root = p.node(ASSERT, p.node(LESS, p.node(FIELD, 0), p.node(CONSTANT, 10, 8)))
    row('the listing\'s example', p, [], 'ok')


for section in (field_counts, node_counts, action_and_table_counts, rule_counts, lengths, huge_counts, field_widths, each_kind, child_places,
                child_sorts, unequal_widths, equal_widths, constants, slices, joins, other_numbers, applies_and_parameters, unknown_kinds,
                actions, tables, defaults, roots, use_rows, shared_nodes, many_uses, unused_parents, parameter_rows, deep_rows, two_actions,
                apply_rows, rules, rule_keys, rules_without_tables, orders, two_places, last_places, examples):
    section()
