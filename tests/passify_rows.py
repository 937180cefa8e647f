#!/usr/bin/env python3
"""passify_rows.py: prints cases of Passify, in the format of tests/vectors.

Each expected answer stands here by hand, from the page. A small form is written out, piece by piece: the number of the piece's first node, and
then its nodes, without the zeros at their ends. The nodes of a large form are counted in its row; where its words are looked at too, they
are built from the few pieces that it repeats. Nothing here reads a pipeline."""
from blocks import *

LIMIT = 65536
MOST_ROOM = 1048576


def written_out(pieces):
    nodes = []
    for piece in pieces:
        first, words = piece.split(': ')
        assert int(first) == len(nodes), piece
        nodes += [[*map(int, node.split()), 0, 0, 0][:4] for node in words.split(', ')]
    return nodes


def passify(name, p, rules, node_room, width_room, answer):
    case(f'{name}, room {node_room} and {width_room}', 'passify', p, rules, node_room, width_room, answer)


def refused(name, p, rules, number, place, rooms=((0, 0), (40, 3), (MOST_ROOM, MOST_ROOM))):
    for node_room, width_room in dict.fromkeys(rooms):
        passify(name, p, rules, node_room, width_room, f'refused {number} {place}')


def short_rooms(name, p, rules, n, v):
    """n nodes need 4n words, and v variables v: too little for the nodes is told first."""
    refused(name, p, rules, 12, 4 * n, ((4 * n - 1, v), (4 * n - 1, v - 1), (4 * n - 1, v + 1), (0, 0), (0, v), (n, v)))
    refused(name, p, rules, 12, v, ((4 * n, v - 1), (4 * n, 0), (4 * n + 1, v - 1)))


def accepted(name, p, rules, nodes, widths, more=(0, 1, 40)):
    """The form, with exactly the room that it needs and with more, and what is refused with less."""
    n, v = len(nodes), len(widths)
    answer = f'ok {n} {v} : {field_of(nodes)} : {field_of(widths)}'
    for words in more:
        passify(name, p, rules, 4 * n + words, v + words, answer)
    short_rooms(name, p, rules, n, v)


def form(name, p, rules, widths, *pieces):
    accepted(name, p, rules, written_out(pieces), widths)


# statements, values and tests

def statements():
    form('a skip', small(), [], [8], '0: 32')
    p = Pipeline(8, 16)
    p.root = p.node(HAVOC, 1)
    form('a havoc', p, [], [8, 16, 16], '0: 32')
    p = Pipeline(8, 16)
    p.root = set_field(p, 1, 300, 16)
    form('an assign', p, [], [8, 16, 16], '0: 1 300 16, 2 2, 17 0 1, 35 2')
    for kind, name in ((ASSUME, 'an assume'), (ASSERT, 'an assert')):
        p = Pipeline(1)
        p.root = p.node(kind, p.node(TRUTH, 0))
        form(name, p, [], [1], f'0: 16 0, {kind} 0')
    for lean, sequences in (('left', '0: 32, 32, 37 0 1, 32, 37 2 3'), ('right', '0: 32, 32, 32, 37 1 2, 37 0 3')):
        p = Pipeline(8)
        p.root = leaning(p, SEQUENCE, [p.node(SKIP), p.node(SKIP), p.node(SKIP)], lean)
        form(f'three skips, leaning to the {lean}', p, [], [8], sequences)


def current_variables():
    p = Pipeline(8)
    add = [p.node(ASSIGN, 0, p.node(SUM, p.node(FIELD, 0), p.node(CONSTANT, 1, 8))) for _ in range(2)]
    three, none = [p.node(ASSERT, p.node(EQUAL, p.node(FIELD, 0), p.node(CONSTANT, value, 8))) for value in (3, 0)]
    p.root = in_order(p, [add[0], three, add[1], p.node(HAVOC, 0), none])
    form('a field is read by its current variable', p, [], [8] * 4,
         '0: 2 0, 1 1 8, 4 0 1, 2 1, 17 2 3, 35 4',
         '6: 2 1, 1 3 8, 17 6 7, 36 8, 37 5 9',
         '11: 2 1, 1 1 8, 4 11 12, 2 2, 17 13 14, 35 15, 37 10 16',
         '18: 32, 37 17 18',
         '20: 2 3, 1 0 8, 17 20 21, 36 22, 37 19 23')
    p = Pipeline(8, 8)
    copy = [p.node(ASSIGN, field, p.node(FIELD, 1 - field)) for field in (0, 1)]
    p.root = in_order(p, copy)
    form('each field takes the other', p, [], [8] * 4, '0: 2 1, 2 2, 17 0 1, 35 2', '4: 2 2, 2 3, 17 4 5, 35 6, 37 3 7')


def kinds():
    for kind in (SUM, DIFFERENCE, AND, OR, XOR):
        p = Pipeline(8)
        p.root = p.node(ASSIGN, 0, p.node(kind, p.node(FIELD, 0), p.node(CONSTANT, 5, 8)))
        form(f'kind {kind}', p, [], [8, 8], f'0: 2 0, 1 5 8, {kind} 0 1, 2 1, 17 2 3, 35 4')
    p = Pipeline(8, 4)
    ones, field = p.node(CONSTANT, 255, 8), p.node(FIELD, 0)
    otherwise = p.node(COMPLEMENT, p.node(XOR, field, ones))
    low, high = p.node(FIELD, 1), p.node(SLICE, p.node(FIELD, 0), 7, 4)
    then = p.node(JOIN, high, low)
    nine, field = p.node(CONSTANT, 9, 8), p.node(FIELD, 0)
    p.root = p.node(ASSIGN, 0, p.node(SELECT, p.node(LESS, field, nine), then, otherwise))
    form('children in the order a, b, c, whatever their numbers', p, [], [8, 4, 8],
         '0: 2 0, 1 9 8, 18 0 1', '3: 2 0, 10 3 7 4, 2 1, 11 4 5', '7: 2 0, 1 255 8, 8 7 8, 9 9', '11: 12 2 6 10, 2 2, 17 11 12, 35 13')
    p = Pipeline(8)
    less = p.node(LESS, p.node(FIELD, 0), p.node(FIELD, 0))
    no, yes = p.node(NOT, p.node(TRUTH, 0)), p.node(TRUTH, 1)
    p.root = p.node(ASSERT, p.node(EITHER, p.node(BOTH, yes, no), less))
    form('tests', p, [], [8], '0: 16 1, 16 0, 19 1, 20 0 2', '4: 2 0, 2 0, 18 4 5', '7: 21 3 6, 36 7')
    p = Pipeline(8)
    skip, one = p.node(SKIP), set_field(p, 0, 1)
    p.root = p.node(SEQUENCE, one, skip)
    form('a sequence whose left has the higher number', p, [], [8, 8], '0: 1 1 8, 2 1, 17 0 1, 35 2', '4: 32, 37 3 4')


# the page's examples

def examples():
    p = Pipeline(8)
    choice = p.node(CHOICE, set_field(p, 0, 1), p.node(SKIP))
    p.root = p.node(SEQUENCE, choice, p.node(ASSERT, p.node(EQUAL, p.node(FIELD, 0), p.node(CONSTANT, 1, 8))))
    form('example 8', p, [], [8, 8, 8],
         '0: 1 1 8, 2 1, 17 0 1, 35 2',
         '4: 32',
         '5: 2 1, 2 2, 17 5 6, 35 7, 37 3 8',
         '10: 2 0, 2 2, 17 10 11, 35 12, 37 4 13',
         '15: 38 9 14',
         '16: 2 2, 1 1 8, 17 16 17, 36 18, 37 15 19')
    p = Pipeline(8, 8)
    p.action(p.node(ASSIGN, 1, p.node(PARAMETER, 0, 8)), 8)
    p.table([0], p.action(p.node(SKIP)))
    p.root = p.node(APPLY, 0)
    form('example 9', p, [rule(0, [(16, 240)], 0, 7)], [8, 8, 8, 8],
         '0: 16 1, 2 0, 1 240 8, 6 1 2, 1 16 8, 17 3 4, 20 0 5, 35 6',
         '8: 1 7 8, 2 2, 17 8 9, 35 10, 37 7 11',
         '13: 16 1, 2 0, 1 240 8, 6 14 15, 1 16 8, 17 16 17, 20 13 18, 19 19, 35 20',
         '22: 32, 37 21 22',
         '24: 2 2, 2 3, 17 24 25, 35 26, 37 12 27',
         '29: 2 1, 2 3, 17 29 30, 35 31, 37 23 32',
         '34: 38 28 33')
    p = Pipeline(8)
    p.root = p.node(ASSERT, p.node(LESS, p.node(FIELD, 0), p.node(CONSTANT, 10, 8)))
    form('the listing\'s example', p, [], [8], '0: 2 0, 1 10 8, 18 0 1, 36 2')


# joins

def choice_of(left, right):
    """Fields of 8, 16 and 32 bits, so variables 0 to 2, and a choice: a side is the fields that it havocs in order, or a skip."""
    p = Pipeline(8, 16, 32)
    sides = [in_order(p, [p.node(HAVOC, field) for field in side]) if side else p.node(SKIP) for side in (left, right)]
    p.root = p.node(CHOICE, *sides)
    return p


def joins():
    form('no side changes a field', choice_of([], []), [], [8, 16, 32], '0: 32, 32, 38 0 1')
    form('the left changes a field', choice_of([1], []), [], [8, 16, 32, 16, 16],
         '0: 32, 32', '2: 2 3, 2 4, 17 2 3, 35 4, 37 0 5', '7: 2 1, 2 4, 17 7 8, 35 9, 37 1 10', '12: 38 6 11')
    form('the right changes a field', choice_of([], [1]), [], [8, 16, 32, 16, 16],
         '0: 32, 32', '2: 2 1, 2 4, 17 2 3, 35 4, 37 0 5', '7: 2 3, 2 4, 17 7 8, 35 9, 37 1 10', '12: 38 6 11')
    form('both change a field', choice_of([1], [1]), [], [8, 16, 32, 16, 16, 16],
         '0: 32, 32', '2: 2 3, 2 5, 17 2 3, 35 4, 37 0 5', '7: 2 4, 2 5, 17 7 8, 35 9, 37 1 10', '12: 38 6 11')
    form('each changes another field', choice_of([2], [0]), [], [8, 16, 32, 32, 8, 8, 32],
         '0: 32, 32',
         '2: 2 0, 2 5, 17 2 3, 35 4, 37 0 5', '7: 2 3, 2 6, 17 7 8, 35 9, 37 6 10',
         '12: 2 4, 2 5, 17 12 13, 35 14, 37 1 15', '17: 2 2, 2 6, 17 17 18, 35 19, 37 16 20',
         '22: 38 11 21')
    form('the left changes the last field and then the first', choice_of([2, 0], []), [], [8, 16, 32, 32, 8, 8, 32],
         '0: 32, 32, 37 0 1', '3: 32',
         '4: 2 4, 2 5, 17 4 5, 35 6, 37 2 7', '9: 2 3, 2 6, 17 9 10, 35 11, 37 8 12',
         '14: 2 0, 2 5, 17 14 15, 35 16, 37 3 17', '19: 2 2, 2 6, 17 19 20, 35 21, 37 18 22',
         '24: 38 13 23')
    form('the left changes a field twice', choice_of([0, 0], []), [], [8, 16, 32, 8, 8, 8],
         '0: 32, 32, 37 0 1', '3: 32', '4: 2 4, 2 5, 17 4 5, 35 6, 37 2 7', '9: 2 0, 2 5, 17 9 10, 35 11, 37 3 12', '14: 38 8 13')


def sides():
    """What a side reads, and what it changes by an assign."""
    p = Pipeline(8)
    p.root = p.node(CHOICE, p.node(HAVOC, 0), set_field(p, 0, 7))
    form('a havoc or an assign', p, [], [8, 8, 8, 8],
         '0: 32', '1: 1 7 8, 2 2, 17 1 2, 35 3', '5: 2 1, 2 3, 17 5 6, 35 7, 37 0 8', '10: 2 2, 2 3, 17 10 11, 35 12, 37 4 13', '15: 38 9 14')
    p = Pipeline(8)
    p.root = p.node(CHOICE, set_field(p, 0, 7), set_field(p, 0, 7))
    form('both assign the same value', p, [], [8, 8, 8, 8],
         '0: 1 7 8, 2 1, 17 0 1, 35 2', '4: 1 7 8, 2 2, 17 4 5, 35 6', '8: 2 1, 2 3, 17 8 9, 35 10, 37 3 11',
         '13: 2 2, 2 3, 17 13 14, 35 15, 37 7 16', '18: 38 12 17')
    p = Pipeline(8)
    left = set_field(p, 0, 7)
    p.root = p.node(CHOICE, left, p.node(ASSERT, p.node(EQUAL, p.node(FIELD, 0), p.node(CONSTANT, 1, 8))))
    form('the right reads what stood before the choice', p, [], [8, 8, 8],
         '0: 1 7 8, 2 1, 17 0 1, 35 2', '4: 2 0, 1 1 8, 17 4 5, 36 6', '8: 2 1, 2 2, 17 8 9, 35 10, 37 3 11',
         '13: 2 0, 2 2, 17 13 14, 35 15, 37 7 16', '18: 38 12 17')
    p = Pipeline(8, 16)
    before = p.node(HAVOC, 0)
    p.root = p.node(SEQUENCE, before, p.node(CHOICE, p.node(SKIP), p.node(HAVOC, 1)))
    form('a field that was changed before the choice', p, [], [8, 16, 8, 16, 16],
         '0: 32', '1: 32, 32', '3: 2 1, 2 4, 17 3 4, 35 5, 37 1 6', '8: 2 3, 2 4, 17 8 9, 35 10, 37 2 11', '13: 38 7 12, 37 0 13')


def nested_choices():
    p = Pipeline(8)
    inner = p.node(CHOICE, p.node(HAVOC, 0), p.node(SKIP))
    outer = p.node(CHOICE, inner, p.node(SKIP))
    p.root = p.node(SEQUENCE, outer, p.node(ASSERT, p.node(EQUAL, p.node(FIELD, 0), p.node(CONSTANT, 1, 8))))
    form('a choice on the left of a choice', p, [], [8, 8, 8, 8],
         '0: 32, 32', '2: 2 1, 2 2, 17 2 3, 35 4, 37 0 5', '7: 2 0, 2 2, 17 7 8, 35 9, 37 1 10', '12: 38 6 11',
         '13: 32', '14: 2 2, 2 3, 17 14 15, 35 16, 37 12 17', '19: 2 0, 2 3, 17 19 20, 35 21, 37 13 22', '24: 38 18 23',
         '25: 2 3, 1 1 8, 17 25 26, 36 27, 37 24 28')
    p = Pipeline(8)
    inner = p.node(CHOICE, p.node(HAVOC, 0), p.node(SKIP))
    p.root = p.node(CHOICE, p.node(SKIP), inner)
    form('a choice on the right of a choice', p, [], [8, 8, 8, 8],
         '0: 32', '1: 32, 32', '3: 2 1, 2 2, 17 3 4, 35 5, 37 1 6', '8: 2 0, 2 2, 17 8 9, 35 10, 37 2 11', '13: 38 7 12',
         '14: 2 0, 2 3, 17 14 15, 35 16, 37 0 17', '19: 2 2, 2 3, 17 19 20, 35 21, 37 13 22', '24: 38 18 23')


# tables

def tables():
    p = Pipeline(8, 8)
    p.table([0], p.action(p.node(ASSIGN, 1, p.node(SUM, p.node(PARAMETER, 1, 8), p.node(PARAMETER, 0, 8))), 8, 8), 200, 100)
    p.root = p.node(APPLY, 0)
    form('a table without rules', p, [], [8, 8, 8], '0: 1 100 8, 1 200 8, 4 0 1, 2 2, 17 2 3, 35 4')
    p = Pipeline(8)
    skip = p.action(p.node(SKIP))
    p.table([], p.action(p.node(ASSUME, p.node(TRUTH, 0))))
    p.root = p.node(APPLY, 0)
    form('a table without keys', p, [rule(0, [], skip)], [8],
         '0: 16 1, 35 0, 32, 37 1 2', '4: 16 1, 19 4, 35 5', '7: 16 0, 35 7', '9: 37 6 8, 38 3 9')
    p = Pipeline(8, 4, 16)
    p.table([2, 0, 2, 1], p.action(p.node(SKIP)))
    p.root = p.node(APPLY, 0)
    form('four keys', p, [rule(0, [(4608, 65280), (5, 7), (52, 255), (0, 0)], 0)], [8, 4, 16],
         '0: 16 1', '1: 2 2, 1 65280 16, 6 1 2, 1 4608 16, 17 3 4, 20 0 5', '7: 2 0, 1 7 8, 6 7 8, 1 5 8, 17 9 10, 20 6 11',
         '13: 2 2, 1 255 16, 6 13 14, 1 52 16, 17 15 16, 20 12 17', '19: 2 1, 1 0 4, 6 19 20, 1 0 4, 17 21 22, 20 18 23',
         '25: 35 24, 32, 37 25 26',
         '28: 16 1', '29: 2 2, 1 65280 16, 6 29 30, 1 4608 16, 17 31 32, 20 28 33', '35: 2 0, 1 7 8, 6 35 36, 1 5 8, 17 37 38, 20 34 39',
         '41: 2 2, 1 255 16, 6 41 42, 1 52 16, 17 43 44, 20 40 45', '47: 2 1, 1 0 4, 6 47 48, 1 0 4, 17 49 50, 20 46 51',
         '53: 19 52, 35 53, 32, 37 54 55, 38 27 56')


def own_key():
    """The bodies change the key. The second rule, and the default, still look at variable 0."""
    p = Pipeline(8)
    p.action(p.node(ASSIGN, 0, p.node(PARAMETER, 0, 8)), 8)
    p.table([0], p.action(p.node(ASSERT, p.node(EQUAL, p.node(FIELD, 0), p.node(CONSTANT, 9, 8)))))
    p.root = p.node(APPLY, 0)
    form('bodies that change their key', p, [rule(0, [(1, 255)], 0, 2), rule(0, [(2, 255)], 0, 3)], [8] * 5,
         '0: 16 1, 2 0, 1 255 8, 6 1 2, 1 1 8, 17 3 4, 20 0 5, 35 6',
         '8: 1 2 8, 2 1, 17 8 9, 35 10, 37 7 11',
         '13: 16 1, 2 0, 1 255 8, 6 14 15, 1 1 8, 17 16 17, 20 13 18, 19 19, 35 20',
         '22: 16 1, 2 0, 1 255 8, 6 23 24, 1 2 8, 17 25 26, 20 22 27, 35 28',
         '30: 1 3 8, 2 2, 17 30 31, 35 32, 37 29 33',
         '35: 16 1, 2 0, 1 255 8, 6 36 37, 1 2 8, 17 38 39, 20 35 40, 19 41, 35 42',
         '44: 2 0, 1 9 8, 17 44 45, 36 46, 37 43 47',
         '49: 2 2, 2 3, 17 49 50, 35 51, 37 34 52', '54: 2 0, 2 3, 17 54 55, 35 56, 37 48 57', '59: 38 53 58, 37 21 59',
         '61: 2 1, 2 4, 17 61 62, 35 63, 37 12 64', '66: 2 3, 2 4, 17 66 67, 35 68, 37 60 69', '71: 38 65 70')
    p = Pipeline(8)
    p.action(p.node(HAVOC, 0))
    p.table([0], p.action(p.node(SKIP)))
    p.root = p.node(SEQUENCE, p.node(APPLY, 0), p.node(APPLY, 0))
    form('a second apply looks at the joined variable', p, [rule(0, [(1, 255)], 0)], [8] * 5,
         '0: 16 1, 2 0, 1 255 8, 6 1 2, 1 1 8, 17 3 4, 20 0 5, 35 6, 32, 37 7 8',
         '10: 16 1, 2 0, 1 255 8, 6 11 12, 1 1 8, 17 13 14, 20 10 15, 19 16, 35 17, 32, 37 18 19',
         '21: 2 1, 2 2, 17 21 22, 35 23, 37 9 24', '26: 2 0, 2 2, 17 26 27, 35 28, 37 20 29', '31: 38 25 30',
         '32: 16 1, 2 2, 1 255 8, 6 33 34, 1 1 8, 17 35 36, 20 32 37, 35 38, 32, 37 39 40',
         '42: 16 1, 2 2, 1 255 8, 6 43 44, 1 1 8, 17 45 46, 20 42 47, 19 48, 35 49, 32, 37 50 51',
         '53: 2 3, 2 4, 17 53 54, 35 55, 37 41 56', '58: 2 2, 2 4, 17 58 59, 35 60, 37 52 61', '63: 38 57 62, 37 31 63')


def whose_rules():
    """Two tables whose rules stand between each other: each chain has its own, in block order, and its own default."""
    rules = [rule(1, [], 0, 21), rule(0, [], 0, 11), rule(1, [], 0, 22), rule(0, [], 0, 12)]
    for table, first, second, default in ((0, 11, 12, 10), (1, 21, 22, 20)):
        p = Pipeline(8)
        p.action(p.node(ASSUME, p.node(EQUAL, p.node(PARAMETER, 0, 8), p.node(CONSTANT, 0, 8))), 8)
        p.table([], 0, 10)
        p.table([], 0, 20)
        p.root = p.node(APPLY, table)
        form(f'the rules of table {table}', p, rules, [8],
             '0: 16 1, 35 0', f'2: 1 {first} 8, 1 0 8, 17 2 3, 35 4', '6: 37 1 5', '7: 16 1, 19 7, 35 8',
             '10: 16 1, 35 10', f'12: 1 {second} 8, 1 0 8, 17 12 13, 35 14', '16: 37 11 15', '17: 16 1, 19 17, 35 18',
             f'20: 1 {default} 8, 1 0 8, 17 20 21, 35 22', '24: 37 19 23, 38 16 24', '26: 37 9 25, 38 6 26')


# 2 to 10 come before 12

def refusals():
    refused('no words', [], [], 2, 0)
    refused('a rule block of 13 words', small(), [0] * 13, 2, 0)
    p = small()
    p.widths[0] = 33
    refused('a width of 33', p, [], 3, 0)
    p = small()
    p.nodes[0][1] = 1
    refused('a skip with a word', p, [], 4, 0)
    p = small()
    p.actions.append([0, 3, 0, 0])
    refused('three parameters', p, [], 5, 0)
    p = small()
    p.table([1], 0)
    p.action(p.node(SKIP))
    refused('a key that is no field', p, [], 6, 0)
    p = small()
    p.root = 1
    refused('a root above the nodes', p, [], 7, 0)
    p = small()
    p.node(SKIP)
    refused('a node that nobody uses', p, [], 8, 1)
    p = Pipeline(8)
    p.root = p.node(ASSIGN, 0, p.node(PARAMETER, 0, 8))
    refused('a parameter outside an action', p, [], 9, 0)
    refused('a rule of no table', small(), [rule(0, [], 0)], 10, 0)
    p, rules = many_applies(257, 28, 2)
    refused('a form of 65,537 nodes and a wrong rule', p, [*rules, rule(1, [], 0)], 10, 28)


# Large forms. A form is made node by node as a pipeline is, and its widths are those of its variables.

def under(p, kind, depth, lean, below, other=(SKIP,)):
    """What `below` makes, under so many nodes of the kind with a skip on the other side of each, or another node that has no children: 2 nodes
    more for each, in a pipeline as in its form. To the right the others come first, and to the left what is below."""
    others = [p.node(*other) for _ in range(depth)] if lean == 'right' else []
    top = below()
    for _ in range(depth):
        top = p.node(kind, others.pop(), top) if lean == 'right' else p.node(kind, top, p.node(*other))
    return top


def skips(p, count):
    """So many skips in sequence: 2 nodes for each, less 1, in a pipeline as in its form."""
    return under(p, SEQUENCE, count - 1, 'left', lambda: p.node(SKIP))


def assumes(p, count):
    """A statement of so many nodes, 2 or more, in a pipeline as in its form: a truth, nots over it, and an assume."""
    test = p.node(TRUTH, 1)
    for _ in range(count - 2):
        test = p.node(NOT, test)
    return p.node(ASSUME, test)


def with_skips(p, top, count):
    """So many skips behind a statement: 2 nodes more for each, in a pipeline as in its form."""
    return under(p, SEQUENCE, count, 'left', lambda: top)


def limit(name, p, rules, n, v, made=None):
    """A form of n nodes and v variables, at the limit or above it; its words where they are made."""
    if n > LIMIT:
        refused(f'{name}: {n} nodes', p, rules, 12, 0, ((0, 0), (0, v), (4 * LIMIT, v), (4 * LIMIT, 0), (MOST_ROOM, MOST_ROOM)))
    elif made is None:
        short_rooms(f'{name}: {n} nodes', p, rules, n, v)
    else:
        assert (len(made.nodes), len(made.widths)) == (n, v), (name, len(made.nodes), len(made.widths))
        accepted(f'{name}: {n} nodes', p, rules, made.nodes, made.widths, (0, 1))


def keyless_chain(made, count, body, default):
    """The chain of so many rules without keys that change no field: 8 nodes and the body for each, and the default's body."""
    rules = []
    for _ in range(count):
        match = made.node(ASSUME, made.node(TRUTH, 1))
        match = made.node(SEQUENCE, match, body())
        rules.append((match, made.node(ASSUME, made.node(NOT, made.node(TRUTH, 1)))))
    top = default()
    for match, miss in reversed(rules):
        top = made.node(CHOICE, match, made.node(SEQUENCE, miss, top))
    return top


def many_applies(count, rule_count, last, lean='left'):
    """So many applies of a table without keys, whose rules skip and whose default has 2 nodes, and behind them a statement of 1 or 2 nodes."""
    p = Pipeline(8)
    skip = p.action(p.node(SKIP))
    p.table([], p.action(assumes(p, 2)))
    p.root = leaning(p, SEQUENCE, [*[p.node(APPLY, 0) for _ in range(count)], p.node(SKIP) if last == 1 else assumes(p, 2)], lean)
    return p, [rule(0, [], skip)] * rule_count


def made_applies(lean):
    made = Pipeline(8)

    def apply():
        return keyless_chain(made, 28, lambda: made.node(SKIP), lambda: assumes(made, 2))
    if lean == 'right':
        leaning(made, SEQUENCE, [*[apply() for _ in range(257)], made.node(SKIP)], 'right')
        return made
    top = apply()
    for _ in range(256):
        top = made.node(SEQUENCE, top, apply())
    made.node(SEQUENCE, top, made.node(SKIP))
    return made


def a_table_many_times():
    """28 rules of 8 + 1 nodes and a default of 2 are 254. 257 of them, 257 sequences and a skip: 257 x 254 + 257 + 1 = 65,536."""
    for lean in ('left', 'right'):
        limit(f'257 applies to the {lean}', *many_applies(257, 28, 1, lean), 65536, 1, made_applies(lean))
        limit(f'257 applies to the {lean}', *many_applies(257, 28, 2, lean), 65537, 1)


def one_long_chain():
    """A body of 125 skips has 249 nodes. 255 rules of 8 + 249, and the default: 255 x 257 + 1 = 65,536."""
    for default in (1, 2):
        p = Pipeline(8)
        body = p.action(skips(p, 125))
        p.table([], p.action(p.node(SKIP) if default == 1 else assumes(p, 2)))
        p.root = p.node(APPLY, 0)
        made = Pipeline(8)
        if default == 1:
            keyless_chain(made, 255, lambda: skips(made, 125), lambda: made.node(SKIP))
        limit('a body of 249 nodes, 255 times', p, [rule(0, [], body)] * 255, 65535 + default, 1, made)


def four_keys():
    """With four keys m has 1 + 4 x 6 = 25 nodes, and a rule 2 x 25 + 6 and its body. Four rules with a body of 7 and a default of 4 are
    4 x 63 + 4 = 256. 255 of them, 255 sequences and the last statement: 255 x 257 + 1 = 65,536."""
    for last in (1, 2):
        p = Pipeline(8, 16, 32)
        body = p.action(skips(p, 4))
        p.table([2, 1, 0, 1], p.action(assumes(p, 4)))
        p.root = leaning(p, SEQUENCE, [*[p.node(APPLY, 0) for _ in range(255)], p.node(SKIP) if last == 1 else assumes(p, 2)], 'left')
        limit('255 applies with four keys', p, [rule(0, [(i, 255), (0, 0), (1, 1), (2, 3)], body) for i in range(4)], 65535 + last, 3)


def changed_fields():
    """With one key m has 7 nodes. A rule that assigns its data has 2 x 7 + 6 and 4 of its body and 10 of the join: 34, and two new variables.
    Seven of them and a default of 16 are 7 x 34 + 16 = 254. 257 of them, 257 sequences and the last statement: 257 x 255 + 1 = 65,536 nodes
    and 2 + 257 x 14 = 3,600 variables."""
    for last in (1, 2):
        p = Pipeline(8, 8)
        body = p.action(p.node(ASSIGN, 1, p.node(PARAMETER, 0, 8)), 8)
        p.table([0], p.action(assumes(p, 16)))
        p.root = leaning(p, SEQUENCE, [*[p.node(APPLY, 0) for _ in range(257)], p.node(SKIP) if last == 1 else assumes(p, 2)], 'left')
        limit('257 applies that change a field', p, [rule(0, [(i, 255)], body, i) for i in range(7)], 65535 + last, 3600)


def equation(made, side, own, new):
    """5 nodes: a side's variable equals the joined one, and a sequence over the side so far."""
    return made.node(SEQUENCE, side, made.node(ASSUME, made.node(EQUAL, made.node(FIELD, own), made.node(FIELD, new))))


def joined(made, left, lefts, right, rights, news):
    """The end of a choice whose sides are there, from the variables that differ: 10 nodes for each, and the choice."""
    for own, new in zip(lefts, news):
        left = equation(made, left, own, new)
    for own, new in zip(rights, news):
        right = equation(made, right, own, new)
    return made.node(CHOICE, left, right)


def new_variables(made, count, width=8):
    made.widths += [width] * count
    return range(len(made.widths) - count, len(made.widths))


def havocs(p):
    return in_order(p, [p.node(HAVOC, field) for field in range(32)])


def made_havocs(made, before, levels, lean):
    """32 havocs under so many choices with a skip on the other side: 63 nodes and 32 variables, and for each choice 1 + 32 x 10 + 1 and 32."""
    others = [made.node(SKIP) for _ in range(levels)] if lean == 'right' else []
    top, changed = skips(made, 32), new_variables(made, 32)
    for _ in range(levels):
        other, news = others.pop() if lean == 'right' else made.node(SKIP), new_variables(made, 32)
        top = joined(made, other, before, top, changed, news) if lean == 'right' else joined(made, top, changed, other, before, news)
        changed = news
    return top, changed


def choices_in_each_other():
    """32 havocs under 203 choices: 63 + 203 x 322 = 65,429 nodes and 64 + 203 x 32 = 6,560 variables. Behind them a sequence and an assume of
    2, and 52 skips: 65,429 + 3 + 104 = 65,536. Or 54 skips: 65,429 + 108 = 65,537."""
    for lean in ('left', 'right'):
        p, made = Pipeline(*[8] * 32), Pipeline(*[8] * 32)
        top = under(p, CHOICE, 203, lean, lambda: havocs(p))
        p.root = with_skips(p, p.node(SEQUENCE, top, assumes(p, 2)), 52)
        top, _ = made_havocs(made, range(32), 203, lean)
        with_skips(made, made.node(SEQUENCE, top, assumes(made, 2)), 52)
        limit(f'203 choices to the {lean}', p, [], 65536, 6560, made)
        p = Pipeline(*[8] * 32)
        p.root = with_skips(p, under(p, CHOICE, 203, lean, lambda: havocs(p)), 54)
        limit(f'203 choices to the {lean}', p, [], 65537, 6560)


def choices_in_sequence():
    """Six times 32 havocs under 34 or 33 choices, 202 in all, in sequence: 6 x 63 + 202 x 322 + 5 = 65,427 nodes and 32 + 6 x 32 + 202 x 32 =
    6,688 variables. Behind them a sequence and an assume of 2, and 53 skips: 65,427 + 3 + 106 = 65,536. Or 55 skips: 65,427 + 110 = 65,537."""
    levels = (34, 33, 34, 34, 33, 34)
    p, made = Pipeline(*[8] * 32), Pipeline(*[8] * 32)
    top = in_order(p, [under(p, CHOICE, depth, 'left', lambda: havocs(p)) for depth in levels])
    p.root = with_skips(p, p.node(SEQUENCE, top, assumes(p, 2)), 53)
    top, current = made_havocs(made, range(32), levels[0], 'left')
    for depth in levels[1:]:
        part, current = made_havocs(made, current, depth, 'left')
        top = made.node(SEQUENCE, top, part)
    with_skips(made, made.node(SEQUENCE, top, assumes(made, 2)), 53)
    limit('202 choices in six statements', p, [], 65536, 6688, made)
    p = Pipeline(*[8] * 32)
    p.root = with_skips(p, in_order(p, [under(p, CHOICE, depth, 'left', lambda: havocs(p)) for depth in levels]), 55)
    limit('202 choices in six statements', p, [], 65537, 6688)


def listing_room():
    """A choice of a havoc or a skip has 2 + 10 + 1 = 13 nodes and two new variables. 171 of them in sequence: 171 x 14 - 1 = 2,393 nodes and
    343 variables. Behind them, each with its sequence, a statement of 1, 2 or 3 nodes and two skips: 2,393 + (1 + 2) + 4 = 2,400, and one less
    and one more. The listing lends room for 2,400 nodes and 2,432 widths."""
    for last, n in ((1, 2399), (2, 2400), (3, 2401)):
        p, made = Pipeline(8), Pipeline(8)
        top = in_order(p, [p.node(CHOICE, p.node(HAVOC, 0), p.node(SKIP)) for _ in range(171)])
        p.root = with_skips(p, p.node(SEQUENCE, top, p.node(SKIP) if last == 1 else assumes(p, last)), 2)
        for i in range(171):
            havoc, other = made.node(SKIP), made.node(SKIP)
            changed, new = new_variables(made, 1), new_variables(made, 1)
            part = joined(made, havoc, changed, other, [2 * i], new)
            top = made.node(SEQUENCE, top, part) if i else part
        with_skips(made, made.node(SEQUENCE, top, made.node(SKIP) if last == 1 else assumes(made, last)), 2)
        limit('171 choices in sequence', p, [], n, 343, made)
        answer = f'ok {n} 343 : {field_of(made.nodes)} : {field_of(made.widths)}' if n <= 2400 else 'refused 12 9604'
        passify(f'171 choices in sequence: {n} nodes', p, [], 9600, 2432, answer)


def deep():
    """An apply of 256 rules under 255 sequences or choices, and a default under as many: 510 + 256 x 9 + 511 = 3,325 nodes."""
    for kind in (SEQUENCE, CHOICE):
        for lean in ('left', 'right'):
            p, made = Pipeline(8), Pipeline(8)
            skip = p.action(p.node(SKIP))
            p.table([], p.action(under(p, kind, 255, lean, lambda: p.node(SKIP))))
            p.root = under(p, kind, 255, lean, lambda: p.node(APPLY, 0))
            under(made, kind, 255, lean, lambda: keyless_chain(
                made, 256, lambda: made.node(SKIP), lambda: under(made, kind, 255, lean, lambda: made.node(SKIP))))
            limit(f'255 of {NAMES[kind]} to the {lean}, 256 rules and 255 of {NAMES[kind]}', p, [rule(0, [], skip)] * 256, 3325, 1, made)


def deep_values():
    """Pieces that stand in the form as in the pipeline; behind an assigned value come its variable, equal and assume."""
    p, value = complements(1022)
    p.root = p.node(ASSIGN, 0, value)
    form('1,022 complements', p, [], [8, 8], '0: 2 0', *[f'{i + 1}: 9 {i}' for i in range(1022)], '1023: 2 1, 17 1022 1023, 35 1024')
    p = Pipeline(8)
    p.root = assumes(p, 1024)
    form('1,022 nots', p, [], [8], '0: 16 1', *[f'{i + 1}: 19 {i}' for i in range(1022)], '1023: 35 1022')
    for lean in ('left', 'right'):
        p, made = Pipeline(8), Pipeline(8, 8)
        for block in (p, made):
            value = under(block, SUM, 510, lean, lambda: block.node(FIELD, 0), (CONSTANT, 1, 8))
        p.root = p.node(ASSIGN, 0, value)
        made.node(ASSUME, made.node(EQUAL, value, made.node(FIELD, 1)))
        accepted(f'510 sums to the {lean}', p, [], made.nodes, made.widths)
        p, made = Pipeline(8), Pipeline(8)
        for block in (p, made):
            block.root = block.node(ASSERT, under(block, BOTH, 511, lean, lambda: block.node(TRUTH, 0), (TRUTH, 1)))
        accepted(f'511 tests to the {lean}', p, [], made.nodes, made.widths)


def far_too_large():
    """Forms that nobody could write."""
    p = Pipeline(8, 16, 32)
    skip = p.action(p.node(SKIP))
    p.table([], skip)
    p.table([2, 1, 0, 1], skip)
    p.root = in_order(p, [p.node(APPLY, 0) for _ in range(500)])
    # 500 applies of 256 rules of 8 + 1 nodes, and of rules with four keys, of 2 x 25 + 6 + 1; the default, and the sequences
    limit('500 applies', p, [rule(0, [], skip)] * 256, 500 * (256 * 9 + 1) + 499, 3)
    for apply in p.nodes[1:501]:
        apply[1] = 1
    limit('500 applies with four keys', p, [rule(1, [(1, 1)] * 4, skip)] * 256, 500 * (256 * 57 + 1) + 499, 3)
    p = Pipeline(*[8] * 32)
    body = p.action(under(p, CHOICE, 221, 'left', lambda: havocs(p)))
    p.table([], p.action(p.node(SKIP)))
    p.root = in_order(p, [p.node(APPLY, 0) for _ in range(245)])
    # a body of 32 havocs under 221 choices; 245 rules of 8 nodes, the body and a join of 32 fields; the default; 245 applies
    n = 245 * (245 * (8 + (63 + 221 * 322) + 320) + 1) + 244
    assert n == 2 ** 32 + 2018
    limit('a count that is 2,018 where 32 bits are all', p, [rule(0, [], body)] * 245, n, 32)


for section in (statements, current_variables, kinds, examples, joins, sides, nested_choices, tables, own_key, whose_rules, refusals,
                a_table_many_times, one_long_chain, four_keys, changed_fields, choices_in_each_other, choices_in_sequence, listing_room, deep,
                deep_values, far_too_large):
    section()
