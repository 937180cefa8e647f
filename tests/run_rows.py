#!/usr/bin/env python3
"""run_rows.py: prints cases of Run, Confirm and Lookup, in the format of tests/vectors.

Each expected answer stands here by hand, from the page: an ending is its word, its node, the entries used and the packet, where a node is
named by the statement that was made. A sum or a product that gives a place or a value stands in the row itself."""
from blocks import *


def run(name, p, rules, packet, choices, answer, room=None):
    """Run, with an end area of F words where no room is said."""
    case(name, 'run', p, rules, packet, choices, len(p.widths) if room is None else room, answer)


def confirm(name, p, rules, packet, choices, answer):
    case(name, 'confirm', p, rules, packet, choices, answer)


def both(name, p, rules, packet, choices, ending, confirmed):
    """Run's answer and Confirm's."""
    run(name, p, rules, packet, choices, ending)
    confirm(name, p, rules, packet, choices, confirmed)


def refused(name, p, rules, packet, choices, number, place):
    """Run and Confirm refuse alike."""
    both(name, p, rules, packet, choices, f'refused {number} {place}', f'refused {number} {place}')


def lookup(name, p, rules, packet, table, answer):
    case(name, 'lookup', p, rules, packet, table, answer)


def in_rules(rules, i, call):
    """The part that is rule i's action and data, which are these three words."""
    assert rules[i][9:] == call
    return f'part rules {12 * i + 9}'


def in_pipeline(p, t, call):
    """The part that is table t's default, which is these three words."""
    place = 5 + len(p.widths) + 4 * len(p.nodes) + 4 * len(p.actions) + 8 * t + 5
    assert p.words()[place:place + 3] == call
    return f'part pipeline {place}'


def ended(p, test):
    """A pipeline that asserts the test, and the assert."""
    p.root = p.node(ASSERT, test)
    return p.root


# 15 and 14: entries

def three(kind):
    """A pipeline of three choices of a skip or a skip, or of three havocs of one field of 8 bits."""
    p = Pipeline(8)
    p.root = in_order(p, [p.node(CHOICE, p.node(SKIP), p.node(SKIP)) if kind == CHOICE else p.node(HAVOC, 0) for _ in range(3)])
    return p


def choice_entries():
    p = three(CHOICE)
    for entry in (2, 3, 256, 65536, 2 ** 31, 2 ** 31 + 1, HUGE):
        refused(f'the first choice has entry {entry}', p, [], [7], [entry, 0, 0], 15, 0)
        refused(f'the second choice has entry {entry}', p, [], [7], [1, entry, 0], 15, 1)
        refused(f'the last choice has entry {entry}', p, [], [7], [0, 1, entry], 15, 2)
        both(f'an entry {entry} is left over', p, [], [7], [0, 1, 0, entry], 'passed 0 3 : 7', 'no')
    refused('two entries out of range', p, [], [7], [0, 5, 4], 15, 1)
    for choices in ([0, 0, 0], [1, 1, 1], [0, 1, 0], [1, 0, 1]):
        both(f'choices {choices}', p, [], [7], choices, 'passed 0 3 : 7', 'no')


def havoc_entries():
    for width, fitting, entries in ((1, 1, (2, 3, 256, HUGE)), (8, 255, (256, 257, 65536, HUGE)), (31, 2147483647, (2147483648, HUGE))):
        p = three(HAVOC)
        p.widths = [width]
        both(f'width {width}: entries that fit', p, [], [0], [0, 1, fitting], f'passed 0 3 : {fitting}', 'no')
        for entry in entries:
            refused(f'width {width}: the first havoc has entry {entry}', p, [], [0], [entry, 1, 1], 15, 0)
            refused(f'width {width}: the second havoc has entry {entry}', p, [], [0], [fitting, entry, 1], 15, 1)
            refused(f'width {width}: the last havoc has entry {entry}', p, [], [0], [1, fitting, entry], 15, 2)
    p = three(HAVOC)
    p.widths = [32]
    for entry in (0, 1, 2 ** 31, HUGE):
        both(f'width 32: every entry fits, {entry} too', p, [], [9], [0, HUGE, entry], f'passed 0 3 : {entry}', 'no')


def each_fields_width():
    """A havoc looks at its own field's width."""
    p = Pipeline(8, 1, 32)
    p.root = in_order(p, [p.node(HAVOC, 1), p.node(HAVOC, 2), p.node(HAVOC, 0)])
    both('each entry has its field\'s width', p, [], [7, 0, 7], [1, HUGE, 255], 'passed 0 3 : 255 1 4294967295', 'no')
    refused('an entry that fits the other fields', p, [], [7, 0, 7], [2, 2, 2], 15, 0)
    refused('an entry that fits the field before', p, [], [7, 0, 7], [0, 256, 256], 15, 2)


def short_lists():
    for kind, entries in ((CHOICE, [0, 1, 1]), (HAVOC, [4, 5, 6])):
        for used in range(3):
            refused(f'three of {NAMES[kind]}, and {used} entries', three(kind), [], [7], entries[:used], 14, used)
    both('three havocs and three entries', three(HAVOC), [], [7], [4, 5, 6], 'passed 0 3 : 6', 'no')
    p = Pipeline(8)
    p.root = p.node(CHOICE, p.node(HAVOC, 0), p.node(SKIP))
    refused('the havoc of the side that is taken has no entry', p, [], [7], [0], 14, 1)
    both('the havoc of the other side needs none', p, [], [7], [1], 'passed 0 1 : 7', 'no')
    both('the havoc has its entry', p, [], [7], [0, 9], 'passed 0 2 : 9', 'no')
    refused('an entry out of range, and then none', p, [], [7], [2], 15, 0)
    refused('the side\'s entry is out of range', p, [], [7], [0, 256], 15, 1)


def entries_in_bodies():
    p = Pipeline(8, 8)
    body = p.node(CHOICE, p.node(HAVOC, 0), p.node(SKIP))
    p.table([], p.action(body))
    p.root = in_order(p, [p.node(HAVOC, 1), p.node(APPLY, 0), p.node(APPLY, 0)])
    refused('no entry for the havoc before the body', p, [], [7, 8], [], 14, 0)
    refused('no entry for the body\'s choice', p, [], [7, 8], [3], 14, 1)
    refused('no entry for the body\'s havoc', p, [], [7, 8], [3, 0], 14, 2)
    refused('no entry for the body\'s second run', p, [], [7, 8], [3, 0, 4], 14, 3)
    refused('no entry for the second run\'s havoc', p, [], [7, 8], [3, 0, 4, 0], 14, 4)
    refused('the body\'s choice is out of range', p, [], [7, 8], [3, 2, 4, 1], 15, 1)
    refused('the body\'s havoc is out of range', p, [], [7, 8], [3, 0, 256, 1], 15, 2)
    refused('the second run\'s choice is out of range', p, [], [7, 8], [3, 0, 4, HUGE], 15, 3)
    both('the body runs twice', p, [], [7, 8], [3, 0, 4, 0, 5], 'passed 0 5 : 5 3', 'no')
    both('the body\'s other side', p, [], [7, 8], [3, 1, 1], 'passed 0 3 : 7 3', 'no')


# 12: the end area

def end_areas():
    for fields in (1, 2, 3, 31, 32):
        p = Pipeline(*[8] * fields)
        p.root = p.node(HAVOC, fields - 1)
        packet = list(range(10, 10 + fields))
        after = ' '.join(map(str, [*packet[:-1], 99]))
        for room in sorted({0, 1, fields - 1} - {fields}):
            run(f'{fields} fields and an end area of {room} words', p, [], packet, [99], f'refused 12 {fields}', room)
        for room in (fields, fields + 1, fields + 2, fields + 40):
            run(f'{fields} fields and an end area of {room} words', p, [], packet, [99], f'passed 0 1 : {after}', room)
            run(f'{fields} fields, an end area of {room} words, no entry', p, [], packet, [], 'refused 14 0', room)
            run(f'{fields} fields, an end area of {room} words, an entry too wide', p, [], packet, [256], 'refused 15 0', room)


# 11: the packet

def packets():
    p = Pipeline(8, 1, 31)
    p.root = p.node(SKIP)
    p.table([], p.action(p.node(SKIP)))
    good = [255, 1, 2147483647]
    both('every value at its most', p, [], good, [], 'passed 0 0 : 255 1 2147483647', 'no')
    both('every value 0', p, [], [0, 0, 0], [], 'passed 0 0 : 0 0 0', 'no')
    lookup('every value at its most', p, [], good, 0, in_pipeline(p, 0, [0, 0, 0]))
    for packet, place in (([], 0), ([0], 1), ([0, 0], 2), ([0] * 4, 4), ([0] * 33, 33), ([256], 1), ([256, 2, 0, 0], 4), ([256, 0, 0], 0),
                          ([HUGE, 0, 0], 0), ([0, 2, 0], 1), ([0, HUGE, 0], 1), ([0, 0, 2147483648], 2), ([0, 0, HUGE], 2), ([256, 2, HUGE], 0),
                          ([255, 2, HUGE], 1)):
        refused(f'packet {packet}', p, [], packet, [], 11, place)
        lookup(f'packet {packet}', p, [], packet, 0, 'empty')
    p = Pipeline(32)
    p.root = p.node(SKIP)
    both('width 32: every value fits', p, [], [HUGE], [], 'passed 0 0 : 4294967295', 'no')
    p = Pipeline(*[1] * 32)
    p.root = p.node(SKIP)
    refused('31 values of 32', p, [], [0] * 31, [], 11, 31)
    refused('the last of 32 values', p, [], [1] * 31 + [2], [], 11, 31)


def orders():
    p = Pipeline(8, 8)
    p.root = p.node(HAVOC, 0)
    run('11 before 12: the length', p, [], [1], [], 'refused 11 1', 1)
    run('11 before 12: a value', p, [], [1, 256], [], 'refused 11 1', 0)
    run('12 before 14', p, [], [1, 2], [], 'refused 12 2', 1)
    run('12 before 15', p, [], [1, 2], [256], 'refused 12 2', 0)
    refused('11 before 14', p, [], [1, 256], [], 11, 1)
    refused('11 before 15', p, [], [256, 1], [256], 11, 0)
    confirm('Confirm has no end area', p, [], [1, 2], [], 'refused 14 0')
    p = Pipeline(8, 8)
    ended(p, p.node(TRUTH, 0))
    run('12 before a run that would fail', p, [], [1, 2], [], 'refused 12 2', 1)
    cut = p.words()[:-1]
    p.nodes[0][1] = 2
    refused('4 before 11', p, [], [1], [], 4, 0)
    run('4 before 11, 12 and 14', p, [], [1], [], 'refused 4 0', 0)
    p.widths[1] = 33
    refused('3 before 4 and 11', p, [], [1], [], 3, 1)
    for name, words in (('a pipeline cut short', cut), ('no words at all', [])):
        case(f'{name}: 2 before all else', 'run', words, [], [], [], 0, 'refused 2 0')
        case(f'{name}: 2 before all else', 'confirm', words, [], [], [], 'refused 2 0')
        case(f'{name}: nothing is found', 'lookup', words, [], [], 0, 'empty')
    p = small()
    refused('10 before 11', p, [rule(0, [], 0)], [], [], 10, 0)
    refused('a rule block that is no rules, before 11', p, [[0]], [], [], 2, 0)


# endings

def passed_and_left_over():
    both('a skip', small(), [], [5], [], 'passed 0 0 : 5', 'no')
    both('a skip, and entries left over', small(), [], [5], [0, 2, HUGE], 'passed 0 0 : 5', 'no')
    both('three havocs, and an entry left over', three(HAVOC), [], [5], [1, 2, 3, 4], 'passed 0 3 : 3', 'no')
    p = small()
    p.root = p.node(SEQUENCE, 0, p.node(SKIP))
    both('passed gives node 0, whatever the root is', p, [], [5], [], 'passed 0 0 : 5', 'no')


def first_ending():
    """Examples 6 and 7, and what stands after an ending."""
    for first, second, word, yes in ((ASSUME, ASSERT, 'blocked', 'no'), (ASSERT, ASSUME, 'failed', 'yes'), (ASSUME, ASSUME, 'blocked', 'no'),
                                     (ASSERT, ASSERT, 'failed', 'yes')):
        p = Pipeline(8)
        one, two = p.node(first, p.node(TRUTH, 0)), p.node(second, p.node(TRUTH, 0))
        p.root = p.node(SEQUENCE, one, two)
        both(f'{NAMES[first]} false then {NAMES[second]} false', p, [], [5], [], f'{word} {one} 0 : 5', yes)
    p = Pipeline(8)
    one, two = p.node(ASSERT, p.node(TRUTH, 0)), p.node(ASSUME, p.node(TRUTH, 0))
    p.root = p.node(SEQUENCE, two, one)
    both('the order of the run, not of the numbers', p, [], [5], [], f'blocked {two} 0 : 5', 'no')
    for kind, word, yes in ((ASSUME, 'blocked', 'no'), (ASSERT, 'failed', 'yes')):
        p = Pipeline(8, 8)
        end = p.node(kind, p.node(TRUTH, 0))
        p.root = in_order(p, [set_field(p, 0, 1), p.node(HAVOC, 1), end, set_field(p, 0, 2), p.node(HAVOC, 1)])
        both(f'{NAMES[kind]}: what stands after it is not run', p, [], [5, 6], [8], f'{word} {end} 1 : 1 8', yes)
        both(f'{NAMES[kind]}: entries after it are not looked at', p, [], [5, 6], [8, 256], f'{word} {end} 1 : 1 8', 'no')
        refused(f'{NAMES[kind]}: an entry before it', p, [], [5, 6], [256], 15, 0)
        run(f'{NAMES[kind]}: the current packet, and words past it', p, [], [5, 6], [8], f'{word} {end} 1 : 1 8', 4)


def endings_in_sides():
    p = Pipeline(8)
    left, right = p.node(ASSERT, p.node(TRUTH, 0)), p.node(ASSUME, p.node(TRUTH, 0))
    p.root = p.node(SEQUENCE, p.node(CHOICE, left, right), set_field(p, 0, 1))
    both('the left side fails', p, [], [5], [0], f'failed {left} 1 : 5', 'yes')
    both('the right side is blocked', p, [], [5], [1], f'blocked {right} 1 : 5', 'no')
    both('the left side fails, and an entry is left over', p, [], [5], [0, 1], f'failed {left} 1 : 5', 'no')
    p = Pipeline(8)
    one = p.node(ASSERT, p.node(EQUAL, p.node(FIELD, 0), p.node(CONSTANT, 1, 8)))
    p.root = p.node(SEQUENCE, p.node(CHOICE, set_field(p, 0, 1), p.node(SKIP)), one)
    both('example 8: the left side passes', p, [], [5], [0], 'passed 0 1 : 1', 'no')
    both('example 8: the right side fails', p, [], [5], [1], f'failed {one} 1 : 5', 'yes')
    both('example 8: the right side passes with 1', p, [], [1], [1], 'passed 0 1 : 1', 'no')
    both('example 8: the list is longer', p, [], [5], [1, 0], f'failed {one} 1 : 5', 'no')


def endings_in_bodies():
    for kind, word, yes in ((ASSUME, 'blocked', 'no'), (ASSERT, 'failed', 'yes')):
        p = Pipeline(8)
        end = p.node(kind, p.node(TRUTH, 0))
        p.table([], p.action(end))
        p.root = p.node(APPLY, 0)
        both(f'{NAMES[kind]} in a body below the root', p, [], [5], [], f'{word} {end} 0 : 5', yes)
        p = Pipeline(8)
        p.root = p.node(APPLY, 0)
        p.node(SKIP)
        p.action(1)
        end = p.node(kind, p.node(TRUTH, 0))
        p.table([], p.action(p.node(SEQUENCE, set_field(p, 0, 9), end)))
        both(f'{NAMES[kind]} in a body above the root', p, [], [5], [], f'{word} {end} 0 : 9', yes)
    p = Pipeline(8)
    test = p.node(EQUAL, p.node(FIELD, 0), p.node(PARAMETER, 0, 8))
    end = p.node(ASSERT, test)
    p.table([], p.action(end, 8), 4)
    p.root = in_order(p, [p.node(APPLY, 0), set_field(p, 0, 3), p.node(APPLY, 0)])
    both('the first run of the body fails', p, [], [5], [], f'failed {end} 0 : 5', 'yes')
    both('the second run of the body fails', p, [], [4], [], f'failed {end} 0 : 3', 'yes')
    both('the rule\'s datum, not the default\'s', p, [rule(0, [], 0, 3)], [3], [], 'passed 0 0 : 3', 'no')


def confirms():
    p = Pipeline(8)
    end = ended(p, p.node(LESS, p.node(FIELD, 0), p.node(CONSTANT, 10, 8)))
    both('the listing\'s example, 9', p, [], [9], [], 'passed 0 0 : 9', 'no')
    both('the listing\'s example, 10', p, [], [10], [], f'failed {end} 0 : 10', 'yes')
    both('the listing\'s example, 10, and an entry left over', p, [], [10], [0], f'failed {end} 0 : 10', 'no')
    p = Pipeline(8)
    ended(p, p.node(LESS, p.node(FIELD, 0), p.node(CONSTANT, 10, 8)))
    end, before = p.root, p.node(CHOICE, p.node(HAVOC, 0), p.node(SKIP))
    p.root = p.node(SEQUENCE, before, end)
    both('a choice and a havoc, and it fails', p, [], [0], [0, 10], f'failed {end} 2 : 10', 'yes')
    both('a choice and a havoc, and it passes', p, [], [10], [0, 9], 'passed 0 2 : 9', 'no')
    both('a choice and no havoc, and it fails', p, [], [10], [1], f'failed {end} 1 : 10', 'yes')
    both('a choice and no havoc, and the havoc\'s entry is left over', p, [], [10], [1, 10], f'failed {end} 1 : 10', 'no')


# tables

def one_key(*rules):
    """Two fields of 8 bits. Table 0 has field 0 as its key; action 0 sets field 1 to its datum, and the default is action 1 with 99: it
    sets field 1 too. The rules set field 1 to their place plus 1."""
    p = Pipeline(8, 8)
    for _ in range(2):
        p.action(p.node(ASSIGN, 1, p.node(PARAMETER, 0, 8)), 8)
    p.table([0], 1, 99)
    p.root = p.node(APPLY, 0)
    return p, [rule(0, [pair], 0, i + 1) for i, pair in enumerate(rules)]


def hits(name, p, rules, packet, i):
    """Rule i of `one_key` hits, or None does: what Lookup and Run then give."""
    part, datum = (in_pipeline(p, 0, [1, 99, 0]), 99) if i is None else (in_rules(rules, i, [0, i + 1, 0]), i + 1)
    lookup(name, p, rules, packet, 0, part)
    both(name, p, rules, packet, [], f'passed 0 0 : {" ".join(map(str, [packet[0], datum, *packet[2:]]))}', 'no')


def matching_rules():
    p, rules = one_key((16, 240))
    for key, i in ((16, 0), (31, 0), (32, None), (15, None), (0, None), (240, None), (48, None)):
        hits(f'value 16 under mask 240 and key {key}', p, rules, [key, 5], i)
    p, rules = one_key((0, 0))
    for key in (0, 1, 255):
        hits(f'mask 0 and key {key}', p, rules, [key, 5], 0)
    p, rules = one_key((7, 255), (7, 15), (0, 0), (7, 255))
    for key, i in ((7, 0), (23, 1), (8, 2)):
        hits(f'the first of several that match, key {key}', p, rules, [key, 5], i)
    p, rules = one_key((1, 255), (2, 255), (2, 255))
    for key, i in ((1, 0), (2, 1), (3, None)):
        hits(f'two rules alike, key {key}', p, rules, [key, 5], i)
    p, rules = one_key((0, 128), (128, 128))
    for key, i in ((127, 0), (128, 1), (255, 1)):
        hits(f'one bit, key {key}', p, rules, [key, 5], i)
    p, rules = one_key()
    hits('no rules', p, rules, [7, 5], None)


def wide_keys():
    for value, mask, key, hit in ((HUGE, HUGE, HUGE, True), (HUGE, HUGE, HUGE - 1, False), (2 ** 31, 2 ** 31, HUGE, True),
                                  (2 ** 31, 2 ** 31, 2 ** 31 - 1, False), (0, HUGE, 0, True), (0, HUGE, 1, False), (0, 2 ** 31, 2 ** 31 - 1, True)):
        p, rules = one_key((value, mask))
        p.widths[0] = 32
        hits(f'value {value} under mask {mask} and key {key}', p, rules, [key, 5], 0 if hit else None)


def several_keys():
    p, _ = one_key()
    p.widths = [8, 8, 4, 1]
    p.tables[0][:5] = [4, 0, 3, 2, 0]
    rules = [rule(0, [(5, 15), (1, 1), (3, 15), (16, 240)], 0, 1), rule(0, [(5, 15), (0, 0), (0, 0), (0, 0)], 0, 2)]
    for packet, i in (([21, 5, 3, 1], 0), ([37, 5, 3, 1], 1), ([21, 5, 3, 0], 1), ([21, 5, 2, 1], 1), ([20, 5, 3, 1], None)):
        hits(f'four keys, one field twice, packet {packet}', p, rules, packet, i)


def keyless_tables():
    """Example 5: the first rule runs, not the default."""
    p, _ = one_key()
    p.tables[0][0] = 0
    hits('a keyless table with no rule', p, [], [7, 5], None)
    hits('a keyless table with a rule', p, [rule(0, [], 0, 1)], [7, 5], 0)
    hits('a keyless table with two rules', p, [rule(0, [], 0, 1), rule(0, [], 0, 2)], [7, 5], 0)


def same_words():
    """A rule and the default with the same three words are two parts."""
    p, _ = one_key()
    rules = [rule(0, [(7, 255)], 1, 99), rule(0, [(8, 255)], 1, 99)]
    for key, part in ((7, in_rules(rules, 0, [1, 99, 0])), (8, in_rules(rules, 1, [1, 99, 0])), (9, in_pipeline(p, 0, [1, 99, 0]))):
        lookup(f'the same words in two rules and the default, key {key}', p, rules, [key, 5], 0, part)


def several_tables():
    p, _ = one_key()
    p.table([1], 1, 97)
    rules = [rule(1, [(7, 255)], 0, 1), rule(0, [(7, 255)], 0, 2), rule(1, [(0, 0)], 0, 3)]
    lookup('another table\'s rule would match first', p, rules, [7, 7], 0, in_rules(rules, 1, [0, 2, 0]))
    both('another table\'s rule would match first', p, rules, [7, 7], [], 'passed 0 0 : 7 2', 'no')
    lookup('only another table\'s rules would match', p, rules, [8, 7], 0, in_pipeline(p, 0, [1, 99, 0]))
    both('only another table\'s rules would match', p, rules, [8, 7], [], 'passed 0 0 : 8 99', 'no')
    lookup('the second table\'s first rule', p, rules, [8, 7], 1, in_rules(rules, 0, [0, 1, 0]))
    lookup('the second table\'s second rule', p, rules, [7, 8], 1, in_rules(rules, 2, [0, 3, 0]))
    lookup('the second table\'s default', p, rules[:2], [7, 8], 1, in_pipeline(p, 1, [1, 97, 0]))
    lookup('the second table with another table\'s rule alone', p, rules[1:2], [7, 7], 1, in_pipeline(p, 1, [1, 97, 0]))
    p.nodes[p.root][1] = 1
    both('the second table applied', p, rules, [8, 7], [], 'passed 0 0 : 8 1', 'no')
    both('the second table applied, its default', p, rules[:2], [7, 8], [], 'passed 0 0 : 7 97', 'no')


def empty_parts():
    p, rules = one_key((7, 255))
    for table in (1, 2, 31, 32, 256, 65536, 2 ** 31, HUGE):
        lookup(f'table {table} of 1', p, rules, [7, 5], table, 'empty')
    lookup('a packet too short', p, rules, [7], 0, 'empty')
    lookup('a packet too long', p, rules, [7, 5, 0], 0, 'empty')
    lookup('a value too wide', p, rules, [7, 256], 0, 'empty')
    lookup('a table too high and a packet too short', p, rules, [7], 1, 'empty')
    for table in (0, HUGE):
        lookup(f'table {table} where there are none', small(), [], [7], table, 'empty')
    lookup('a rule that is refused', p, [*rules, rule(1, [], 0)], [7, 5], 0, 'empty')
    lookup('a rule cut short', p, [*rules, [0]], [7, 5], 0, 'empty')
    lookup('rules that are well', p, rules, [7, 5], 0, in_rules(rules, 0, [0, 1, 0]))
    case('a pipeline cut short', 'lookup', p.words()[:-1], rules, [7, 5], 0, 'empty')
    p.nodes[0][2] = 9
    lookup('a node that is refused', p, rules, [7, 5], 0, 'empty')


def limits():
    """256 rules, 32 fields, 64 actions, 32 tables."""
    p, _ = one_key()
    rules = [rule(0, [(key, 255)], 0, key) for key in range(256)]
    for key in (0, 1, 128, 254, 255):
        lookup(f'256 rules, key {key}', p, rules, [key, 5], 0, in_rules(rules, key, [0, key, 0]))
        both(f'256 rules, key {key}', p, rules, [key, 5], [], f'passed 0 0 : {key} {key}', 'no')
    lookup('255 rules and the key of none', p, rules[:255], [255, 5], 0, in_pipeline(p, 0, [1, 99, 0]))
    p = Pipeline(*[8] * 32)
    for i in range(64):
        p.action(set_field(p, i % 32, i))
    for i in range(32):
        p.table([31], 63 - i)
    p.root = in_order(p, [p.node(APPLY, 31), p.node(APPLY, 0)])
    rules = [rule(31, [(200, 255)], 1)]
    zeros = [0] * 31
    lookup('the last of 32 tables, its default', p, rules, [*zeros, 0], 31, in_pipeline(p, 31, [32, 0, 0]))
    lookup('the last of 32 tables, its rule by the last field', p, rules, [*zeros, 200], 31, in_rules(rules, 0, [1, 0, 0]))
    lookup('the first of 32 tables', p, rules, [*zeros, 200], 0, in_pipeline(p, 0, [63, 0, 0]))
    lookup('table 32 of 32', p, rules, [*zeros, 200], 32, 'empty')
    both('the last table\'s rule sets field 1, then the first table\'s default field 31', p, rules, [*zeros, 200], [],
         f'passed 0 0 : 0 1 {"0 " * 29}63', 'no')


def changed_keys():
    """A rule's action changes the key: the same apply doesn't look again, a later one does."""
    for order in ((1, 2), (2, 1)):
        p = Pipeline(8)
        p.action(p.node(ASSIGN, 0, p.node(PARAMETER, 0, 8)), 8)
        p.action(p.node(SKIP))
        p.table([0], 1)
        p.root = p.node(APPLY, 0)
        rules = [rule(0, [(key, 255)], 0, key + 1) for key in order]
        both(f'rules for keys {order}: one apply of 1 gives 2', p, rules, [1], [], 'passed 0 0 : 2', 'no')
        lookup(f'rules for keys {order}: key 1', p, rules, [1], 0, in_rules(rules, order.index(1), [0, 2, 0]))
        p.root = p.node(SEQUENCE, p.root, p.node(APPLY, 0))
        both(f'rules for keys {order}: two applies of 1 give 3', p, rules, [1], [], 'passed 0 0 : 3', 'no')
        both(f'rules for keys {order}: two applies of 2 give 3', p, rules, [2], [], 'passed 0 0 : 3', 'no')
        p.root = p.node(SEQUENCE, p.root, p.node(APPLY, 0))
        both(f'rules for keys {order}: three applies of 1 give 3', p, rules, [1], [], 'passed 0 0 : 3', 'no')


def changed_inside():
    """A body that changes the key in its first statement goes on with its own rule's data."""
    p = Pipeline(8, 8)
    p.action(p.node(SEQUENCE, set_field(p, 0, 2), p.node(ASSIGN, 1, p.node(PARAMETER, 0, 8))), 8)
    p.table([0], 0, 30)
    p.root = p.node(APPLY, 0)
    rules = [rule(0, [(1, 255)], 0, 10), rule(0, [(2, 255)], 0, 20)]
    both('the first rule changes its key to the second\'s', p, rules, [1, 0], [], 'passed 0 0 : 2 10', 'no')
    both('the second rule', p, rules, [2, 0], [], 'passed 0 0 : 2 20', 'no')
    both('the default changes the key to a rule\'s', p, rules, [3, 0], [], 'passed 0 0 : 2 30', 'no')
    p.root = p.node(SEQUENCE, p.node(HAVOC, 0), p.root)
    both('the key is what the havoc gave', p, rules, [1, 0], [2], 'passed 0 1 : 2 20', 'no')


def parameters():
    p = Pipeline(8, 8, 1, 32)
    p.action(p.node(SEQUENCE, p.node(ASSIGN, 0, p.node(PARAMETER, 0, 8)), p.node(ASSIGN, 1, p.node(PARAMETER, 1, 8))), 8, 8)
    p.action(p.node(SEQUENCE, p.node(ASSIGN, 3, p.node(PARAMETER, 1, 32)), p.node(ASSIGN, 2, p.node(PARAMETER, 0, 1))), 1, 32)
    p.table([0], 0, 3, 7)
    p.root = p.node(APPLY, 0)
    rules = [rule(0, [(1, 255)], 0, 4, 8), rule(0, [(2, 255)], 1, 1, HUGE), rule(0, [(3, 255)], 1, 0, 2 ** 31)]
    for packet, after in (([0, 0, 0, 0], '3 7 0 0'), ([1, 0, 0, 0], '4 8 0 0'), ([2, 0, 0, 0], '2 0 1 4294967295'), ([3, 9, 1, 5], '3 9 0 2147483648')):
        both(f'two data, key {packet[0]}', p, rules, packet, [], f'passed 0 0 : {after}', 'no')
    p = Pipeline(8, 8)
    body = p.node(SUM, p.node(PARAMETER, 1, 8), p.node(DIFFERENCE, p.node(FIELD, 1), p.node(PARAMETER, 0, 8)))
    p.action(p.node(ASSIGN, 1, body), 8, 8)
    p.table([], 0, 10, 200)
    p.root = p.node(SEQUENCE, p.node(APPLY, 0), p.node(APPLY, 0))
    both('5 less 10 and 200 more, twice: 195, then 385 less 256', p, [], [0, 5], [], 'passed 0 0 : 0 129', 'no')
    both('the rule\'s data: 5 less 1 and 2 more, twice', p, [rule(0, [], 0, 1, 2)], [0, 5], [], 'passed 0 0 : 0 7', 'no')


# values: two operands, width, and the value

TWO = [(SUM, 1, 0, 0, 0), (SUM, 1, 0, 1, 1), (SUM, 1, 1, 1, 0), (SUM, 8, 255, 1, 0), (SUM, 8, 254, 1, 255), (SUM, 8, 200, 100, 44),
       (SUM, 8, 255, 255, 254), (SUM, 31, 2147483647, 1, 0), (SUM, 31, 1073741824, 1073741824, 0), (SUM, 32, HUGE, 1, 0),
       (SUM, 32, HUGE, HUGE, 4294967294), (SUM, 32, 2147483648, 2147483648, 0), (SUM, 32, 2147483647, 1, 2147483648),
       (DIFFERENCE, 1, 0, 1, 1), (DIFFERENCE, 1, 1, 1, 0), (DIFFERENCE, 1, 1, 0, 1), (DIFFERENCE, 8, 0, 1, 255), (DIFFERENCE, 8, 5, 7, 254),
       (DIFFERENCE, 8, 7, 5, 2), (DIFFERENCE, 8, 0, 255, 1), (DIFFERENCE, 8, 255, 255, 0), (DIFFERENCE, 31, 0, 1, 2147483647),
       (DIFFERENCE, 32, 0, 1, HUGE), (DIFFERENCE, 32, 0, HUGE, 1), (DIFFERENCE, 32, HUGE, 1, 4294967294), (DIFFERENCE, 32, 2147483648, 1, 2147483647),
       (AND, 1, 0, 0, 0), (AND, 1, 0, 1, 0), (AND, 1, 1, 0, 0), (AND, 1, 1, 1, 1), (AND, 8, 204, 170, 136), (AND, 8, 240, 15, 0),
       (AND, 32, HUGE, 2147483648, 2147483648), (AND, 32, 0xF0F0F0F0, 0xFF00FF00, 0xF000F000),
       (OR, 1, 0, 0, 0), (OR, 1, 0, 1, 1), (OR, 1, 1, 0, 1), (OR, 1, 1, 1, 1), (OR, 8, 204, 170, 238), (OR, 8, 240, 15, 255),
       (OR, 32, 2147483648, 1, 2147483649), (OR, 32, 0xF0F0F0F0, 0x0F0F0F0F, HUGE),
       (XOR, 1, 0, 0, 0), (XOR, 1, 0, 1, 1), (XOR, 1, 1, 0, 1), (XOR, 1, 1, 1, 0), (XOR, 8, 204, 170, 102), (XOR, 8, 255, 255, 0),
       (XOR, 32, HUGE, 2147483648, 2147483647), (XOR, 32, 0xF0F0F0F0, HUGE, 0x0F0F0F0F)]


def other_than(value):
    """What a field holds before it is assigned the value."""
    return 0 if value else 1


def two_operands():
    for kind, width, a, b, value in TWO:
        p = Pipeline(width, width, width)
        p.root = p.node(ASSIGN, 2, p.node(kind, p.node(FIELD, 0), p.node(FIELD, 1)))
        run(f'{NAMES[kind]} of {a} and {b}, width {width}', p, [], [a, b, other_than(value)], [], f'passed 0 0 : {a} {b} {value}')
        p = Pipeline(width)
        p.root = p.node(ASSIGN, 0, p.node(kind, p.node(CONSTANT, a, width), p.node(CONSTANT, b, width)))
        run(f'{NAMES[kind]} of constants {a} and {b}, width {width}', p, [], [other_than(value)], [], f'passed 0 0 : {value}')


def one_operand():
    for width, a, value in ((1, 0, 1), (1, 1, 0), (8, 0, 255), (8, 255, 0), (8, 171, 84), (31, 0, 2147483647), (31, 1, 2147483646), (32, 0, HUGE),
                            (32, HUGE, 0), (32, 2147483648, 2147483647)):
        p = Pipeline(width, width)
        p.root = p.node(ASSIGN, 1, p.node(COMPLEMENT, p.node(FIELD, 0)))
        run(f'complement of {a}, width {width}', p, [], [a, other_than(value)], [], f'passed 0 0 : {a} {value}')
    for width, a, high, low, value in ((8, 171, 7, 4, 10), (8, 171, 3, 0, 11), (8, 171, 7, 7, 1), (8, 171, 6, 6, 0), (8, 171, 0, 0, 1), (8, 171, 7, 0, 171),
                                       (8, 171, 5, 1, 21), (1, 1, 0, 0, 1), (1, 0, 0, 0, 0), (32, HUGE, 31, 0, HUGE), (32, 0x80000001, 31, 31, 1),
                                       (32, 0x80000001, 30, 1, 0), (32, 0x80000001, 31, 1, 0x40000000), (32, 0x12345678, 23, 8, 0x3456),
                                       (32, 0x12345678, 31, 28, 1), (32, HUGE, 30, 0, 2147483647)):
        p = Pipeline(width, high - low + 1)
        p.root = p.node(ASSIGN, 1, p.node(SLICE, p.node(FIELD, 0), high, low))
        run(f'slice {high} to {low} of {a}, width {width}', p, [], [a, other_than(value)], [], f'passed 0 0 : {a} {value}')


def joins():
    for left, a, right, b, value in ((4, 10, 4, 11, 171), (1, 1, 1, 0, 2), (1, 0, 1, 1, 1), (1, 1, 31, 0, 2147483648), (1, 1, 31, 2147483647, HUGE),
                                     (1, 0, 31, 2147483647, 2147483647), (31, 2147483647, 1, 0, 4294967294), (31, 0, 1, 1, 1),
                                     (16, 0x1234, 16, 0x5678, 0x12345678), (8, 0x12, 24, 0x345678, 0x12345678), (3, 5, 2, 1, 21)):
        p = Pipeline(left, right, left + right)
        p.root = p.node(ASSIGN, 2, p.node(JOIN, p.node(FIELD, 0), p.node(FIELD, 1)))
        run(f'{a} of width {left} above {b} of width {right}', p, [], [a, b, other_than(value)], [], f'passed 0 0 : {a} {b} {value}')
    p = Pipeline(8)
    p.root = p.node(ASSIGN, 0, p.node(JOIN, p.node(SLICE, p.node(FIELD, 0), 3, 0), p.node(SLICE, p.node(FIELD, 0), 7, 4)))
    run('the halves of 171 exchanged', p, [], [171], [], 'passed 0 0 : 186')


def plain_values():
    for width, value in ((1, 0), (1, 1), (8, 255), (31, 2147483647), (32, 2147483648), (32, HUGE)):
        p = Pipeline(width)
        p.root = set_field(p, 0, value, width)
        run(f'constant {value} of width {width}', p, [], [other_than(value)], [], f'passed 0 0 : {value}')
        p = Pipeline(width, width)
        p.root = p.node(ASSIGN, 1, p.node(FIELD, 0))
        run(f'a field of width {width} with {value}', p, [], [value, other_than(value)], [], f'passed 0 0 : {value} {value}')
    p = Pipeline(8, 8)
    p.root = p.node(SEQUENCE, p.node(ASSIGN, 1, p.node(FIELD, 0)), set_field(p, 0, 9))
    run('a field\'s value before it is assigned', p, [], [5, 6], [], 'passed 0 0 : 9 5')
    p = Pipeline(8, 8)
    p.root = in_order(p, [p.node(ASSIGN, f, p.node(XOR, p.node(FIELD, 0), p.node(FIELD, 1))) for f in (0, 1, 0)])
    run('204 and 170 exchanged by exclusive or', p, [], [204, 170], [], 'passed 0 0 : 170 204')
    p = Pipeline(8)
    p.root = in_order(p, [p.node(ASSIGN, 0, p.node(SUM, p.node(FIELD, 0), p.node(CONSTANT, 1, 8))) for _ in range(3)])
    run('254 and 1 more, three times', p, [], [254], [], 'passed 0 0 : 1')


def selects():
    for width, a, b in ((1, 0, 1), (1, 1, 0), (8, 10, 20), (32, HUGE, 2147483648)):
        p = Pipeline(1, width)
        test = p.node(EQUAL, p.node(FIELD, 0), p.node(CONSTANT, 1, 1))
        p.root = p.node(ASSIGN, 1, p.node(SELECT, test, p.node(CONSTANT, a, width), p.node(CONSTANT, b, width)))
        run(f'select of {a} and {b}, true', p, [], [1, b], [], f'passed 0 0 : 1 {a}')
        run(f'select of {a} and {b}, false', p, [], [0, a], [], f'passed 0 0 : 0 {b}')
    p = Pipeline(8, 8)
    inner = p.node(SELECT, p.node(LESS, p.node(FIELD, 0), p.node(FIELD, 1)), p.node(FIELD, 1), p.node(FIELD, 0))
    test = p.node(NOT, p.node(LESS, p.node(CONSTANT, 100, 8), inner))
    p.root = p.node(ASSIGN, 0, p.node(SELECT, test, p.node(CONSTANT, 1, 8), p.node(CONSTANT, 0, 8)))
    for packet, value in (([3, 100], 1), ([100, 3], 1), ([101, 3], 0), ([3, 101], 0)):
        run(f'a test that holds a select: the greater of {packet} is at most 100', p, [], packet, [], f'passed 0 0 : {value} {packet[1]}')


# tests

def comparisons():
    for kind, width, a, b, truth in ((EQUAL, 1, 0, 0, True), (EQUAL, 1, 1, 0, False), (EQUAL, 8, 5, 5, True), (EQUAL, 8, 5, 6, False), (EQUAL, 8, 255, 0, False),
                                     (EQUAL, 8, 255, 255, True), (EQUAL, 32, HUGE, HUGE, True), (EQUAL, 32, HUGE, 2147483647, False),
                                     (EQUAL, 32, 0, 2147483648, False), (LESS, 1, 0, 1, True), (LESS, 1, 1, 0, False), (LESS, 1, 1, 1, False),
                                     (LESS, 8, 255, 0, False), (LESS, 8, 0, 255, True), (LESS, 8, 5, 5, False), (LESS, 8, 127, 128, True),
                                     (LESS, 8, 128, 127, False), (LESS, 32, 2147483648, 1, False), (LESS, 32, 1, 2147483648, True),
                                     (LESS, 32, 2147483647, 2147483648, True), (LESS, 32, HUGE, 0, False), (LESS, 32, 0, HUGE, True),
                                     (LESS, 32, HUGE, HUGE, False), (LESS, 32, 4294967294, HUGE, True)):
        p = Pipeline(width, width)
        end = ended(p, p.node(kind, p.node(FIELD, 0), p.node(FIELD, 1)))
        both(f'{NAMES[kind]} of {a} and {b}, width {width}', p, [], [a, b], [], f'{"passed 0" if truth else f"failed {end}"} 0 : {a} {b}',
             'no' if truth else 'yes')


def connectives():
    def held(name, p, test, truth):
        """An assert of the test, and an assume of it."""
        end = ended(p, test)
        both(f'assert {name}', p, [], [5], [], f'{"passed 0" if truth else f"failed {end}"} 0 : 5', 'no' if truth else 'yes')
        p.nodes[end][0] = ASSUME
        both(f'assume {name}', p, [], [5], [], f'{"passed 0" if truth else f"blocked {end}"} 0 : 5', 'no')

    for a, truth in ((0, False), (1, True)):
        p = Pipeline(8)
        held(f'truth {a}', p, p.node(TRUTH, a), truth)
        p = Pipeline(8)
        held(f'not {a}', p, p.node(NOT, p.node(TRUTH, a)), not truth)
    for kind, truths in ((BOTH, (False, False, False, True)), (EITHER, (False, True, True, True))):
        for (a, b), truth in zip(((0, 0), (0, 1), (1, 0), (1, 1)), truths):
            p = Pipeline(8)
            held(f'{NAMES[kind]} of {a} and {b}', p, p.node(kind, p.node(TRUTH, a), p.node(TRUTH, b)), truth)


# deep chains

def deep_complements():
    for count, value in ((1021, 250), (1022, 5)):
        p, chain = complements(count)
        p.root = p.node(ASSIGN, 0, chain)
        run(f'{count} complements of 5', p, [], [5], [], f'passed 0 0 : {value}')
    p, chain = complements(1020)
    end = ended(p, p.node(EQUAL, chain, p.node(CONSTANT, 5, 8)))
    both('1,020 complements of 5 are 5', p, [], [5], [], 'passed 0 0 : 5', 'no')
    both('1,020 complements of 6 are not 5', p, [], [6], [], f'failed {end} 0 : 6', 'yes')
    for count, truth, ending, yes in ((1021, 0, 'passed 0', 'no'), (1021, 1, 'failed 1022', 'yes'), (1022, 0, 'failed 1023', 'yes'), (1022, 1, 'passed 0', 'no')):
        p = Pipeline(8)
        test = p.node(TRUTH, truth)
        for _ in range(count):
            test = p.node(NOT, test)
        ended(p, test)
        both(f'{count} times not {truth}', p, [], [5], [], f'{ending} 0 : 5', yes)


def deep_operands():
    """Chains that lean to the left and to the right: 5 + 510 is 3 more than 512, and 5 - 510 is 7 less 512; 1 - (1 - x) is x."""
    for lean, kind, value in (('left', SUM, 3), ('right', SUM, 3), ('left', DIFFERENCE, 7), ('right', DIFFERENCE, 5)):
        p = Pipeline(8)
        ones = [p.node(CONSTANT, 1, 8) for _ in range(510)]
        five = p.node(FIELD, 0)
        p.root = p.node(ASSIGN, 0, leaning(p, kind, [five, *ones] if lean == 'left' else [*ones, five], lean))
        run(f'{NAMES[kind]} of 5 and 510 ones, to the {lean}', p, [], [5], [], f'passed 0 0 : {value}')
    for kind, truth, other, ending, yes in ((BOTH, 1, 1, 'passed 0', 'no'), (BOTH, 0, 1, 'failed 1021', 'yes'), (EITHER, 1, 0, 'passed 0', 'no'),
                                            (EITHER, 0, 0, 'failed 1021', 'yes')):
        for lean in ('left', 'right'):
            p = Pipeline(8)
            tests = [p.node(TRUTH, other) for _ in range(510)]
            one = p.node(TRUTH, truth)
            ended(p, leaning(p, kind, [one, *tests] if lean == 'left' else [*tests, one], lean))
            both(f'{NAMES[kind]} of {truth} and 510 times {other}, to the {lean}', p, [], [5], [], f'{ending} 0 : 5', yes)


def deep_selects():
    """Values in tests in values: each select turns 0 to 1 and 1 to 0."""
    for count, after in ((203, (1, 0)), (204, (0, 1))):
        p = Pipeline(1)
        value = p.node(FIELD, 0)
        for _ in range(count):
            test = p.node(EQUAL, value, p.node(CONSTANT, 0, 1))
            value = p.node(SELECT, test, p.node(CONSTANT, 1, 1), p.node(CONSTANT, 0, 1))
        p.root = p.node(ASSIGN, 0, value)
        for before in (0, 1):
            run(f'{before} turned {count} times', p, [], [before], [], f'passed 0 0 : {after[before]}')


def deep_sequences():
    """511 sequences over 512 statements: havocs of field 0 and of field 1 in turn."""
    entries = [i % 256 for i in range(512)]
    for lean in ('left', 'right'):
        p = Pipeline(8, 8)
        p.root = leaning(p, SEQUENCE, [p.node(HAVOC, i % 2) for i in range(512)], lean)
        both(f'511 sequences to the {lean}', p, [], [1, 2], entries, 'passed 0 512 : 254 255', 'no')
        refused(f'511 sequences to the {lean}, the last entry missing', p, [], [1, 2], entries[:511], 14, 511)
        refused(f'511 sequences to the {lean}, entry 300 out of range', p, [], [1, 2], [*entries[:300], 256, *entries[301:]], 15, 300)
        p = Pipeline(8, 8)
        end = p.node(ASSERT, p.node(TRUTH, 0))
        p.root = leaning(p, SEQUENCE, [end if i == 100 else p.node(HAVOC, i % 2) for i in range(512)], lean)
        both(f'511 sequences to the {lean}, the statement after 100 fails', p, [], [1, 2], entries[:100], f'failed {end} 100 : 98 99', 'yes')
        both(f'511 sequences to the {lean}, and entries are left over', p, [], [1, 2], entries, f'failed {end} 100 : 98 99', 'no')


def deep_choices():
    """340 choices over 341 assignments of their places."""
    for lean in ('left', 'right'):
        p = Pipeline(16)
        p.root = leaning(p, CHOICE, [set_field(p, 0, i, 16) for i in range(341)], lean)
        away, here = (0, 1) if lean == 'left' else (1, 0)
        for deep in (0, 1, 170, 339):
            value = 340 - deep if lean == 'left' else deep
            both(f'340 choices to the {lean}, {deep} deep', p, [], [999], [away] * deep + [here], f'passed 0 {deep + 1} : {value}', 'no')
        both(f'340 choices to the {lean}, the deepest', p, [], [999], [away] * 340, f'passed 0 340 : {0 if lean == "left" else 340}', 'no')
        refused(f'340 choices to the {lean}, the last entry missing', p, [], [999], [away] * 339, 14, 339)
        refused(f'340 choices to the {lean}, the last entry out of range', p, [], [999], [away] * 339 + [2], 15, 339)


def balanced_choices():
    """Eight choices deep on every side: the entries are the digits of the value."""
    p = Pipeline(8)
    free = [set_field(p, 0, i) for i in range(256)]
    while len(free) > 1:
        free = [p.node(CHOICE, left, right) for left, right in zip(free[::2], free[1::2])]
    p.root = free[0]
    for value, entries in ((0, [0, 0, 0, 0, 0, 0, 0, 0]), (1, [0, 0, 0, 0, 0, 0, 0, 1]), (85, [0, 1, 0, 1, 0, 1, 0, 1]), (128, [1, 0, 0, 0, 0, 0, 0, 0]),
                           (170, [1, 0, 1, 0, 1, 0, 1, 0]), (255, [1, 1, 1, 1, 1, 1, 1, 1])):
        both(f'eight choices for {value}', p, [], [77], entries, f'passed 0 8 : {value}', 'no')


for section in (choice_entries, havoc_entries, each_fields_width, short_lists, entries_in_bodies, end_areas, packets, orders, passed_and_left_over,
                first_ending, endings_in_sides, endings_in_bodies, confirms, matching_rules, wide_keys, several_keys, keyless_tables, same_words, several_tables,
                empty_parts, limits, changed_keys, changed_inside, parameters, two_operands, one_operand, joins, plain_values, selects, comparisons,
                connectives, deep_complements, deep_operands, deep_selects, deep_sequences, deep_choices, balanced_choices):
    section()
