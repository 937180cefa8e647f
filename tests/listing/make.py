#!/usr/bin/env python3
"""make.py [FOLDER]: writes the record files NAME.in of this folder, there or in another folder. What the program is to print for each is
NAME.out, written by hand from document 01, but for the form of 2,400 nodes, whose lines are written here."""
import os
import sys

HERE = os.path.dirname(os.path.abspath(__file__))
sys.path.insert(0, os.path.dirname(HERE))
from blocks import (APPLY, ASSERT, ASSIGN, ASSUME, CHOICE, CONSTANT, EQUAL, FIELD, HAVOC, LESS, PARAMETER, SEQUENCE, SKIP, TRUTH,  # noqa: E402
                    Pipeline, rule, small)

FOLDER = sys.argv[1] if len(sys.argv) > 1 else HERE


def record(mark, *words):
    """A record: its mark and its words, big-endian."""
    return mark + b''.join(word.to_bytes(4, 'big') for word in words)


def file_of(p, rules=()):
    """The record file of a pipeline and its rules."""
    groups = [(b'FD', [[width] for width in p.widths]), (b'ND', p.nodes), (b'AC', p.actions), (b'TB', p.tables), (b'RL', rules), (b'RT', [[p.root]])]
    return b''.join(record(mark, *words) for mark, records in groups for words in records)


def write(name, content):
    with open(os.path.join(FOLDER, name), 'wb') as out:
        out.write(content)


def document():
    """Document 01's example: a field of 8 bits is below 10."""
    p = Pipeline(8)
    field, ten = p.nodes_of((FIELD, 0), (CONSTANT, 10, 8))
    p.root = p.node(ASSERT, p.node(LESS, field, ten))
    return p


def assign_or_skip():
    """Document 01's worked example 8."""
    p = Pipeline(8)
    assign = p.node(ASSIGN, 0, p.node(CONSTANT, 1, 8))
    choice = p.node(CHOICE, assign, p.node(SKIP))
    field, one = p.nodes_of((FIELD, 0), (CONSTANT, 1, 8))
    p.root = p.node(SEQUENCE, choice, p.node(ASSERT, p.node(EQUAL, field, one)))
    return p


def tabled():
    """A table on field 0 whose rule assigns field 1 its data, and whose default skips; not applied yet."""
    p = Pipeline(8, 8)
    assign = p.action(p.node(ASSIGN, 1, p.node(PARAMETER, 0, 8)), 8)
    p.table([0], p.action(p.node(SKIP)))
    return p, [rule(0, [(16, 240)], assign, 7)]


def one_apply():
    """Document 01's worked example 9."""
    p, rules = tabled()
    p.root = p.node(APPLY, 0)
    return p, rules


def table_choice_havoc():
    """Havoc field 0; then apply the table, or skip; then field 1 is below 8."""
    p, rules = tabled()
    havoc = p.node(HAVOC, 0)
    apply = p.node(APPLY, 0)
    choice = p.node(CHOICE, apply, p.node(SKIP))
    field, eight = p.nodes_of((FIELD, 1), (CONSTANT, 8, 8))
    p.root = p.node(SEQUENCE, havoc, p.node(SEQUENCE, choice, p.node(ASSERT, p.node(LESS, field, eight))))
    return p, rules


def chain(p, *statements):
    """Statements one after the other, each made in its turn, so that nodes stand as they are emitted: the node of their sequence."""
    last = statements[0]()
    for statement in statements[1:]:
        last = p.node(SEQUENCE, last, statement())
    return last


def applied(extra):
    """A body of 48 nodes, applied 49 times, and so many skips behind: 49 * 48 + 48 + 2 * extra passive nodes."""
    p = Pipeline(8)
    skip = lambda: p.node(SKIP)
    body = chain(p, *[skip] * 23, lambda: p.node(ASSUME, p.node(TRUTH, 1)))
    p.table([], p.action(body))
    p.root = chain(p, *[lambda: p.node(APPLY, 0)] * 49, *[skip] * extra)
    return p


def many_rules():
    """Five applies of a table of 256 rules with four keys: m alone has 25 nodes and stands twice a rule, 64,000; with the rest, more than 65,536."""
    p = Pipeline(8)
    p.table([0, 0, 0, 0], p.action(p.node(SKIP)))
    p.root = chain(p, *[lambda: p.node(APPLY, 0)] * 5)
    return p, [rule(0, [(i, 255)] * 4, 0) for i in range(256)]


def wrong_node():
    """Node 2 compares values of 8 and of 4 bits."""
    p = Pipeline(8)
    p.nodes_of((FIELD, 0), (CONSTANT, 10, 4), (LESS, 0, 1), (ASSERT, 2))
    p.root = 3
    return p


def field(count):
    return record(b'FD', 8) * count


SKIPPED = file_of(small())
RULE = record(b'RL', *[0] * 12)
ROOT = record(b'RT', 0)

write('document.in', file_of(document()))
write('worked_example_8.in', file_of(assign_or_skip()))
write('worked_example_9.in', file_of(*one_apply()))
write('table_choice_havoc.in', file_of(*table_choice_havoc()))
write('skip.in', SKIPPED)
# 1
write('empty.in', b'')
write('one_byte.in', b'F')
write('unknown_mark.in', field(1) + b'fd' + SKIPPED)
write('wrong_group.in', field(1) + record(b'ND', SKIP, 0, 0, 0) + SKIPPED)
write('cut_record.in', SKIPPED[:-1])
write('no_root.in', SKIPPED[:-6])
write('after_root.in', SKIPPED + b'F')
write('second_root.in', SKIPPED + ROOT)
# 1, in a file that is too long: at the limit, but for a fault before it. The longest record may begin just before the limit
write('longest_allowed.in', field(6660) + record(b'TB', *[0] * 8) + ROOT)
write('one_byte_too_long.in', field(6660) + record(b'TB', *[0] * 8) + ROOT + b'R')
write('too_long.in', field(7000) + ROOT)
write('fault_in_a_long_file.in', field(10) + b'XX' + bytes(41000))
write('record_over_the_limit.in', field(8) + RULE * 800 + ROOT)
write('root_over_the_limit.in', field(6666) + ROOT + bytes(100))
# 2: a root alone, and fields alone
write('no_field.in', ROOT)
write('many_fields.in', field(33) + record(b'ND', SKIP, 0, 0, 0) + ROOT)
# 4
write('wrong_node.in', file_of(wrong_node()))
# 12
write('all_nodes.in', file_of(applied(0)))
write('too_many_nodes.in', file_of(applied(1)))
write('form_too_large.in', file_of(*many_rules()))

# the lines of the form of 2,400 nodes: the body's, moved to where the copy begins, and a sequence behind each copy but the first
CHILDREN = {SEQUENCE: 2, ASSUME: 1}
LINES = []


def copy_body():
    start = len(LINES)
    for kind, *words in applied(0).nodes[:48]:
        LINES.append([kind, *[word + start if i < CHILDREN.get(kind, 0) else word for i, word in enumerate(words)]])
    return len(LINES) - 1


top = copy_body()
for _ in range(48):
    LINES.append([SEQUENCE, top, copy_body(), 0])
    top = len(LINES) - 1
heading = f'passive {len(LINES)} variables 1 condition {3 * len(LINES) + 1}\n'
write('all_nodes.out', (heading + ''.join(f'{i} {" ".join(map(str, words))}\n' for i, words in enumerate(LINES))).encode())
