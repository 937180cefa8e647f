#!/usr/bin/env python3
"""load_rows.py: prints cases of Load at every limit of document 01, in the format of tests/vectors.

Each expected answer stands here by hand, from the page: a place, or the two lengths. A file is made of its records one after the other, and
a row that names a place says how many bytes stand before it. Nothing here reads a file."""
from blocks import case

# a record's mark and how many words it has; with the mark its bytes are 6, 18, 18, 34, 50 and 6
FD, ND, AC, TB, RL, RT = (b'FD', 1), (b'ND', 4), (b'AC', 4), (b'TB', 8), (b'RL', 12), (b'RT', 1)
GROUPS = [FD, ND, AC, TB, RL, RT]
ROOM = 10000


def words_of(group, count, first=0):
    """The words of so many records: no two alike, and no byte of a word like another."""
    _, size = group
    return [(0x01020304 + 0x04030201 * (first + i)) % 2 ** 32 for i in range(size * count)]


def records(group, count=1, first=0):
    mark, size = group
    words = words_of(group, count, first)
    return b''.join(mark + b''.join(word.to_bytes(4, 'big') for word in words[i * size:(i + 1) * size]) for i in range(count))


def load(name, file, answer, pipeline_room=ROOM, rule_room=ROOM):
    case(name, 'load', file.hex(), pipeline_room, rule_room, answer)


def refused(name, file, place, length=None):
    """A fault of the file, whatever room is lent: for a short file enough and none, for a long one too little."""
    assert length is None or len(file) == length, (name, len(file))
    for room in (ROOM, 0) if len(file) < 1000 else (7,):
        load(f'{name}, room {room}', file, f'refused 1 {place}', room, room)


class Whole:
    """A whole file: so many records of each group, and the root."""

    def __init__(self, fields=0, nodes=0, actions=0, tables=0, rules=0):
        self.counts = [fields, nodes, actions, tables, rules]

    def bytes(self):
        return b''.join(records(group, count, 7 * i) for i, (group, count) in enumerate(zip(GROUPS, [*self.counts, 1])))

    def ok(self, pipeline_length, rule_length):
        """The answer, whose lengths stand in the row."""
        words = [words_of(group, count, 7 * i) for i, (group, count) in enumerate(zip(GROUPS, [*self.counts, 1]))]
        pipeline = [*self.counts[:4], *words[5], *words[0], *words[1], *words[2], *words[3]]
        assert len(pipeline) == pipeline_length and len(words[4]) == rule_length
        return f'ok {pipeline_length} {rule_length} : {" ".join(map(str, pipeline))} : {" ".join(map(str, words[4]))}'


def accepted(name, whole, pipeline_length, rule_length, length=None):
    """A whole file: with room left, exactly enough, and a word short for the one, the other and both."""
    file, ok = whole.bytes(), whole.ok(pipeline_length, rule_length)
    assert length is None or len(file) == length, (name, len(file))
    load(f'{name}, room left', file, ok)
    load(f'{name}, exact room', file, ok, pipeline_length, rule_length)
    load(f'{name}, a word left in each area', file, ok, pipeline_length + 1, rule_length + 1)
    load(f'{name}, pipeline a word short', file, f'refused 12 {pipeline_length}', pipeline_length - 1, rule_length)
    load(f'{name}, no room at all', file, f'refused 12 {pipeline_length}', 0, 0)
    if rule_length:
        load(f'{name}, rules a word short', file, f'refused 12 {rule_length}', pipeline_length, rule_length - 1)
        load(f'{name}, no room for rules', file, f'refused 12 {rule_length}', pipeline_length, 0)
        load(f'{name}, both a word short', file, f'refused 12 {pipeline_length}', pipeline_length - 1, rule_length - 1)


# short files

def nearly_nothing():
    refused('the empty file', b'', 0)
    for mark, _ in GROUPS:
        refused(f'the first byte of {mark.decode()}', mark[:1], 0)
        refused(f'the mark {mark.decode()} alone', mark, 0)
    refused('a zero byte', b'\0', 0)
    refused('two zero bytes', b'\0\0', 0)
    accepted('the root alone', Whole(), 5, 0)


def marks():
    """Bytes that are no mark: at the start, and behind a field of 6 bytes."""
    for mark in (b'XX', b'fd', b'DF', b'F\0', b'\0D', b'FF', b'DD', b'NC', b'AD', b'TL', b'RB', b'RD', b'FT', b'RX', b'LR', b'TR', b'\xff\xff'):
        refused(f'{mark} at the start', mark + bytes(60) + records(RT), 0)
        refused(f'{mark} behind a field', records(FD) + mark + bytes(60) + records(RT), 6)
        refused(f'{mark} at the end', records(FD) + mark, 6)


def cut_records():
    """A record of 6 to 50 bytes of which some are missing, at the start and behind 6 + 18 bytes."""
    before = {b'FD': (b'', 0), b'ND': (records(FD), 6), b'AC': (records(FD) + records(ND), 24), b'TB': (records(FD) + records(ND), 24),
              b'RL': (records(FD) + records(ND), 24), b'RT': (records(FD) + records(ND), 24)}
    for group in GROUPS:
        one = records(group)
        front, place = before[group[0]]
        for kept in range(1, len(one)):
            refused(f'{kept} bytes of {group[0].decode()}', one[:kept], 0)
            refused(f'{kept} bytes of {group[0].decode()} at {place}', front + one[:kept], place)


def orders():
    """Two groups in the wrong order: the later record is wrong, and its place is the length of the first. In the right order RT is missing."""
    for i, (group, length) in enumerate(zip(GROUPS[:5], (6, 18, 18, 34, 50))):
        for earlier in GROUPS[:i]:
            refused(f'{earlier[0].decode()} behind {group[0].decode()}', records(group) + records(earlier) + records(RT), length)
            refused(f'{earlier[0].decode()} behind two of {group[0].decode()}', records(group, 2) + records(earlier) + records(RT), 2 * length)
        refused(f'only {group[0].decode()}', records(group), length)
        refused(f'two of {group[0].decode()} and no root', records(group, 2), 2 * length)
    refused('a field behind every other group', records(FD) + records(ND) + records(AC) + records(TB) + records(RL) + records(FD) + records(RT), 126)
    refused('two wrong records', records(ND) + records(FD) + records(AC) + records(ND) + records(RT), 18)


def after_the_root():
    """The root has 6 bytes; behind a field it ends at 12."""
    for group in GROUPS:
        refused(f'{group[0].decode()} behind the root', records(RT) + records(group), 6)
        refused(f'{group[0].decode()} behind a field and the root', records(FD) + records(RT) + records(group), 12)
    for more in (1, 2, 5, 6, 7, 50):
        refused(f'{more} bytes behind the root', records(RT) + bytes(more), 6)


def whole_files():
    """The pipeline has 5 + F + 4N + 4A + 8T words, the rules 12R."""
    accepted('one record of each group', Whole(1, 1, 1, 1, 1), 22, 12, 132)  # 6 + 18 + 18 + 34 + 50 + 6
    accepted('two of each', Whole(2, 2, 2, 2, 2), 39, 24)
    accepted('only a field', Whole(fields=1), 6, 0)
    accepted('only a node', Whole(nodes=1), 9, 0)
    accepted('only an action', Whole(actions=1), 9, 0)
    accepted('only a table', Whole(tables=1), 13, 0)
    accepted('only a rule', Whole(rules=1), 5, 12)
    accepted('fields and rules', Whole(fields=3, rules=2), 8, 24)
    accepted('nodes and tables', Whole(nodes=3, tables=2), 33, 0)
    # Load judges no count: these are too many for Check
    accepted('33 fields', Whole(fields=33), 38, 0)
    accepted('1,025 nodes', Whole(nodes=1025), 4105, 0)
    accepted('65 actions', Whole(actions=65), 265, 0)
    accepted('33 tables', Whole(tables=33), 269, 0)
    accepted('257 rules', Whole(rules=257), 5, 3084)


# files of about 40,000 bytes, and longer ones

def long_whole_files():
    """6 bytes a field, 18 a node and an action, 34 a table, 50 a rule, 6 the root."""
    accepted('39,998 bytes', Whole(fields=6657, rules=1), 6662, 12, 39998)  # 39,942 + 50 + 6
    accepted('40,000 bytes', Whole(fields=6660, tables=1), 6673, 0, 40000)  # 39,960 + 34 + 6
    accepted('39,998 bytes, most of them rules', Whole(fields=7, rules=799), 12, 9588, 39998)  # 42 + 39,950 + 6
    accepted('38,206 bytes without fields', Whole(0, 1000, 500, 300, 20), 8405, 240, 38206)  # 18,000 + 9,000 + 10,200 + 1,000 + 6
    refused('a whole file of 40,002 bytes', Whole(fields=6666).bytes(), 40000, 40002)  # 39,996 + 6
    refused('a whole file of 40,048 bytes', Whole(fields=6668, tables=1).bytes(), 40000, 40048)  # 40,008 + 34 + 6
    refused('a whole file of 70,000 bytes', Whole(fields=11660, tables=1).bytes(), 40000, 70000)  # 69,960 + 34 + 6
    refused('a root that begins at 40,000', Whole(fields=6661, tables=1).bytes(), 40000, 40006)  # 39,966 + 34 + 6
    refused('a root that begins at 39,996', Whole(fields=6666).bytes(), 40000, 40002)


def bytes_after_a_late_root():
    """The root ends at 39,998 or at 40,000, and more follows."""
    ends = Whole(fields=6657, rules=1).bytes(), Whole(fields=6660, tables=1).bytes()
    for length in (39999, 40000, 40001, 40002, 40048, 70000):
        refused(f'{length} bytes, the root ends at 39,998', ends[0] + bytes(length - 39998), 39998, length)
    for length in (40001, 40002, 40048, 70000):
        refused(f'{length} bytes, the root ends at 40,000', ends[1] + bytes(length - 40000), 40000, length)
    refused('a second root at 39,998', ends[0] + records(RT), 39998, 40004)
    refused('a second root at 40,000', ends[1] + records(RT), 40000, 40006)
    refused('the root ends at 40,002 and more follows', Whole(fields=6666).bytes() + bytes(46), 40000, 40048)
    refused('70,000 bytes, the root first', records(RT) + bytes(69994), 6, 70000)


def early_faults():
    """A fault far before 40,000 in files of every length."""
    for length in (39998, 40000, 40001, 40002, 40048, 70000):
        tail = records(FD, 11700)
        unknown = records(FD, 6000) + b'XX' + tail
        refused(f'{length} bytes, an unknown mark at 36,000', unknown[:length], 36000, length)
        wrong = records(FD, 10) + records(TB) + tail
        refused(f'{length} bytes, a field at 94 behind a table', wrong[:length], 94, length)
        refused(f'{length} bytes, an unknown mark at 0', (b'\0\0' + tail)[:length], 0, length)
        refused(f'{length} bytes, more behind the root at 66', (records(FD, 10) + records(RT) + tail)[:length], 66, length)


def faults_just_below():
    """6,666 fields end at 39,996, 6,658 and a rule at 39,998."""
    fields, rule = records(FD, 6666), records(FD, 6658) + records(RL)
    for length in (39998, 40000, 40001, 40002, 40048, 70000):
        more = length - 39996
        refused(f'{length} bytes, an unknown mark at 39,996', fields + (b'XX' + bytes(40000))[:more], 39996, length)
        if length > 39998:
            refused(f'{length} bytes, an unknown mark at 39,998', rule + (b'XX' + bytes(40000))[:length - 39998], 39998, length)
            refused(f'{length} bytes, a field at 39,998 behind a rule', rule + records(FD, 6000)[:length - 39998], 39998, length)
    for kept in range(1, 6):
        refused(f'{kept} bytes of a field at 39,996', fields + records(FD)[:kept], 39996, 39996 + kept)
        refused(f'{kept} bytes of a root at 39,996', fields + records(RT)[:kept], 39996, 39996 + kept)
    for kept in (1, 2, 3, 49):
        refused(f'{kept} bytes of a rule at 39,998', rule + records(RL)[:kept], 39998, 39998 + kept)


def faults_at_the_limit():
    """6,661 fields and a table end at 40,000."""
    front = records(FD, 6661) + records(TB)
    refused('40,000 bytes and no root', front, 40000, 40000)
    for length in (40001, 40002, 40048, 70000):
        more = length - 40000
        refused(f'{length} bytes, an unknown mark at 40,000', front + (b'XX' + bytes(30000))[:more], 40000, length)
        refused(f'{length} bytes, a field at 40,000 behind a table', front + records(FD, 5000)[:more], 40000, length)
        refused(f'{length} bytes, rules from 40,000 on', front + records(RL, 600)[:more], 40000, length)


def faults_behind_the_limit():
    """Where the first fault stands behind 40,000, the limit is given."""
    fields = records(FD, 6667)
    refused('6,667 fields and no root', fields, 40000, 40002)
    refused('an unknown mark at 40,002', fields + b'XX' + bytes(44), 40000, 40048)
    refused('a byte at 40,002', fields + b'F', 40000, 40003)
    refused('a cut field at 40,002', fields + records(FD)[:5], 40000, 40007)
    refused('a wrong group at 40,036', fields + records(TB) + records(FD) + records(RT), 40000, 40048)
    refused('70,000 bytes and no root', records(FD, 11661) + records(TB), 40000, 70000)
    refused('an unknown mark at 69,966', records(FD, 11661) + b'XX' + bytes(32), 40000, 70000)


def across_the_limit():
    """A record that begins below 40,000 and ends behind it is cut only by the file's end."""
    fields, rule = records(FD, 6660), records(FD, 6658) + records(RL)
    for kept in (39, 40, 41, 42, 49):
        refused(f'{kept} bytes of a rule at 39,960', fields + records(RL)[:kept], 39960, 39960 + kept)
    refused('a rule from 39,960 to 40,010 and no root', fields + records(RL), 40000, 40010)
    refused('a rule from 39,960 to 40,010 and the root', fields + records(RL) + records(RT), 40000, 40016)
    refused('a rule from 39,998 to 40,047', rule + records(RL)[:49], 39998, 40047)
    refused('a rule from 39,998 to 40,048', rule + records(RL), 40000, 40048)
    refused('a rule from 39,998 to 40,048 and the root', rule + records(RL) + records(RT), 40000, 40054)
    refused('a rule from 39,998 on in 70,000 bytes', rule + records(RL) + bytes(29952), 40000, 70000)
    refused('6,666 fields and no root', records(FD, 6666), 39996, 39996)
    refused('6,658 fields, a rule and no root', rule, 39998, 39998)


for section in (nearly_nothing, marks, cut_records, orders, after_the_root, whole_files, long_whole_files, bytes_after_a_late_root, early_faults,
                faults_just_below, faults_at_the_limit, faults_behind_the_limit, across_the_limit):
    section()
