"""Pipeline blocks and rule blocks for the tests, made piece by piece, well formed or not, and a case in the format of tests/vectors."""

HUGE = 4294967295

# the kinds of nodes
CONSTANT, FIELD, PARAMETER, SUM, DIFFERENCE, AND, OR, XOR, COMPLEMENT, SLICE, JOIN, SELECT = range(1, 13)
TRUTH, EQUAL, LESS, NOT, BOTH, EITHER = range(16, 22)
SKIP, ASSIGN, HAVOC, ASSUME, ASSERT, SEQUENCE, CHOICE, APPLY = range(32, 40)

VALUES = range(CONSTANT, SELECT + 1)
TESTS = range(TRUTH, EITHER + 1)
STATEMENTS = range(SKIP, APPLY + 1)
KINDS = [*VALUES, *TESTS, *STATEMENTS]
NAMES = dict(zip(KINDS, 'constant field parameter sum difference and or xor complement slice join select truth equal less not both either '
                 'skip assign havoc assume assert sequence choice apply'.split()))

# what the words a, b, c of a kind are: v, t, s a child that is a value, a test, a statement; n a number; - unused
WORDS = {CONSTANT: 'nn-', FIELD: 'n--', PARAMETER: 'nn-', SUM: 'vv-', DIFFERENCE: 'vv-', AND: 'vv-', OR: 'vv-', XOR: 'vv-',
         COMPLEMENT: 'v--', SLICE: 'vnn', JOIN: 'vv-', SELECT: 'tvv', TRUTH: 'n--', EQUAL: 'vv-', LESS: 'vv-', NOT: 't--', BOTH: 'tt-',
         EITHER: 'tt-', SKIP: '---', ASSIGN: 'nv-', HAVOC: 'n--', ASSUME: 't--', ASSERT: 't--', SEQUENCE: 'ss-', CHOICE: 'ss-', APPLY: 'n--'}


class Pipeline:
    """A pipeline block, made piece by piece. Each piece answers its number."""

    def __init__(self, *widths):
        self.widths, self.nodes, self.actions, self.tables, self.root = list(widths), [], [], [], 0

    def node(self, kind, a=0, b=0, c=0):
        self.nodes.append([kind, a, b, c])
        return len(self.nodes) - 1

    def nodes_of(self, *kinds_and_words):
        return [self.node(*words) for words in kinds_and_words]

    def action(self, body, *widths):
        self.actions.append([body, len(widths), *widths, *[0] * (2 - len(widths))])
        return len(self.actions) - 1

    def table(self, keys, action, *values):
        self.tables.append([len(keys), *keys, *[0] * (4 - len(keys)), action, *values, *[0] * (2 - len(values))])
        return len(self.tables) - 1

    def words(self):
        records = [word for group in (self.nodes, self.actions, self.tables) for record in group for word in record]
        return [len(self.widths), len(self.nodes), len(self.actions), len(self.tables), self.root, *self.widths, *records]


def rule(table, pairs, action, *values):
    """A rule: its pairs are value, then mask."""
    flat = [word for pair in pairs for word in pair]
    return [table, *flat, *[0] * (8 - len(flat)), action, *values, *[0] * (2 - len(values))]


def field_of(part):
    """A field of a case: a number or an answer, a pipeline, rules, or words."""
    if isinstance(part, (int, str)):
        return str(part)
    words = part.words() if isinstance(part, Pipeline) else part
    return ' '.join(str(word) for one in words for word in (one if isinstance(one, list) else [one]))


def case(name, call, *parts):
    """Prints the case: its arguments, then its answer. A line that begins with '#' names the case after it."""
    print(f'# {name}')
    print(' ; '.join([call, *map(field_of, parts)]))


def small():
    """One field of 8 bits and a skip."""
    p = Pipeline(8)
    p.root = p.node(SKIP)
    return p


def complements(count):
    """A value far below: so many complements, one over the other, over a field of 8 bits."""
    p = Pipeline(8)
    value = p.node(FIELD, 0)
    for _ in range(count):
        value = p.node(COMPLEMENT, value)
    return p, value


def leaning(p, kind, parts, lean):
    """The parts in a chain of the kind: to the left the first ones are deepest, to the right the last ones."""
    parts = list(parts) if lean == 'left' else list(reversed(parts))
    whole = parts[0]
    for one in parts[1:]:
        whole = p.node(kind, whole, one) if lean == 'left' else p.node(kind, one, whole)
    return whole


def in_order(p, statements):
    """One statement that runs the statements in order."""
    return leaning(p, SEQUENCE, statements, 'left')


def set_field(p, field, value, width=8):
    return p.node(ASSIGN, field, p.node(CONSTANT, value, width))
