#!/usr/bin/env python3
"""definitions.py [--each K]: holds the definitions of crates/model/specs to the vectors in tests/vectors.

Each case becomes an equation between what a definition gives and the answer of the vector, and the checker computes both sides.
With --each K at most K cases are taken of each call and kind of answer (a success, or a refusal's number), spread over the file.
Left out, and counted apart, are cases that are too large for the checker to compute: those with more than 100 rules, whose forms have
some 50,000 nodes and more, are not tried, and the others it says itself; at most one in a hundred may be so.
The last line is 'N passed, M failed', counted in cases. A case has passed only where the checker says that its crate is proved."""
import argparse
import os
import re
import shutil
import subprocess
import sys
import tempfile

HERE = os.path.dirname(os.path.abspath(__file__))
TOP = os.path.dirname(HERE)
# outside of the checkout, since the gate takes no proof file beside the listed crates
WORK = os.path.join(tempfile.gettempdir(), f'definitions-{os.getpid()}')
PER_CRATE = 100

HEAD = """-- Vectors as equations, each by computation.
use mathlib.Core.Path.{◌≡◌, refl}
use mathlib.Core.List.{List, [], ◌∷◌, ◌++◌}
use lib.ListN.{length, replicate}
use Rattle.model.specs.Blocks.{words}
use Rattle.model.specs.Condition.{bits_words, last_truth}
use Rattle.model.specs.Answers.{Answer, done, refused, told, yes_or_no}
use Rattle.model.specs.Calls as calls
use Rattle.model.specs.Listing.{listing}
use Rattle.model.specs.declared.Part.{Part}
use Rattle.model.proofs.Compute.{compute}
"""


def spelt(words):
    return '(' + ''.join(w + ' ∷ ' for w in words) + '[])'


def octets(text):
    return [str(b) for b in bytes.fromhex(text)]


def answered(answer, values):
    """The answer as the definitions spell it: a refusal, or done with the values."""
    kind, *rest = answer.split()
    return f'refused {rest[0]} {rest[1]}' if kind == 'refused' else 'done ' + spelt(values)


def part(answer):
    """Which part of which block Lookup answers."""
    return 'Part.Empty' if answer == 'empty' else f'Part.{answer.split()[1].capitalize()} {answer.split()[2]}'


def evaluate_rows(args, room, parts):
    """Two equations: the answer with the values, and what the scratch, filled with 7s, holds afterwards."""
    inputs = ' '.join(spelt(a.split()) for a in args[:3])
    call = f'calls.evaluate {inputs} {room}'
    after = f'calls.scratch_after {inputs} (replicate {room} 7)'
    if parts[0].startswith('refused'):
        zeroed = int(parts[1].split()[1]) if parts[1].startswith('zeroed') else 0
        scratch, values = ['0'] * zeroed, []
    else:
        scratch = parts[1].split()
        values = ['1' if parts[0] == 'ok true' else '0'] + scratch
    left = int(room) - len(scratch)
    return [(f'told (λ xs. yes_or_no (last_truth xs) ++ bits_words xs) ({call})', answered(parts[0], values)),
            (after, f'{spelt(scratch)} ++ replicate {left} 7')]


def equations(line):
    """The equations of one case: pairs of what the definitions give and what the vector says."""
    call, *args, answer = [part.strip() for part in line.split(';')]
    parts = [part.strip() for part in answer.split(':')]
    lists = lambda n: ' '.join(spelt(a.split()) for a in args[:n])
    numbers = lambda n: ' '.join(args[n:])
    first = parts[0].split()[1:]
    rest = [w for part in parts[1:] for w in part.split()]
    if call == 'check':
        return [(f'told (λ _. []) (calls.check {lists(2)})', answered(answer, []))]
    if call == 'lookup':
        return [(f'calls.lookup {lists(3)} {numbers(3)}', part(answer))]
    if call == 'run':
        how = {'passed': '0', 'blocked': '1', 'failed': '2'}.get(parts[0].split()[0])
        shown = 'λ e. e.how ∷ e.node ∷ e.state.used ∷ e.state.packet'
        return [(f'told ({shown}) (calls.run {lists(4)} {numbers(4)})', answered(answer, [how] + first + rest))]
    if call == 'confirm':
        return [(f'told yes_or_no (calls.confirm {lists(4)})', answered(answer, ['1' if answer == 'yes' else '0']))]
    if call == 'passify':
        shown = 'λ w. length w.nodes ∷ length w.widths ∷ words w.nodes ++ w.widths'
        return [(f'told ({shown}) (calls.passify {lists(2)} {numbers(2)})', answered(answer, first + rest))]
    if call == 'condition':
        return [(f'told (λ es. length es ∷ words es) (calls.condition {lists(2)} {numbers(2)})', answered(answer, first + rest))]
    if call == 'evaluate':
        return evaluate_rows(args, args[3], parts)
    if call == 'extract':
        shown = 'λ w. length w.choices ∷ w.packet ++ w.choices'
        return [(f'told ({shown}) (calls.extract {lists(3)} {numbers(3)})', answered(answer, first + rest))]
    if call == 'load':
        shown = 'λ b. length b.pipeline ∷ length b.rules ∷ b.pipeline ++ b.rules'
        return [(f'told ({shown}) (calls.load {spelt(octets(args[0]))} {numbers(1)})', answered(answer, first + rest))]
    if call == 'listing':
        return [(f'listing {spelt(octets(args[0]))}', spelt(octets(answer)))]
    sys.exit(f'definitions.py: a call that it does not know: {call}')


def write_crate(name, cases):
    folder = os.path.join(WORK, 'crates', name)
    for part_of_it in ('src', 'specs'):
        os.makedirs(os.path.join(folder, part_of_it), exist_ok=True)
    with open(os.path.join(folder, 'src', 'lib.rt'), 'w') as f:
        f.write('pub enum Nothing {\n    Here,\n}\n')
    with open(os.path.join(folder, 'specs', 'Lib.antt'), 'w') as f:
        f.write('pub mod Rows\n')
    with open(os.path.join(folder, 'specs', 'Rows.antt'), 'w') as f:
        f.write(HEAD)
        for number, line in cases.items():
            for k, (left, right) in enumerate(equations(line)):
                f.write(f'\ncase-{number}-{k} : {left} ≡ {right}\nunfolding compute\ncase-{number}-{k} = refl\n')


def too_large(line):
    call, *args = line.split(';')
    takes_rules = call.strip() in ('check', 'lookup', 'run', 'confirm', 'passify', 'extract')
    return takes_rules and len(args[1].split()) > 100 * 12


def kind_of(line):
    """What a case is a case of: its call, and the first two words of a refusal or the first word of another answer."""
    call, *_, answer = [part.strip() for part in line.split(';')]
    words = answer.split()
    return call, *words[:2 if words[0] == 'refused' else 1]


def chosen(cases, most):
    """At most so many cases of each kind, spread over the file."""
    if most is None:
        return cases
    groups = {}
    for case in cases:
        groups.setdefault(kind_of(case[1]) if not case[1].startswith('listing') else 'listing', []).append(case)
    taken = []
    for group in groups.values():
        step = max(1, len(group) // most)
        taken += group[::step][:most]
    return sorted(taken)


def write_repository(cases):
    """Crates of some cases each, beside the crates whose definitions they are about. Gives each crate's cases."""
    shutil.rmtree(WORK, ignore_errors=True)
    crates = {f'rows{i // PER_CRATE}': dict(cases[i:i + PER_CRATE]) for i in range(0, len(cases), PER_CRATE)}
    for name, some in crates.items():
        write_crate(name, some)
    for crate in ('bits', 'model'):
        shutil.copytree(os.path.join(TOP, 'crates', crate), os.path.join(WORK, 'crates', crate), ignore=shutil.ignore_patterns('out', 'must-fail'))
    with open(os.path.join(WORK, 'crates.txt'), 'w') as f:
        f.write('bits:\nmodel: bits\n' + ''.join(f'{name}: model\n' for name in crates))
    return crates


def check():
    run = subprocess.run(['rt', 'all', 'check'], cwd=WORK, capture_output=True, text=True)
    return run.stdout + run.stderr


def sift(crates):
    """Checks the crates, takes out each case that an error names, and checks again, until a check names no more. Gives the cases that
    are too large to compute, those that are wrong, and what the last check said."""
    large, wrong = set(), set()
    while True:
        said = check()
        named = re.findall(r'error: `case-(\d+)-\d+`: (.*)', said)
        stopped = {int(n) for n, why in named if 'stopped at the step limit' in why}
        others = {int(n) for n, why in named} - stopped
        for n in sorted(others):
            print(f'definitions: line {n} of the vectors is answered otherwise')
        if not named:
            return large, wrong, said
        large |= stopped
        wrong |= others
        for name, some in crates.items():
            if (stopped | others) & set(some):
                crates[name] = {n: line for n, line in some.items() if n not in stopped | others}
                write_crate(name, crates[name])


def main():
    parser = argparse.ArgumentParser()
    parser.add_argument('--each', type=int)
    args = parser.parse_args()
    with open(os.path.join(HERE, 'vectors', 'document-01.txt')) as f:
        every = [(n, line) for n, line in enumerate(f, 1) if line.strip()]
    cases = chosen([case for case in every if not too_large(case[1])], args.each)
    crates = write_repository(cases)
    try:
        large, wrong, said = sift(crates)
    finally:
        shutil.rmtree(WORK, ignore_errors=True)
    proved = sum(len(some) for name, some in crates.items() if f'\n{name}: ok\n' in said)
    failed = len(cases) - len(large) - proved
    if failed or len(large) * 100 > len(cases):
        print(said[-4000:])
        failed = max(failed, len(wrong), 1)
    untried = sum(too_large(line) for _, line in every)
    print(f'definitions: {len(cases)} of {len(every)} cases taken; too large to compute: {untried} not tried, {len(large)} tried {sorted(large)}')
    print(f'definitions: {proved} passed, {failed} failed')
    sys.exit(1 if failed or not proved else 0)


main()
