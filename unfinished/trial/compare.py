"""Compares worksheet with the model on random cases: compare.py PROGRAM CASES SEED. Ends with status 1 on any difference."""
import collections
import os
import random
import subprocess
import sys

from model import Table, operators, shortest_breaking, write_file, write_rule
from sheet import SERVED, Check, Sheet, fault_of

MOST_NODES = 1 << 17  # more are slow for the model, but where a refusal is due
TRIES = 2000  # lassos that are tried when the shortest is looked for


# ---- Random rules ----

def random_rule(rng, count, letters):
    """A rule of `count` temporal operators."""
    split = rng.randint(0, max(count - 1, 0))
    one = lambda k: random_rule(rng, k, letters)
    if count == 0:
        kind = rng.random()
        if kind < 0.75:
            return (rng.choice(letters),)
        if kind < 0.8:
            return (rng.choice('01'),)
        if kind < 0.9:
            return ('!', one(0))
        return (rng.choice(['&', '|', '->']), one(0), one(0))
    sign = rng.choice(['!', '&', '|', '->', 'X', 'X', 'F', 'F', 'G', 'G', 'U', 'U', 'R', 'R'])
    if sign == '!':
        return (sign, one(count))
    if sign in ('X', 'F', 'G'):
        return (sign, one(count - 1))
    if sign in ('U', 'R'):
        return (sign, one(split), one(count - 1 - split))
    split = rng.randint(0, count)
    return (sign, one(split), one(count - split))


def rewritten(rng, rule):
    """Another rule that is true on the same sequences, with as many temporal operators."""
    sign, parts = rule[0], [rewritten(rng, part) for part in rule[1:]]
    no = lambda f: f[1] if f[0] == '!' else ('!', f)
    dual = {'F': 'G', 'G': 'F', 'U': 'R', 'R': 'U', 'X': 'X', '&': '|', '|': '&'}
    if sign in dual and rng.random() < 0.4:
        return no((dual[sign],) + tuple(no(part) for part in parts))
    if sign == 'F' and rng.random() < 0.4:
        return ('U', ('1',), parts[0])
    if sign == 'G' and rng.random() < 0.4:
        return ('R', ('0',), parts[0])
    if sign == '->' and rng.random() < 0.5:
        return ('|', no(parts[0]), parts[1])
    return (sign,) + tuple(parts)


def weaker(rng, rule):
    """A rule that is true wherever this one is."""
    if rule[0] == 'U' and rng.random() < 0.5:
        return ('F', rule[2])
    if rule[0] == 'G' and rng.random() < 0.5:
        return rng.choice([rule[1], ('X', rule[1]), ('F', rule[1]), ('R', ('0',), rule[1])])
    if rule[0] in ('X', 'F', 'G', '&', '|'):
        return (rule[0],) + tuple(weaker(rng, part) for part in rule[1:])
    return rewritten(rng, rule)


def wishes(rng, count, letters):
    """The denial of several wishes at once, so that what breaks it has to fulfil them all."""
    rule, left = None, count
    while left > 0:
        x, y = ((rng.choice(letters),) for _ in range(2))
        if left == 1:
            wish = rng.choice([('F', x), ('G', ('!', x)), ('U', ('!', x), y), ('X', x)])
        else:
            wish = rng.choice([('G', ('F', x))] * 6 + [('F', ('&', x, ('X', y))), ('G', ('->', x, ('X', ('!', x)))),
                               ('G', ('->', x, ('F', y))), ('U', ('!', x), ('X', y)), ('X', ('X', x)), random_rule(rng, 2, letters)])
        rule, left = ('&', rule, wish) if rule else wish, left - operators(wish)
    return ('!', rule) if rule else random_rule(rng, 0, letters)


def spell(rng, rule):
    """A text of the rule, with blanks and brackets that need not be there where 128 bytes hold them."""
    blank = lambda: rng.choice(['', '', ' '])

    def spread(part, level):
        bare = write_rule(part, level) == write_rule(part) and rng.random() < 0.9
        if len(part) == 1:
            inner = part[0]
        elif len(part) == 2:
            inner = part[0] + spread(part[1], 5)
        else:
            left, right = {'->': (2, 1), '|': (2, 3), '&': (3, 4), 'U': (5, 4), 'R': (5, 4)}[part[0]]
            inner = spread(part[1], left) + blank() + part[0] + blank() + spread(part[2], right)
        return inner if bare else '(' + inner + ')'

    text = spread(rule, 1)
    return text if len(text) <= 128 else write_rule(rule)


def any_rule(rng, letters):
    """A rule that a text of 128 bytes can hold."""
    while True:
        count = rng.choice([0, 1, 1, 2, 2, 3, 3, 4, 5, 6, 7, 8, 9])
        kind = rng.random()
        if kind < 0.35:
            rule = wishes(rng, rng.randint(1, 9), letters)
        elif kind < 0.6:
            rule = random_rule(rng, count // 2, letters)
            rule = ('->', rule, rng.choice([rewritten, weaker])(rng, rule))
            if rng.random() < 0.3:
                rule = ('G', rule)
        else:
            rule = random_rule(rng, count, letters)
        if operators(rule) <= 9 and len(write_rule(rule)) <= 128:
            return rule


# ---- Random dialogues ----

def random_drawing(rng):
    """Calls on a new drawing, some of them to be refused."""
    n = rng.choice([1, 2, 2, 3, 3, 4, 5, 6, 8, 10]) if rng.random() < 0.97 else 0
    start = 0 if rng.random() < 0.05 else rng.choice([0.1, 0.3, 0.7, 1])
    lines = ['new']
    for i in range(n):
        mark = int(rng.random() < start or i == 0 and start > 0)
        lines.append('add %s %d' % (''.join(rng.sample('abc', rng.choice([0, 0, 1, 1, 2, 3]))) or '-', mark))
    if rng.random() < 0.5:
        lines += ['join %d 9 %d' % (i, (i + 1) % n) for i in range(n)]
    state = lambda: rng.randint(0, max(n - (rng.random() < 0.9), 0))
    for _ in range(rng.randint(0, 3 * n)):
        kind = rng.random()
        if kind < 0.85:
            lines.append('join %d %s %d' % (state(), rng.choice(['0', '1', 'Child', 'Return', '4', '15', '16'][:rng.randint(3, 7)]), state()))
        elif kind < 0.92:
            lines.append('cut %d %d' % (state(), rng.randint(0, 4)))
        else:
            lines.append('relabel %d %s %d' % (state(), rng.choice(['a', 'b', 'ab', '-', '4']), rng.randint(0, 2)))
    return lines


def random_file(rng):
    """The bytes of a file, a bad one now and then."""
    n, m = rng.choice([0, 1, 2, 2, 3, 4, 5, 7, 10, 14]), rng.choice([1, 1, 2, 3, 5])
    start = 0 if rng.random() < 0.05 else rng.choice([0.1, 0.2, 0.5, 1])
    dense = rng.choice([0.3, 0.6, 0.9, 1])
    table = Table(m)
    for i in range(n):
        following = {e: (i + rng.choice([1, 1, 2, n // 2, rng.randrange(n)])) % n for e in range(m) if rng.random() < dense}
        table.add(rng.choice([0, 0, 1, 2, 4, 8, 3, 6]), rng.random() < start or i == 0 and start > 0, following)
    data = bytearray(write_file(table))
    if rng.random() < 0.1:
        data[rng.randrange(len(data))] = rng.randrange(256)
    return data.hex()


def large_file(rng):
    """The bytes of a file with more states, few letters and few ways."""
    n, m = rng.choice([40, 60, 100, 150]), rng.choice([2, 3])
    table = Table(m)
    for i in range(n):
        following = {e: (i + rng.choice([1, 1, 2, 5, n // 2])) % n for e in range(m) if rng.random() < 0.8}
        table.add(1 << rng.randrange(4) if rng.random() < 0.2 else 0, i == 0 or rng.random() < 0.02, following)
    return write_file(table).hex()


def random_dialogue(rng, depth):
    kind = rng.random()
    if depth and kind < 0.3:
        return 'pair %s %s' % (random_dialogue(rng, depth - 1), random_dialogue(rng, depth - 1))
    if depth and kind < 0.5:
        return 'bar %s %s' % (rng.choice('0001123'), random_dialogue(rng, depth - 1))
    if kind < 0.72:
        return 'drawing'
    if kind < 0.88:
        return 'file ' + random_file(rng)
    return 'free %d' % rng.choice([0, 1, 1, 2, 2, 3, 7])


def random_rooms(rng, sheet):
    """Rooms for the kept rule and dialogue, some of them too short."""
    d = 1 + operators(sheet.rule)
    nodes = sheet.table.size() << d
    room = lambda need: max(0, need + rng.choice([0] * 12 + [1, 9, -1, -min(need, 5)]))
    return 'check %d %d %d %d %d' % tuple([room(nodes) for _ in range(4)] + [room((d + 1) * nodes)])


def random_case(rng):
    """The lines of one case, and what each must be answered."""
    while True:
        sheet = Sheet()
        lines = random_drawing(rng)
        kind = rng.random()
        if kind < 0.04:
            dialogue = 'file ' + large_file(rng)
        elif kind < 0.07:  # more nodes than are served
            dialogue = rng.choice(['pair free 4 free %d' % rng.randint(3, 5), 'pair free 5 free 5', 'pair drawing pair drawing drawing'])
        else:
            dialogue = random_dialogue(rng, rng.choice([0, 1, 1, 2, 3]))
        lines.append('dialogue ' + dialogue)
        letters = 'abcijk' if 'pair' in dialogue else 'abcd' if 'file' in dialogue else 'abc'
        lines.append('rule ' + spell(rng, any_rule(rng, letters)))
        expected = [sheet.expected(line) for line in lines]
        nodes = sheet.table.size() << 1 + operators(sheet.rule)
        if MOST_NODES < nodes <= SERVED:
            continue
        for line in ['check', random_rooms(rng, sheet)]:
            lines.append(line)
            expected.append(sheet.expected(line))
        return lines, expected


# ---- The program ----

def run(program, lines):
    """The answer line to each line, '' where there is none."""
    text = ''.join(line + '\n' for line in lines).encode('latin-1')
    done = subprocess.run([program], input=text, stdout=subprocess.PIPE, check=True)
    out = done.stdout.decode('latin-1').split('\n')
    answers, at = [], 0
    for line in lines:
        if out[at] != '> ' + line:
            raise SystemExit('not echoed: ' + line)
        at += 1
        while out[at].startswith('  '):
            at += 1
        answers.append('')
        if line and line[0] != '#':
            answers[-1] = out[at]
            at += 1
    if out[at:] != ['']:
        raise SystemExit('more output than lines')
    return answers


def run_cases(program, cases):
    """The answers to each case, many cases to a process."""
    answers = []
    for first in range(0, len(cases), 200):
        some = cases[first:first + 200]
        flat = run(program, [line for lines, _ in some for line in lines])
        for lines, _ in some:
            answers.append(flat[:len(lines)])
            flat = flat[len(lines):]
    return answers


class Tally:
    def __init__(self):
        self.counts, self.differences = collections.Counter(), []

    def compare(self, lines, expected, answers):
        """Compares the answers to one case."""
        for line, due, answer in zip(lines, expected, answers):
            fault = fault_of(due, answer)
            kind = line.split(' ')[0]
            if kind in ('check', 'print', 'judge'):
                told = answer.split(' ')[:1] if kind == 'print' and answer[0] == '=' or answer[0] == '?' else answer.split(' ')[:2]
                if kind == 'check' and told == ['!', '35']:
                    told = answer.split(' ')[:3]
                self.counts[' '.join([kind] + told)] += 1
            if due:  # neither a line that is only echoed nor one that is not modelled
                self.counts['lines'] += 1
            if fault:
                self.differences.append((sum(map(len, lines)), lines, line, answer, fault))


def follow_up(rng, lines, expected, answers):
    """Lines on the lasso that a check answered: its labels judged by the rule, and the lasso printed."""
    check, answer = expected[-2], answers[-2]
    if not isinstance(check, Check) or check.fault_of(answer) or not check.broken:
        return None
    _, _, lead, entries = check.read(answer)
    labels = [str(check.table.labels[state]) for state, _ in entries]
    more = lines[:-2] + ['journey %d %s' % (lead, ' '.join(labels)), 'judge']
    shown = ' '.join('%d,%d' % entry for entry in entries)
    sheet = Sheet()
    due = [sheet.expected(line) for line in more]
    due[-1] = '= false'
    full = sheet.expected('print 1000000 %d %s' % (lead, shown))
    need = int(full.split(' ')[1]) if full[0] == '=' else 0
    for room in (need, max(0, need - 1), need + rng.randint(0, 99)):
        more.append('print %d %d %s' % (room, lead, shown))
    more.append('print %d %d %s' % (need, len(entries), shown))
    more.append('print %d %d %s %d,%d' % (need + 20, lead, shown, rng.randint(0, 9), rng.randint(0, 20)))
    return more, due + [sheet.expected(line) for line in more[len(due):]]


def lengths(cases, all_answers, tally):
    """Lengths of the lassos beside those of the shortest ones, on small dialogues, and rules that hold beside the same search."""
    ours, shortest = [], []
    for (lines, expected), answers in zip(cases, all_answers):
        check = expected[-2]
        if not isinstance(check, Check) or check.table.size() > 10 or check.fault_of(answers[-2]):
            continue
        best = shortest_breaking(check.table, check.rule, TRIES if check.broken else TRIES // 10)
        if best is not None and not check.broken:
            tally.differences.append((0, lines, lines[-2], answers[-2], 'the model says that the rule holds, and %d entries break it' % best))
        if best is not None and check.broken:
            ours.append(len(check.read(answers[-2])[3]))
            shortest.append(best)
            if ours[-1] < best:
                tally.differences.append((0, lines, lines[-2], answers[-2], 'shorter than the shortest, %d' % best))
    return ours, shortest


def own_lines(program, tally):
    """The lines that the crate keeps, answered by the program and by the model."""
    path = os.path.join(os.path.dirname(os.path.abspath(__file__)), '..', '..', 'crates', 'worksheet', 'stdin')
    with open(path, encoding='latin-1', newline='') as file:
        lines = file.read().removesuffix('\n').split('\n')
    sheet = Sheet()
    tally.compare(lines, [sheet.expected(line) for line in lines], run(program, lines))


def main(program, count, seed):
    rng, tally = random.Random(seed), Tally()
    cases = [random_case(rng) for _ in range(count)]
    answers = run_cases(program, cases)
    more = []
    for (lines, expected), got in zip(cases, answers):
        tally.compare(lines, expected, got)
        following = follow_up(rng, lines, expected, got)
        if following:
            more.append(following)
    for (lines, expected), got in zip(more, run_cases(program, more)):
        tally.compare(lines, expected, got)
    ours, shortest = lengths(cases, answers, tally)
    own_lines(program, tally)

    print('%d random cases (seed %d), and the lines of crates/worksheet/stdin' % (count, seed))
    for kind, times in sorted(tally.counts.items()):
        if kind != 'lines':
            print('%8d  %s' % (times, kind))
    checks = [(due, got[-2]) for (_, expected), got in zip(cases, answers) for due in [expected[-2]] if isinstance(due, Check)]
    long = [len(due.read(answer)[3]) for due, answer in checks if answer.startswith('= B')]
    if long:
        print('lassos: %d, mean length %.2f, longest %d' % (len(long), sum(long) / len(long), max(long)))
    if ours:
        print('of these %d with the shortest known: mean length %.2f, of the shortest %.2f; %d are shortest' % (
            len(ours), sum(ours) / len(ours), sum(shortest) / len(shortest), sum(a == b for a, b in zip(ours, shortest))))
    nodes = [(due.read(answer)[1], due.reached) for due, answer in checks if not due.fault_of(answer)]
    if nodes:
        print('nodes marked: mean %.1f, of %.1f that are reached' % tuple(sum(column) / len(nodes) for column in zip(*nodes)))
    for _, lines, line, answer, fault in sorted(tally.differences, key=lambda d: d[0])[:5]:
        print('DIFFERENCE: %s\n  answered %s\n  %s\n  after:' % (line, answer, fault))
        for earlier in lines if len(lines) < 100 else []:
            print('    ' + earlier)
    print('%d answers agree, %d differ' % (tally.counts['lines'] - len(tally.differences), len(tally.differences)))
    return 1 if tally.differences else 0


if __name__ == '__main__':
    sys.exit(main(sys.argv[1], int(sys.argv[2]), int(sys.argv[3])))
