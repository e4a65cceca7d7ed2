"""What worksheet must answer to each line, as far as checks need it. Written from docs/SPEC.md, section 16."""
import re

from model import (EVENTS, Table, bar_table, breaks, fault_of_lasso, file_table, free_table, operators, pair_table, reached_nodes, read_rule,
                   truth, write_rule)

SERVED = 262144  # nodes


class Misread(Exception):
    """The line is not understood."""


class Refused(Exception):
    """cause, place, layer"""


def number(word):
    if not re.fullmatch('[0-9]+', word) or int(word) >= 2 ** 64:
        raise Misread
    return int(word)


def label_of(word):
    if re.fullmatch('[a-p]+', word):
        return sum(1 << (ord(letter) - ord('a')) for letter in set(word))
    if word != '-' and number(word) >= 65536:
        raise Misread
    return 0 if word == '-' else number(word)


def bytes_of(word):
    if not re.fullmatch('([0-9a-fA-F]{2})+|-', word):
        raise Misread
    return b'' if word == '-' else bytes.fromhex(word)


def event_of(names, word):
    return names.index(word) if names and word in names else number(word)


def check_that(good, *refusal):
    if not good:
        raise Refused(*refusal)


class Check:
    """A check that is not refused: its verdict is settled; the lasso and the nodes that are marked are the program's choice."""

    def __init__(self, table, rule):
        self.table, self.rule, self.d = table, rule, 1 + operators(rule)
        self.broken = breaks(table, rule)
        self.reached = reached_nodes(table, rule)

    def read(self, answer):
        """Verdict, node count, lead-in and entries of an answer line."""
        if re.fullmatch('= H [0-9]+', answer):
            return 'H', int(answer[4:]), 0, []
        if not re.fullmatch('= B [0-9]+ [0-9]+ [0-9]+( [0-9]+,[0-9]+)+', answer):
            raise ValueError('no answer of a check')
        words = answer.split(' ')
        lead, count, nodes = map(int, words[2:5])
        entries = [tuple(map(int, word.split(','))) for word in words[5:]]
        if count != len(entries):
            raise ValueError('another number of entries than it says')
        return 'B', nodes, lead, entries

    def fault_of(self, answer):
        """What is wrong with an answer; nothing where it is right."""
        try:
            verdict, nodes, lead, entries = self.read(answer)
        except ValueError as error:
            return str(error)
        every = self.table.size() * 2 ** self.d
        if verdict != ('B' if self.broken else 'H'):
            return 'the other verdict is right'
        if not 1 <= nodes <= min(every, self.reached):
            return 'the node count is not between 1 and %d' % min(every, self.reached)
        if verdict == 'H':
            return ''
        if len(entries) > (self.d + 1) * every:
            return 'too many entries'
        return fault_of_lasso(self.table, self.rule, lead, entries)


class Sheet:
    """What worksheet keeps, and what it must answer. `expected` gives the whole answer line, or its first sign alone where no more than
    that is modelled, or '' for a line that is only echoed, or None for a line that is not modelled at all, or a Check."""

    def __init__(self):
        self.drawing, self.rule, self.journey, self.table = Table(16, EVENTS), None, None, None

    def expected(self, line):
        if not line or line[0] == '#':
            return ''
        command, _, rest = line.partition(' ')
        words = [word for word in rest.split(' ') if word]
        try:
            if command == 'rule':
                return self.read(rest)
            if command == 'rule-hex':
                return self.read(bytes_of(rest).decode('latin-1'))
            if command == 'journey-hex':
                return self.keep_hex(*words)
            if command == 'journey':
                return self.keep(*words)
            if command in 'judge new wipe add relabel join cut take dialogue check print'.split():
                return getattr(self, command)(*words)
            return None
        except Refused as refusal:
            return '! %d %d %d' % refusal.args
        except (Misread, TypeError):  # TypeError: too few words, or too many
            return '?'

    def read(self, text):
        try:
            self.rule = read_rule(text)
        except ValueError:
            return '!'
        return '= ' + write_rule(self.rule)

    def keep(self, lead, *labels):
        self.journey = ([label_of(word) for word in labels], number(lead))
        return '= %d %d' % (len(labels), self.journey[1])

    def keep_hex(self, lead, word):
        data = bytes_of(word)
        return self.keep(lead, *(str(data[i] + 256 * data[i + 1]) for i in range(0, len(data) - 1, 2)))

    def judge(self, room=None):
        if self.rule is None or self.journey is None:
            raise Misread
        labels, lead = self.journey
        n = len(labels)
        room = 128 * n if room is None else number(room)
        check_that(lead < n <= 4096, 20, min(n, 65535), 4)
        check_that(room >= 128 * n, 35, 1, 4)
        return '= true' if truth(self.rule, labels, lead)[0] else '= false'

    def new(self):
        self.drawing = Table(16, EVENTS)
        return '= done'

    wipe = new

    def copy_of_drawing(self):
        return bar_table(None, self.drawing)

    def add(self, label, mark):
        label, mark, n = label_of(label), number(mark), self.drawing.size()
        check_that(mark <= 1, 19, 2, 3)
        check_that(n < 64, 31, 64, 3)
        self.drawing.add(label, mark)
        return '= %d' % n

    def relabel(self, state, label, mark):
        state, label, mark = number(state), label_of(label), number(mark)
        check_that(state < self.drawing.size(), 19, 1, 3)
        check_that(mark <= 1, 19, 3, 3)
        self.drawing.labels[state], self.drawing.starts[state] = label, bool(mark)
        return '= done'

    def join(self, source, event, target):
        source, event, target = number(source), event_of(EVENTS, event), number(target)
        check_that(source < self.drawing.size(), 19, 1, 3)
        check_that(event < 16, 19, 2, 3)
        check_that(target < self.drawing.size(), 19, 3, 3)
        check_that(event not in self.drawing.next[source], 32, source, 3)
        self.drawing.next[source][event] = target
        return '= done'

    def cut(self, source, event):
        source, event = number(source), event_of(EVENTS, event)
        check_that(source < self.drawing.size(), 19, 1, 3)
        check_that(event < 16, 19, 2, 3)
        check_that(event in self.drawing.next[source], 33, source, 3)
        del self.drawing.next[source][event]
        return '= done'

    def take(self, word):
        table = file_table(bytes_of(word))
        if table is None:
            return '!'
        check_that(table.size() <= 64 and table.events == 16, 31, table.size(), 3)
        table.names = EVENTS
        self.drawing = table
        return '= done'

    def dialogue(self, *words):
        words = list(words)
        table = self.read_dialogue(words, 1000)
        if words:
            raise Misread
        self.table = table
        return '= %d %d' % (table.size(), table.events)

    def read_dialogue(self, words, depth):
        if not words or depth < 0:
            raise Misread
        kind = words.pop(0)
        if kind == 'drawing':
            return self.copy_of_drawing()
        if kind == 'pair':
            left = self.read_dialogue(words, depth - 1)
            return pair_table(left, self.read_dialogue(words, depth - 1))
        if kind not in ('file', 'free', 'bar') or not words:
            raise Misread
        word = words.pop(0)
        if kind == 'file':
            return file_table(bytes_of(word)) or Table()
        if kind == 'free':
            return free_table(number(word))
        below = self.read_dialogue(words, depth - 1)
        return bar_table(event_of(below.names, word), below)

    def check(self, *rooms):
        if self.rule is None or self.table is None or len(rooms) not in (0, 5):
            raise Misread
        rooms = [number(room) for room in rooms]
        d = 1 + operators(self.rule)
        nodes = self.table.size() * 2 ** d
        check_that(nodes <= SERVED, 34, d, 4)
        for place, (room, need) in enumerate(zip(rooms, [nodes] * 4 + [(d + 1) * nodes])):
            check_that(room >= need, 35, place + 1, 4)
        check_that(any(self.table.starts), 36, 0, 4)
        return Check(self.table, self.rule)

    def print(self, room, lead, *words):
        table = self.table
        if table is None or table.names is None:
            raise Misread
        room, lead, entries = number(room), number(lead), []
        for word in words:
            state, comma, event = word.partition(',')
            if not comma:
                raise Misread
            entries.append((number(state), event_of(table.names, event)))
        check_that(lead < len(entries), 20, min(len(entries), 65535), 4)
        for place, (state, event) in enumerate(entries):
            check_that(state < table.size() and event < table.events, 19, place, 4)
        data = b'B %d %d\n' % (lead, len(entries) - lead)
        data += b''.join(b'%d %s\n' % (state, table.names[event].encode()) for state, event in entries)
        check_that(room >= len(data), 35, 1, 4)
        return '= %d %s' % (len(data), data.hex())


def fault_of(expected, answer):
    """What is wrong with an answer line, given what `Sheet.expected` gave for its line; nothing where it is right."""
    if expected is None:
        return ''
    if isinstance(expected, Check):
        return expected.fault_of(answer)
    right = answer[:1] == expected if len(expected) == 1 else answer == expected
    return '' if right else 'expected ' + expected
