"""Where the parts of a contract text are, for what is shown of a refusal. The text keeps the grammar."""
import re

TOKEN = re.compile(rb'[A-Za-z][A-Za-z0-9_]*|[0-9]+|->|[^ \t\r\n]')


class Places:
    """Where each entry, position and branch begins, the names that each branch has, and the sum and the balance of each split."""

    def __init__(self, text):
        self.tokens = [(m.group(), m.start()) for m in TOKEN.finditer(text)]
        self.at, self.branches, self.positions = 0, {}, {}
        # each entry's place, its kind (`!`, `?` or `secret`), its value and its name
        self.entries = []
        # by path: the names behind `put` and `reveal` and in lengths, with their places
        self.names = {}
        # by path: what the parts of a split and the fee sum to, and the balance that they divide
        self.splits = {}
        # by position: the static balance
        self.balances = {}
        self.fee = 0
        self.skip()
        while self.word() != b'}':
            self.entry()
        self.skip()
        if self.word() == b'fee':
            self.fee = int(self.word(1))
            self.skip(2)
        self.choice('r', sum(value for _, kind, value, _ in self.entries if kind == b'!') - self.fee)

    def word(self, ahead=0):
        return self.tokens[self.at + ahead][0] if self.at + ahead < len(self.tokens) else b''

    def here(self):
        return self.tokens[self.at][1]

    def skip(self, count=1):
        self.at += count

    def entry(self):
        begin, kind, number, name = self.here(), self.word(2), self.word(3), b''
        while self.word() not in (b'|', b'}'):
            name = self.word()
            self.skip()
        self.entries.append((begin, kind, int(number) if kind in (b'!', b'?') else 0, name))
        if self.word() == b'|':
            self.skip()

    def choice(self, position, balance):
        self.positions[position], self.balances[position] = self.here(), balance
        if self.word() != b'(':
            return self.branch(position + '.0', balance)
        number = 0
        while self.word() in (b'(', b'+'):
            self.skip()
            self.branch('%s.%d' % (position, number), balance)
            number += 1
        self.skip()

    def branch(self, path, balance):
        self.branches[path] = self.here()
        while self.word() == b'after' or self.word(1) == b':':
            self.skip(3 if self.word() == b'after' else 2)
        if self.word() == b'withdraw':
            self.skip(2)
        elif self.word() == b'split':
            self.split(path, balance)
        else:
            self.put(path, balance)

    def split(self, path, balance):
        number, total = 0, self.fee
        while self.word() in (b'split', b','):
            value = int(self.word(2 if self.word() == b'split' else 1))
            self.skip(4 if self.word() == b'split' else 3)
            total += value
            self.choice('%s/%d' % (path, number), value)
            number += 1
        self.skip()
        self.splits[path] = total, balance

    def put(self, path, balance):
        names = self.names[path] = {b'put': [], b'reveal': [], b'if': []}
        part = b''
        while self.word() != b'.':
            word = self.word()
            if word in names:
                part = word
            elif word[:1].isalpha() and (part != b'if' or self.tokens[self.at - 1][0] == self.word(1) == b'|'):
                names[part].append((word, self.here()))
            self.skip()
        self.skip()
        added = {name: value for _, kind, value, name in self.entries if kind == b'?'}
        self.choice(path, balance + sum(added.get(name, 0) for name, _ in names[b'put']) - self.fee)

    def party(self, name):
        return next((at for word, at in self.tokens if word == name.encode()), None)

    def named(self, fault, path):
        """The name for which a branch, or an entry, is refused, with its place."""
        if fault == 'NameRepeated':
            at, _, _, name = self.entries[int(path)]
            return name, at
        names = self.names[path]
        known = {kind: [name for _, its, _, name in self.entries if its == kind] for kind in (b'?', b'secret')}
        if fault == 'UnknownDeposit':
            return next(it for it in names[b'put'] if it[0] not in known[b'?'])
        if fault == 'UnknownSecret':
            return next(it for it in names[b'reveal'] if it[0] not in known[b'secret'])
        if fault == 'PredicateSecret':
            return next(it for it in names[b'if'] if it[0] not in [name for name, _ in names[b'reveal']])
        for part in (names[b'put'], names[b'reveal']):
            for number, it in enumerate(part):
                if it[0] in [name for name, _ in part[:number]]:
                    return it
        return None
