"""Where a contract was refused, and why, in words."""
import re

from contract_places import TOKEN, Places
from show_place import NOT_ASCII

# The limits whose place is a byte; those of whole positions; the others tell a number.
AT_A_BYTE = {
    'Name': 'a name has at most 32 bytes',
    'Depth': 'more than 64 branches, or predicates and expressions, within one another',
    'Branches': 'more than 512 branches in the contract',
    'Choice': 'more than 32 branches in one choice',
    'Split': 'more than 64 parts in one split',
    'Deposits': 'more than 32 deposits',
    'Secrets': 'more than 32 secrets',
}
NUMBERS = {
    'height': 'heights are below 500,000,000: no dates',
    'amount': 'amounts are in satoshi, at most 2,100,000,000,000,000',
    'constant': 'constants are at most 2,147,483,647',
}
# What is said of the name at a fault.
NAMES = {
    'NameRepeated': '%s is in an earlier entry too',
    'UnknownDeposit': 'no entry has a deposit ? .. @ %s',
    'UnknownSecret': 'no entry has a secret %s',
    'PrefixRepeated': '%s is named twice',
    'PredicateSecret': '%s is no secret of this reveal',
}
KEYWORDS = 'put reveal if withdraw split after secret true and not fee Outside'.split()
# How the parts of the grammar are called.
NAME, NUMBER, END = 'a name', 'a number', 'the end of the text'


class Ended(Exception):
    """The tokens end within the grammar."""


class Grammar:
    """Goes by the grammar along tokens that begin a contract, and knows in `wanted` what may come next. `party` is a name that was
    taken for a party's, since it is no keyword, as long as nothing is behind it."""

    def __init__(self, text):
        self.tokens = [match.group().decode('ascii', 'replace') for match in TOKEN.finditer(text)]
        self.at, self.wanted, self.party = 0, [], None
        try:
            self.advert()
        except Ended:
            pass

    def take(self, part):
        """Whether the next token is of a part of the grammar. It is taken then."""
        if self.at == len(self.tokens):
            self.wanted.append(part)
            return False
        word = self.tokens[self.at]
        if part == NAME:
            fits = word[0].isalpha() and word not in KEYWORDS
        elif part == NUMBER:
            fits = word[0].isdigit()
        else:
            fits = word == part
        self.at += fits
        return fits

    def need(self, *parts):
        if not any(self.take(part) for part in parts):
            raise Ended

    def advert(self):
        self.need('{')
        self.entry()
        while self.take('|'):
            self.entry()
        self.need('}')
        if self.take('fee'):
            self.need(NUMBER)
        self.choice()
        self.take(END)

    def entry(self):
        for part in (NAME, ':'):
            self.need(part)
        if self.take('!') or self.take('?'):
            for part in (NUMBER, '@', NAME):
                self.need(part)
        else:
            self.need('secret')
            self.need(NAME)

    def choice(self):
        if not self.take('('):
            return self.branch()
        self.branch()
        while self.take('+'):
            self.branch()
        self.need(')')

    def branch(self):
        if self.take('after'):
            self.need(NUMBER)
            self.need(':')
            self.branch()
        elif self.take('put'):
            self.names()
            if self.take('&'):
                self.need('reveal')
                self.revealed()
            self.need('.')
            self.choice()
        elif self.take('reveal'):
            self.revealed()
            self.need('.')
            self.choice()
        elif self.take('withdraw'):
            self.need(NAME)
        elif self.take('split'):
            self.need('[')
            self.part()
            while self.take(','):
                self.part()
            self.need(']')
        else:
            self.need(NAME)
            self.party = self.tokens[self.at - 1]
            self.need(':')
            self.party = None
            self.branch()

    def names(self):
        self.need(NAME)
        while self.take(','):
            self.need(NAME)

    def revealed(self):
        self.names()
        if self.take('if'):
            self.predicate()

    def part(self):
        self.need(NUMBER)
        self.need('->')
        self.choice()

    def predicate(self):
        if self.take('true'):
            return
        if self.take('not'):
            self.predicate()
        elif self.take('['):
            self.predicate()
            self.need('and')
            self.predicate()
            self.need(']')
        else:
            self.expression()
            self.need('=', '<')
            self.expression()

    def expression(self):
        if self.take(NUMBER):
            return
        if self.take('|'):
            self.need(NAME)
            self.need('|')
        else:
            self.need('(')
            self.expression()
            self.need('+', '-')
            self.expression()
            self.need(')')


def listed(parts):
    """The parts of the grammar in words: `put`, `reveal` or a name."""
    words = [part if part in (NAME, NUMBER, END) else '`%s`' % part for part in parts]
    return words[0] if len(words) == 1 else ', '.join(words[:-1]) + ' or ' + words[-1]


def letter_at(text, place):
    return text[place:place + 4].decode('utf-8', 'ignore')[:1] or '?'


def why_no_token(text, place):
    """Why no word begins at a byte."""
    letter = letter_at(text, place)
    if text[place] == ord('#') or text[place:place + 2] == b'//':
        return 'a contract has no comments: leave out the rest of the line'
    if text[place] >= 128:
        return NOT_ASCII % letter
    return '%s begins no word of a contract' % (letter if letter.isprintable() else 'the byte %d' % text[place])


def why_no_contract(text, place):
    """Why the token at a byte can't be there."""
    grammar = Grammar(text[:place])
    token = TOKEN.match(text, place)
    word = token.group().decode('ascii', 'replace') if token else None
    if word and word[0].isdigit() and text[place - 1:place] == b'0':
        return 'a number has no 0 before its first digit'
    if grammar.wanted == ['@'] and re.match(rb'\d[.,]\d', text[place - 1:place + 2]):
        return 'an amount is digits alone, in whole satoshi'
    for written in (grammar.party, word):
        if written and written.lower() in KEYWORDS and written not in KEYWORDS:
            return '`%s` has small letters: %s' % (written, written.lower())
    if grammar.party:
        return '`%s` is no keyword (after, put, reveal, split, withdraw), and as a party it has `:` behind it' % grammar.party
    if word in KEYWORDS and NAME in grammar.wanted and word not in grammar.wanted:
        return '`%s` is a keyword and no name' % word if grammar.wanted == [NAME] else '%s is wanted here' % listed(grammar.wanted)
    return '%s is wanted here' % listed(grammar.wanted) if grammar.wanted else None


def why_too_large(text, place):
    """Which limit a number exceeds, by what is before it."""
    before = TOKEN.findall(text[:place])
    if before[-1:] == [b'after']:
        return NUMBERS['height']
    part = before[-1] if before else b''
    return NUMBERS['amount' if part in (b'!', b'?', b'fee', b'[', b',') and b'if' not in since_branch(before) else 'constant']


def since_branch(tokens):
    """The tokens from the last one on that ends a prefix or begins a branch."""
    for number in range(len(tokens) - 1, -1, -1):
        if tokens[number] in (b'.', b'split', b'put', b'reveal', b'withdraw', b'}'):
            return tokens[number:]
    return tokens


def why_fault(places, name, where):
    """A fault in words, with its place."""
    if name in NAMES:
        word, at = places.named(name, where)
        return at, NAMES[name] % word.decode()
    if name == 'NoPersistent':
        return places.party(where), '%s takes part and has no persistent deposit; `%s:! 0 @ NAME` is enough' % (where, where)
    if name == 'SplitSum':
        return places.branches[where], 'the parts and the fee sum to %d, the balance is %d' % places.splits[where]
    # A path is also the position behind its branch. There what is left may be less than nothing.
    balance = places.balances.get(where, 0)
    if balance < 0:
        return places.positions[where], 'the fee is %d, and %d is there for it' % (places.fee, balance + places.fee)
    balance = places.balances[re.sub(r'[.]\d+$', '', where)]
    return places.branches[where], 'a withdrawal leaves the fee of %d, and the balance is %d' % (places.fee, balance)


def why_limit(places, name, where):
    """A limit of a whole contract in words, with its place."""
    if name == 'Participants':
        return None, '%s participants, and at most 16 may take part' % where
    if name == 'Balance':
        said = 'the balance is %d, and at most 2,100,000,000,000,000 satoshi' % places.balances[where]
        return places.positions[where], said
    if name == 'Expression':
        return places.branches[where], 'a sum here may exceed 2,147,483,647: a length counts as 520, and - as +'
    return places.positions[where], 'the script of this choice has more than 10,000 bytes or 201 operations'


def place_in(text, reason):
    """The byte that a refusal of a contract names, and what is to be said of it; None where there is none."""
    kind, *rest = reason.split(' ')
    if kind == 'byte':
        return int(rest[0]), why_no_token(text, int(rest[0]))
    if kind == 'syntax':
        return int(rest[0]), why_no_contract(text, int(rest[0]))
    if kind == 'limit' and rest[0] == 'Text':
        return None, 'a contract has at most 1,048,576 bytes'
    if kind == 'limit' and rest[0] == 'Number':
        return int(rest[1]), why_too_large(text, int(rest[1]))
    if kind == 'limit' and rest[0] in AT_A_BYTE:
        return int(rest[1]), AT_A_BYTE[rest[0]]
    if kind == 'limit':
        return why_limit(Places(text), rest[0], rest[1])
    return why_fault(Places(text), rest[1], rest[-1])
