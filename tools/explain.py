#!/usr/bin/env python3
"""explain.py ANSWER WORD..: what is said beside an answer of a program, on standard error.

ANSWER is the program's text or its beginning, WORD.. are the words of the command as help.txt has
them. Where a file was refused, its line is shown with a caret under the place, and what is wrong
there as far as it can be told. The variable COPIED has lines of a copy, a tab and what the file is
called.
"""
import os
import re
import sys

from forms import kinds_of
from show_place import NOT_ASCII, show, show_word


BINARY = 'is in the binary form: base64 -w0 %s writes the one that is read'


class Asked:
    """The words of a command by what they are."""

    def __init__(self, words):
        self.kinds, self.words = kinds_of(words), words
        self.called = dict(line.split('\t', 1) for line in os.environ.get('COPIED', '').splitlines())

    def file(self, kind, number=0):
        """The file of a kind, by number: what it is called, and its text."""
        files = [word for word, its in zip(self.words, self.kinds) if its == kind]
        with open(files[number], 'rb') as file:
            return self.called.get(files[number], files[number]), file.read()

    def name(self, kind, number=0):
        return self.file(kind, number)[0]


def say(name, why):
    if why:
        print('%s: %s' % (name, why))


def is_run(text):
    return b'--' in text.split()


def say_of_contract(asked, number, reason):
    from contract_words import place_in
    name, text = asked.file('CONTRACT', number)
    if is_run(text):
        say(name, 'looks like a run file, which is the first word' +
            (': ./bitml %s RUN CONTRACT' % asked.words[0] if asked.words[0] in ('draw', 'next') and len(asked.words) == 2 else ''))
    if text.startswith(b'\xef\xbb\xbf'):
        say(name, 'begins with the bytes EF BB BF, which some editors write and which are no part of the text')
        return
    place, why = place_in(text, reason)
    if place is not None:
        show(name, text, place, is_public=text.lstrip()[:1] == b'{')
    say(name, None if is_run(text) else why)


def say_of_run(asked, limit, number):
    from run_words import LIMITS, why_line
    name, text = asked.file('RUN')
    if text.lstrip()[:1] == b'{':
        say(name, 'looks like a contract: the run file is the first word')
    elif text.startswith(b'\xef\xbb\xbf'):
        return say(name, 'begins with the bytes EF BB BF, which some editors write and which are no part of the text')
    if limit:
        return say(name, LIMITS[limit])
    at, why = why_line(text, number)
    if at is None:
        show(name, text, len(text))
    else:
        show_word(name, text, number, at)
    say(name, why if text.lstrip()[:1] != b'{' else None)


def say_of_strategy(asked, limit, number):
    from strategy_words import LIMITS, fault
    name, text = asked.file('RULES')
    if limit:
        return say(name, LIMITS[limit])
    at, why = fault(text.split(b'\n')[number - 1].split(), asked.file('RUN')[1])
    show_word(name, text, number, at)
    say(name, why)


def places_of(text):
    """Where the parts of a contract are that isn't refused; its paths are in the order of its text."""
    from contract_places import Places
    return Places(text)


def some(paths):
    return ', '.join(paths[:12]) + (' and %d more' % (len(paths) - 12) if len(paths) > 12 else '')


def say_of_path(asked, path):
    name, text = asked.file('CONTRACT')
    say(name, 'no path %s; what it has: %s' % (path, some(['init', *places_of(text).branches])))


def say_of_rules(asked):
    """Which rules of a strategy are of paths or secrets that the contract hasn't: they never have an event."""
    from strategy_words import absent
    name, rules = asked.file('RULES')
    contract, text = asked.file('CONTRACT')
    places = places_of(text)
    secrets = [name.decode() for _, kind, _, name in places.entries if kind == b'secret']
    for number, what, those in absent(rules, list(places.branches), secrets):
        say('%s:%d' % (name, number), '%s has no %s; what it has: %s' % (contract, what, some(those) or 'none'))
    say_of_lengths(asked)


def say_of_psbt(asked, which, reason):
    if not which:
        return say('bitml', 'the two are of different transactions' if reason == 'other' else
                   'both have a signature by one key on input %s, and they differ' % reason.split()[1])
    name, text = asked.file('FILE', int(which))
    if text.startswith(b'psbt\xff'):
        why = BINARY % name
    elif reason == 'base64' and not text.lstrip().startswith(b'cHNidP'):
        why = 'is no partially signed transaction in Base64: one begins with cHNidP'
    elif len(text.split()) > 1 and all(word.startswith(b'cHNidP') for word in text.split()):
        why = 'has several of them; here one is read, and ./bitml deal takes a file with one in each line'
    elif re.search(rb'\s', text.removesuffix(b'\n')):
        why = "has line breaks or blanks: tr -d ' \\r\\n' <%s writes it without" % name
    else:
        why = {'size': 'has more than 8,388,608 bytes', 'base64': 'is no Base64 with padding, or not all of it',
               'form': 'is no partially signed transaction that can be read here (BIP 174)'}[reason]
    say(name, why)


# The words of the files of a deal, by what their refusals begin with.
DEAL_FILES = {'deal': 'DEAL', 'chain': 'CHAIN', 'signatures': 'FILE', 'secrets': 'SECRETS'}


def say_of_deal(asked, kind, line, reason, other):
    """Shows the line at which a file of a deal was refused, with a caret under the word."""
    import deal_words
    name, text = asked.file(DEAL_FILES[kind])
    bare, below = [*text.split(b'\n'), b''][line - 1:line + 1]
    words = bare.split()
    if kind == 'signatures' and text.startswith(b'psbt\xff'):
        return say(name, BINARY % name)
    if kind == 'signatures':
        at, why = 0, deal_words.why_signatures_line(bare, reason, other, below)
    elif kind == 'deal':
        at, why = deal_words.why_deal_line(words, reason, other, deal_words.network_of(text))
    elif kind == 'chain':
        at, why = deal_words.why_chain_line(words, reason, other)
    else:
        at, why = deal_words.why_secrets_line(words, reason, other)
    show_word(name, text, line, at, is_public=bare.startswith(b'cHNidP') or words[:1] in ([b'tx'], [b'height']))
    word = words[at] if at < len(words) else b''
    say(name, NOT_ASCII % word.decode('utf-8', 'replace')[:40] if any(byte >= 128 for byte in word) else why)


def say_of_whole_deal(asked, kind, reason, rest):
    import deal_words
    name = asked.name(DEAL_FILES[kind])
    if reason == 'size':
        say(name, 'has more than %s bytes' % deal_words.SIZES[kind])
    elif reason == 'missing':
        say(name, deal_words.why_missing(rest, asked.file('CONTRACT')[1], asked.file(DEAL_FILES[kind])[1]))
    else:
        say(name, deal_words.why_circular(rest, asked.file(DEAL_FILES[kind])[1]))


def say_of_refused(_, kind, rest):
    """Why a transaction of a deal isn't finished."""
    from deal_words import why_not_finished
    say('bitml', why_not_finished(kind, rest.split()))


def say_of_lengths(asked):
    """Which secrets of a header can't be committed, by their lengths."""
    name, text = asked.file('RUN')
    for number, line in enumerate(text.split(b'\n'), 1):
        words = line.split()
        if words == [b'--']:
            return
        if len(words) == 4 and words[0] == b'secret' and not 32 <= len(words[3]) <= 1040:
            say('%s:%d' % (name, number), 'secret %s has %d bytes, and what is committed has 16 to 520' % (words[2].decode(), len(words[3]) // 2))


# What is said to answers, by how they begin.
ANSWERS = (
    (r'contract (\d+) refused (.*)', lambda asked, number, reason: say_of_contract(asked, int(number), reason)),
    (r'contract 0 no path (\S+)', say_of_path),
    (r'run refused (?:limit (\w+) )?line (\d+)', lambda asked, limit, number: say_of_run(asked, limit, int(number))),
    (r'strategy refused (?:limit (\w+)|line (\d+))', lambda asked, limit, number: say_of_strategy(asked, limit, int(number or 0))),
    (r'psbt refused (?:(\d) )?(.*)', say_of_psbt),
    (r'audit refused', lambda asked: say(asked.name('FILE'), 'has more than 8,388,608 bytes')),
    (r'(deal|chain|signatures|secrets) refused line (\d+) (\w+)(?: (\d+))?',
     lambda asked, kind, line, reason, other: say_of_deal(asked, kind, int(line), reason, other)),
    (r'(deal|chain|signatures|secrets) refused (\w+) ?(.*)', say_of_whole_deal),
    (r'refused path (\S+)', say_of_path),
    (r'refused (\w+) ?(.*)', say_of_refused),
    (r'rules', say_of_rules),
    (r'lengths', say_of_lengths),
)


def main():
    answer, *words = sys.argv[1:]
    asked = Asked(words)
    for pattern, said in ANSWERS:
        match = re.match(pattern, answer)
        if match:
            return said(asked, *match.groups())


if __name__ == '__main__':
    sys.setrecursionlimit(10_000)
    try:
        main()
    except (OSError, ValueError, IndexError, KeyError, TypeError, AttributeError):
        # What can't be shown is left out: the program has answered.
        pass
