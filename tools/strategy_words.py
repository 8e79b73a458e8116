"""The word of a strategy's rule that is wrong, and why."""
import re

from show_place import NOT_ASCII

NUMBER = rb'0|[1-9]\d*'
PATH = rb'r([.](0|[1-9]\d*)|/(0|[1-9]\d*))*'
# What comes behind a verb.
RULES = {b'commit': (), b'endorse': (), b'init': (), b'authorise': (PATH,), b'reveal': (rb'[A-Za-z]\w*',), b'fire': (rb'init|' + PATH,)}
LIMITS = {'Size': 'a strategy has at most 1,048,576 bytes', 'Events': 'a strategy has at most 256 rules, and run and rules together 10,000 events'}


def fault(words, run):
    """The number of the word at fault in a rule, of as many as there are where one is missing, and why."""
    header = [line.split() for line in run.split(b'\n')]
    for number, word in enumerate(words):
        if word[:1] == b'#':
            return number, 'a strategy has no comments'
        if any(byte >= 128 for byte in word):
            return number, NOT_ASCII % word.decode('utf-8', 'replace')
    if [b'honest', words[0]] not in header:
        party = words[0].decode('utf-8', 'replace')
        return 0, '%s is not declared honest in the run file' % party if [b'party', words[0]] in header else 'no party %s' % party
    if len(words) == 1:
        return 1, 'a word is missing'
    if words[1] not in RULES:
        return 1, 'a rule is of commit, endorse, init, authorise, reveal or fire'
    shapes = (NUMBER, *RULES[words[1]])
    for number, (word, shape) in enumerate(zip(words[2:], shapes), 2):
        if not re.fullmatch(shape, word):
            return number, {2: "the contract's number, 0, is wanted here"}.get(number, 'a path is wanted here, as r.0' if PATH in shape else 'a name is wanted here')
    if len(words) < 2 + len(shapes):
        return len(words), 'a word is missing'
    return (2 + len(shapes), 'the line has a word too many') if len(words) > 2 + len(shapes) else (2, 'the contract of the command is 0')


def absent(rules, paths, secrets):
    """Each rule of a path or a secret that the contract hasn't: its line, what it is of, and what there is."""
    for number, line in enumerate(rules.split(b'\n'), 1):
        words = line.split()
        if len(words) != 4 or words[1:] == [b'fire', b'0', b'init']:
            continue
        kind, those = ('secret', secrets) if words[1] == b'reveal' else ('path', paths)
        name = words[3].decode('ascii', 'replace')
        if name not in those:
            yield number, '%s %s' % (kind, name), those
