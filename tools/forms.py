"""What each word of a command is, by the list of all commands, help.txt: `RUN`, `CONTRACT`, `FILE` and so on, or the word itself."""
import os
import re

LIST = os.path.join(os.path.dirname(os.path.abspath(__file__)), 'help.txt')


def forms():
    """The forms of all commands, each a list of words."""
    with open(LIST) as it:
        return [line[2:].split('  ')[0].split() for line in it if re.match('  [a-z-]', line)]


def kinds_by(form, words):
    """What each word is by a form, or None where the words aren't of it."""
    kinds, last = [], None
    for part in form:
        if len(kinds) == len(words):
            return kinds if part[0] in '[.' else None
        if part.startswith('..'):
            kinds += [last] * (len(words) - len(kinds))
            continue
        last = part.strip('[]')
        word = words[len(kinds)]
        if last == 'WHICH' and not re.match(r'init$|r([./]\d+)*$', word) or last.islower() and last != word:
            return None
        kinds.append(last)
    return kinds if len(kinds) == len(words) else None


def kinds_of(words):
    """What each word of a command is; nothing where the words are none."""
    return next((kinds for kinds in (kinds_by(form, words) for form in forms()) if kinds), [])
