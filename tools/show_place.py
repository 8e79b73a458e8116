"""Shows a line of a file with a caret under a place."""
import re
import unicodedata

# The verbs of run files and deal files whose words everybody may see, and those of lines that hold a secret.
PUBLIC = 'party honest deposit advertise commit endorse init authorise reveal sign append give fire mine key hash network pay'.split()
SECRET = 'secret post'.split()
WIDTH = 100
# What is said of a word that has other letters.
NOT_ASCII = '%s is not ASCII: names have the letters A to Z and a to z, digits and _'


def masked(text):
    """A line without what may be a secret: long words in a line of secrets, and elsewhere those that look like hexadecimal. One of digits
    alone that is no longer than a number may be is a number."""
    verb = text.split()[:1]
    if verb and verb[0] in PUBLIC:
        return text
    long = '[0-9A-Za-z]{16,}' if verb and verb[0] in SECRET else r'(?<![0-9A-Za-z])(?!\d{1,30}(?![0-9A-Za-z]))(?=[A-Za-z]*\d)[0-9A-Za-z]{16,}'
    return re.sub(long, lambda match: '.' * len(match.group()), text)


def width(letter):
    """How many columns a letter takes where it is shown."""
    return 0 if unicodedata.combining(letter) else 2 if unicodedata.east_asian_width(letter) in 'WF' else 1


def letters(text):
    """Bytes as letters that can be shown, a byte that is part of none as `?`."""
    shown = text.decode('utf-8', 'surrogateescape').replace('\t', ' ')
    return ''.join(letter if letter.isprintable() else '?' for letter in shown)


def show(file, text, place, is_public=False):
    """Prints the line of a place, counted in bytes, and a caret under it. Only where a file is public all of the line is shown."""
    place = min(place, len(text))
    begin = text.rfind(b'\n', 0, place) + 1
    if begin == len(text) > 0:
        # The end of a text with a line feed is shown behind its last line.
        begin = text.rfind(b'\n', 0, len(text) - 1) + 1
    line = text[begin:].split(b'\n')[0].rstrip(b'\r')
    at = len(letters(line[:place - begin]))
    line = letters(line) if is_public else masked(letters(line))
    at = min(at, len(line))
    left = max(0, at - WIDTH // 2)
    head = '%s:%d: %s' % (file, text.count(b'\n', 0, begin) + 1, '... ' if left else '')
    print(head + line[left:left + WIDTH] + (' ...' if left + WIDTH < len(line) else ''))
    print(' ' * (len(head) + sum(map(width, line[left:at]))) + '^')


def show_word(file, text, number, at, is_public=False):
    """Prints a line, counted from 1, with the caret under a word of it, or behind it where it has no such word."""
    lines = text.split(b'\n')
    before = sum(len(line) + 1 for line in lines[:number - 1])
    line = lines[number - 1].rstrip()
    places = [match.start() for match in re.finditer(rb'[^ \t\r]+', line)]
    show(file, text, before + (places[at] if at < len(places) else len(line)), is_public)
