"""The word of a bad line of a run file at which it is likely wrong, where the words stop to have their shapes, and why."""
import re

from show_place import NOT_ASCII

# What a word may be: a verb's other words, of which the last shape goes on as often as it fits.
PARTY, NUMBER, OUTPUT, HEX, DIGEST = 'party', rb'0|[1-9]\d*', rb'#(0|[1-9]\d*)', rb'([0-9A-Fa-f]{2})+', rb'[0-9A-Fa-f]{64}'
START = rb'init|%s' % OUTPUT
KEYWORD = rb'(put|reveal|if|withdraw|split|after|secret|true|and|not|fee|Outside)\b'
NAME, LABEL = rb'(?!%s)[A-Za-z]\w{0,31}' % KEYWORD, rb'[DB]:.*'
HEADER = {b'party': (NAME,), b'honest': (PARTY,), b'secret': (PARTY, NAME, HEX), b'deposit': (PARTY, NUMBER)}
EVENTS = {
    b'advertise': (NUMBER, NAME + rb'=(%s)' % OUTPUT), b'commit': (NUMBER, PARTY, NAME + rb'=(%s)' % DIGEST),
    b'endorse': (NUMBER, PARTY), b'init': (NUMBER, PARTY), b'authorise': (PARTY, OUTPUT, NUMBER),
    b'reveal': (NUMBER, PARTY, NAME), b'post': (HEX,), b'sign': (PARTY, LABEL, DIGEST), b'append': (HEX,),
    b'give': (PARTY, rb'->|%s|%s' % (OUTPUT, NAME)), b'fire': (START, NUMBER), b'mine': (rb'[1-9]\d*',),
}
SHAPES = {**HEADER, **EVENTS}
# Those whose last word may come any number of times, and so not at all.
LISTS = (b'advertise', b'commit', b'give')
LIMITS = {
    'Size': 'a run file has at most 8,388,608 bytes',
    'Line': 'a line has at most 1,048,576 bytes',
    'Events': 'a run has at most 10,000 events',
    'Parties': 'a run has at most 64 parties',
    'Deposits': 'a header has at most 1,000 deposits',
    'Secrets': 'a header has at most 1,000 secrets',
}
# What a shape is called where another word is in its place.
CALLED = {
    NUMBER: 'a number is wanted here, as 0 or 12', OUTPUT: 'an output is wanted here, as #3', b'[1-9]\\d*': 'a number from 1 on is wanted here',
    START: 'init or an output is wanted here, as #3, and then the number of the branch',
    LABEL: "a key's label is wanted here, as D:A or B:0:r.1:A", DIGEST: 'a digest is wanted here: 64 hexadecimal digits',
}


def listed(verbs):
    words = [verb.decode() for verb in verbs]
    return ', '.join(words[:-1]) + ' and ' + words[-1]


def written(word):
    """A word as it is shown in a sentence."""
    return word.decode('utf-8', 'replace')[:40]


def why_not(word, shape):
    """Why a word hasn't the shape that its place asks for."""
    if word[:1] == b'#' and shape not in (OUTPUT,) and not re.match(rb'#\d', word):
        return 'a run file has no comments: leave out the rest of the line'
    if any(byte >= 128 for byte in word):
        return NOT_ASCII % written(word)
    if shape == HEX and word == b'HEX':
        return "HEX stands for the secret's bytes: 16 to 520 of them, two hexadecimal digits each"
    if shape in (HEX, DIGEST) and re.fullmatch(rb'0[xX][0-9A-Fa-f]*', word):
        return 'hexadecimal digits are written without 0x here'
    if shape == HEX and re.fullmatch(rb'[0-9A-Fa-f]+', word):
        return 'an odd number of hexadecimal digits'
    if shape == HEX:
        return 'hexadecimal digits are wanted here, two for each byte'
    if shape == NAME or shape not in CALLED and re.match(rb'\w+$', word) and shape in (NAME,):
        return '%s is a keyword and no name' % written(word) if re.fullmatch(KEYWORD, word) else 'a name is wanted here: a letter, then up to 31 letters, digits and _'
    if shape not in (LABEL, DIGEST) and re.fullmatch(rb'#?0\d+', word):
        return 'a number has no 0 before its first digit'
    if shape in CALLED:
        return CALLED[shape]
    if b'=' in shape:
        return 'NAME=#3 is wanted here' if b'#' in shape else 'NAME=DIGEST is wanted here, 64 hexadecimal digits'
    return None


def why_no_verb(verb, in_events):
    """Why no line begins with a word."""
    if verb[:1] == b'#' or verb[:2] == b'//':
        return 'a run file has no comments'
    if verb in EVENTS and not in_events:
        return '%s is an event: the line -- that ends the header comes before it' % written(verb)
    if verb in HEADER and in_events:
        return '%s belongs into the header, before the line --' % written(verb)
    if verb.lower() in SHAPES:
        return 'verbs have small letters: %s' % written(verb.lower())
    if verb == b'--':
        return 'the header has ended before'
    return '%s begins no line here; what does: %s' % (written(verb), listed(EVENTS if in_events else [*HEADER, b'--']))


def fault(words, lines):
    """The number of the word at fault, of as many as there are where one is missing, and what is to be said of it. The lines are those before."""
    earlier = [line.split() for line in lines]
    in_events = [b'--'] in earlier
    parties = {words[1] for words in earlier if len(words) == 2 and words[0] == b'party'}
    shapes = (EVENTS if in_events else HEADER).get(words[0])
    if not shapes:
        return 0, why_no_verb(words[0], in_events)
    given = b''
    for number, word in enumerate(words[1:], 1):
        shape = shapes[min(number, len(shapes)) - 1]
        if number > len(shapes) and words[0] not in LISTS:
            return number, why_not(word, None) if word[:1] == b'#' else 'the line has a word too many'
        payee = words[0] == b'give' and given == b'->' and word not in parties and re.fullmatch(NAME, word)
        if (shape == PARTY or payee) and word not in parties:
            return number, why_not(word, NAME) if any(byte >= 128 for byte in word) else 'no party %s' % written(word)
        if given in parties and words[0] == b'give' and number > 2:
            shape = NUMBER
        if shape != PARTY and not re.fullmatch(b'(%s)' % shape, word):
            return number, why_not(word, shape)
        given = word
    if len(words) <= len(shapes) - (words[0] in LISTS):
        return len(words), 'a word is missing'
    return unfit(words, earlier)


def unfit(words, earlier):
    """The same of a line of which each word has its shape."""
    verb, first = words[0], words[1].decode('ascii', 'replace') if len(words) > 1 else ''
    if verb == b'party':
        return 1, 'a party %s is declared before' % first
    if verb == b'honest':
        return 1, '%s is honest already' % first
    if verb == b'secret':
        if [b'honest', words[1]] not in earlier:
            return 1, '%s is not declared honest before' % first
        named = any(line[:3] == words[:3] for line in earlier)
        return (2, 'an earlier line has a secret of this name') if named else (3, 'an earlier line has the same bytes')
    if verb == b'deposit':
        return 2, 'the deposits sum to more than 2,100,000,000,000,000 satoshi'
    if verb == b'give' and (words[2:3] == [b'->'] or words[-1] == b'->'):
        return words.index(b'->'), 'an output is missing'
    large = [number for number, word in enumerate(words) if re.fullmatch(rb'([A-Za-z]\w*=)?#?\d{10,}', word)]
    if not large:
        return 0, None
    is_amount = verb == b'give' and words[large[0]][:1] != b'#'
    return large[0], 'the number is too large: amounts are below 2^64' if is_amount else 'the number is too large: it is below 2^32, 4,294,967,296'


def why_line(text, number):
    """The word at fault in a line of a run file, and why; behind the end of the text the line that is missing."""
    lines = text.split(b'\n')
    if number > len(lines) or number == len(lines) and not lines[-1].strip():
        ended = b'--' in [line.strip() for line in lines]
        return None, None if ended else 'the line -- that ends the header is missing'
    words = lines[number - 1].split()
    return fault(words, lines[:number - 1]) if words else (0, None)
