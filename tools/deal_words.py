"""Which word of a line of a deal file, a chain file, of signatures or of secrets is at fault, and why; and why a transaction isn't
finished."""
import re

HEX32 = rb'[0-9A-Fa-f]{64}'
OUTPOINT = HEX32 + rb'[:,/]\d+'
HRP = rb'[!-@[-~]{1,18}'
FORMS = {b'network': 'network PREFIX', b'pay': 'pay PARTY ADDRESS', b'key': 'key LABEL HEX', b'deposit': 'deposit NAME TXID NUMBER [ADDRESS]',
         b'hash': 'hash NAME HEX'}
SIZES = {'deal': '8,388,608', 'chain': '8,388,608', 'signatures': '8,388,608', 'secrets': '1,048,576'}
# What is said of a line of signatures, with the number of the input.
SIGNATURES = {
    'foreign': "its transaction is none of this contract with this deal file",
    'spent': 'input %s spends an output of another value or script',
    'script': 'the script of input %s is another',
    'witness': "input %s has a final witness of another form than a signature and its script, a wallet's signature and key, or its Taproot signature",
    'key': 'a signature on input %s is by a key that is not needed there',
    'signature': 'a signature on input %s has not the shape that nodes relay: DER with a low S, and 01 behind it',
    'invalid': "a signature on input %s does not verify for its key and the input's digest",
    'conflict': 'an earlier line has another signature on input %s by the same key, or another witness of the same wallet',
}

# What is said of a line that begins one of another file.
OTHER_FILES = {b'secret': 'looks like a file of secrets, which is the last word', **dict.fromkeys(FORMS, 'looks like a deal file'),
               b'height': 'looks like a chain file', b'tx': 'looks like a chain file'}

# What is said of a transaction of a chain file, with the number of the input.
CHAIN = {
    'tx': 'this spells no transaction in hexadecimal, or not all of it',
    'input': 'input %s spends an output of the deal that is spent or not there yet: a transaction is left out, or out of order',
    'foreign': 'input %s spends an output of the contract by another transaction than its own',
    'lock': 'on every chain a lock is below the height of the block, and here it is not',
    'witness': 'input %s has a witness for which its script is false, so no chain has it',
    'branch': 'its witness takes a branch that has another transaction',
}


def comment_in(words):
    """The number of the word that begins a comment, or None."""
    return next((number for number, word in enumerate(words) if word[:1] == b'#'), None)


def why_form(words):
    """Which word of a deal file's line is too few, too many or none, and why."""
    comment = comment_in(words)
    if comment is not None:
        return comment, 'a deal file has no comments: leave out the rest of the line'
    if words[0] not in FORMS:
        small = words[0].lower()
        return 0, 'verbs have small letters: %s' % small.decode() if small in FORMS else 'a line begins with network, pay, key, deposit or hash'
    form = FORMS[words[0]].split()
    if words[0] == b'deposit' and len(words) == 3 and re.fullmatch(OUTPOINT, words[2]):
        return 2, why_outpoint(words[2])
    return min(len(words), len(form)), 'the line is %s' % ' '.join(form)


def why_outpoint(word):
    """What is said of a word that is both, the transaction and the number."""
    return 'the transaction and the number of its output are two words: %s.. %s' % (word[:8].decode(), word[65:].decode())


def network_of(text):
    """The network that a deal file names, or None."""
    lines = (line.split() for line in text.split(b'\n'))
    return next((words[1] for words in lines if len(words) == 2 and words[0] == b'network' and re.fullmatch(HRP, words[1])), None)


def why_script(word, is_deposit, network):
    """Why a word gives no script that is taken."""
    kinds = '0014.., 0020.. or 5120.. and a point' + ('' if is_deposit else ', or 76a914..88ac or a914..87')
    if re.fullmatch(rb'(?:[0-9A-Fa-f]{2})+', word):
        return 'an output script is wanted that %s: %s' % ('any native SegWit wallet has' if is_deposit else 'can be spent', kinds)
    if re.fullmatch(rb'[1-9A-HJ-NP-Za-km-z]{26,36}', word) and word[:1] in b'123mnLMQ':
        return 'an address of this kind is given by its script in hexadecimal' + (", and a deposit can't have one" if is_deposit else '')
    if word not in (word.lower(), word.upper()):
        return 'an address has small letters alone, or capitals alone'
    if network is None:
        return 'no line names the network of this address, such as: network bc'
    if word.lower().rpartition(b'1')[0] != network:
        return 'this is no address of the network %s' % network.decode()
    return 'this address is misspelled, or one that nobody can spend from'


def place_of_value(words):
    """Which word of a line gives what is wrong."""
    if words[0] == b'network':
        return 1
    if words[0] != b'deposit' or not re.fullmatch(HEX32, words[2]):
        return 2
    is_number = re.fullmatch(rb'0|[1-9][0-9]{0,9}', words[3]) and int(words[3]) < 2**32
    return 4 if is_number and len(words) == 5 else 3


def why_value(words, network):
    """Which word behind a label or a name is wrong, and why."""
    at = place_of_value(words)
    word = words[at]
    if word == b'..':
        wanted = {b'key': 'the key', b'hash': 'the hash', b'network': 'the network', b'pay': 'the address',
                  b'deposit': ('the txid', 'the number of the output', 'the address')[at - 2]}[words[0]]
        return at, '.. stands for %s, which is wanted here' % wanted
    if words[0] == b'network':
        return at, 'a network is what its addresses begin with, up to the 1: bc, tb, bcrt; 1 to 18 characters, no capitals'
    if words[0] == b'pay' or at == 4:
        return at, why_script(word, words[0] == b'deposit', network)
    if words[0] == b'key' and re.fullmatch(rb'0[23][0-9A-Fa-f]{64}', word):
        return at, "this is no point of the curve secp256k1, so it is nobody's key"
    if words[0] == b'key':
        uncompressed = re.fullmatch(rb'04[0-9A-Fa-f]{128}', word)
        return at, 'a key has 33 bytes, 66 hexadecimal digits, and begins with 02 or 03' + (': this is the long form' if uncompressed else '')
    if re.fullmatch(OUTPOINT, word):
        return at, why_outpoint(word)
    if at == 3:
        return at, "the number of the transaction's output is a decimal below 4,294,967,296"
    return at, 'a %s has 64 hexadecimal digits' % ('txid' if words[0] == b'deposit' else 'hash')


def why_missing(what, contract, deal):
    """What the line that is missing would be, and what else would do."""
    why = 'no line begins with: %s' % what
    party = what.removeprefix('key D:')
    if party == what:
        return why
    lines = [line.decode('ascii', 'replace').split() for line in deal.split(b'\n')]
    deposits = re.findall(r'\b%s\s*:\s*[!?]\s*\d+\s*@\s*(\w+)' % party, contract.decode('ascii', 'replace'))
    wanting = ['a line deposit %s with an address' % name for name in deposits if not any(line[:2] == ['deposit', name] and len(line) == 5 for line in lines)]
    wanting += [] if any(line[:2] == ['pay', party] for line in lines) else ['a line pay %s, if %s is paid' % (party, party)]
    return why + ('; what would do too: ' + ', and '.join(wanting) if wanting else '')


def why_circular(name, text):
    """What a deal's own transactions would make: a deposit, or what a participant is paid to."""
    verbs = [words[0] for words in map(bytes.split, text.split(b'\n')) if words[1:2] == [name.encode()]]
    payee = 'what is paid to %s would go to the script of a contract of this deal' % name
    return payee if b'deposit' not in verbs else "deposit %s is an output of the deal's own transactions" % name


def why_deal_line(words, reason, other, network=None):
    """The word at fault in a line of a deal file, and why."""
    if reason == 'form':
        return why_form(words)
    if reason == 'value':
        return why_value(words, network)
    if reason == 'foreign' and words[0] == b'pay':
        return 1, 'no participant is %s' % words[1].decode('ascii', 'replace')
    if reason == 'foreign':
        what = {b'key': 'such label', b'deposit': 'deposit %s' % words[1].decode('ascii', 'replace'), b'hash': 'secret %s' % words[1].decode('ascii', 'replace')}
        return 1, 'the contract has no %s: ./bitml deal keys lists its lines' % what[words[0]]
    if reason == 'repeated':
        return 1, 'line %s has given it before' % other
    return 2, 'line %s has the same %s, and each is for one thing' % (other, {b'key': 'key', b'hash': 'hash'}.get(words[0], 'output'))


def why_signatures_line(line, reason, number, below):
    """Why a line of signatures is refused, of which another is below."""
    if reason in ('base64', 'form') and line.startswith(b'cHNidP') and below.strip() and not below.startswith(b'cHNidP'):
        return 'a partially signed transaction is one line: base64 -w0 writes it so'
    if reason == 'base64':
        if line.split()[0] in OTHER_FILES:
            return OTHER_FILES[line.split()[0]]
        if line[:1] == b'#':
            return 'a file of signatures has no comments'
        if len(line.split()) > 1 or re.search(rb'=[^=]', line) or line.count(b'cHNidP') > 1:
            return 'each partially signed transaction needs a line of its own'
        if re.fullmatch(rb'[0-9A-Fa-f]+', line.strip()):
            return 'these are hexadecimal digits, and Base64 is wanted'
        return 'this is no Base64 with padding, or not all of it'
    if reason == 'form':
        return 'these bytes are no partially signed transaction (BIP 174)'
    return SIGNATURES[reason] % number if '%s' in SIGNATURES[reason] else SIGNATURES[reason]


def why_chain_line(words, reason, number):
    """The word at fault in a line of a chain file, and why."""
    if reason == 'form':
        comment = comment_in(words)
        if comment is not None:
            return comment, 'a chain file has no comments'
        return (0 if words[0] not in (b'height', b'tx') else min(len(words), 2)), 'a line is height N or tx HEX'
    if reason != 'height':
        return 1, CHAIN[reason] % number if '%s' in CHAIN[reason] else CHAIN[reason]
    if words[0] == b'tx':
        return 0, 'a line height N, of at least 1, comes before the first transaction'
    if not re.fullmatch(rb'0|[1-9][0-9]{0,8}', words[1]) or int(words[1]) > 499999999:
        return 1, 'a height is a decimal of at most 499,999,999'
    return 1, 'heights never fall: an earlier line has a higher one'


def why_secrets_line(words, reason, other):
    """The word at fault in a line of secrets, and why."""
    if reason == 'form':
        comment = comment_in(words)
        if comment is not None:
            return comment, 'a file of secrets has no comments'
        return (0 if words[0] != b'secret' else min(len(words), 3)), 'the line is secret NAME HEX'
    if reason == 'value' and words[2] == b'HEX':
        return 2, "HEX stands for the secret's bytes: 16 to 520 of them, two hexadecimal digits each"
    name = words[1].decode('ascii', 'replace')
    return {
        'foreign': (1, 'the contract has no secret %s' % name),
        'value': (2, 'an even number of hexadecimal digits is wanted here'),
        'repeated': (1, 'line %s has given %s before' % (other, name)),
        'length': (2, 'a secret has 16 to 520 bytes, and this has %d' % (len(words[2]) // 2)),
        'hash': (2, "its SHA-256 is not the deal file's hash of %s" % name),
    }[reason]


def why_not_finished(kind, rest):
    """Why a transaction isn't finished, in words."""
    if kind == 'endorsement':
        return '%s has not endorsed %s: nobody signs init before all have endorsed' % (rest[1], rest[0])
    if kind == 'signature':
        if rest[1].startswith('W:'):
            return 'the wallet that has the coin %s has not signed input %s' % (rest[1][2:], rest[0])
        return 'the key of %s has not signed input %s' % (rest[1], rest[0])
    if kind == 'secret':
        return 'the branch reveals %s, which no file of secrets gives' % rest[0]
    if kind == 'predicate':
        return "the branch's condition is false of the secrets' lengths, which are their bytes less 16"
    return None
