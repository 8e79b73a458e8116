#!/usr/bin/env python3
"""A signer for tests alone: everybody can compute its keys. Never pay to them.

    test_signer.py keys SEED [PARTY ..] <TEMPLATE        fills in keys, of these parties or of all, and hashes
    test_signer.py secrets SEED NAME ..                  the secrets of these hashes, as a file of secrets
    test_signer.py wif SEED LABEL                        the private key of a label, as test chains import it
    test_signer.py sign SEED WHO VERB PLAN PSBTS         signs as the plan says, in lines of a file of signatures
    test_signer.py verify <HELD                          says of each line of `held` whether its signature is good

The private key of a label is the SHA-256 of the words SEED and label; signatures are ECDSA on secp256k1
(SEC 1, SEC 2) with nonces by RFC 6979, low S and strict DER (BIP 66, BIP 146), and the byte 01 behind them.
WHO is a participant, or `all`; VERB is `init`, `endorse` or `authorise:WHICH`, or `all`.
"""
import base64
import hashlib
import hmac
import sys

P = 2**256 - 2**32 - 977
N = 0xFFFFFFFFFFFFFFFFFFFFFFFFFFFFFFFEBAAEDCE6AF48A03BBFD25E8CD0364141
G = (0x79BE667EF9DCBBAC55A06295CE870B07029BFCDB2DCE28D959F2815B16F81798,
     0x483ADA7726A3C4655DA4FBFC0E1108A8FD17B448A68554199C47D08FFB10D4B8)


def sha(data):
    return hashlib.sha256(data).digest()


# ---- the curve

def add(a, b):
    """The sum of two points; None is the point at infinity."""
    if a is None or b is None:
        return a or b
    if a[0] == b[0] and (a[1] + b[1]) % P == 0:
        return None
    if a == b:
        slope = 3 * a[0] * a[0] * pow(2 * a[1], -1, P) % P
    else:
        slope = (b[1] - a[1]) * pow(b[0] - a[0], -1, P) % P
    x = (slope * slope - a[0] - b[0]) % P
    return x, (slope * (a[0] - x) - a[1]) % P


def times(number, point):
    out = None
    while number:
        if number & 1:
            out = add(out, point)
        point = add(point, point)
        number >>= 1
    return out


def compressed(point):
    return bytes([2 + point[1] % 2]) + point[0].to_bytes(32, 'big')


def point_of(key):
    """The point of a compressed key, or None where it is none of the curve's."""
    x = int.from_bytes(key[1:], 'big')
    y = pow(x**3 + 7, (P + 1) // 4, P)
    if x >= P or y * y % P != (x**3 + 7) % P:
        return None
    return x, y if y % 2 == key[0] % 2 else P - y


# ---- signatures

def nonces(secret, digest):
    """The numbers that RFC 6979 draws with SHA-256."""
    v, k = b'\1' * 32, b'\0' * 32
    both = secret.to_bytes(32, 'big') + (int.from_bytes(digest, 'big') % N).to_bytes(32, 'big')
    for byte in b'\0', b'\1':
        k = hmac.digest(k, v + byte + both, 'sha256')
        v = hmac.digest(k, v, 'sha256')
    while True:
        v = hmac.digest(k, v, 'sha256')
        if 0 < int.from_bytes(v, 'big') < N:
            yield int.from_bytes(v, 'big')
        k = hmac.digest(k, v + b'\0', 'sha256')
        v = hmac.digest(k, v, 'sha256')


def sign(secret, digest):
    """A signature of hash type ALL: strict DER, S at most half the order, and the byte 01."""
    for nonce in nonces(secret, digest):
        r = times(nonce, G)[0] % N
        s = pow(nonce, -1, N) * (int.from_bytes(digest, 'big') + r * secret) % N
        if r and s:
            s = min(s, N - s)
            both = b''.join(b'\2' + bytes([len(n)]) + n for n in (number(r), number(s)))
            return b'\x30' + bytes([len(both)]) + both + b'\1'


def number(n):
    return n.to_bytes(n.bit_length() // 8 + 1, 'big')


def good(key, digest, signature):
    """Whether a signature in DER, without its last byte, verifies (SEC 1, 4.1.4)."""
    point, size = point_of(key), signature[3]
    r, s = int.from_bytes(signature[4:4 + size], 'big'), int.from_bytes(signature[6 + size:], 'big')
    if point is None or not (0 < r < N and 0 < s < N):
        return False
    inverse = pow(s, -1, N)
    sum_ = add(times(int.from_bytes(digest, 'big') * inverse % N, G), times(r * inverse % N, point))
    return sum_ is not None and sum_[0] % N == r


# ---- keys of labels

def secret_of(seed, label):
    return int.from_bytes(sha(('%s %s' % (seed, label)).encode()), 'big')


def key_of(seed, label):
    return compressed(times(secret_of(seed, label), G))


def string_of(seed, name):
    """The secret string of a name: 18 bytes, of length 2."""
    return sha(('%s secret %s' % (seed, name)).encode())[:18]


def party_of(label):
    return label.split(':')[-1]


def wif(secret):
    """The form in which test chains of Bitcoin and Litecoin import a private key of a compressed public one."""
    body = b'\xef' + secret.to_bytes(32, 'big') + b'\1'
    body += sha(sha(body))[:4]
    value, out = int.from_bytes(body, 'big'), ''
    while value:
        value, digit = divmod(value, 58)
        out = '123456789ABCDEFGHJKLMNPQRSTUVWXYZabcdefghijkmnopqrstuvwxyz'[digit] + out
    return out


# ---- the commands

def fill(seed, parties):
    """The lines of a template, keys of the parties and hashes filled in."""
    for line in sys.stdin.read().splitlines():
        words = line.split()
        if words[0] == 'key' and (not parties or party_of(words[1]) in parties):
            line = 'key %s %s' % (words[1], key_of(seed, words[1]).hex())
        elif words[0] == 'hash':
            line = 'hash %s %s' % (words[1], sha(string_of(seed, words[1])).hex())
        print(line)


def compact(data, at):
    first = data[at]
    size = {253: 2, 254: 4, 255: 8}.get(first, 0)
    return (int.from_bytes(data[at + 1:at + 1 + size], 'little') if size else first), at + 1 + size


def with_signatures(line, signatures):
    """A partially signed transaction with the records 02 of its inputs put behind the spent output."""
    data, at, out, maps = base64.b64decode(line), 5, b'psbt\xff', 0
    while at < len(data):
        records = []
        while data[at]:
            begin = at
            size, at = compact(data, at)
            key, at = data[at:at + size], at + size
            size, at = compact(data, at)
            records.append((key, data[begin:at + size]))
            at += size
        at += 1
        for key, signature in signatures.get(maps - 1, ()):
            records.append((b'\2' + key, b'\x22\2' + key + bytes([len(signature)]) + signature))
        out += b''.join(record for _, record in sorted(records)) + b'\0'
        maps += 1
    return base64.b64encode(out).decode()


def txid_of(line):
    """The txid of the transaction that a line is of, as wallets show it."""
    data = base64.b64decode(line)
    size, at = compact(data, 7)
    return sha(sha(data[at:at + size]))[::-1].hex()


def sign_plan(seed, who, verb, plan, psbts):
    """Signs what the plan has for one participant under a verb."""
    whichs, digests, wanted = {}, {}, {}
    for words in (line.split() for line in open(plan)):
        if words[0] == 'tx':
            whichs.setdefault(words[2], []).append(words[1])
        elif words[0] == 'digest':
            digests[words[1], int(words[2])] = bytes.fromhex(words[3])
        elif words[0] == 'sign':
            which, k, label, when = words[1], int(words[2]), words[3], words[4]
            if (which, k) in digests and who in ('all', party_of(label)) and verb in ('all', when, '%s:%s' % (when, which)):
                signature = sign(secret_of(seed, label), digests[which, k])
                wanted.setdefault(which, {}).setdefault(k, []).append((key_of(seed, label), signature))
    for line in open(psbts):
        found = {}
        for which in whichs.get(txid_of(line), ()):
            for k, signatures in wanted.get(which, {}).items():
                found.setdefault(k, []).extend(signatures)
        if found:
            print(with_signatures(line, found))


def verify():
    """The status is 1 where a signature is bad."""
    bad = 0
    for words in (line.split() for line in sys.stdin):
        yes = good(*(bytes.fromhex(word) for word in words[5:7]), bytes.fromhex(words[7])[:-1])
        bad += not yes
        print('good' if yes else 'BAD', *words[1:5])
    return 1 if bad else 0


def main():
    command, *words = sys.argv[1:] or ['']
    if command == 'keys' and words:
        return fill(words[0], words[1:])
    if command == 'secrets' and words:
        for name in words[1:]:
            print('secret %s %s' % (name, string_of(words[0], name).hex()))
    elif command == 'wif' and len(words) == 2:
        print(wif(secret_of(*words)))
    elif command == 'sign' and len(words) == 5:
        sign_plan(*words)
    elif command == 'verify':
        return verify()
    else:
        print(__doc__, file=sys.stderr)
        return 2


if __name__ == '__main__':
    sys.exit(main())
