#!/usr/bin/env python3
"""Writes a chain file, which `bitml deal state` reads, of what a node has confirmed.

    chain_file.py FIRST NODE [WORD ..]                   all transactions of the blocks from height FIRST on
    chain_file.py --of FILE .. FIRST NODE [WORD ..]      only those that matter to the deal that the files are of

NODE is the command of a node, as bitcoin-cli, with its words. FIRST is at least 1, and not above the first block in
which a deposit may be spent. FILE is what `bitml deal plan` writes, or the deal file; each has --of before it. By a
plan these are taken: the deal's transactions, and those that spend an output of theirs or a deposit; by the deal
file also those that show a secret, as another deal with the same secret does.

The status is 1, and nothing is written, where the node has no such block, or another best block came meanwhile:
then ask again.
"""
import hashlib
import json
import subprocess
import sys

MOST_BYTES = 8_388_608


class Deal:
    """What makes a transaction matter: the deal's transactions, its deposits and the hashes of its secrets."""

    def __init__(self, files):
        self.txids, self.deposits, self.hashes = set(), set(), set()
        for file in files:
            with open(file) as lines:
                for words in map(str.split, lines):
                    self.take(words)

    def take(self, words):
        """Takes a line of a plan or of a deal file."""
        if words[:1] == ['tx'] and len(words) > 2:
            self.txids.add(words[2])
        elif words[:1] == ['deposit'] and len(words) > 3:
            self.deposits.add((words[2].lower(), int(words[3])))
        elif words[:1] == ['hash'] and len(words) > 2:
            self.hashes.add(words[2].lower())

    def has(self, tx):
        """Whether a transaction matters."""
        return tx['txid'] in self.txids or any(self.is_spent(spent) or self.is_shown(spent) for spent in tx['vin'])

    def is_spent(self, spent):
        return spent.get('txid') in self.txids or (spent.get('txid'), spent.get('vout')) in self.deposits

    def is_shown(self, spent):
        return any(hashlib.sha256(bytes.fromhex(item)).hexdigest() in self.hashes for item in spent.get('txinwitness', ()))


class Node:
    """A node, by the command that asks it."""

    def __init__(self, command):
        self.command = command

    def ask(self, *words):
        try:
            ran = subprocess.run([*self.command, *map(str, words)], stdout=subprocess.PIPE, text=True)
        except OSError as why:
            sys.exit('chain_file: %s' % why)
        if ran.returncode:
            sys.exit(1)
        return ran.stdout.strip()

    def tip(self):
        """The height of the best block, and its hash."""
        height = int(self.ask('getblockcount'))
        return height, self.ask('getblockhash', height)

    def transactions(self, height):
        return json.loads(self.ask('getblock', self.ask('getblockhash', height), 2))['tx']


def lines_of(node, first, tip, deal):
    """The lines of a chain file up to this tip."""
    for height in range(first, tip + 1):
        taken = [tx['hex'] for tx in node.transactions(height) if deal is None or deal.has(tx)]
        if taken or height == tip:
            yield 'height %d\n' % height
        for text in taken:
            yield 'tx %s\n' % text


def main():
    words, files = sys.argv[1:], []
    while words[:1] == ['--of'] and len(words) > 1:
        files.append(words[1])
        words = words[2:]
    if len(words) < 2 or not words[0].isdecimal() or int(words[0]) == 0:
        print(__doc__, file=sys.stderr)
        return 2
    node, first = Node(words[1:]), int(words[0])
    height, best = node.tip()
    if first > height:
        print('chain_file: the best block has height %d' % height, file=sys.stderr)
        return 1
    text = ''.join(lines_of(node, first, height, Deal(files) if files else None))
    if node.tip() != (height, best):
        print('chain_file: another best block came meanwhile: ask again', file=sys.stderr)
        return 1
    if len(text) > MOST_BYTES:
        print('chain_file: more bytes than a chain file may have: name the deal by --of, or a later block', file=sys.stderr)
    sys.stdout.write(text)
    return 0


if __name__ == '__main__':
    sys.exit(main())
