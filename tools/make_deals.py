#!/usr/bin/env python3
"""Makes the deals that docs/costs.md has times of: make_deals.py PROGRAM FOLDER, with the built bitml_deal. Beside them it writes `words` as
make_inputs.py does, and take_times.py measures these calls. Keys and signatures are those of test_signer.py, which takes a few minutes for
the largest deal."""
import functools
import hashlib
import os
import subprocess
import sys

from make_inputs import contract, write
import test_signer
from test_signer import with_signatures

BRANCHES, PARTIES = 512, 16
MEGABYTE = 1048576
STRING = b"0123456789abcdef"
SEED = "timed deal"


def drawn(*words):
    return hashlib.sha256(" ".join(words).encode()).digest()


@functools.cache
def key_of(label):
    return test_signer.key_of(SEED, label)


def signature_of(label, digest):
    return test_signer.sign(test_signer.secret_of(SEED, label), bytes.fromhex(digest))


def filled(line):
    """A line of the template."""
    kind, name, *_ = line.split()
    value = {"key": lambda: key_of(name).hex(), "deposit": lambda: drawn("deposit", name).hex() + " 0",
             "hash": lambda: hashlib.sha256(STRING).hexdigest()}[kind]()
    return f"{kind} {name} {value}"


def lines_of(program, *words):
    return subprocess.run([program, *words], capture_output=True, text=True, check=True).stdout.splitlines()


def deal(program, name, parties, branches):
    """Writes contract, deal, secrets and all signatures under a name; gives the lines of signatures."""
    write(f"{name}.bitml", contract([f"P{k}" for k in range(parties)], branches))
    write(f"{name}.deal", "".join(filled(line) + "\n" for line in lines_of(program, "keys", f"{name}.bitml")))
    write(f"{name}.secrets", f"secret a {STRING.hex()}\n")
    order, digests, wanted = [], {}, {}
    for words in (line.split() for line in lines_of(program, "plan", f"{name}.bitml", f"{name}.deal")):
        if words[0] == "tx":
            order.append(words[1])
        elif words[0] == "digest":
            digests[words[1], words[2]] = words[3]
        elif words[0] == "sign":
            signed = key_of(words[3]), signature_of(words[3], digests[words[1], words[2]])
            wanted.setdefault(words[1], {}).setdefault(int(words[2]), []).append(signed)
    unsigned = lines_of(program, "psbt", f"{name}.bitml", f"{name}.deal")
    found = [with_signatures(line, wanted[which]) for which, line in zip(order, unsigned)]
    write(f"{name}.signatures", "\n".join(found) + "\n")
    return found


def repeated(lines, most):
    """These lines over and over, up to so many bytes."""
    found, size, k = [], 0, 0
    while size + len(lines[k % len(lines)]) < most:
        found.append(lines[k % len(lines)])
        size += len(found[-1]) + 1
        k += 1
    return "\n".join(found) + "\n"


def main(program, folder):
    program = os.path.abspath(program)
    os.makedirs(folder, exist_ok=True)
    os.chdir(folder)
    calls = []

    def call(kind, n, command, name, *words):
        calls.append(" ".join([kind, str(n), command, f"{name}.bitml", f"{name}.deal", *words]))

    sizes = [("branches", n, PARTIES, n) for n in (BRANCHES // 4, BRANCHES // 2, BRANCHES)]
    sizes += [("participants", n, n, BRANCHES) for n in (4, 8)]
    for kind, n, parties, branches in sizes:
        deal(program, f"{kind}{n}", parties, branches)
    for kind, n, *_ in sizes + [("participants", PARTIES, PARTIES, BRANCHES)]:
        name = f"branches{BRANCHES}" if (kind, n) == ("participants", PARTIES) else f"{kind}{n}"
        given = f"{name}.signatures"
        call(f"plan_by_{kind}", n, "plan", name)
        call(f"psbt_by_{kind}", n, "psbt", name)
        call(f"missing_by_{kind}", n, "missing", name, given)
        call(f"held_by_{kind}", n, "held", name, given)
        call(f"finish_init_by_{kind}", n, "finish", name, "init", given)
        call(f"finish_by_{kind}", n, "finish", name, "r.0", given, f"{name}.secrets")
    small = deal(program, "small", 2, 1)
    for n in (2, 4, 8):
        write(f"lines{n}", repeated(small, n * MEGABYTE))
        call("signature_lines_MiB", n, "missing", "small", f"lines{n}")
    for n in (2, 4, 8):
        write(f"blank{n}", "\n" * (n * MEGABYTE))
        call("blank_signature_lines_MiB", n, "missing", "small", f"blank{n}")
    write("words", "\n".join(calls) + "\n")


if __name__ == "__main__":
    main(*sys.argv[1:])
