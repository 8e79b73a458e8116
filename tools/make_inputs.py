#!/usr/bin/env python3
"""Makes the inputs that docs/costs.md has times of: make_inputs.py FOLDER. Beside them it writes `words`, a line for each call of bitml:
a name of the kind of work, how much of it, and the words, with files as they lie in the folder. take_times.py measures these calls."""
import base64
import os
import sys

HEADER = "party A\nparty B\nhonest A\n"
SMALL = "deposit A 100000000\ndeposit B 0\n--\n"


def write(name, text):
    with open(name, "w") as file:
        file.write(text)


def numbers(first, count):
    return [f"#{n}" for n in range(first, first + count)]


def middle_out(names):
    """The same names from the middle outwards: the worst order for a row from which they are taken one by one."""
    half = len(names) // 2
    out = []
    for k in range(half):
        out += [names[half + k], names[half - 1 - k]]
    return out + names[2 * half:]


def give(inputs, outputs):
    return f"give A {' '.join(inputs)} -> {' '.join(outputs)}\n"


# One gift that makes n outputs, and one that takes them all.
def gifts(n, order):
    run = HEADER + f"deposit A {n}\n--\n" + give(["#0"], ["A 1"] * n)
    return run + give(order(numbers(1, n)), [f"A {n}"])


# Four gifts that each take all outputs and make as many.
def gifts_through(n):
    run, first = HEADER + f"deposit A {n}\n--\n" + give(["#0"], ["A 1"] * n), 1
    for _ in range(4):
        run += give(numbers(first, n), ["A 1"] * n)
        first += n
    return run


def raw(outpoints):
    """A transaction with these inputs and one output, without witnesses."""
    count = len(outpoints)
    size = bytes([count]) if count < 253 else b"\xfd" + count.to_bytes(2, "little") if count < 65536 else b"\xfe" + count.to_bytes(4, "little")
    inputs = b"".join(bytes([7]) * 28 + o.to_bytes(4, "little") + bytes(4) + b"\0" + b"\xff" * 4 for o in outpoints)
    return (b"\2\0\0\0" + size + inputs + b"\1" + (5).to_bytes(8, "little") + b"\x01\x51" + bytes(4)).hex()


# So many branches, seven of each choice as long as there are any; those with further ones show a secret, the others withdraw. With
# sixteen participants more than that would be too long a script.
def contract(parties, count, secrets=("a",)):
    below = {k: range(7 * k + 1, min(7 * k + 8, count + 1)) for k in range(count + 1)}

    def choice(number):
        return "(" + " + ".join(branch(k) for k in below[number]) + ")"

    def branch(number):
        if not below[number]:
            return f"withdraw {parties[number % len(parties)]}"
        return f"reveal {secrets[number % len(secrets)]} . {choice(number)}"

    pre = " | ".join([f"{p}:! 10 @ x{p}" for p in parties] + [f"{parties[0]}: secret {s}" for s in secrets])
    return "{" + pre + "} " + choice(0)


def secret(number):
    return number.to_bytes(16, "big").hex()


def header(parties, secrets, deposits):
    lines = [f"party {p}" for p in parties] + [f"honest {parties[0]}"]
    lines += [f"secret {parties[0]} {name} {secret(k + 1)}" for k, name in enumerate(secrets)]
    lines += [f"deposit {p} 10" for _ in range(deposits) for p in parties]
    return "\n".join(lines) + "\n--\n"


def committed(parties, number, first):
    """The events up to the last commitment, with which a contract is compiled."""
    lines = [f"advertise {number} " + " ".join(f"x{p}=#{first + k}" for k, p in enumerate(parties))]
    return "\n".join(lines + [f"commit {number} {p}" for p in parties]) + "\n"


def begun(parties, number, first):
    """The events after which a contract may be begun."""
    lines = [f"{word} {number} {p}" for word in ("endorse", "init") for p in parties]
    return committed(parties, number, first) + "\n".join(lines + [f"fire init {number}"]) + "\n"


def size(n):
    return b"\xfd" + n.to_bytes(2, "little") if n >= 253 else bytes([n])


def record(key, value):
    return size(len(key)) + key + size(len(value)) + value


# A partially signed transaction with so many bytes of foreign records in its global map.
def psbt(total):
    body = bytes.fromhex(raw([1]))
    found, k = record(b"\0", body), 0
    while len(found) < total:
        found += record(b"\xfc" + k.to_bytes(4, "big"), b"\7" * 20)
        k += 1
    return base64.b64encode(b"psbt\xff" + found + b"\0" + b"\0" + b"\0").decode()


def main(folder):
    os.makedirs(folder, exist_ok=True)
    os.chdir(folder)
    calls = []

    def call(kind, n, *words):
        calls.append(" ".join([kind, str(n), *words]))

    for n in (3, 30):
        call("make", n, "make", "7", str(n))
    for n in (25000, 50000, 100000):
        write(f"gift{n}.run", gifts(n, list))
        call("gift_in_order", n, "play", f"gift{n}.run")
        write(f"gift_middle{n}.run", gifts(n, middle_out))
        call("gift_from_the_middle", n, "play", f"gift_middle{n}.run")
    for n in (5000, 10000, 20000):
        write(f"through{n}.run", gifts_through(n))
        call("four_gifts", n, "play", f"through{n}.run")
    for n in (60000, 120000, 240000):
        wide = HEADER + f"deposit A {n}\n--\n" + give(["#0"], ["A 1"] * n)
        write(f"wide{n}.run", wide)
        call("outputs", n, "play", f"wide{n}.run")
    write("empty.run", HEADER + SMALL)
    write("either.bitml", "{A:! 100000000 @ x | B:! 0 @ y} (A : withdraw B + B : withdraw B)")
    for n in (25000, 50000, 100000):
        write(f"line{n}.hex", raw(range(n)) + "\n")
        call("audit_of_one_line", n, "audit", "compiled.run", "either.bitml", f"line{n}.hex")
    write("compiled.run", HEADER + SMALL + "advertise 0 x=#0 y=#1\ncommit 0 A\ncommit 0 B\n")
    for n in (3000, 6000, 12000):
        write(f"append{n}.run", HEADER + SMALL + "".join(f"append {raw(range(k * n, k * n + n))}\n" for k in range(8)))
        call("append_not_live", n, "play", f"append{n}.run")

    two, many = ["A", "B"], [f"P{k}" for k in range(16)]
    write("two.bitml", contract(two, 481))
    for n in (1200, 2400, 4800):
        for word in ("init", "endorse"):
            run = header(two, ["a"], 1) + begun(two, 0, 0).rsplit("fire", 1)[0] + f"{word} 0 A\n" * n
            write(f"{word}{n}.run", run)
            call(f"{word}_again", n, "play", f"{word}{n}.run", "two.bitml")
    write("asks.bitml", "{" + " | ".join(f"{p}:! 10 @ x{p}" for p in many) + "} " + " : ".join(many) + " : withdraw P0")
    for n in (150, 300, 600):
        run = header(many, [], 1) + begun(many, 0, 0) + "".join(f"authorise {p} #16 0\n" for p in many) * n
        write(f"authorise{n}.run", run)
        call("authorise_again", 16 * n, "play", f"authorise{n}.run", "asks.bitml")
    for n in (4, 8, 16):
        parties = many[:n]
        write(f"parties{n}.bitml", contract(parties, 480))
        write(f"parties{n}.run", header(parties, ["a"], 1) + begun(parties, 0, 0))
        call("participants", n, "play", f"parties{n}.run", f"parties{n}.bitml")
        call("weigh", n, "weigh", f"parties{n}.run", f"parties{n}.bitml")
    write("committed16.run", header(many, ["a"], 1) + committed(many, 0, 0))
    for n in (128, 256, 512):
        write(f"branches{n}.bitml", contract(many, n))
        call("compile", n, "play", "committed16.run", f"branches{n}.bitml")
    for n in (4, 8, 16):
        names = [f"a{k}" for k in range(n)]
        run = header(many, names, n) + "".join(begun(many, k, 16 * k) for k in range(n))
        write(f"contracts{n}.run", run + "post 00\n" * (10000 - run.count("\n") + 10))
        files = []
        for k in range(n):
            write(f"contract{k}.bitml", contract(many, 480, (f"a{k}",)))
            files.append(f"contract{k}.bitml")
        call("contracts_of_16", n, "play", f"contracts{n}.run", *files)
    run = header(many, ["a"], 1) + begun(many, 0, 0).rsplit("fire", 1)[0]
    for n in (1200, 2400, 4800):
        write(f"init_of_16_{n}.run", run + "init 0 P0\n" * n)
        call("init_again_of_16", n, "play", f"init_of_16_{n}.run", "parties16.bitml")

    for m in (2, 4, 8):
        text = HEADER + SMALL
        write(f"blank{m}.run", (text + "\n" * (m * 1048576))[:m * 1048576])
        call("blank_lines_MiB", m, "play", f"blank{m}.run")
    for n in (2499, 4998, 9996):
        write(f"mine{n}.run", HEADER + SMALL + "mine 1\n" * n)
        call("mine", n, "play", f"mine{n}.run")
        digests = [bytes(8).hex() + k.to_bytes(24, "big").hex() for k in range(n)]
        write(f"sign{n}.run", HEADER + SMALL + "".join(f"sign B D:B {d}\n" for d in digests))
        call("sign_of_one_beginning", n, "play", f"sign{n}.run")
    names = [f"s{k}" for k in range(1000)]
    posts = "".join(f"post {(2 ** 127 + k).to_bytes(24, 'big').hex()}\n" for k in range(9000))
    for n in (250, 500, 1000):
        write(f"posts{n}.run", header(two, names[:n], 1) + posts)
        call("posts_under_secrets", n, "play", f"posts{n}.run")
    for count, kind, reveals in ((32, "posts_under_committed", False), (31, "all_revealed", True)):
        for n in (4, 8, 16):
            run = header(two, names[:count * n], n)
            files = []
            for k in range(n):
                own = names[count * k:count * k + count]
                write(f"{kind}{k}.bitml", contract(two, 64, own))
                files.append(f"{kind}{k}.bitml")
                run += begun(two, k, 2 * k)
                run += "".join(f"reveal {k} A {s}\n" for s in own) * reveals
            write(f"{kind}{n}.run", run + posts[:0 if reveals else len(posts)])
            call(kind, n, "play", f"{kind}{n}.run", *files)
    for n in (64, 128, 256):
        write(f"vain{n}.strategy", "A fire 0 init\n" * n)
        call("strategy_in_vain", n, "auto", "vain.run", "two.bitml", f"vain{n}.strategy")
    write("vain.run", header(two, ["a"], 1) + begun(two, 0, 0).rsplit("init 0 B", 1)[0])
    for n in (200000, 400000, 800000):
        write(f"foreign{n}.psbt", psbt(n))
        call("psbt_foreign", n, "psbt", f"foreign{n}.psbt")
    write("words", "\n".join(calls) + "\n")


if __name__ == "__main__":
    main(sys.argv[1])
