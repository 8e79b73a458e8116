#!/usr/bin/env python3
"""Measures a program on the inputs of make_inputs.py: take_times.py PROGRAM FOLDER [KIND..]. For each kind of work it prints a row of the
table in docs/costs.md: how much work, the least processor times in seconds, the most memory in megabytes, by how much the time grows where
the work doubles, and what part the last is of `make 7 30`, where the inputs have that. The calls of a kind are taken in turn, with
`make 7 30` among them: three times, and up to 25 times while they take less than ten seconds. The speed of a machine may change from one
second to the next, and a short call finds a fast moment sooner than a long one: so what is set beside another was taken in the same turn,
and of all turns the middle is printed.
Times are those of the program alone, with its start and its end. A call that takes longer than a minute is ended, and the kind with it. It
needs GNU time, for the memory."""
import os
import signal
import statistics
import subprocess
import sys
import tempfile
import threading

FEWEST, MOST, ENOUGH, LIMIT = 3, 25, 10, 60
SILENT = [(os.POSIX_SPAWN_OPEN, stream, os.devnull, os.O_WRONLY, 0) for stream in (1, 2)]


def once(program, words):
    """The processor seconds of one call, and its status, which is negative where the call was ended."""
    child = os.posix_spawn(program, [program, *words], os.environ, file_actions=SILENT)
    end = threading.Timer(LIMIT, os.kill, (child, signal.SIGKILL))
    end.start()
    _, status, used = os.wait4(child, 0)
    end.cancel()
    return used.ru_utime + used.ru_stime, os.waitstatus_to_exitcode(status)


def memory_of(program, words):
    """The most megabytes of one call. They are asked of GNU time: what this script itself takes counts in a child of its own."""
    with tempfile.NamedTemporaryFile("r") as memory:
        timed = ["/usr/bin/time", "-q", "-f", "%M", "-o", memory.name, program, *words]
        subprocess.run(timed, stdout=subprocess.DEVNULL, stderr=subprocess.DEVNULL)
        return int(memory.read().split()[-1]) / 1024


def in_turn(program, calls):
    """The seconds of each call in each turn, up to the first that was ended, and whether one was."""
    found, spent = [[] for _ in calls], 0
    while len(found[-1]) < FEWEST or len(found[-1]) < MOST and spent < ENOUGH:
        for k, words in enumerate(calls):
            seconds, status = once(program, words)
            found[k].append(seconds)
            spent += seconds
            if status < 0:
                return found[: k + 1], True
    return found, False


def beside_in_turn(times, others):
    """The middle of what some calls took beside others, turn by turn."""
    return statistics.median(b / a for a, b in zip(others, times) if a)


def row(program, kind, calls, beside):
    """A row of the table. The call that the others are set beside, if there is one, is taken before them."""
    sizes, words = [size for size, _ in calls], [words for _, words in calls]
    times, ended = in_turn(program, [*beside, *words])
    whole, times = times[: len(beside)], times[len(beside) :]
    memory = max((memory_of(program, call) for call in words[: len(times) - ended]), default=0)
    growth = ", ".join(f"{beside_in_turn(b, a):.1f}" for a, b in zip(times, times[1:]))
    shown = ["ended" if ended and k == len(times) - 1 else f"{min(t):.4f}" for k, t in enumerate(times)]
    part = f"{beside_in_turn(times[-1], whole[0]):.3f}" if whole and not ended else "-"
    return f"| {kind} | {' / '.join(map(str, sizes))} | {' / '.join(shown)} | {memory:.0f} | {growth} | {part} |"


def main(program, folder, *kinds):
    program, rows = os.path.abspath(program), {}
    os.chdir(folder)
    with open("words") as file:
        for line in file:
            kind, size, *words = line.split()
            rows.setdefault(kind, []).append((int(size), words))
    beside = [words for _, words in rows.get("make", [])][-1:]
    print("| Work | How much | Seconds | MB | Twice the work | Beside `make 7 30` |\n|---|---|---|---|---|---|")
    for kind, calls in rows.items():
        if not kinds or kind in kinds:
            print(row(program, kind, calls, [] if kind == "make" else beside), flush=True)


if __name__ == "__main__":
    main(*sys.argv[1:])
