#!/usr/bin/env python3
"""Wall time of whole runs of the listing program and of luac -p -l -l, as a table.

    python3 times.py PROGRAM LUAC DIRECTORY

DIRECTORY has the chunks that chunks.py writes. The two run in turns, one run of each, again and again; a time is the mean of the
best round. Both read a file and write to /dev/null. /bin/true, which does nothing, is timed in the same way.
"""
import os
import shutil
import subprocess
import sys
import time

CHUNKS = ("mix-768", "captures-4096", "parts-8", "many-256", "deep-32", "full")
ROUNDS = 7
RUNS = 40


def run(command, path):
    """one run with the file as its input: its exit status, and the seconds from its start to its end"""
    with open(path, "rb") as file:
        begun = time.perf_counter()
        status = subprocess.call(command, stdin=file, stdout=subprocess.DEVNULL)
        return status, time.perf_counter() - begun


def one_round(commands):
    """the mean milliseconds of each (command, input)"""
    sums = [0.0] * len(commands)
    for _ in range(RUNS):
        for i, (command, path) in enumerate(commands):
            sums[i] += run(command, path)[1]
    return [1000 * s / RUNS for s in sums]


def rounds(commands):
    """the means of all rounds, for each (command, input)"""
    return list(zip(*(one_round(commands) for _ in range(ROUNDS))))


def row(name, commands):
    """a row of the table, and how many times the best round the worst one took"""
    failed = [run(command, path)[0] != 0 for command, path in commands]
    if any(failed):
        return "| %s | %s | %s | - |" % (name, *("failed" if f else "-" for f in failed)), 1
    means = rounds(commands)
    own, other = map(min, means)
    return "| %s | %.2f | %.2f | %.2f |" % (name, own, other, own / other), max(max(m) / min(m) for m in means)


def main(program, luac, directory):
    luac, spread = shutil.which(luac), 1
    print("Time in ms, start-up included: the mean of the best of %d rounds of %d runs, in turns with luac" % (ROUNDS, RUNS))
    print()
    print("| chunk | flow_listing | luac -l -l | to luac |")
    print("|---|---|---|---|")
    for name in CHUNKS:
        base = os.path.join(directory, name)
        text, worst = row(name, [([program], base + ".luac"), ([luac, "-p", "-l", "-l", base + ".wide.luac"], os.devnull)])
        spread = max(spread, worst)
        print(text, flush=True)
    (still,) = rounds([(["/bin/true"], os.devnull)])
    print()
    print("/bin/true, in the same way: %.2f ms. The worst round of a row took up to %.1f times the best; on an idle machine that is"
          " near 1." % (min(still), spread))


if __name__ == "__main__":
    if len(sys.argv) != 4:
        sys.exit(__doc__)
    main(*sys.argv[1:])
