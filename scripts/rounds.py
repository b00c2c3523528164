#!/usr/bin/env python3
"""Runs the built program on a ring and on the game of life with checkpoints on the way, on several nodes and under several
schedules, and checks each accepted line: its iteration is one that may be accepted next, and its length and digest are those of the
checkpoint of the fold at that iteration, which this script works out itself.

usage: scripts/rounds.py    (build the program first: `cd crates/acr && rt run </dev/null`)
Ends with 1 at the first line that is wrong."""
import hashlib
import pathlib
import struct
import subprocess
import sys

ROOT = pathlib.Path(__file__).resolve().parent.parent
PROGRAM = ROOT / "crates/acr/out/acr"
RING = (ROOT / "examples/ring.job").read_text()
LIFE = (ROOT / "examples/life.job").read_text()


def checkpoint(done, states):
    """The length and the digest of a checkpoint of one array: of each element its cells after so many iterations."""
    data = b"ACR1" + struct.pack("<I", len(states))
    for index, cells in enumerate(states):
        data += struct.pack("<HIQBBQI", 0, index, done, 0, 0, 0, len(cells))
        data += b"".join(struct.pack("<q", cell) for cell in cells)
    return len(data), hashlib.sha256(data).hexdigest()


def ring(elements, iterations):
    """The states of the ring after each number of iterations."""
    t = list(range(elements))
    states = [[[x] for x in t]]
    for _ in range(iterations):
        t = [t[i] + t[i - 1] for i in range(elements)]
        states.append([[x] for x in t])
    return states


def life(iterations):
    """The same of the glider on 16 by 16 elements, with their neighbours and all that live."""
    size = range(16)
    on = [[0] * 16 for _ in size]
    for row, col in ((0, 1), (1, 2), (2, 0), (2, 1), (2, 2)):
        on[row][col] = 1
    states = [[[on[r][c], 0, 0] for r in size for c in size]]
    around = [(a, b) for a in (-1, 0, 1) for b in (-1, 0, 1) if a or b]
    for _ in range(iterations):
        near = [[sum(on[(r + a) % 16][(c + b) % 16] for a, b in around) for c in size] for r in size]
        on = [[1 if near[r][c] == 3 or (near[r][c] == 2 and on[r][c]) else 0 for c in size] for r in size]
        alive = sum(map(sum, on))
        states.append([[on[r][c], near[r][c], alive] for r in size for c in size])
    return states


def check(job, words, states, every):
    """Drills a job, and answers at which iterations checkpoints were accepted."""
    run = subprocess.run([PROGRAM, "drill", *words], input=job.encode(), capture_output=True, check=True)
    last, base, accepted = len(states) - 1, 0, []
    for line in run.stdout.decode().splitlines():
        if line.startswith("accepted "):
            k, length, digest = int(line.split()[1]), int(line.split()[3]), line.split()[5]
            if not max(base + 1, min(base + every, last)) <= k <= last:
                sys.exit(f"{words}: {line}: not an iteration that may be accepted behind {base}")
            if (length, digest) != checkpoint(k, states[k]):
                sys.exit(f"{words}: {line}: not the fold's checkpoint")
            base = k
            accepted.append(k)
    if base != last:
        sys.exit(f"{words}: no checkpoint at {last}")
    return accepted


def main():
    job = RING.replace("iterate 2", "iterate 6")
    for schedule in range(8):
        words = ["--nodes", "3", "--every", "2", "--schedule", str(schedule)]
        print("ring", *words, "accepted", *check(job, words, ring(3, 6), 2))
    for every in (1, 3, 16):
        for nodes in (1, 2, 4):
            for schedule in range(4):
                words = ["--nodes", str(nodes), "--every", str(every), "--schedule", str(schedule)]
                print("life", *words, "accepted", *check(LIFE, words, life(16), every))


main()
