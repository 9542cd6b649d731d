#!/usr/bin/env python3
"""pieces.py PROGRAM: PROGRAM prints the stored listing of each sample job also where the job comes in pieces.

No contract says that a program reads to the end of its input, so this is a test alone. Each job of jobs/ goes through a pipe: one byte
at a time; cut in the middle of each table, as the pairs of its header have it; and with a pause before its first byte
and another in its middle. A piece is written only when the pipe is empty, so that no read can take two.
"""
import array
import fcntl
import pathlib
import struct
import subprocess
import sys
import termios
import time

JOBS = pathlib.Path(__file__).resolve().parents[3] / "jobs"
PAUSE = 0.3  # seconds
LIMIT = 20  # seconds for a program that does not read, or does not end


def empty(pipe):
    left = array.array("i", [0])
    fcntl.ioctl(pipe, termios.FIONREAD, left)
    return left[0] == 0


def write(program, piece):
    """Writes a piece and waits until it is read. A program that has ended reads no more; one that does not read is
    ended."""
    try:
        program.stdin.write(piece)
    except BrokenPipeError:
        return
    end = time.monotonic() + LIMIT
    while not empty(program.stdin) and program.poll() is None:
        if time.monotonic() > end:
            program.kill()
        time.sleep(0)


def started(path):
    return subprocess.Popen([path], stdin=subprocess.PIPE, stdout=subprocess.PIPE, bufsize=0)


def printed(program):
    """What the program prints once its input ends; one that does not end is ended."""
    try:
        return program.communicate(timeout=LIMIT)[0]
    except subprocess.TimeoutExpired:
        program.kill()
        return program.communicate()[0]


def in_pieces(path, pieces):
    program = started(path)
    for piece in pieces:
        write(program, piece)
    return printed(program)


def after_pauses(path, jobs):
    """What each program prints; all run at once, so that the pauses are made once."""
    programs = [started(path) for _ in jobs]
    time.sleep(PAUSE)
    for program, job in zip(programs, jobs):
        write(program, job[:len(job) // 2])
    time.sleep(PAUSE)
    for program, job in zip(programs, jobs):
        write(program, job[len(job) // 2:])
    return [printed(program) for program in programs]


def middles(job):
    """The middle of each table that has one, as the pairs have it."""
    pairs = [struct.unpack_from("<II", job, 6 + 8 * k) for k in range(struct.unpack_from("<H", job)[0])]
    return [offset + length // 2 for offset, length in pairs if length > 1]


def main():
    path = sys.argv[1]
    names = sorted(JOBS.glob("*.job"))
    jobs = [name.read_bytes() for name in names]
    bad, cuts = [], 0

    def compare(name, what, output):
        if output != name.with_suffix(".listing").read_bytes():
            last = output.decode("ascii", "replace").rstrip("\n").split("\n")[-1]
            bad.append("%s %s: another listing, which ends '%s'" % (name.stem, what, last))

    for name, job in zip(names, jobs):
        compare(name, "one byte at a time", in_pieces(path, [job[i:i + 1] for i in range(len(job))]))
        for cut in middles(job):
            compare(name, "cut at byte %d" % cut, in_pieces(path, [job[:cut], job[cut:]]))
            cuts += 1
    for name, output in zip(names, after_pauses(path, jobs)):
        compare(name, "after pauses", output)
    print("\n".join(bad) if bad else "the stored listings of %d jobs that come in pieces: one byte at a time (%d "
          "bytes), cut within a table (%d cuts), after pauses of %g s" % (len(jobs), sum(map(len, jobs)), cuts, PAUSE))
    return 1 if bad or not jobs else 0


sys.exit(main())
