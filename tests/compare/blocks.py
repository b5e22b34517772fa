"""Constant memory, for tests/checks/31-blocks.

blocks.py PROGRAM REFERENCE SESSIONS MEGABYTES pipes a session of so many megabytes through both programs: the stored sessions of the five states,
over and over, with long lines between them, one of which takes a tenth of the whole. It is made on the fly. What they print must be the same (by its
digest), and the memory that PROGRAM held at its most (VmHWM of /proc) must be under 20 MB and the same near the end as after the first megabyte."""
import hashlib
import os
import subprocess
import sys
import threading

LIMIT = 20 * 1024  # kB
GROWTH = 256  # kB
MEGA = 1 << 20


def load(folder):
    """A block of whole lines: the events of the five states, each session followed by an abort, so that the next one begins in Idle."""
    block = b""
    for name in sorted(os.listdir(folder)):
        if name.startswith("state-") and name.endswith(".in"):
            block += open(os.path.join(folder, name), "rb").read().split(b"\n", 1)[1] + b"16\n"
    assert block.count(b"\n") > 100, "no stored sessions of the five states"
    return block * 20 + b"0" * 5000 + b"\n" + block + b"04" * 40000 + b"\n"


def pieces(block, size):
    yield b"00003c003c012c4731\n"
    given, long = 0, False
    while given < size:
        if not long and given > size // 2:
            for _ in range(size // 10 // 50000):
                yield b"04" * 25000
            given, long = given + size // 10, True
            yield b"\n"
        yield block
        given += len(block)


def held(pid):
    for line in open(f"/proc/{pid}/status"):
        if line.startswith("VmHWM:"):
            return int(line.split()[1])
    raise SystemExit("blocks: no VmHWM in /proc")


def run(program, block, size):
    """Digest and number of the output lines, and the most memory held after one megabyte and at the end."""
    child = subprocess.Popen([program], stdin=subprocess.PIPE, stdout=subprocess.PIPE, bufsize=0)
    digest, lines = hashlib.md5(), [0]

    def drain():
        for part in iter(lambda: child.stdout.read(1 << 16), b""):
            digest.update(part)
            lines[0] += part.count(b"\n")

    reader = threading.Thread(target=drain)
    reader.start()
    given, early = 0, None
    for piece in pieces(block, size):
        given += len(piece)
        while piece:
            piece = piece[os.write(child.stdin.fileno(), piece):]
        if early is None and given > MEGA:
            early = held(child.pid)
    late = held(child.pid)
    child.stdin.close()
    reader.join()
    if child.wait() != 0:
        raise SystemExit(f"blocks: {program} ended with {child.returncode}")
    return digest.hexdigest(), lines[0], given, early, late


def main():
    program, reference, folder, size = sys.argv[1], sys.argv[2], sys.argv[3], int(sys.argv[4]) * MEGA
    block = load(folder)
    ours = run(program, block, size)
    theirs = run(reference, block, size)
    print(f"blocks: {ours[2]} octets in, {ours[1]} lines out, digest {ours[0]}; most memory {ours[3]} kB after 1 MB, {ours[4]} kB at the end")
    if ours[:2] != theirs[:2]:
        print(f"blocks: differs: the reference has {theirs[1]} lines, digest {theirs[0]}")
        return 1
    if ours[4] >= LIMIT:
        print(f"blocks: too much memory, {ours[4]} kB")
        return 1
    if ours[4] - ours[3] > GROWTH:
        print(f"blocks: memory grows, from {ours[3]} to {ours[4]} kB")
        return 1
    return 0


sys.exit(main())
