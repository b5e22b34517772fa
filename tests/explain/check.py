"""`explain` against the independent implementation beside this file, for tests/checks/70-explain.

  check.py stored PROGRAM FOLDER      the stored sessions of FOLDER, whole and in pieces; and that they meet every kind, fault, reason, refusal, state
  check.py listings PROGRAM FOLDER    the inputs and the outputs of stored listings
  check.py random PROGRAM SEEDS LINES random lines, whole and in pieces
  check.py memory PROGRAM MEGABYTES   so many megabytes, in memory that doesn't grow
  check.py story PROGRAM LISTING FOLDER   `story` on stored listings, and on random ones with what the program LISTING answers

The last line is 'N runs, M faults'."""
import pathlib
import random
import subprocess
import sys
import threading

sys.path[:0] = [str(pathlib.Path(__file__).parent), str(pathlib.Path(__file__).parent.parent)]
import explain  # noqa: E402
import feed  # noqa: E402

# What the stored answers must hold, from 01's lists: the beginning of a line, or a part of one.
BEGINNINGS = ["in: " + k for k in ("setup; limits", "transfer; class", "confirmed transfer; class", "G-END", "one tick", "D-START indication; class", "D-START confirmation; accepted",
                                   "D-START confirmation; rejected", "D-DATA indication; ", "D-END indication", "D-END confirmation; accepted", "D-END confirmation; rejected",
                                   "D-ABORT indication", "D-P-ABORT indication")]
BEGINNINGS += ["out: " + k for k in ("transfer indication; class", "confirmed transfer indication; class", "confirmation of message 7: Successful delivery; ",
                                     "confirmation of message 9: Delivery failed; ", "confirmation of message 65535: Service problem - delivery status uncertain; ", "end",
                                     "extension fields seen: ", "D-START request; class", "D-START response; accepted; ", "D-START response; rejected; ", "D-DATA request; ",
                                     "D-END request", "D-END response; accepted", "D-END response; rejected")]
BEGINNINGS += [f"out: {k}; reason {n}: " for k in ("lost", "D-ABORT request") for n in (0, 1, 2, 3, 10, 11, 12, 13, 14, 15, 16)]
BEGINNINGS += [f"{k}fault {n}: " for k in ("frame: ", "in: D-DATA indication; ") for n in range(11, 17)]
BEGINNINGS += [f"refused, {n}: " for n in range(1, 10)] + ["none: refusal 7: ", "none: refusal 8: no event", "none: refusal 8: not an even", "none: the kind of an output line"]
BEGINNINGS += ["state: " + s for s in ("Idle", "Start-single", "Start-multi", "Ending", "Associated")]
PARTS = ["maintained", "single", "unconfirmedReq", "confirmedReq", "confirmedOk", "confirmedNotOk", "confirmedUnknown", "rate not provided", "rate low", "rate high", ", type 0",
         ", type 255", ", message 0", ", message 65535", ", answers message 0", 'from "', "from octets ", "user data of length 0: ", "user data of length 512: ", '" ...', ", extension fields: 1",
         ", extension fields: 511", 'name "', "name octets "]


def cut(octets, r):
    at, pieces = 0, []
    while at < len(octets):
        n = r.choice([1, 2, 7, 60, 500, 4096, 66000])
        pieces.append(octets[at:at + n])
        at += n
    return pieces


def compare(program, name, octets, expected, r):
    """The runs on one input that fail, of two."""
    faults = 0
    for how, (status, said) in ("whole", feed.whole(program, octets)), ("in pieces", feed.in_pieces(program, cut(octets, r))):
        if status != 0 or said != expected:
            faults += 1
            print(f"{name}, {how}: differs (status {status})")
            for n, (a, b) in enumerate(zip(said.split(b"\n"), expected.split(b"\n"))):
                if a != b:
                    print(f"  line {n + 1}: {a.decode(errors='replace')}\n  expected: {b.decode(errors='replace')}")
                    break
    return faults


def stored(program, folder):
    runs = faults = 0
    answers = ""
    for path in sorted(pathlib.Path(folder).glob("*.in")):
        expected = path.with_suffix(".out").read_bytes()
        answers += expected.decode()
        faults += compare(program, path.stem, path.read_bytes(), expected, random.Random(path.stem))
        runs += 2
    lines = answers.split("\n")
    for words in BEGINNINGS:
        if not any(line.startswith(words) for line in lines):
            faults += 1
            print(f"no stored answer has '{words}'")
    for words in PARTS:
        if words not in answers:
            faults += 1
            print(f"no stored answer has '{words}'")
    return runs, faults


def listings(program, folder):
    runs = faults = 0
    for path in sorted([*pathlib.Path(folder).glob("*.in"), *pathlib.Path(folder).glob("*.out")]):
        octets = path.read_bytes()
        faults += compare(program, path.name, octets, explain.explanation(octets), random.Random(path.name))
        runs += 2
    return runs, faults


def random_lines(program, seeds, lines):
    faults = 0
    for seed in range(1, int(seeds) + 1):
        r = random.Random(seed)
        octets = b"".join(explain.random_line(r) + b"\n" for _ in range(int(lines))) + r.choice([b"", b"04", b"x" * 6000])
        faults += compare(program, f"seed {seed}", octets, explain.explanation(octets), r)
    return 2 * int(seeds), faults


def told(octets, answers):
    """What `story` prints: each line of a listing's input, and under it what was answered, up to the state (or `ff07`, after which nothing comes)."""
    *lines, rest = octets.split(b"\n")
    words = [explain.explain(line) for line in lines] + ([explain.NO_DIGITS] if rest else [])
    story, answers = [], answers.split(b"\n")[:-1]
    for line in words or [None]:
        story += [line] * (line is not None)
        while answers:
            story.append("  " + explain.explain(answers[0]))
            if answers.pop(0)[:2] == b"f0":
                break
        if story[-1].startswith("  refused, 7"):
            break
    return "".join(s + "\n" for s in story).encode()


def story(program, listing, folder):
    runs = faults = 0
    cases = [(path.stem, path.read_bytes(), path.with_suffix(".out").read_bytes()) for path in sorted(pathlib.Path(folder).glob("*.in"))]
    for seed in range(1, 11):
        r = random.Random(seed)
        octets = b"00003c003c012c4731\n" * (seed > 1) + b"".join(explain.random_line(r) + b"\n" for _ in range(2000)) + r.choice([b"", b"04", b"x" * 6000])
        cases.append((f"seed {seed}", octets, feed.whole(listing, octets)[1]))
    for name, octets, answers in cases:
        faults += compare(program, name, octets, told(octets, answers), random.Random(name))
        runs += 2
    return runs, faults


def memory(program, megabytes):
    """The most memory held after the first megabyte and at the end, of a program that is fed lines of every kind and one line of a tenth of the whole."""
    r, size = random.Random(0), int(megabytes) << 20
    block = b"".join(explain.random_line(r) + b"\n" for _ in range(3000))
    expected = explain.explanation(block)
    child = subprocess.Popen([program], stdin=subprocess.PIPE, stdout=subprocess.PIPE, bufsize=0)
    said = [0]
    reader = threading.Thread(target=lambda: [said.__setitem__(0, said[0] + len(p)) for p in iter(lambda: child.stdout.read(1 << 16), b"")])
    reader.start()
    held = lambda: next(int(line.split()[1]) for line in open(f"/proc/{child.pid}/status") if line.startswith("VmHWM:"))
    given = blocks = early = 0
    while given < size:
        child.stdin.write(block)
        given, blocks = given + len(block), blocks + 1
        early = early or given > 1 << 20 and held()
    for _ in range(size // 10 // 50000):
        child.stdin.write(b"04" * 25000)
    child.stdin.write(b"\n")
    late = held()
    child.stdin.close()
    reader.join()
    status, due = child.wait(), blocks * len(expected) + len(explain.NO_DIGITS) + 1
    print(f"{given >> 20} MB in, {said[0] >> 20} MB out, {early} kB held early, {late} kB late")
    faults = (status != 0) + (said[0] != due) + (late > 20 * 1024) + (late - early > 256)
    if said[0] != due:
        print(f"{said[0]} octets printed, {due} expected: differs")
    if late > 20 * 1024 or late - early > 256:
        print("memory grows")
    return 1, faults


if __name__ == "__main__":
    runs, faults = {"stored": stored, "listings": listings, "random": random_lines, "memory": memory, "story": story}[sys.argv[1]](*sys.argv[2:])
    print(f"{runs} runs, {faults} faults")
    sys.exit(faults != 0)
