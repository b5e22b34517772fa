"""The stored sessions, for tests/checks/30-sessions.

check.py whole PROGRAM FOLDER  each NAME.in, whole; what is printed must be NAME.out, octet for octet. The stored answers must meet every kind of
                               output line, state, reason and refusal that a listing can meet.
check.py cut PROGRAM FOLDER    the same in small pieces, so that reads are cut anywhere.

The last line is 'N runs, M faults'; it ends with 0 only where M is 0 and N isn't."""
import os
import sys

sys.path.insert(0, os.path.dirname(os.path.dirname(os.path.abspath(__file__))))
import feed  # noqa: E402

# By the first two octets of an output line; a kind that has no second one, or any, by its first.
WANTED = {
    "transfer indications": ["20", "21"],
    "confirmations": ["2200", "2201", "2202"],
    "end": ["23"],
    "lost": ["2400", "2401", "2402", "2403", "240a", "240b", "240c", "240d", "240e", "240f", "2410"],
    "extensions": ["2500", "2501"],
    "D-START": ["30", "3100", "3101"],
    "D-DATA": ["32"],
    "D-END": ["33", "3400"],
    "D-ABORT": ["3502", "350a", "350b", "350c", "350d", "350e", "350f", "3510"],
    "states": ["f000", "f001", "f002", "f003", "f004"],
    "refusals": ["ff01", "ff02", "ff03", "ff04", "ff05", "ff07", "ff08"],
}
EVERY_PLACE = ["01-session", "two-load-sheets", "line-carriage-return", "last-line-event", "setup-no-line-feed"]
# Octets a piece, and the largest session that is fed so.
PIECES = [(1, 3000), (7, 30000), (1000, 1000000)]


def load(folder):
    names = sorted(f[:-3] for f in os.listdir(folder) if f.endswith(".in"))
    answers = sorted(f[:-4] for f in os.listdir(folder) if f.endswith(".out"))
    if not names or names != answers:
        print(f"sessions: {len(names)} stored inputs, {len(answers)} stored answers, {sorted(set(names) ^ set(answers))}")
        print("0 runs, 1 faults")
        sys.exit(1)
    read = lambda path: open(os.path.join(folder, path), "rb").read()
    return [(name, read(name + ".in"), read(name + ".out")) for name in names]


def fault(name, how, given, answer, wanted):
    status, said = answer
    if answer == (0, wanted):
        return 0
    print(f"{name}, {how}: " + (f"differs: {feed.first_difference(given, said, wanted)}" if said != wanted else f"ended with {status}"))
    return 1


def cut(octets, size):
    return [octets[i:i + size] for i in range(0, len(octets), size)]


def main():
    mode, program, folder = sys.argv[1:]
    sessions = load(folder)
    runs = faults = 0
    if mode == "whole":
        met = {}
        for name, given, wanted in sessions:
            faults += fault(name, "whole", given, feed.whole(program, given), wanted)
            runs += 1
            for line in wanted.decode().split():
                for kind in {line[:2], line[:4]}:
                    met[kind] = met.get(kind, 0) + 1
        for what, kinds in WANTED.items():
            print(f"sessions: {what}: " + ", ".join(f"{kind} {met.get(kind, 0)}" for kind in kinds))
            for kind in kinds:
                if kind not in met:
                    print(f"sessions: no stored answer has {kind}")
                    faults += 1
    else:
        for size, largest in PIECES:
            for name, given, wanted in sessions:
                if len(given) <= largest:
                    faults += fault(name, f"{size} at a time", given, feed.in_pieces(program, cut(given, size)), wanted)
                    runs += 1
        for name in set(EVERY_PLACE) - {s[0] for s in sessions}:
            print(f"sessions: no stored session {name}")
            faults += 1
        for name, given, wanted in sessions:
            if name in EVERY_PLACE:
                for at in range(1, len(given)):
                    faults += fault(name, f"cut at {at}", given, feed.in_pieces(program, [given[:at], given[at:]]), wanted)
                    runs += 1
    print(f"{runs} runs, {faults} faults")
    return 0 if runs and not faults else 1


sys.exit(main())
