"""Random sessions, for tests/checks/20-compare.

sessions.py PROGRAM REFERENCE SESSIONS EVENTS runs both listing programs on so many sessions of so many events, and on as many tiny ones that are
about the first line; seeds are 1, 2, 3... PROGRAM gets its input cut at random places. What they print must be the same, octet for octet. Then it
prints what the sessions met. It ends with 0 where nothing differs and nothing that is wanted was missed.

Events are drawn so that most are well formed and meet each other: few identifiers, few terms, requests and their answers, and mostly kinds that the
state takes; the state is what REFERENCE says while the session is drawn. A share of the lines is then damaged, so that the rules of lines are met
as well."""
import collections
import os
import random
import struct
import subprocess
import sys

sys.path.insert(0, os.path.dirname(os.path.dirname(os.path.abspath(__file__))))
import feed  # noqa: E402

draw = random.Random()
IDENTIFIERS = [0, 1, 2, 3, 7, 9, 10, 11, 12, 256, 65535]
TERMS = [b"\2\3\1", b"\2\3\2", b"\2\3\0"]
OTHER_TERMS = b"\2\4\1"
KINDS = [0x01, 0x02, 0x03, 0x04, 0x10, 0x11, 0x12, 0x13, 0x14, 0x15, 0x16, 0x99]
# How often each kind is drawn in each state.
MIXES = [
    [6, 14, 0.3, 2, 12, 0.3, 0.3, 0.3, 0.3, 0.3, 0.3, 0.2],
    [0.4, 0.4, 0.3, 3, 0.3, 16, 0.3, 0.3, 0.3, 0.6, 0.6, 0.2],
    [0.4, 0.4, 0.3, 3, 0.3, 16, 0.3, 0.3, 0.3, 0.6, 0.6, 0.2],
    [0.4, 0.4, 0.3, 3, 0.3, 0.3, 14, 0.3, 6, 0.6, 0.6, 0.2],
    [8, 16, 1.2, 5, 0.4, 0.4, 24, 0.5, 0.4, 0.3, 0.3, 0.2],
]
# Associated in every second session: a long dialogue with many confirmed requests (refusals 4 and 5).
LONG = [8, 34, 0.3, 4, 0.3, 0.3, 24, 0.2, 0.3, 0.1, 0.1, 0.1]


def chance(p):
    return draw.random() < p


def number():
    return struct.pack(">H", draw.choice(IDENTIFIERS))


def frame(maintained, confirmation, extended):
    bits, fields = (1 if maintained else 0), b""
    answer = confirmation >= 2
    if chance(0.3):
        bits |= 0x40
        fields += bytes([draw.choice([0, 5, 255])])
    if chance(0.98 if confirmation == 1 else 0.2):
        bits |= 0x20
        fields += number()
    if chance(0.98 if answer else 0.2):
        bits |= 0x10
        fields += number()
    if chance(0.98 if answer else 0.2):
        length = draw.choice([1, 2, 32]) if chance(0.98) else draw.choice([0, 33])
        bits |= 0x08
        fields += bytes([length]) + draw.randbytes(length)
    if chance(0.5):
        length = draw.choice([0, 1, 2, 3, 40, 512]) if chance(0.97) else 513
        bits |= 0x04
        fields += struct.pack(">H", length) + draw.randbytes(length)
    if extended:
        bits |= 0x80
        for _ in range(draw.choice([1, 1, 2, 3]) if chance(0.95) else 0):
            length = draw.choice([0, 1, 2, 50])
            fields += bytes([draw.choice([1, 2, 255]) if chance(0.97) else 0, length]) + draw.randbytes(length)
    if chance(0.01):
        bits |= 0x02
    octets = bytes([bits, confirmation if chance(0.99) else draw.choice([5, 255])]) + fields
    slip = draw.random()
    if slip < 0.01:
        return octets[: draw.randrange(len(octets) + 1)]
    if slip < 0.02:
        return octets + draw.randbytes(draw.choice([1, 2]))
    if slip < 0.025:
        return octets + bytes(1025)
    if slip < 0.04:
        return extended_to(octets, draw.choice([800, 1023, 1024, 1024, 1025, 1025, 1026, 1300]))
    return octets


def extended_to(octets, size):
    """With extension fields after it, up to a size: 1,024 octets are a frame, 1,025 none."""
    octets = bytes([octets[0] | 0x80]) + octets[1:]
    while size - len(octets) >= 2:
        room = min(size - len(octets), 257)
        room -= size - len(octets) - room == 1
        octets += bytes([draw.choice([1, 255]), room - 2]) + bytes(room - 2)
    return octets


def any_frame():
    return frame(chance(0.75), draw.choice([0, 1, 1, 2, 2, 3, 4]), chance(0.15))


def terms(usual):
    """Mostly the session's usual terms; low RER is also written as not provided."""
    octets = usual if chance(0.93) else draw.choice(TERMS + [OTHER_TERMS])
    if octets[2] == 1 and chance(0.3):
        octets = octets[:2] + b"\0"
    return octets if chance(0.98) else octets[:2] + b"\3"


def result(accepted):
    return bytes([(0 if chance(accepted) else 1) if chance(0.98) else draw.choice([2, 255])])


def request(confirmation, usual, state):
    maintained = chance(0.93 if state == 4 else 0.6)
    return terms(usual) + (frame(maintained, confirmation, chance(0.02)) if chance(0.97) else any_frame())


def event(state, mix, usual):
    kind = draw.choices(KINDS, mix)[0]
    octets = bytes([kind])
    if kind in (0x01, 0x02):
        octets += request(kind - 1, usual, state)
    elif kind == 0x10:
        octets += usual if chance(0.8) else draw.choice(TERMS[:2] + [OTHER_TERMS, b"\1\1\0"])
        octets += frame(chance(0.2), draw.choice([0, 1, 1, 2]), chance(0.15)) if chance(0.5) else b""
    elif kind == 0x11:
        octets += result(0.15 if state == 1 else 0.85)
        octets += any_frame() if chance(0.75 if state == 1 else 0.1) else b""
    elif kind == 0x12:
        octets += any_frame()
    elif kind == 0x14:
        octets += result(0.6)
    slip = draw.random()
    if slip < 0.004:
        return b""
    if slip < 0.01:
        return octets[: draw.randrange(1, len(octets) + 1)]
    if slip < 0.016:
        return octets + b"\0"
    return octets[:2048]


def upper(line):
    """One letter in upper case, if there is one."""
    places = [i for i, c in enumerate(line) if c in b"abcdef"]
    if not places:
        return line + b"A0"
    at = draw.choice(places)
    return line[:at] + line[at:at + 1].upper() + line[at + 1:]


def odd(line):
    """One digit too few or too many."""
    at = draw.randrange(len(line) + 1)
    return line[:at - 1] + line[at:] if at and chance(0.5) else line[:at] + b"0" + line[at:]


def empty(line):
    return b""


def carriage_return(line):
    return line + b"\r"


def foreign(line):
    """One character replaced by one that is no digit and no line feed."""
    at = draw.randrange(max(len(line), 1))
    return line[:at] + bytes([draw.choice(NO_DIGITS)]) + line[at + 1:]


def filled(line):
    """4,096 digits: the longest line that is an event, and the two below it."""
    return line + b"0" * (4096 - draw.choice([0, 0, 1, 2]) - len(line))


def too_long(line):
    return line + b"0" * (draw.choice([4097, 4097, 4098, 4098, 4100, 8192, 20000, 65536, 65537, 140000]) - len(line))


def doubled(line):
    """A line feed in the middle."""
    at = draw.randrange(len(line) + 1)
    return line[:at] + b"\n" + line[at:]


NO_DIGITS = [c for c in range(256) if c not in b"0123456789abcdef\n"]
DAMAGES = [upper, odd, empty, carriage_return, foreign, filled, too_long, doubled]
WEIGHTS = [2, 2, 2, 2, 3, 1, 0.3, 1]
DAMAGED = 0.04  # the share of lines
ENDINGS = ["line_feed_last", "no_line_feed_last", "cut_anywhere", "long_line_last"]


def damage(line, met):
    how = draw.choices(DAMAGES, WEIGHTS)[0]
    met[how.__name__] += 1
    return how(line)


def ending(text, met):
    """The input's end: as it is, without the last line feed, anywhere in the last 20 octets, or a long line without its line feed."""
    kind = draw.choice(ENDINGS)
    met[kind] += 1
    if kind == "long_line_last":
        return text + b"04" * draw.choice([2047, 2048, 2049, 32768, 50000])
    if kind == "line_feed_last":
        return text
    return text[:-1] if kind == "no_line_feed_last" else text[:-draw.randrange(1, min(21, len(text) + 1))]


class Asked:
    """The reference, asked line by line while a session is drawn: it tells the state."""

    def __init__(self, reference):
        self.child = subprocess.Popen([reference], stdin=subprocess.PIPE, stdout=subprocess.PIPE)

    def state(self, lines):
        """The state after these lines, each with its line feed."""
        self.child.stdin.write(lines)
        self.child.stdin.flush()
        for _ in range(lines.count(b"\n")):
            answer = b"--"
            while answer[:2] != b"f0":
                answer = self.child.stdout.readline()
                assert answer, "the reference stopped"
        return int(answer[2:])

    def leave(self):
        self.child.stdin.close()
        self.child.stdout.close()
        self.child.wait()


def session(number, count, met, reference):
    """A good setup and so many events."""
    limits = struct.pack(">HHH", draw.choice([2, 3, 60]), draw.choice([1, 2, 60]), draw.choice([2, 3, 300]))
    usual = draw.choice(TERMS[:2])
    lines = [(b"\0" + limits + draw.randbytes(draw.choice([1, 2, 32]))).hex().encode() + b"\n"]
    asked = Asked(reference)
    state = asked.state(lines[0])
    for _ in range(count):
        line = event(state, LONG if state == 4 and number % 2 else MIXES[state], usual).hex().encode()
        lines.append((damage(line, met) if chance(DAMAGED) else line) + b"\n")
        state = asked.state(lines[-1])
    asked.leave()
    return ending(b"".join(lines), met)


def opening(met):
    """A first line, good or bad in its octets or in its text, and a few events after it."""
    limits = [draw.choice([0, 1, 256, 65535]) if chance(0.3) else 60 for _ in range(3)]
    octets = bytes([0 if chance(0.95) else draw.choice([1, 4, 255])]) + struct.pack(">HHH", *limits)
    octets += draw.randbytes(draw.choice([0, 1, 2, 31, 32, 33, 34, 255, 256, 257]) if chance(0.5) else 2)
    if chance(0.05):
        octets = octets[:draw.randrange(len(octets))]
    line = octets.hex().encode()
    text = (damage(line, met) if chance(0.2) else line) + b"\n"
    text += b"".join(event(0, MIXES[0], TERMS[0]).hex().encode() + b"\n" for _ in range(draw.choice([0, 1, 5])))
    return ending(text, met) if chance(0.2) else text


def cut(text, number):
    """By the session's number: not at all, or into pieces of random length, up to a length that the number chooses."""
    most = [len(text) + 1, 100000, 5000, 400][number % 4]
    pieces, at = [], 0
    while at < len(text):
        size = draw.randrange(1, most) if number % 4 else most
        pieces.append(text[at:at + size])
        at += size
    return pieces


# What the sessions must have met: each line, each state, each refusal that a listing can meet; each way to damage a line or to end the input.
LINES = "20 21 22 23 24 25 30 31 32 33 34 35 f000 f001 f002 f003 f004 ff01 ff02 ff03 ff04 ff05 ff07 ff08".split()
TEXTS = [how.__name__ for how in DAMAGES] + ENDINGS


def main():
    program, reference, sessions, count = sys.argv[1], sys.argv[2], int(sys.argv[3]), int(sys.argv[4])
    met, octets, events, pieces = collections.Counter(), 0, 0, 0
    for number in range(1, 2 * sessions + 1):
        draw.seed(number)
        text = session(number, count, met, reference) if number <= sessions else opening(met)
        parts = cut(text, number)
        status, said = feed.in_pieces(program, parts)
        _, wanted = feed.whole(reference, text)
        if said != wanted:
            print(f"compare: the session of seed {number} differs: {feed.first_difference(text, said, wanted)}")
            return 1
        if status != 0:
            print(f"compare: the session of seed {number} ended with {status}")
            return 1
        octets, pieces = octets + len(text), pieces + len(parts)
        lines = wanted.decode().split()
        events += sum(line[:2] == "f0" for line in lines) - (lines[0] == "f000")
        met.update(line if line[0] == "f" else line[:2] for line in lines)
    refused = sum(n for kind, n in met.items() if kind[:2] == "ff")
    print(f"compare: {2 * sessions} sessions, {events} events, {refused} of them refused, {octets} octets in {pieces} pieces")
    for kinds in (LINES, TEXTS):
        print("compare: " + ", ".join(f"{kind} {met[kind]}" for kind in kinds))
    missed = [kind for kind in LINES + TEXTS if not met[kind]]
    if missed:
        print(f"compare: no session met {' '.join(missed)}")
    if refused * 3 > events:
        print("compare: more than a third of the events were refused")
    return 1 if missed or refused * 3 > events else 0


sys.exit(main())
