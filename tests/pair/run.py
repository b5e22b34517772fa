"""Demand 3 on the running program: two listing programs joined by a link that is written here from 01's link rules (no code of the model).

run.py LISTING RUNS STEPS makes RUNS random runs of STEPS steps each (fixed seeds): users' events and ticks at both ends, lines delivered in any
order between the two directions, provider aborts, extension fields added to frames on their way. After every step the promises (a) to (e) of
docs/PROMISES.md, `link`, are tested on what the programs printed. It counts what the runs met and fails if something was not met at all, and it
tries itself: with a link that breaks a rule some promise must be seen to fail."""
import collections
import random
import subprocess
import sys

MET = collections.Counter()
WANTED = ["given 20", "given 21", "success", "failed or uncertain", "line 25", "ended in order by 14", "ended in order by 31", "both sent 33",
          "aborted by a unit", "aborted by the provider", "dropped while hung", "left and not told", "start not made (would cross)",
          "identifier used again", "refused request", "dialogues at both ends"]


class Broken(Exception):
    """A promise that does not hold."""


def want(held, promise):
    if not held:
        raise Broken(promise)


def bare(frame):
    """A frame without its extension fields: walked field by field, from 01, "The message frame"."""
    bits, at = frame[0], 2
    at += 1 if bits & 0x40 else 0
    at += 2 if bits & 0x20 else 0
    at += 2 if bits & 0x10 else 0
    if bits & 0x08:
        at += 1 + frame[at]
    if bits & 0x04:
        at += 2 + frame[at] * 256 + frame[at + 1]
    return bytes([bits & 0x7F]) + frame[1:at]


def number_at(frame, reference):
    """The identifier of a frame, or its reference; none where it has none."""
    bits, at = frame[0], 2 + (1 if frame[0] & 0x40 else 0)
    if not reference:
        return frame[at] * 256 + frame[at + 1] if bits & 0x20 else None
    at += 2 if bits & 0x20 else 0
    return frame[at] * 256 + frame[at + 1] if bits & 0x10 else None


def with_fields(draw, frame):
    if not frame or draw.random() < 0.6:
        return frame
    fields = b"".join(bytes([draw.choice([1, 5, 255]), n]) + draw.randbytes(n) for n in draw.choices([0, 1, 3, 40], k=draw.choice([1, 1, 2, 5])))
    return bytes([frame[0] | 0x80]) + frame[1:] + fields if len(frame) + len(fields) <= 1024 else frame


class Log:
    def __init__(self):
        self.handed, self.given, self.told, self.fate = [], [], [], "going"


class End:
    def __init__(self, listing, name, limits):
        self.program = subprocess.Popen([listing], stdin=subprocess.PIPE, stdout=subprocess.PIPE)
        self.state, self.dialogue, self.hung = 0, 0, False
        self.logs, self.accepted, self.answered = collections.defaultdict(Log), [], []
        want(self.say(b"\0" + b"".join(n.to_bytes(2, "big") for n in limits) + name) == [], "set up")

    def say(self, event):
        """Hands the program an event; its output lines, or the number of its refusal."""
        self.program.stdin.write(event.hex().encode() + b"\n")
        self.program.stdin.flush()
        lines = []
        while True:
            line = bytes.fromhex(self.program.stdout.readline().decode().strip())
            if line[0] == 0xF0:
                self.state = line[1]
                return lines
            if line[0] == 0xFF:
                self.program.stdout.readline()
                return line[1]
            lines.append(line)

    def close(self):
        self.program.stdin.close()
        self.program.wait()


class Pair:
    def __init__(self, listing, draw, wrong):
        limits = [(draw.choice([3, 8, 60]), draw.choice([2, 5, 60]), draw.choice([4, 30, 300])) for _ in range(2)]
        self.ends = [End(listing, b"G1", limits[0]), End(listing, b"A9", limits[1])]
        self.toward = [[], []]  # the lines toward each end: (dialogue, event)
        self.next, self.draw, self.wrong = 1, draw, wrong

    # ---- the link's rules

    def inside(self, side, dialogue):
        return self.ends[side].state != 0 and self.ends[side].dialogue == dialogue

    def purge(self, dialogue):
        if self.wrong == "lines stay":
            return
        for queue in self.toward:
            queue[:] = [line for line in queue if line[0] != dialogue]

    def carry(self, side, dialogue, line):
        end = self.ends[side]
        if line[0] == 0x35:
            MET["aborted by a unit"] += 1
            self.purge(dialogue)
            if self.inside(1 - side, dialogue):
                self.ends[1 - side].hung = True
                self.toward[1 - side].insert(0, (dialogue, b"\x15"))
            return
        if end.hung and self.wrong != "hung is heard":
            MET["dropped while hung"] += 1
            return
        self.toward[1 - side].append((dialogue, bytes([line[0] - 0x20]) + line[1:]))

    def act(self, side, lines, log, dialogue):
        """What a unit's lines do to its log and the link."""
        end = self.ends[side]
        for line in lines:
            kind = line[0]
            start = {0x30: 4, 0x31: 2, 0x32: 1}.get(kind)
            if start:
                line = line[:start] + with_fields(self.draw, line[start:])
            if kind in (0x20, 0x21):
                MET["given %02x" % kind] += 1
                log.given.append(line[4:])
            if kind == 0x22:
                MET["success" if line[1] == 0 else "failed or uncertain"] += 1
                end.answered.append(number_at(line[2:], True))
                if line[1] == 0:
                    log.told.append(line[2:])
            if kind == 0x25:
                MET["line 25"] += 1
            if kind in (0x30, 0x32) and len(line) > start and line[start + 1] < 2:
                log.handed.append(line[start:])
            if kind == 0x33 and log.fate == "going":
                log.fate = "asked"
            if kind == 0x35:
                log.fate = "broken"
            if 0x30 <= kind <= 0x35:
                self.carry(side, dialogue, line)

    # ---- the steps

    def user(self, side, event):
        end = self.ends[side]
        idle = end.state == 0
        if idle and event[0] <= 2 and any(line[1][0] == 0x10 for line in self.toward[side]):
            MET["start not made (would cross)"] += 1
            return
        lines = end.say(event)
        if isinstance(lines, int):
            MET["refused request"] += 1
            return
        if idle and event[0] <= 2:
            end.dialogue, end.hung, self.next = self.next, False, self.next + 1
        if event[0] == 2:
            number = number_at(event[4:], False)
            MET["identifier used again"] += number in end.accepted
            end.accepted.append(number)
        self.act(side, lines, end.logs[end.dialogue], end.dialogue)

    def deliver(self, side):
        if not self.toward[side]:
            return
        end, (dialogue, event) = self.ends[side], self.toward[side].pop(0)
        if event[0] != 0x10 and not self.inside(side, dialogue):
            raise Broken("(e) a line comes to an end that has left its dialogue")
        if event[0] == 0x13 and end.state == 3 and self.wrong != "doubled 33":
            MET["both sent 33"] += 1
            event = b"\x14\x00"
        lines = end.say(event)
        want(not isinstance(lines, int), "(e) a delivered line is refused: %s" % event.hex())
        if event[0] == 0x10:
            end.dialogue, end.hung = dialogue, False
        log = end.logs[dialogue]
        if event[:2] == b"\x11\x01" and log.fate == "going":
            log.fate = "turned"
        if event == b"\x14\x00" and log.fate == "asked":
            log.fate = "granted"
        if event[0] in (0x15, 0x16):
            log.fate = "broken"
        self.act(side, lines, log, dialogue)

    def abort(self, side):
        if self.ends[side].state == 0:
            return
        dialogue = self.ends[side].dialogue
        MET["aborted by the provider"] += 1
        both = [self.inside(s, dialogue) for s in (0, 1)]
        MET["left and not told"] += not all(both)
        self.purge(dialogue)
        for s in (0, 1):
            if both[s]:
                self.ends[s].hung = True
                self.ends[s].logs[dialogue].fate = "broken"
                self.toward[s].insert(0, (dialogue, b"\x16"))

    # ---- the promises

    def check(self):
        for dialogue in range(1, self.next):
            logs = [end.logs[dialogue] for end in self.ends]
            fates = [log.fate for log in logs]
            for mine, other in ((logs[0], logs[1]), (logs[1], logs[0])):
                handed = [bare(f) for f in mine.handed]
                want(other.given == handed[: len(other.given)], "(a) what a user is given is a prefix of what was handed over")
                told = [number_at(f, True) for f in mine.told]
                confirmed = [number_at(f, False) for f in other.given if f[1] == 1]
                want(told == confirmed[: len(told)], "(c) a success is of a message that was given")
            if "broken" not in fates and ("turned" in fates or ("granted" in fates and "asked" not in fates)):
                MET["ended in order by " + ("31" if "turned" in fates else "14")] += 1
                want(all(len(logs[1 - s].given) == len(logs[s].handed) for s in (0, 1)), "(b) all are given where the dialogue ended in order")
        for end in self.ends:
            want(end.state != 0 or end.accepted == end.answered, "(d) one answer each")
        MET["dialogues at both ends"] += all(end.state == 4 for end in self.ends)


def request(draw):
    confirmed, maintained = draw.random() < 0.7, draw.random() < 0.75
    bits, fields = (0x01 if maintained else 0) | 0x04, b""
    if draw.random() < 0.3:
        bits, fields = bits | 0x40, draw.randbytes(1)
    if confirmed or draw.random() < 0.3:
        bits, fields = bits | 0x20, fields + draw.choice([1, 7, 9, 300]).to_bytes(2, "big")
    size = draw.choice([0, 1, 2, 512]) if draw.random() < 0.3 else 2
    fields += size.to_bytes(2, "big") + draw.randbytes(size)
    return bytes([2 if confirmed else 1, 2, 3, draw.choice([0, 1, 1, 1, 2]), bits, 1 if confirmed else 0]) + fields


def run(listing, seed, steps, wrong=None):
    draw = random.Random(seed)
    pair = Pair(listing, draw, wrong)
    try:
        for _ in range(steps):
            side, dice = draw.randrange(2), draw.random()
            if dice < 0.30:
                pair.user(side, request(draw))
            elif dice < 0.36:
                pair.user(side, b"\x03")
            elif dice < 0.48:
                pair.user(side, b"\x04")
            elif dice < 0.985:
                pair.deliver(side)
            else:
                pair.abort(side)
            pair.check()
    finally:
        for end in pair.ends:
            end.close()
    return steps


def main():
    listing, runs, steps = sys.argv[1], int(sys.argv[2]), int(sys.argv[3])
    passed = failed = 0
    for seed in range(runs):
        try:
            run(listing, seed, steps)
            passed += 1
        except Broken as promise:
            failed += 1
            print(f"run {seed}: {promise}")
    missing = [name for name in WANTED if not MET[name]]
    print(", ".join(f"{name} {MET[name]}" for name in WANTED))
    failed += len(missing)
    for name in missing:
        print(f"never met: {name}")
    for wrong in ("lines stay", "hung is heard", "doubled 33"):
        noticed = False
        for seed in range(30):
            try:
                run(listing, seed, steps, wrong)
            except Broken:
                noticed = True
                break
        passed, failed = passed + noticed, failed + (not noticed)
        print(f"a link with a broken rule ({wrong}): " + ("noticed" if noticed else "NOT noticed"))
    print(f"{runs} runs of {steps} steps")
    print(f"{passed} passed, {failed} failed")
    return 1 if failed else 0


sys.exit(main())
