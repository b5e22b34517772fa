#!/usr/bin/env python3
"""What `explain` prints, written anew from 01 and from the format of its output (docs/DECISIONS.md, X2): no code shared.

  explain.py < lines                      the explanation, on standard output
  explain.py --make DIR                   makes the stored sessions NAME.in of DIR, and NAME.out beside each
  explain.py --random SEED LINES          LINES random lines: events, output lines, frames, damaged ones
"""
import pathlib
import random
import sys

FAULTS = {11: "over 1,024 octets", 12: "ends before a field is complete",
          13: "bit 1 of octet 0 set, confirmation above 4, or tag 0", 14: "sender length 0 or above 32, data length above 512",
          15: "a needed field is absent", 16: "octets left over with bit 7 clear"}
REASONS = {0: "peer abort", 1: "provider abort", 2: "timer", 3: "rejected", 10: "frame not expected", **FAULTS}
REFUSALS = {1: "the state does not take this event",
            2: "the frame has a fault or extensions, or its confirmation does not fit the kind of transfer",
            3: "a multi-shot request in Associated has terms other than the dialogue's",
            4: "the identifier of this confirmed transfer is already waiting",
            5: "a confirmed transfer while eight identifiers are waiting",
            6: "the lent buffer has fewer than 1,024 octets", 7: "setup is outside its limits",
            8: "no event: kind unknown, body too short or too long, result or RER out of range, or no line of digits",
            9: "the unit handed in is not sound"}
STATES = ["Idle", "Start-single", "Start-multi", "Ending", "Associated"]
CONFIRMATIONS = ["unconfirmedReq", "confirmedReq", "confirmedOk", "confirmedNotOk", "confirmedUnknown"]
DELIVERIES = ["Successful delivery", "Delivery failed", "Service problem - delivery status uncertain"]
RERS = ["not provided", "low", "high"]
RESULTS = ["accepted", "rejected"]
NO_DIGITS = "none: refusal 8: not an even number of lower-case hexadecimal digits, 2 to 4,096, and a line feed"
WRONG_BODY = "none: the kind of an output line, but not its body"


class Fault(Exception):
    pass


def frame(f):
    """The message of a frame, by 01's reading from left to right, or the fault."""
    at = 0

    def take(n):
        nonlocal at
        if len(f) < at + n:
            raise Fault(12)
        at += n
        return f[at - n:at]

    if len(f) > 1024:
        raise Fault(11)
    flags = take(1)[0]
    if flags & 2:
        raise Fault(13)
    confirmation = take(1)[0]
    if confirmation > 4:
        raise Fault(13)
    if confirmation == 1 and not flags & 32 or confirmation >= 2 and flags & 24 != 24:
        raise Fault(15)
    m = {"multi": flags & 1, "confirmation": confirmation}
    if flags & 64:
        m["type"] = take(1)[0]
    for name, bit in ("identifier", 32), ("reference", 16):
        if flags & bit:
            m[name] = int.from_bytes(take(2), "big")
    if flags & 8:
        n = take(1)[0]
        if not 1 <= n <= 32:
            raise Fault(14)
        m["sender"] = take(n)
    if flags & 4:
        n = int.from_bytes(take(2), "big")
        if n > 512:
            raise Fault(14)
        m["data"] = take(n)
    m["extensions"] = 0
    if flags & 128:
        while at < len(f) or not m["extensions"]:
            if take(1)[0] == 0:
                raise Fault(13)
            take(take(1)[0])
            m["extensions"] += 1
    elif at < len(f):
        raise Fault(16)
    return m


def shown(s):
    first, more = s[:32], " ..." if len(s) > 32 else ""
    if all(32 <= c <= 126 and c not in b'"\\' for c in first):
        return '"' + first.decode() + '"' + more
    return "octets " + first.hex() + more


def said(f):
    """A frame in words."""
    try:
        m = frame(f)
    except Fault as e:
        return f"fault {e.args[0]}: {FAULTS[e.args[0]]}"
    words = ["maintained" if m["multi"] else "single", CONFIRMATIONS[m["confirmation"]]]
    for name, word in ("type", "type"), ("identifier", "message"), ("reference", "answers message"):
        if name in m:
            words.append(f"{word} {m[name]}")
    if "sender" in m:
        words.append("from " + shown(m["sender"]))
    if "data" in m:
        words.append(f"user data of length {len(m['data'])}: {shown(m['data'])}")
    if m["extensions"]:
        words.append(f"extension fields: {m['extensions']}")
    return ", ".join(words)


def some(f):
    return said(f) if f else "no frame"


def answered(f):
    try:
        m = frame(f)
    except Fault:
        return ""
    return f" of message {m['reference']}" if "reference" in m else ""


def terms(s):
    return f"class {s[1]}, priority {s[2]}, residual error rate {RERS[s[3]]}"


def refusal(n):
    return f"none: refusal {n}: {REFUSALS[n]}"


def event(s):
    kind, alone = s[0], {3: "G-END", 4: "one tick", 0x13: "D-END indication", 0x15: "D-ABORT indication", 0x16: "D-P-ABORT indication"}
    if kind in alone and len(s) == 1:
        return "in: " + alone[kind]
    if kind in (1, 2) and len(s) >= 4 and s[3] <= 2:
        return f"in: {'confirmed ' * (kind - 1)}transfer; {terms(s)}; {said(s[4:])}"
    if kind == 0x10 and len(s) >= 4 and 1 <= s[3] <= 2:
        return f"in: D-START indication; {terms(s)}; {some(s[4:])}"
    if kind == 0x11 and len(s) >= 2 and s[1] <= 1:
        return f"in: D-START confirmation; {RESULTS[s[1]]}; {some(s[2:])}"
    if kind == 0x12:
        return "in: D-DATA indication; " + said(s[1:])
    if kind == 0x14 and len(s) == 2 and s[1] <= 1:
        return "in: D-END confirmation; " + RESULTS[s[1]]
    return refusal(8)


def setup(s):
    limits = [int.from_bytes(s[i:i + 2], "big") for i in (1, 3, 5)]
    if not 8 <= len(s) <= 39 or 0 in limits:
        return refusal(7)
    return f"in: setup; limits start {limits[0]}, end {limits[1]}, inactivity {limits[2]} ticks; name {shown(s[7:])}"


def output(s):
    kind, n = s[0], len(s)
    if kind in (0x20, 0x21) and n >= 4 and 1 <= s[3] <= 2:
        return f"out: {'confirmed ' * (kind - 0x20)}transfer indication; {terms(s)}; {said(s[4:])}"
    if kind == 0x22 and n >= 2 and s[1] <= 2:
        return f"out: confirmation{answered(s[2:])}: {DELIVERIES[s[1]]}; {said(s[2:])}"
    if kind == 0x23 and n == 1:
        return "out: end"
    if kind in (0x24, 0x35) and n == 2 and s[1] in REASONS:
        return f"out: {'lost' if kind == 0x24 else 'D-ABORT request'}; reason {s[1]}: {REASONS[s[1]]}"
    if kind == 0x25 and n == 3:
        return f"out: extension fields seen: {int.from_bytes(s[1:], 'big')}"
    if kind == 0x30 and n >= 4 and 1 <= s[3] <= 2:
        return f"out: D-START request; {terms(s)}; {some(s[4:])}"
    if kind == 0x31 and n >= 2 and s[1] <= 1:
        return f"out: D-START response; {RESULTS[s[1]]}; {some(s[2:])}"
    if kind == 0x32:
        return "out: D-DATA request; " + said(s[1:])
    if kind == 0x33 and n == 1:
        return "out: D-END request"
    if kind == 0x34 and n == 2 and s[1] <= 1:
        return "out: D-END response; " + RESULTS[s[1]]
    if kind == 0xf0 and n == 2 and s[1] <= 4:
        return "state: " + STATES[s[1]]
    if kind == 0xff and n == 2 and s[1] in REFUSALS:
        return f"refused, {s[1]}: {REFUSALS[s[1]]}"
    return WRONG_BODY


def octets(line):
    if line and len(line) % 2 == 0 and len(line) <= 4096 and all(c in b"0123456789abcdef" for c in line):
        return bytes.fromhex(line.decode())
    return None


def explain(line):
    if line.startswith(b"frame "):
        f = octets(line[6:])
        return NO_DIGITS if f is None else "frame: " + said(f)
    s = octets(line)
    if s is None:
        return NO_DIGITS
    if s[0] == 0:
        return setup(s)
    if s[0] in (*range(0x20, 0x26), *range(0x30, 0x36), 0xf0, 0xff):
        return output(s)
    return event(s)


def explanation(text):
    *lines, rest = text.split(b"\n")
    words = [explain(line) for line in lines] + ([NO_DIGITS] if rest else [])
    return "".join(w + "\n" for w in words).encode()


# ---- frames and lines to try

def build(multi=1, confirmation=0, kind=None, identifier=None, reference=None, sender=None, data=None, extensions=()):
    flags, body = multi, b""
    for bit, v, put in ((64, kind, lambda v: bytes([v])), (32, identifier, lambda v: v.to_bytes(2, "big")), (16, reference, lambda v: v.to_bytes(2, "big")),
                        (8, sender, lambda v: bytes([len(v)]) + v), (4, data, lambda v: len(v).to_bytes(2, "big") + v)):
        if v is not None:
            flags, body = flags | bit, body + put(v)
    for tag, v in extensions:
        flags, body = flags | 128, body + bytes([tag, len(v)]) + v
    return bytes([flags, confirmation]) + body


def stored():
    """The stored sessions: each kind, fault, reason, refusal, state, and damaged lines."""
    h = lambda *parts: "".join(p if isinstance(p, str) else p.hex() for p in parts)
    sheet, tick = build(1, 1, identifier=7, data=b"OK"), build(1, 2, reference=7, sender=b"A9")
    full = build(0, 0, kind=5, identifier=65535, reference=0, sender=b"a" * 32, data=b"load sheet, revision 2, of flight 12 to 9")
    odd = build(1, 3, kind=255, identifier=10, reference=100, sender=b"\x00\x9f", data=bytes(range(33)), extensions=((1, b""), (9, b"xyz")))
    frames = [sheet, tick, full, odd, build(0, 4, reference=999, sender=b'"'), build(0, 0), build(0, 0, data=b""), build(0, 0, data=b"\\"),
              build(1, 0, data=b" ~"), build(1, 0, data=b"\x1f"), build(1, 0, data=b"\x7f"), build(1, 0, data=b"#[]!"), build(1, 0, data=bytes(range(35, 67))), build(1, 0, data=b"x" * 512),
              build(1, 1, kind=0, identifier=0), build(1, 1, identifier=9999), build(1, 1, identifier=10000), build(1, 0, extensions=((255, b"q" * 255),) * 3),
              build(1, 0, extensions=((1, b""),) * 511)]
    faulty = ["00" * 1025, "00", "02", "0005", "000006", "8000", "800000", "80000100", "800001", "8000010501", "0001", "0802", "1003", "000000", "04000000", "04000200",
              "04000201", "080000", "080021", "080002aa", "4000", "200001", "100001", "a001000701"]
    yield "inputs", [h("00003c003c012c", b"G1"), h("0000010001ffff", b"n" * 32), h("000001000100014731"[:-4], b"\xff"), h("01020300", build(0, 0, data=b"R1")), h("02020301", sheet),
                     h("02ffff02", sheet), "03", "04", "10000001", h("10010202", build(0, 1, identifier=3)), "1100", "1101", h("1101", build(0, 2, reference=3, sender=b"B")),
                     h("12", tick), "12", "13", "1400", "1401", "15", "16"]
    yield "outputs", [h("20020301", build(1, 0, data=b"R1")), h("21020302", sheet), h("2200", tick), h("2201", build(1, 3, reference=9, sender=b"A9")),
                      h("2202", build(0, 4, reference=65535, sender=b"G1")), h("2200", build(0, 0)), "2200", "23", "250001", "25ffff", "30020301", h("30020302", sheet), "3100", "3101",
                      h("3101", tick), h("32", sheet), "33", "3400", "3401"]
    yield "reasons", [k + f"{n:02x}" for k in ("24", "35") for n in (0, 1, 2, 3, 10, 11, 12, 13, 14, 15, 16)]
    yield "refusals", [f"ff{n:02x}" for n in range(1, 10)]
    yield "states", [f"f0{n:02x}" for n in range(5)]
    yield "frames", ["frame " + f.hex() for f in frames]
    yield "faults", ["frame " + f for f in faulty] + ["12" + f for f in faulty] + ["01020301" + f for f in faulty]
    yield "damaged", ["", "0", "0g", "0G", "AA", "0A", "04 ", " 04", "04\r", "frame", "frame ", "frame  00", "Frame 0000", "frame 0", "frame 000", "frames 0000", "é", "04" * 2048, "04" * 2049,
                      "12" + "00" * 2047, "frame " + "00" * 2048, "frame " + "00" * 2049, "x" * 5000, "00", "00003c003c012c", "000000003c012c4731", "00003c0000012c4731", "00003c003c00004731",
                      "00003c003c012c" + "41" * 33, "0101", "010203", "01020303", "02020303", "0300", "0400", "10020300", "10020303", "100203", "11", "1102", "1300", "14", "1402", "140000",
                      "1500", "1600", "05", "17", "1f", "26", "2f", "36", "40", "ef", "f1", "fe", "20", "200203", "20020300", "20020303", "21020300", "22", "2203", "2300", "24", "2404", "2409",
                      "2411", "240000", "25", "2500", "25000000", "30", "30020300", "30020303", "31", "3102", "32", "3300", "34", "3402", "340000", "35", "3504", "350200", "f0", "f005",
                      "f00000", "ff", "ff00", "ff0a", "ff0100"]


def random_octets(r):
    return r.choice([bytes(r.randrange(256) for _ in range(r.choice([0, 1, 2, 5, 31, 32]))), bytes(r.randrange(30, 130) for _ in range(r.randrange(1, 40)))[:32],
                     b"load sheet " + bytes([r.randrange(48, 58)])])


def random_frame(r):
    opt = lambda v: v if r.random() < .5 else None
    f = build(r.randrange(2), r.choice([0, 1, 2, 3, 4, r.randrange(256)]), opt(r.randrange(256)), opt(r.randrange(65536)), opt(r.randrange(65536)),
              opt(random_octets(r) or b"A"), opt(random_octets(r) * r.choice([1, 1, 2, 16])), [(r.randrange(256), random_octets(r)) for _ in range(r.choice([0, 0, 0, 1, 4]))])
    return damaged(r, f) if r.random() < .3 else f


def damaged(r, s):
    s = bytearray(s)
    for _ in range(r.randrange(1, 3)):
        how = r.randrange(3)
        if how == 0 and s:
            s[r.randrange(len(s))] = r.randrange(256)
        elif how == 1:
            s = s[:r.randrange(len(s) + 1)]
        else:
            s += bytes(r.randrange(256) for _ in range(r.randrange(1, 4)))
    return bytes(s)


def random_line(r):
    kind = r.choice([0, 1, 2, 3, 4, *range(0x10, 0x17), *range(0x20, 0x26), *range(0x30, 0x36), 0xf0, 0xff, r.randrange(256)])
    body = {0: lambda: bytes(r.choice([0, 0, 1, 60, 255]) for _ in range(6)) + random_octets(r)}
    for k in (1, 2, 0x10, 0x20, 0x21, 0x30):
        body[k] = lambda: bytes([r.randrange(256), r.randrange(256), r.randrange(4)]) + r.choice([b"", random_frame(r)])
    for k in (0x11, 0x22, 0x31):
        body[k] = lambda: bytes([r.randrange(4)]) + r.choice([b"", random_frame(r)])
    for k in (0x12, 0x32):
        body[k] = lambda: random_frame(r)
    for k in (0x14, 0x24, 0x34, 0x35, 0xf0, 0xff):
        body[k] = lambda: bytes([r.randrange(20)])
    body[0x25] = lambda: bytes([r.randrange(256), r.randrange(256)])
    s = bytes([kind]) + body.get(kind, lambda: b"")()
    if r.random() < .1:
        s = damaged(r, s)
    line = s.hex().encode() if r.random() < .8 else b"frame " + random_frame(r).hex().encode()
    if r.random() < .05:
        line = damaged(r, line).replace(b"\n", b"?")
    if r.random() < .01:
        line *= r.randrange(1, 200)
    return line


if __name__ == "__main__":
    if sys.argv[1:2] == ["--make"]:
        for name, lines in stored():
            text = "".join(line + "\n" for line in lines).encode()
            text += b"04" if name == "damaged" else b""
            pathlib.Path(sys.argv[2], name + ".in").write_bytes(text)
            pathlib.Path(sys.argv[2], name + ".out").write_bytes(explanation(text))
    elif sys.argv[1:2] == ["--random"]:
        r = random.Random(int(sys.argv[2]))
        sys.stdout.buffer.write(b"".join(random_line(r) + b"\n" for _ in range(int(sys.argv[3]))) + r.choice([b"", b"04", b"x" * 6000]))
    else:
        sys.stdout.buffer.write(explanation(sys.stdin.buffer.read()))
