"""The stored sessions: what goes in, what 01 says must come out, and what each shows.

make.py REFERENCE          writes NAME.in, NAME.out and README.md next to this file.
make.py REFERENCE --check  writes nothing; says which of them aren't what it would write.

Every answer below is written by hand from 01, never taken from the proved program. REFERENCE, the listing program of the independent
implementation, is asked as well: where it doesn't agree with the hand, nothing is written.

Notation, one event a line: `event -> output line, output line`. Spaces don't count, 'text' stands for its octets, 00*5 for 00 five times, and
everything from # on is a remark. An event's line `f0..` is the last of its output lines. [NAME] stands for an entry of MACROS."""
import os
import re
import subprocess
import sys

HERE = os.path.dirname(os.path.abspath(__file__))
SESSIONS = []  # name, what it shows, octets in, octets out
MACROS = {
    "setup": "00 003c 003c 012c 'G1' -> f000",
    # Ways into a state.
    "single": "01 020301 0000 -> 30 020301 0000, f001",
    "single 7": "02 020301 20 01 0007 -> 30 020301 20 01 0007, f001",
    "multi": "01 020301 0100 -> 30 020301, f002",
    "multi 7": "02 020301 21 01 0007 -> 30 020301, f002",
    "associated": "10 020301 -> 3100, f004",
    "ending": "10 020301 -> 3100, f004 \n 03 -> 33, f003",
    "send 7": "02 020301 21 01 0007 -> 32 21 01 0007, f004",
    "send 9": "02 020301 21 01 0009 -> 32 21 01 0009, f004",
    # Answers made locally: reference, sender, confirmedUnknown or confirmedNotOk; single in state 1 and else maintained.
    "unknown 7 single": "22 02 18 04 0007 02 'G1'",
    "unknown 7": "22 02 19 04 0007 02 'G1'",
    "unknown 9": "22 02 19 04 0009 02 'G1'",
    "failed 7": "22 01 19 03 0007 02 'G1'",
}


def hexa(text):
    text = re.sub(r"'([^']*)'", lambda m: m.group(1).encode().hex(), text)
    text = re.sub(r"\b([0-9a-f]+)\*([0-9]+)", lambda m: m.group(1) * int(m.group(2)), text)
    text = "".join(text.split())
    assert re.fullmatch("(?:[0-9a-f]{2})*", text), text
    return text


def session(name, shows, script):
    script = re.sub(r"#.*", "", script)
    for _ in range(2):
        script = re.sub(r"\[([^\]]*)\]", lambda m: MACROS[m.group(1)], script)
    given, wanted = "", ""
    for line in script.split("\n"):
        if line.strip():
            event, answer = line.split("->")
            given += hexa(event) + "\n"
            wanted += "".join(hexa(part) + "\n" for part in answer.split(",") if part.strip())
    raw(name, shows, given.encode(), wanted.encode())


def raw(name, shows, given, wanted):
    """A session as its very octets; a wanted text in words is one output line a word."""
    if isinstance(wanted, str):
        wanted = "".join(word + "\n" for word in wanted.split()).encode()
    assert name not in [s[0] for s in SESSIONS], name
    SESSIONS.append((name, shows, given, wanted))


# ---------------------------------------------------------------- whole sessions

raw("01-session", "the session that 01 prints", b"""\
00003c003c012c4731
020203002501000700024f4b
1100
1219020007024139
03
1400
""", b"""\
f000
30020301
f002
322501000700024f4b
f004
220019020007024139
f004
33
f003
f000
""")

session("two-load-sheets", "two revised load sheets: the confirmation of 9 answers 9; 7 was still waiting, as its uncertain answer shows", """
[setup]
02 020300 25 01 0007 0007 'sheet 1' -> 30 020301, f002
11 00 -> 32 25 01 0007 0007 'sheet 1', f004
02 020300 25 01 0009 0007 'sheet 2' -> 32 25 01 0009 0007 'sheet 2', f004
12 19 02 0009 02 'A9' -> 22 00 19 02 0009 02 'A9', f004
04 -> f004
16 -> [unknown 7], 24 01, f000
""")

session("two-load-sheets-both-answered", "the same two sheets answered in the other order, then by no one: a repeated confirmation shows nothing", """
[setup]
02 020300 25 01 0007 0007 'sheet 1' -> 30 020301, f002
11 00 -> 32 25 01 0007 0007 'sheet 1', f004
02 020300 25 01 0009 0007 'sheet 2' -> 32 25 01 0009 0007 'sheet 2', f004
12 19 02 0009 02 'A9' -> 22 00 19 02 0009 02 'A9', f004
12 19 02 0009 02 'A9' -> f004
12 19 03 0007 02 'A9' -> 22 01 19 03 0007 02 'A9', f004
12 19 02 0007 02 'A9' -> f004
03 -> 33, f003
14 00 -> f000
""")

# ---------------------------------------------------------------- every event in every state

session("state-0-idle", "Idle: every kind of event, taken or refused", """
[setup]
[single]                            # 01 single
16 -> 24 01, f000
[multi]                             # 01 multi: the frame is kept
16 -> 24 01, f000
[single 7]                          # 02 single
16 -> [unknown 7 single], 24 01, f000
[multi 7]                           # 02 multi
16 -> [unknown 7], 24 01, f000
03 -> ff01, f000
04 -> f000
[associated]                        # 10 without a frame
16 -> 24 01, f000
10 020301 0000 -> 20 020301 0000, 31 01, f000
10 020302 20 01 0007 -> 21 020302 20 01 0007, 31 01 18 02 0007 02 'G1', f000
10 020301 60 01 05 0007 -> 21 020301 60 01 05 0007, 31 01 58 02 05 0007 02 'G1', f000   # with a type
10 020301 0100 -> 35 0a, f000                        # maintained
10 020301 21 01 0007 -> 35 0a, f000                  # maintained
10 020301 18 02 0007 02 'A9' -> 35 0a, f000          # a confirmation
10 020301 00 05 -> 35 0d, f000                       # faulty
11 00 -> ff01, f000
11 00 18 02 0007 02 'A9' -> ff01, f000
11 01 -> ff01, f000
11 01 18 02 0007 02 'A9' -> ff01, f000
12 0000 -> ff01, f000
12 -> ff01, f000
13 -> ff01, f000
14 00 -> ff01, f000
14 01 -> ff01, f000
15 -> ff01, f000
16 -> ff01, f000
""")

session("state-1-start-single", "Start-single: every kind of event, with 7 waiting and with nobody waiting", """
[setup]
[single 7]
01 020301 0000 -> ff01, f001
01 020301 0100 -> ff01, f001
02 020301 20 01 0009 -> ff01, f001
02 020301 21 01 0009 -> ff01, f001
03 -> ff01, f001
04 -> f001
10 020301 -> ff01, f001
10 020301 0000 -> ff01, f001
12 0000 -> ff01, f001
12 18 02 0007 02 'A9' -> ff01, f001
13 -> ff01, f001
14 00 -> ff01, f001
14 01 -> ff01, f001
11 00 -> 35 0a, [unknown 7 single], 24 0a, f000
[single 7]
11 00 18 02 0007 02 'A9' -> 35 0a, [unknown 7 single], 24 0a, f000    # the frame unread
[single 7]
11 01 -> [unknown 7 single], f000                                     # no frame: uncertain
[single 7]
11 01 18 02 0007 02 'A9' -> 22 00 18 02 0007 02 'A9', f000            # rejected is the normal carrier
[single 7]
11 01 18 03 0007 02 'A9' -> 22 01 18 03 0007 02 'A9', f000
[single 7]
11 01 18 04 0007 02 'A9' -> 22 01 18 04 0007 02 'A9', f000
[single 7]
11 01 0000 -> 22 01 0000, f000                                        # any valid frame: else failed
[single 7]
11 01 00 05 -> [unknown 7 single], f000                               # a faulty frame: uncertain
[single 7]
15 -> [unknown 7 single], 24 00, f000
[single 7]
16 -> [unknown 7 single], 24 01, f000
[single]                                                              # nobody waits
11 00 -> 35 0a, 24 0a, f000
[single]
11 00 18 02 0007 02 'A9' -> 35 0a, 24 0a, f000
[single]
11 01 -> f000
[single]
11 01 18 02 0007 02 'A9' -> f000
[single]
11 01 00 05 -> f000
[single]
15 -> 24 00, f000
[single]
16 -> 24 01, f000
""")

session("state-2-start-multi", "Start-multi: every kind of event, with 7 waiting and with nobody waiting", """
[setup]
[multi 7]
01 020301 0000 -> ff01, f002
01 020301 0100 -> ff01, f002
02 020301 20 01 0009 -> ff01, f002
02 020301 21 01 0009 -> ff01, f002
02 020301 21 01 0007 -> ff01, f002
03 -> ff01, f002
04 -> f002
10 020301 -> ff01, f002
10 020301 0000 -> ff01, f002
12 0100 -> ff01, f002
12 19 02 0007 02 'A9' -> ff01, f002
13 -> ff01, f002
14 00 -> ff01, f002
14 01 -> ff01, f002
11 00 -> 32 21 01 0007, f004                                          # the kept frame is sent
16 -> [unknown 7], 24 01, f000
[multi 7]
11 00 19 02 0007 02 'A9' -> 35 0a, [unknown 7], 24 0a, f000           # unread
[multi 7]
11 00 00 -> 35 0a, [unknown 7], 24 0a, f000                           # faulty, but unread: still 10
[multi 7]
11 01 -> [failed 7], 24 03, f000
[multi 7]
11 01 19 02 0007 02 'A9' -> [failed 7], 24 03, f000                   # the frame isn't read
[multi 7]
15 -> [unknown 7], 24 00, f000
[multi 7]
16 -> [unknown 7], 24 01, f000
[multi]                                                               # nobody waits
11 00 -> 32 0100, f004
16 -> 24 01, f000
[multi]
11 00 0100 -> 35 0a, 24 0a, f000
[multi]
11 01 -> 24 03, f000
[multi]
11 01 19 02 0007 02 'A9' -> 24 03, f000
[multi]
15 -> 24 00, f000
[multi]
16 -> 24 01, f000
""")

session("state-3-ending", "Ending: every kind of event; it takes data and confirmations but acknowledges nothing", """
[setup]
[ending]
01 020301 0000 -> ff01, f003
01 020301 0100 -> ff01, f003
02 020301 20 01 0007 -> ff01, f003
02 020301 21 01 0007 -> ff01, f003
03 -> ff01, f003
04 -> f003
10 020301 -> ff01, f003
10 020301 0000 -> ff01, f003
11 00 -> ff01, f003
11 00 0100 -> ff01, f003
11 01 -> ff01, f003
11 01 0100 -> ff01, f003
12 0100 -> 20 020301 0100, f003
12 21 01 0009 -> 21 020301 21 01 0009, f003                           # no acknowledgement
12 19 02 0007 02 'A9' -> f003                                         # nobody waits for it
13 -> ff01, f003
14 01 -> f004                                                         # rejected: back to Associated
03 -> 33, f003
14 00 -> f000
[ending]
15 -> 24 00, f000
[ending]
16 -> 24 01, f000
[ending]
12 00 05 -> 35 0d, 24 0d, f000
[associated]                                                          # with 7 waiting
[send 7]
03 -> 33, f003
12 19 02 0007 02 'A9' -> 22 00 19 02 0007 02 'A9', f003               # Ending takes confirmations too
14 00 -> f000
[associated]
[send 7]
03 -> 33, f003
14 00 -> [unknown 7], f000
[associated]
[send 7]
03 -> 33, f003
14 01 -> f004                                                         # 7 goes on waiting
12 19 04 0007 02 'A9' -> 22 01 19 04 0007 02 'A9', f004
03 -> 33, f003
14 00 -> f000
""")

session("state-4-associated", "Associated: every kind of event", """
[setup]
[associated]
01 020301 0000 -> ff01, f004
01 020301 0100 -> 32 0100, f004
02 020301 20 01 0007 -> ff01, f004
[send 7]
04 -> f004
10 020301 -> ff01, f004
10 020301 0000 -> ff01, f004
11 00 -> ff01, f004
11 00 0100 -> ff01, f004
11 01 -> ff01, f004
11 01 0100 -> ff01, f004
12 0100 -> 20 020301 0100, f004
12 0000 -> 20 020301 0000, f004
12 21 01 0009 -> 21 020301 21 01 0009, 32 19 02 0009 02 'G1', f004
12 20 01 0009 -> 21 020301 20 01 0009, 32 18 02 0009 02 'G1', f004            # the received multiShot bit
12 61 01 05 0009 -> 21 020301 61 01 05 0009, 32 59 02 05 0009 02 'G1', f004   # the received type
12 19 02 0009 02 'A9' -> f004                                                 # nobody waits for 9
12 19 02 0007 02 'A9' -> 22 00 19 02 0007 02 'A9', f004
12 19 02 0007 02 'A9' -> f004
14 00 -> ff01, f004
14 01 -> ff01, f004
03 -> 33, f003
14 01 -> f004
13 -> 34 00, 23, f000
[associated]
[send 7]
[send 9]
13 -> 34 00, [unknown 7], [unknown 9], 23, f000
[associated]
12 00 05 -> 35 0d, 24 0d, f000
[associated]
15 -> 24 00, f000
[associated]
16 -> 24 01, f000
""")

# ---------------------------------------------------------------- refusals

session("refusal-1-state", "refusal 1: the state doesn't take this event; the state stays", """
[setup]
03 -> ff01, f000
[single]
13 -> ff01, f001
16 -> 24 01, f000
[multi]
03 -> ff01, f002
11 00 -> 32 0100, f004
14 00 -> ff01, f004
03 -> 33, f003
11 00 -> ff01, f003
""")

session("refusal-2-frame", "refusal 2: the frame of 01 or 02 has each fault, extensions, or another confirmation", """
[setup]
01 020301 8000 01ff 00*1021 -> ff02, f000         # 1,025 octets: 11
01 020301 -> ff02, f000                           # the empty frame: 12
01 020301 00 -> ff02, f000                        # 12
01 020301 04 00 0200 -> ff02, f000                # 12
01 020301 02 00 -> ff02, f000                     # bit 1: 13
01 020301 00 05 -> ff02, f000                     # 13
01 020301 08 00 00 -> ff02, f000                  # sender of 0: 14
01 020301 08 00 21 00*33 -> ff02, f000            # sender of 33: 14
01 020301 04 00 0201 00*513 -> ff02, f000         # data of 513: 14
02 020301 00 01 -> ff02, f000                     # no identifier: 15
01 020301 00 00 00 -> ff02, f000                  # left over: 16
01 020301 80 00 01 00 -> ff02, f000               # extensions
02 020301 a0 01 0007 01 00 -> ff02, f000          # extensions
01 020301 20 01 0007 -> ff02, f000                # 01 with confirmedReq
02 020301 20 00 0007 -> ff02, f000                # 02 with unconfirmedReq
01 020301 18 02 0007 02 'A9' -> ff02, f000        # 01 with confirmedOk
02 020301 38 02 0007 0007 02 'A9' -> ff02, f000   # 02 with confirmedOk
""")

session("refusal-3-terms", "refusal 3: a multi-shot request in Associated has terms other than the dialogue's", """
[setup]
[associated]
01 030301 0100 -> ff03, f004                      # class
01 020401 0100 -> ff03, f004                      # priority
01 020302 0100 -> ff03, f004                      # RER
02 020302 21 01 0007 -> ff03, f004
01 020301 0100 -> 32 0100, f004
01 020300 0100 -> 32 0100, f004                   # not provided counts as low
15 -> 24 00, f000
10 020302 -> 31 00, f004                          # a dialogue of high RER
01 020300 0100 -> ff03, f004
01 020301 0100 -> ff03, f004
01 020302 0100 -> 32 0100, f004
""")

session("refusal-4-already-waiting", "refusal 4: the identifier of an 02 is already waiting; free again once answered", """
[setup]
[multi 7]
11 00 -> 32 21 01 0007, f004
02 020301 21 01 0007 -> ff04, f004
01 020301 21 00 0007 -> 32 21 00 0007, f004       # an 01 doesn't wait
12 19 02 0007 02 'A9' -> 22 00 19 02 0007 02 'A9', f004
[send 7]
02 020301 21 01 0007 -> ff04, f004
""")

EIGHT = "".join(f"02 020301 21 01 000{i} -> 32 21 01 000{i}, f004\n" for i in range(1, 9))

REST = ", ".join(f"22 02 19 04 000{i} 02 'G1'" for i in (1, 2, 4, 5, 6, 7, 8, 9))

session("refusal-5-eight-waiting",
        "refusal 5: eight identifiers wait and the ninth is refused; 01 is still taken; room is free again once one is answered", f"""
[setup]
[associated]
{EIGHT}
02 020301 21 01 0009 -> ff05, f004
01 020301 0100 -> 32 0100, f004
01 020301 21 00 0009 -> 32 21 00 0009, f004
02 020301 21 01 0009 -> ff05, f004
12 19 02 0003 02 'A9' -> 22 00 19 02 0003 02 'A9', f004
02 020301 21 01 0009 -> 32 21 01 0009, f004
02 020301 21 01 0003 -> ff05, f004
16 -> {REST}, 24 01, f000
""")

session("refusal-8-form", "refusal 8: kind unknown, body too short, octets too many, result or RER out of range", """
[setup]
00 -> ff08, f000
00 003c 003c 012c 'G1' -> ff08, f000              # a second setup is an unknown kind
05 -> ff08, f000
0f -> ff08, f000
17 -> ff08, f000
20 020301 0000 -> ff08, f000
ff -> ff08, f000
01 -> ff08, f000
01 02 -> ff08, f000
01 0203 -> ff08, f000
02 -> ff08, f000
02 0203 -> ff08, f000
10 -> ff08, f000
10 0203 -> ff08, f000
11 -> ff08, f000
14 -> ff08, f000
03 00 -> ff08, f000
04 00 -> ff08, f000
13 00 -> ff08, f000
14 00 00 -> ff08, f000
15 00 -> ff08, f000
16 00 -> ff08, f000
11 02 -> ff08, f000
11 ff -> ff08, f000
14 02 -> ff08, f000
01 020303 0000 -> ff08, f000
02 0203ff 20 01 0007 -> ff08, f000
10 020300 -> ff08, f000                           # RER 0 is for 01 and 02 only
10 020303 -> ff08, f000
10 020300 0000 -> ff08, f000
""")

session("refusal-order", "the order of the refusals: 8 before 2 before 1 before 3 before 4 before 5, and 8 before 1", f"""
[setup]
01 020303 00 05 -> ff08, f000                     # 8 before 2
11 02 -> ff08, f000                               # 8 before 1
14 00 00 -> ff08, f000                            # 8 before 1
[single]
01 020301 00 05 -> ff02, f001                     # 2 before 1
02 020301 0100 -> ff02, f001                      # 2 before 1
16 -> 24 01, f000
[associated]
{EIGHT}
01 020402 0000 -> ff01, f004                      # 1 before 3
02 020402 20 01 0001 -> ff01, f004                # 1 before 3, 4 and 5
02 020402 21 01 0001 -> ff03, f004                # 3 before 4 and 5
02 020402 21 01 0009 -> ff03, f004                # 3 before 5
02 020301 21 01 0001 -> ff04, f004                # 4 before 5
02 020301 21 01 0009 -> ff05, f004
""")

session("refusal-changes-nothing", "a refused event doesn't set elapsed to 0, a taken one in Associated does", """
00 0002 0002 0002 'G1' -> f000
[associated]
04 -> f004
01 020302 0100 -> ff03, f004                      # refused: elapsed stays 1
03 00 -> ff08, f004
04 -> 33, f003
14 01 -> f004
04 -> f004
01 020301 0100 -> 32 0100, f004                   # taken: elapsed 0
04 -> f004
12 0100 -> 20 020301 0100, f004                   # taken: elapsed 0
04 -> f004
12 19 02 0007 02 'A9' -> f004                     # taken, though nobody waits
04 -> f004
04 -> 33, f003
""")

# ---------------------------------------------------------------- falls

session("fall-timer", "the timer: at its limit a fall from Start-single, Start-multi and Ending; from Associated line 33 and Ending", """
00 0002 0003 0004 'G1' -> f000
[single 7]
04 -> f001
04 -> 35 02, [unknown 7 single], 24 02, f000
04 -> f000
[single]
04 -> f001
04 -> 35 02, 24 02, f000
[multi 7]
04 -> f002
04 -> 35 02, [unknown 7], 24 02, f000
[multi]
04 -> f002
04 -> 35 02, 24 02, f000
[associated]
[send 7]
[send 9]
04 -> f004
04 -> f004
04 -> f004
04 -> 33, f003                                    # inactivity; the change of state sets elapsed to 0
04 -> f003
04 -> f003
04 -> 35 02, [unknown 7], [unknown 9], 24 02, f000
""")

session("fall-timer-limit-1", "limits of 1: the first tick is the last", """
00 0001 0001 0001 'G1' -> f000
04 -> f000
[single]
04 -> 35 02, 24 02, f000
[multi]
04 -> 35 02, 24 02, f000
[associated]
04 -> 33, f003
04 -> 35 02, 24 02, f000
""")

session("fall-timer-ending-goes-on", "a D-DATA indication in Ending doesn't set elapsed to 0", """
00 003c 0002 012c 'G1' -> f000
[ending]
04 -> f003
12 0100 -> 20 020301 0100, f003
04 -> 35 02, 24 02, f000
""")

session("fall-aborts", "D-ABORT (reason 0) and D-P-ABORT (reason 1) in states 1 to 4: no line 35, waiting ones uncertain in sending order", """
[setup]
[single 7]
15 -> [unknown 7 single], 24 00, f000
[single 7]
16 -> [unknown 7 single], 24 01, f000
[multi 7]
15 -> [unknown 7], 24 00, f000
[multi 7]
16 -> [unknown 7], 24 01, f000
[associated]
[send 9]
[send 7]
03 -> 33, f003
15 -> [unknown 9], [unknown 7], 24 00, f000
[associated]
[send 9]
[send 7]
03 -> 33, f003
16 -> [unknown 9], [unknown 7], 24 01, f000
[associated]
[send 7]
[send 9]
15 -> [unknown 7], [unknown 9], 24 00, f000
[associated]
[send 9]
[send 7]
16 -> [unknown 9], [unknown 7], 24 01, f000
""")

FAULTY = [("8000 01ff 00*1021", "0b"), ("", "0c"), ("00", "0c"), ("80 00", "0c"), ("04 00 0200", "0c"), ("18 02 0007 02 'A'", "0c"),
          ("02", "0d"), ("00 05", "0d"), ("80 00 00", "0d"), ("08 00 00", "0e"), ("08 00 21", "0e"), ("04 00 0201", "0e"),
          ("00 01", "0f"), ("00 02", "0f"), ("10 03 0007", "0f"), ("08 04 02 'A9'", "0f"), ("00 00 00", "10")]

session("fall-frame-faults", "a faulty D-DATA indication in Associated and in Ending: a fall with 35, each fault 11 to 16", "[setup]\n" + "".join(
    f"[associated]\n[send 7]\n12 {frame} -> 35 {fault}, [unknown 7], 24 {fault}, f000\n"
    f"[associated]\n[send 7]\n03 -> 33, f003\n12 {frame} -> 35 {fault}, [unknown 7], 24 {fault}, f000\n"
    for frame, fault in FAULTY))

session("start-frame-faults", "a faulty frame in a D-START indication: 35 with each fault 11 to 16, no line 24, still Idle", "[setup]\n" + "".join(
    f"10 020301 {frame} -> 35 {fault}, f000\n" for frame, fault in FAULTY if frame))

session("answer-frame-faults", "a faulty frame in a rejected D-START confirmation: uncertain, whichever fault", "[setup]\n" + "".join(
    f"[single 7]\n11 01 {frame} -> [unknown 7 single], f000\n" for frame, fault in FAULTY))

session("fall-not-expected", "reason 10: a D-START indication with a frame of no single request, a D-START confirmation with what isn't expected", """
[setup]
10 020301 0100 -> 35 0a, f000
10 020301 21 01 0007 -> 35 0a, f000
10 020301 18 02 0007 02 'A9' -> 35 0a, f000
10 020301 18 03 0007 02 'A9' -> 35 0a, f000
10 020301 19 04 0007 02 'A9' -> 35 0a, f000
[single 7]
11 00 -> 35 0a, [unknown 7 single], 24 0a, f000
[single 7]
11 00 18 02 0007 02 'A9' -> 35 0a, [unknown 7 single], 24 0a, f000
[multi 7]
11 00 19 02 0007 02 'A9' -> 35 0a, [unknown 7], 24 0a, f000
[multi 7]
11 00 ff -> 35 0a, [unknown 7], 24 0a, f000
""")

# ---------------------------------------------------------------- frames

session("extensions-in-start", "extension fields in a D-START indication: line 25 first, the frame without them", """
[setup]
10 020301 80 00 01 00 -> 25 0001, 20 020301 00 00, 31 01, f000
10 020301 a0 01 0007 01 00 ff 02 aabb 01 01 00 -> 25 0003, 21 020301 20 01 0007, 31 01 18 02 0007 02 'G1', f000
10 020301 81 00 01 00 -> 25 0001, 35 0a, f000     # valid, but not expected
10 020301 80 00 -> 35 0c, f000                    # faulty: no line 25
10 020301 80 00 01 00 00 -> 35 0d, f000
10 020301 80 00 01 00 01 -> 35 0c, f000
10 020301 80 00 01 02 00 -> 35 0c, f000
""")

session("extensions-in-start-answer", "extension fields in a D-START confirmation: line 25 where the frame is read, none where it isn't", """
[setup]
[single 7]
11 01 98 02 0007 02 'A9' 01 00 -> 25 0001, 22 00 18 02 0007 02 'A9', f000
[single 7]
11 01 98 03 0007 02 'A9' 02 01 00 02 00 -> 25 0002, 22 01 18 03 0007 02 'A9', f000
[single]
11 01 98 02 0007 02 'A9' 01 00 -> f000            # nobody waits: not read
[single 7]
11 00 98 02 0007 02 'A9' 01 00 -> 35 0a, [unknown 7 single], 24 0a, f000
[multi 7]
11 01 99 02 0007 02 'A9' 01 00 -> [failed 7], 24 03, f000
""")

session("extensions-in-data",
        "extension fields in a D-DATA indication, one, several and 511; line 25 alone where nobody waits for the confirmation", """
[setup]
[associated]
12 81 00 01 00 -> 25 0001, 20 020301 01 00, f004
12 a1 01 0009 01 00 02 03 aabbcc -> 25 0002, 21 020301 21 01 0009, 32 19 02 0009 02 'G1', f004
12 99 02 0007 02 'A9' ff 00 -> 25 0001, f004
[send 7]
12 99 02 0007 02 'A9' ff 00 01 00 01 00 -> 25 0003, 22 00 19 02 0007 02 'A9', f004
12 80 00 0100*511 -> 25 01ff, 20 020301 00 00, f004
03 -> 33, f003
12 a1 01 0009 01 00 -> 25 0001, 21 020301 21 01 0009, f003
12 99 02 0007 02 'A9' 01 00 -> 25 0001, f003
""")

session("extensions-in-request", "extension fields in an 01 or 02: refusal 2 and no line 25, in Idle and in Associated", """
[setup]
01 020301 80 00 01 00 -> ff02, f000
01 020301 81 00 01 00 -> ff02, f000
02 020301 a0 01 0007 01 00 -> ff02, f000
[associated]
01 020301 81 00 01 00 -> ff02, f004
02 020301 a1 01 0007 01 00 ff 00 -> ff02, f004
""")

session("rer-0-is-low", "RER 0 counts as low: lines 30, 20 and 21 show 1, and it is equal to 1 in Associated", """
[setup]
01 020300 0000 -> 30 020301 0000, f001
16 -> 24 01, f000
02 020300 20 01 0007 -> 30 020301 20 01 0007, f001
16 -> [unknown 7 single], 24 01, f000
01 020300 0100 -> 30 020301, f002
11 00 -> 32 0100, f004
12 0100 -> 20 020301 0100, f004
12 21 01 0009 -> 21 020301 21 01 0009, 32 19 02 0009 02 'G1', f004
01 020301 0100 -> 32 0100, f004
02 020300 21 01 0007 -> 32 21 01 0007, f004
16 -> [unknown 7], 24 01, f000
01 ff0002 0100 -> 30 ff0002, f002                 # any class and priority; high stays high
11 00 -> 32 0100, f004
12 0100 -> 20 ff0002 0100, f004
""")

session("frame-values", "identifier 0, type 0 and data of no octets are ordinary values", """
[setup]
02 020301 65 01 00 0000 0000 -> 30 020301, f002
11 00 -> 32 65 01 00 0000 0000, f004
12 19 02 0001 02 'A9' -> f004
12 19 02 0000 02 'A9' -> 22 00 19 02 0000 02 'A9', f004
12 05 00 0000 -> 20 020301 05 00 0000, f004
12 61 01 00 0000 -> 21 020301 61 01 00 0000, 32 59 02 00 0000 02 'G1', f004
02 020301 21 01 ffff -> 32 21 01 ffff, f004
15 -> 22 02 19 04 ffff 02 'G1', 24 00, f000
""")

LONGEST = "7d 01 05 0007 0009 20 41*32 0200 42*512"

session("frame-longest", "the longest edition 1 frame, 554 octets, kept, sent and received; a frame of 1,024 octets; one of 1,025", f"""
00 003c 003c 012c 58*32 -> f000
02 020301 {LONGEST} -> 30 020301, f002
11 00 -> 32 {LONGEST}, f004
12 {LONGEST} -> 21 020301 {LONGEST}, 32 59 02 05 0007 20 58*32, f004
12 fd{LONGEST[2:]} 01 ff 00*255 02 d3 00*211 -> 25 0002, 21 020301 {LONGEST}, 32 59 02 05 0007 20 58*32, f004
12 fd{LONGEST[2:]} 01 ff 00*255 02 d4 00*212 -> 35 0b, 22 02 19 04 0007 20 58*32, 24 0b, f000
""")

# ---------------------------------------------------------------- the first line

SETUP = b"00003c003c012c4731\n"
AFTER = SETUP + b"04\n10020301\n"  # what must not be looked at after ff07

raw("setup-no-input", "no input at all: ff07", b"", "ff07")
raw("setup-only-line-feed", "the input is one line feed: an empty first line", b"\n", "ff07")
raw("setup-empty-line", "an empty first line; the good setup after it is ignored", b"\n" + AFTER, "ff07")
raw("setup-alone", "a good setup and nothing else", SETUP, "f000")
raw("setup-no-line-feed", "a good setup without its line feed", SETUP[:-1], "ff07")
raw("setup-wrong-kind", "the first line is an event", b"04\n" + AFTER, "ff07")
raw("setup-wrong-kind-same-form", "the first line is like a setup but for its kind", b"01003c003c012c4731\n" + AFTER, "ff07")
raw("setup-kind-alone", "the first line is the kind alone", b"00\n" + AFTER, "ff07")
raw("setup-cut", "the first line ends inside the limits", b"00003c003c01\n" + AFTER, "ff07")
raw("setup-start-limit-0", "start limit 0", b"000000003c012c4731\n" + AFTER, "ff07")
raw("setup-end-limit-0", "end limit 0", b"00003c0000012c4731\n" + AFTER, "ff07")
raw("setup-inactivity-limit-0", "inactivity limit 0", b"00003c003c00004731\n" + AFTER, "ff07")
raw("setup-no-name", "a name of no octets", b"00003c003c012c\n" + AFTER, "ff07")
raw("setup-name-33", "a name of 33 octets", b"00003c003c012c" + b"41" * 33 + b"\n" + AFTER, "ff07")
raw("setup-name-32", "a name of 32 octets, seen in an acknowledgement", b"00003c003c012c" + b"41" * 32 + b"\n1002030120010007\n",
    "f000 2102030120010007 31011802000720" + "41" * 32 + " f000")
raw("setup-name-1", "a name of one octet, 00, seen in an acknowledgement", b"00003c003c012c00\n1002030120010007\n",
    "f000 2102030120010007 3101180200070100 f000")
raw("setup-limits-1", "all limits 1", b"0000010001000141\n04\n", "f000 f000")
raw("setup-limits-65535", "all limits 65,535", b"00ffffffffffff41\n10020301\n04\n", "f000 3100 f004 f004")
raw("setup-odd-count", "an odd count of digits in the first line", b"00003c003c012c473\n" + AFTER, "ff07")
raw("setup-upper-case", "an upper-case digit in the first line", b"00003C003c012c4731\n" + AFTER, "ff07")
raw("setup-foreign-character", "a foreign character in the first line", b"00003c003c012c47g1\n" + AFTER, "ff07")
raw("setup-carriage-return", "a carriage return in the first line", b"00003c003c012c4731\r\n" + AFTER, "ff07")
raw("setup-too-long", "a first line of 4,098 digits", b"00003c003c012c" + b"41" * 2042 + b"\n" + AFTER, "ff07")
raw("setup-too-long-no-line-feed", "a first line of 5,000 digits without its line feed", b"00" * 2500, "ff07")

# ---------------------------------------------------------------- the rules of later lines

raw("line-empty", "empty lines, one and two in a row, and as the last one",
    SETUP + b"\n04\n\n\n04\n\n", "f000 ff08 f000 f000 ff08 f000 ff08 f000 f000 ff08 f000")
raw("line-odd-count", "an odd count of digits: one, three, and an event with one too many or too few",
    SETUP + b"0\n040\n10020301\n04\n120\n1201000\n4\n",
    "f000 ff08 f000 ff08 f000 3100 f004 f004 ff08 f004 ff08 f004 ff08 f004")
raw("line-foreign-character", "a foreign character first, in the middle and last; a space; g, the slash, the colon, the grave accent, the at sign",
    SETUP + b"g4\n0g\n 04\n04 \n0 4\n0x04\n1002g301\n/4\n0:\n0`\n@4\n04\n",
    "f000" + " ff08 f000" * 11 + " f000")
raw("line-upper-case", "upper-case digits are foreign", SETUP + b"10Ab0301\n10AB0301\n10aB0301\n10ab0301\n",
    "f000 ff08 f000 ff08 f000 ff08 f000 3100 f004")
raw("line-carriage-return", "a carriage return before the line feed, alone, and in the middle", SETUP + b"04\r\n\r\n04\r04\n04\n",
    "f000 ff08 f000 ff08 f000 ff08 f000 f000")
raw("line-nul-and-ff", "octets 00 and ff in the text, and every other octet that is no digit",
    SETUP + b"0\x00\n\x00\x00\n\xff4\n\xff\xff\n" + b"".join(
    bytes([0x30, c]) + b"\n" for c in range(256) if c not in b"0123456789abcdef\n") + b"04\n",
    "f000" + " ff08 f000" * (4 + 256 - 17) + " f000")


def digits(start, count):
    """A line's digits: the start, filled with zeros."""
    return start + b"0" * (count - len(start))


raw("line-4096-digits", "4,096 digits are an event: taken in Idle, in Start-single (unread) and in Associated, refused by its content",
    SETUP + digits(b"10020301", 4096) + b"\n" + digits(b"01020301", 4096) + b"\n" + b"010203010000\n" + digits(b"1101", 4096) + b"\n"
    + b"10020301\n" + digits(b"12", 4096) + b"\n" + digits(b"04", 4096) + b"\n",
    "f000 350b f000 ff02 f000 300203010000 f001 f000 3100 f004 350b 240b f000 ff08 f000")
raw("line-4095-digits", "4,095 digits are an odd count, 4,094 an event",
    SETUP + digits(b"10020301", 4095) + b"\n" + digits(b"10020301", 4094) + b"\n",
    "f000 ff08 f000 350b f000")
raw("line-4097-digits", "4,097 digits are refused; the next line is read from its start", SETUP + digits(b"10020301", 4097) + b"\n10020301\n",
    "f000 ff08 f000 3100 f004")
raw("line-4098-digits", "4,098 digits are refused, where 4,096 of them were an event; the next line is read from its start",
    SETUP + digits(b"10020301", 4098) + b"\n10020301\n" + digits(b"12", 4098) + b"\n04\n", "f000 ff08 f000 3100 f004 ff08 f004 f004")
raw("line-4096-foreign", "4,096 characters, the last one foreign", SETUP + digits(b"10020301", 4095) + b"g\n04\n", "f000 ff08 f000 f000")
raw("line-200000-digits", "200,000 digits are one refusal, whatever the reads are", SETUP + digits(b"04", 200000) + b"\n04\n10020301\n",
    "f000 ff08 f000 f000 3100 f004")
raw("line-block-edges", "long lines of 65,535, 65,536 and 65,537 digits with events between them", SETUP + b"10020301\n"
    + b"".join(digits(b"04", n) + b"\n04\n120100\n" for n in (65535, 65536, 65537)), "f000 3100 f004" + " ff08 f004 f004 200203010100 f004" * 3)
raw("last-line-event", "the last line is an event without its line feed: refusal 8, not taken", SETUP + b"10020301\n03", "f000 3100 f004 ff08 f004")
raw("last-line-garbage", "the last line is garbage without its line feed", SETUP + b"10020301\n03\nzz", "f000 3100 f004 33 f003 ff08 f003")
raw("last-line-one-digit", "the last line is one digit without its line feed", SETUP + b"0", "f000 ff08 f000")
raw("last-line-carriage-return", "the last line is a carriage return without a line feed", SETUP + b"04\n\r", "f000 f000 ff08 f000")
raw("last-line-long", "the last line has 5,000 digits and no line feed: one refusal", SETUP + digits(b"04", 5000), "f000 ff08 f000")
raw("last-line-very-long", "the last line has 70,000 digits and no line feed: one refusal",
    SETUP + b"04\n" + digits(b"04", 70000), "f000 f000 ff08 f000")
raw("last-line-after-long-line", "the last line is an event without its line feed, after a long line",
    SETUP + digits(b"04", 70000) + b"\n04", "f000 ff08 f000 ff08 f000")
raw("last-line-after-long-line-ended", "a long line with its line feed is the last: one refusal, not two",
    SETUP + digits(b"04", 70000) + b"\n", "f000 ff08 f000")


# ---------------------------------------------------------------- writing

def readme():
    rows = "".join(f"- `{name}`: {shows}\n" for name, shows, _, _ in SESSIONS)
    return f"""# Stored sessions

Each session is `NAME.in`, the exact octets on the listing program's standard input, and `NAME.out`, the exact octets that it must print.
`tests/checks/30-sessions` runs the proved program on each of them. `make.py` holds them in readable form, with every answer written by hand from
01; it writes the files, and this page, only where the independent implementation (`tests/reference`) gives the same answers. No answer was taken
from the proved program.

Refusals 6 and 9 can't be met by a listing: the program lends its own buffer, which is always large enough, and hands in only units that it got from
setup or from the event before, which are sound. Refusal 7 is met by a first line only; all `setup-*` sessions that print `ff07` show it.

{rows}"""


def main():
    reference, check = sys.argv[1], sys.argv[2:] == ["--check"]
    files = {"README.md": readme().encode()}
    bad = 0
    for name, _, given, wanted in SESSIONS:
        said = subprocess.run([reference], input=given, stdout=subprocess.PIPE, check=True).stdout
        if said != wanted:
            bad += 1
            ours, theirs = wanted.decode().split("\n"), said.decode().split("\n")
            at = next((i for i, (a, b) in enumerate(zip(ours, theirs)) if a != b), min(len(ours), len(theirs)))
            print(f"{name}: the hand and the reference differ at output line {at + 1}: {ours[at:at + 3]} and {theirs[at:at + 3]}")
        files[name + ".in"], files[name + ".out"] = given, wanted
    stored = {f for f in os.listdir(HERE) if f.endswith((".in", ".out"))}
    if check:
        for name in sorted(stored - set(files)):
            bad += 1
            print(f"{name} is stored, but make.py doesn't write it")
        for name, octets in files.items():
            path = os.path.join(HERE, name)
            if not os.path.isfile(path) or open(path, "rb").read() != octets:
                bad += 1
                print(f"{name} isn't what make.py writes")
    elif bad == 0:
        for name in stored - set(files):
            os.remove(os.path.join(HERE, name))
        for name, octets in files.items():
            with open(os.path.join(HERE, name), "wb") as f:
                f.write(octets)
    print(f"{len(SESSIONS)} sessions, {bad} faults")
    return 1 if bad else 0


sys.exit(main())
