"""Runs a listing program on given octets, for the outside checks."""
import fcntl
import os
import select
import struct
import subprocess
import termios
import threading
import time

PATIENCE = 120  # seconds; a program that hangs is killed, and its status shows it


def whole(program, octets):
    """All octets at once. Gives the exit status and what was printed."""
    done = subprocess.run([program], input=octets, stdout=subprocess.PIPE, timeout=PATIENCE)
    return done.returncode, done.stdout


def in_pieces(program, pieces):
    """One piece after the other, each only when the one before has been read: no read of the program goes past the end of a piece."""
    child = subprocess.Popen([program], stdin=subprocess.PIPE, stdout=subprocess.PIPE, bufsize=0)
    timer = threading.Timer(PATIENCE, child.kill)
    timer.start()
    writer = threading.Thread(target=_write, args=(child.stdin, pieces))
    writer.start()
    said = b"".join(iter(lambda: child.stdout.read(1 << 16), b""))
    writer.join()
    status = child.wait()
    timer.cancel()
    child.stdout.close()
    return status, said


def _write(stdin, pieces):
    watch = select.poll()
    watch.register(stdin, 0)  # tells only that the other end is closed
    try:
        for piece in pieces:
            while struct.unpack("i", fcntl.ioctl(stdin, termios.FIONREAD, b"\0" * 4))[0]:
                if watch.poll(0):
                    return
                time.sleep(0)
            while piece:
                piece = piece[os.write(stdin.fileno(), piece):]
    except BrokenPipeError:
        pass  # the program stopped reading, as after ff07
    finally:
        stdin.close()


def first_difference(given, said, wanted):
    """In words: the event whose lines differ first, and both answers."""
    ours, theirs = said.split(b"\n"), wanted.split(b"\n")
    at = next((i for i, (a, b) in enumerate(zip(ours, theirs)) if a != b), min(len(ours), len(theirs)))
    event = sum(line[:2] == b"f0" for line in theirs[:at])
    text = (given.split(b"\n") + [b""])[event] if event < len(given.split(b"\n")) else b""
    return (f"input line {event + 1}, {text[:120]!r} ({len(text)} characters); output line {at + 1} "
            f"is {(ours + [b''])[at][:120]!r}, not {(theirs + [b''])[at][:120]!r}")
