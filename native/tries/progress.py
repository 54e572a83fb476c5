#!/usr/bin/env python3
"""Says what a recording shows on a terminal: progress.py SECONDS COMMAND ..

The command has a new terminal as its outputs, and gets SIGTERM so many seconds after it has first shown how far it
is, or after a minute. What is printed: how often its progress was shown; whether that began in the second second or
later, whether its three numbers rise, whether the line was cleared at the end; and all else that came, as one word a
line."""

import os
import pty
import re
import signal
import subprocess
import sys
import time

SHOWN = re.compile(rb"\rrecording: (\d+) accesses, (\d+) MB, (\d+) turns\x1b\[K\r")
CLEARED = b"\r\x1b[K"
MOST_SECONDS = 60


def read_pieces(
    terminal: int, seconds: float, run: "subprocess.Popen[bytes]"
) -> list[tuple[float, bytes]]:
    """What comes from the command until it has ended, each piece with its time."""
    pieces: list[tuple[float, bytes]] = []
    is_over, until = False, time.monotonic() + MOST_SECONDS
    os.set_blocking(terminal, False)
    while True:
        try:
            piece = os.read(terminal, 1 << 16)
        except BlockingIOError:
            piece = b""
        except OSError:  # (nobody has the terminal any more)
            return pieces
        if piece:
            if b"recording: " in piece and not any(SHOWN.search(it) for _, it in pieces):
                until = time.monotonic() + seconds
            pieces.append((time.monotonic(), piece))
            continue
        if run.poll() is not None:
            return pieces
        if time.monotonic() > until and not is_over:
            is_over = True
            run.send_signal(signal.SIGTERM)
        time.sleep(0.02)


def main(seconds: float, command: list[str]) -> None:
    own, other = pty.openpty()
    began = time.monotonic()
    run = subprocess.Popen(command, stdin=subprocess.DEVNULL, stdout=other, stderr=other)
    os.close(other)
    pieces = read_pieces(own, seconds, run)
    run.wait()
    text = b"".join(piece for _, piece in pieces)
    first = next((at for at, piece in pieces if b"recording: " in piece), began)
    rows = [tuple(map(int, it)) for it in SHOWN.findall(text)]
    rises = all(
        one[0] < two[0] and one[1] <= two[1] and one[2] < two[2] for one, two in zip(rows, rows[1:])
    )
    rest = SHOWN.sub(b"", text)
    print(f"shown {len(rows)}")
    print("in the first second" if rows and first - began < 1 else "later")
    print("rises" if rises and rows and min(rows[-1]) >= 0 else "doesn't rise")
    print(
        "cleared" if rows and text.rfind(CLEARED) >= text.rfind(b"turns\x1b[K\r") + 8 else "stays"
    )
    print(*rest.replace(CLEARED, b"").decode().split(), sep="\n")


if __name__ == "__main__":
    main(float(sys.argv[1]), sys.argv[2:])
