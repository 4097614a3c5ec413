"""Prints random keys for check-recovery.sh: keys.py COUNT. They make lines of 60 letters, with moves and erasures."""

import random, sys

random.seed(2)  # the same keys in each run
for n in range(int(sys.argv[1])):
    sys.stdout.buffer.write(b"\r" if n % 61 == 60 else random.choice([b"a", b"b", b" ", "\u05d0".encode(), "\u0628".encode(), b"\x1b[D", b"\x7f"]))
