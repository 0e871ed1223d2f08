"""Makes the inputs of the measurement: documents of one kind of command each, the same on every run."""
import random
import sys
from pathlib import Path

SIZE = 2_000_000


def data(random_bytes):
    return bytes([random_bytes.randrange(63, 127)])


def repeat(random_bytes):
    return b"!%d%c" % (random_bytes.randrange(1, 2049), random_bytes.randrange(63, 127))


def define(random_bytes):
    percents = ";".join(str(random_bytes.randrange(101)) for _ in range(3))
    return b"#%d;2;%s" % (random_bytes.randrange(16), percents.encode())


def select(random_bytes):
    return b"#%d%c" % (random_bytes.randrange(16), random_bytes.randrange(63, 127))


KINDS = {"data": data, "repeats": repeat, "definitions": define, "selects": select}


def main():
    folder = Path(sys.argv[1])
    folder.mkdir(parents=True, exist_ok=True)
    for name, command in KINDS.items():
        random_bytes = random.Random(name)
        parts = [b'\x1bPq"1;1;2048;2048']
        length = len(parts[0])
        while length < SIZE:
            part = command(random_bytes)
            parts.append(part)
            length += len(part)
        parts.append(b"\x1b\\")
        (folder / f"{name}.six").write_bytes(b"".join(parts))
    (folder / "none.six").write_bytes(b"")


main()
