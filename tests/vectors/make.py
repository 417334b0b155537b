#!/usr/bin/env python3
"""make.py ORACLE: writes the stored inputs of crates/test_vectors, recipe texts and damaged ones, and their outputs.
make.py ORACLE --check: writes nothing, and fails where what is stored differs from what is made.

ORACLE is the program `oracle` of tests/compare, an independent reading of the contract: the stored outputs are what it
says, so that the checker is never held against itself. It must give the answers that were worked out by hand too."""
import sys

sys.dont_write_bytecode = True

import importlib
import io
import pathlib
import subprocess
import tempfile

from recipes import TOP, gathered, lines

MODULES = "base short_laws command_log letter_case two_faults halves".split()
CRATE = TOP / "crates" / "test_vectors"
EVERY_BYTE = lines("horizon=1/fluent=pq/end=/state=pq/act=/state=pq/end=/").encode()
# With each byte value as the first byte and as the second one of the name.
WITH_BYTES = {f"{label} {value}": EVERY_BYTE[:place] + bytes([value]) + EVERY_BYTE[place + 1 :]
              for value in range(256) for label, place in (("first byte", 17), ("byte", 18))}


def outputs(oracle, inputs):
    """What the oracle says of each input."""
    with tempfile.TemporaryDirectory() as folder:
        paths = [pathlib.Path(folder, str(number)) for number in range(len(inputs))]
        for path, text in zip(paths, inputs.values()):
            path.write_bytes(text)
        said = io.BytesIO(subprocess.run([oracle, *paths], stdout=subprocess.PIPE, check=True).stdout)
    return {name: said.read(int(said.readline())) for name in inputs}


def make(oracle, cases):
    """Each file to be stored, by its path in the crate. A case is a text and how its output ends."""
    texts = {name: text.encode("latin-1") for name, (text, _) in cases.items()}
    said = outputs(oracle, texts | WITH_BYTES)
    for name, (_, ending) in cases.items():
        assert said[name].decode().endswith(ending), (name, ending, said[name])
    files = {f"data/{name}": text for name, text in texts.items()} | {"data/every_byte": EVERY_BYTE}
    files["args"] = "".join(f"{name}\n" for name in cases).encode()
    return files | {"stdout": b"".join(f"{name}\n".encode() + output for name, output in said.items())}


def main():
    check = {(): False, ("--check",): True}[tuple(sys.argv[2:])]
    made = gathered(*(importlib.import_module(name).CASES for name in MODULES))
    cases = {name: case if isinstance(case, tuple) else (case, "") for name, case in made.items()}
    files = make(sys.argv[1], cases)
    kept = [*(CRATE / "data").iterdir(), CRATE / "args", CRATE / "stdout"]
    stored = {str(path.relative_to(CRATE)): path.read_bytes() for path in kept}
    differing = [name for name in sorted(files.keys() | stored.keys()) if files.get(name) != stored.get(name)]
    if check and differing:
        sys.exit(f"vectors: stored otherwise than made: {', '.join(differing)}")
    for name in differing:
        (CRATE / name).unlink(missing_ok=True)
        if name in files:
            (CRATE / name).write_bytes(files[name])
    stated = sum(ending != "" for _, ending in cases.values())
    print(f"vectors: {len(cases)} inputs, {stated} with stated answers, and one with each byte value in two places")


if __name__ == "__main__":
    main()
