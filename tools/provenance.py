"""What a program says of itself, and what is known of the program that tools/prove made.

A program has words in its version that say how it was made: rt leaves those of the sources there, and tools/build-unproved, tools/prove and
tools/install write others over them, in as many bytes. Beside a proved program stands a record: the digest of the program, and that of the sources that
were proved. So tools/install knows by content, and not by times, whether a program is that of these sources.

    python3 tools/provenance.py      status 0 where crates/volcano/out/proved/volcano was proved of the sources as they stand, else 1 and why not
"""
import hashlib
import json
import os
import re
import sys

ROOT = os.path.dirname(os.path.dirname(os.path.realpath(__file__)))
PARTS = ("src", "specs", "proofs")
# The words in a program's version: as the sources have them, and what is written over them.
MADE = b"made here by rt; tools/prove marks a proved one"
NOT_PROVED = b"not proved here; tools/prove makes a proved one"
PROVED = b"proved here; tools/install puts its commit here"
assert len({len(MADE), len(NOT_PROVED), len(PROVED)}) == 1


def proved_path(name):
    return f"{ROOT}/crates/{name}/out/proved/{name}"


def record_path(name):
    return f"{ROOT}/crates/{name}/out/proved/record.json"


def marked(program, words):
    """The bytes of a program with these words in place of those of its sources."""
    if MADE not in program:
        raise ValueError("the program has no place for the words that say how it was made")
    return program.replace(MADE, words)


def lines_of_crates():
    """By name, the lines of crates.txt."""
    with open(f"{ROOT}/crates.txt", encoding="utf-8") as file:
        lines = [line.split("#")[0].strip() for line in file]
    return {re.split(r"[ :]", line, maxsplit=1)[0]: line for line in lines if line}


def crates_below(name):
    """The names of a crate and of all crates of the repository that it stands on."""
    lines, found, left = lines_of_crates(), set(), [name]
    while left:
        crate = left.pop()
        if crate in lines and crate not in found:
            found.add(crate)
            left += lines[crate].partition(":")[2].split()
    return sorted(found)


def files_of(crate):
    """The paths of all files that a crate is made and proved of, from the top of the repository."""
    for part in PARTS:
        for folder, folders, names in os.walk(f"{ROOT}/crates/{crate}/{part}"):
            folders.sort()
            for name in sorted(names):
                yield os.path.relpath(f"{folder}/{name}", ROOT)


def digest_of_sources(name):
    """The digest of all that a program is made and proved of: its crates' lines and files, by path and content."""
    digest = hashlib.sha256()
    lines = lines_of_crates()
    for crate in crates_below(name):
        digest.update(lines[crate].encode() + b"\n")
        for path in files_of(crate):
            with open(f"{ROOT}/{path}", "rb") as file:
                digest.update(f"{path} {hashlib.sha256(file.read()).hexdigest()}\n".encode())
    return digest.hexdigest()


def written(path, content, rights):
    """Writes a file beside its place and then moves it there, so that it is whole or the old one."""
    os.makedirs(os.path.dirname(path), exist_ok=True)
    with open(f"{path}.new", "wb") as file:
        file.write(content)
    os.chmod(f"{path}.new", rights)
    os.replace(f"{path}.new", path)


def keep_proved(name, made, sources, toolchain):
    """Puts the program in the file `made`, which was proved of sources with this digest, where proved programs are, with its record."""
    with open(made, "rb") as file:
        program = marked(file.read(), PROVED)
    if os.path.exists(record_path(name)):
        os.remove(record_path(name))
    written(proved_path(name), program, 0o755)
    record = {"program": hashlib.sha256(program).hexdigest(), "sources": sources, "toolchain": toolchain}
    written(record_path(name), json.dumps(record, indent=1).encode() + b"\n", 0o644)


def why_not_proved(name):
    """Why the proved program is not that of the sources as they stand, or None where it is."""
    try:
        with open(record_path(name), encoding="utf-8") as file:
            record = json.load(file)
        with open(proved_path(name), "rb") as file:
            program = hashlib.sha256(file.read()).hexdigest()
        recorded = record["program"], record["sources"]
    except (OSError, ValueError, KeyError, TypeError):
        return f"there is no proved program {proved_path(name)} with a record"
    if recorded[0] != program:
        return f"{proved_path(name)} is not the program that was proved"
    if recorded[1] != digest_of_sources(name):
        return "the sources have changed since they were proved"
    return None


if __name__ == "__main__":
    sys.exit(why_not_proved("volcano"))
