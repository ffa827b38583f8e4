"""What tools/try-memory, tools/try-ports and tools/try-hostile share: the examples, which are the commands of the transcripts of
crates/test_transcripts, and runs of the built program."""
import json
import os
import re
import subprocess
import sys
import tempfile
from dataclasses import dataclass

ROOT = os.path.dirname(os.path.dirname(os.path.realpath(__file__)))
DATA = f"{ROOT}/crates/test_transcripts/data"
# A run that takes longer hangs.
SECONDS = 60


@dataclass(frozen=True)
class Example:
    """A command: its line, its arguments, and the bytes of its standard input."""

    line: str
    words: tuple
    input: bytes = b""

    def is_run(self):
        return self.words[:1] == ("run",) or b'"run"' in self.input and not self.words

    def plan(self):
        """The plan's JSON, or an empty object where the text is none."""
        try:
            if not self.words:
                return json.loads(self.input)["plan"]
            path = self.words[self.words.index("--plan") + 1]
            text = self.input if path == "-" else read(f"{DATA}/{path}")
            return json.loads(text)
        except (ValueError, KeyError, OSError):
            return {}

    def steady(self, errors):
        """What standard error has in each run: where it is statistics, the text without its numbers, since times differ, and by threads counts too."""
        has_statistics = any(it.startswith("--stats") for it in self.words)
        return re.sub(rb"[ .\d]+", b" ", errors) if has_statistics else errors

    def is_total(self):
        plan = self.plan()
        return isinstance(plan, dict) and plan.get("total") is True

    def by_threads(self):
        """The same run with a thread for each worker."""
        if self.words:
            return Example(f"{self.line} --mode threads", (*self.words, "--mode", "threads"), self.input)
        bundle = {**json.loads(self.input), "mode": "threads"}
        return Example(f"{self.line} with mode threads", (), json.dumps(bundle).encode())


@dataclass(frozen=True)
class Outcome:
    """What a run comes to. A status below 0 is the number of a signal, and None says that the run hangs."""

    status: int | None
    out: bytes
    err: bytes

    def rows_in_order(self):
        """The output with its lines after the first in the order of their bytes."""
        first, *rows = self.out.split(b"\n")
        return [first, *sorted(rows)]


def read(path):
    with open(path, "rb") as file:
        return file.read()


def examples(transcript):
    """The commands of a transcript of crates/test_transcripts/data, each once."""
    found = {}
    for line in read(f"{DATA}/{transcript}").decode().split("\n"):
        if not line.startswith("$ volcano"):
            continue
        command, _, source = line.removeprefix("$ volcano").partition("<")
        text = source.removeprefix("<").strip().encode() if source.startswith("<") else read(f"{DATA}/{source.strip()}") if source else b""
        found[line] = Example(line.removeprefix("$ "), tuple(command.split()), text)
    return list(found.values())


def runs_of_plans():
    """A run of each plan of the examples, whether a transcript has it or not, by three workers that send and draw row by row."""
    plans = [it for it in sorted(os.listdir(f"{DATA}/examples")) if it.endswith(".json") and "root" in json.loads(read(f"{DATA}/examples/{it}"))]
    tail = ["--data", "examples/tables", "--packet", "1", "--morsel", "1", "many=3"]
    words = [("run", "--catalog", "examples/catalog.json", "--plan", f"examples/{it}", *tail) for it in plans]
    return [Example(f"volcano {' '.join(it)}", it) for it in words]


def program():
    """The path of the proved program, or of the one that the environment names under VOLCANO."""
    path = os.environ.get("VOLCANO", f"{ROOT}/crates/volcano/out/proved/volcano")
    if not os.access(path, os.X_OK):
        sys.exit("prove the program first: tools/prove")
    return path


def compiled(name):
    """The path of the library that tools/NAME.c makes, which goes before the C library. It is there until this script ends."""
    folder = tempfile.TemporaryDirectory()
    compiled.folders = [*getattr(compiled, "folders", []), folder]
    library = f"{folder.name}/{name}.so"
    words = ["cc", "-O1", "-fPIC", "-shared", "-o", library, f"{ROOT}/tools/{name}.c"]
    subprocess.run(words, check=True)
    return library


def run(example, setting=None, seconds=SECONDS, **options):
    """Runs the program on an example, with this setting beside the usual environment."""
    words = [program(), *example.words]
    environment = {**os.environ, **(setting or {})}
    try:
        ran = subprocess.run(words, input=example.input, capture_output=True, cwd=DATA, env=environment, timeout=seconds, **options)
    except subprocess.TimeoutExpired as error:
        return Outcome(None, error.stdout or b"", error.stderr or b"")
    return Outcome(ran.returncode, ran.stdout, ran.stderr)


def shown(outcome):
    """An outcome in a line."""
    status = "hangs" if outcome.status is None else f"status {outcome.status}"
    return f"{status}, output {outcome.out[:60]!r}, errors {outcome.err[:160]!r}"
