"""Makes an edit in a copy of the repository, and asks the prover about it and, of what that lets through, the tests."""

import contextlib
import functools
import glob
import hashlib
import os
import shutil
import signal
import subprocess

from planting.choice import above, reach
from planting.verdicts import CAUGHT, REFUSED, SURVIVED, UNCOMPILED, UNREAD, Outcome, failed_test, judge

# What rt and cargo make is not copied, and stays when a copy is brought up to date.
MADE = ("out", "target", ".git", "__pycache__")
# The programs that print a table of a capture.
TABLES = ("records", "packets", "periods")
# Those that also say the words of samples/three.words, behind their name.
WORDS = ("packets", "periods")
PROGRAM_SECONDS = 120


class NotWell(Exception):
    """The copy fails without an edit, so that no edit can be judged in it."""


def run(words, folder, seconds, **how):
    """Runs a command in a session of its own. Answers its status, or None if it did not end in time, and what it wrote."""
    how = {"stdin": subprocess.DEVNULL, "stdout": subprocess.PIPE, "stderr": subprocess.STDOUT, **how}
    started = subprocess.Popen(words, cwd=folder, start_new_session=True, **how)
    try:
        written = started.communicate(timeout=seconds)
        return started.returncode, *written
    except subprocess.TimeoutExpired:
        os.killpg(started.pid, signal.SIGTERM)
        with contextlib.suppress(subprocess.TimeoutExpired):
            started.wait(10)
        with contextlib.suppress(ProcessLookupError):
            os.killpg(started.pid, signal.SIGKILL)
        return None, *started.communicate()


def contents(folder):
    """Each file below the folder that is the repository's own, by its path there."""
    found = {}
    for at, folders, names in os.walk(folder):
        folders[:] = [it for it in folders if it not in MADE]
        for name in names:
            with open(f"{at}/{name}", "rb") as file:
                found[os.path.relpath(f"{at}/{name}", folder)] = file.read()
    return found


class Repository:
    """The repository as it stands, with sums of what an outcome rests on."""

    def __init__(self, root, crates):
        self.root, self.crates = root, crates
        self.files = contents(root)
        self.version = run(["rt", "version"], root, PROGRAM_SECONDS)[1]

    def sum(self, parts, folders, crates=None):
        """The sum of the files below these folders of these crates, and at these other paths."""
        digest = hashlib.sha256(self.version)
        for path, data in sorted(self.files.items()):
            words = path.split("/")
            is_asked = words[2] in folders and words[1] in (crates or self.crates) if words[0] == "crates" else words[0] in parts
            if is_asked:
                digest.update(repr((path, data)).encode())
        return digest.hexdigest()

    @functools.cache
    def sum_below(self, crate):
        """What the crate's proof rests on."""
        return self.sum((), ("src", "specs", "proofs"), {crate, *reach(crate, self.crates)})

    @functools.cache
    def sum_of_all(self):
        """What the tests and the samples rest on as well."""
        return self.sum(("samples", "compare"), ("src", "specs", "proofs", "stdin", "stdout", "status", "args"))

    def is_program(self, crate):
        return f"crates/{crate}/src/main.rt" in self.files

    def has_tests(self, crate):
        return f"crates/{crate}/src/tests.rt" in self.files


class Copy:
    """A copy of the repository in which one edit at a time is made."""

    def __init__(self, repository, folder, seconds, flags):
        self.repository, self.folder, self.seconds, self.flags = repository, folder, seconds, flags
        self.log = open(os.devnull, "w", encoding="utf-8")
        self.well = set()
        self.bring_up_to_date()

    def bring_up_to_date(self):
        there = contents(self.folder) if os.path.isdir(self.folder) else {}
        for path in there.keys() - self.repository.files.keys():
            os.remove(f"{self.folder}/{path}")
        for path, data in self.repository.files.items():
            if there.get(path) != data:
                os.makedirs(os.path.dirname(f"{self.folder}/{path}"), exist_ok=True)
                shutil.copy2(f"{self.repository.root}/{path}", f"{self.folder}/{path}")

    @contextlib.contextmanager
    def edited(self, place):
        path = f"{self.folder}/{place.path()}"
        with open(path, encoding="utf-8") as file:
            text = file.read()
        assert text[place.at:place.at + len(place.old)] == place.old
        try:
            with open(path, "w", encoding="utf-8") as file:
                file.write(text[:place.at] + place.new + text[place.at + len(place.old):])
            yield
        finally:
            with open(path, "w", encoding="utf-8") as file:
                file.write(text)

    def rt(self, command, crate):
        status, said, _ = run(["rt", command, *self.flags], f"{self.folder}/crates/{crate}", self.seconds)
        said = said.decode(errors="replace")
        self.log.write(f"== rt {command} in {crate}: {status}\n{said}\n")
        return status, said

    def be_well(self, what, asks, crate):
        """Sees once that without an edit nothing is refused here."""
        if (what, crate) not in self.well:
            outcome = asks(crate)
            if outcome:
                raise NotWell(f"without an edit, {crate} is not well: {outcome.name}, {outcome.detail}")
            self.well.add((what, crate))

    def asked(self, what, asks, place, crate):
        """What is said of a crate with the edit; before that is believed, nothing may be said without it."""
        with self.edited(place):
            outcome = asks(crate)
        if outcome:
            self.be_well(what, asks, crate)
        return outcome

    def proof(self, crate):
        return judge(*self.rt("check", crate))

    def tests(self, crate):
        """Proves and runs the tests; the proof of a crate above an edit can fail too."""
        status, said = self.rt("test", crate)
        if status and "logic=proved" in said:
            return Outcome(CAUGHT, f"`{failed_test(said)}` of `{crate}`")
        return judge(status, said)

    def program(self, crate):
        """Builds the program, and compares what it writes, as the gate does."""
        with contextlib.suppress(FileNotFoundError):
            os.remove(f"{self.folder}/crates/{crate}/out/{crate}")
        status, said = self.rt("run", crate)
        if not os.path.isfile(f"{self.folder}/crates/{crate}/out/{crate}"):
            return judge(status or 1, said)
        for name, given, wanted, streams in self.samples(crate):
            if self.written(crate, given, streams) != wanted:
                return Outcome(CAUGHT, f"what `{crate}` writes of {name}")
        return None

    def samples(self, crate):
        """Each input of a program, what it has to write, and on which streams that is looked for."""
        def read(path):
            with open(f"{self.folder}/{path}", "rb") as file:
                return file.read()

        yield "its `stdin`", f"crates/{crate}/stdin", (0, read(f"crates/{crate}/stdout")), "out"
        for path in sorted(glob.glob(f"{self.folder}/samples/*.pcap")) if crate in TABLES else ():
            name = os.path.basename(path)[:-len(".pcap")]
            yield f"`{name}.pcap`", f"samples/{name}.pcap", (0, read(f"samples/{name}.{crate}.csv")), "out"
        if crate in WORDS:
            words = f"{crate}: ".encode() + read("samples/three.words")
            yield "`three.pcap` in words", "samples/three.pcap", (0, words), "err"
        for path in sorted(glob.glob(f"{self.folder}/samples/*.calls")) if crate == "calls" else ():
            name = os.path.basename(path)[:-len(".calls")]
            yield f"`{name}.calls`", f"samples/{name}.calls", (1 if name == "unread" else 0, read(f"samples/{name}.answers")), "both"

    def written(self, crate, given, streams):
        with open(f"{self.folder}/{given}", "rb") as stdin:
            errors = subprocess.STDOUT if streams == "both" else subprocess.PIPE
            status, out, err = run([f"out/{crate}"], f"{self.folder}/crates/{crate}", PROGRAM_SECONDS, stdin=stdin, stderr=errors)
        return status, err if streams == "err" else out

    def comparison(self, _crate):
        status, said, _ = run(["compare/test"], self.folder, 3 * self.seconds)
        self.log.write(f"== compare/test: {status}\n{said.decode(errors='replace')}\n")
        return Outcome(CAUGHT, "`compare/test`") if status else None

    def questions(self, crate):
        """What is asked of an edit that is proved in its crate, one after another until something is said."""
        reached = [crate, *above(crate, self.repository.crates)]
        yield from (("tests", self.tests, name) for name in reached if self.repository.has_tests(name))
        yield from (("program", self.program, name) for name in reached if self.repository.is_program(name))
        if os.path.isfile(f"{self.folder}/compare/test"):
            yield "comparison", self.comparison, "compare"

    def tried(self, place):
        """What comes of an edit."""
        self.be_well("proof", self.proof, place.crate)
        first = self.asked("proof", self.proof, place, place.crate)
        if first and first.name != UNREAD:
            return first
        for what, asks, crate in self.questions(place.crate) if not first else ():
            outcome = self.asked(what, asks, place, crate)
            if outcome and outcome.name == UNCOMPILED:
                return Outcome(REFUSED, f"`{crate}` does not compile above it: {outcome.detail}")
            if outcome and crate != place.crate and outcome.name != CAUGHT:
                return Outcome(outcome.name, f"{outcome.detail}, of the crate `{crate}` above it")
            if outcome:
                return outcome
        return first or Outcome(SURVIVED)
