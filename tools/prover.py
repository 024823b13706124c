"""What tools share that prove or compile crates: which these are, and `rt ci` over a copy of them."""

import contextlib
import functools
import os
import pathlib
import re
import shutil
import signal
import subprocess
import sys
import time

TOP = pathlib.Path(__file__).resolve().parent.parent
LINE = re.compile(r"^([a-z]\w*)[^:\n]*:(.*)$", re.M)  # of crates.txt: a crate, and the libraries that it uses
SETTLED = re.compile(r"^rt: (\w+) (proved|is kept|NOT PROVED)", re.M)
PAUSE = 1  # seconds between two looks at what the prover printed


class Failed(Exception):
    """What was asked for can't be done: why."""


class OtherToolchain(Failed):
    """There is no toolchain, or it isn't as this tool expects: why."""


@functools.cache
def kit_folder(program):
    """The folder of the toolchain, which has this program."""
    try:
        told = subprocess.run(["rt", "doc"], stdin=subprocess.DEVNULL, stdout=subprocess.PIPE, text=True, check=True)
    except (OSError, subprocess.CalledProcessError):
        raise OtherToolchain("rt, the command of the Rattle toolchain, isn't in the path") from None
    folder = pathlib.Path(told.stdout.strip()).parent
    if not (folder / "bin" / program).is_file():
        raise OtherToolchain(f"it has no {program}")
    return folder


def uses_of_crates():
    """The libraries that each crate of the repository uses, as crates.txt has them."""
    return {name: below.split() for name, below in LINE.findall((TOP / "crates.txt").read_text())}


def crates_for(names, uses):
    """The repository's crates that these stand on, lowest first, and these."""
    found = {}

    def add(name):
        if name in uses and name not in found:
            for below in uses[name]:
                add(below)
            found[name] = None

    for name in names:
        add(name)
    return list(found)


def library_words(crates, uses, top):
    """The words that name the source of each of these crates below a folder, and what each uses."""
    words = []
    for name in crates:
        used = dict.fromkeys(["core", "std", *sorted(uses[name], key=lambda it: it in uses)])
        words += ["--lib", f"{name}:{','.join(used)}={top}/crates/{name}/src/lib.rt"]
    return words


def copy_sources(names, to):
    """Copies what a proof of these crates reads: the gate's edits, further wrong bodies and what earlier runs made stay out."""
    wanted = crates_for(names, uses_of_crates())
    for name in wanted:
        shutil.copytree(TOP / "crates" / name, to / "crates" / name, ignore=shutil.ignore_patterns("out", "must-fail", "wrong"))
    lines = LINE.finditer((TOP / "crates.txt").read_text())
    (to / "crates.txt").write_text("".join(f"{it[0]}\n" for it in lines if it[1] in wanted))
    shutil.copyfile(TOP / "HANDLES", to / "HANDLES")


@contextlib.contextmanager
def gate_over(sources, place, log):
    """`rt ci` over a copy, which works in `place` and prints to the file `log`; it is ended with what it has begun."""
    with open(log, "wb") as output:
        try:
            gate = subprocess.Popen(["rt", "ci"], cwd=sources, env={**os.environ, "TMPDIR": str(place)},
                                    stdin=subprocess.DEVNULL, stdout=output, stderr=subprocess.STDOUT, start_new_session=True)
        except FileNotFoundError:
            raise OtherToolchain("rt, the command of the Rattle toolchain, isn't in the path") from None
    try:
        yield gate
    finally:
        with contextlib.suppress(ProcessLookupError):
            os.killpg(gate.pid, signal.SIGTERM)
        gate.wait()


def crates_settled(gate, log):
    """Each crate as soon as it is settled, with how; until the prover ends."""
    told, ended = set(), False
    while not ended:
        ended = gate.poll() is not None
        for name, how in SETTLED.findall(log.read_text(errors="replace")):
            if name not in told:
                told.add(name)
                yield name, how
        if not ended:
            time.sleep(PAUSE)


def run_tool(name, work):
    """The exit status of a tool's work: 2, with a line on standard error, if it can't be done."""
    for stop in (signal.SIGTERM, signal.SIGHUP):
        signal.signal(stop, signal.default_int_handler)  # what is half made is removed then too
    try:
        return work()
    except Failed as why:
        print(f"{name}: {why}", file=sys.stderr)
    except shutil.Error as why:
        print(f"{name}: {why.args[0][0][2]}", file=sys.stderr)
    except OSError as why:
        print(f"{name}: {why.filename or 'a file'}: {why.strerror}", file=sys.stderr)
    except KeyboardInterrupt:
        print(f"{name}: interrupted", file=sys.stderr)
        return 130
    return 2
