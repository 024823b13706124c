"""How tools end: what stops one is a line on standard error, and a file that one writes is whole, or as it was."""

import os
import pathlib
import signal
import sys
import tempfile

STOPPED = 2  # the exit status


def told(reason):
    """What stopped a tool as a sentence: of a fault of the system the file and what is wrong with it."""
    if not isinstance(reason, OSError) or not reason.strerror:
        return str(reason)
    return f"{reason.filename}: {reason.strerror}" if reason.filename else reason.strerror


def end(main):
    """Ends a tool with the status that `main` answers for its words; with 2 and a line if it is stopped, or its output fails."""
    status, reason = outcome_of(main)
    fault = fault_of_output()
    if fault and status != STOPPED:
        status, reason = STOPPED, fault
    if reason:
        print(f"{pathlib.Path(sys.argv[0]).name}: {told(reason)}", file=sys.stderr)
    sys.exit(status)


def outcome_of(main):
    """The status of a tool, and what stopped it, or nothing."""
    for stop in (signal.SIGTERM, signal.SIGHUP):
        signal.signal(stop, signal.default_int_handler)  # what is half made is removed then too
    try:
        if sys.stdout is None:
            return STOPPED, "standard output is closed"
        return main(sys.argv[1:]), None
    except KeyboardInterrupt:
        return STOPPED, "interrupted"
    except MemoryError:
        return STOPPED, "out of memory"
    except OSError as fault:
        return STOPPED, fault


def fault_of_output():
    """Why what was printed can't be written, or nothing. Python doesn't try it again then."""
    try:
        if sys.stdout:
            sys.stdout.flush()
    except OSError as fault:
        os.dup2(os.open(os.devnull, os.O_WRONLY), sys.stdout.fileno())
        return fault


def write_whole(file, data):
    """Writes a file. If that fails, the file is as it was, or absent."""
    path = pathlib.Path(file).resolve()
    try:
        if path.exists() and not path.is_file():  # a device, a pipe, or a folder, which is refused
            path.write_bytes(data)
            return
        with tempfile.TemporaryDirectory(dir=path.parent) as beside:
            made = pathlib.Path(beside) / path.name
            made.write_bytes(data)
            os.replace(made, path)
    except OSError as fault:
        raise OSError(fault.errno, fault.strerror, str(file)) from None
