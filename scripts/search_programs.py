"""The programs that the scripts run: the search of this repository, and packaged solvers where they are installed."""

import os
import shutil
import subprocess
import tempfile
import time

from programs import proved


def built_program(name="clause_search_dimacs"):
    """A program of this repository, by default the search."""
    return proved(name)


def packaged_solver():
    """A packaged solver, or None."""
    return shutil.which("minisat") or shutil.which("picosat")


def run(command, text, seconds):
    """What a command prints of a formula, how long it took and the most memory that it had, in seconds and MiB."""
    with tempfile.TemporaryFile() as given, tempfile.TemporaryFile() as out, tempfile.TemporaryFile() as notes:
        given.write(text.encode())
        given.seek(0)
        start = time.monotonic()
        process = subprocess.Popen(command, stdin=given, stdout=out, stderr=notes)
        status = usage = None
        while status is None:
            pid, code, usage = os.wait4(process.pid, os.WNOHANG)
            if pid:
                status = code
            elif time.monotonic() - start > seconds:
                process.kill()
                os.wait4(process.pid, 0)
                return None, seconds, 0, ""
            else:
                time.sleep(0.002)
        took = time.monotonic() - start
        process.returncode = status
        out.seek(0)
        notes.seek(0)
        return out.read().decode(), took, usage.ru_maxrss / 1024, notes.read().decode()


def answer_of(printed):
    """True for a model, False for none, None where the program gave up."""
    if printed is None:
        return None
    if "UNSATISFIABLE" in printed:
        return False
    if "SATISFIABLE" in printed:
        return True
    return None
