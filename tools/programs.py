"""What the scripts know of the two programs: where they stand, and whether one was built of the sources as they are."""

import os
import shutil
import subprocess
import sys

PROGRAMS = ("tradesrv", "tradecli")
TOP = os.path.dirname(os.path.dirname(os.path.abspath(__file__)))


def proved(program):
    """Where the proved program stands."""
    return f"{TOP}/crates/{program}/out/{program}"


def unproved(program):
    """Where the one stands that is built without checking the proofs."""
    return f"{TOP}/.quick/{program}"


def say(program, text):
    try:
        print(f"{program}: {text}", file=sys.stderr, flush=True)
    except OSError:
        # (nobody reads it)
        pass


def sum_of(*file):
    """The sum of the sources, and of a program where one is named; nothing where there is none to be had."""
    ran = subprocess.run([f"{TOP}/tools/sum", *file], stdout=subprocess.PIPE, check=False)
    return b"" if ran.returncode else ran.stdout


def stands(file):
    """Whether a program was built of these sources."""
    try:
        with open(f"{file}.sum", "rb") as it:
            kept = it.read()
    except OSError:
        return False
    return os.access(file, os.X_OK) and kept != b"" and kept == sum_of(file)


def put(source, to):
    """Copies a program, whole or not at all."""
    new = f"{to}.{os.getpid()}"
    try:
        shutil.copyfile(source, new)
        os.chmod(new, 0o755)
        os.replace(new, to)
    except BaseException:
        if os.path.lexists(new):
            os.remove(new)
        raise


def mark(file, sources):
    """Notes that a program was built of the sources of this sum, and tells whether they are still the same."""
    if not sources or sources != sum_of():
        return False
    with open(f"{file}.sum", "wb") as it:
        it.write(sum_of(file))
    return True
