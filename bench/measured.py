"""Which program is measured."""

import os
import subprocess
import sys

TOP = os.path.dirname(os.path.dirname(os.path.abspath(__file__)))
sys.path.insert(0, f"{TOP}/tools")
from programs import proved  # noqa: E402 (the folder above holds it)


def program():
    """The file of tradesrv: that of TRADESRV, else the proved one, which is built where it doesn't stand. Says which."""
    named = os.environ.get("TRADESRV")
    if not named and subprocess.run([f"{TOP}/tools/build", "tradesrv"], check=False).returncode:
        sys.exit(1)
    print(f"measured: {named or 'the proved program of these sources'}", file=sys.stderr)
    return named or proved("tradesrv")
