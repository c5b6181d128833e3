"""The library that refuses a program's allocations by their numbers, for the programs in this folder."""

import mmap
import os
import struct
import subprocess
import tempfile

HERE = os.path.dirname(os.path.abspath(__file__))
# Above every number of an allocation.
LAST = 2**63
NONE = (1, 0)


class Refusal:
    """The library, built into a folder that is there as long as the block, and the numbers that it reads and writes."""

    def __enter__(self):
        self.folder = tempfile.TemporaryDirectory()
        library, numbers = f"{self.folder.name}/refuse.so", f"{self.folder.name}/numbers"
        words = ["cc", "-O2", "-Wall", "-shared", "-fPIC", "-o", library, f"{HERE}/refuse.c"]
        subprocess.run(words, check=True)
        with open(numbers, "w+b") as it:
            it.write(bytes(24))
            it.flush()
            self.numbers = mmap.mmap(it.fileno(), 24)
        self.environment = {**os.environ, "LD_PRELOAD": library, "REFUSE_FILE": numbers}
        return self

    def __exit__(self, *_):
        self.numbers.close()
        self.folder.cleanup()

    def file(self, name, content):
        path = f"{self.folder.name}/{name}"
        with open(path, "wb") as it:
            it.write(content)
        return path

    def asked(self):
        """How many allocations the program has asked for."""
        return struct.unpack_from("Q", self.numbers)[0]

    def restart(self):
        """The next allocation is the first, as it is for a program that begins."""
        struct.pack_into("Q", self.numbers, 0, 0)

    def refuse(self, first, last):
        """Those from the first number to the last are refused from now on. (In between none is.)"""
        struct.pack_into("Q", self.numbers, 8, LAST + 1)
        struct.pack_into("Q", self.numbers, 16, last)
        struct.pack_into("Q", self.numbers, 8, first)
