"""Libraries in C that are preloaded into the program, built once where a C compiler is found."""

import functools
import shutil
import subprocess
import tempfile
import unittest
from pathlib import Path

COMPILERS = ["cc", "gcc", "clang"]

FOLDER = tempfile.TemporaryDirectory()


@functools.lru_cache(maxsize=None)
def compiled(compiler: str, name: str) -> Path:
    library, source = Path(FOLDER.name) / f"{name}.so", Path(__file__).with_name(f"{name}.c")
    command = [compiler, "-O2", "-shared", "-fPIC", "-o", str(library), str(source), "-ldl"]
    subprocess.run(command, check=True, timeout=60)
    return library


def built(name: str) -> Path:
    """The path of the library of `name`.c; without a compiler the test is skipped."""
    compiler = next(filter(None, map(shutil.which, COMPILERS)), None)
    if compiler is None:
        raise unittest.SkipTest(f"no C compiler is found, so {name}.c isn't built")
    return compiled(compiler, name)
