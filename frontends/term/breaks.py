"""Breaks a program in one place after another, and sees that the row of its check that tells of it fails."""

import os
import shutil
import subprocess
import sys
import tempfile
from pathlib import Path

FLAGS = ["-std=c11", "-pthread", "-g", "-O1", "-fsanitize=address,undefined", "-fno-sanitize-recover=all"]
TOP = Path(__file__).resolve().parent.parent.parent
# What the programs share, and the header of the library.
SHARED = [*(TOP / "frontends" / "common").glob("*.[ch]"), TOP / "bindings" / "c" / "teco.h"]


class Program:
    """Its name, its sources, the folder of its check, and what it is compiled and linked with beside the library. `make` puts what else it
    wants into a folder."""

    def __init__(self, name, sources, folder, flags=(), links=(), make=None):
        self.name, self.folder, self.flags, self.links = name, folder, list(flags), list(links)
        self.sources = [*sources, *SHARED]
        self.make = make

    def compiled(self, work, source):
        """Compiles a file of the folder to an object beside it. Says why not, if so."""
        done = subprocess.run(["cc", *FLAGS, *self.flags, "-I.", "-c", source, "-o", source.with_suffix(".o")], cwd=work, capture_output=True)
        return None if done.returncode == 0 else "is not built: " + done.stderr.decode()

    def is_broken(self, work, library, name, old, new):
        """Builds the program in this folder with the text changed, and the objects of all other files as they are. Says why not, if so."""
        text = (work / name).read_text()
        if text.count(old) != 1:
            return f"stands {text.count(old)} times"
        (work / name).write_text(text.replace(old, new))
        for source in work.glob("*.c") if name.endswith(".h") else [work / name]:
            why = self.compiled(work, source)
            if why is not None:
                return why
        done = subprocess.run(["cc", *FLAGS, *work.glob("*.o"), library, "-o", work / self.name, *self.links], capture_output=True)
        return None if done.returncode == 0 else "is not linked: " + done.stderr.decode()

    def fails(self, whole, library, name, old, new, row):
        """Whether the row fails once the text is changed, over a folder with all objects. Says what is wrong where it doesn't."""
        with tempfile.TemporaryDirectory() as work:
            work = Path(work)
            shutil.copytree(whole, work, dirs_exist_ok=True)
            why = self.is_broken(work, library, name, old, new)
            if why is not None:
                return why
            settings = dict(os.environ, PATIENCE="3", ASAN_OPTIONS="detect_leaks=1:allocator_may_return_null=1")
            done = subprocess.run([self.folder / "check", work / self.name, row], capture_output=True, env=settings)
        return None if b"1 rows, 1 failed" in done.stdout else "passes: " + (done.stdout + done.stderr).decode()

    def build_all(self, whole):
        for file in self.sources:
            shutil.copy(file, whole)
        if self.make is not None:
            self.make(whole)
        for source in whole.glob("*.c"):
            why = self.compiled(whole, source)
            assert why is None, why

    def tries(self, breaks):
        """Tries the breaks, or those of the rows that the line names. The status."""
        library, rows = Path(sys.argv[1]).resolve() / "libteco_c.a", sys.argv[2:]
        breaks = [each for each in breaks if not rows or each[3] in rows]
        wrong = 0
        with tempfile.TemporaryDirectory() as whole:
            self.build_all(Path(whole))
            for name, old, new, row in breaks:
                why = self.fails(whole, library, name, old, new, row)
                if why is not None:
                    wrong += 1
                    print(f"{name}: {old!r} to {new!r}, {row}: {why}", flush=True)
        print(f"{len(breaks)} breaks, {wrong} not seen")
        return 1 if wrong else 0
