"""Builds the wheel of the package, with the shared library in it, by Python's own library alone. It is what pip calls.

The library is the file that TECO_SHARED names, or else that of the repository, out/libteco.so, or else the one that pkg-config finds. One
wheel serves each Python from 3.8 on, since ctypes calls the library. The same files make the same bytes.
"""

import base64
import hashlib
import os
import re
import subprocess
import sysconfig
import zipfile
from pathlib import Path

HERE = Path(__file__).resolve().parent
PROJECT = dict(re.findall(r'^([\w-]+) = "(.*)"', (HERE / "pyproject.toml").read_text(), re.M))
NAME, VERSION, SUMMARY, PYTHON = (PROJECT[it] for it in ("name", "version", "description", "requires-python"))
INFO = f"{NAME}-{VERSION}.dist-info"
METADATA = f"Metadata-Version: 2.1\nName: {NAME}\nVersion: {VERSION}\nSummary: {SUMMARY}\nRequires-Python: {PYTHON}\n"
# The first moment that a zip file can have.
MOMENT = (1980, 1, 1, 0, 0, 0)


class UnsupportedOperation(Exception):
    """What pip asks is not done here."""


def library():
    """The bytes of the shared library."""
    named = os.environ.get("TECO_SHARED")
    built = HERE.parent.parent / "out" / "libteco.so"
    if named or built.exists():
        return Path(named or built).read_bytes()
    words = ["pkg-config", "--variable=libdir", "teco"]
    try:
        folder = subprocess.run(words, stdout=subprocess.PIPE, universal_newlines=True, check=True).stdout
    except (OSError, subprocess.CalledProcessError) as reason:
        raise FileNotFoundError("no libteco.so: make it by `make out/libteco.so`, or name it by TECO_SHARED") from reason
    return Path(folder.strip(), "libteco.so").read_bytes()


def platform_of(shared):
    """The platform of the wheel. The library runs with the first glibc that has all that it needs, and with each later one."""
    usual = re.sub(r"[-.]", "_", sysconfig.get_platform())
    needed = [int(minor) for minor in re.findall(rb"GLIBC_2\.(\d+)", shared)]
    return usual.replace("linux_", f"manylinux_2_{max(17, *needed)}_", 1) if needed else usual


def notices():
    """The licences of what the library is linked with, which go with each copy: in the repository, or where the docs are installed."""
    for folder in HERE.parents[1], HERE.parents[2]:
        if (folder / "NOTICE").exists():
            return [(f"{INFO}/NOTICE", (folder / "NOTICE").read_bytes())]
    raise FileNotFoundError("no NOTICE, which has the licences of what the library is linked with")


def write(path, files):
    """Writes a wheel of files, each with its name, and their record."""
    record = f"{INFO}/RECORD"
    lines = []
    for name, data in files:
        digest = base64.urlsafe_b64encode(hashlib.sha256(data).digest()).rstrip(b"=").decode()
        lines.append(f"{name},sha256={digest},{len(data)}\n")
    with zipfile.ZipFile(path, "w", zipfile.ZIP_DEFLATED) as wheel:
        for name, data in [*files, (record, "".join(lines) + f"{record},,\n")]:
            entry = zipfile.ZipInfo(name, MOMENT)
            entry.external_attr, entry.compress_type = 0o644 << 16, zipfile.ZIP_DEFLATED
            wheel.writestr(entry, data)


def build_wheel(wheel_directory, config_settings=None, metadata_directory=None):
    """Writes the wheel into a folder, and gives its name."""
    shared = library()
    tag = f"py3-none-{platform_of(shared)}"
    files = [(f"{NAME}/{path.name}", path.read_bytes()) for path in sorted((HERE / NAME).iterdir()) if path.suffix in (".py", ".typed")]
    files += [(f"{NAME}/libteco.so", shared), (f"{INFO}/METADATA", METADATA.encode()), *notices()]
    files += [(f"{INFO}/WHEEL", f"Wheel-Version: 1.0\nGenerator: {NAME} {VERSION}\nRoot-Is-Purelib: false\nTag: {tag}\n".encode())]
    name = f"{NAME}-{VERSION}-{tag}.whl"
    write(Path(wheel_directory, name), files)
    return name


def build_sdist(sdist_directory, config_settings=None):
    """There is none, since the library is proved and built by the tools of the repository alone."""
    raise UnsupportedOperation("a source distribution could not build the library: build a wheel")
