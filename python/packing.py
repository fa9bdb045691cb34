"""Packs the package with its library by pip's interface for building (PEP 517 and 660): into a wheel for Linux on x86-64, into an archive of the sources that
has the library in it, too, or for an editable install. Nothing is compiled: the library and the part in C are those that tools/libraries and tools/fast put beside the
package, else the released ones of the clone."""
import base64
import gzip
import hashlib
import importlib.machinery
import io
import os
import re
import tarfile
import zipfile

# The library needs nothing of glibc that is newer than 2.14; this is the oldest tag that pip still knows by this name.
PLATFORM = "manylinux_2_17_x86_64"
# The part in C, which may be missing, and which only CPython takes that isn't free-threaded: without it any Python 3 takes the wheel.
FAST = ["jatshegi/_fast.abi3.so", "../release/x86_64-linux/lib/_fast.abi3.so"]
LIBRARIES = ["jatshegi/libjatshegi.so", "../release/x86_64-linux/lib/libjatshegi.so.1"]
SUMMARY = "Chess rules, PGN and a UCI engine: a prover has checked that the core's answers follow from written definitions of the FIDE Laws and the PGN standard."
CLASSIFIERS = [
    "Intended Audience :: Developers",
    "Operating System :: POSIX :: Linux",
    "Programming Language :: Python :: 3",
    "Programming Language :: Python :: 3 :: Only",
    "Topic :: Games/Entertainment :: Board Games",
    "Typing :: Typed",
]


def read(path):
    with open(path, "rb") as file:
        return file.read()


def version():
    return re.search(rb'__version__ = "(.*)"', read("jatshegi/__init__.py"))[1].decode()


def library():
    """The library's bytes."""
    for path in LIBRARIES:
        if os.path.exists(path):
            return read(path)
    raise SystemExit(f"there is none of {', '.join(LIBRARIES)}: run tools/libraries of the repository first")


def binaries():
    """The library, and the part in C where it has been built and the Python that packs takes it."""
    paths = [path for path in FAST if os.path.exists(path) and ".abi3.so" in importlib.machinery.EXTENSION_SUFFIXES]
    fast = read(paths[0]) if paths else None
    return {"jatshegi/libjatshegi.so": library()} | ({} if fast is None else {"jatshegi/_fast.abi3.so": fast})


def tag_of(entries):
    """The tag of a wheel with these files: with the part in C it is for CPython from 3.9 on."""
    return f"{'cp39-abi3' if 'jatshegi/_fast.abi3.so' in entries else 'py3-none'}-{PLATFORM}"


def sources():
    """The package's own files by their paths."""
    folders = ("jatshegi", "jatshegi/compat")
    return {f"{folder}/{name}": read(f"{folder}/{name}") for folder in folders for name in sorted(os.listdir(folder)) if name.endswith((".py", ".typed", ".c"))}


def metadata():
    lines = [
        *("Metadata-Version: 2.1", "Name: jatshegi", f"Version: {version()}", f"Summary: {SUMMARY}"),
        *("License: MIT OR Apache-2.0", "Requires-Python: >=3.9", "Keywords: chess,pgn,fen,uci", *(f"Classifier: {it}" for it in CLASSIFIERS)),
        "Description-Content-Type: text/markdown",
    ]
    about = read("README.md") if os.path.exists("README.md") else b""
    return "\n".join(lines).encode() + b"\n\n" + about


def write_wheel(folder, tag, entries):
    """Writes a wheel of these files and what each wheel has, and returns its name."""
    about = f"jatshegi-{version()}.dist-info"
    entries[f"{about}/METADATA"] = metadata()
    entries[f"{about}/WHEEL"] = f"Wheel-Version: 1.0\nGenerator: jatshegi\nRoot-Is-Purelib: false\nTag: {tag}\n".encode()
    lines = []
    for name, data in entries.items():
        digest = base64.urlsafe_b64encode(hashlib.sha256(data).digest()).rstrip(b"=").decode()
        lines.append(f"{name},sha256={digest},{len(data)}\n")
    entries[f"{about}/RECORD"] = ("".join(lines) + f"{about}/RECORD,,\n").encode()
    wheel = f"jatshegi-{version()}-{tag}.whl"
    with zipfile.ZipFile(os.path.join(folder, wheel), "w", zipfile.ZIP_DEFLATED) as packed:
        for name, data in entries.items():
            packed.writestr(zipfile.ZipInfo(name), data)
    return wheel


def build_wheel(wheel_directory, config_settings=None, metadata_directory=None):
    """Writes the wheel into the folder, and returns its name."""
    entries = {path: data for path, data in (sources() | binaries()).items() if not path.endswith(".c")}
    return write_wheel(wheel_directory, tag_of(entries), entries)


def build_editable(wheel_directory, config_settings=None, metadata_directory=None):
    """Writes a wheel that leads to this folder, where the package and its library are used as they are."""
    library()
    return write_wheel(wheel_directory, f"py3-none-{PLATFORM}", {"jatshegi.pth": f"{os.getcwd()}\n".encode()})


def build_sdist(sdist_directory, config_settings=None):
    """Writes an archive of the sources and the library, from which the wheel is built anywhere, and returns its name."""
    name = f"jatshegi-{version()}"
    entries = {"PKG-INFO": metadata(), **sources(), **binaries()}
    entries |= {path: read(path) for path in ("packing.py", "pyproject.toml", "README.md") if os.path.exists(path)}
    with open(os.path.join(sdist_directory, f"{name}.tar.gz"), "wb") as file, gzip.GzipFile("", "wb", fileobj=file, mtime=0) as packed, tarfile.open(fileobj=packed, mode="w") as tar:
        for path, data in sorted(entries.items()):
            about = tarfile.TarInfo(f"{name}/{path}")
            about.size, about.mode = len(data), 0o644
            tar.addfile(about, io.BytesIO(data))
    return f"{name}.tar.gz"
