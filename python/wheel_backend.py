"""Builds the wheel and the sdist of dns_names_wire, with the standard library alone: `pip wheel python` uses it, and so can a script.

    DNW_LIB_DIR=FOLDER python3 wheel_backend.py OUT
    python3 wheel_backend.py sdist OUT

The wheel has the shared library `libdns_names_wire.so`. It is taken from the folder that the environment variable
DNW_LIB_DIR names; if that is not set, `tools/c-library` of the repository builds it, for which the Rattle toolchain has
to be there. For which machine the wheel is, and whether for glibc or for musl, is read from the library. The sdist has
no library: a wheel is built of it with DNW_LIB_DIR, which may name the folder `lib` of the archive for C.
"""

import base64
import gzip
import hashlib
import io
import os
import pathlib
import re
import subprocess
import sys
import tarfile
import tempfile
import zipfile

HERE = pathlib.Path(__file__).resolve().parent
LIBRARY = "libdns_names_wire.so"
LICENCES = ["NOTICE", "LICENSE-APACHE", "LICENSE-MIT", "LICENSE-PARTS"]
NAME = "dns_names_wire"
# The version and the authors are only in rust/Cargo.toml of the repository, and in PKG-INFO of an sdist.
IS_SDIST = (HERE / "PKG-INFO").is_file()
ROOT = HERE if IS_SDIST else HERE.parent
SAID = (HERE / "PKG-INFO" if IS_SDIST else ROOT / "rust/Cargo.toml").read_text()
VERSION = re.search(r'^[Vv]ersion(?:: | = ")([^"\n]+)', SAID, re.M)[1]
AUTHORS = re.search(r'^(?:Author: |authors = \[")([^"\n]+)', SAID, re.M)[1]
# The time of each file of the sdist, the first that a wheel can have.
START_OF_1980 = 315532800
CLASSIFIERS = [
    "Development Status :: 4 - Beta",
    "Intended Audience :: Developers",
    "Intended Audience :: System Administrators",
    "License :: OSI Approved :: Apache Software License",
    "License :: OSI Approved :: MIT License",
    "Operating System :: POSIX :: Linux",
    "Programming Language :: Python :: 3",
    "Programming Language :: Python :: 3 :: Only",
    "Programming Language :: Python :: Implementation :: CPython",
    "Topic :: Internet :: Name Service (DNS)",
    "Topic :: Security",
    "Typing :: Typed",
]
METADATA = f"""Metadata-Version: 2.1
Name: dns-names-wire
Version: {VERSION}
Summary: Names, records and messages of DNS read and written, and master files read, by a proved library
Author: {AUTHORS}
License: MIT OR Apache-2.0
Keywords: dns,domain,name,verified,wire
Platform: Linux
{"".join(f"Classifier: {classifier}" + chr(10) for classifier in CLASSIFIERS)}Requires-Python: >=3.9
Description-Content-Type: text/markdown
{"".join(f"License-File: {licence}" + chr(10) for licence in LICENCES)}
{(HERE / "README.md").read_text()}"""
# The machines of Linux by their number in an ELF header.
MACHINES = {62: "x86_64", 183: "aarch64"}


def platform_tag(library):
    """Returns the platform tag of a shared library: for glibc with the version that it needs (PEP 600), for musl with the
    one that it was tried with (PEP 656)."""
    machine = MACHINES[int.from_bytes(library[18:20], "little")]
    if b"\0libc.so\0" in library:
        return f"musllinux_1_2_{machine}"
    wanted = [int(version) for version in re.findall(rb"GLIBC_2\.(\d+)", library)]
    # No system in use has a glibc before 2.17 (manylinux2014).
    return f"manylinux_2_{max([17, *wanted])}_{machine}"


def shared_library():
    folder = os.environ.get("DNW_LIB_DIR")
    if folder:
        return (pathlib.Path(folder) / LIBRARY).read_bytes()
    if IS_SDIST:
        sys.exit(f"set DNW_LIB_DIR to a folder that has {LIBRARY}, as lib of the archive for C")
    with tempfile.TemporaryDirectory() as room:
        subprocess.run([ROOT / "tools" / "c-library", room], check=True)
        return (pathlib.Path(room) / LIBRARY).read_bytes()


def package():
    """Returns the files of the package by name, except its library."""
    files = {f"{NAME}/{path.name}": path.read_bytes() for path in sorted((HERE / NAME).glob("*.py*")) if path.suffix in (".py", ".pyi")}
    files[f"{NAME}/_version.py"] = f'"""The version of the package."""\n\nVERSION = "{VERSION}"\n'.encode()
    files[f"{NAME}/py.typed"] = b""
    return files


def contents(tag, library):
    """Returns the files of the wheel by name, except RECORD."""
    files = package()
    files[f"{NAME}/{LIBRARY}"] = library
    info = f"{NAME}-{VERSION}.dist-info"
    files[f"{info}/METADATA"] = METADATA.encode()
    files[f"{info}/WHEEL"] = f"Wheel-Version: 1.0\nGenerator: wheel_backend\nRoot-Is-Purelib: false\nTag: {tag}\n".encode()
    files.update({f"{info}/{licence}": (ROOT / licence).read_bytes() for licence in LICENCES})
    return files


def record(files):
    """Returns RECORD: a line for each file with its hash and size, and one for itself."""
    lines = []
    for name, content in files.items():
        digest = base64.urlsafe_b64encode(hashlib.sha256(content).digest()).rstrip(b"=").decode()
        lines.append(f"{name},sha256={digest},{len(content)}\n")
    own = f"{NAME}-{VERSION}.dist-info/RECORD"
    return own, "".join([*lines, f"{own},,\n"]).encode()


def build_wheel(wheel_directory, config_settings=None, metadata_directory=None):
    """Builds the wheel and returns its file name (PEP 517). The same files always make the same wheel."""
    library = shared_library()
    tag = f"py3-none-{platform_tag(library)}"
    files = contents(tag, library)
    own, lines = record(files)
    files[own] = lines
    wheel = f"{NAME}-{VERSION}-{tag}.whl"
    with zipfile.ZipFile(pathlib.Path(wheel_directory) / wheel, "w", zipfile.ZIP_DEFLATED) as archive:
        for name, content in files.items():
            entry = zipfile.ZipInfo(name)
            entry.external_attr = 0o644 << 16
            entry.compress_type = zipfile.ZIP_DEFLATED
            archive.writestr(entry, content)
    return wheel


def build_sdist(sdist_directory, config_settings=None):
    """Builds the sdist and returns its file name (PEP 517, PEP 625). The same files always make the same sdist."""
    files = {it.name: it.read_bytes() for it in (HERE / "pyproject.toml", HERE / "README.md", HERE / "wheel_backend.py")}
    files["PKG-INFO"] = METADATA.encode()
    files.update({licence: (ROOT / licence).read_bytes() for licence in LICENCES})
    files.update(package())
    files.update({f"tests/{path.name}": path.read_bytes() for path in sorted((HERE / "tests").glob("*.py"))})
    sdist, octets = f"{NAME}-{VERSION}", io.BytesIO()
    with tarfile.open(fileobj=octets, mode="w", format=tarfile.PAX_FORMAT) as archive:
        for name, content in sorted(files.items()):
            entry = tarfile.TarInfo(f"{sdist}/{name}")
            entry.size, entry.mtime = len(content), START_OF_1980
            archive.addfile(entry, io.BytesIO(content))
    packed = gzip.compress(octets.getvalue(), mtime=START_OF_1980)
    (pathlib.Path(sdist_directory) / f"{sdist}.tar.gz").write_bytes(packed)
    return f"{sdist}.tar.gz"


if __name__ == "__main__":
    build = build_sdist if sys.argv[1:2] == ["sdist"] and len(sys.argv) == 3 else build_wheel
    if len(sys.argv) != (3 if build is build_sdist else 2):
        sys.exit(__doc__)
    pathlib.Path(sys.argv[-1]).mkdir(parents=True, exist_ok=True)
    print(build(sys.argv[-1]))
