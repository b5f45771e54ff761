"""Builds the package for pip with Python's own library alone, so that it installs without a network.

pip calls `build_wheel` and `build_sdist`, as PEP 517 says. A wheel is a zip archive of the package and files about it; the source
archive holds what stands here. If the setting `prefix` names a folder into which ./install wrote, the wheel has the shared libraries
of it in it, and serves only systems that have what these want.
"""

import base64
import hashlib
import io
import os
import re
import struct
import tarfile
import time
import zipfile
from pathlib import Path

HERE = Path(__file__).resolve().parent
PACKAGE = "commonware_math"


def _said(key):
    """What pyproject.toml says of the project under this key."""
    return re.search(rf'(?m)^{key} = (?:{{ text = )?"(.*?)"', (HERE / "pyproject.toml").read_text(encoding="utf-8"))[1]


def _version():
    """The version that the package says it has."""
    return re.search(r'(?m)^__version__ = "(.*?)"', (HERE / PACKAGE / "__init__.py").read_text(encoding="utf-8"))[1]


def _files():
    """The files of the package, by their path in it."""
    paths = sorted(path for path in (HERE / PACKAGE).iterdir() if path.suffix == ".py" or path.name == "py.typed")
    return {f"{PACKAGE}/{path.name}": path.read_bytes() for path in paths}


def _metadata():
    return (
        f"Metadata-Version: 2.1\nName: {PACKAGE}\nVersion: {_version()}\nSummary: {_said('description')}\n"
        f"License: {_said('license')}\nRequires-Python: {_said('requires-python')}\n"
    ).encode()


def needs(path):
    """What a file of ELF says that it needs: names of libraries, and names of versions of their symbols."""
    elf = Path(path).read_bytes()
    if elf[:6] != b"\x7fELF\x02\x01":
        raise ValueError(f"{path}: no file of ELF for 64 bits, lowest byte first")
    (table,) = struct.unpack_from("<Q", elf, 0x28)
    size, count = struct.unpack_from("<HH", elf, 0x3A)
    sections = [struct.unpack_from("<IIQQQQIIQQ", elf, table + i * size) for i in range(count)]

    def text(section, at):
        begin = sections[section][4] + at
        return elf[begin : elf.index(b"\0", begin)].decode()

    libraries, versions = set(), set()
    for _, kind, _, _, begin, length, names, _, _, _ in sections:
        if kind == 6:  # SHT_DYNAMIC
            entries = (struct.unpack_from("<QQ", elf, at) for at in range(begin, begin + length, 16))
            libraries.update(text(names, value) for tag, value in entries if tag == 1)  # DT_NEEDED
        while kind == 0x6FFFFFFE:  # SHT_GNU_verneed: for each library its versions, and where the next library stands
            _, many, _, first, following = struct.unpack_from("<HHIII", elf, begin)
            at = begin + first
            for _ in range(many):
                _, _, _, name, ahead = struct.unpack_from("<IHHII", elf, at)
                versions.add(text(names, name))
                at += ahead
            if not following:
                break
            begin += following
    return libraries, versions


def glibc(paths, own=()):
    """The N of the oldest glibc 2.N with which the files run. They may need nothing but the C library, its mathematics and the
    loader, and libraries of their own."""
    found = 0
    for path in paths:
        libraries, versions = needs(path)
        others = libraries - {"libc.so.6", "libm.so.6", "ld-linux-x86-64.so.2", *own}
        others |= {version for version in versions if not re.fullmatch(r"GLIBC_2\.\d+(\.\d+)?", version)}
        if others:
            raise ValueError(f"{path} needs more than the C library: {', '.join(sorted(others))}")
        found = max([found, *(int(version.split(".")[1]) for version in versions)])
    return found


def _installed(prefix):
    """The shared libraries below the prefix, and the file that says from which proved sources they come, by their path below it."""
    prefix = Path(prefix)
    paths = [*prefix.glob("lib/libcommonware_math.so.*"), *prefix.glob("lib/glibc-hwcaps/*/libcommonware_math.so.*")]
    if not paths:
        raise ValueError(f"{prefix}: no lib/libcommonware_math.so.*, which ./install writes")
    paths += prefix.glob("share/commonware_math-*/proved.txt")
    return {path.relative_to(prefix).as_posix(): path for path in sorted(paths)}


def _licenses():
    """The license and the notice, where they stand: at the top of the repository."""
    paths = (HERE.parents[1] / name for name in ("LICENSE", "NOTICE"))
    return {path.name: path.read_bytes() for path in paths if path.is_file()}


def contents(prefix=None):
    """The files of the package and those about it, by their path where packages lie, and the tag of the systems that it serves."""
    about = f"{PACKAGE}-{_version()}.dist-info"
    files, tag = _files(), "py3-none-any"
    if prefix:
        installed = _installed(prefix)
        # The oldest system that a tag can name has glibc 2.5.
        oldest = max(5, glibc(path for path in installed.values() if path.suffix != ".txt"))
        tag = f"py3-none-manylinux_2_{oldest}_x86_64"
        files.update({f"{PACKAGE}/{name}": path.read_bytes() for name, path in installed.items()})
    files.update({f"{about}/licenses/{name}": text for name, text in _licenses().items()})
    files[f"{about}/METADATA"] = _metadata()
    pure = "false" if prefix else "true"
    files[f"{about}/WHEEL"] = f"Wheel-Version: 1.0\nGenerator: backend\nRoot-Is-Purelib: {pure}\nTag: {tag}\n".encode()
    return files, tag


def build_wheel(wheel_directory, config_settings=None, metadata_directory=None):
    """Writes the wheel into the folder, and gives its name."""
    about = f"{PACKAGE}-{_version()}.dist-info"
    files, tag = contents((config_settings or {}).get("prefix"))
    record = ""
    for path, text in files.items():
        digest = base64.urlsafe_b64encode(hashlib.sha256(text).digest()).rstrip(b"=").decode()
        record += f"{path},sha256={digest},{len(text)}\n"
    files[f"{about}/RECORD"] = f"{record}{about}/RECORD,,\n".encode()
    name = f"{PACKAGE}-{_version()}-{tag}.whl"
    # An entry of a zip archive has a time of 1980 or later.
    date = max(time.gmtime(int(os.environ.get("SOURCE_DATE_EPOCH", "315532800")))[:6], (1980, 1, 1, 0, 0, 0))
    with zipfile.ZipFile(Path(wheel_directory) / name, "w", zipfile.ZIP_DEFLATED) as wheel:
        for path, text in files.items():
            entry = zipfile.ZipInfo(path, date)
            entry.compress_type, entry.external_attr = zipfile.ZIP_DEFLATED, 0o100644 << 16
            wheel.writestr(entry, text)
    return name


def build_sdist(sdist_directory, config_settings=None):
    """Writes the source archive into the folder, and gives its name."""
    top = f"{PACKAGE}-{_version()}"
    files = {**_files(), "PKG-INFO": _metadata()}
    for name in ("backend.py", "pyproject.toml"):
        files[name] = (HERE / name).read_bytes()
    with tarfile.open(Path(sdist_directory) / f"{top}.tar.gz", "w:gz") as archive:
        for path, text in files.items():
            entry = tarfile.TarInfo(f"{top}/{path}")
            entry.size = len(text)
            archive.addfile(entry, io.BytesIO(text))
    return f"{top}.tar.gz"
