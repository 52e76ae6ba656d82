"""Builds the package's wheel by the standard library alone (PEP 517), so that pip needs neither a network nor setuptools.

The wheel holds the package and the library for C: the one that the variable CEDAR_FORMATTER names, that of the repository,
or the one that a release installs.
"""
import base64
import hashlib
import io
import os
import sys
import tarfile
import zipfile

HERE = os.path.dirname(os.path.dirname(os.path.realpath(__file__)))
NAME, PACKAGE, LIBRARY = "cedar-formatter", "cedar_formatter", "libcedar_formatter.so.2"
TAG = "py3-none-linux_x86_64"
# From bindings/python of the repository, and from PREFIX/share/noblesilk/python.
LIBRARIES = f"{HERE}/../out/libcedar_formatter.so", f"{HERE}/../../../lib/{LIBRARY}"


def get_requires_for_build_wheel(config_settings=None):
    return []


get_requires_for_build_sdist = get_requires_for_build_wheel


def build_wheel(wheel_directory, config_settings=None, metadata_directory=None):
    files = {f"{PACKAGE}/{it}": _read(f"{HERE}/{PACKAGE}/{it}") for it in _sources()}
    files[f"{PACKAGE}/{LIBRARY}"] = _read(_library())
    info = f"{PACKAGE}-{_version()}.dist-info"
    files[f"{info}/METADATA"] = _metadata()
    files[f"{info}/WHEEL"] = f"Wheel-Version: 1.0\nGenerator: {__name__}\nRoot-Is-Purelib: false\nTag: {TAG}\n".encode()
    for it in ("LICENSE", "NOTICE"):
        files[f"{info}/{it}"] = _shared(it)
    record = "".join(f"{name},sha256={_sum(content)},{len(content)}\n" for name, content in files.items())
    files[f"{info}/RECORD"] = f"{record}{info}/RECORD,,\n".encode()
    name = f"{PACKAGE}-{_version()}-{TAG}.whl"
    with zipfile.ZipFile(os.path.join(wheel_directory, name), "w", zipfile.ZIP_DEFLATED) as wheel:
        for file, content in files.items():
            # (without a date, so that the same files make the same bytes)
            entry = zipfile.ZipInfo(file)
            entry.external_attr = (0o100755 if file.endswith(LIBRARY) else 0o100644) << 16
            wheel.writestr(entry, content, zipfile.ZIP_DEFLATED)
    return name


def build_sdist(sdist_directory, config_settings=None):
    top = f"{PACKAGE}-{_version()}"
    files = {f"{PACKAGE}/{it}": _read(f"{HERE}/{PACKAGE}/{it}") for it in _sources()}
    for it in ("pyproject.toml", f"backend/{os.path.basename(__file__)}"):
        files[it] = _read(f"{HERE}/{it}")
    for it in ("VERSION", "LICENSE", "NOTICE"):
        files[it] = _shared(it)
    files["PKG-INFO"] = _metadata()
    with tarfile.open(os.path.join(sdist_directory, f"{top}.tar.gz"), "w:gz") as archive:
        for file, content in files.items():
            entry = tarfile.TarInfo(f"{top}/{file}")
            entry.size = len(content)
            archive.addfile(entry, io.BytesIO(content))
    return f"{top}.tar.gz"


def _sources():
    return sorted(it for it in os.listdir(f"{HERE}/{PACKAGE}") if it.endswith((".py", ".typed")))


def _read(file):
    with open(file, "rb") as it:
        return it.read()


def _library():
    named = os.environ.get("CEDAR_FORMATTER")
    file = next(filter(os.path.isfile, [named] if named else LIBRARIES), None)
    if not file:
        advice = "run bindings/build in the repository, or set CEDAR_FORMATTER to its path"
        sys.exit(f"{PACKAGE}: {named or LIBRARY} is not found; {advice}")
    return file


def _shared(name):
    """The content of a file that is beside this package in a release, and at the top of the repository."""
    file = next(filter(os.path.isfile, (f"{HERE}/{name}", f"{HERE}/../../{name}")), None)
    if not file:
        sys.exit(f"{PACKAGE}: there is no file {name}, in {HERE} or at the top of the repository")
    return _read(file)


def _version():
    return _shared("VERSION").decode().strip()


def _metadata():
    lines = ["Metadata-Version: 2.1", f"Name: {NAME}", f"Version: {_version()}"]
    lines += ["Summary: Formatter for Cedar policies, proved to keep their tokens and comments"]
    lines += ["License: Apache-2.0", "Requires-Python: >=3.8", "Classifier: Typing :: Typed"]
    return "\n".join([*lines, ""]).encode()


def _sum(content):
    return base64.urlsafe_b64encode(hashlib.sha256(content).digest()).rstrip(b"=").decode()
