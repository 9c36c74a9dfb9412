"""Makes the wheel that `pip install` asks for, with the standard library alone: nothing is fetched, nothing need be there but Python.

The shared library goes into the wheel if it is there, beside the package or in the repository's target/lib; without it the package says
at its first call how to make it. (setuptools would ask for the package wheel, which a new virtual environment lacks.)
"""

from __future__ import annotations

import base64
import hashlib
import re
import sysconfig
import zipfile
from pathlib import Path

HERE = Path(__file__).resolve().parent
NAME, LIBRARY = "shahfureel", "libshahfureel.so"
HEADER = (HERE.parent / "include" / "shahfureel.h").read_text(encoding="utf-8")
VERSION = re.search(r'^#define SHAHFUREEL_VERSION "(.*)"$', HEADER, re.M)[1]  # the library's own
METADATA = f"""Metadata-Version: 2.1
Name: {NAME}
Version: {VERSION}
Summary: Dispatch of generating sets with a proved distance from the best
Requires-Python: >=3.9
"""
ENTRY_POINTS = f"[console_scripts]\n{NAME} = {NAME}.commands:main\n"


def _library() -> Path | None:
    places = (HERE / NAME / LIBRARY, HERE.parent / "target" / "lib" / LIBRARY)
    return next((place for place in places if place.exists()), None)


def _files(tag: str) -> dict[str, bytes]:
    info = f"{NAME}-{VERSION}.dist-info"
    package = HERE / NAME
    sources = [*sorted(package.rglob("*.py")), *sorted(package.glob("screen/page.*")), package / "py.typed"]
    files = {path.relative_to(HERE).as_posix(): path.read_bytes() for path in sources}
    library = _library()
    if library:
        files[f"{NAME}/{LIBRARY}"] = library.read_bytes()
    pure = "false" if library else "true"
    files[f"{info}/METADATA"] = METADATA.encode()
    files[f"{info}/WHEEL"] = f"Wheel-Version: 1.0\nGenerator: {NAME}\nRoot-Is-Purelib: {pure}\nTag: {tag}\n".encode()
    files[f"{info}/entry_points.txt"] = ENTRY_POINTS.encode()
    record = "".join(f"{name},sha256={_digest(data)},{len(data)}\n" for name, data in files.items())
    files[f"{info}/RECORD"] = f"{record}{info}/RECORD,,\n".encode()
    return files


def _digest(data: bytes) -> str:
    return base64.urlsafe_b64encode(hashlib.sha256(data).digest()).rstrip(b"=").decode()


def build_wheel(wheel_directory: str, config_settings: object = None, metadata_directory: str | None = None) -> str:
    """Writes the wheel, and returns its name: what pip calls."""
    platform = sysconfig.get_platform().replace("-", "_").replace(".", "_") if _library() else "any"
    tag = f"py3-none-{platform}"
    name = f"{NAME}-{VERSION}-{tag}.whl"
    with zipfile.ZipFile(Path(wheel_directory) / name, "w", zipfile.ZIP_DEFLATED) as wheel:
        for path, data in _files(tag).items():
            wheel.writestr(zipfile.ZipInfo(path, (1980, 1, 1, 0, 0, 0)), data)
    return name
