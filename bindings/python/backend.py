"""Builds the package's wheel by Python's standard library alone, so that pip needs no network: `pip install bindings/python`.

The wheel carries the shared object that ZANGJULF_LIBRARY names, or the one in the repository's build folder. If there is none,
the installation fails at once, and says which command builds it. The version is the header's.
"""

import base64
import hashlib
import os
import runpy
import sys
import sysconfig
import time
import zipfile
from pathlib import Path

HERE = Path(__file__).resolve().parent
TOP = HERE.parents[1]
header_version = runpy.run_path(str(HERE / "zangjulf/version.py"))["header_version"]

#: 1980-01-01, before which a zip archive has no time
EARLIEST = 315_532_800

METADATA = """Metadata-Version: 2.1
Name: zangjulf
Version: {version}
Summary: The configuration and process image part of an EtherCAT master whose line changes while it runs
License: MIT OR Apache-2.0
Requires-Python: >=3.11
Description-Content-Type: text/markdown

{readme}"""

WHEEL = """Wheel-Version: 1.0
Generator: zangjulf
Root-Is-Purelib: false
Tag: {tag}
"""


def get_requires_for_build_wheel(config_settings=None):
    shared_object()
    return []


def shared_object():
    """The shared object that the wheel carries. If it is missing, this ends the installation with one sentence."""
    named = os.environ.get("ZANGJULF_LIBRARY")
    place = Path(named) if named else TOP / "build/libzangjulf.so"
    if not place.exists():
        sys.exit(f"zangjulf: {place} is missing: run packaging/library.sh first, which builds build/libzangjulf.so.")
    return place


def files(version, carried, tag):
    """What the wheel holds, by name, but for the record."""
    held = {f"zangjulf/{file.name}": file.read_bytes() for file in sorted((HERE / "zangjulf").glob("*")) if file.is_file()}
    held["zangjulf/libzangjulf.so"] = carried.read_bytes()
    verdict = carried.parent / "verdict.txt"
    if verdict.exists():
        held["zangjulf/verdict.txt"] = verdict.read_bytes()
    about = f"zangjulf-{version}.dist-info"
    for name in ("LICENSE-MIT", "LICENSE-APACHE"):
        held[f"{about}/licenses/{name}"] = (TOP / name).read_bytes()
    readme = (HERE / "README.md").read_text(encoding="utf-8")
    held[f"{about}/METADATA"] = METADATA.format(version=version, readme=readme).encode()
    held[f"{about}/WHEEL"] = WHEEL.format(tag=tag).encode()
    return held


def record(held, place):
    """The wheel's own record: a checksum of each file."""
    lines = []
    for name, data in held.items():
        digest = base64.urlsafe_b64encode(hashlib.sha256(data).digest()).rstrip(b"=").decode()
        lines.append(f"{name},sha256={digest},{len(data)}\n")
    return "".join(lines) + f"{place},,\n"


def build_wheel(wheel_directory, config_settings=None, metadata_directory=None):
    """Writes the wheel, and answers its name."""
    version = header_version(TOP / "include/zangjulf.h")
    carried = shared_object()
    platform = sysconfig.get_platform().replace("-", "_").replace(".", "_")
    tag = f"py3-none-{platform}"
    held = files(version, carried, tag)
    place = f"zangjulf-{version}.dist-info/RECORD"
    held[place] = record(held, place).encode()
    name = f"zangjulf-{version}-{tag}.whl"
    # the time of all files is the one that is named, or the earliest of such archives, so that the same files make the same wheel
    stamp = time.gmtime(max(int(os.environ.get("SOURCE_DATE_EPOCH", EARLIEST)), EARLIEST))[:6]
    with zipfile.ZipFile(Path(wheel_directory) / name, "w", zipfile.ZIP_DEFLATED) as wheel:
        for file, data in held.items():
            described = zipfile.ZipInfo(file, stamp)
            described.compress_type, described.external_attr = zipfile.ZIP_DEFLATED, 0o644 << 16
            wheel.writestr(described, data)
    return name
