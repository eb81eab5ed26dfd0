"""What pip asks to make a package of this repository (PEP 517): a wheel of the module and the shared library, which the script `build` makes.

Standard Python alone is wanted for it.
"""
from __future__ import annotations

import base64
import hashlib
import subprocess
import sysconfig
import tempfile
import tomllib
import zipfile
from pathlib import Path
from typing import Any, Dict, Optional

HERE = Path(__file__).resolve().parent


class UnsupportedOperation(Exception):
    """What pip expects where a backend can't do something."""


def build_wheel(wheel_directory: str, config_settings: Optional[Dict[str, Any]] = None, metadata_directory: Optional[str] = None) -> str:
    """Makes the shared library, and a wheel with it. Gives the wheel's name."""
    project = tomllib.loads((HERE.parents[1] / "pyproject.toml").read_text())["project"]
    name = f"{project['name']}-{project['version']}"
    tag = "py3-none-" + sysconfig.get_platform().replace("-", "_").replace(".", "_")
    info = f"{name}.dist-info"
    files = {
        "hurd.py": (HERE / "hurd.py").read_bytes(),
        "libhurd.so": _library(),
        f"{info}/METADATA": _metadata(project).encode(),
        f"{info}/WHEEL": f"Wheel-Version: 1.0\nGenerator: backend\nRoot-Is-Purelib: false\nTag: {tag}\n".encode(),
    }
    files[f"{info}/RECORD"] = _record(files, f"{info}/RECORD").encode()
    with zipfile.ZipFile(Path(wheel_directory, f"{name}-{tag}.whl"), "w", zipfile.ZIP_DEFLATED) as wheel:
        for path, data in files.items():
            wheel.writestr(path, data)
    return f"{name}-{tag}.whl"


def build_sdist(sdist_directory: str, config_settings: Optional[Dict[str, Any]] = None) -> str:
    """Refuses: sources without the toolchain are of no use to pip."""
    raise UnsupportedOperation("a package is made of a checkout alone")


def _library() -> bytes:
    """The bytes of the shared library."""
    with tempfile.TemporaryDirectory() as folder:
        file = Path(folder, "libhurd.so")
        subprocess.run([HERE / "build", file], check=True)
        return file.read_bytes()


def _metadata(project: Dict[str, str]) -> str:
    """What the package is, as its METADATA says it."""
    words = {"Name": "name", "Version": "version", "Summary": "description", "Requires-Python": "requires-python"}
    return "Metadata-Version: 2.1\n" + "".join(f"{word}: {project[key]}\n" for word, key in words.items())


def _record(files: Dict[str, bytes], record: str) -> str:
    """The list of all files, with their hashes and sizes, but of the list itself."""

    def line(path: str, data: bytes) -> str:
        digest = base64.urlsafe_b64encode(hashlib.sha256(data).digest()).rstrip(b"=").decode()
        return f"{path},sha256={digest},{len(data)}\n"

    return "".join(line(*file) for file in files.items()) + f"{record},,\n"
