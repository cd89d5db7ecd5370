"""Packs the package as a wheel by the standard library alone, so that `pip install ./python` fetches nothing."""
from __future__ import annotations

import base64
import hashlib
import tomllib
import zipfile
from pathlib import Path

HERE = Path(__file__).resolve().parent


def build_wheel(wheel_directory: str, config_settings: dict | None = None, metadata_directory: str | None = None) -> str:
    """Writes the wheel into this folder, and gives its name, as pip asks of what builds a package."""
    project = tomllib.loads((HERE / "pyproject.toml").read_text(encoding="utf-8"))["project"]
    about = f"{project['name']}-{project['version']}"
    files = {path.relative_to(HERE).as_posix(): path.read_bytes() for path in sorted((HERE / project["name"]).glob("*.*")) if path.is_file()}
    files[f"{about}.dist-info/METADATA"] = (
        f"Metadata-Version: 2.1\nName: {project['name']}\nVersion: {project['version']}\nSummary: {project['description']}\n"
        f"Requires-Python: {project['requires-python']}\n"
    ).encode()
    files[f"{about}.dist-info/WHEEL"] = b"Wheel-Version: 1.0\nGenerator: tavkrudd\nRoot-Is-Purelib: true\nTag: py3-none-any\n"
    record = f"{about}.dist-info/RECORD"
    files[record] = "".join([*(_recorded(name, data) for name, data in files.items()), f"{record},,\n"]).encode()
    name = f"{about}-py3-none-any.whl"
    with zipfile.ZipFile(Path(wheel_directory) / name, "w", zipfile.ZIP_DEFLATED) as wheel:
        for path, data in files.items():
            wheel.writestr(path, data)
    return name


def _recorded(name: str, data: bytes) -> str:
    """A file's line in the record: its name, digest and size."""
    digest = base64.urlsafe_b64encode(hashlib.sha256(data).digest()).rstrip(b"=").decode()
    return f"{name},sha256={digest},{len(data)}\n"
