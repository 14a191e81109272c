"""Builds the package's wheel with the standard library alone, so that pip needs no network.

The hooks are those of PEP 517. The shared library is packed where 'make python' has put it; a wheel
without it is for machines that have it installed.
"""

from __future__ import annotations

import base64
import hashlib
import re
import sysconfig
import zipfile
from pathlib import Path
from typing import Any, Dict, List, Optional, Tuple

ROOT = Path(__file__).resolve().parent.parent
PACKAGE = ROOT / "weightrose"
SHARED = PACKAGE / "libweightrose.so"


def _settings(section: str) -> Dict[str, str]:
    """The texts of a section of pyproject.toml, which has one to a line."""
    text = (ROOT / "pyproject.toml").read_text(encoding="utf-8")
    body = re.search(rf"^\[{re.escape(section)}\]\n(.*?)(?=^\[|\Z)", text, re.M | re.S)
    return dict(re.findall(r'^(\S+) = "(.*)"$', body[1] if body else "", re.M))


def _version() -> str:
    numbers = re.search(r"^VERSION = \((.*)\)$", (PACKAGE / "library.py").read_text(encoding="utf-8"), re.M)
    if numbers is None:
        raise RuntimeError("weightrose/library.py has no VERSION")
    return numbers[1].replace(", ", ".")


def _tag() -> str:
    platform = re.sub("[-.]", "_", sysconfig.get_platform()) if SHARED.exists() else "any"
    return f"py3-none-{platform}"


def _metadata() -> str:
    project = _settings("project")
    return (
        f"Metadata-Version: 2.1\nName: {project['name']}\nVersion: {_version()}\n"
        f"Summary: {project['description']}\nRequires-Python: {project['requires-python']}\n"
        f"Description-Content-Type: text/markdown\n\n{(ROOT / 'README.md').read_text(encoding='utf-8')}"
    )


def _files() -> List[Tuple[str, bytes]]:
    """What goes into the wheel: the package, and what pip reads about it."""
    about = f"weightrose-{_version()}.dist-info"
    scripts = "".join(f"{name} = {target}\n" for name, target in _settings("project.scripts").items())
    pure = "false" if SHARED.exists() else "true"
    wheel = f"Wheel-Version: 1.0\nGenerator: wheel_of_package\nRoot-Is-Purelib: {pure}\nTag: {_tag()}\n"
    own = sorted(path for path in PACKAGE.rglob("*") if path.is_file() and "__pycache__" not in path.parts)
    files = [(path.relative_to(ROOT).as_posix(), path.read_bytes()) for path in own]
    files.append((f"{about}/METADATA", _metadata().encode()))
    files.append((f"{about}/WHEEL", wheel.encode()))
    files.append((f"{about}/entry_points.txt", f"[console_scripts]\n{scripts}".encode()))
    record = "".join(f"{name},sha256={_digest(data)},{len(data)}\n" for name, data in files)
    files.append((f"{about}/RECORD", f"{record}{about}/RECORD,,\n".encode()))
    return files


def _digest(data: bytes) -> str:
    return base64.urlsafe_b64encode(hashlib.sha256(data).digest()).rstrip(b"=").decode()


def build_wheel(
    wheel_directory: str, config_settings: Optional[Dict[str, Any]] = None, metadata_directory: Optional[str] = None
) -> str:
    name = f"weightrose-{_version()}-{_tag()}.whl"
    with zipfile.ZipFile(Path(wheel_directory, name), "w", zipfile.ZIP_DEFLATED) as wheel:
        for file, data in _files():
            entry = zipfile.ZipInfo(file)
            entry.external_attr = 0o644 << 16
            entry.compress_type = zipfile.ZIP_DEFLATED
            wheel.writestr(entry, data)
    return name


def build_sdist(sdist_directory: str, config_settings: Optional[Dict[str, Any]] = None) -> str:
    raise NotImplementedError("the package is built from its repository")
