"""'pip install ./python' without a network, and the command that it installs."""

from __future__ import annotations

import importlib.util
import os
import shutil
import subprocess
import sys
import tempfile
import unittest
import zipfile
from pathlib import Path

import books
from weightrose import library

EXPECTED = Path(__file__).with_name("expected")


class Install(unittest.TestCase):
    def setUp(self) -> None:
        held = tempfile.TemporaryDirectory()
        self.addCleanup(held.cleanup)
        self.place = Path(held.name)
        ignored = shutil.ignore_patterns("__pycache__", ".mypy_cache", "libweightrose.so")
        shutil.copytree(books.ROOT / "python", self.place / "python", ignore=ignored)

    @unittest.skipUnless(importlib.util.find_spec("pip"), "this Python has no pip")
    def test_a_package_with_its_library(self) -> None:
        """As 'make python' and 'pip install ./python' give it: nothing else tells where the library is."""
        shutil.copyfile(library.load()._name, self.place / "python" / "weightrose" / "libweightrose.so")
        environment = {
            key: value for key, value in os.environ.items() if key not in ("PYTHONPATH", "WEIGHTROSE_LIBRARY")
        }
        pip = [sys.executable, "-m", "pip", "--disable-pip-version-check", "install", "--quiet", "--no-index"]
        subprocess.run(
            [*pip, "--target", "installed", "./python"],
            cwd=self.place,
            env=environment,
            check=True,
            stderr=subprocess.DEVNULL,
        )
        environment["PYTHONPATH"] = str(self.place / "installed")
        command = str(self.place / "installed" / "bin" / "weightrose")
        subprocess.run([command, "template", "mybook"], cwd=self.place, env=environment, check=True)
        done = subprocess.run(
            [command, "report", "mybook"], cwd=self.place, env=environment, check=True, capture_output=True
        )
        self.assertEqual(done.stdout.decode(), (EXPECTED / "report.txt").read_text())

    def test_the_wheel(self) -> None:
        """Every file of the package is in it, with its digest, and no other."""
        sys.path.insert(0, str(self.place / "python" / "backend"))
        self.addCleanup(sys.path.remove, str(self.place / "python" / "backend"))
        import wheel_of_package  # type: ignore[import-not-found]

        name = wheel_of_package.build_wheel(str(self.place))
        version = ".".join(map(str, library.VERSION))
        self.assertEqual(name, f"weightrose-{version}-py3-none-any.whl")
        with zipfile.ZipFile(self.place / name) as wheel:
            listed = set(wheel.namelist())
            record = wheel.read(f"weightrose-{version}.dist-info/RECORD").decode().splitlines()
        package = self.place / "python" / "weightrose"
        own = {path.relative_to(self.place / "python").as_posix() for path in package.rglob("*") if path.is_file()}
        self.assertEqual({file for file in listed if not file.startswith(f"weightrose-{version}")}, own)
        self.assertEqual({line.split(",")[0] for line in record}, listed)


if __name__ == "__main__":
    unittest.main()
