"""The sources: of Python 3.8, of the standard library alone, and typed."""
from __future__ import annotations

import ast
import os
import shutil
import subprocess
import sys
import unittest

from .support import TOP

PACKAGE = TOP / "python" / "stework"


class Sources(unittest.TestCase):
    def test_they_are_of_python_3_8(self) -> None:
        files = sorted((TOP / "python").rglob("*.py"))
        self.assertGreater(len(files), 15)
        for path in files:
            with self.subTest(path.name):
                ast.parse(path.read_text(encoding="utf-8"), feature_version=(3, 8))

    @unittest.skipIf(sys.version_info < (3, 10), "the names of the standard library's modules are told from Python 3.10 on")
    def test_the_package_needs_the_standard_library_alone(self) -> None:
        for path in PACKAGE.glob("*.py"):
            for node in ast.walk(ast.parse(path.read_text(encoding="utf-8"))):
                names = [alias.name for alias in node.names] if isinstance(node, ast.Import) else []
                if isinstance(node, ast.ImportFrom) and node.level == 0:
                    names = [str(node.module)]
                self.assertLessEqual({name.split(".")[0] for name in names}, set(sys.stdlib_module_names), path.name)

    @unittest.skipUnless(shutil.which("mypy"), "mypy is not installed")
    def test_types(self) -> None:
        done = subprocess.run(["mypy", "--strict", "--cache-dir", os.devnull, str(PACKAGE)], stdout=subprocess.PIPE, stderr=subprocess.STDOUT,
                              check=False)
        self.assertEqual(done.returncode, 0, done.stdout.decode())
