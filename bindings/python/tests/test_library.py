"""Which library is loaded, and the versions of library and package."""

import os
import re
import shutil
import subprocess
import sys
import tempfile
import unittest
from pathlib import Path
from unittest import mock

import jubrelti
from jubrelti import _library

HERE = Path(__file__).resolve().parent.parent


def run(code, folder=HERE, **variables):
    environment = {name: value for name, value in os.environ.items() if name != _library.FOLDER_VARIABLE}
    environment.update(variables)
    return subprocess.run([sys.executable, "-c", code], cwd=folder, env=environment, capture_output=True, text=True)


class Library(unittest.TestCase):
    def test_version_of_the_package(self):
        stated = re.search(r'^version = "(.*)"$', (HERE / "pyproject.toml").read_text(), re.MULTILINE)
        self.assertEqual(stated.group(1), jubrelti.__version__)
        self.assertEqual(_library.version_number("0.2.0"), 2_000)
        self.assertEqual(_library.version_number("3.14.15"), 3_014_015)

    def test_another_version_is_refused(self):
        with self.assertRaisesRegex(ImportError, f"the library L is version 3.14.15, and this package is version {jubrelti.__version__}; "):
            _library.check_version(3_014_015, "L")
        _library.check_version(_library.version_number(jubrelti.__version__) + 1, "L")

    def test_no_library(self):
        with tempfile.TemporaryDirectory() as empty:
            done = run("import jubrelti", JUBRELTI_LIB_DIR=empty)
            self.assertNotEqual(done.returncode, 0)
            self.assertIn(f"ImportError: libjubrelti.so isn't in {empty}; build it with bindings/dist, or name its folder", done.stderr)
            (Path(empty) / _library.FILE).write_text("no library")
            done = run("import jubrelti", JUBRELTI_LIB_DIR=empty)
            self.assertIn("can't be loaded", done.stderr)

    def test_folder_by_variable_and_of_a_dist(self):
        path = _library._LIBRARY._name
        code = "import jubrelti._library as l; print(l._LIBRARY._name)"
        with tempfile.TemporaryDirectory() as folder:
            dist = Path(folder).resolve()
            shutil.copytree(HERE / "jubrelti", dist / "python" / "jubrelti")
            (dist / "lib").mkdir()
            shutil.copy(path, dist / "lib")
            done = run(code, dist / "python")
            self.assertEqual(done.stdout.strip(), str(dist / "lib" / _library.FILE), done.stderr)
            done = run(code, JUBRELTI_LIB_DIR=str(dist / "lib"))
            self.assertEqual(done.stdout.strip(), str(dist / "lib" / _library.FILE), done.stderr)

    def test_a_package_near_the_root(self):
        with mock.patch.object(_library, "__file__", "/none/jubrelti/_library.py"), mock.patch.dict(os.environ):
            os.environ.pop(_library.FOLDER_VARIABLE, None)
            self.assertEqual([path.name for path in _library._folders()], ["lib", "lib"])

    def test_the_system_loader(self):
        with tempfile.TemporaryDirectory() as folder:
            shutil.copytree(HERE / "jubrelti", Path(folder) / "a" / "b" / "jubrelti")
            code = "import jubrelti._library as l; print(l._LIBRARY._name)"
            loaded = run(code, Path(folder) / "a" / "b", LD_LIBRARY_PATH=str(Path(_library._LIBRARY._name).parent))
            # The loader knows the library by its soname, which ends in the version.
            self.assertTrue(loaded.stdout.startswith(_library.FILE), loaded.stderr)
            missing = run(code, Path(folder) / "a" / "b", LD_LIBRARY_PATH="")
            self.assertIn("ImportError: libjubrelti.so isn't in ", missing.stderr)

    @unittest.skipUnless(shutil.which("gcc"), "gcc isn't installed")
    def test_a_library_of_another_version(self):
        with tempfile.TemporaryDirectory() as folder:
            path = Path(folder) / _library.FILE
            older = "unsigned long long jubrelti_version(void) { return 1000; }"
            for source, sentence in ((older, "is version 0.1.0, and"), ("", "older")):
                subprocess.run(["gcc", "-shared", "-fPIC", "-x", "c", "-", "-o", str(path)], input=source, text=True, check=True)
                done = run("import jubrelti", JUBRELTI_LIB_DIR=folder)
                self.assertRegex(done.stderr, f"ImportError: .*{sentence}.*version {jubrelti.__version__}")


class Declarations(unittest.TestCase):
    def test_each_call_of_the_header_is_declared(self):
        header = HERE.parent.parent / "include" / "jubrelti.h"
        if not header.is_file():
            self.skipTest("there is no header beside this package")
        # The helpers, which are static, are no calls of the library.
        names = set(re.findall(r"^(?:uint64_t|Jubrelti\w+) (jubrelti_\w+)\(", header.read_text(), re.MULTILINE))
        calls = [value for value in vars(_library).values() if hasattr(value, "argtypes")]
        calls += [*_library.FINDS, *_library.EDITS.values()]
        self.assertEqual({call.__name__ for call in calls} | {"jubrelti_version"}, names)
        for call in calls:
            self.assertIsNotNone(call.argtypes)
            self.assertIsNotNone(call.restype)
