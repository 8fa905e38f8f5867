"""The package for Python, built for the interpreter that runs the tests, or for another one."""

import subprocess
import sys

from tests.support.clone import FOLDER, TOP
from tests.support.library import LibraryCase, ran


def package(python=sys.executable):
    """The folder with the package as this interpreter imports it, built on the library that scripts/build_c made."""
    made = FOLDER / f"python-{str(python).strip('/').replace('/', '-')}"
    if not made.exists():
        ran = subprocess.run([python, "-B", TOP / "bindings/python/backend.py", made], capture_output=True, text=True,
                             timeout=120)
        if ran.returncode or ran.stdout or ran.stderr:
            raise RuntimeError(f"{python} doesn't build the package:\n{ran.stdout}{ran.stderr}")
    return made


class PythonCase(LibraryCase):
    """A test of the package."""

    @classmethod
    def setUpClass(cls):
        super().setUpClass()
        cls.folder = package()
        if str(cls.folder) not in sys.path:
            sys.path.insert(0, str(cls.folder))
        import fbcheck
        cls.module = fbcheck

    def fails(self, name, kind, text, call):
        """The call ends by this exception, whose text has these words."""
        try:
            got = call()
        except Exception as error:
            got = error
        self.holds(name, type(got) is kind and text in str(got), (type(got), str(got)))
        return got

    def alone(self, script, *words):
        """What a process of its own writes that runs this script with the package."""
        return ran(sys.executable, "-c", script, *words, PYTHONPATH=str(self.folder), seconds=300)
