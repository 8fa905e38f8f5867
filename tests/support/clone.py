"""The clone that the tests stand in: where it is, its scripts as modules, and folders for new files.

Each module has one, so that any two can run in one process, in either order, and name their files alike.

What imports no more than this one asks nothing of the program.
"""

import atexit
import importlib.machinery
import importlib.util
import pathlib
import shutil
import sys
import tempfile

TOP = pathlib.Path(__file__).resolve().parents[2]
FOLDER = pathlib.Path(tempfile.mkdtemp(prefix="fbcheck-tests-"))
atexit.register(shutil.rmtree, FOLDER, ignore_errors=True)


def loaded(path):
    """A script as a module."""
    loader = importlib.machinery.SourceFileLoader(path.stem, str(path))
    module = importlib.util.module_from_spec(importlib.util.spec_from_loader(path.stem, loader))
    loader.exec_module(module)
    return module


def folder_of(module):
    """The folder for the new files of the module of this name, which is gone after the tests."""
    folder = FOLDER / module.rpartition(".")[2]
    folder.mkdir(exist_ok=True)
    return folder


def file_of(name, data):
    """The path of a new file with these bytes, in the folder of the module that calls this."""
    path = folder_of(sys._getframe(1).f_globals["__name__"]) / name
    path.write_bytes(data)
    return path
