"""Tools that not every machine has, and what was left out for want of them."""

import functools
import os
import pathlib
import re
import shutil
import subprocess

LACKING = set()


def there(tool, why="isn't there"):
    """Whether a tool is there; if not, what was left out for want of it is told at the end."""
    found = shutil.which(tool) is not None
    if not found:
        LACKING.add(f"{tool} {why}")
    return found


@functools.cache
def jdk_of_22():
    """The folder of a JDK of 22 or later, or None."""
    places = [os.environ.get("JAVA_HOME"), *sorted(pathlib.Path("/usr/lib/jvm").glob("*"))]
    if shutil.which("javac"):
        places.insert(1, pathlib.Path(shutil.which("javac")).resolve().parents[1])
    for place in filter(None, places):
        compiler = pathlib.Path(place) / "bin/javac"
        told = subprocess.run([compiler, "-version"], capture_output=True, text=True) if compiler.exists() else None
        version = told and re.search(r"\d+", told.stdout)
        if version and int(version[0]) >= 22:
            return pathlib.Path(place)
    return None


def with_jdk():
    """The variable by which scripts find it, where it's there."""
    return {"JAVA_HOME": str(jdk_of_22())} if jdk_of_22() else {}


def node_headers():
    """Whether the headers of Node are where bindings/node/build looks for them."""
    named = os.environ.get("NODE_HEADERS")
    folder = named or pathlib.Path(shutil.which("node")).resolve().parents[1] / "include/node"
    return (pathlib.Path(folder) / "node_api.h").exists()
