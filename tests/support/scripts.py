"""Scripts of the repository in folders of their own, beside stand-ins for the commands that they call."""

import shutil
import subprocess

from tests.support.clone import FOLDER, TOP
from tests.support.program import Ran


class Scripts:
    """Copies of some scripts, with a PATH that has these tools and what is written to bin/."""

    def __init__(self, name, scripts, tools=()):
        self.top = FOLDER / name
        self.bin = self.top / "bin"
        self.bin.mkdir(parents=True)
        for tool in tools:
            (self.bin / tool).symlink_to(shutil.which(tool))
        for script in scripts:
            (self.top / script).parent.mkdir(exist_ok=True)
            shutil.copy(TOP / script, self.top / script)

    def write(self, name, text):
        """A file with this text, which can be run where it begins as a script."""
        path = self.top / name
        path.parent.mkdir(parents=True, exist_ok=True)
        path.write_text(text)
        if text.startswith("#!"):
            path.chmod(0o755)
        return path

    def call(self, script, *words, given=b"", folder=None, path=None, **environment):
        """How a call of a script ends."""
        environment = {"PATH": str(path or self.bin), **environment}
        ran = subprocess.run([self.top / script, *words], input=given, capture_output=True, cwd=folder,
                             env=environment, timeout=300)
        return Ran(ran.returncode, ran.stdout, ran.stderr)
