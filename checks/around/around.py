"""What the checks of what stands around the command share: where things are, stored files, and calls."""
import os
import subprocess
import sys

sys.dont_write_bytecode = True
HERE = os.path.dirname(os.path.realpath(__file__))
TOP = os.path.dirname(os.path.dirname(HERE))
sys.path.insert(0, os.path.join(TOP, "share", "verac"))


def stored(name):
    """The text of a file of this folder."""
    with open(os.path.join(HERE, name), encoding="utf-8") as file:
        return file.read()


def called(*words, given=b"", folder=HERE, **environment):
    """A call that has ended: its status, and the bytes that it wrote."""
    return subprocess.run(
        words, input=given, cwd=folder, env={**os.environ, **environment}, capture_output=True, check=False
    )
