"""The program, run on a case."""
import os
import shutil
import subprocess
import tempfile

from .file import encode
from .model import Mistake, counted, refusal
from .read import MOST_LINES, text_of, told


def found(program):
    """The path of a program: a name without a slash is looked for in PATH, too, as a shell does."""
    return os.path.abspath(os.sep not in program and shutil.which(program) or program)


def run(program, case):
    """The lines that the program prints for a case, in a folder of its own."""
    with tempfile.TemporaryDirectory() as folder, tempfile.TemporaryFile() as said:
        with open(os.path.join(folder, "sendai.bin"), "wb") as f:
            f.write(encode(case))
        try:
            process = subprocess.Popen([found(program)], cwd=folder, stdin=subprocess.DEVNULL, stdout=subprocess.PIPE, stderr=said)
        except (OSError, ValueError) as e:
            raise Mistake(told(e)) from None
        with process:
            printed = process.stdout.read(MOST_LINES + 1)
            if len(printed) > MOST_LINES:  # it may never end
                process.kill()
                raise Mistake("the program prints more than %s" % counted(MOST_LINES, "byte"))
        if process.returncode and not refusal(case):  # that a puzzle is refused, the program may tell by its status, too
            said.seek(0)
            raise Mistake("the program " + ended(process.returncode, said.read()))
    return text_of(printed).splitlines()


def ended(status, said):
    """How a program ended that failed, and what it said last."""
    last = said.decode("utf-8", "replace").strip().split("\n")[-1]
    how = "was ended by signal %d" % -status if status < 0 else "ended with status %d" % status
    return how + (": " + last if last else "")
