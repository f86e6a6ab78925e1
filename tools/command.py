"""What the commands share: how they read their words, and how they end."""
import argparse
import os
import sys

from cases.drawing import decimal
from cases.model import Mistake
from cases.read import told
from checker import sendai


class Parser(argparse.ArgumentParser):
    """Says what is wrong in one line."""

    def error(self, message):
        program, _, name = self.prog.partition(" ")
        self.exit(2, "%s: %s%s (`%s --help` says more)\n" % (program, name + ": " if name else "", message, self.prog))

    def print_help(self, file=None):
        """Fails where it can't be written, which argparse would pass over."""
        print(self.format_help(), end="", file=file, flush=True)


def natural(word):
    if not decimal(word):
        raise argparse.ArgumentTypeError("%r is no natural number" % word)
    return int(word)


def closed():
    """A standard output that takes nothing, for where the shell has closed it: a file that is open for reading alone."""
    return open(os.open(os.devnull, os.O_RDONLY), "w")


def let_go():
    """Leaves nothing to be flushed to a standard output that takes no more."""
    os.dup2(os.open(os.devnull, os.O_WRONLY), sys.stdout.fileno())


def finished(name, act, failures=()):
    """Acts, and returns the exit status, that of the act or 2 where something is wrong, which one line says. `failures` end with 3."""
    sys.stdout = sys.stdout or closed()
    status = 2
    try:
        status_of_act = act()
        sys.stdout.flush()
        return status_of_act
    except BrokenPipeError:  # who reads the output wants no more
        let_go()
        return 128 + 13
    except KeyboardInterrupt:
        return 128 + 2
    except failures as e:
        status, wrong = 3, str(e)
    except OSError as e:
        if e.filename is None:
            let_go()
        wrong = "%s: %s" % (e.filename or "standard output", told(e))
    except (Mistake, sendai.Refused) as e:
        wrong = str(e)
    print("%s: %s" % (name, " ".join(wrong.split())), file=sys.stderr)
    return status
