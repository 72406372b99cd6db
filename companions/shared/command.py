"""The frame of a companion: its words, its messages, its status and its output files."""
import argparse
import os
import shutil
import signal
import sys
import tempfile

DONE = 0
USAGE = 1
BAD_INPUT = 2
BAD_OUTPUT = 7
INTERRUPTED = 130


class Refused(Exception):
    """The companion ends with this message on standard error and this status."""

    def __init__(self, text, status=BAD_INPUT):
        super().__init__(text)
        self.status = status


class Words(argparse.ArgumentParser):
    """A parser of the command line that ends with status 1 where the words are wrong, as hats does."""

    def error(self, message):
        self.print_usage(sys.stderr)
        self.exit(USAGE, f"{self.prog}: {message}\n")


def whole_number(least, most):
    """A type of argument: a whole number from `least` to `most`."""

    def read(word):
        if not word.isascii() or not word.isdigit() or not least <= int(word) <= most:
            raise argparse.ArgumentTypeError(f"{word!r} is not a whole number from {least} to {most}")
        return int(word)

    return read


def run(main):
    """Ends the process with the status of `main`, which returns nothing or raises."""
    name = os.path.basename(sys.argv[0])
    signal.signal(signal.SIGTERM, lambda *_: sys.exit(INTERRUPTED))
    try:
        main()
        sys.stdout.flush()
    except Refused as refused:
        print(f"{name}: {refused}", file=sys.stderr)
        sys.exit(refused.status)
    except KeyboardInterrupt:
        sys.exit(INTERRUPTED)
    except BrokenPipeError:
        os.dup2(os.open(os.devnull, os.O_WRONLY), sys.stdout.fileno())
        sys.exit(BAD_OUTPUT)


class Outputs:
    """Files that appear under their names together, and only where nothing was refused.

    They are written in a hidden folder beside their places and renamed at the end. Used in a `with` block: where it
    ends by an exception nothing is left behind.
    """

    def __init__(self, overwrite=False):
        self.overwrite = overwrite
        self.folders = {}
        self.pending = []

    def __enter__(self):
        return self

    def path(self, name):
        """The path to write now for a file that shall stand as `name`."""
        if os.path.exists(name) and not self.overwrite:
            raise Refused(f"{name} exists: --overwrite replaces it", BAD_OUTPUT)
        place = os.path.dirname(os.path.abspath(name))
        try:
            if place not in self.folders:
                self.folders[place] = tempfile.mkdtemp(prefix=".unfinished-", dir=place)
        except OSError as fault:
            raise Refused(f"{name} can't be written: {fault.strerror}", BAD_OUTPUT) from fault
        written = os.path.join(self.folders[place], os.path.basename(name))
        self.pending.append((written, name))
        return written

    def __exit__(self, kind, value, trace):
        try:
            if kind is None:
                for written, name in self.pending:
                    os.replace(written, name)
        except OSError as fault:
            raise Refused(f"{name} can't be written: {fault.strerror}", BAD_OUTPUT) from fault
        finally:
            for folder in self.folders.values():
                shutil.rmtree(folder, ignore_errors=True)
        if kind is not None and issubclass(kind, OSError):
            raise Refused(f"an output can't be written: {value}", BAD_OUTPUT) from value
        return False
