"""How a tool reads, writes and ends: what goes wrong is one line on standard error and a status, never a traceback.

Status 0: all was done. 1: the input was bad, or could not be read, or the output not written. 2: asked wrongly."""
import argparse
import errno
import io
import os
import sys

BLOCK = 1 << 16
LONGEST_LINE = 1 << 20


class Stop(Exception):
    """Ends the tool: its one line."""


class Arguments(argparse.ArgumentParser):
    """The words of a command, with the module's own text as help."""

    def __init__(self, name, text, output):
        self.output = output
        super().__init__(prog="tools/" + name, description=text, allow_abbrev=False)

    def print_help(self, file=None):
        self.output.write(self.description.lstrip().encode())

    def error(self, message):
        told = message.removeprefix("argument ")
        self.exit(2, "%s: %s; '%s --help' tells what there is\n" % (self.prog, told, self.prog))

    def add_file(self):
        self.add_argument("file", nargs="?", metavar="FILE")


def number(least, most):
    """A whole number within limits, as the type of an argument."""
    def read(text):
        if not (text.isascii() and text.isdigit() and len(text) <= 20 and least <= int(text) <= most):
            raise argparse.ArgumentTypeError("'%s' is not a number from %d to %d" % (text, least, most))
        return int(text)
    return read


class Output:
    """Standard output, in blocks. After a failure it is given up."""

    def __init__(self):
        self.file = None

    def write(self, data):
        try:
            if self.file is None:
                self.file = io.BufferedWriter(io.FileIO(1, "w", closefd=False), BLOCK)
            self.file.write(data)
        except OSError as error:
            self.give_up(error)

    def flush(self):
        try:
            if self.file is not None:
                self.file.flush()
        except OSError as error:
            self.give_up(error)

    def give_up(self, error):
        self.file = None
        raise Stop(unwritten(error)) from None


def unwritten(error):
    if isinstance(error, BrokenPipeError):
        return "cannot write: nobody reads the output any more"
    return "cannot write: " + error.strerror


class Input:
    """A file, or standard input, as its bytes come: what was written goes out before each wait for more."""

    def __init__(self, path, output):
        path = None if path == "-" else path
        self.name, self.output = path or "standard input", output
        self.held, self.place = b"", 0  # a block, and how much of it is taken
        self.at = 0                     # bytes taken in all
        try:
            self.file = os.open(path, os.O_RDONLY) if path else 0
        except (OSError, ValueError) as error:
            raise Stop(self.unread(error)) from None

    def unread(self, error):
        return "cannot read %s: %s" % (self.name, getattr(error, "strerror", None) or error)

    def block(self):
        """What comes next, at most a block; nothing at the end."""
        self.output.flush()
        try:
            return os.read(self.file, BLOCK)
        except OSError as error:
            raise Stop(self.unread(error)) from None

    def ask(self, count):
        """Holds so many bytes, or as many as there are, and says whether they are there."""
        while len(self.held) - self.place < count:
            more = self.block()
            if not more:
                return False
            self.held, self.place = self.held[self.place:] + more, 0
        return True

    def ahead(self):
        """What is held and not taken."""
        return self.held[self.place:]

    def next(self, count):
        """The next bytes: so many, or all that are left. They stay."""
        self.ask(count)
        return self.held[self.place:self.place + count]

    def take(self, count):
        taken = self.next(count)
        self.place += len(taken)
        self.at += len(taken)
        return taken

    def lines(self):
        """The lines, without their ends; the last may lack one."""
        begun = b""
        while more := self.block():
            *whole, begun = (begun + more).split(b"\n")
            yield from whole
            if len(begun) > LONGEST_LINE:
                raise Stop("a line of more than %d characters" % LONGEST_LINE)
        if begun:
            yield begun


def read_file(path):
    """A file of the repository."""
    try:
        with open(path, encoding="utf-8") as file:
            return file.read()
    except OSError as error:
        raise Stop("cannot read %s: %s" % (path, error.strerror)) from None


def write_file(path, text):
    """Writes a file of the repository anew."""
    try:
        with open(path, "w", encoding="utf-8") as file:
            file.write(text)
    except OSError as error:
        raise Stop("cannot write %s: %s" % (path, error.strerror)) from None


def tell(name, line):
    """A line on standard error, if there is one."""
    try:
        os.write(2, ("tools/%s: %s\n" % (name, line)).encode(errors="replace"))
    except OSError:
        pass


def outcome(name, deed):
    """The status of a deed; what goes wrong in it is told."""
    try:
        return deed() or 0
    except Stop as stop:
        return failed(name, stop)
    except SystemExit as asked:  # of the words on the command line, --help among them
        return asked.code if isinstance(asked.code, int) else failed(name, asked.code)
    except KeyboardInterrupt:
        return 130
    except OSError as error:  # of a tool that prints
        if error.errno not in (errno.EPIPE, errno.ENOSPC):
            raise
        return failed(name, unwritten(error))


def failed(name, line):
    tell(name, line)
    return 1


def run(name, main):
    """Runs a tool and ends the process. main(output) gives the status, or nothing for 0."""
    output = Output()
    status = outcome(name, lambda: main(output))
    status = outcome(name, output.flush) or status
    if status == 0 and sys.stdout:
        status = outcome(name, sys.stdout.flush)
    os._exit(status)  # or the interpreter would flush once more, and tell the same again
