"""The commands and flags of a program, as in the help that it prints."""
import collections
import re
import subprocess

# A flag or an argument: `short` and `value` are None where there is none.
Flag = collections.namedtuple("Flag", "short name value about")
Command = collections.namedtuple("Command", "name about flags arguments")

# Values that are names of files.
FILES = {"FILE", "SCRIPT"}


def help_of(program, *words):
    done = subprocess.run([program, *words, "--help"], capture_output=True, text=True)
    if done.returncode or not done.stdout:
        raise ValueError(f"{' '.join([str(program), *words])} --help fails: {done.stderr.strip() or 'it prints nothing'}")
    return done.stdout


def section(text, title):
    """The lines below a title, up to the next empty one."""
    found = re.search(rf"^{title}:\n((?:[ ]+\S.*\n)+)", text, re.M)
    return found[1].splitlines() if found else []


def flags_in(text):
    for line in section(text, "Options"):
        found = re.fullmatch(r"\s+(?:-(\w), )?--([\w-]+)(?: <([\w=]+)>)?\s{2,}(.*)", line)
        if not found:
            raise ValueError(f"a line of the help that can't be read: {line}")
        yield Flag(*found.groups())


def arguments_in(text):
    for line in section(text, "Arguments"):
        found = re.fullmatch(r"\s+<(\w+)>\s{2,}(.*)", line)
        if not found:
            raise ValueError(f"a line of the help that can't be read: {line}")
        yield Flag(None, None, *found.groups())


def read(program, *words):
    """The content of the help of a program, or of one of its commands: the command, and those below it."""
    text = help_of(program, *words)
    listed = [line.split(None, 1) for line in section(text, "Commands")]
    # The library of the command line makes this one, which has no help of its own.
    below = [read(program, name)[0]._replace(about=about) for name, about in listed if name != "help"]
    below += [Command(name, about, [], []) for name, about in listed if name == "help"]
    name = words[-1] if words else str(program).rpartition("/")[2]
    return Command(name, text.splitlines()[0], list(flags_in(text)), list(arguments_in(text))), below
