"""usage: checks/packages/emulated.py COMMAND [WORD..]

Runs a command where the system runs programs for arm64 by qemu, and nobody else notices: in a user namespace with a binfmt_misc of its own, as Linux 6.7 and
later have it. Needs root. Where qemu is registered with the system (Debian's qemu-user-static does, but in a container) the command is run as it is."""
import ctypes
import os
import pathlib
import signal
import sys

REGISTERED = pathlib.Path("/proc/sys/fs/binfmt_misc/qemu-aarch64")
# Debian's line for it, by which the program that it names is opened once, and so is found in other roots too.
LINES = [pathlib.Path(f"/usr/{it}/qemu-aarch64.conf") for it in ("lib/binfmt.d", "share/qemu/binfmt.d")]
NEW_USERS, NEW_MOUNTS, PRIVATE, AT_PARENTS_END = 0x10000000, 0x20000, 0x44000, 1
LIBC = ctypes.CDLL(None, use_errno=True)


def ask(status, what):
    """Ends the program where the system refused something."""
    if status:
        print(f"emulated: {what}: {os.strerror(ctypes.get_errno())}", file=sys.stderr)
        os._exit(69)


def inside(ready, go, words):
    """In the namespace: registers qemu, and becomes the command."""
    ask(LIBC.unshare(NEW_USERS | NEW_MOUNTS), "a user namespace")
    os.close(ready)
    os.read(go, 1)
    ask(LIBC.prctl(AT_PARENTS_END, signal.SIGKILL), "an end with its parent")
    ask(LIBC.mount(None, b"/", None, PRIVATE, None), "mounts of its own")
    ask(LIBC.mount(b"binfmt_misc", bytes(REGISTERED.parent), b"binfmt_misc", 0, None), "a binfmt_misc of its own, which Linux has from 6.7 on")
    line = next(path for path in LINES if path.exists()).read_text().strip()
    (REGISTERED.parent / "register").write_text(line)
    os.execvp(words[0], words)


def run(words):
    if REGISTERED.exists():
        os.execvp(words[0], words)
    (is_there, ready), (go, let_go) = os.pipe(), os.pipe()
    child = os.fork()
    if child == 0:
        os.close(is_there)
        os.close(let_go)
        inside(ready, go, words)
    os.close(ready)
    os.read(is_there, 1)
    # It has the users of this system, each by its own number.
    for name in ("uid_map", "gid_map"):
        pathlib.Path(f"/proc/{child}/{name}").write_text("0 0 65536")
    os.close(let_go)
    return os.waitstatus_to_exitcode(os.waitpid(child, 0)[1])


if __name__ == "__main__":
    if len(sys.argv) < 2:
        sys.exit(__doc__)
    sys.exit(run(sys.argv[1:]))
