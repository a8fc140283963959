"""What all packages are made of: the targets that are built, their files as `make install` puts them, and archives of one time."""
import datetime
import gzip
import io
import os
import pathlib
import re
import shutil
import subprocess
import sys
import tarfile

TOP = pathlib.Path(__file__).resolve().parent.parent
VERSION = (TOP / "VERSION").read_text().strip()
SERIES = VERSION.rpartition(".")[0]
SONAME = f"libristulva.so.{SERIES}"
# The libraries that files may ask for, each with the package that Debian has it in.
LIBRARIES = {"libc.so.6": "libc6", "libm.so.6": "libc6", "ld-linux-x86-64.so.2": "libc6", "ld-linux-aarch64.so.1": "libc6", "libgcc_s.so.1": "libgcc-s1"}
# The newest glibc that a program or a library may ask for.
NEWEST_GLIBC = (2, 17)
UNBUILT, MISSING = 66, 69
# From this one on the packages of the same files are the same.
OLDEST_PYTHON = (3, 9)


class Stop(Exception):
    """What is wrong, and its status."""

    def __init__(self, why, status=1):
        super().__init__(why)
        self.status = status


def run(*words, cwd=TOP, **more):
    done = subprocess.run([str(word) for word in words], capture_output=True, text=True, env=dict(os.environ, **more), cwd=cwd)
    if done.returncode:
        raise Stop(f"{words[0]} failed: {(done.stderr or done.stdout).strip()}")
    return done.stdout


def named(name, path):
    """The file or folder that a variable of the environment names, else this one."""
    return pathlib.Path(os.environ.get(name, path)).resolve()


DIST = named("DIST", TOP / "dist")


class Target:
    """A processor that is built for: its name, Debian's name of it, and where its programs and its library lie."""

    def __init__(self, name, debian, programs, dist, tools=""):
        self.name, self.debian, self.programs, self.dist, self.tools = name, debian, programs, dist, tools
        self.libdir = f"/usr/lib/{name}-linux-gnu"

    def files(self):
        """What has to be built, each with the word of ./build that makes it."""
        words = zip(self.programs, ("bgp", "speaker", "guard"))
        return [*words, *((self.dist / name, "library") for name in (SONAME, "libristulva.a", "ristulva.h"))]

    def tool(self, name):
        """The tool of binutils for this processor."""
        return self.tools + name


X86 = Target(
    "x86_64", "amd64",
    [named(name, TOP / f"crates/{it}/out/{it}") for name, it in (("BGP", "bgp"), ("BGP_SPEAKER", "bgp_speaker"), ("BGP_GUARD", "bgp_guard_run"))],
    DIST,
)


ARM64 = Target("aarch64", "arm64", [DIST / "aarch64/bin" / name for name in ("bgp", "bgp_speaker", "bgp_guard_run")], DIST / "aarch64", "aarch64-linux-gnu-")


def targets():
    """The targets that are built: the first has to be, the second whole."""
    return [X86, ARM64] if all(path.is_file() for path, _ in ARM64.files()) else [X86]


# ---- what there has to be ----


def look_for_built():
    for target in targets():
        for path, word in target.files():
            if not path.is_file():
                raise Stop(f"{path} isn't built: ./build {word} makes it", UNBUILT)
    if not (DIST / "ristulva.html").is_file():
        raise Stop(f"{DIST}/ristulva.html isn't built: ./build page makes it", UNBUILT)


def look_for_tools(tools):
    if sys.version_info < OLDEST_PYTHON:
        raise Stop(f"Python is older than {dotted(OLDEST_PYTHON)}, and writes other headers of tar archives", MISSING)
    more = {ARM64.tool("strip"): "binutils-aarch64-linux-gnu"} if ARM64 in targets() else {}
    for tool, package in {**tools, **more}.items():
        if shutil.which(tool) is None:
            raise Stop(f"{tool} isn't there (Debian's package {package})", MISSING)


def day():
    """The day of this version, in seconds."""
    said = re.search(rf"^## {re.escape(VERSION)}, (\d+)-(\d+)-(\d+)$", (TOP / "CHANGELOG.md").read_text(), re.M)
    if not said:
        raise Stop(f"CHANGELOG.md has no line '## {VERSION}, YYYY-MM-DD'")
    at = datetime.datetime(*map(int, said.groups()), tzinfo=datetime.timezone.utc)
    return int(os.environ.get("SOURCE_DATE_EPOCH", at.timestamp()))


def hold_to_glibc(path):
    """Sees to it that a program or a library asks for no newer glibc."""
    found = re.findall(r"\(?GLIBC_([0-9.]+)\)?", run("objdump", "-T", path))
    newest = max((tuple(map(int, one.split("."))) for one in found), default=NEWEST_GLIBC)
    if newest > NEWEST_GLIBC:
        raise Stop(f"{path} asks for GLIBC_{dotted(newest)}, which is newer than {dotted(NEWEST_GLIBC)}: packaging/link-program links programs for that")


def dotted(numbers):
    return ".".join(map(str, numbers))


# ---- files ----


def installed(target, folder, parts, **where):
    """What `make install` puts into a folder, without symbols that only a debugger needs."""
    # A dollar is one that `make` reads.
    words = ["{}={}".format(name, value.replace("$", "$$")) for name, value in where.items()]
    built = [f"{name}={path}" for name, path in zip(("BGP", "BGP_SPEAKER", "BGP_GUARD"), target.programs)]
    run("make", "-s", "install", f"DESTDIR={folder}", f"PARTS={parts}", *built, f"DIST={target.dist}", f"PAGE={DIST}/ristulva.html", *words)
    strip(target, folder)


def strip(target, folder):
    for path in sorted(folder.rglob("*")):
        if path.is_symlink() or not path.is_file():
            continue
        if path.name.endswith(".a"):
            run(target.tool("strip"), "--strip-debug", "--enable-deterministic-archives", path)
        elif path.read_bytes()[:4] == b"\x7fELF":
            # The section .comment stays: it names the logic in which a program was proved.
            run(target.tool("strip"), "--strip-unneeded", path)


def settle(folder, time):
    """Gives every file and folder one time, and the modes of a system's."""
    for path in [folder, *folder.rglob("*")]:
        if not path.is_symlink():
            path.chmod(0o755 if path.is_dir() or os.access(path, os.X_OK) else 0o644)
        os.utime(path, (time, time), follow_symlinks=False)


def compressed(octets, time):
    return gzip.compress(octets, mtime=time)


def tar_of(folder, name, time):
    """A folder as the octets of a tar archive of this name, compressed."""
    held = io.BytesIO()
    with gzip.GzipFile(fileobj=held, mode="wb", filename="", mtime=time) as zipped, tarfile.open(fileobj=zipped, mode="w", format=tarfile.PAX_FORMAT) as tar:
        for path in [folder, *sorted(folder.rglob("*"))]:
            it = tar.gettarinfo(path, str(pathlib.PurePosixPath(name, path.relative_to(folder).as_posix())))
            it.mtime, it.uid, it.gid, it.uname, it.gname = time, 0, 0, "root", "root"
            # A name that occurs twice is written once more: no link between files of the archive.
            if it.islnk():
                it.type, it.size = tarfile.REGTYPE, path.stat().st_size
            tar.addfile(it, open(path, "rb") if it.isreg() else None)
    return held.getvalue()
