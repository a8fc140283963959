"""The packages for Debian, and the source package: what each has beside the files that `make install` puts into it."""
import datetime
import hashlib
import json
import os
import pathlib
import re
import shutil
import subprocess

import packing
from packing import SERIES, SONAME, TOP, VERSION, compressed, run

MAINTAINER = (TOP / "packaging/maintainer").read_text().strip()
# The first packages of this version.
REVISION = f"{VERSION}-1"
LIBRARY = f"libristulva{SERIES}"
# From this length on Debian compresses a document.
LONG = 4096

OF_LIBRARY = (
    "Verdicts on BGP-4 messages (RFC 4271, RFC 7606), cursors over OPENs and\n UPDATEs, decoders of streams, and sessions behind handles, for hosts that\n"
    " have their own connections and timers. Each call is proved.\n .\n "
)
# Each package's section, short description and long one.
ABOUT = {
    "ristulva": (
        "net",
        "BGP-4 messages and sessions: show, check and convert captures",
        "The program bgp reads what a BGP-4 speaker sends (RFC 4271 and its\n extensions) and judges each message: accepted, treated as a withdrawal\n"
        " (RFC 7606), or answered by a NOTIFICATION that ends the session, and why.\n It shows, checks and converts captures, and runs two speakers against each\n"
        " other; bgp_speaker has a session with one peer, and bgp_guard_run stands\n between two speakers, and hands on what is clean.",
    ),
    LIBRARY: ("libs", "BGP-4 messages, read and judged, and sessions: shared library", f"{OF_LIBRARY}This package has the shared library."),
    "libristulva-dev": (
        "libdevel",
        "BGP-4 messages, read and judged, and sessions: for C and Go",
        f"{OF_LIBRARY}This package has the header, the archive, the module for Go, documents, and\n examples in C, Python, Go and Rust.",
    ),
    "python3-ristulva": ("python", "BGP-4 messages, read and judged, and sessions: for Python", f"{OF_LIBRARY}This package has the package ristulva for Python."),
    "librust-ristulva-dev": (
        "rust",
        "BGP-4 messages, read and judged, and sessions: for Rust",
        f"{OF_LIBRARY}This package has the crate ristulva, which links the archive of\n libristulva-dev.",
    ),
}
# What only has the same files on each processor.
ALL = {"python3-ristulva"}

# As Debian's dh_python3 writes them: what Python compiles comes and goes with the package.
POSTINST = """#!/bin/sh
set -e
if [ "$1" = configure ] && command -v py3compile >/dev/null; then
    py3compile -p {name}
fi
"""
PRERM = """#!/bin/sh
set -e
if command -v py3clean >/dev/null; then
    py3clean -p {name}
fi
"""

# The scripts of `contrib` leave none, and who imports their modules as root does.
PRERM_OF_CONTRIB = """#!/bin/sh
set -e
rm -rf /usr/share/doc/{name}/contrib/__pycache__
"""

SCRIPTS = {"python3-ristulva": {"postinst": POSTINST, "prerm": PRERM}, "ristulva": {"prerm": PRERM_OF_CONTRIB}}

BUILT_BY = f"""Ristulva {VERSION} is built by the Rattle kit, which Debian doesn't have: rt, the command of the kit, has to be on the path
(CONTRIBUTING.md). dpkg-buildpackage proves and builds all, in some 20 minutes on 4 cores and 9 GB of disk, and packs it.
"""
RULES = """#!/usr/bin/make -f
# README.source says what builds it.
%:
\t@:
build build-arch build-indep:
\t./build package
binary binary-arch binary-indep: build
\tcp dist/*.deb ..
\tcd dist && for it in *.deb; do (cd .. && dpkg-distaddfile "$$it" net optional); done
clean:
\trm -f debian/files
"""


# ---- copyright ----


def folded(text):
    """A text in the form of a Debian field after its first line."""
    return "".join(f" {line or '.'}\n" for line in text.strip("\n").split("\n"))


def kits():
    """What is from the kit: the text on all, and of each crate its name, its copyright holder, and its terms."""
    text = (TOP / "packaging/licences-of-the-kit").read_text()
    parts = re.findall(r"^==== (\w+) ====\n\n(.*?)(?=^====|\Z)", text, re.M | re.S)
    return text.partition("====")[0], [(name, re.findall(r"^Copyright (.*)$", said, re.M), said) for name, said in parts]


def copyright_of_source(comment=""):
    """The copyright in the form that machines read, of ours: LICENSE."""
    text = f"Format: https://www.debian.org/doc/packaging-manuals/copyright-format/1.0/\nUpstream-Name: ristulva\nUpstream-Contact: {MAINTAINER}\n{comment}"
    return text + f"\nFiles: *\nCopyright: the owner of Ristulva\nLicense: Ristulva\n{folded((TOP / 'LICENSE').read_text())}"


def copyright_of():
    """The same with what the kit's crates are under that are compiled in."""
    about, crates = kits()
    text = copyright_of_source(f"Comment:\n{folded(about)}")
    for name, owners, said in crates:
        text += f"\nFiles: kit/{name}/*\nCopyright: {'; '.join(owners) or 'the authors of this crate'}\nLicense: MIT-{name}\n{folded(said)}"
    return text


# ---- what each package has ----


def at(time):
    return datetime.datetime.fromtimestamp(time, datetime.timezone.utc).strftime("%a, %d %b %Y %H:%M:%S +0000")


def changelog(time):
    """The changelog in Debian's form, which names the one that has the words."""
    return f"ristulva ({REVISION}) unstable; urgency=medium\n\n  * Version {VERSION}: changelog.gz tells what changed, and for whom.\n\n -- {MAINTAINER}  {at(time)}\n"


def compress(folder, time):
    """Compresses pages and long documents, as Debian does, and has what names them name them so."""
    for page in folder.glob("usr/share/man/man*/*.[0-9]"):
        page.with_name(page.name + ".gz").write_bytes(compressed(page.read_bytes(), time))
        page.unlink()
    long = [path for path in sorted(folder.glob("usr/share/doc/*/*.md")) if path.stat().st_size > LONG]
    # A document names those beside it, a page those by their whole paths.
    beside = "|".join(re.escape(path.name) for path in long)
    for path in sorted(folder.glob("usr/share/doc/*/*.md")) if long else []:
        path.write_text(re.sub(rf"\]\(({beside})(#[^)]*)?\)", r"](\1.gz\2)", path.read_text()))
    for path in long:
        path.with_name(path.name + ".gz").write_bytes(compressed(path.read_bytes(), time))
        path.unlink()


def name_compressed(folder):
    """Pages name documents as they are installed there."""
    for page in folder.glob("usr/share/man/man*/*.[0-9]"):
        text = page.read_text()
        for path in folder.glob("usr/share/doc/*/*.md"):
            if path.stat().st_size > LONG:
                text = re.sub(rf"^(\.I /{re.escape(str(path.relative_to(folder)))})\b", r"\1.gz", text, flags=re.M)
        page.write_text(text)


def papers(name, folder, time):
    """What each package has in its folder of documents."""
    here = folder / "usr/share/doc" / name
    here.mkdir(parents=True, exist_ok=True)
    for file in ("LICENSE", "licences-of-the-kit", "CHANGELOG.md"):
        (here / file).unlink(missing_ok=True)
    (here / "copyright").write_text(copyright_of())
    (here / "changelog.gz").write_bytes(compressed((TOP / "CHANGELOG.md").read_bytes(), time))
    (here / "changelog.Debian.gz").write_bytes(compressed(changelog(time).encode(), time))
    name_compressed(folder)
    compress(folder, time)


def symbols(path):
    """The names of the shared library, each with the version of the package that surely has it."""
    names = sorted(re.findall(r" T (ristulva_\w+)", run("nm", "-D", "--defined-only", path)))
    return f"{SONAME} {LIBRARY} #MINVER#\n* Build-Depends-Package: libristulva-dev\n" + "".join(f" {name}@Base {VERSION}\n" for name in names)


def put_scripts(texts, name, about):
    for script, text in texts.items():
        (about / script).write_text(text.format(name=name))
        (about / script).chmod(0o755)


def control(name, target, folder, needs):
    size = sum(-(-path.lstat().st_size // 1024) if path.is_file() and not path.is_symlink() else 1 for path in folder.rglob("*"))
    section, short, long = ABOUT[name]
    processor = "all" if name in ALL else target.debian
    same = "Multi-Arch: same\n" if name in (LIBRARY, "libristulva-dev") else ""
    provides = f"Provides: librust-ristulva-{SERIES}-dev (= {REVISION}), librust-ristulva-{VERSION}-dev (= {REVISION})\n" if section == "rust" else ""
    return (
        f"Package: {name}\nSource: ristulva\nVersion: {REVISION}\nArchitecture: {processor}\n{same}Maintainer: {MAINTAINER}\nInstalled-Size: {size}\n"
        f"Depends: {needs}\n{provides}Section: {section}\nPriority: optional\nDescription: {short}\n {long}\n"
    )


def finish(name, target, folder, needs, time):
    """What each package has beside its files."""
    papers(name, folder, time)
    said = control(name, target, folder, needs)
    sums = "".join(
        f"{hashlib.md5(path.read_bytes()).hexdigest()}  {path.relative_to(folder)}\n" for path in sorted(folder.rglob("*")) if path.is_file() and not path.is_symlink()
    )
    about = folder / "DEBIAN"
    about.mkdir()
    (about / "control").write_text(said)
    (about / "md5sums").write_text(sums)
    if name == LIBRARY:
        (about / "shlibs").write_text(f"libristulva {SERIES} {name} (>= {VERSION})\n")
        (about / "symbols").write_text(symbols(folder / target.libdir.lstrip("/") / SONAME))
        (about / "triggers").write_text("activate-noawait ldconfig\n")
    put_scripts(SCRIPTS.get(name, {}), name, about)


def pack(name, target, tree, needs, made, time):
    finish(name, target, tree, needs, time)
    packing.settle(tree, time)
    words = ["--root-owner-group", "-Zxz", "-z6", "--threads-max=1", "--build"]
    processor = "all" if name in ALL else target.debian
    run("dpkg-deb", *words, tree, made / f"{name}_{REVISION}_{processor}.deb", SOURCE_DATE_EPOCH=str(time))


# ---- the packages ----


def depends(*paths):
    """Debian's packages of the libraries that these files ask for."""
    names = set().union(*(re.findall(r"\bNEEDED +(\S+)", run("objdump", "-p", path)) for path in paths))
    unknown = names - set(packing.LIBRARIES)
    if unknown:
        raise packing.Stop(f"{paths[0]} asks for {', '.join(sorted(unknown))}, of which no package is known")
    return ", ".join([f"libc6 (>= {packing.dotted(packing.NEWEST_GLIBC)})", *sorted({packing.LIBRARIES[name] for name in names} - {"libc6"})])


def by_make(target, folder, made, time):
    """The packages of the files that `make install` knows."""
    for name, parts, needs in (
        ("ristulva", "programs", depends(*target.programs)),
        (LIBRARY, "library", depends(target.dist / SONAME)),
        ("libristulva-dev", "development", f"{LIBRARY} (= {REVISION}), libc6-dev"),
    ):
        tree = folder / f"{name}-{target.debian}"
        where = {"docdir": "/usr/share/doc/ristulva", "libdocdir": "/usr/share/doc/libristulva-dev"}
        packing.installed(target, tree, parts, prefix="/usr", libdir=target.libdir, zshcompletiondir="/usr/share/zsh/vendor-completions", **where)
        pack(name, target, tree, needs, made, time)


def for_python(folder, made, time, metadata):
    """The package for Debian's own Python, which takes the shared library where the loader finds it."""
    tree = folder / "python3-ristulva"
    place = tree / "usr/lib/python3/dist-packages"
    ours = TOP / "bindings/python/ristulva"
    (place / "ristulva").mkdir(parents=True)
    for path in [*sorted(ours.glob("*.py")), ours / "py.typed"]:
        shutil.copy(path, place / "ristulva")
    about = place / f"ristulva-{VERSION}.dist-info"
    about.mkdir()
    (about / "METADATA").write_text(metadata)
    (about / "INSTALLER").write_text("dpkg\n")
    pack("python3-ristulva", packing.X86, tree, f"python3:any (>= 3.8), {LIBRARY} (>= {VERSION})", made, time)


def for_rust(target, folder, made, time, crate):
    """The crate where Debian's cargo looks, whose archive is that of libristulva-dev."""
    tree = folder / f"librust-ristulva-dev-{target.debian}"
    place = tree / "usr/share/cargo/registry" / f"ristulva-{VERSION}"
    place.parent.mkdir(parents=True)
    shutil.copytree(crate, place, ignore=lambda where, _: {"native"} if pathlib.Path(where) == crate else set())
    native = place / "native" / target.name
    native.mkdir(parents=True)
    for path in (f"{target.libdir}/libristulva.a", "/usr/include/ristulva.h"):
        at = "/" / native.relative_to(tree)
        (native / pathlib.Path(path).name).symlink_to(os.path.relpath(path, at))
    packed = made / f"ristulva-{VERSION}.crate"
    (place / ".cargo-checksum.json").write_text(json.dumps({"package": hashlib.sha256(packed.read_bytes()).hexdigest(), "files": {}}))
    pack("librust-ristulva-dev", target, tree, f"libristulva-dev (= {REVISION})", made, time)


# ---- the source package ----


def sources():
    """The files of the tree, without what was built."""
    done = subprocess.run(["git", "ls-files", "-z"], cwd=TOP, capture_output=True, text=True)
    if done.returncode == 0:
        return [name for name in done.stdout.split("\0") if (TOP / name).is_file()]
    built = {"out", "dist", ".git"}
    return [str(path.relative_to(TOP)) for path in sorted(TOP.rglob("*")) if path.is_file() and not built & set(path.relative_to(TOP).parts)]


def source_control():
    text = f"Source: ristulva\nSection: net\nPriority: optional\nMaintainer: {MAINTAINER}\nBuild-Depends: python3\n"
    text += "Standards-Version: 4.6.2\nRules-Requires-Root: no\n"
    for name, (section, short, long) in ABOUT.items():
        processor = "all" if name in ALL else "amd64 arm64"
        text += f"\nPackage: {name}\nSection: {section}\nArchitecture: {processor}\nDepends: ${{misc:Depends}}\nDescription: {short}\n {long}\n"
    return text


def source(folder, made, time):
    """The source package, by dpkg-source."""
    tree = folder / f"ristulva-{VERSION}"
    for name in sources():
        to = tree / name
        to.parent.mkdir(parents=True, exist_ok=True)
        shutil.copy(TOP / name, to, follow_symlinks=False)
    packing.settle(tree, time)
    (made / f"ristulva_{VERSION}.orig.tar.gz").write_bytes(packing.tar_of(tree, f"ristulva-{VERSION}", time))
    about = tree / "debian"
    (about / "source").mkdir(parents=True)
    files = {
        "control": source_control(), "changelog": changelog(time), "copyright": copyright_of_source(), "rules": RULES, "README.source": BUILT_BY,
        "source/format": "3.0 (quilt)\n",
    }
    for name, text in files.items():
        (about / name).write_text(text)
    (about / "rules").chmod(0o755)
    packing.settle(about, time)
    run("dpkg-source", "--build", tree, cwd=made, SOURCE_DATE_EPOCH=str(time))


def packages(folder, made, time, metadata, crate):
    """All of them, into the folder `made`."""
    for target in packing.targets():
        by_make(target, folder, made, time)
        for_rust(target, folder, made, time, crate)
    for_python(folder, made, time, metadata)
    source(folder, made, time)
