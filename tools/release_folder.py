"""The folder that a release has: what is installed, what the prover said, checksums, and a text that tells of them."""

import pathlib
import shutil
import subprocess
import tarfile

from tools import verdicts
from tools.archives import checksum_lines, write_archive
from tools.bare_root import add_libraries, may_change_root, run_in
from tools.build_plan import all_below
from tools.installation import PROGRAM, Fault, install
from tools.repository import ROOT, crates

DATA = ROOT / "crates/jvm/data"
TRIAL = ["replay", "--schedule", "one-by-one.schedule", "Counter.class"]
FIRST_LINE_OF_TRIAL = b"2\n"

README = """jvm {version}: an interpreter for Java class files, whose reports are proved to be what the bytes mean.

It runs on x86-64 Linux, and the program bin/jvm needs the C library alone. From this folder:

    bin/jvm --help
    bin/jvm search share/doc/jvm/lessons/lost-update/LostUpdate.class

To install it, copy bin and share below a folder as /usr/local. The scripts beside the program want Python 3.9, and
java-classes and jvm-java a javac.

    share/doc/jvm    README.md, which says what is proved; the documents, lessons, programs and the class library
    share/man        manual pages
    VERDICTS         of each crate: its name, the SHA-256 of its text, and what the prover said of it
    SHA256SUMS       the checksums of all files: sha256sum --check SHA256SUMS
"""


def version_of(program: pathlib.Path) -> str:
    """The number that `jvm --version` tells."""
    told = subprocess.run([str(program), "--version"], check=True, stdout=subprocess.PIPE, text=True).stdout
    return told.split()[-1]


def verdict_lines() -> str:
    """The verdicts on the program and on all crates that it stands on, in the order of crates.txt."""
    known = crates()
    wanted = all_below(known, PROGRAM) | {PROGRAM}
    names = [name for name in known if name in wanted]
    lacking = verdicts.without(names)
    if lacking:
        proved = " ".join(f"crates/{name}/out" for name in lacking)
        raise Fault(f"no verdict was kept of {', '.join(lacking)}: remove {proved}, and run tools/build again")
    return "".join(f"{verdicts.kept(name)}\n" for name in names)


def lay_out(scratch: pathlib.Path, told: str) -> pathlib.Path:
    """Makes the folder in a scratch folder; `told` are the lines of VERDICTS."""
    installed = scratch / "installed"
    version = version_of(install(str(installed)))
    folder = scratch / f"{PROGRAM}-{version}-x86_64-linux"
    installed.rename(folder)
    (folder / "README").write_text(README.format(version=version), encoding="utf-8")
    (folder / "VERDICTS").write_text(told, encoding="utf-8")
    (folder / "SHA256SUMS").write_text(checksum_lines(folder), encoding="utf-8")
    return folder


def try_alone(archive: pathlib.Path, scratch: pathlib.Path) -> bool:
    """Runs the program of the archive where nothing else stands; answers whether a folder may be made the root here."""
    if not may_change_root():
        return False
    root = scratch / "root"
    root.mkdir()
    with tarfile.open(archive) as opened:
        opened.extractall(root)
    program = f"/{next(root.iterdir()).name}/bin/{PROGRAM}"
    add_libraries(root, program)
    for given in TRIAL[2:]:
        shutil.copy(DATA / given, root)
    ran = run_in(root, [program, *TRIAL])
    if ran.returncode != 0 or not ran.stdout.startswith(FIRST_LINE_OF_TRIAL):
        why = ran.stderr.decode(errors="replace").strip()
        raise Fault(f"where nothing else stands, {PROGRAM} {' '.join(TRIAL)} has the status {ran.returncode}: {why}")
    return True


def packed(folder: pathlib.Path) -> pathlib.Path:
    """The archive of the folder, beside it."""
    archive = folder.parent / f"{folder.name}.tar.gz"
    write_archive(folder, archive)
    return archive
