"""Proves and builds the benches (Rattle programs that measure the library) in a separate folder, with their
dependencies. The gate does not prove the benches. In bench/, the benches' sources are named .rt_ and .antt_, because rt
accepts .rt and .antt files only in crates.
"""

import pathlib
import shutil
import subprocess
import sys
import tempfile

BENCH = pathlib.Path(__file__).resolve().parent
TOP = BENCH.parent
sys.path.insert(0, str(TOP / "build"))
import crates_txt  # noqa: E402
import kit_builds  # noqa: E402
import toolchain  # noqa: E402

SOURCES = BENCH / "crates"
BUILT = BENCH / "out"  # not tracked by git
NAMES = sorted(it.name for it in SOURCES.iterdir() if it.is_dir())


def lines_with_benches():
    """Returns the lines of crates.txt and of bench/crates/rows.txt, keyed by crate."""
    return crates_txt.lines_of() | crates_txt.lines_by_crate((SOURCES / "rows.txt").read_text())


def lay_out(room, names):
    """Copies the benches `names` and their dependencies to the folder `room`."""
    wanted = crates_txt.below(names, lines=lines_with_benches())
    (room / "crates.txt").write_text("".join(f"{lines_with_benches()[it]}\n" for it in wanted))
    shutil.copy2(TOP / "HANDLES", room)
    for it in wanted:
        source = SOURCES / it if it in NAMES else TOP / "crates" / it
        shutil.copytree(source, room / "crates" / it, ignore=shutil.ignore_patterns("out"))
        for file in (room / "crates" / it).rglob("*_"):
            file.rename(str(file).removesuffix("_"))


def program_of(name):
    """Returns the path of a bench's program. If the program is missing, first proves and builds all benches with `rt ci`.
    (Delete bench/out after a change.)
    """
    if not (BUILT / name).exists():
        print(f"bench: proving and building {', '.join(NAMES)}, once", file=sys.stderr)
        toolchain.folder()
        with tempfile.TemporaryDirectory(prefix="bench-") as room:
            lay_out(pathlib.Path(room), NAMES)
            if subprocess.run(["rt", "ci"], cwd=room, stdin=subprocess.DEVNULL, stdout=sys.stderr).returncode:
                sys.exit(f"bench: {', '.join(NAMES)}: not proved")
            BUILT.mkdir(exist_ok=True)
            for it in NAMES:
                shutil.copy2(pathlib.Path(room, "crates", it, "out", it), BUILT)
    return str(BUILT / name)


def by_rustc(source, room):
    """Builds the Rust file `source` in bench/ with rustc and returns the program's path."""
    if not shutil.which("rustc"):
        sys.exit(f"bench: the command rustc is missing: {toolchain.NEEDS['rustc']}")
    program = f"{room}/{source.removesuffix('.rs')}"
    subprocess.run(["rustc", "--edition", "2021", "-O", f"{BENCH}/{source}", "-o", program], check=True)
    return program


def read():
    """Checks the names and types in each bench and its dependencies, without a proof. Returns the exit status."""
    failed = 0
    with tempfile.TemporaryDirectory(prefix="bench-") as room:
        lay_out(pathlib.Path(room), NAMES)
        for name in NAMES:
            status, said = kit_builds.read(name, pathlib.Path(room))
            if status:
                print(f"{said[-3000:].rstrip()}\nbench: {name} is not read")
                failed += 1
    print(f"{len(NAMES) - failed} passed, {failed} failed")
    return 1 if failed else 0
