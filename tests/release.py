"""Tests the packages of a release: the archive, the .deb, the wheel, the crate, and the page in one file. Makes a trial
release from the current build, unpacks each package without a toolchain in PATH, and uses the package as a user would.
"""

import os
import pathlib
import re
import shutil
import socket
import subprocess
import sys
import tarfile

import pytest
import version_stamp
import your_set_page
from harness.programs import LONG, TOP, UNPROVED, ran, well

needs = pytest.mark.needs
pytestmark = needs("gcc")  # build/release links the program with gcc's libraries

SCHEDULES = TOP / "examples" / "schedules"
REPLAYED_EXAMPLES = ["snip", "opens-with-keys", "read-in-anothers-step", "two-removers"]
# PATH without the folders of the Rattle toolchain
PATH_WITHOUT_RATTLE = os.pathsep.join(it for it in os.environ["PATH"].split(os.pathsep) if not (pathlib.Path(it) / "rt").exists())
WITHOUT_RATTLE = {"PATH": PATH_WITHOUT_RATTLE, "HOME": os.environ.get("HOME", "/"), "LANG": "C.UTF-8"}
PROGRAM_WITH_WHEEL = """import listset, sys
print(listset.version(), end="")
listset.check(listset.replay(listset.gen("lazy", 2, 4, 10, 5, 1)))
try:
    listset.check(open(sys.argv[1]).read())
except listset.Wrong as wrong:
    print(wrong.text.strip(), wrong.status)
"""
TEST_WITH_WHEEL = f"""import listset_servers, sys
assert listset_servers.Listset(int(sys.argv[1])).add(7) is True
{your_set_page.PYTHON}
print(listset_judge.judge(MySet, threads=2, calls=50, runs=2))
"""
PROGRAM_WITH_CRATE = """fn main() {
    print!("{}", listset::version());
    let report = std::fs::read(std::env::args().nth(1).expect("a file")).expect("it is read");
    let wrong = listset::check(report).expect_err("it is broken");
    println!("{} {}", wrong.text.trim_end(), wrong.status);
}
"""
MANIFEST = """[package]
name = "own"
version = "0.0.0"
edition = "2021"
"""


def proof_of(program):
    return version_stamp.NOT_PROVED if pathlib.Path(program).resolve() == UNPROVED.resolve() else version_stamp.PROVED


def trial_of(program):
    """Returns the command that makes packages of the program under test. The caller appends the name of the folder for
    the packages.
    """
    return [TOP / "build" / "release", *(["--unproved"] if proof_of(program) == version_stamp.NOT_PROVED else []), "--trial"]


def made_packages(folder, program):
    """Returns the folder of the packages, or the reason why the packages cannot be made on this machine or in this
    clone.
    """
    done = ran(*trial_of(program), folder / "dist", seconds=LONG)
    return folder / "dist" if done.returncode == 0 else done.stderr.strip()


class Release:
    """The packages of a trial release, shared by all tests."""

    def __init__(self, folder, room):
        self.folder, self.room = folder, room

    def file(self, pattern):
        found, = self.folder.glob(pattern)
        return found

    def unpacked(self, pattern):
        """Unpacks a package that is a .tar.gz, and returns its folder."""
        with tarfile.open(self.file(pattern)) as archive:
            archive.extractall(self.room)
        return self.room / f"listset-{version_stamp.version()}"


@pytest.fixture
def release(program, room, once, lacking):
    made = once(made_packages, program)
    if isinstance(made, str):
        lacking(made)
    return Release(made, room)


def replays(program, enter, **how):
    """Checks that the program of a package prints the same bytes as the program under test."""
    for name in REPLAYED_EXAMPLES:
        text = (SCHEDULES / f"{name}.schedule").read_text()
        assert well(*enter, "replay", text=text, **how) == well(program, "replay", text=text)


def told_of_broken(program):
    """Returns the version, the verdict on the report of a broken list (a list without one of its checks), and the exit
    status, in the format of the test programs.
    """
    done = ran(program, "check", SCHEDULES / "snip.broken.report")
    return f"{version_stamp.told(proof_of(program))}{(done.stdout + done.stderr).strip()} {done.returncode}\n"


def test_a_release_is_reproducible(release, program, room):
    again, first = made_packages(room, program), release.folder
    assert sorted(it.name for it in again.iterdir()) == sorted(it.name for it in first.iterdir())
    assert [it.name for it in first.iterdir() if it.read_bytes() != (again / it.name).read_bytes()] == []
    well("sha256sum", "--check", "--strict", "SHA256SUMS", cwd=first)
    assert (first / "PROVENANCE").read_text().startswith(version_stamp.told(proof_of(program)))


@pytest.mark.skipif(os.geteuid() != 0, reason="only root may chroot")
def test_the_program_needs_no_other_file(release, program):
    """Tests the program in a root folder that contains only the program's package: the program replays a schedule, runs
    four threads, and serves a session.
    """
    enter = [shutil.which("chroot"), release.unpacked("*-linux-x86_64.tar.gz"), "/bin/listset"]
    assert well(*enter, "--version", "--long", env={}) == version_stamp.told(proof_of(program))
    replays(program, enter, env={})
    assert well(*enter, "run", "lock-free", 4, 1000, 1000, 50, 7, env={}).splitlines()[0] == "calls 4000"
    how = {"stdin": subprocess.DEVNULL, "stdout": subprocess.PIPE, "text": True, "env": {}}
    with subprocess.Popen([*map(str, [*enter, "serve", "lazy", 1, 8, 0, 1])], **how) as process:
        port = int(re.search(r"(\d+)$", process.stdout.readline().strip())[1])
        with socket.create_connection(("127.0.0.1", port), 30) as client:
            client.sendall(b"ADD 5\nCONTAINS 5\nQUIT\n")
            answers = b"".join(iter(lambda: client.recv(4096), b""))
        assert answers == b"TRUE\nTRUE\nBYE\n"
        assert process.stdout.read().splitlines()[-1] == "key 5"


OF_LANGUAGES = [pytest.param(it, marks=needs(*tools.split())) for it, tools in {"c": "gcc", "cpp": "g++", "rust": "cargo rustc", "python": "python3"}.items()]


@pytest.mark.parametrize("language", OF_LANGUAGES)
def test_a_language_uses_the_unpacked_library(release, program, language):
    how = {"env": {**WITHOUT_RATTLE, "LISTSET_PREFIX": str(release.unpacked("*-linux-x86_64.tar.gz"))}}
    well(sys.executable, "-m", "pytest", "-q", TOP / f"tests/foreign.py::test_programs_in_{language}_use_sets_and_judge", "--program", program, **how)


def test_the_man_page_and_the_completions_work(release):
    top = release.unpacked("*-linux-x86_64.tar.gz") / "share"
    if shutil.which("man"):
        page = well("man", "-l", top / "man/man1/listset.1.gz", env={**WITHOUT_RATTLE, "MANWIDTH": "80", "LC_ALL": "C"})
        lines = [re.sub(".\x08", "", it) for it in page.splitlines()]
        assert {"EXIT STATUS", "EXAMPLES", "listset serve"} <= set(lines) and "--width <N>" in page
        assert max(map(len, lines)) <= 80
    for words, completed in {"show --w": "--width", "help ju": "judge", "replay --lacks marks": "marks-in-validation", "ex": "example explain"}.items():
        last = words.split()[-1]
        asked = f"COMP_WORDS=(listset {words}); COMP_CWORD={len(words.split())}; _listset listset {last}; echo ${{COMPREPLY[*]}}"
        assert well("bash", "-c", f"source {top}/bash-completion/completions/listset; {asked}", env=WITHOUT_RATTLE) == f"{completed}\n"
    for shell, file in (("zsh", "zsh/vendor-completions/_listset"), ("fish", "fish/vendor_completions.d/listset.fish")):
        if shutil.which(shell):
            well(shell, "-n", top / file, env=WITHOUT_RATTLE)


@needs("dpkg-deb")
def test_the_deb_is_unpacked(release, program, room):
    file, top = release.file("*.deb"), room / "deb"
    well("dpkg-deb", "--extract", file, top)
    control = well("dpkg-deb", "--field", file)
    assert f"Version: {version_stamp.version()}\n" in control and "No licence is given" in control
    assert well(top / "usr/bin/listset", "--version", "--long", env=WITHOUT_RATTLE) == version_stamp.told(proof_of(program))


def test_the_wheel_is_installed(release, program, room):
    file, top = release.file("*.whl"), room / "wheel"
    if ran(sys.executable, "-m", "pip", "--version").returncode:
        pytest.skip("pip is not installed")
    well(sys.executable, "-m", "pip", "install", "--no-index", "--no-deps", "--quiet", "--target", top, file, env=WITHOUT_RATTLE)
    how = {"env": {**WITHOUT_RATTLE, "PYTHONPATH": str(top)}}
    assert well(sys.executable, "-B", "-c", PROGRAM_WITH_WHEEL, SCHEDULES / "snip.broken.report", **how) == told_of_broken(program)
    serve = [program, "serve", "lazy", "1", "10", "0", "1"]
    with subprocess.Popen(serve, stdin=subprocess.DEVNULL, stdout=subprocess.PIPE, text=True) as server:  # (ends after its only session)
        said = well(sys.executable, "-B", "-c", TEST_WITH_WHEEL, server.stdout.readline().strip().rpartition(":")[2], **how)
    proved = version_stamp.told(proof_of(program)).splitlines()[3]
    assert said.startswith(("ok: ", "few calls overlapped")) and said.endswith(f"; judge: liblistset, {proved}\n")


@needs("cargo", "rustc")
def test_the_crate_is_built_offline(release, program, room):
    own = room / "own"
    (own / "src").mkdir(parents=True)
    (own / "src" / "main.rs").write_text(PROGRAM_WITH_CRATE)
    (own / "Cargo.toml").write_text(MANIFEST)
    well("cargo", "add", "--offline", "--quiet", "--path", release.unpacked("*.crate"), cwd=own, env=WITHOUT_RATTLE)
    well("cargo", "build", "--offline", "--quiet", cwd=own, env=WITHOUT_RATTLE)
    assert well(own / "target/debug/own", SCHEDULES / "snip.broken.report", env=WITHOUT_RATTLE) == told_of_broken(program)


@needs("node")
def test_the_page_in_one_file_has_the_engine(release, program):
    script = TOP / "tests" / "harness" / "one_file.js"
    replays(program, ["node", script, release.file("listset-page-*.html")], env=WITHOUT_RATTLE)


@needs("node")
def test_the_page_of_the_package_has_the_commands(release, program):
    replays(program, ["node", release.unpacked("*-linux-x86_64.tar.gz") / "share/listset/page/listset.js"], env=WITHOUT_RATTLE)
