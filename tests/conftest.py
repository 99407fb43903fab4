"""Fixtures for all tests: the program under test, a folder for files, and results that are computed once per run.

    pytest-3                          runs all tests; -n 4 runs four in parallel
    pytest-3 tests/serve_clients.py   runs the tests of a file, or of a page in tests/transcripts; -k WORD selects tests by name
    pytest-3 --program=PROGRAM        tests this program; by default the most recently built program, proved or unproved
    pytest-3 --few                    tests a tenth of the random inputs
    pytest-3 --show PAGE              prints PAGE, a file in tests/transcripts, with the current output of its commands
    pytest-3 --tools                  also fails a test that runs a command of build/needs.txt but has no mark `needs` for it

A test that needs a missing tool or program is skipped with a message. If it was selected by -k or as FILE::NAME, it
fails.
"""

import collections
import fcntl
import os
import pathlib
import pickle
import re
import shutil

import pytest
from harness.pages import PAGES, Page
from harness.programs import PROVED, UNPROVED, clear, not_installed
from toolchain import NEEDS


def pytest_addoption(parser):
    group = parser.getgroup("listset")
    group.addoption("--program", type=os.path.realpath, help="the program that is tested")
    group.addoption("--few", action="store_true", help="draws only a tenth of the random inputs")
    group.addoption("--missing", action="store_true", help="with --collect-only: prints the commands that are not installed, and how many tests need each")
    group.addoption("--tools", action="store_true", help="fails a test that runs a command of build/needs.txt without a mark for it")
    group.addoption("--show", action="store_true", help="prints what the commands of a page print now")


@pytest.hookimpl(tryfirst=True)
def pytest_cmdline_main(config):
    if getattr(config.option, "numprocesses", None) and config.option.dist == "no":
        config.option.dist = "loadgroup"  # tests of one xdist_group then run one after another


def pytest_configure(config):
    if config.option.program and not os.access(config.option.program, os.X_OK):
        raise pytest.UsageError(f"there is no program {config.option.program}: build/unproved builds it, ./listset --prove proves it")


@pytest.hookimpl(tryfirst=True)
def pytest_runtest_logreport(report):
    report.nodeid = re.sub(r"@\w+$", "", report.nodeid)  # (xdist appends the group, and --lf would not find the test)


def built_program(config):
    """Returns the program in --program or, by default, the most recently built program. A program's age counts from the
    start of its build.
    """
    built = [it for it in (PROVED, UNPROVED) if it.exists()]
    return config.option.program or str(max(built, key=lambda it: it.stat().st_mtime, default=PROVED))


def pytest_report_header(config):
    return f"listset: {built_program(config)}"


def pytest_collect_file(file_path, parent):
    if file_path.parent == PAGES and file_path.suffix == ".md":
        return Page.from_parent(parent, path=file_path)


def pytest_collection_modifyitems(config, items):
    for item in items:
        for mark in item.iter_markers("needs"):
            if unknown := [it for it in mark.args if it not in NEEDS]:
                raise pytest.UsageError(f"{item.nodeid} needs {', '.join(unknown)}, which build/needs.txt does not list")
    if config.option.missing:
        print_missing(items)


def print_missing(items):
    """Prints, for each missing command, how to install the command and how many tests are skipped without the command.
    A test's mark `needs` names the commands that the test runs.
    """
    wanted = [it for item in items for it in {word for mark in item.iter_markers("needs") for word in mark.args}]
    for it, many in collections.Counter(wanted).items():
        if why := not_installed(it):
            print(f"missing: {why}; {many} {'test is' if many == 1 else 'tests are'} skipped")


@pytest.fixture(scope="session")
def lacking(pytestconfig):
    """Returns a function for tests whose tool or program is missing: the function fails a test that was selected by
    name, and skips any other.
    """
    is_named = pytestconfig.option.keyword or any("::" in it for it in pytestconfig.args)
    return pytest.fail if is_named else pytest.skip


@pytest.fixture(autouse=True)
def has_what_it_needs(request, lacking):
    for mark in request.node.iter_markers("needs"):
        if why := not_installed(*mark.args):
            lacking(why)


# Commands that exist on every machine that can run the tests
ALWAYS_HERE = {"rt", "python3", "pytest", "git", "bash", "setpriv"}
NOTES = '#!/bin/sh\necho "{name}" >>"${{TOOLS_USED:-/dev/null}}"\nexec "{place}" "$@"\n'


@pytest.fixture(scope="session")
def noting(pytestconfig, tmp_path_factory):
    """Returns a folder to add to PATH if --tools is set, otherwise None. For each optional command of build/needs.txt,
    the folder has a script that writes the command's name to the file TOOLS_USED and then runs the command.
    """
    if not pytestconfig.option.tools:
        return None
    folder = tmp_path_factory.mktemp("noting")
    for name in filter(shutil.which, NEEDS.keys() - ALWAYS_HERE):
        (folder / name).write_text(NOTES.format(name=name, place=shutil.which(name)))
        (folder / name).chmod(0o755)
    return folder


@pytest.fixture(autouse=True)
def uses_what_it_needs(request, noting, has_what_it_needs, tmp_path_factory, monkeypatch):
    """If --tools is set, fails each test that runs a command but has no mark for the command. On a machine without the
    command, a test without the mark would fail.
    """
    if not noting:
        yield
        return
    used = pathlib.Path(tmp_path_factory.mktemp("used"), "names")
    used.touch()
    monkeypatch.setenv("PATH", f"{noting}:{os.environ['PATH']}")
    monkeypatch.setenv("TOOLS_USED", str(used))
    yield
    unmarked = {*used.read_text().split()} - {it for mark in request.node.iter_markers("needs") for it in mark.args}
    assert not unmarked, f"the test has no mark for {', '.join(sorted(unmarked))}"


@pytest.fixture(scope="session")
def program(pytestconfig, lacking):
    """Returns the program under test."""
    found = built_program(pytestconfig)
    if not os.access(found, os.X_OK):
        lacking("no program is built: build/unproved builds it, ./listset --prove proves it")
    return found


@pytest.fixture
def room(tmp_path):
    """Returns a new folder for a test. After the test, kills all processes that run in the folder or name the folder in
    their arguments or environment, and deletes the folder.
    """
    yield tmp_path
    clear(tmp_path)


def made_with_tools(make, *words):
    """Calls the function `make`. Returns its result and, with --tools, the names of the commands that `make` ran."""
    of_test = os.environ.get("TOOLS_USED")
    if not of_test:
        return make(*words), ""
    os.environ["TOOLS_USED"] = f"{of_test}.once"
    try:
        result = make(*words)
    finally:
        os.environ["TOOLS_USED"] = of_test
    used = pathlib.Path(f"{of_test}.once")
    return result, used.read_text() if used.exists() else ""


@pytest.fixture(scope="session")
def once(tmp_path_factory, worker_id):
    """Returns a function that calls a given function with a new folder, and caches the result for all tests of the run,
    including tests in parallel processes.
    """
    of_run = tmp_path_factory.getbasetemp()
    of_run = of_run if worker_id == "master" else of_run.parent

    def made(make, *further):
        kept, folder = of_run / f"{make.__qualname__}.kept", of_run / make.__qualname__
        with open(f"{kept}.lock", "w") as lock:
            fcntl.flock(lock, fcntl.LOCK_EX)
            if not kept.exists():
                shutil.rmtree(folder, ignore_errors=True)  # (an earlier call failed, and did not delete this folder)
                folder.mkdir()
                kept.write_bytes(pickle.dumps(made_with_tools(make, folder, *further)))
            result, used = pickle.loads(kept.read_bytes())
        # With --tools, the commands that produced the shared result count as commands of the current test.
        if used:
            with open(os.environ["TOOLS_USED"], "a") as names:
                names.write(used)
        return result

    return made


@pytest.fixture(scope="session")
def few(pytestconfig):
    """Returns whether only a tenth of the random inputs should be tested."""
    return pytestconfig.option.few
