"""Tests docs/YOUR-SET.md as a reader would use it. For each language, the judge is copied into a new folder with a correct
set, and the commands on the page judge the set. tests/judge_in_a_test.py tests the judges themselves.
"""

import os
import re
import shutil
import sys
from pathlib import Path

import pytest
from harness.programs import QUICK_CARGO, TOP, ran, well
from judge_in_a_test import FORMS, TEST_LIBRARIES, each, go_words, in_jvm, missing_of_maven

PAGE = TOP / "docs" / "YOUR-SET.md"
CPP = """#include "listset_judge.hpp"
#include <gtest/gtest.h>
#include <mutex>
#include <set>
struct MySet {
    std::set<unsigned> keys;
    std::mutex lock;
    bool add(unsigned key) { std::lock_guard held(lock); return keys.insert(key).second; }
    bool remove(unsigned key) { std::lock_guard held(lock); return keys.erase(key); }
    bool contains(unsigned key) { std::lock_guard held(lock); return keys.count(key); }
};
TEST(MySet, First) {
%s
}
TEST(MySet, Options) { %s; }
TEST(MySet, Long) {
%s
    ASSERT_TRUE(verdict) << verdict;
}
"""
RUST = """use listset_judge::{judge, Options};
use std::{collections::BTreeSet, sync::Mutex};
struct MySet(Mutex<BTreeSet<u32>>);
impl MySet {
    fn new() -> Self { Self(Mutex::new(BTreeSet::new())) }
    fn add(&self, key: u32) -> bool { self.0.lock().unwrap().insert(key) }
    fn remove(&self, key: u32) -> bool { self.0.lock().unwrap().remove(&key) }
    fn contains(&self, key: u32) -> bool { self.0.lock().unwrap().contains(&key) }
}
#[test]
fn first() { %s }
#[test]
fn options() { %s.unwrap(); }
"""
MANIFEST = """[package]
name = "own"
version = "0.0.0"
edition = "2021"

[dev-dependencies]
listset_judge = { path = "rust" }
"""
JAVA = """class MySet extends java.util.concurrent.ConcurrentSkipListSet<Integer> { }
class Own {
    public static void main(String[] words) {
        %s
        %s;
        %s;
    }
}
"""
PYTHON = """import threading
import listset_judge
class MySet:
    def __init__(self): self.keys, self.lock = set(), threading.Lock()
    def contains(self, key):
        with self.lock: return key in self.keys
    def add(self, key):
        with self.lock: return key not in self.keys and not self.keys.add(key)
    def remove(self, key):
        with self.lock: return key in self.keys and not self.keys.remove(key)
"""
GO = """package own
import (
	"own/judge"
	"sync"
	"testing"
)
type MySet struct {
	lock sync.Mutex
	keys map[uint32]bool
}
func NewMySet() *MySet { return &MySet{keys: map[uint32]bool{}} }
func (it *MySet) Contains(key uint32) bool {
	it.lock.Lock()
	defer it.lock.Unlock()
	return it.keys[key]
}
func (it *MySet) turned(key uint32, to bool) bool {
	it.lock.Lock()
	defer it.lock.Unlock()
	was := it.keys[key]
	it.keys[key] = to
	return was != to
}
func (it *MySet) Add(key uint32) bool { return it.turned(key, true) }
func (it *MySet) Remove(key uint32) bool { return it.turned(key, false) }
func TestFirst(t *testing.T) { %s }
func TestOptions(t *testing.T) { %s }
"""


def codes_of(language, heads):
    """Returns the code snippets in the row for `language` of the page's table that has the heading `heads`."""
    table = PAGE.read_text(encoding="utf-8").split(f"| {' | '.join(heads)} |\n")[1].partition("\n\n")[0]
    (row,) = re.findall(rf"^\| {re.escape(language)}[ \d.]*\|(.*)\|$", table, re.M)
    return re.findall(r"`([^`]+)`", row.rpartition(" | ")[2] if len(heads) > 2 else row)


def line_of(language):
    return codes_of(language, ["Language", "Copy", "Keys", "The line in a test"])


def options_of(language):
    return codes_of(language, ["Language", "With 64 keys"])[0]


def block_of(first):
    """Returns the lines of the code block that begins, on the page, with the line `first`."""
    return re.search(rf"^ {{4}}{re.escape(first)}.*\n(?: {{4}}.*\n)*", PAGE.read_text(encoding="utf-8"), re.M)[0]


def cpp(room):
    shutil.copy(FORMS / "cpp" / "listset_judge.hpp", room)
    long = block_of("listset::options how;").replace("2500000", "6000")
    (room / "own.cpp").write_text(CPP % (block_of("auto verdict"), options_of("C++"), long))
    well("g++", "-O1", "-std=c++17", "-pthread", "own.cpp", "-lgtest", "-lgtest_main", "-o", "own", cwd=room)
    return [room / "own"]


def rust(room):
    shutil.copytree(FORMS / "rust", room / "rust", ignore=shutil.ignore_patterns("target"))
    (room / "tests").mkdir()
    (room / "src").mkdir()
    (room / "src" / "lib.rs").write_text("")
    (room / "Cargo.toml").write_text(MANIFEST)
    (room / "tests" / "own.rs").write_text(RUST % (line_of("Rust")[0], options_of("Rust")))
    return [*QUICK_CARGO, "test", "--offline", "--quiet"]


def java(room):
    judge = (FORMS / "java" / "Judge.java").read_text()
    (room / "Judge.java").write_text(judge.replace("package listset;\n", ""))
    first, _, of_any = line_of("Java")
    (room / "Own.java").write_text(JAVA % (first, of_any, options_of("Java")))
    well(*in_jvm("javac"), "Judge.java", "Own.java", cwd=room)
    return ["java", f"-Djava.io.tmpdir={room}", "-cp", room, "Own"]


def python(room):
    shutil.copy(FORMS / "python" / "listset_judge.py", room)
    fewer = 'listset_judge.judge.__kwdefaults__["runs"] = 2'  # (the page's line is before these lines, and performs 20 runs)
    (room / "own.py").write_text("\n".join([PYTHON, line_of("Python")[0], fewer, options_of("Python")]))
    return [sys.executable, "-B", "own.py"]


def go(room):
    shutil.copytree(FORMS / "go", room / "judge", ignore=shutil.ignore_patterns("go.mod", "sets_test.go"))
    (room / "go.mod").write_text("module own\n\ngo 1.18\n")
    (room / "own_test.go").write_text(GO % (line_of("Go")[0], options_of("Go")))
    return go_words("test", "-count=1", "./...")


def missing_google_test():
    package, is_here = TEST_LIBRARIES["GoogleTest"]
    return "" if is_here() else f"GoogleTest is not installed: {package}"


LANGUAGES = {"GoogleTest": cpp, "Rust": rust, "Java": java, "Python": python, "Go": go}


@each(LANGUAGES)
def test_the_lines_of_the_page_judge(program, room, lacking, language):
    if language == "GoogleTest" and (why := missing_google_test()):
        lacking(why)
    own = room / "own"
    own.mkdir()
    well(*LANGUAGES[language](own), cwd=own, env={**os.environ, "LISTSET": program, "TMPDIR": str(room)})
    if language == "GoogleTest":
        assert well(program, "judge", own / "recorded" / "seed-1.calls").startswith("ok 48000 calls\n")


# ---- Continuous integration: projects as docs/YOUR-SET.md describes them, tested by the page's command


def lay_cpp(room, own):
    for name in ("listset_judge.hpp", "CMakeLists.txt"):
        shutil.copy(FORMS / "cpp" / name, room / "judge")
    shutil.copy(FORMS / "ci" / "CMakeLists.txt", room)
    test = "TEST(MySet, First) { auto verdict = listset::judge<MySet>(); ASSERT_TRUE(verdict) << verdict; }\n"
    (room / "own_test.cpp").write_text(own(CPP.partition("TEST")[0], "keys.count(key)") + test)


def lay_rust(room, own):
    shutil.copytree(FORMS / "rust", room / "judge" / "rust", ignore=shutil.ignore_patterns("target"))
    lines = re.search(r"under `(\[dev-dependencies\])`, `(.*?)`", PAGE.read_text(encoding="utf-8"))
    (room / "Cargo.toml").write_text(f'[package]\nname = "own"\nversion = "0.0.0"\nedition = "2021"\n\n{lines[1]}\n{lines[2]}\n')
    for folder in ("src", "tests"):
        (room / folder).mkdir()
    (room / "src" / "lib.rs").write_text("")
    text = RUST.replace("judge, Options", "judge").partition("#[test]\nfn options")[0] % "judge!(MySet).unwrap();"
    (room / "tests" / "own.rs").write_text(own(text, "self.0.lock().unwrap().contains(&key)"))


def lay_java(room, own):
    tests = room / "src" / "test" / "java"
    (tests / "listset").mkdir(parents=True)
    shutil.copy(FORMS / "java" / "Judge.java", tests / "listset")
    shutil.copy(FORMS / "ci" / "pom.xml", room)
    (room / ".mvn").mkdir()
    (room / ".mvn" / "maven.config").write_text("-o\n-Dmaven.repo.local=/usr/share/maven-repo\n")  # (without the network)
    (tests / "OwnTest.java").write_text(own(JAVA_TEST, "super.contains(key)"))


def lay_python(room, own):
    (room / "tests").mkdir()
    shutil.copy(FORMS / "python" / "listset_judge.py", room / "tests")
    (room / "my_set.py").write_text(own(PYTHON, "key in self.keys").replace("import listset_judge\n", ""))
    test = "import listset_judge\nfrom my_set import MySet\ndef test_is_linearizable():\n    listset_judge.judge(MySet)\n"
    (room / "tests" / "test_own.py").write_text(test)


def lay_go(room, own):
    shutil.copytree(FORMS / "go", room / "judge", ignore=shutil.ignore_patterns("go.mod", "sets_test.go"), dirs_exist_ok=True)
    (room / "go.mod").write_text("module own\n\ngo 1.18\n")
    text = GO.partition("func TestOptions")[0] % "judge.Check(t, NewMySet)"
    (room / "own_test.go").write_text(own(text, "it.keys[key]"))


JAVA_TEST = """import listset.Judge;
import org.junit.Test;
public class OwnTest {
    public static class MySet extends java.util.concurrent.ConcurrentSkipListSet<Integer> {
        @Override public boolean contains(Object key) { return super.contains(key); }
    }
    @Test public void isLinearizable() { Judge.judge(MySet::new); }
}
"""
PROJECTS = {"C++": lay_cpp, "Rust": lay_rust, "Java": lay_java, "Python": lay_python, "Go": lay_go}
SKIPPED = {"C++": "(Skipped)", "Rust": "skipped: LISTSET is skip", "Java": "Skipped: 1", "Python": "1 skipped", "Go": "--- SKIP"}
WORDY = {"Go": "-v"}
NEEDS = {"C++": ["cmake", "make", "g++", "node"], "Rust": ["cargo", "rustc", "node"], "Java": ["mvn", "java", "node"], "Python": ["node"], "Go": ["go", "node"]}


def finds_all(text, found):
    """Returns the source of a set with a `contains` that always returns true."""
    for before, after in (("return ", ";"), ("return ", "\n"), ("{ ", " }")):
        true = "True" if "import threading" in text else "true"
        text = text.replace(f"{before}{found}{after}", f"{before}{true}{after}", 1)
    return text


def command_of(language):
    (row,) = re.findall(rf"^\| {re.escape(language)} \| .* \| `(.*?)` \|$", PAGE.read_text(encoding="utf-8"), re.M)
    return f"{row} -p no:cacheprovider".replace("python3", f"{sys.executable} -B") if language == "Python" else row


def in_ci(room, command, **also):
    """Runs the steps of judge/ci/github.yml in a project, with `command` in place of `cargo test`."""
    text = (FORMS / "ci" / "github.yml").read_text()
    given = dict(re.findall(r"^  (LISTSET\w*): (.*)$", text, re.M))
    given = {name: it.replace("${{ github.workspace }}", str(room)) for name, it in given.items() if "schedule" not in it}
    (step,) = re.findall("- run: (.*)$", text, re.M)
    step = step.replace("cargo test", command)
    environment = {name: it for name, it in os.environ.items() if not name.startswith("LISTSET")}
    return ran("bash", "-ec", step, cwd=room, env={**environment, "CI": "true", "GOPROXY": "off", "TMPDIR": str(room.parent), **given, **also}, seconds=600)


@pytest.mark.needs("cargo", "rustc")
def test_a_workspace_in_rust_skips_the_tests_of_the_judge(room, lacking):
    if ran("cargo", "fmt", "--version").returncode:
        lacking("rustfmt is not installed: rustup component add rustfmt")
    (room / "judge").mkdir()
    lay_rust(room, lambda text, _: text)
    (room / "Cargo.toml").write_text("[workspace]\n\n" + (room / "Cargo.toml").read_text())
    assert "/judge/rust/" not in ran("cargo", "fmt", "--all", "--check", cwd=room).stdout
    done = ran(*QUICK_CARGO, "test", "--offline", "--workspace", "--lib", "--tests", cwd=room, env={**os.environ, "LISTSET": "skip", "CI": ""}, seconds=600)
    said = done.stdout + done.stderr
    assert done.returncode == 0 and "test set ... ignored" in said and "skipped: LISTSET is skip" in said and "1 passed" in said


@pytest.mark.needs("node")
def test_a_project_in_gitlab_is_judged(room):
    (room / "judge").mkdir()
    shutil.copy(FORMS / "listset.js", room / "judge")
    lay_python(room, lambda text, _: text.replace("return key in self.keys", "return True"))
    text = (FORMS / "ci" / "gitlab.yml").read_text()
    given = {name: it.replace("$CI_PROJECT_DIR", str(room)) for name, it in re.findall(r"^    (LISTSET\w*): (.*)$", text, re.M)}
    lines = re.findall("^    - (.*)$", text.partition("\n  script:\n")[2], re.M)
    assert lines[-1] == "cargo test" and len(lines) == 2
    script = f"{lines[0]}; {command_of('Python')}".replace("600", "3")
    for source in ("push", "schedule"):
        done = ran("sh", "-ec", script, cwd=room, env={**os.environ, "CI": "true", "CI_PIPELINE_SOURCE": source, "TMPDIR": str(room.parent), **given}, seconds=600)
        first = int(re.search("\nE? *seed ([0-9]+) ", done.stdout)[1])
        assert done.returncode == 1 and (first > 1_700_000_000) == (source == "schedule") and "recorded in" in done.stdout, done.stdout
    assert list((room / "recordings").glob("*.calls"))


@pytest.mark.parametrize("language", [pytest.param(it, marks=pytest.mark.needs(*NEEDS[it])) for it in PROJECTS])
def test_a_project_in_continuous_integration_is_judged(room, lacking, language):
    if why := {"C++": missing_google_test, "Java": missing_of_maven}.get(language, str)():
        lacking(why)
    for is_right in (True, False):
        own = room / f"right {is_right}".replace(" ", "-")
        (own / "judge").mkdir(parents=True)
        shutil.copy(FORMS / "listset.js", own / "judge")
        PROJECTS[language](own, (lambda text, _: text) if is_right else finds_all)
        done = in_ci(own, command_of(language))
        said = done.stdout + done.stderr
        assert (done.returncode == 0) == is_right, said
        kept = list((own / "recordings").glob("*.calls"))
        assert bool(kept) != is_right and ("not linearizable" in said) != is_right, said
    done = in_ci(own, f"{command_of(language)} {WORDY.get(language, '')}", LISTSET="skip", CI="")
    assert done.returncode == 0 and SKIPPED[language] in done.stdout + done.stderr, done.stdout + done.stderr
    done = in_ci(own, command_of(language), LISTSET="skip")
    assert done.returncode != 0 and "in CI no test is skipped" in done.stdout + done.stderr
    done = in_ci(own, command_of(language), LISTSET="", PATH=os.environ["PATH"])
    assert done.returncode != 0 and "judge/listset.js" in done.stdout + done.stderr
