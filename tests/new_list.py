"""Tests docs/NEW-LIST.md. Every file that names the lists must name all of them. build/new_list must copy a list, add
the copy to the files that name the lists, and print the remaining work. ./gate proves the copy together with the lists
in examples/lists.
"""

import re

import lists
import pytest
from harness.programs import ran, well
from scripts import copied

KINDS = [it.word for it in lists.lists()]
PLACES = {**lists.CODE, **lists.TEXTS}


@pytest.fixture
def copy(room):
    """Creates a repository with the files that new_list reads and writes."""
    return copied(["build", "crates.txt", "examples/lists", *PLACES, *(f"crates/{it.crate}" for it in lists.lists())], room / "copy")


def code_in(crate):
    """Returns the contents of a crate's files, without the comments."""
    files = [it for it in crate.rglob("*") if it.suffix in (".rt", ".antt")]
    return "\n".join(re.sub(r"(^|\s)(--|//).*", "", line) for it in files for line in it.read_text().splitlines())


def test_every_place_names_each_list():
    assert [it for one in lists.lists() for it in lists.missing(one, lists.CODE) + lists.missing(one, lists.TEXTS)] == []


@pytest.mark.parametrize("old", [it for it in lists.lists() if it.word in ("coarse", "lazy")], ids=lambda it: it.word)
def test_a_copy_has_names_of_its_own_and_the_kind_of_its_list(copy, old):
    assert "crates/lset_one_more" in well(copy / "build/new_list", old.word, "one-more")
    code = code_in(copy / "crates/lset_one_more")
    assert old.type not in code and old.crate not in code and f"const KIND: Kind = Kind::{old.kind};" in code
    assert "impl Machine for OneMoreList" in code and "pub one_more_lawful : Lawful one_more" in code


def test_a_joined_list_lacks_only_the_parts_written_by_hand(copy):
    for word in ["one-more", "not-yet"]:
        well(copy / "build/new_list", "fine", word)
    well(copy / "build/new_list", "--join", "one-more")
    left = ran(copy / "build/new_list", "--left", "one-more")
    assert left.returncode == 1 and {it.partition(":")[0] for it in left.stdout.splitlines()} == set(lists.TEXTS)
    assert len(lists.TEXTS) <= 8
    assert "const KIND: Kind = Kind::OneMore;" in code_in(copy / "crates/lset_one_more")
    assert [ran(copy / "build/new_list", "--left", it).returncode for it in KINDS] == [0] * len(KINDS)


@pytest.mark.parametrize("words", [[], ["lazy", "lazy"], ["lazy", "../x"], ["no-list", "x"], ["--check", "no-list"], ["--join", "lazy"]])
def test_wrong_arguments_write_nothing(copy, words):
    before = sorted(copy.rglob("*"))
    done = ran(copy / "build/new_list", *words)
    assert done.returncode in (1, 2) and done.stderr and "Traceback" not in done.stderr and sorted(copy.rglob("*")) == before
