"""Tests the judge from Python: judges each example in four threads at the same time, as str and as bytes, and checks
the errors of wrong texts.

    judge.py EXAMPLES     the folder of the examples; PYTHONPATH must contain the folder of listset.py
"""

import concurrent.futures
import pathlib
import sys
import tempfile

import listset

THREADS = 4


def pairs(folder):
    """Yields the texts of each schedule and of its report, except for the schedules that must be refused."""
    refused = {line.split(":")[0] for line in (folder / "refused-files.txt").read_text().splitlines()}
    for it in sorted(folder.glob("*.schedule")):
        if (report := it.with_suffix(".report")).exists() and it.name not in refused:
            yield it.read_bytes(), report.read_text()


def judge(examples):
    for schedule, report in examples:
        assert listset.replay(schedule) == listset.replay(schedule.decode()) == report
        listset.check(report)
        assert listset.trace(schedule, with_chains=True).startswith("listset-trace ")
        assert listset.show(report, width=60)


def wrong(call, *values):
    """Returns the status and the last word of the error that a call raises."""
    try:
        call(*values)
    except listset.Wrong as fault:
        return fault.status, fault.text.split()[-1]
    return None


def each_says_its_own():
    schedule = listset.example("snip")
    report = listset.replay(schedule)
    assert "\nchain" not in listset.trace(schedule) and "\nchain" in listset.trace(schedule, with_chains=True)
    assert listset.show(report).startswith("lock-free list") and listset.show(report, as_svg=True).startswith("<svg ")
    assert listset.draft(schedule.replace("listset-schedule 1", "listset-draft 2")) == schedule
    for name, option in (("FROM", "first"), ("TO", "last"), ("WIDTH", "width")):
        for as_svg in (False, True):
            assert wrong(lambda: listset.show(report, as_svg, **{option: 0})) == (2, name), (name, as_svg)
    assert "snip" in listset.examples() and "listset: line L:" in listset.faults()


def judges_a_recording():
    recording = "listset-calls 1\ncall 0 add 5 1 6 true\ncall 1 contains 5 2 4 true\nkey 5\nend\n"
    said = listset.judge_text(recording)
    assert said == listset.judge_text(recording.encode()) and said.startswith("ok 2 calls\n"), said
    assert wrong(listset.judge_text, recording.replace("calls 1", "calls 2")) == (1, "Header")
    try:
        listset.judge_text(recording.replace("key 5\n", ""))
        raise AssertionError("a key is left out")
    except listset.Wrong as fault:
        assert fault.status == 1 and fault.text.startswith("not linearizable\n") and fault.line is fault.cause is None, fault
    assert "5" in listset.why(recording.replace("key 5\n", "")) and listset.why(recording) == listset.why("nothing") == ""
    try:
        listset.judge_text(recording.replace("contains", "finds"))
        raise AssertionError("a line is wrong")
    except listset.Wrong as fault:
        assert (fault.line, fault.cause, str(fault)) == (3, "Line", "listset: line 3: Line"), fault


def gen_has_each_value_in_its_place():
    head = "listset-schedule 1\nlist fine\nthreads 64\nquota 16384\n"
    assert listset.gen("fine", 64, 16_384, 0, 2**32 - 1, 2**64 - 1) == head
    first, second = (listset.gen("lazy", 2, 4, 40, 6, seed) for seed in (2**64 - 1, 2**32 - 1))
    assert first != second


def main():
    examples = list(pairs(pathlib.Path(sys.argv[1])))
    assert len(examples) > 20
    with concurrent.futures.ThreadPoolExecutor(THREADS) as threads:
        for it in [threads.submit(judge, examples) for _ in range(THREADS)]:
            it.result()
    each_says_its_own()
    gen_has_each_value_in_its_place()
    judges_a_recording()
    assert wrong(listset.check, listset.example("snip", is_broken=True)) == (1, "WrongSet")
    assert wrong(listset.example, "none") == (2, "NAME")
    assert wrong(listset.gen, "lazy", 0, 4, 10, 5, 1) == (2, "THREADS")
    assert wrong(listset.replay, b"\xff\0\n") == (1, "Header")
    with tempfile.NamedTemporaryFile("w", suffix=".calls") as file:
        file.write("listset-calls 1\ncall 0 add 5 1 2 true\nkey 5\nend\n")
        file.flush()
        said, status = listset.judge_file(file.name)
        assert said.startswith("ok 1 calls\n") and status == 0
    listset.check(listset.replay(listset.gen("lock-free", 2, 4, 10, 5, 1)))
    assert len(listset.gen("lazy", 4, 2000, 10000, 50, 1)) > listset.FIRST_ROOM


main()
