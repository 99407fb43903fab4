"""Tests the recorder in examples/recorders (shown in docs/YOUR-SET.md), and a script in examples/recordings that judges
the keys of a recording in separate parts. For any number of parts, the script must print the same verdict as `listset
judge`.
"""

import os
import random
import sys

import pytest
from harness.programs import TOP, ran, well
from judging import drawn, spread, text_of

pytestmark = pytest.mark.needs("gcc")


def recording(seed, is_cut=False):
    calls, opening, keys = spread(random.Random(seed), *drawn(random.Random(seed), 400))
    return text_of(calls, opening, None if is_cut else keys)


RECORDINGS = [recording(1), recording(2), recording(3), recording(1, is_cut=True), recording(4)[:-4], "listset-calls 1\nend\n",
              "listset-calls 1\ncall 0 insert 5 1 2 true\nend\n"]


@pytest.mark.parametrize("text", RECORDINGS, ids=range(len(RECORDINGS)))
@pytest.mark.parametrize("parts", [4, 30])
def test_the_parts_of_a_recording_have_its_verdict(program, room, text, parts):
    """Tests that the verdict does not depend on the number of parts. With different numbers of parts, a refusal can name
    different keys, and an error can be found in different parts.
    """
    recorded = room / "run.calls"
    recorded.write_text(text)
    done, due = ran(TOP / "examples/recordings/judge_by_key", recorded, parts, env={**os.environ, "LISTSET": program}), ran(program, "judge", recorded)
    assert done.returncode == due.returncode, done.stderr
    if due.returncode == 0:
        assert done.stdout == due.stdout
    else:
        assert done.stdout.startswith("not linearizable\n") if due.stdout else due.stderr.rpartition(" ")[2] in done.stdout


def test_a_run_is_recorded(program, room):
    well(sys.executable, "-B", TOP / "examples/recorders/record.py", room / "run.calls")
    assert well(program, "judge", room / "run.calls").startswith("ok 8000 calls\n")
