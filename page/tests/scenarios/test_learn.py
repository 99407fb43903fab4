"""Tests lessons: a student attempts, solves and changes a lesson, and a teacher passes a course from one browser profile to another."""

COURSE = """listset-course 1
course Monday
lesson first
title A key that is gone
list lazy
threads 2
quota 0
opening 5
question
  Let a contains of thread 0 answer false, although 5 was in the set when it began: thread 1 removes it meanwhile.
goal
  call C of 0: contains, key 5, answers false
  call R of 1: remove, key 5, answers true, begins after C, ends during C
  say A contains of thread 0 answers false; a remove of thread 1 begins after it, and answers true while it is pending.
"""


def begin(visitor, thread, call, key):
    visitor.choose(f"[data-call='{thread}']", call)
    visitor.script("document.querySelector(`[data-call='${arguments[0]}']`).dispatchEvent(new Event('input', { bubbles: true }))", thread)
    visitor.type(f"[data-key='{thread}']", str(key))
    visitor.click(f"[data-begin='{thread}']")


def courses(visitor):
    visitor.open("#learn")
    visitor.unfold("#lesson-write")


def solved(visitor):
    """Solves the course's lesson as a student does: A walks to the node of 5, B removes the node, A looks at the mark."""
    begin(visitor, 0, "contains", 5)
    visitor.step("a")
    begin(visitor, 1, "remove", 5)
    for _ in range(8):
        if visitor.script("return document.querySelector('[data-thread=\"1\"] .step') === null"):
            break
        visitor.step("b")
    visitor.step("a")
    visitor.wait("return document.querySelector('.reveal') !== null")


def test_a_solved_lesson_can_be_explored_further(visitor, another):
    courses(visitor)
    visitor.type("#lesson-course-text", COURSE)
    visitor.click("#lesson-link")
    link = visitor.wait("return document.getElementById('lesson-link-text').value")
    student = another
    student.open("#" + link.split("#")[1])
    assert student.text("h1") == "A key that is gone" and "contains of A answer false" in student.text(".asked")
    assert student.text(".conditions").startswith("○")
    solved(student)
    assert student.text(".reveal .why").startswith("Solved.") and student.text(".conditions").startswith("✓")
    student.settle()
    assert student.hash.startswith("#course=") and "learn=first&list=lazy" in student.hash
    forwarded = student.hash
    student.step("a")
    assert "Solved" in student.text(".reveal") or student.is_seen(".conditions")
    visitor.open(forwarded)
    assert visitor.text("h1") == "A key that is gone" and visitor.text(".reveal .why").startswith("Solved.")
    student.open("#learn")
    student.unfold("#lesson-hand")
    student.type("#lesson-student", "Ada")
    student.click("#lesson-hand-in")
    text = student.wait("return document.getElementById('lesson-text').value")
    assert "course Monday" in text and "first #list=lazy&threads=2&quota=0&opening=5&s=b0.contains.5" in text


def test_three_threads_and_the_goal_are_visible(visitor):
    visitor.open("#learn=one-lock")
    visitor.step("cab")
    assert all(visitor.is_in_window(it) for it in ("#goal", "[data-thread='0']", "[data-thread='1']", "[data-thread='2']"))


def test_a_key_asks_which_call_to_begin(visitor):
    visitor.open("#learn=marked-in-chain")
    visitor.press("a")
    assert "Which call" in visitor.text(".said") and visitor.script("return document.activeElement.dataset.call") == "0"
    assert not visitor.is_seen("[data-step='0']")


def test_the_last_attempt_is_restored(visitor):
    visitor.open("#learn=one-lock")
    visitor.step("ab")
    visitor.settle()
    tale, where = visitor.text(".said"), visitor.hash
    visitor.open("#learn=hand-over-hand")
    visitor.open("#learn=one-lock")
    assert visitor.text(".said") == tale
    visitor.click("[data-again]")
    visitor.settle()
    assert visitor.hash == "#learn=one-lock" and where.startswith("#learn=one-lock&list=coarse")


def test_no_answer_is_shown_before_it_is_requested(visitor):
    visitor.open("#learn=lost-pred")
    before = visitor.text("main")
    visitor.click("#hint")
    assert "Hint." in visitor.text("#prompt") and "See one of them" not in before
    visitor.click("#hint")
    visitor.click("[data-do=answer]")
    visitor.wait("return document.querySelector('#prompt').innerText.includes('shown to you')")
    assert not visitor.is_seen(".reveal")


def test_the_answer_of_each_lesson_solves_it(visitor):
    visitor.open("#learn")
    lessons = visitor.inside("return listsets.learning.panel.course.lessons.map(({ name }) => name)")
    assert len(lessons) == 12
    for name in lessons:
        address = visitor.inside("""const lesson = listsets.learning.panel.lessonNamed(given[0]);
            return `#learn=${given[0]}&${listsets.addressOf(lesson.solution, 1).slice(1)}`""", name)
        visitor.open(address)
        visitor.wait("return document.querySelector('.reveal') !== null")
        assert visitor.text(".reveal .why").startswith("Solved.") and "○" not in visitor.text(".conditions"), name
    visitor.open("#learn")
    assert "12 of 12 solved" in visitor.text(".score")


def test_a_faulty_course_has_no_link(visitor):
    courses(visitor)
    visitor.type("#lesson-course-text", COURSE)
    visitor.click("#lesson-link")
    visitor.wait("return document.getElementById('lesson-faults').innerText.includes('it opens')")  # a later line would move the button
    visitor.type("#lesson-course-text", COURSE.replace("list lazy", "list crazy"))
    visitor.click("#lesson-link")
    visitor.wait("return document.getElementById('lesson-faults').innerText.startsWith('line 5:')")
    assert not visitor.is_seen("#lesson-link-text")


def test_a_goal_without_a_bound_is_reported(visitor):
    steps = "".join(f"  step {it} of 0\n" for it in "ABCDEF")
    goal = f"goal\n{steps}  call Z of 0: remove, key 9, answers true\n  say It goes on.\n"
    courses(visitor)
    visitor.type("#lesson-course-text", COURSE[: COURSE.index("goal")] + goal)
    visitor.click("#lesson-try")
    assert "line 3:" in visitor.text("#lesson-faults") and "too many ways" in visitor.text("#lesson-faults")


def test_work_stored_by_the_previous_version_opens(visitor):
    kept = visitor.script("const ask = new XMLHttpRequest(); ask.open('GET', 'kept.json', false); ask.send(); return ask.responseText")
    visitor.script("for (const [name, text] of Object.entries(JSON.parse(arguments[0]))) localStorage.setItem(name, text)", kept)
    visitor.open("#learn=one-lock")
    assert visitor.text(".reveal .why").startswith("Solved.") and "The one lock" in visitor.title
    visitor.open("#break")
    assert visitor.is_seen(".card.done")
    visitor.open("#learn")
    assert visitor.is_seen(".card.done")
