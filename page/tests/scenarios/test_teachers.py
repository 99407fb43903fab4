"""Tests the page for teachers: the lecture, a link to an assignment, and the hand-ins of a class.
Also tests the view of a student who opens the link.
"""

import json

import pytest

LINK = "#assignment=Week+3&learn=one-lock.lost-pred&break=3.4&judge=lazy.2.5.2.17"


def test_homework_is_one_permanent_link(visitor, another):
    visitor.open("#teachers")
    visitor.type("#hw-title", "Week 3")
    visitor.click("[value=one-lock]")
    visitor.click("[data-kind=break][value='3']")
    visitor.click("[data-do=add]")
    link = visitor.text("#hw-link")
    assert link.endswith("#assignment=Week+3&learn=one-lock&break=3&judge=lazy.2.5.2.17") and "3 tasks" in visitor.text("#hw-count")
    student = another
    student.open("#" + link.split("#")[1])
    student.settle()
    assert "3 tasks, 0 done" in student.text(".lead") and student.hash == "#" + link.split("#")[1]
    student.reload()
    student.wait("return document.body.dataset.ready === 'yes'")
    assert student.text("h1") == "Week 3"
    student.click(".task[href='#break=3']")
    student.wait("return location.hash === '#break=3'")
    assert student.text(".foot .back") == "← Week 3"
    student.open("#break=4")
    assert student.text(".foot .back") == "All lists"
    student.open("#break=3")
    student.click(".foot .back")
    student.wait("return document.querySelector('h1').innerText === 'Week 3'")


def test_the_link_contains_the_due_day(visitor):
    visitor.open("#teachers")
    visitor.click("[value=one-lock]")
    visitor.type("#hw-due", "2026-12-04")
    link = visitor.text("#hw-link")
    assert link.endswith("&due=2026-12-04")
    visitor.open("#" + link.split("#")[1])
    assert visitor.text(".due").startswith("Due: Friday") and visitor.text(".due").endswith("4 December 2026, end of the day")


def test_the_homework_stays_while_other_places_are_open(visitor):
    visitor.open("#teachers")
    visitor.type("#hw-due", "2026-12-07")
    visitor.click("[value=one-lock]")
    visitor.click("[data-kind=break][value='1']")
    visitor.click("[data-do=add]")
    link = visitor.text("#hw-link")
    visitor.script("location.hash = '#lecture=4'")
    visitor.wait("return document.body.dataset.view === 'lecture'")
    visitor.press("Escape")
    visitor.wait("return document.getElementById('hw-link') !== null")
    assert visitor.text("#hw-link") == link and "3 tasks" in visitor.text("#hw-count") and "this computer only" in visitor.text("#hw-count")
    assert visitor.script("return [document.getElementById('in-link').value, document.querySelector('[value=one-lock]').checked]") == [link, True]


def test_the_button_of_a_slide_does_what_a_key_does(visitor):
    visitor.open("#lecture=5")
    visitor.press("1")
    visitor.revealed()
    assert visitor.text(".reveal .you").startswith("You said: yes")
    visitor.click("#go-on", "Show the rest")
    visitor.wait("return document.getElementById('go-on').innerText === 'Without this check →'")
    visitor.click("#go-on")
    visitor.wait("return document.getElementById('go-on').innerText === 'Next slide →'", seconds=90)
    assert "5 is lost" in visitor.text(".reveal")
    visitor.click("#go-on")
    visitor.wait("return location.hash === '#lecture=6'")
    visitor.press("n")
    visitor.wait("return location.hash === '#lecture=7'")


def test_notes_follow_the_slides_and_a_handout_can_be_printed(visitor):
    visitor.open("#notes")
    assert visitor.text("h1") == "1. Lose a number" and ":" in visitor.text("#notes-clock")
    visitor.press("Right")
    assert visitor.text("h1") == "2. One lock"
    visitor.open("#handout")
    assert "Press" not in visitor.text("#scene") and "Write an order of A and B that loses a number." in visitor.text("#scene")
    assert visitor.script("return document.querySelectorAll('.sheet .list svg').length") == 12  # slide 8 has two pictures
    slides = visitor.script("return [...document.querySelectorAll('.sheet h2')].map((it) => it.innerText)")
    assert len(slides) == 11 and slides[0] == "1. Lose a number" and slides[10] == "11. Everybody judges"


SMALL_PRINT = """return [...document.querySelectorAll(".handout *")].filter((it) => it.getClientRects().length > 0 && [...it.childNodes].some((node) => node.nodeType === 3 && node.textContent.trim() !== ""))
    .filter((it) => parseFloat(getComputedStyle(it).fontSize) * (it.ownerSVGElement ? it.getScreenCTM().a : 1) * .75 < 10.95).map((it) => it.textContent)"""


def test_the_handout_is_printed_in_letters_of_11_points(visitor):
    if visitor.name != "chromium":
        pytest.skip("only Chromium's driver can show a page as printed")
    visitor.size(1062, 800)
    visitor.open("#handout")
    visitor.devtools("Emulation.setEmulatedMedia", media="print")
    small = visitor.script(SMALL_PRINT)
    visitor.devtools("Emulation.setEmulatedMedia", media="")
    assert small == []


def test_an_assignment_names_its_unknown_tasks(visitor):
    visitor.open("#assignment=x&learn=no-such&break=99&judge=bad")
    assert "lesson no-such, list 99, run bad" in visitor.text("#scene")


def test_completed_tasks_are_ticked_and_handed_in(visitor):
    kept = visitor.script("const ask = new XMLHttpRequest(); ask.open('GET', 'kept.json', false); ask.send(); return ask.responseText")
    visitor.script("for (const [name, text] of Object.entries(JSON.parse(arguments[0]))) localStorage.setItem(name, text)", kept)
    visitor.open(LINK)
    assert "5 tasks, 2 done" in visitor.text(".lead") and visitor.is_seen(".tasks .done")
    visitor.click("[data-do=copy]")
    assert visitor.text("#scene-said") == "Please enter your name first." and visitor.focus() == "INPUT hand-student"
    visitor.type("#hand-student", "Ada Lovelace")
    visitor.type("#hand-number", "4711000")
    visitor.unfold("#hand details")
    text = visitor.text("#hand-text")
    assert "student Ada Lovelace (4711000)" in text and "one-lock #list=coarse" in text and "break second-walk #" in text
    assert "assignment Week 3\n" in text and " named\n" not in text and "Now name the missing check" in visitor.text(".tasks .task[href='#break=4']")
    visitor.script("localStorage.setItem('listset-named-checks', '[\"second-walk\"]')")
    visitor.open(LINK)
    visitor.unfold("#hand details")
    assert " named\n" in visitor.text("#hand-text") and "Now name" not in visitor.text(".tasks")
    visitor.click("[data-do=save]")
    assert visitor.text("#scene-said") == "Saved: ada-lovelace-4711000-week-3.txt. Hand in this file."


def dropped(visitor, files):
    visitor.script("""const data = new DataTransfer(); for (const [name, text] of arguments[0]) data.items.add(new File([text], name));
        const box = document.getElementById("in-files"); box.files = data.files; box.dispatchEvent(new Event("change"))""", files)


HAND_IN = "listset-lessons 2\ncourse The twelve lessons of the five lists\nassignment {}\nstudent {}\n{}\nend\n"
MARKED = "marked-in-chain #list=lazy&threads=2&quota=4&opening=5&s=b1.remove.5,{}g1.2,g1.2,g1.2,g1.1,b0.contains.5,g0.2,g0.1&event=9"
BROKEN = "break lock #list=coarse&threads=2&quota=2&opening=3.7&s=b0.add.5,b1.add.4,g0.1,g1.1,g0.4,g1.4,g0.2,g1.2,g0.1,g1.1,g0.1&event=19&lacks=1"


def marked(number):
    """Returns a solution of the lesson `marked-in-chain` that is different for each number: thread A first looks for keys that depend on the number."""
    return MARKED.format("".join(f"b0.contains.{1 + int(digit)},g0.2," for digit in f"{number:05b}"))


def test_hand_ins_of_a_class_are_checked(visitor):
    copies = [7, 8, 9]
    lines = [f"{marked(7 if it in copies else it)}\n{BROKEN}" for it in range(30)]
    files = [[f"{it}.txt", HAND_IN.format("Week 3", f"Student {it} ({1000 + it})", lines[it])] for it in range(30)]
    more = [["max.txt", HAND_IN.format("Week 3", "Max Maier", lines[28])], ["max-2.txt", HAND_IN.format("Week 3", "Max Maier", BROKEN)],
            ["late.txt", HAND_IN.format("Week 2", "Eva (7)", "hand-over-hand #list=fine")], ["notes.txt", "Dear all"]]
    visitor.open("#teachers")
    visitor.type("#hw-title", "Week 3")
    for task in ("[value=marked-in-chain]", "[data-kind=break][value='1']"):
        visitor.click(task)
    assert visitor.script("return document.getElementById('in-link').value") == visitor.text("#hw-link")
    dropped(visitor, [*files, *more])
    visitor.wait("return document.querySelectorAll('.class tbody tr').length === 33", seconds=60)
    told = visitor.text("#in-said")
    assert "34 files: 33 students, 0 merged, 1 without a hand-in. 31 with all 2 tasks. 1 for another assignment, not counted." in told and "notes.txt" in told
    assert "Break 1: CoarseList: one schedule is shared by" in visitor.text("#in-shared summary")
    row = lambda name: visitor.script("return [...document.querySelectorAll('.class tbody tr')].find((it) => it.innerText.includes(arguments[0])).innerText", name)
    assert "2 of 2 with Student 8 (1008), Student 9 (1009)" in row("Student 7\t") and " of 2 with" not in row("Student 6\t")
    assert "2 rows with this name, since a number is missing: max.txt, max-2.txt" in row("Max Maier")
    assert "handed in for “Week 2”: not counted" in row("Eva")
    assert visitor.text(".class tfoot").split()[2:5] == ["31", "of", "32"]
    assert "Break 1: CoarseList: as Max Maier, Max Maier and 29 more" in row("Student 6\t") and "check not named" in row("Student 6\t")
    visitor.click("#in-wrong")
    assert visitor.script("return [...document.querySelectorAll('.class tbody tr')].filter((it) => it.getClientRects().length > 0).map((it) => it.cells[0].innerText)") == ["Eva"]
    assert visitor.text("#in-hidden") == "32 of 33 rows hidden"
    visitor.click("#in-wrong")
    assert visitor.text("#in-hidden") == ""
    visitor.click(".class thead button", "Same schedules")
    assert "2 of 2 with" in visitor.text(".class tbody tr")
    solved = lambda: [visitor.click(".class thead button", "Solved"), visitor.script("return document.querySelector('.class tbody tr .mark:nth-last-child(3)').innerText")][1]
    assert [solved(), solved()] == ["2", "–"] and visitor.is_seen(".class [aria-sort=ascending]")
    visitor.type("#in-link", "http://example.org/foo")
    assert visitor.text("#in-said") == "This is not the link of an assignment: “#assignment=” is missing." and not visitor.is_seen(".class")
    visitor.type("#in-link", f"http://example.org/{LINK}http://example.org/{LINK}")
    assert visitor.text("#in-said").startswith("Here is more than one link.") and not visitor.is_seen(".class")


def test_the_table_shows_levels_and_unreadable_texts(visitor):
    order = "judge read-in-anothers-step {} 0-true,2-true,1-false,3-true"
    texts = {"Ada (1)": order.format("replies"), "Bo (2)": order.format("points"), "Cy (3)": f"{order.format('points')}\n{order.format('replies')}\n{BROKEN} named",
             "Di (4)": "This is no line of a solution.", "Ed (5)": ""}
    visitor.open("#teachers")
    dropped(visitor, [[f"{name}.txt", HAND_IN.format("Week 3", name, lines)] for name, lines in texts.items()])
    visitor.wait("return document.querySelectorAll('.class tbody tr').length === 5")
    rows = visitor.script("return [...document.querySelectorAll('.class tbody tr')].map((it) => it.innerText)")
    assert "replies and moments" in rows[0] and "moments alone" in rows[1] and "check named" in rows[2]
    visitor.click("#in-wrong")
    seen = visitor.script("return [...document.querySelectorAll('.class tbody tr:not([hidden]) th')].map((it) => it.innerText)")
    assert seen == ["Di", "Ed"] and visitor.text("#in-hidden") == "3 of 5 rows hidden"


def test_hand_ins_with_the_same_number_are_one_student(visitor):
    names = ["Anna Abel (12)", "Hana Gök (12)", "Bo (7)", "bo (7)", "Cy (MSc)"]
    visitor.open("#teachers")
    dropped(visitor, [[f"{at}.txt", HAND_IN.format("x", name, BROKEN)] for at, name in enumerate(names)])
    visitor.wait("return document.querySelectorAll('.class tbody tr').length === 4")
    assert "5 files: 4 students, 1 merged, 0 without a hand-in." in visitor.text("#in-said")
    assert visitor.text(".class tbody").count("two names for one number: Anna Abel, Hana Gök") == 2
    assert "merged from 2.txt, 3.txt" in visitor.text(".class tbody")


def test_a_task_leads_to_the_next_task(visitor):
    visitor.open(LINK)
    visitor.open("#learn=one-lock")
    assert visitor.script("return document.getElementById('go-on').hash") == "#learn=lost-pred"
    visitor.open("#break=4")
    assert visitor.script("return document.getElementById('go-on').hash") == "#seed=lazy.2.5.2.17&judge"
    visitor.open("#learn=two-at-once")
    assert "seed" not in visitor.script("return document.getElementById('go-on').hash")
    visitor.open("#seed=lazy.2.5.2.17&judge")
    assert visitor.is_seen("#judge-ask") and visitor.script("return getComputedStyle(document.getElementById('judge-end')).visibility") == "hidden"
    visitor.press("Right")
    assert visitor.event() == 1 and visitor.script("return document.getElementById('judge-level').value") == "replies"


def test_stored_work_can_be_cleared(visitor):
    visitor.open("#assignment=x&learn=one-lock")
    visitor.type("#hand-student", "Ada")
    visitor.open("#teachers")
    visitor.click("#own [data-do=afresh]")
    assert "Press again" in visitor.text("#own [data-do=afresh]")
    visitor.click("#own [data-do=afresh]")
    visitor.wait("return location.hash === '#story=1' && document.body.dataset.ready === 'yes'")
    assert visitor.text(".welcome") == "All saved data has been deleted."
    visitor.open("#assignment=x&learn=one-lock")
    assert visitor.script("return document.getElementById('hand-student').value") == ""


def fit(visitor, width, height):
    visitor.size(width, height)
    visitor.size(width, height + visitor.script("return arguments[0] - innerHeight", height))  # the window has a frame


def test_one_key_leads_through_the_lecture(visitor):
    visitor.open("#teachers")
    slides = visitor.script("return [...document.querySelectorAll('.plan a')].map((it) => it.hash)")
    fit(visitor, 1280, 720)
    visitor.open(slides[0])
    seen = slides[:1]
    for at in range(120):
        assert visitor.script("""return document.documentElement.scrollHeight <= innerHeight + 1
            && [...document.querySelectorAll('.codebox[open] .lines')].every((it) => it.scrollHeight <= it.clientHeight + 1
            && it.getBoundingClientRect().bottom <= it.closest('.fig').getBoundingClientRect().bottom)"""), visitor.hash
        where, number = visitor.script("return [location.hash, document.getElementById('leave').innerText]")
        seen += [where] if where != seen[-1] else []
        assert number.startswith(f"{len(seen)} of {len(slides)}")
        if seen == slides:
            break
        visitor.press("Space" if at % 2 else "PageDown")
        visitor.script("return new Promise((done) => setTimeout(done, 300))")
    assert seen == slides
    visitor.press("PageUp")
    visitor.wait("return location.hash === arguments[0]", slides[-2])
    visitor.press("Escape")
    visitor.wait("return location.hash === '#teachers'")
    visitor.open("#lecture=99")
    assert "the slides 1 to 11" in visitor.text("#said")


def test_a_slide_accepts_every_key_and_stops_at_the_decision(visitor):
    visitor.open("#lecture=1")
    visitor.press("a", "b", "a")
    visitor.wait("return (window.wrappedJSObject ?? window).eval('listsets.scene.figure.past.length') === 3")
    visitor.settle()
    visitor.idle()
    visitor.press("Left")
    visitor.wait("return JSON.parse(document.body.dataset.busy !== 'yes')")
    visitor.settle()
    assert visitor.inside("return listsets.scene.figure.past.length") == 2 and visitor.hash == "#lecture=1"
    visitor.open("#lecture=5")
    visitor.press("PageDown")
    visitor.revealed()
    assert "pred is no longer in the list" in visitor.text(".said") and "No." in visitor.text(".why")
    visitor.press("PageDown")
    visitor.wait("return document.querySelector('.said').innerText.includes('returns true')")


def test_the_presenters_keys_end_the_last_slide(visitor):
    visitor.open("#lecture=11")
    assert visitor.text(".said").startswith("Press each bar at the moment when its call takes effect.")
    total = visitor.inside("return listsets.now.run.trace.total")
    presses = 0
    while visitor.text("#where") != f"event {total} of {total}":
        visitor.press("PageDown")
        visitor.idle()
        presses += 1
    local = "LockFreeList · "
    assert presses <= 5 and visitor.text("#judge-verdict").startswith(local) and "#lecture=11 (this computer only)" in visitor.text("#judge-verdict")
    visitor.press("PageDown")
    visitor.wait("return document.getElementById('judge-verdict').innerText.startsWith('In this run contains returns false')")
    assert visitor.hash == "#lecture=11" and visitor.in_window("#judge-verdict")
    visitor.press("PageUp")
    visitor.wait("return document.getElementById('judge-verdict').innerText.startsWith(arguments[0])", local)
    visitor.press("PageDown")
    visitor.wait("return !document.getElementById('judge-verdict').innerText.startsWith(arguments[0])", local)
    visitor.press("PageDown")
    visitor.wait("return location.hash === '#teachers'")


def test_the_slide_with_two_lists_begins_when_a_has_stopped_and_ends_with_its_answer(visitor):
    visitor.open("#lecture=8")
    question = "A is stopped. In which list does B wait for A?"
    assert visitor.text("h1") == question and visitor.script("return document.getElementById('sides-slider').value") == "4"
    for _ in range(4):
        visitor.press("PageDown")
    visitor.wait("return document.querySelector('h1').innerText.startsWith('CoarseList: B waits.')")
    visitor.press("PageUp")
    visitor.wait("return document.querySelector('h1').innerText === arguments[0]", question)
    visitor.press("n")
    visitor.wait("return location.hash === '#lecture=9'")


def test_a_slide_names_the_key_of_the_next_step(visitor):
    for number, key in ((2, "3"), (3, "2")):
        visitor.open(f"#lecture={number}")
        visitor.press(key)
        visitor.idle()
        visitor.wait("return document.getElementById('prompt').innerText.includes('Press → for the next step')")
        visitor.press("Right")
        visitor.revealed()
        assert "Press →" not in visitor.text("#prompt")


def test_a_slide_adapts_to_its_window(visitor):
    height = "Math.round(document.querySelector('.list svg').getBoundingClientRect().height)"
    visitor.size(1920, 1080)
    visitor.open("#lecture=1")
    visitor.settle()
    wanted = visitor.script(f"return {height}")
    visitor.size(800, 600)
    visitor.open("#lecture=1")
    visitor.size(1920, 1080)
    visitor.wait(f"return Math.abs({height} - arguments[0]) <= 2", wanted)
