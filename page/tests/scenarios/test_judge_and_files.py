"""Tests the Judge and Compare activities, opening and saving files, and the messages about wrong files."""

import pytest
from test_stage import fit


@pytest.mark.parametrize("size", [(1366, 640), (1280, 720)])
def test_replies_and_button_are_above_the_bar(visitor, size):
    fit(visitor, *size)
    visitor.open("#read")
    examples = visitor.inside("return listsets.examples().map(({ name }) => `example=${name}`)")
    for run in ("seed=lazy.2.5.2.17", "seed=lock-free.2.5.2.3", "seed=coarse.2.5.2.9", "seed=fine.2.5.2.4", *examples):
        visitor.open(f"#{run}&judge")
        visitor.wait("return document.querySelector('#judge-bars svg') !== null")
        lowest = "Math.max(...[...document.querySelectorAll('#judge-replies select, #judge-ask')].map((it) => it.getBoundingClientRect().bottom))"
        assert visitor.script(f"return {lowest} - document.getElementById('dock').getBoundingClientRect().top") <= 0, run


def test_an_answer_without_point_and_reply_is_reported(visitor):
    visitor.open("#example=snip&judge")
    visitor.click("#judge-ask")
    assert visitor.text("#judge-verdict") == "Choose the three replies first." and not visitor.is_seen("#judge-bars .clash")
    visitor.choose("#judge-replies select", "true")
    visitor.click("#judge-ask")
    assert "the moment of" in visitor.text("#judge-verdict") and "the moment and the reply of" in visitor.text("#judge-verdict")


def test_an_answer_without_replies_is_reported_above_the_bar(visitor):
    fit(visitor, 1366, 640)
    visitor.open("#seed=coarse.2.5.2.9&judge")
    for choose in (False, True):
        if choose:
            visitor.choose("#judge-replies select", "true")
        visitor.script("document.getElementById('judge-ask').click()")
        bottom = "document.getElementById('judge-verdict').getBoundingClientRect().bottom"
        visitor.wait(f"return {bottom} <= document.getElementById('dock').getBoundingClientRect().top")


def test_judge_uses_the_words_of_the_path(visitor):
    for address, what in (("#example=snip&judge", "#bench"), ("#judge", "#scene"), ("#seed=lazy.2.5.2.17&judge", "#bench")):
        visitor.open(address)
        words = visitor.text(what).lower()
        assert "return" in words and "takes effect" in words and "moment" in words, address
        assert not any(word in words for word in ("replayer", " answers ", "linearization", "where does it", "where it takes")), address


@pytest.mark.parametrize("size", [(1366, 640), (1280, 720), (1536, 730)], ids=lambda size: "x".join(map(str, size)))
def test_the_list_of_a_run_to_judge_is_never_cut(visitor, size):
    fit(visitor, *size)
    for address in ("#example=read-in-anothers-step&judge", "#example=snip&judge", "#seed=lazy.3.2.5.7&judge"):
        visitor.open(address)
        for count in range(1, visitor.inside("return listsets.now.run.trace.total") + 1, 3):
            visitor.inside("listsets.goByHand(given[0])", count)
            visitor.script("return new Promise((done) => requestAnimationFrame(() => requestAnimationFrame(done)))")
            assert visitor.script("""const list = document.querySelector(".list"), edge = list.getBoundingClientRect().bottom + 2;
                return [...list.querySelectorAll("text, .box, rect.hot")].every((it) => it.getBoundingClientRect().bottom <= edge)"""), (address, count)


def test_the_judge_button_is_visible(visitor):
    fit(visitor, 1280, 720)
    visitor.open("#example=snip&judge")
    assert visitor.in_window("#judge-ask")


def test_a_run_to_judge_has_instructions_bars_and_replies(visitor):
    for size, least in (((1366, 640), 16), ((1280, 720), 16), ((390, 844), 13)):
        fit(visitor, *size)
        visitor.open("#example=snip&judge")
        assert "Press each bar" in visitor.text("#judge-note") and "Choose each reply below" in visitor.text("#judge-note") and "Does B have to wait for A?" in visitor.text("#judge-of")
        places = visitor.script("""const foot = document.querySelector("#dock").getBoundingClientRect().top;
            return ["#judge-bars", "#judge-replies", "#judge-ask"].map((it) => document.querySelector(it).getBoundingClientRect().bottom <= foot + 1)""")
        assert places == [True, True, True] or least == 13 and places[0], (size, places)
        assert visitor.script("return [...document.querySelectorAll('#judge-bars text')].every((it) => parseFloat(getComputedStyle(it).fontSize) >= arguments[0])", least)
    visitor.devtools("Emulation.clearDeviceMetricsOverride")
    visitor.devtools("Emulation.setTouchEmulationEnabled", enabled=False)


def test_judge_begins_with_a_run_and_ends_with_recorded_calls(visitor):
    visitor.size(1366, 760)
    visitor.open("#judge")
    assert visitor.in_window("[data-do=seed]") and not visitor.in_window("#recorded-judge") and "CoarseList" not in visitor.text("#scene")
    visitor.click("[data-do=recorded]")
    visitor.wait("return document.querySelector('#recorded-box').getBoundingClientRect().top < innerHeight / 2")
    visitor.click("#recorded-example")
    visitor.wait("return document.querySelector('#recorded-reasons b') !== null")
    assert "The picture has the calls that contradict each other: 2 of 3." in visitor.text("#recorded-reasons")


def test_the_verdict_on_recorded_calls_is_in_the_first_screen_of_a_phone(visitor):
    fit(visitor, 390, 844)
    visitor.open("#judge")
    visitor.click("#recorded-example")
    visitor.wait("return document.querySelector('#recorded-reasons b') !== null")
    assert visitor.in_window("#recorded-verdict") and visitor.in_window("#recorded-reasons b")
    visitor.devtools("Emulation.clearDeviceMetricsOverride")
    visitor.devtools("Emulation.setTouchEmulationEnabled", enabled=False)


def test_a_run_to_judge_opens_at_its_top(visitor):
    visitor.size(1366, 760)
    visitor.open("#judge")
    for link in ("[data-do=seed]", "#scene .card[href='#example=snip&judge']"):
        visitor.click(link)
        visitor.wait("return document.body.dataset.screen === 'stage'")
        assert visitor.script("return scrollY") == 0 and visitor.in_window("#judge-task"), link
        visitor.back()
        visitor.wait("return document.getElementById('recorded-text') !== null")


def test_points_placed_with_keys_keep_the_focus(visitor):
    visitor.open("#example=snip&judge")
    visitor.script("document.querySelector('#judge-bars [data-call]').focus()")
    visitor.press("Right", "Right")
    assert visitor.script("return document.activeElement.closest('[data-call]') !== null")
    assert visitor.is_seen("#judge-order li")


def test_recorded_calls_are_judged(visitor):
    visitor.open("#read")
    visitor.click("nav a[href='#judge']")
    visitor.wait("return document.getElementById('recorded-text') !== null")
    visitor.click("#recorded-example")
    visitor.wait("return document.getElementById('recorded-verdict').innerText.startsWith('Not linearizable')")
    visitor.type("#recorded-text", "listset-calls 1\ncall 0 add 05 1 4 true\nend\n")
    visitor.click("#recorded-judge")
    visitor.wait("return document.getElementById('recorded-verdict').innerText.startsWith('listset: line 2')")


def test_the_page_states_how_a_recording_ends(visitor):
    visitor.size(1366, 760)
    visitor.open("#judge")
    visitor.type("#recorded-text", "listset-calls 1\ncall 0 add 5 1 4 true\nend\n")
    visitor.click("#recorded-judge")
    visitor.wait("return document.getElementById('recorded-verdict').innerText.startsWith('Not linearizable')")
    assert "no line key" in visitor.text("#recorded-reasons") and "A is thread 0" in visitor.text("#recorded-reasons")
    assert visitor.in_window("#recorded-verdict") and visitor.in_window("#recorded-judge")
    visitor.type("#recorded-text", "listset-calls 1\nend\n")
    visitor.click("#recorded-judge")
    visitor.wait("return document.getElementById('recorded-verdict').innerText.includes('no call')")
    assert visitor.script("return document.getElementById('recorded-verdict').className") == "fault"


def test_a_refusal_has_a_headline_a_picture_and_threads(visitor):
    visitor.size(1366, 900)
    visitor.open("#judge")
    calls = ["0 add 7 1 6 true", "1 contains 3 2 5 true", "0 remove 3 8 14 true", "1 contains 7 9 12 false", "2 add 5 10 15 true"]
    visitor.type("#recorded-text", "\n".join(["listset-calls 1", "opening 3", *[f"call {it}" for it in calls], "key 5", "key 7", "end\n"]))
    visitor.click("#recorded-judge")
    visitor.wait("return document.querySelector('#recorded-reasons b') !== null")
    assert visitor.text("#recorded-reasons b") == "contains(7) returned false, expected true"
    reasons = visitor.text("#recorded-reasons")
    assert "expected true" in reasons and "A is thread 0, B is thread 1, C is thread 2 of the recording" in reasons
    assert visitor.script("return document.querySelectorAll('#recorded-picture .bar').length") == 2


def opened(visitor, name, text):
    visitor.script("""const data = new DataTransfer(); data.items.add(new File([arguments[1]], arguments[0]));
        const box = document.getElementById("file"); box.files = data.files; box.dispatchEvent(new Event("change"))""", name, text)
    visitor.settle()


def test_files_of_each_kind_are_opened(visitor):
    visitor.open("#example=snip")
    trace = visitor.inside("return listsets.now.run.trace.text")
    report = visitor.inside("return listsets.askNow('listset_replay', listsets.now.run.text).text")
    opened(visitor, "own.trace", trace)
    assert "makes the same events" in visitor.text("#said") and visitor.text("#where").endswith(f"of {trace.count('event ')}")
    opened(visitor, "other.trace", trace.replace("saw tail", "saw head", 1))
    assert "differs from event" in visitor.text("#said")
    opened(visitor, "wrong.trace", trace.replace("thread 0", "thread x"))
    assert "not a trace" in visitor.text("#fault")
    opened(visitor, "good.report", report)
    visitor.wait("return document.getElementById('checked').innerText === 'ok'")
    assert visitor.text("#fault") == ""


def test_a_course_file_is_opened_as_a_course(visitor):
    visitor.open("#example=snip")
    opened(visitor, "bad.course", "listset-course 1\ncourse Monday\nlesson first\n")
    assert visitor.is_seen("#lesson-faults") and visitor.text("#lesson-faults").startswith("line ")


def test_two_lists_can_be_compared_with_keys_in_both_directions(visitor):
    visitor.open("#ask")
    visitor.click("#more summary")
    visitor.click("nav a[href='#compare']")
    visitor.wait("return document.getElementById('sides-where').innerText.startsWith('turn 7')")
    visitor.press("Left", "Left", "b")
    assert visitor.text("#sides-where") == "turn 6 of 6"
    visitor.back()
    visitor.wait("return location.hash === '#ask'")
    assert visitor.is_seen("#scene .card")


def test_a_wrong_address_is_reported(visitor):
    visitor.open("#example=nothing")
    assert "nothing" in visitor.text("#said")
    visitor.open("#list=lazy&threads=2&quota=x")
    assert "quota" in visitor.text("#said")


def test_without_webassembly_the_page_names_what_it_needs(visitor):
    visitor.open("#example=snip", file="tests/less.html")
    assert "WebAssembly" in visitor.text("#scene") and "undefined" not in visitor.text("#scene")
    assert visitor.is_seen("#scene a[href='how-it-works.html']") and not visitor.is_seen("#bench")


def test_the_documents_have_no_dead_links(visitor):
    for page in ("how-it-works", "classic", "tables"):
        visitor.go(f"{visitor.place}/{page}.html")
        links = visitor.script("return [...document.links].map((it) => it.href)")
        assert not [it for it in links if "/docs/" in it or it.endswith(".md")], page


def test_a_phone_can_be_used_by_touch(visitor):
    visitor.size(390, 844)
    visitor.open("#example=snip")
    visitor.touch("#next")
    assert visitor.event() == 1
    visitor.touch("#go-on-here")
    visitor.wait("return location.hash.startsWith('#code=lock-free')")
    wide = visitor.script("return [document.documentElement.scrollWidth, document.documentElement.clientWidth]")
    assert wide[0] <= wide[1]


def test_escape_leaves_a_lecture(visitor):
    visitor.open("#example=snip&event=5&view=lecture")
    assert not visitor.is_seen("#top") and visitor.is_seen(".list svg")
    visitor.press("PageDown", "Escape")
    visitor.settle()
    assert visitor.is_seen("#top") and "view=" not in visitor.hash and visitor.event() == 6
