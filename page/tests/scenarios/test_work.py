"""Tests a student's work: editing schedules as text, the errors in schedules, judging a run, and all examples."""

import json

HEADER = "listset-schedule 1\nlist {}\nthreads 2\nquota 4\n"


def run_text(visitor, text):
    visitor.unfold("#schedule-box")
    visitor.type("#schedule", text)
    visitor.press("Control+Enter")


def test_all_examples_play_to_their_end(visitor):
    visitor.open("#example=snip")
    names = visitor.inside("return listsets.examples().map(({ name }) => name)")
    assert len(names) == 18
    for name in names:
        visitor.open(f"#example={name}")
        visitor.press("End")
        at, total = visitor.text("#where").split()[1::2]
        assert at == total and visitor.text("#fault") == "", name
        found = visitor.inside("""const { now, askNow } = listsets;
            const places = [...askNow("listset_replay", now.run.text).text.matchAll(/^place (\\d+) /gm)].map((it) => it[1]);
            return [places.join(), now.run.trace.order.map(({ id }) => id).join()]""")
        assert found[0] == found[1], name


def test_refused_texts_are_reported_with_their_lines(visitor):
    visitor.open("#example=snip")
    run_text(visitor, HEADER.format("coarse") + "begin 0 add 5\ngo 0 3\ngo 1 1\n")
    assert "line 7: Idle" in visitor.text("#fault") and visitor.text("#where") == "event 4 of 4"
    run_text(visitor, HEADER.format("lazy") + "begin 0 add 05\n")
    assert visitor.text("#fault").startswith("listset: line 5: Number") and visitor.is_seen("#old")
    run_text(visitor, HEADER.format("skip"))
    assert visitor.text("#fault").startswith("listset: line 2: Kind")
    run_text(visitor, HEADER.format("fine") + "begin 0 add 7\ngo 0 9\n")
    assert visitor.text("#fault") == "" and not visitor.is_seen("#old")


def test_the_readers_own_schedule_is_kept(visitor):
    visitor.open("#example=snip&event=3")
    visitor.unfold("#new-box")
    visitor.choose("#new-list", "optimistic")
    visitor.click("#new")
    assert visitor.text("#where") == "event 0 of 0" and visitor.text("#title").startswith("OptimisticList")
    run_text(visitor, HEADER.format("optimistic") + "begin 0 add 5\ngo 0 4\n")
    visitor.settle()
    visitor.open()
    assert visitor.text("#where").endswith("of 5") and visitor.text("#title").startswith("OptimisticList")


def test_too_many_events_are_reported(visitor):
    visitor.open("#example=snip&event=6")
    run_text(visitor, HEADER.format("coarse") + "begin 0 add 5\ngo 0 4\nbegin 1 add 7\n" + "go 1 10000\n" * 99)
    assert "at most 200000 events" in visitor.text("#fault") and visitor.text("#where").startswith("event 6 of")


def test_future_events_are_hidden_and_can_be_shown(visitor):
    visitor.open("#example=read-in-anothers-step&event=12")
    visitor.script("scrollTo(0, 0)")
    hidden = visitor.script("return document.querySelectorAll('.calls .point').length")
    visitor.click("#hides")
    assert visitor.script("return document.querySelectorAll('.calls .point').length") > hidden
    visitor.reload()
    visitor.wait("return document.body.dataset.ready === 'yes'")
    assert not visitor.script("return document.getElementById('hides').checked")


def test_controls_have_names_and_ids_are_unique(visitor):
    for address in ("#example=snip", "#learn=one-lock", "#break=3", "#judge", "#compare", "#example=snip&judge", "#story=2", "#ask=snip", "#teachers",
                    "#assignment=x&learn=one-lock", "#code=lazy", "#learn"):
        visitor.open(address)
        nameless, twice = visitor.script("""const seen = [...document.querySelectorAll("button, select, input, textarea, a[href]")]
            .filter((it) => it.getClientRects().length > 0);
            const nameOf = (it) => it.getAttribute("aria-label") ?? it.title + it.textContent + (it.labels?.[0]?.textContent ?? "");
            const ids = [...document.querySelectorAll("[id]")].map(({ id }) => id);
            return [seen.filter((it) => nameOf(it).trim() === "").map((it) => it.id || it.outerHTML.slice(0, 80)),
              ids.filter((id, at) => ids.indexOf(id) < at)]""")
        assert nameless == [] and twice == [], address


def test_no_part_of_the_page_is_wider_than_a_phone(visitor):
    visitor.size(390, 844)
    for address in ("#story=3", "#ask", "#ask=snip", "#break=1", "#learn", "#learn=one-lock", "#code=lazy", "#judge", "#compare", "#read", "#teachers",
                    "#example=snip", "#example=snip&judge", "#assignment=x&learn=one-lock&break=6"):
        visitor.open(address)
        wide = visitor.script("return [document.documentElement.scrollWidth, document.documentElement.clientWidth]")
        assert wide[0] <= wide[1], address


def test_a_step_can_be_reached_with_keys_alone(visitor):
    visitor.open("#example=snip")
    visitor.script("document.activeElement.blur()")
    visitor.press("Tab")
    assert visitor.focus() == "BUTTON skip"
    visitor.press("Enter")
    assert visitor.focus() == "BUTTON next"
    visitor.press("Enter")
    assert visitor.event() == 1 and visitor.focus() == "BUTTON next"


def test_an_opened_card_leads_to_its_run(visitor):
    visitor.open("#break")
    visitor.script("document.querySelector('#scene .card').focus()")
    visitor.press("Enter")
    visitor.wait("return location.hash === '#break=1'")
    assert visitor.focus().startswith("H1")


def test_the_readers_order_is_judged(visitor):
    visitor.open("#example=read-in-anothers-step&judge")
    assert not visitor.is_seen("#past") and not visitor.is_seen("#question-box")
    visitor.script("document.querySelector('#judge-level').focus()")
    visitor.choose("#judge-level", "points")
    for call, moment in enumerate((10, 23.5, 23, 36)):
        visitor.inside("""const { judging } = listsets; judging.place(judging.exercise.calls[given[0]], given[1])""", call, moment)
    visitor.click("#judge-ask")
    assert visitor.text("#judge-verdict").startswith("Right: in this order") or "in your order" in visitor.text("#judge-verdict")
    visitor.click("#judge-end")
    assert visitor.is_seen("#past") and visitor.focus() == "BUTTON judge-begin"


def test_a_schedule_of_a_broken_list_opens_its_level(visitor):
    visitor.open("#list=coarse&threads=2&quota=2&opening=3.7&s=b0.add.5,g0.3&event=4&lacks=1")
    assert visitor.text("h1").startswith("One thread at a time") and "too big" in visitor.text(".said") or "reads" in visitor.text(".said")


def test_a_numbered_run_is_the_same_for_everyone(visitor, another):
    visitor.open("#seed=lazy.2.5.2.17")
    text = visitor.inside("return listsets.now.run.text")
    another.open("#seed=lazy.2.5.2.17&judge")
    assert another.inside("return listsets.now.run.text") == text and another.is_seen("#judge-ask")


def test_a_slow_network(visitor):
    """Checks that the page shows its description while the engine is being loaded."""
    visitor.go(f"{visitor.place}/slow.html#example=snip&event=3")
    assert "Two threads share one list" in visitor.text("#scene") and not visitor.is_seen("#bench")
    visitor.wait("return document.body.dataset.ready === 'yes'")
    assert visitor.event() == 3 and "proved replayer" in visitor.text("#source")


def test_the_engine_prints_the_same_bytes_as_the_program(visitor, request):
    if request.config.getoption("--cases") is None:
        return
    visitor.open("#example=snip")
    visitor.inside("""const add = (src) => new Promise((done) => document.head.append(Object.assign(document.createElement("script"), { src, onload: done })));
        Promise.all([add("tests/cases.js"), fetch("cases.json").then((it) => it.json())])
          .then(([, cases]) => compared(listsets.held.engine, cases)).then((result) => (document.body.dataset.result = JSON.stringify(result)));
        return 1""")
    found = json.loads(visitor.wait("return document.body.dataset.result ?? null", seconds=300))
    assert found["failed"] == [] and found["passed"] > 0
