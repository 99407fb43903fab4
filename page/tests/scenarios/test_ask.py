"""Tests "guess, then see": a visitor answers each question, sees the run, changes it, and leaves."""


def hurried(visitor):
    """Presses a key, so that the page shows the rest of the run at once."""
    visitor.press("Right")
    visitor.revealed()


def test_each_question_can_be_answered_shown_changed_and_left(visitor):
    visitor.open("#ask")
    names = visitor.script("return [...document.querySelectorAll('#scene .card')].map((it) => it.hash.slice(5))")
    assert len(names) == 18
    for name in names:
        visitor.open(f"#ask={name}")
        visitor.click("[data-option]")
        hurried(visitor)
        assert visitor.text(".reveal .you").startswith(("You said: ", "Right.")) and len(visitor.text(".reveal .why")) > 40, name
        if visitor.is_seen("[data-do=without]"):
            assert visitor.text("[data-do=without]").startswith("And without"), name
            visitor.click("[data-do=without]")
            visitor.press("Right")
            visitor.wait("return document.querySelector('[data-do=home]') !== null && document.body.dataset.busy !== 'yes'")
            assert "that is proved" in visitor.text(".reveal") and visitor.script("return document.querySelector('.steps del') !== null"), name
            visitor.click("[data-do=home]")
            assert visitor.is_seen("[data-do=if]"), name


def test_the_readers_own_run_is_beside_the_example(visitor):
    visitor.open("#ask=stale-pred")
    visitor.press("2")
    visitor.revealed()
    question = visitor.text("h1")
    visitor.press("a")
    visitor.idle()
    assert "What if 1" in visitor.text("#branches") and visitor.text("h1") == f"What if?{question}"
    visitor.click("#branches button", "The example")
    assert visitor.text("h1") == question and visitor.text(".scrub .count").split()[0] == visitor.text(".scrub .count").split()[2]
    visitor.click("#branches button", "What if 1")
    assert "Your own branch" in visitor.text(".reveal")


def test_the_map_ticks_answered_questions(visitor):
    for name, option in (("two-removers", 1), ("stale-pred", 0)):
        visitor.open(f"#ask={name}")
        visitor.press(str(option + 1))
        visitor.revealed()
    visitor.open("#ask")
    assert "1 of 11 guessed right at the first try, 2 seen" in visitor.text(".score")
    assert visitor.text(".card[href='#ask=two-removers'] .sign") == "✓" and visitor.text(".card[href='#ask=stale-pred'] .sign") == "seen"
    visitor.reload()
    visitor.wait("return document.body.dataset.ready === 'yes'")
    assert "2 seen" in visitor.text(".score")


def test_a_question_works_in_a_frame_of_another_page(visitor):
    visitor.open("#story=2")
    visitor.settle()
    visitor.go(f"{visitor.place}/tests/nothing.html")
    visitor.script("""const frame = document.createElement("iframe");
        Object.assign(frame, { width: 800, height: 420, src: "../index.html#ask=two-removers&view=embed" }); document.body.append(frame)""")
    visitor.wait("return document.querySelector('iframe').contentDocument?.body?.dataset.ready === 'yes'")
    seen = """const { contentDocument: own } = document.querySelector("iframe");
        const sees = (it) => { const box = own.querySelector(it)?.getBoundingClientRect(); return box !== undefined && box.height > 0 && box.bottom <= 420; };
        return [sees("h1"), sees(".list svg"), sees("[data-option]"), sees("#show-me"), sees("#top"), own.documentElement.scrollWidth <= 800]"""
    assert visitor.script(seen) == [True, True, True, True, False, True]
    visitor.script("document.querySelector('iframe').contentDocument.querySelectorAll('[data-option]')[1].click()")
    visitor.wait("return document.querySelector('iframe').contentDocument.querySelector('.reveal') !== null")
    assert visitor.script("return document.querySelector('iframe').contentDocument.querySelector('.you').innerText").startswith(("You said: ", "Right."))
    leaves = "it.getClientRects().length > 0 && it.target !== '_blank'"
    links = f"return [...document.querySelector('iframe').contentDocument.links].filter((it) => {leaves}).length"
    assert visitor.script(links) == 0  # no link leads out of the frame
    visitor.settle()
    visitor.open()
    visitor.wait("return location.hash.includes('story=2')")  # a place in a frame is not stored as the reader's last place


def test_old_addresses_open_the_questions(visitor):
    visitor.open("#watch")
    assert visitor.text("h1") == "Guess, then see"
    visitor.open("#example=snip&event=17&view=lecture")
    assert visitor.is_seen(".list svg") and visitor.event() == 17


def test_sentences_are_whole(visitor):
    """Checks that each event of each example has a complete sentence."""
    visitor.open("#ask")
    told = visitor.inside("""const { LiveRun, QUESTIONS, APPENDIX, saidOf, momentAt } = listsets;
        return [...QUESTIONS, ...APPENDIX].flatMap(({ list, opening, threads = 2, quota = 4, lines, rest }) => {
          const run = new LiveRun({ list, opening, threads, quota, lines: [...lines, ...rest] });
          return Array.from({ length: run.trace.total }, (_, at) => {
            run.moveTo(at + 1);
            return saidOf(momentAt(run.state, run.count)).replace(/<[^>]*>/g, "");
          });
        })""")
    assert len(told) > 300 and not [it for it in told if "undefined" in it or not it.endswith(".") or len(it) < 10]
