"""Tests the bench (the part of the page that runs any schedule): single steps, keys, playing a run, printing, embedding
the page in a frame, and the browser's history.
"""


def test_the_code_continues_from_the_current_event(visitor):
    visitor.open("#example=marked-in-chain&event=20")
    visitor.click("#go-on-here")
    visitor.wait("return location.hash.startsWith('#code=lazy&quota=4&opening=&s=')")
    assert "marks 5" in visitor.text(".said")
    visitor.press("b")
    visitor.idle()
    assert "5 is unlinked" in visitor.text(".said")
    visitor.back()
    visitor.wait("return document.getElementById('question-box').getClientRects().length > 0")
    assert visitor.event() == 20


def test_an_old_what_if_address_opens_its_schedule(visitor):
    visitor.open("#watch=snip&list=lock-free&threads=2&quota=4&s=b0.add.5,g0.1&event=2")
    assert visitor.event() == 2 and visitor.text("#where") == "event 2 of 2"


def test_the_next_visit_opens_the_last_place(visitor):
    visitor.open("#example=snip")
    visitor.press("Right", "Right", "Right")
    visitor.settle()
    visitor.open()
    visitor.settle()
    assert visitor.event() == 3 and "#example=snip" in visitor.hash


def test_a_step_adds_no_history_entry(another):
    visitor = another
    visitor.open("#judge")
    before = visitor.script("return history.length")
    visitor.click("#scene [href='#example=snip&judge']")  # WebKit's Back skips pages that only a script has opened
    visitor.wait("return document.getElementById('where').innerText.startsWith('event 0 ')")
    for _ in range(4):
        visitor.press("Right")
        visitor.settle()
    assert visitor.script("return history.length") == before + 1
    visitor.back()
    visitor.wait("return location.hash === '#judge' && document.getElementById('stage').getClientRects().length === 0")


def test_reload_shows_the_same_run(visitor):
    visitor.open("#example=snip")
    visitor.press("Right", "Right")
    visitor.settle()
    where, said = visitor.text("#where"), visitor.text(".said")
    visitor.reload()
    visitor.wait("return document.body.dataset.ready === 'yes'")
    assert (visitor.text("#where"), visitor.text(".said")) == (where, said)


def test_a_direct_link_names_who_ran_it(visitor):
    visitor.open("#example=snip&event=3")
    assert "proved replayer" in visitor.text("#source")


def test_titles_are_readable_words(visitor):
    visitor.open("#example=snip&event=3")
    assert visitor.title.startswith(visitor.text("#question")) and "event" not in visitor.title
    visitor.open("#compare")
    assert visitor.title.startswith("CoarseList beside LazyList")
    for address in ("#learn=one-lock", "#break=1", "#ask=snip", "#story=3", "#teachers", "#code=lazy", "#learn", "#break", "#ask", "#judge", "#read"):
        visitor.open(address)
        title = visitor.title
        assert len(title) > 10 and "one-lock" not in title and "undefined" not in title and not title.startswith(":"), address


def test_keys_and_the_slider_move_through_the_run(visitor):
    visitor.open("#example=read-in-anothers-step")
    visitor.press("Right")
    assert visitor.event() == 1
    visitor.press("End")
    assert visitor.event() == 39 and "it took effect at event 23, a step of B" in visitor.text(".said")
    visitor.press("Shift+Left", "Home", "?")
    assert visitor.event() == 0 and visitor.is_seen("#key-help")
    visitor.press("?", "p", "p")
    assert not visitor.is_seen("#key-help")


def test_live_regions_say_a_sentence_once(visitor):
    """Checks that a screen reader announces the sentence about a step once on the bench, and at most once for each list in Compare."""
    for address, key, most in (("#example=snip", "Right", 1), ("#compare", "Left", 2)):
        visitor.open(address)
        visitor.script("""window.said = []; const isLive = (it) => it?.closest("[aria-live=polite], [role=status], [role=alert], output") ?? null;
            new MutationObserver((all) => all.forEach(({ target }) => window.said.push(isLive(target.closest ? target : target.parentElement))))
                .observe(document.body, { subtree: true, childList: true, characterData: true })""")
        visitor.press(key)
        visitor.settle()
        heard = visitor.script("return window.said.filter((it) => it !== null && it.getClientRects().length > 0 && it.innerText !== '').map((it) => it.className)")
        assert set(heard) == {"said"} and len(heard) <= most, address


def test_printing_shows_only_the_run(visitor):
    visitor.open("#example=snip&event=5")
    rules = visitor.script("""return [...document.styleSheets].flatMap((sheet) => [...sheet.cssRules])
        .some((rule) => rule.media?.mediaText === "print")""")
    assert rules


def test_a_run_works_in_a_frame(visitor):
    visitor.open("#example=snip&event=5")
    visitor.go(f"{visitor.place}/tests/nothing.html")
    visitor.script("""const frame = document.createElement("iframe");
        Object.assign(frame, { width: 800, height: 520, src: "../index.html#example=snip&event=5&view=list" }); document.body.append(frame)""")
    visitor.wait("return document.querySelector('iframe').contentDocument?.body?.dataset.ready === 'yes'")
    svg = "return document.querySelector('iframe').contentDocument.querySelector('.list svg').getClientRects().length"
    assert visitor.script(svg) == 1
