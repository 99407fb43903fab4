"""Tests the path (the guided tour): a first-time visitor follows the path with clicks, guesses and keys, and finds the way back."""

import time

import pytest
from test_stage import STILL, fit


def guess(visitor, key):
    visitor.press(key)
    visitor.revealed()


def test_a_first_visit_opens_the_path(visitor):
    visitor.open()
    assert visitor.hash in ("", "#story=1") and "Why not just one lock?" in visitor.text("#scene .hero")
    assert visitor.text("h1") == "How does a thread add 5 to a sorted list?" and visitor.in_window("[data-step]")
    assert visitor.title.startswith("How does a thread add 5")


@pytest.mark.parametrize("number", ["1", "2", "3", "4", "4.2", "4.2b", "4.3", "5", "6", "6.2", "7", "7.2", "8", "8.2", "9", "9.1b", "9.2"])
def test_pressing_show_me_leads_through_each_story(visitor, number):
    visitor.open(f"#story={number}")
    for _ in range(60):
        stage = visitor.inside("return listsets.now.scene.stage")
        if stage == "done":
            break
        visitor.click("#show-me")
        visitor.idle()
    visitor.revealed()
    assert len(visitor.text(".why")) > 60 and visitor.text("#go-on").endswith("→") and visitor.text("#go-on") != "Skip →"
    assert visitor.script("return scrollY") == 0 and visitor.in_window(".reveal")
    assert visitor.script("const it = document.querySelector('.lines'); return it === null || it.closest('details').open === false || it.scrollHeight <= it.clientHeight")


@pytest.mark.parametrize(("keys", "lost"), [("abba", 6), ("baab", 5), ("abab", 5), ("baba", 6)])
def test_each_way_to_lose_a_number_is_shown(visitor, keys, lost):
    visitor.open("#story=2")
    visitor.step(keys)
    visitor.revealed()
    assert visitor.text(".why b") == f"{lost} is lost." and visitor.text(".ledger .odd") == str(lost)
    assert visitor.is_seen(".list .lost") and visitor.in_window(".ledger")


def test_a_run_without_a_loss_is_reported_and_can_be_undone(visitor):
    visitor.open("#story=2")
    visitor.step("aabb")
    assert "nothing is lost" in visitor.text("#prompt") and visitor.text("#show-me") == "Start over"
    visitor.click("[data-undo]")
    assert "nothing is lost" not in visitor.text("#prompt")


def test_the_last_press_focuses_the_next_button_and_can_be_undone(visitor):
    visitor.open("#story=1")
    while not visitor.is_seen(".reveal"):
        visitor.click("[data-step]")
        visitor.idle()
    assert visitor.focus() == "BUTTON go-on"
    visitor.click("[data-undo]")
    assert not visitor.is_seen(".reveal") and "Press the blue button" in visitor.text("#prompt")


def test_each_fast_press_makes_its_own_steps(visitor):
    visitor.open("#story=2")
    visitor.press("a", "b", "a")
    visitor.idle()
    assert visitor.inside("return listsets.scene.figure.past.length") == 3 and "add(5) returns true" in visitor.text(".said")


SENTENCES = """window.told = []; const said = document.querySelector(".said");
    new MutationObserver(() => { if (window.told.at(-1)?.[0] !== said.innerText) window.told.push([said.innerText, performance.now()]); })
        .observe(said, { subtree: true, childList: true, characterData: true })"""


@pytest.mark.parametrize(("address", "keys"), [("#story=2", "abab"), ("#story=5", "aba"), ("#story=4.2", "aab")])
def test_each_step_of_fast_presses_is_seen(visitor, address, keys):
    told = []
    for pressed in (visitor.step, lambda keys: visitor.press(*keys)):
        visitor.open(address)
        visitor.script(SENTENCES)
        pressed(keys)
        visitor.wait("return (window.wrappedJSObject ?? window).eval('listsets.scene.figure.past.length') === arguments[0]", len(keys))
        visitor.settle()
        visitor.idle()
        told.append(visitor.script("return window.told"))
    assert [text for text, _ in told[0]] == [text for text, _ in told[1]]
    if not visitor.script("return matchMedia('(prefers-reduced-motion: reduce)').matches"):
        assert all(after - before > 100 for (_, before), (_, after) in zip(told[1], told[1][1:]))


@pytest.mark.parametrize(("address", "keys"), [("#story=2", "a"), ("#story=5", "ab"), ("#story=4.2", "a")])
def test_each_sentence_of_a_press_stays_until_it_is_read(visitor, address, keys):
    visitor.open(address)
    visitor.step(keys[:-1])
    visitor.script(SENTENCES)
    visitor.step(keys[-1])
    told = visitor.script("return window.told")
    assert len(told) > 1
    for (text, since), (_, until) in zip(told, told[1:]):
        assert until - since > 850 + 160 * len(text.split()), text


def test_with_less_motion_each_press_of_the_page_waits_for_the_reader(visitor):
    visitor.open("#read")
    visitor.script(STILL)
    visitor.script("location.hash = '#story=6'")
    visitor.wait("return document.querySelector('[data-option]') !== null")
    visitor.press("3")
    visitor.idle()
    visitor.settle()
    assert "pred is no longer in the list" in visitor.text(".said") and not visitor.is_seen(".reveal") and visitor.text("#show-me") == "Next step →"
    visitor.click("#show-me")
    visitor.revealed()
    assert "5 is in the list" in visitor.text(".said")


@pytest.mark.parametrize(("address", "keys"), [("#story=4", "aba"), ("#story=4.2", "aab"), ("#story=3", "3")])
def test_no_button_says_that_a_thread_starts_again(visitor, address, keys):
    visitor.open(address)
    visitor.script("""window.labels = []; new MutationObserver(() => document.querySelectorAll(".step").forEach((it) => window.labels.push(it.innerText)))
        .observe(document.getElementById("scene"), { subtree: true, childList: true })""")
    visitor.step(keys)
    visitor.revealed()
    visitor.step("aaaaaa" if address == "#story=3" else "")
    assert [it for it in visitor.script("return window.labels") if "start again" in it] == [] and visitor.script("return window.labels.length") > 0


def test_the_path_counts_its_questions(visitor):
    visitor.open("#story=10")
    questions = visitor.script("return document.querySelectorAll('.dots a:not(.end)').length")
    assert questions == 9 and f"finished 0 of the {questions} sections" in visitor.text(".end h2")


def test_the_last_screen_shows_its_choices_first(visitor):
    fit(visitor, 1366, 640)
    visitor.open("#story=10")
    assert visitor.script("""const foot = document.querySelector(".foot").getBoundingClientRect().top;
        return [...document.querySelectorAll(".way")].map((it) => it.getBoundingClientRect().bottom <= foot)""") == [True] * 5


def test_enter_continues_after_the_focused_button_is_hidden(visitor):
    fit(visitor, 1366, 640)
    visitor.open("#story=7")
    visitor.step("a")
    visitor.click("#show-me", "Start over")
    visitor.step("ba")
    visitor.revealed()
    visitor.settle()
    visitor.press("Enter")
    visitor.wait("return location.hash === '#story=7.2'")


def test_buttons_do_not_move(visitor):
    visitor.open("#story=5")
    places = set()
    for key in "aba":
        visitor.step(key)
        places.add(visitor.script("return document.querySelector('[data-step=\"0\"]').getBoundingClientRect().top"))
    assert len(places) == 1


def test_a_waiting_thread_has_a_disabled_button(visitor):
    visitor.size(1300, 1000)
    visitor.open("#story=3")
    guess(visitor, "3")
    assert visitor.text("[data-step='1']").startswith("waits for A") and visitor.script("return document.querySelector('[data-step=\"1\"]').ariaDisabled") == "true"
    while visitor.is_seen("[data-step='0']"):
        visitor.step("a")
    assert visitor.text("[data-step='1']").startswith("take the lock")


def test_the_story_shows_hand_over_hand_and_why_two_locks_are_needed(visitor):
    visitor.open("#story=4")
    visitor.step("baa")
    assert "Start over" in visitor.text("#prompt")
    visitor.click("#show-me", "Start over")
    visitor.step("aba")
    visitor.revealed()
    assert visitor.text(".why b").startswith("5 is lost") and visitor.text(".ledger .gap") == "no 5" and visitor.is_seen(".list .lost")
    assert "releases a node only after it has locked the next one: hand over hand" in visitor.text(".why")
    visitor.click("#go-on")
    visitor.wait("return location.hash === '#story=4.2'")
    visitor.step("aab")
    visitor.revealed()
    assert visitor.text(".why b") == "8 is still in the list, although remove(8) returned true."
    assert visitor.text(".ledger .odd") == "8" and visitor.is_seen(".list .lost")
    visitor.click("[data-undo]")
    assert not visitor.is_seen(".reveal") and not visitor.is_seen(".list .lost")
    visitor.step("b")
    visitor.revealed()
    visitor.click("#go-on")
    visitor.wait("return location.hash === '#story=4.2b'")
    visitor.step("abababb")
    visitor.revealed()
    assert "Each remove locks pred" in visitor.text(".why") and visitor.is_seen(".ledger") and not visitor.is_seen(".ledger .gap")
    visitor.click("#go-on")
    visitor.wait("return location.hash === '#story=5'")


def test_the_path_leads_past_the_extra_questions(visitor):
    visitor.open("#story=4.2b")
    visitor.press("Left")
    visitor.wait("return location.hash === '#story=4.2'")
    visitor.open("#story=4")
    visitor.step("aba")
    visitor.click(".why a", "extra")
    visitor.wait("return location.hash === '#story=4.3'")
    guess(visitor, "2")
    assert "B wants the lock of 3, but A holds it." in visitor.text(".said") or "none overtakes another" in visitor.text(".why")
    visitor.click("#go-on")
    visitor.wait("return location.hash === '#story=5'")


def test_a_thread_waits_behind_another_that_walks_hand_over_hand(visitor):
    visitor.open("#story=4.2b")
    for keys, node in (("ab", "the head"), ("ab", "7")):
        visitor.step(keys)
        assert f"B wants the lock of {node}, but A holds it." in visitor.text(".said")
    visitor.step("abb")
    visitor.revealed()
    assert "B could only follow" in visitor.text(".why b") and not visitor.is_seen(":is(.ledger .gap, .ledger .odd, .list .lost)")
    visitor.open("#story=4.2b")
    visitor.step("aaabb")
    assert "B came too late to meet A." in visitor.text("#prompt") and visitor.text("#show-me") == "Start over"


def test_a_screen_is_finished_when_all_its_parts_are(visitor):
    finished = "return [...document.querySelectorAll('.dots .done')].map((it) => it.innerText)"
    visitor.open("#story=6.2")
    guess(visitor, "3")
    visitor.open("#story=8")
    assert visitor.script(finished) == []
    visitor.open("#story=6")
    guess(visitor, "3")
    visitor.open("#story=8")
    assert [text.split(",")[0].strip() for text in visitor.script(finished)] == ["Look again"]


PRESSES = """const press = () => document.getElementById("go-on").click();
    window.addEventListener("hashchange", () => setTimeout(() => { press(); window.third = true; }), { once: true });
    press(); press()"""  # two presses, and a third one right after the next screen is shown


def test_the_second_press_of_a_double_press_skips_nothing(visitor):
    visitor.open("#story=1")
    while not visitor.is_seen(".reveal"):
        visitor.step("a")
    visitor.script(PRESSES)
    visitor.wait("return window.third === true && location.hash === '#story=2'")
    visitor.settle()
    assert visitor.hash == "#story=2" and visitor.text("#go-on") == "Skip →"
    time.sleep(0.7)
    visitor.click("#go-on")
    visitor.wait("return location.hash === '#story=3'")


FIRST_REPLY = """window.first = null; new MutationObserver(() => { const you = document.querySelector("#prompt .you");
    if (you !== null) window.first ??= [you.innerText, document.querySelector("#prompt :is(.right, .wrong)") === null]; }).observe(document.getElementById("scene"), { subtree: true, childList: true })"""


def test_a_reply_does_not_reveal_the_answer_before_it_is_seen(visitor):
    for number, key in ((3, "1"), (3, "3")):
        visitor.open(f"#story={number}")
        visitor.script(FIRST_REPLY)
        visitor.press(key)
        text, is_hidden = visitor.wait("return window.first")
        assert text.endswith("Let us see.") and is_hidden, (number, key)
    visitor.open("#story=3")
    guess(visitor, "1")
    assert visitor.text(".you").startswith("How far does B get? You said: to its answer.")


def test_the_sentence_about_a_change_stays_until_the_next_press(visitor):
    visitor.open("#story=4.2")
    visitor.step("aa")
    assert visitor.text(".said") == "A makes the head point to 8: 7 is unlinked. remove(7) returns true."


def test_the_label_of_a_press_names_each_of_its_deeds(visitor):
    for address, keys, words in (("#story=4.2b", "a", "release the head, keep 7, lock 8"), ("#story=7.2", "ba", "release; walk and lock again; link 6 in"), ("#story=7", "", "walk to 5, read its mark, return"), ("#story=4", "a", "lock 7, link 5 in, return"),
                                 ("#story=4.2", "a", "change the arrow of pred, return"), ("#story=4.2b", "aa", "unlink it, return"), ("#story=9.1b", "ba", "walk again; link 6 in, return")):
        visitor.open(address)
        visitor.step(keys)
        assert words in visitor.text(".dock"), address


def test_show_a_step_continues_from_the_current_event(visitor):
    for address, keys in (("#story=2", "a"), ("#story=5", "ab"), ("#story=4.2", "a")):
        visitor.open(address)
        visitor.step(keys)
        for _ in range(20):
            if visitor.is_seen(".reveal"):
                break
            visitor.click("#show-me")
            visitor.idle()
        assert visitor.is_seen(".list .lost"), address
    visitor.open("#story=5")
    visitor.step("aa")  # A holds its locks before B has removed anything, so no key can be lost any more
    assert "Start over" in visitor.text("#prompt") and visitor.text("#show-me") == "Start over"
    assert "After its walk, A holds no lock yet." in visitor.text("#prompt")
    visitor.click("#show-me")
    assert not visitor.is_seen("[data-undo]") and visitor.text("#show-me") == "Show a step"
    visitor.step("aa")
    assert "Let A walk until its pred is 3, and then let B unlink 3." in visitor.text("#prompt")


def test_the_first_help_is_a_nudge_and_the_second_a_step(visitor):
    for address in ("#story=2", "#story=4", "#story=7", "#story=7.2", "#story=9"):
        visitor.open(address)
        assert visitor.text("#show-me") == "Hint"
        visitor.click("#show-me")
        assert visitor.is_seen("#prompt .again") and visitor.inside("return listsets.scene.figure.past.length") == 0 and visitor.text("#show-me") == "Show a step", address
        visitor.click("#show-me")
        visitor.idle()
        assert visitor.inside("return listsets.scene.figure.past.length") == 1, address
    visitor.open("#story=8")
    visitor.click("#show-me", "Hint")
    assert "When was 5 not in the set?" in visitor.text("#prompt") and not visitor.is_seen(".reveal")
    visitor.click("#show-me", "Show me")
    visitor.revealed()


def test_a_mark_warns_an_add_and_makes_a_compare_and_set_fail(visitor):
    for address, keys, told, word, more in (("#story=7.2", "baa", "sees a mark on its pred", "the mark warned A", "its pred is 3"), ("#story=9.1b", "baa", "the CAS finds it marked", "still 6 is in", "A unlinked 5 for B"),
                                            ("#story=9.1b", "bbaa", "the CAS finds it marked", "still 6 is in", "linked 6 behind 3")):
        visitor.open(address)
        seen = ""
        for key in keys:
            visitor.step(key)
            seen += visitor.text(".said")
        visitor.revealed()
        assert told in seen and word in visitor.text(".why b") and more.lower() in visitor.text(".why").lower(), address


def test_a_wrong_choice_of_the_next_thread_gets_a_reply(visitor):
    for address, keys, reply in (("#story=7.2", "a", "A found no mark: B had not marked 5 yet."), ("#story=9", "a", "From here nothing can go wrong any more."), ("#story=9.1b", "a", "A’s CAS succeeded: nobody had changed the word of 5.")):
        visitor.open(address)
        visitor.step(keys)
        assert reply in visitor.text("#prompt") and visitor.text("#show-me") == "Start over", address


@pytest.mark.parametrize("keys", ["bab", "bba"])
def test_with_mark_and_arrow_in_two_words_a_key_is_lost(visitor, keys):
    visitor.open("#story=9")
    visitor.step(keys)
    visitor.revealed()
    assert visitor.text(".why b").startswith("6 is lost") and visitor.text(".ledger .gap") == "no 6" and visitor.is_seen(".list .lost")


@pytest.mark.parametrize(("key", "reply"), [("1", "an unlinked node keeps its arrow"), ("2", "A itself holds the lock of 3"), ("3", "Right.")])
def test_the_reader_chooses_what_validation_checks(visitor, key, reply):
    visitor.open("#story=6")
    guess(visitor, key)
    assert reply in visitor.text(".you") and "The second walk did not meet 3" in visitor.text(".why b") and "5 is in the list" in visitor.text(".said")


@pytest.mark.parametrize(("key", "reply"), [("1", "6 is lost"), ("2", "6 gets lost"), ("3", "Right.")])
def test_the_reader_chooses_the_second_check_of_validation(visitor, key, reply):
    visitor.open("#story=6.2")
    assert "pred.next == curr" not in visitor.text(".lines")
    guess(visitor, key)
    assert reply in visitor.text(".you") and "3 points to 6 now" in visitor.text(".why b") and visitor.inside("return listsets.scene.figure.run.has()") == [3, 5, 6, 7]


@pytest.mark.parametrize("number", ["1", "2", "4", "4.2", "4.2b", "5", "6", "6.2", "7.2", "9.2"])
def test_a_finished_run_holds_no_locks(visitor, number):
    visitor.open(f"#story={number}")
    while not visitor.is_seen(".reveal"):
        visitor.click("#show-me")
        visitor.idle()
    assert visitor.inside("const { shown, run } = listsets.scene.figure; return run.trace.calls.every(({ thread, reply }) => reply !== null || !shown.includes(thread))")
    assert visitor.inside("return Object.values(listsets.scene.figure.run.state.locks()).flat()") == []


def test_the_answer_about_a_marked_node_depends_on_the_order(visitor):
    visitor.open("#story=7")
    for keys, said in (("a", "not marked yet"), ("bb", "has unlinked 5 already"), ("bba", "had unlinked 5 already"), ("ba", "with the mark, 5 has left the set")):
        visitor.step(keys)
        assert said in visitor.text("#prompt"), keys
        if keys != "ba":
            visitor.click("#show-me", "Start over")


def test_a_wrong_guess_gets_a_reply_and_steps_add_no_history_entries(visitor):
    visitor.open("#story=3")
    before = visitor.script("return history.length")
    guess(visitor, "2")
    assert "You said: up to A." in visitor.text(".reveal") and "Not one step." in visitor.text(".reveal")
    visitor.step("aaa")
    visitor.settle()
    assert visitor.script("return history.length") == before


def test_a_key_opens_the_next_story_and_back_returns(visitor):
    visitor.open("#story=3")
    guess(visitor, "3")
    assert visitor.focus() == "BUTTON go-on"
    visitor.press("Enter")
    visitor.wait("return location.hash === '#story=4'")
    assert visitor.focus().startswith("H1")
    visitor.back()
    visitor.wait("return document.querySelector('h1').innerText.startsWith('One lock')")


def test_a_returning_visitor_continues_where_they_left(visitor):
    visitor.open("#story=3")
    guess(visitor, "3")
    visitor.click("#go-on")
    visitor.wait("return location.hash === '#story=4'")
    visitor.settle()
    visitor.open()
    assert "Welcome back: you have finished 1 of the 9 sections" in visitor.text(".welcome") and visitor.text("h1").startswith("Can each node")
    visitor.click(".welcome a")
    visitor.wait("return document.querySelector('h1').innerText.startsWith('How does a thread')")
    assert "done" in visitor.script("return document.querySelectorAll('.dots a')[2].className")


def test_a_link_to_the_current_place_restarts_it(visitor):
    visitor.open("#story=3")
    guess(visitor, "3")
    visitor.click("nav a[href='#story']")
    visitor.wait("return document.querySelector('.reveal') === null")
    guess(visitor, "2")
    assert "You said: up to A." in visitor.text(".reveal")


def place(visitor, call, part):
    """Presses the bar of a call. `part` is the distance from the bar's left end, as a fraction of the bar's width."""
    left, top, wide, high = visitor.script("""const box = document.querySelector(`.strip [data-call="${arguments[0]}"] rect`).getBoundingClientRect();
        return [box.left, box.top, box.width, box.height]""", call)
    visitor.point(left + part * wide, top + high / 2)


SETS = "return [...document.querySelectorAll('.strip .content text')].map((it) => it.textContent)"
DEFINITION = "Each call appears to take effect at one moment between its start and its end, and in the order of these moments every answer is the one a set used by one thread would give."


def test_the_reader_places_the_moment_of_each_call(visitor):
    visitor.open("#story=8")
    assert visitor.script(SETS) == ["{5}", "{}", "{5}"]
    place(visitor, 0, 0.1)
    assert "contains(5) of A cannot return false there" in visitor.text("#prompt") and visitor.is_seen(".strip .clash")
    visitor.click("[data-do=none]")
    assert "There is such a moment" in visitor.text("#prompt")
    place(visitor, 0, 0.95)
    assert "the set is {5}" in visitor.text("#prompt")
    place(visitor, 0, 0.5)
    visitor.revealed()
    assert visitor.text(".why b").startswith("No bug") and not visitor.is_seen(".strip .clash")


def test_the_reader_finds_calls_without_moments(visitor):
    visitor.open("#story=8.2")
    for part in (0.2, 0.9):
        place(visitor, 2, part)
    assert "contains(5) of A cannot return false there" in visitor.text("#prompt")
    visitor.click("[data-do=none]")
    visitor.revealed()
    assert "linearizable" in visitor.text(".why") and DEFINITION in visitor.text(".why")


def test_moments_are_placed_by_keys(visitor):
    visitor.open("#story=8")
    for call, keys in ((1, ["Home", "Right"]), (2, ["End"]), (0, ["Home"] + 8 * ["Right"])):
        visitor.script("document.querySelector(`.strip [data-call='${arguments[0]}']`).focus()", call)
        visitor.press(*keys)
    visitor.revealed()
    assert visitor.text(".why b").startswith("No bug")


def test_steps_follow_the_code(visitor):
    visitor.open("#code=lazy")
    visitor.step("ab")
    for _ in range(2):
        visitor.click(".steps button.row", "lock pred")
        visitor.idle()
    assert "takes the lock of 3" in visitor.text(".said")
    visitor.click("[data-active='0']")
    visitor.click(".steps button.row", "validate")
    visitor.idle()
    assert "The call waits." in visitor.text(".said")
    visitor.settle()
    where = visitor.hash
    assert where.startswith("#code=lazy&opening=3.7&s=b0.add.5")
    visitor.open(where)
    assert "The call waits." in visitor.text(".said")
    visitor.open("#code=lazy&s=g0.4")
    assert "cannot make these steps" in visitor.text("#code-said")


def test_letters_can_be_switched_off(visitor):
    visitor.open("#example=snip")
    visitor.press("?")
    visitor.click("#single-keys")
    visitor.open("#story=2")
    visitor.press("a")
    assert visitor.script("return document.querySelectorAll('[data-undo]').length") == 0


def test_live_regions_of_a_step_say_a_sentence_once(visitor):
    visitor.open("#story=2")
    visitor.script("""window.said = []; const isLive = (it) => it.closest("[aria-live=polite], [role=status]") !== null;
        new MutationObserver((all) => all.forEach(({ target }) => { const it = target.nodeType === 1 ? target : target.parentElement;
            if (isLive(it)) window.said.push(it.closest("[aria-live], [role=status]").className); }))
            .observe(document.body, { subtree: true, childList: true, characterData: true })""")
    visitor.step("a")
    assert visitor.script("return window.said") == ["said"]


@pytest.mark.parametrize("number", [1, 2, 3, 8, 10])
def test_the_path_works_on_a_phone(visitor, number):
    visitor.size(390, 844)
    visitor.open(f"#story={number}")
    wide = visitor.script("return [document.documentElement.scrollWidth, document.documentElement.clientWidth]")
    assert wide[0] <= wide[1]
    assert number == 10 or visitor.in_window("#go-on")
    if number < 3:
        visitor.touch("[data-step='0']")
        visitor.idle()
        assert visitor.text(".said") != ""
    if number == 3:
        visitor.touch("[data-option='1']")
        visitor.revealed()
        ends = "const right = (it) => it.getBoundingClientRect().right; return [...document.querySelectorAll('.dock *')].map(right).every((it) => it <= right(document.querySelector('.stage')))"
        assert visitor.script(ends)


def test_a_slide_follows_a_presenters_keys(visitor):
    visitor.open("#story=2&view=lecture")
    assert not visitor.is_seen("#top") and not visitor.is_seen(".dots")
    for _ in range(6):
        visitor.press("PageDown")
        visitor.idle()
    visitor.wait("return location.hash.startsWith('#lecture=2')")
    visitor.press("Escape")
    visitor.wait("return location.hash === '#teachers'")
    assert visitor.is_seen("#top")


def test_wrong_addresses_are_reported(visitor):
    for address, word in (("#story=77", "77"), ("#ask=nothing", "nothing"), ("#break=99", "99"), ("#story=2&view=small", "small"), ("#story=4.7", "4.7"), ("#story=2.2", "2.2")):
        visitor.open(address)
        assert word in visitor.text("#said"), address
