"""A model of the text picture that `show` prints, written from docs/TEXTS.md alone. A picture has a column for each
moment (position in the history), and a row for each thread, with the starts, ends and linearization points of the
thread's calls. Below the rows are the set after each change, and the order of the calls. A Picture shows a run
(traces_model) or a report (reports_model).
"""

import collections
import functools

GREATEST = 4294967295
# The contents of a picture: the list; the number of events (None for a report); the calls; each call's end and reply,
# keyed by the call's number; the entries of the order; the set at each moment (position in the history); the final
# keys; why the order is refused, or None; and the refused event, or None.
Picture = collections.namedtuple("Picture", "kind threads quota events calls ends order sets keys refusal refused")
Place = collections.namedtuple("Place", "number reply at change")  # an entry of the order; it has no moment if the order is refused
# The reason why an order is refused: the message, the first moment (position in the history) that the picture shows,
# and the number of a call that is in the order but not in the report.
Refusal = collections.namedtuple("Refusal", "said begun unknown")


def picture_of_run(plan, run):
    """Returns the picture of a schedule's run."""
    order = sorted(run.points, key=lambda it: (run.points[it][0], not run.points[it][1], it))
    places = [Place(it, "true" if run.points[it][1] else run.ends[it][1], *run.points[it]) for it in order]
    return Picture(plan.kind, plan.threads, plan.quota, run.events, run.calls, run.ends, places, run.sets, sorted(run.sets[-1]), None, run.refused)


def keys_text(keys, separator=","):
    shown = [str(it) for it in keys[:8]] + ([f"..+{len(keys) - 8}"] if len(keys) > 8 else [])
    return separator.join(shown)


class Drawn:
    """A picture limited to the moments (positions in the history) from `first` to `last`. The picture has at most 64
    columns, one for each moment when a call begins, takes effect or ends.
    """

    def __init__(self, picture, first, last):
        self.picture, self.first, self.has_points = picture, first, picture.refusal is None
        self.all = sorted({it.begun for it in picture.calls} | {it[0] for it in picture.ends.values()}
                          | {it.at for it in picture.order if self.has_points})
        self.columns = [it for it in self.all if first <= it <= last][:64]
        self.last = self.columns[-1] if self.columns else last

    @functools.cache
    def signs(self, moment):
        calls = self.picture.calls
        told = [(it.thread, f"[{it.word} {it.key}-", True) for it in calls if it.begun == moment]
        told += [(calls[it.number].thread, "*-" if it.change else "o-", None) for it in self.picture.order if it.at == moment]
        return told + [(calls[n].thread, f"{reply}] ", False) for n, (at, reply) in sorted(self.picture.ends.items()) if at == moment]

    @functools.cache
    def told_set(self, moment):
        shown = moment == self.columns[0] or any(it.at == moment and it.change for it in self.picture.order)
        return "{" + keys_text(sorted(self.picture.sets[moment])) + "}" if shown and self.has_points else ""

    @functools.cache
    def width(self, moment):
        threads = {it[0] for it in self.signs(moment)}
        lengths = [len("".join(it[1] for it in self.signs(moment) if it[0] == t)) for t in threads]
        return min(255, max(len(str(moment)) + 1, len(self.told_set(moment)) + 1, *lengths))

    def row_of_moments(self):
        return ("moment    " + "".join(str(it).ljust(self.width(it)) for it in self.columns)).rstrip()

    def rows(self):
        widths, ends = [self.width(it) for it in self.columns], self.picture.ends
        told = [self.row_of_moments()]
        for t in range(self.picture.threads):
            drawn = any(it.thread == t and it.begun < self.first and (it.number not in ends or ends[it.number][0] >= self.first)
                        for it in self.picture.calls)
            row = f"thread {t}".ljust(10)
            for at, (moment, width) in enumerate(zip(self.columns, widths)):
                mine = [it for it in self.signs(moment) if it[0] == t]
                piece = "".join(it[1] for it in mine) or ("<" if at == 0 and drawn else "")
                for it in mine:
                    drawn = drawn if it[2] is None else it[2]
                row += piece.ljust(width, "-" if drawn else " ")
            told.append(row + ">" * drawn)
        if self.has_points:
            told.append("set       " + "".join(self.told_set(it).ljust(n) for it, n in zip(self.columns, widths)))
        return [it.rstrip() for it in told]

    def is_cut(self):
        return (bool(self.all) and self.all[0] < self.first, any(it > self.last for it in self.all))

    def cut_text(self):
        before, after = self.is_cut()
        events = "" if self.picture.events is None else f" of {self.picture.events}"
        return (f"moments {self.first} to {self.last}{events}" + (f"; earlier: --to {self.first - 1}" if before else "")
                + (f"; later: --from {self.last + 1}" if after else ""))

    def heading(self):
        def count(n, word):
            return f"{n} {word}{'' if n == 1 else 's'}"
        it = self.picture
        events = "" if it.events is None else f" in {count(it.events, 'event')}"
        return f"{it.kind} list, {count(it.threads, 'thread')}, quota {it.quota}: {count(len(it.calls), 'call')}{events}"

    def refusal(self):
        return [f"refused {self.picture.refusal.said}"] if self.picture.refusal else []

    def side(self, place):
        """Returns -1, 0 or 1 if `place`, an entry of the order, is before, within or after the drawn moments. The
        entry's linearization point decides. If the entry has no linearization point, the start and the end of its call
        decide. Returns None for an unknown call.
        """
        first = last = place.at
        if not self.has_points:
            if place.number >= len(self.picture.calls):
                return 0 if not any(self.is_cut()) or place.number == self.picture.refusal.unknown else None
            first, last = self.picture.calls[place.number].begun, self.picture.ends.get(place.number, [GREATEST])[0]
        return 1 if self.last < first else -1 if last < self.first else 0

    def place_text(self, at, place):
        told = f"{at:>4}  " + (f"at {place.at:<5} " if self.has_points else " " * 9)
        if place.number >= len(self.picture.calls):
            return f"{told}call {place.number} {place.reply}"
        call = self.picture.calls[place.number]
        told += f"thread {call.thread}  {call.word} {call.key} {place.reply}"
        return told + ("  (no change)" if place.change is False else "") + ("" if place.number in self.picture.ends else "  (pending)")

    def below(self, legend):
        told, order = ["order"] if self.picture.calls else ["no calls"], self.picture.order
        if self.picture.calls:
            sides = [self.side(it) for it in order]
            told += [self.place_text(at, it) for at, (it, side) in enumerate(zip(order, sides), 1) if side == 0]
            early, late, unknown = (sides.count(it) for it in (-1, 1, None))
            told += [f"{early} before, {late} after" + (f", {unknown} of unknown calls" if unknown else "")] if early or late or unknown else []
        keys = self.picture.keys
        told.append("keys" + ("  " + keys_text(keys, " ") if keys else ""))
        told += ["", legend] if order and self.has_points else []
        refused = self.picture.refused
        return told + (["", f"refused line {refused[0]} {refused[1]}"] if refused else [])

    def text(self):
        cut = any(self.is_cut())
        legend = "* changes the set    o changes nothing, its reply fits there    > " + ("ends later    < began earlier" if cut else "pending")
        told = [self.heading(), *self.refusal(), ""]
        if self.picture.calls:
            told += [*([self.cut_text()] if cut else []), *self.rows(), ""]
        return [*told, *self.below(legend)]

    def in_svg(self):
        """Returns the texts that an SVG of the picture must contain, and how many circles and bars the SVG must have.
        """
        legend = "filled: changes the set    open: changes nothing, its reply fits there    dashed: pending"
        points = [it for it in self.picture.order if self.has_points and self.first <= it.at <= self.last]
        bars = [it for it in self.picture.calls if it.begun <= self.last and self.picture.ends.get(it.number, [GREATEST])[0] >= self.first]
        return {*map(str, self.columns), self.heading(), *self.refusal(), *filter(None, self.below(legend))}, len(points), len(bars)


def with_rows_of(width, drawn):
    """Removes columns until no row is longer than `width`, but keeps at least one column. For an SVG, `width` is None."""
    while width and len(drawn.columns) > 1 and (len(drawn.row_of_moments()) > width or max(map(len, drawn.rows())) > width):
        drawn.columns.pop()
        drawn.last = drawn.columns[-1]
    return drawn


def fitted(picture, first, last, width=None):
    """Returns the picture of the moments from `first` to `last`. If all moments are requested but do not fit, the
    picture of a refused order begins at the call that the refusal names.
    """
    drawn = with_rows_of(width, Drawn(picture, first, last))
    begun = picture.refusal.begun if picture.refusal else None
    if begun is not None and (first, last) == (1, GREATEST) and drawn.is_cut()[1]:
        drawn = with_rows_of(width, Drawn(picture, begun, last))
    return drawn
