"""A Python model of the sequential set. The model returns the reply to each call, as written in a report. The model was
written independently of the crates. All tests that need replies use the model.
"""

import collections

CHANGES = ("add", "remove")  # the calls that change the set if they reply true


def reply_of(word, key, keys, has_room=True):
    """Returns the reply of a set with the keys `keys` to the call `word` on `key`. An `add` of an absent key returns
    `full` if `has_room` is false.
    """
    if word == "ceiling":
        above = [other for other in keys if other >= key]
        return f"at-{min(above)}" if above else "nothing"
    if word == "add" and key not in keys and not has_room:
        return "full"
    return "true" if (key in keys) != (word == "add") else "false"


def fits_without_change(word, key, reply, keys, has_room=True):
    """Returns whether a call that does not change a set with the keys `keys` can return `reply`."""
    return reply == reply_of(word, key, keys, has_room) and not (word in CHANGES and reply == "true")


class SetModel:
    """A set. Each thread can add as many keys as its quota allows, or any number of keys if the set has no quota."""

    def __init__(self, quota=None, keys=()):
        self.keys, self.quota, self.added = set(keys), quota, collections.Counter()

    def change(self, thread, word, key):
        """Adds or removes a key, even if the set would not reply `true`."""
        if word == "add":
            self.keys.add(key)
            self.added[thread] += 1
        else:
            self.keys.discard(key)

    def has_room(self, thread):
        return self.quota is None or self.added[thread] < self.quota

    def reply(self, thread, word, key):
        """Executes a call and returns its reply."""
        reply = reply_of(word, key, self.keys, self.has_room(thread))
        if word in CHANGES and reply == "true":
            self.change(thread, word, key)
        return reply
