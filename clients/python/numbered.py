"""Numbered puts, from which a store shows how far it got: for trials that end a run at any moment and look what is there.

Put N, from 1 on, has the key N modulo `KEYS` and says N in its value. A store that has puts 1 to N and no other holds put after put
the last `KEYS` of them, so that each key shows whether a put is missing, and whether a later one is there without it.
"""

from pagemem import Store

CACHE = 0
KEYS = 5_000


class Missing(Exception):
    """A put isn't there that has to be."""


class NumberedPuts:
    """Puts into one store.

    `done` is the number of the last put that the store was seen to have, `acknowledged` that of the last one with a reply, and `count`
    says how many had one, by this object.
    """

    def __init__(self, store: Store, acknowledged: int = 0) -> None:
        self._store = store
        self.done = 0
        self.acknowledged = acknowledged
        self.count = 0

    def check(self) -> None:
        """Looks up the last put of each key, and sets `done`.

        Raises a Missing with the number of a put that was acknowledged and isn't there, or isn't there though a later one is.
        """
        with self._store.batch() as batch:
            for number in range(KEYS):
                batch.get(CACHE, _key(number))
        found = batch.results
        self.done = max(_number(value) for value in found)
        last = max(self.done, self.acknowledged)
        for number in range(max(1, last - KEYS + 1), last + 1):
            if found[number % KEYS] != _value(number):
                why = "was acknowledged" if number <= self.acknowledged else f"came before put {self.done}, which is there"
                raise Missing(f"put {number} {why}, and isn't there: its key {_key(number)!r} has put {_number(found[number % KEYS])}")

    def send(self, how_many: int) -> None:
        """Sends the puts after `done` as one batch, and counts those with a reply, also where a RunEnded comes."""
        batch = self._store.batch()
        try:
            with batch:
                for number in range(self.done + 1, self.done + 1 + how_many):
                    batch.put(CACHE, _key(number), _value(number))
        finally:
            replies = len(batch.results)
            self.count += replies
            self.done += replies
            if replies:
                self.acknowledged = self.done


def _key(number: int) -> bytes:
    return b"key %d" % (number % KEYS)


def _value(number: int) -> bytes:
    """The number, and then bytes, more or fewer from put to put."""
    return b"%d " % number + bytes([number % 256]) * (number * 37 % 800)


def _number(value: bytes | None) -> int:
    """The number that a value says, and 0 where there is none."""
    return int(value.partition(b" ")[0]) if value else 0
