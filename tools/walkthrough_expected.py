#!/usr/bin/env python3
"""Prints what the program walkthrough must print, worked out with dictionaries from documents 01 and 02 and not by the program.

  walkthrough_expected.py            the day at the counter
  walkthrough_expected.py --listing  what the program listing must print of the image that the day ends with

The unit is document 01's plain list: whole maps numbered one after another, with the list that led to each. What stands in quotes is
document 01's, which says book, change memory, anchor, floor and place for table, journal, checkpoint, oldest state and slot. Grounds
1 and 2 do not arise: the lengths are in range, and each call gets what the one before it left. Nor do a batch's grounds 6 to 8: the
orders are of known kinds, on offers of the read set.
"""
import contextlib
import io
import sys

BOOK_WORDS, CHANGE_WORDS, BYTES = 4, 16, 30
LARGEST = 2**32 - 1
WORDS = {
    6: "the offers of a list must rise",
    10: f"a price must stay from 0 to {LARGEST}",
    11: "the state must be from checkpoint to newest",
}


class Refused(Exception):
    """A call that meets a ground: "a refused call changes nothing"."""

    def __str__(self):
        return f"refused on ground {self.args[0]}, {WORDS[self.args[0]]}"


def refuse_if(*grounds):
    """Refuses on the first ground that is met, "checked in this order"."""
    for number, met in grounds:
        if met:
            raise Refused(number)


def rises(offers):
    return all(a < b for a, b in zip(offers, offers[1:]))


def word_of(offer, price):
    return 1 << 63 | offer << 32 | price


class PlainList:
    def begin(self, number, prices):
        """ "floor, anchor and tip that number and no open place"; "Clear, load and restart set it [the tally] to zero." """
        self.maps, self.lists, self.anchor, self.places = {number: prices}, {}, number, {}
        self.committed = self.rolled_back = self.flushed = 0

    def tip(self):
        return max(self.maps)

    def floor(self):
        """ "the least of the anchor and the open places' numbers" """
        return min([self.anchor] + [number for number, _ in self.places.values()])

    def outside(self, state):
        return 11, not self.anchor <= state <= self.tip()

    def load(self, image):
        """ "the length is exactly 6 + 8 × count" """
        number, count = (int.from_bytes(part, "big") for part in (image[:4], image[4:6]))
        words = [int.from_bytes(image[at:at + 8], "big") for at in range(6, len(image), 8)]
        rows = [(word >> 32 & 2**31 - 1, word & LARGEST) for word in words]
        fits = len(image) == 6 + 8 * count and all(word >> 63 for word in words)
        refuse_if((15, not fits or not rises([offer for offer, _ in rows])), (16, count > BOOK_WORDS))
        self.begin(number, dict(rows))

    def write_image(self):
        """ "state number 32 bits, count 16 bits, then the book's words, all most significant byte first"; "With no state named, the
        tip is now written" (document 02, Q-2). """
        rows = sorted(self.maps[self.tip()].items())
        head = self.tip().to_bytes(4, "big") + len(rows).to_bytes(2, "big")
        image = head + b"".join(word_of(*row).to_bytes(8, "big") for row in rows)
        refuse_if((17, len(image) > BYTES))
        return image

    def commit(self, changes):
        """ "A commit adds the last map with the new list applied"; a list "puts or removes its offers and touches no other". """
        held = [words for state, words in self.lists.items() if state > self.floor()]
        unused = CHANGE_WORDS - sum(len(words) for words in held)
        refuse_if((6, len(changes) > 64 or not rises([offer for offer, _ in changes])), (12, self.tip() == LARGEST),
                  (13, len(held) == 64), (14, len(changes) > unused))
        after = {**self.maps[self.tip()], **dict(changes)}
        self.lists[self.tip() + 1] = changes
        self.maps[self.tip() + 1] = {offer: price for offer, price in after.items() if price is not None}
        self.committed += 1

    def roll_back(self, state):
        """ "A rollback cuts the maps above its state." """
        refuse_if(self.outside(state))
        self.rolled_back += self.tip() - state
        for above in range(state + 1, self.tip() + 1):
            del self.maps[above], self.lists[above]

    def flush(self, state):
        """ "A flush only moves the anchor." """
        refuse_if(self.outside(state), (16, len(self.maps.get(state, {})) > BOOK_WORDS))
        self.flushed += state - self.anchor
        self.anchor = state

    def look_up(self, offer, state):
        """ "A lookup reads the map of the state named."; and document 02, Q-4: "the state to which the last step naming the offer leads,
        searched among the steps above the anchor and up to the state named, or, if none did, that the book answered" """
        refuse_if((6, offer >= 2**31), self.outside(state))
        naming = [to for to, words in self.lists.items() if self.anchor < to <= state and offer in dict(words)]
        return self.maps[state].get(offer), max(naming, default=None)

    def issue(self, place, offers):
        """ "An issue opens its place with the anchor's number and its list's offers." """
        refuse_if((3, place > 7), (4, place in self.places), (6, len(offers) > 64 or not rises(offers)))
        self.places[place] = self.anchor, offers
        return [(offer, self.maps[self.anchor].get(offer)) for offer in offers]

    def forward(self, place, state):
        """ "for each of those offers the word that shows its price, or none, in the map of the state named" """
        refuse_if((3, place > 7), (5, place not in self.places), self.outside(state))
        _, offers = self.places.pop(place)
        return [(offer, self.maps[state].get(offer)) for offer in offers]


def price_batch(reads, orders):
    """ "Orders run in turn, each seeing the earlier ones. The output is one word per offer named, rising, with its final price"; and of
    sixteenths document 02: "(price × (kind − 15) + 8) / 16, rounded down". """
    prices, changed = dict(reads), {}
    for kind, amount, offer in orders:
        refuse_if((9, prices[offer] is None))
        price = {
            "raise": lambda old: old + amount,
            "cut": lambda old: old - amount,
            "keep": lambda old: (old * amount + 8) // 16,
        }[kind](prices[offer])
        refuse_if((10, not 0 <= price <= LARGEST))
        prices[offer] = changed[offer] = price
    return sorted(changed.items())


def entries(rows):
    return ", ".join(f"offer {offer} " + ("not on sale" if price is None else f"at {price}") for offer, price in rows)


def since_text(since):
    return " (by the table)" if since is None else f" (since state {since})"


def order_text(kind, amount, offer):
    return f"keep {amount}/16 of offer {offer}" if kind == "keep" else f"{kind} offer {offer} by {amount}"


class Day:
    """The day's events, each with its line."""

    OFFERS = [5, 7, 9]

    def __init__(self):
        self.unit = PlainList()

    def tell(self, what, call, *arguments, after=None):
        """A line: what is asked, what is answered, and what there is to say after it; by default where the store stands."""
        given, answer = None, "accepted"
        try:
            given = call(*arguments)
        except Refused as refusal:
            answer = str(refusal)
        more = after(given) if after else f"; checkpoint {self.unit.anchor}, newest {self.unit.tip()}"
        print(f"  {what}: {answer}{more}")
        return given

    def load(self, image):
        print("  image", image.hex(" "))
        self.tell("load", self.unit.load, image)

    def quote(self, state):
        quotes = [(offer, *self.unit.look_up(offer, state)) for offer in self.OFFERS]
        print(f"  quotes at state {state}:", ", ".join(entries([(offer, price)]) + since_text(since) for offer, price, since in quotes))

    def read(self, what, call, *arguments):
        return self.tell(what, call, *arguments, after=lambda reads: "; read " + entries(reads))

    def commit(self, *changes):
        self.tell("commit " + entries(changes), self.unit.commit, changes)

    def roll_back(self, state):
        self.tell(f"roll back to state {state}", self.unit.roll_back, state)

    def price(self, reads, *orders):
        what = "price the orders (" + ", ".join(order_text(*order) for order in orders) + ")"
        gives = lambda changes: "" if changes is None else "; gives " + entries(changes)
        return self.tell(what, price_batch, reads, orders, after=gives)

    def write(self):
        image = self.tell("write the image", self.unit.write_image)
        print("  image", image.hex(" "))
        unit = self.unit
        print(f"  counted today: lists committed {unit.committed}, rolled back {unit.rolled_back}, flushed {unit.flushed}")

    def list(self):
        """What the listing prints: "State and count in the first line, then offer and price per line". """
        rows = sorted(self.unit.maps[self.unit.tip()].items())
        print(f"state {self.unit.tip()} offers {len(rows)}")
        for offer, price in rows:
            print(offer, price)


def pass_day():
    """Prints the day, and gives it as it ends."""
    print("A day at the counter: the price unit takes a feed of price changes and quotes the prices of seats.")
    print("An offer is a seat. Prices are in minor units, as the unit has them: 1200 is 12.00.")
    print("Each list of changes makes the next state. States from the checkpoint to the newest are quoted.")
    print("A quote says how fresh it is: since which state, or by the table, which holds the prices at the checkpoint.")
    day = Day()

    print("\nMorning: last night's image is loaded: the number of a state, how many offers it has, and each with its price.")
    rows = [(5, 1200), (9, 700), (12, 2500)]
    day.load(bytes([0, 0, 0, 7, 0, len(rows)]) + b"".join(word_of(*row).to_bytes(8, "big") for row in rows))
    day.quote(7)

    print("\nAn early read: orders will come for a state that is not there yet, and reading starts now.")
    day.read("issue in slot 0", day.unit.issue, 0, day.OFFERS)

    print("\nThe feed: two lists of changes come in.")
    day.commit((5, 1100), (7, 900))
    day.commit((9, None), (12, 2400))
    day.quote(8)
    day.quote(9)

    print("\nOrders: the early read is brought to state 9 and priced on. One bad order refuses its batch.")
    reads = day.read("forward slot 0 to state 9", day.unit.forward, 0, 9)
    day.price(reads, ("raise", 100, 5), ("cut", 901, 7))
    day.commit(*day.price(reads, ("raise", 100, 5), ("cut", 100, 7), ("keep", 12, 5)))

    print("\nA correction: a list with wrong prices is taken back, and the right one comes in.")
    day.commit((5, 9), (7, 8))
    day.quote(11)
    day.roll_back(10)
    day.commit((7, 850), (5, 950))
    day.commit((5, 950), (7, 850))
    day.quote(11)

    print("\nEvening: a flush makes state 11 the checkpoint, and its image is written for tomorrow.")
    day.tell("flush to state 11", day.unit.flush, 11)
    day.quote(11)
    day.roll_back(10)
    day.write()
    return day


def main(arguments):
    if arguments not in ([], ["--listing"]):
        sys.exit("usage: walkthrough_expected.py [--listing]")
    with contextlib.redirect_stdout(io.StringIO() if arguments else sys.stdout):
        day = pass_day()
    if arguments:
        day.list()


if __name__ == "__main__":
    main(sys.argv[1:])
