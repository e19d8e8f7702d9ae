"""The faults that tools/refute.py puts into the definitions of a group, and for each a run after which the promise fails.

A run is written by hand, call by call, with the state after each; the checker confirms every step.
"""

from pathlib import Path
from typing import NamedTuple

TEXTS = Path(__file__).resolve().parent
ROOM = 10252  # the least buffer that a ship and a deliver accept

# THE VALUES: which of two flags are raised

NONE, LEFT, RIGHT, BOTH = (0, 0), (1, 0), (0, 1), (1, 1)


def flags(value):
    return "({}, {})".format(*("true" if raised else "false" for raised in value))


def listed(items):
    return "(" + " ∷ ".join([str(item) for item in items] + ["[]"]) + ")"


class Replica(NamedTuple):
    """A replica of two: `ring` has the deltas kept, each with its origin; `marks` has one for each, of the eight that there are."""

    value: tuple
    clock: int
    ring: list
    oldest: int
    marks: tuple = (0, 0)

    def text(self):
        ring = listed(f"kept {flags(delta)} {origin}" for delta, origin in self.ring)
        return f"(rep {flags(self.value)} {self.clock} {ring} {self.oldest} {listed(self.marks + (0,) * 6)})"


NEW = Replica(NONE, 0, [], 0)

# THE BYTES OF A DATAGRAM


def head(length, sort, sender, receiver, number):
    return length.to_bytes(2, "little") + bytes([sort, 0, sender, receiver]) + number.to_bytes(4, "little")


def delta(sender, receiver, number, value):
    slots = [slot for slot in (0, 1) if value[slot]]
    parts = b"".join(slot.to_bytes(2, "little") + (1).to_bytes(8, "little") for slot in slots)
    return head(12 + len(parts), 1, sender, receiver, number) + len(slots).to_bytes(2, "little") + parts


def ack(sender, receiver, number):
    return head(10, 2, sender, receiver, number)


# A RUN

# the definitions that the checker looks into, to work out a step and what the book of a run comes to
CALLS = "calls.act calls.restart recording extended with_replica blank shipping shipment accepting raised"
VALUES = "difference joined beyond parts_below parts_at all_below"
BYTES = "written listing ack_bytes head le list_bytes part_bytes value field listed same ranged"
BOOK = "entered with_page with_mutation mutation older marked unmarked empty_book worth"
UNFOLDED = f"unfolding {CALLS} {VALUES} {BYTES} {BOOK}"


class Run:
    """Calls of a group of two, from its making on. Each is told with the state after it, for the checker to confirm."""

    def __init__(self):
        self.replicas = [NEW, NEW]
        self.channel = []  # what waits, as (receiver, bytes), the newest first
        self.calls = 0
        self.text = [(TEXTS / "run.txt").read_text()]

    def act(self, r, flag, after):
        self.replicas[r] = after
        self.call(f"act {r} (raise {flag}) (Ok (Grown, {after.clock}))", "(refl, refl)")

    def ship(self, r, j, value, after=None):
        number = self.replicas[r].clock
        sent = delta(r, j, number, value)
        self.channel.insert(0, (j, sent))
        self.replicas[r] = after or self.replicas[r]
        self.call(f"ship {r} {j} {ROOM} (Ok (Sent {len(sent)} {number}))", "((Ok tt, (refl, refl), refl), refl)")

    def join(self, r, outcome, after):
        """r takes the newest delta for it and acknowledges it."""
        taken, before = self.newest(r), self.waiting()
        sender, number = taken[4], taken[6]
        self.channel.insert(0, (sender, ack(r, sender, number)))
        self.replicas[r] = after
        self.deliver(r, taken, before, f"Joined {outcome} {after.clock} true", "(Ok tt, (refl, refl), refl, refl)")

    def hear(self, r, after):
        """r takes the newest acknowledgement for it."""
        taken = self.newest(r)
        self.replicas[r] = after
        self.deliver(r, taken, self.waiting(), f"Heard {taken[4]} {taken[6]}", "(refl, refl, refl)")

    def restart(self, r, after):
        clock = self.replicas[r].clock
        self.replicas[r] = after
        self.call(f"restart {r} (Ok {clock})", "(refl, refl)")

    def lose(self):
        """The channel loses the newest that waits."""
        self.channel.pop(0)
        self.step(f"h{self.calls}", f"between r{self.calls} refl (λ x m. Memᴰ.tail m)")

    def newest(self, r):
        return next(data for receiver, data in self.channel if receiver == r)

    def waiting(self):
        return listed(f"waiting {receiver} {listed(data)}" for receiver, data in self.channel)

    def deliver(self, r, taken, before, answer, accepted):
        event = f"deliver {r} {ROOM} (Some {listed(taken)}) (Ok ({answer}))"
        self.call(event, f"({before}, Ok (Some {len(taken)}), (refl, refl), refl, {accepted})")

    def call(self, event, proof):
        self.step(f"{event} ∷ h{self.calls}", f"call ({event}) r{self.calls} {proof}")

    def step(self, history, proof):
        self.calls += 1
        n = self.calls
        group = "pair " + " ".join(replica.text() for replica in self.replicas)
        self.text.append(f"abbrev h{n} : History\nh{n} = {history}\n")
        self.text.append(f"abbrev s{n} : State Flags (List Waiting)\ns{n} = state ({group}) {self.waiting()}\n")
        self.text.append(f"r{n} : Reached flags heap h{n} s{n}\n{UNFOLDED}\nr{n} = {proof}\n")

    def breaks(self, part, proof):
        n = self.calls
        self.text.append(f"fails_{part} : {part} h{n} s{n}.group → ⊥\n{UNFOLDED}\nfails_{part} it = {proof}\n")
        self.text.append(f"pub breaks_{part} : Breaks {part}\nbreaks_{part} = (h{n}, s{n}, r{n}, fails_{part})\n")
        self.text.append(f"pub refuted_{part} : Refuted\nrefuted_{part} = from_{part} breaks_{part}\n")

    def arrives(self):
        n = self.calls
        self.text.append(f"pub arrives : Arrives\narrives = (h{n}, s{n}, r{n}, refl, refl)\n")

    def written(self):
        return "\n".join(self.text)


# WHY A PART FAILS: `it` is the part, said of the last state of a run


def differ(fact, has, should):
    """The part says of two different numbers that they are equal."""
    return f"let e : ◌≡◌ {{A = ℕ}} {has} {should} = it.{fact} in omega arith"


WITHIN = "(omega arith)"
OTHERS = f"{WITHIN} {WITHIN} (λ e. omega arith)"  # two places in the group, not the same
# replica 0 has a mark as high as its clock, and yet the other lacks a flag of it
NOT_LEVEL = f"both_ways false refl (it.level_with 0 1 {OTHERS} refl)"


def lacks_left(r):
    """By its account replica r has the left flag raised, and it has not."""
    return f"both_ways false refl (ap (λ (v : Flags). v.0) (it.worth_held {r} {WITHIN}))"


# THE RUNS

FIRST = Replica(LEFT, 1, [(LEFT, 0)], 0)  # the left flag is raised, or was received from 0
HEARD = Replica(LEFT, 1, [], 1, (0, 1))  # and the other has acknowledged it
SECOND = Replica(BOTH, 2, [(RIGHT, 0)], 1)  # then the right one: the ring, of one delta, has dropped the first


def bring_first(run):
    run.act(0, 0, FIRST)
    run.ship(0, 1, LEFT)
    run.join(1, "Grown", FIRST)


def honest(run):
    bring_first(run)
    run.hear(0, HEARD)


def ships_empty(run):
    run.act(0, 0, FIRST)
    run.ship(0, 1, NONE)
    run.join(1, "Same", NEW)
    run.hear(0, HEARD)
    run.breaks("knows", NOT_LEVEL)


def joins_first_only(run):
    honest(run)
    run.act(0, 1, SECOND._replace(marks=(0, 1)))
    run.ship(0, 1, RIGHT)
    run.join(1, "Same", FIRST)
    run.hear(0, Replica(BOTH, 2, [], 2, (0, 2)))
    run.breaks("knows", NOT_LEVEL)


def miscounts_grown(run):
    run.act(0, 0, FIRST._replace(clock=2))
    run.breaks("knows", differ(f"clocks 0 {WITHIN}", 2, 1))


def marks_at_shipping(run):
    run.act(0, 0, FIRST)
    run.ship(0, 1, LEFT, after=HEARD)
    run.breaks("knows", NOT_LEVEL)


def grown_unchanged(run):
    run.act(0, 0, FIRST._replace(value=NONE))
    run.breaks("holds", lacks_left(0))


def ships_interval_dropped(run):
    run.act(0, 0, FIRST)
    run.act(0, 1, SECOND)
    run.ship(0, 1, RIGHT)
    run.join(1, "Grown", Replica(RIGHT, 1, [(RIGHT, 0)], 0))
    run.breaks("holds", lacks_left(1))


def restarts_at_0(run):
    run.act(0, 0, FIRST)
    run.restart(0, Replica(LEFT, 0, [], 0))
    run.breaks("knows", differ(f"clocks 0 {WITHIN}", 0, 1))


def lowers_mark(run):
    bring_first(run)
    run.act(0, 1, SECOND)
    run.ship(0, 1, BOTH)
    run.join(1, "Grown", SECOND)
    run.hear(0, Replica(BOTH, 2, [], 2, (0, 2)))
    run.lose()  # the second acknowledgement, so that the first is the newest
    run.hear(0, Replica(BOTH, 2, [], 2, (0, 1)))
    run.breaks("knows", differ(f"marks 0 1 {OTHERS}", 1, 2))


def records_untrimmed(run):
    bring_first(run)
    run.act(0, 1, SECOND)
    run.ship(0, 1, BOTH)
    run.join(1, "Grown", SECOND._replace(ring=[(BOTH, 0)]))
    kept = f"(kept {flags(BOTH)} 0)"
    # only the right flag was new, and the ring has both
    run.breaks("newest", f"both_ways true (ap (λ (k : Kept Flags). k.delta.0) (only it.0 {kept} _ it.1)) refl")
    # the right flag alone leads on as well, and both are not under it
    run.breaks("keeps", f"both_ways false refl (it.least 1 0 {kept} {flags(RIGHT)} {WITHIN} {WITHIN} refl refl)")


# THE FAULTS


class Fault(NamedTuple):
    run: object  # the run that shows it; the fault has its name
    shows: int  # the call of the run that goes otherwise with the fault
    parts: tuple  # the parts of the promise that fail after the run
    says: str
    file: str
    old: str
    new: str

    def name(self):
        return self.run.__name__

    def functions(self):
        return [f"{self.name()}_{part}" for part in self.parts]

    def module(self):
        return self.name().title().replace("_", "")


FAULTS = [
    Fault(ships_empty, 2, ("knows",), "ships empty deltas", "Group",
          "(delta (header r j p.clock) (shipment p j))",
          "(delta (header r j p.clock) o.bottom)"),
    Fault(joins_first_only, 7, ("knows",), "joins the first datagram and only acknowledges the rest", "Group",
          "(Ok (delta h v)) = accept_ends p h (recording o limit p v h.from)",
          "(Ok (delta h v)) = cond (nat_lt 0 p.clock) (joins Same p h) (accept_ends p h (recording o limit p v h.from))"),
    Fault(miscounts_grown, 1, ("knows",), "counts 2 for a recording that grew", "Group",
          "clock = p.clock + 1;",
          "clock = p.clock + 2;"),
    Fault(marks_at_shipping, 2, ("knows",), "moves a mark at shipping, as if it had been acknowledged", "History",
          "j answer s.channel t.channel × (t.group ≡ s.group)",
          "j answer s.channel t.channel × (t.group ≡ with_replica s.group r"
          " (calls.raised (size s.group) r (replica o s.group r) j (replica o s.group r).clock))"),
    Fault(grown_unchanged, 1, ("holds",), "answers grown and keeps its value", "Group",
          "value = o.join p.value d;",
          "value = p.value;"),
    Fault(ships_interval_dropped, 3, ("holds",), "ships an interval although its first deltas were dropped", "Group",
          "cond (nat_le p.oldest (mark p j)) (join_all o (not_from j (drop (mark p j - p.oldest) p.ring))) p.value",
          "join_all o (not_from j (drop (mark p j - p.oldest) p.ring))"),
    Fault(restarts_at_0, 2, ("knows",), "sets the clock to 0 at restart", "Group",
          "clock = p.clock; ring = []; oldest = p.clock;",
          "clock = 0; ring = []; oldest = 0;"),
    Fault(lowers_mark, 9, ("knows",), "lowers a mark at a late acknowledgement", "Group",
          "(slice_set p.marks from (max (mark p from) number)))) p (slice_set p.marks from (max (mark p from) number))",
          "(slice_set p.marks from number))) p (slice_set p.marks from number)"),
    Fault(records_untrimmed, 6, ("newest", "keeps"), "records a received delta untrimmed", "Group",
          "record { delta = difference o d p.value; origin = origin }",
          "record { delta = d; origin = origin }"),
]
