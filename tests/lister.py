#!/usr/bin/env python3
"""What the program `listings` must print, worked out by brute force from the documents alone.

    lister.py < CASES

Reads the cases from the standard input: networks as sheets in hexadecimal, each followed by the orders on a ledger over it,
which is empty at first. Prints the answer to every order. Nothing here is taken from the library: all routes are enumerated
by plain recursion and sorted, and the line count is worked out by sorting all admissible partial routes and going through
them in their order, as docs/ENQUIRIES.md defines it. The sums stop at 4,294,967,295 as docs/LENGTHS.md says, which no case
comes near.
"""
import collections
import sys

Arc = collections.namedtuple("Arc", "start end weight delay jitter charge capacity")
Row = collections.namedtuple("Row", "state width route")
Enquiry = collections.namedtuple("Enquiry", "source destination width limits wanted kind notebook")

GREATEST_SUM = 4294967295
LIMITED_KINDS = ("delay", "jitter", "charge", "hops")
MOST_HOPS = 15
MOST_WANTED = 32
MOST_LINES = 4096
ROWS_OF_A_LEDGER = 64
MOST_TICKETS = 4294967295

REASONS = {
    20: "the source or the destination is no site of the network",
    21: "the source is the destination",
    22: "the width is 0",
    23: "the hop limit is outside 1 to 15",
    24: "the wanted number is outside 1 to 32",
    27: "the notebook has too few lines",
    30: "the width is 0",
    31: "a route has 1 to 15 arcs",
    32: "there is no arc of a number in the route",
    33: "an arc begins elsewhere than the one before it ends",
    34: "the route meets a site twice",
    35: "an arc has less free capacity than the width",
    36: "no row of the ledger is empty",
    37: "all tickets are given",
    41: "the ticket is not booked here",
    42: "there is no arc of this number",
    43: "the arc is closed already",
    44: "a held or booked row meets the arc",
    45: "the arc is not closed",
}


class Refused(Exception):
    """A check failed; `number` is the check's number."""

    def __init__(self, number):
        super().__init__(REASONS[number])
        self.number = number


class NotCarriedOut(Exception):
    """The program makes no call for this order; the words say why."""


def check(holds, number):
    """Refuse with the number where the condition does not hold."""
    if not holds:
        raise Refused(number)


# Networks.


def read_sheet(hexadecimal):
    """The number of sites and the arcs of a sheet, each field read off the row of bits."""
    bits = "".join(f"{byte:08b}" for byte in bytes.fromhex(hexadecimal))
    position = 0

    def field(width):
        """The next field, of so many bits."""
        nonlocal position
        position += width
        return int(bits[position - width:position], 2)

    sites, number_of_arcs = field(7), field(9)
    arcs = [Arc(*(field(width) for width in (6, 6, 12, 12, 10, 10, 8))) for _ in range(number_of_arcs)]
    return sites, arcs


# Kinds of length.


def arc_length(kind, arc):
    """The length of one arc."""
    if kind == "hops":
        return 1
    if kind == "width":
        return arc.capacity
    return getattr(arc, kind)


def empty_length(kind):
    """The length of the empty walk."""
    return 255 if kind == "width" else 0


def join(kind, first, second):
    """The length of one way and then another."""
    return min(first, second) if kind == "width" else min(first + second, GREATEST_SUM)


def rank(kind, length):
    """A number that is the less, the shorter the length is."""
    return -length if kind == "width" else length


def total(kind, arcs, route):
    """The length of a row of arcs: their lengths joined in order."""
    length = empty_length(kind)
    for number in route:
        length = join(kind, length, arc_length(kind, arcs[number]))
    return length


def least_totals(kind, sites, arcs, destination, width):
    """For each site the least length of all walks to the destination over usable arcs, or None where there is no walk."""
    least = [None] * sites
    least[destination] = empty_length(kind)
    changed = True
    while changed:
        changed = False
        for arc in arcs:
            if arc.capacity >= width and least[arc.end] is not None:
                length = join(kind, arc_length(kind, arc), least[arc.end])
                if least[arc.start] is None or rank(kind, length) < rank(kind, least[arc.start]):
                    least[arc.start] = length
                    changed = True
    return least


# Routes and partial routes: tuples of arc numbers.


def partial_routes(arcs, source, destination, width, most_arcs):
    """All partial routes of at most so many arcs; one of more arcs than the hop limit is neither feasible nor admissible."""
    found = []

    def go_on(route, sites_met):
        """Note a partial route and all those that begin with it."""
        found.append(route)
        if sites_met[-1] == destination or len(route) == most_arcs:
            return
        for number, arc in enumerate(arcs):
            if arc.start == sites_met[-1] and arc.end not in sites_met and arc.capacity >= width:
                go_on(route + (number,), sites_met + (arc.end,))

    go_on((), (source,))
    return found


def end_of(arcs, partial, source):
    """The site at which a partial route ends."""
    return arcs[partial[-1]].end if partial else source


def list_routes(arcs, enquiry, partials):
    """The list: the first of all feasible routes, shorter ones first and then by arc numbers."""
    feasible = []
    for partial in partials:
        if end_of(arcs, partial, enquiry.source) == enquiry.destination:
            if all(total(kind, arcs, partial) <= enquiry.limits[kind] for kind in LIMITED_KINDS):
                feasible.append(partial)
    feasible.sort(key=lambda route: (rank(enquiry.kind, total(enquiry.kind, arcs, route)), route))
    return feasible[:enquiry.wanted]


def count_lines(sites, arcs, enquiry, partials):
    """The line count: how many lines the work writes until it has taken the last wanted route, or all partial routes."""
    kinds = {enquiry.kind, *LIMITED_KINDS}
    least = {kind: least_totals(kind, sites, arcs, enquiry.destination, enquiry.width) for kind in kinds}

    def projected(kind, partial):
        """The total of a partial route joined with the least total from its end."""
        return join(kind, total(kind, arcs, partial), least[kind][end_of(arcs, partial, enquiry.source)])

    def is_admissible(partial):
        """Whether the destination can be reached, with the four projected totals within the limits."""
        if least["hops"][end_of(arcs, partial, enquiry.source)] is None:
            return False
        return all(projected(kind, partial) <= enquiry.limits[kind] for kind in LIMITED_KINDS)

    admissible = [partial for partial in partials if is_admissible(partial)]
    admissible.sort(key=lambda partial: (rank(enquiry.kind, projected(enquiry.kind, partial)), partial))
    one_arc_longer = collections.Counter(partial[:-1] for partial in admissible if partial)
    lines = 1 if () in admissible else 0
    routes_taken = 0
    for partial in admissible:
        if end_of(arcs, partial, enquiry.source) == enquiry.destination:
            routes_taken += 1
            if routes_taken == enquiry.wanted:
                break
        else:
            lines += one_arc_longer[partial]
    return lines


def answer_enquiry(sites, arcs, enquiry):
    """The list of routes and the line count of an enquiry, or the first check that fails."""
    check(enquiry.source < sites and enquiry.destination < sites, 20)
    check(enquiry.source != enquiry.destination, 21)
    check(enquiry.width != 0, 22)
    check(1 <= enquiry.limits["hops"] <= MOST_HOPS, 23)
    check(1 <= enquiry.wanted <= MOST_WANTED, 24)
    partials = partial_routes(arcs, enquiry.source, enquiry.destination, enquiry.width, enquiry.limits["hops"])
    lines = count_lines(sites, arcs, enquiry, partials)
    check(lines <= min(enquiry.notebook, MOST_LINES), 27)
    return list_routes(arcs, enquiry, partials), lines


# The ledger.


class Ledger:
    """A ledger over a network, with the slips of its held rows in the program's hands."""

    def __init__(self, sites, arcs):
        self.sites = sites
        self.arcs = arcs
        self.rows = {}  # the held and booked rows, by ticket
        self.closed = set()
        self.tickets_given = 0

    def has_arc(self, number):
        """Whether there is an arc of this number."""
        return number < len(self.arcs)

    def free_capacity(self, number):
        """What the ledger leaves of an arc's capacity."""
        if number in self.closed:
            return 0
        return self.arcs[number].capacity - sum(row.width for row in self.rows.values() if number in row.route)

    def shown_arcs(self):
        """The arcs of the network that the ledger shows: those below, each with its free capacity."""
        return [arc._replace(capacity=self.free_capacity(number)) for number, arc in enumerate(self.arcs)]

    def enquire(self, enquiry):
        """The answer to an enquiry over the network that the ledger shows, and a row for each route."""
        arcs = self.shown_arcs()
        routes, lines = answer_enquiry(self.sites, arcs, enquiry)
        answer = [f"{len(routes)} routes, {lines} lines"]
        for route in routes:
            length = total(enquiry.kind, arcs, route)
            sums = [f"{kind} {total(kind, arcs, route)}" for kind in ("delay", "jitter", "charge")]
            answer.append("  " + " ".join(["-".join(map(str, route)), f"length {length}"] + sums))
        return answer

    def hold(self, width, route):
        """Hold a width along a route."""
        check(width != 0, 30)
        check(1 <= len(route) <= MOST_HOPS, 31)
        check(all(self.has_arc(number) for number in route), 32)
        arcs = [self.arcs[number] for number in route]
        check(all(before.end == after.start for before, after in zip(arcs, arcs[1:])), 33)
        sites_met = [arcs[0].start] + [arc.end for arc in arcs]
        check(len(set(sites_met)) == len(sites_met), 34)
        check(all(self.free_capacity(number) >= width for number in route), 35)
        check(len(self.rows) < ROWS_OF_A_LEDGER, 36)
        check(self.tickets_given < MOST_TICKETS, 37)
        self.tickets_given += 1
        self.rows[self.tickets_given] = Row("held", width, route)
        return [f"ticket {self.tickets_given}"]

    def has_row(self, ticket, state):
        """Whether the row under a ticket is in this state; a slip is in hand just where its row is held."""
        return ticket in self.rows and self.rows[ticket].state == state

    def slips_in_hand(self):
        """How many slips are neither confirmed nor let go."""
        return sum(row.state == "held" for row in self.rows.values())

    def confirm(self, ticket):
        """Book the held row of a slip."""
        if not self.has_row(ticket, "held"):
            raise NotCarriedOut(f"no slip {ticket}")
        self.rows[ticket] = self.rows[ticket]._replace(state="booked")
        return [f"ticket {ticket} booked"]

    def let_go(self, ticket):
        """Empty the held row of a slip."""
        if not self.has_row(ticket, "held"):
            raise NotCarriedOut(f"no slip {ticket}")
        del self.rows[ticket]
        return [f"ticket {ticket} let go"]

    def end(self, ticket):
        """Empty the booked row of a ticket."""
        check(self.has_row(ticket, "booked"), 41)
        del self.rows[ticket]
        return [f"ticket {ticket} ended"]

    def close(self, number):
        """Close an arc."""
        check(self.has_arc(number), 42)
        check(number not in self.closed, 43)
        check(all(number not in row.route for row in self.rows.values()), 44)
        self.closed.add(number)
        return [f"arc {number} closed"]

    def reopen(self, number):
        """Reopen a closed arc."""
        check(self.has_arc(number), 42)
        check(number in self.closed, 45)
        self.closed.remove(number)
        return [f"arc {number} reopened"]

    def free(self, number):
        """Tell the free capacity of an arc."""
        if not self.has_arc(number):
            raise NotCarriedOut(f"no arc {number}")
        return [f"arc {number} free {self.free_capacity(number)}"]


# The cases.


def read_enquiry(words):
    """The enquiry that an order gives, such as: 0 3 width 1 delay 8 jitter 10 charge 20 hops 15 wanted 3 by weight."""
    named = dict(zip(words[2::2], words[3::2]))
    limits = {kind: int(named[kind]) for kind in LIMITED_KINDS}
    notebook = int(named.get("notebook", MOST_LINES))
    return Enquiry(int(words[0]), int(words[1]), int(named["width"]), limits, int(named["wanted"]), named["by"], notebook)


def carry_out(ledger, order):
    """The answer to one order on a ledger, as lines; Refused or NotCarriedOut where it is not granted."""
    name, *words = order.split()
    if name == "enquire":
        return ledger.enquire(read_enquiry(words))
    if name == "hold":
        return ledger.hold(int(words[0]), tuple(map(int, words[1].split("-"))))
    call = {"confirm": ledger.confirm, "let-go": ledger.let_go, "end": ledger.end,
            "close": ledger.close, "reopen": ledger.reopen, "free": ledger.free}[name]
    return call(int(words[0]))


def print_closing_line(ledger, counted):
    """Print what the orders on one ledger came to."""
    print(f"orders {counted['orders']}, granted {counted['granted']}, refused {counted['refused']}, "
          f"not carried out {counted['not carried out']}, circuits booked {counted['booked']}, "
          f"slips let go {ledger.slips_in_hand()}")


def print_answers(text):
    """Print the answers to all cases of a file."""
    ledger, counted = None, None
    for line_number, line in enumerate(text.split("\n"), start=1):
        order = line.split("#")[0].strip()
        if not order:
            continue
        if order.startswith("network"):
            if ledger is not None:
                print_closing_line(ledger, counted)
            ledger, counted = Ledger(*read_sheet(order.split()[1])), collections.Counter()
            print(f"{line_number}: network of {ledger.sites} sites, {len(ledger.arcs)} arcs")
            continue
        counted["orders"] += 1
        try:
            answer = carry_out(ledger, order)
            counted["granted"] += 1
            counted["booked"] += order.startswith("confirm")
        except Refused as refused:
            answer = [f"refused {refused.number} {refused}"]
            counted["refused"] += 1
        except NotCarriedOut as reason:
            answer = [str(reason)]
            counted["not carried out"] += 1
        print(f"{line_number}: " + "\n".join(answer))
    if ledger is not None:
        print_closing_line(ledger, counted)


if __name__ == "__main__":
    print_answers(sys.stdin.read())
