#!/usr/bin/env python3
"""Prints the cases that the program `listings` and the brute force of lister.py are compared on.

    make_cases.py > CASES

The cases are the same at every run, since all chance comes from one fixed seed. First come networks made for a purpose, with
orders written out or drawn by chance, then networks drawn by chance. Every order is also carried out on the ledger of
lister.py while the cases are made, so that later orders can use the tickets given, the routes listed and the line counts.
"""
import random
import sys

sys.dont_write_bytecode = True
import lister

SEED = 20240817
GREATEST = 4294967295
KINDS = ("weight", "delay", "jitter", "charge", "hops", "width")
MOST_PARTIAL_ROUTES = 20000  # what the brute force may have to enumerate for an enquiry drawn by chance

chance = random.Random(SEED)


# Writing networks and orders.


def sheet_of(sites, arcs):
    """The sheet of a network, in hexadecimal."""
    bits = f"{sites:07b}{len(arcs):09b}"
    for arc in arcs:
        bits += "".join(f"{figure:0{width}b}" for figure, width in zip(arc, (6, 6, 12, 12, 10, 10, 8)))
    return "".join(f"{int(bits[place:place + 8], 2):02x}" for place in range(0, len(bits), 8))


class Story:
    """One network with its orders: prints each line, and keeps a ledger on which the orders are carried out."""

    def __init__(self, purpose, sites, arcs):
        print(f"\n# {purpose}")
        sheet = sheet_of(sites, arcs)
        print(f"network {sheet}")
        self.ledger = lister.Ledger(*lister.read_sheet(sheet))
        self.routes = []  # the routes of the last answered enquiry that had any
        self.last_enquiry = None

    def order(self, text, comment=None):
        """Print an order and carry it out."""
        print(text if comment is None else f"{text}  # {comment}")
        try:
            answer = lister.carry_out(self.ledger, text)
        except (lister.Refused, lister.NotCarriedOut):
            return
        if text.startswith("enquire"):
            self.last_enquiry = text
            if len(answer) > 1:
                self.routes = [tuple(map(int, row.split()[0].split("-"))) for row in answer[1:]]

    def orders(self, *texts):
        """Print several orders and carry them out."""
        for text in texts:
            self.order(text)


def enquire(source, destination, width, delay, jitter, charge, hops, wanted, kind, notebook=None):
    """The text of an enquiry."""
    text = (f"enquire {source} {destination} width {width} delay {delay} jitter {jitter} charge {charge} hops {hops} "
            f"wanted {wanted} by {kind}")
    return text if notebook is None else f"{text} notebook {notebook}"


def enquire_freely(source, destination, wanted, kind, width=1, hops=15, notebook=None):
    """The text of an enquiry whose limits on delay, jitter and charge keep nothing out."""
    return enquire(source, destination, width, GREATEST, GREATEST, GREATEST, hops, wanted, kind, notebook)


# Enquiries drawn by chance.


def greatest_hops(arcs, source, destination, width):
    """The greatest hop limit, at most 15, with which there are few enough partial routes for the brute force."""
    level, count = [(source,)], 1
    for hops in range(1, 16):
        level = [met + (arc.end,) for met in level if met[-1] != destination
                 for arc in arcs if arc.start == met[-1] and arc.end not in met and arc.capacity >= width]
        count += len(level)
        if count > MOST_PARTIAL_ROUTES:
            return hops - 1
    return 15


def draw_width(arcs):
    """A width: mostly 1, else a capacity now free or a little more or less, or more than any arc has."""
    draw = chance.random()
    if draw < 0.55 or not arcs:
        return 1
    if draw < 0.96:
        return max(1, chance.choice(arcs).capacity + chance.choice((-1, 0, 0, 0, 1)))
    return chance.choice((255, 256, 300, GREATEST))


def draw_limits(arcs, route):
    """Limits on delay, jitter, charge and hops: about what a route comes to, or loose; sometimes one that is just missed."""
    tightness = chance.choice((0, 0, 0.3, 0.6, 1))
    limits = {}
    for kind in lister.LIMITED_KINDS:
        total = lister.total(kind, arcs, route)
        if chance.random() < tightness:
            limits[kind] = total + chance.choice((0, 0, 0, 1, 2))
        else:
            limits[kind] = chance.choice((2 * total + 3, 70000, GREATEST))
    if chance.random() < 0.2:
        missed = chance.choice(lister.LIMITED_KINDS)
        limits[missed] = max(0, lister.total(missed, arcs, route) - 1)
    return limits


def draw_wanted():
    """A wanted number of routes."""
    return chance.choice((1, 2, 3, 5, 8, chance.randint(1, 32), 31, 32, 32))


def add_notebook(story, text):
    """The enquiry with a notebook: often none is named, else it is mostly about as long as the line count."""
    draw = chance.random()
    if draw < 0.5:
        return text
    try:
        answer = lister.carry_out(story.ledger, text)
    except lister.Refused:
        return f"{text} notebook {chance.choice((4096, 5000))}"
    lines = int(answer[0].split()[2])
    if draw < 0.75:
        return f"{text} notebook {lines}"
    if draw < 0.87:
        return f"{text} notebook {max(0, lines - 1)}"
    return f"{text} notebook {chance.choice((0, 1, lines // 2, lines + 1, 4096, 5000, GREATEST))}"


def add_enquiry(story, ends=None):
    """Add an enquiry drawn by chance, between the two sites given or any two; sometimes the last one again."""
    if story.last_enquiry and chance.random() < 0.1:
        story.order(story.last_enquiry)
        return
    arcs = story.ledger.shown_arcs()
    width = draw_width(arcs)
    for _ in range(5):  # two sites between which there is no route are mostly drawn again
        source, destination = ends or chance.sample(range(story.ledger.sites), 2)
        hops = greatest_hops(arcs, source, destination, width)
        routes = [partial for partial in lister.partial_routes(arcs, source, destination, width, hops)
                  if lister.end_of(arcs, partial, source) == destination]
        if routes or chance.random() < 0.1:
            break
    limits = draw_limits(arcs, chance.choice(routes or [()]))
    limits["hops"] = max(1, min(hops, limits["hops"]))
    text = enquire(source, destination, width, limits["delay"], limits["jitter"], limits["charge"], limits["hops"],
                   draw_wanted(), chance.choice(KINDS))
    story.order(add_notebook(story, text))


def add_refused_enquiry(story):
    """Add an enquiry that fails one of the checks 20 to 24, and often later ones too."""
    sites = story.ledger.sites
    first = chance.choice((20, 21, 22, 23, 24))
    faults = [first] + [later for later in range(first + 1, 25) if chance.random() < 0.3]
    source, destination = chance.sample(range(sites), 2)
    if 20 in faults:
        beyond = chance.choice((sites, sites + 1, 64, 255, GREATEST))
        source, destination = chance.choice(((beyond, destination), (source, beyond), (beyond, beyond)))
    elif 21 in faults:
        destination = source
    width = 0 if 22 in faults else 1
    hops = chance.choice((0, 16, 17, GREATEST)) if 23 in faults else 3
    wanted = chance.choice((0, 33, 64, GREATEST)) if 24 in faults else 2
    notebook = chance.choice((None, 0, 10))
    story.order(enquire(source, destination, width, 9, 9, 9, hops, wanted, chance.choice(KINDS), notebook))


# Ledger orders drawn by chance.


def draw_walk(arcs):
    """A row of arcs each of which begins where the one before it ends; it may meet a site twice."""
    walk = [chance.randrange(len(arcs))]
    for _ in range(chance.randint(0, 5)):
        onward = [number for number, arc in enumerate(arcs) if arc.start == arcs[walk[-1]].end]
        if not onward:
            break
        walk.append(chance.choice(onward))
    return walk


def add_hold(story):
    """Add a hold: mostly of a route that was listed, at a width that may be free; sometimes with some fault."""
    arcs = story.ledger.shown_arcs()
    if story.routes and chance.random() < 0.7:
        route = list(chance.choice(story.routes))
    elif arcs:
        route = draw_walk(arcs)
    else:
        route = [chance.choice((0, 1, GREATEST))]
    free = min((arcs[number].capacity for number in route if number < len(arcs)), default=1)
    width = chance.choice((1, 1, 1, max(1, free // 3), max(1, free), free + 1))
    if chance.random() < 0.3:
        fault = chance.choice(("no width", "shuffled", "no such arc", "too long", "twice over", "too wide"))
        if fault == "no width":
            width = 0
        elif fault == "shuffled":
            chance.shuffle(route)
        elif fault == "no such arc":
            route.insert(chance.randint(0, len(route)), chance.choice((len(arcs), len(arcs) + 1, 256, GREATEST)))
        elif fault == "too long":
            route = (route * 17)[:chance.choice((15, 16, 17))]
        elif fault == "twice over":
            route = (route + route)[:15]
        else:
            width = chance.choice((255, 256, GREATEST))
    story.order(f"hold {width} " + "-".join(map(str, route)))


def tickets_in(story, state):
    """The tickets of the rows in a state."""
    return [ticket for ticket, row in story.ledger.rows.items() if row.state == state]


def draw_ticket(story, state):
    """A ticket: mostly one of a row in the state, else any number near those given."""
    if tickets_in(story, state) and chance.random() < 0.8:
        return chance.choice(tickets_in(story, state))
    return chance.randint(0, story.ledger.tickets_given + 1)


def draw_arc(story, favoured):
    """The number of an arc: mostly a favoured one, sometimes one that there is not."""
    number_of_arcs = len(story.ledger.arcs)
    if favoured and chance.random() < 0.6:
        return chance.choice(sorted(favoured))
    if number_of_arcs == 0 or chance.random() < 0.1:
        return number_of_arcs + chance.choice((0, 0, 1, 300))
    return chance.randrange(number_of_arcs)


def add_ledger_order(story):
    """Add one order other than an enquiry."""
    name = chance.choice(("hold", "hold", "hold", "confirm", "let-go", "end", "close", "reopen", "free"))
    state = {"confirm": "held", "let-go": "held", "end": "booked"}.get(name)
    if state and not tickets_in(story, state) and chance.random() < 0.7:
        name = "hold"
    if name == "reopen" and not story.ledger.closed and chance.random() < 0.7:
        name = "close"
    in_listed_routes = {number for route in story.routes for number in route}
    in_rows = {number for row in story.ledger.rows.values() for number in row.route}
    if name == "hold":
        add_hold(story)
    elif state:
        story.order(f"{name} {draw_ticket(story, state)}")
    elif name == "reopen":
        story.order(f"{name} {draw_arc(story, story.ledger.closed)}")
    else:
        story.order(f"{name} {draw_arc(story, chance.choice((in_listed_routes, in_rows, story.ledger.closed)))}")


def add_orders(story, enquiries, others, ends=None):
    """Add so many enquiries and so many other orders, mixed by chance."""
    steps = ["enquiry"] * enquiries + ["other"] * others
    chance.shuffle(steps)
    for step in steps:
        if step == "enquiry":
            add_enquiry(story, ends)
        elif chance.random() < 0.07:
            add_refused_enquiry(story)
        else:
            add_ledger_order(story)


# Figures and shapes of networks. An arc is: from, to, weight, delay, jitter, charge, capacity.


def up_to(most):
    """A number drawn from 0 to the most."""
    return chance.randint(0, most)


def against(weight):
    """The figures of an arc of this weight, up to 9, where a light arc is slow and a heavy one is not steady."""
    return (weight, 9 - weight, weight // 3, 3 - weight // 3, 5 + weight)


# How the weight, delay, jitter, charge and capacity of an arc are drawn.
STYLES = {
    "all equal": lambda: (1, 1, 1, 1, 10),
    "all zero": lambda: (0, 0, 0, 0, 255),
    "zero or one": lambda: (up_to(1), up_to(1), up_to(1), up_to(1), up_to(3)),
    "small": lambda: (up_to(6), up_to(6), up_to(3), up_to(3), chance.choice((0, 1, 2, 5, 10))),
    "no weight": lambda: (0, 1 + up_to(4), up_to(2), 1 + up_to(8), 1 + up_to(19)),
    "no delay": lambda: (1 + up_to(4), 0, 0, up_to(2), 1 + up_to(19)),
    "up to the greatest": lambda: (up_to(4095), up_to(4095), up_to(1023), up_to(1023), up_to(255)),
    "weight against delay": lambda: against(up_to(9)),
}


def one_way(pairs, style):
    """One arc for every pair of sites."""
    return [pair + STYLES[style]() for pair in pairs]


def both_ways(pairs, style):
    """An arc each way for every pair of sites."""
    return one_way([ends for pair in pairs for ends in (pair, pair[::-1])], style)


def ring(sites):
    """The pairs of a ring."""
    return [(site, (site + 1) % sites) for site in range(sites)]


def line(sites):
    """The pairs of a line."""
    return [(site, site + 1) for site in range(sites - 1)]


def complete(sites):
    """All pairs of sites."""
    return [(low, high) for high in range(sites) for low in range(high)]


def grid(rows, columns):
    """The pairs of neighbours in a grid."""
    sites = range(rows * columns)
    across = [(site, site + 1) for site in sites if (site + 1) % columns != 0]
    down = [(site, site + columns) for site in sites if site + columns in sites]
    return across + down


def drawn_pairs(sites, count):
    """So many pairs of different sites, drawn by chance; some come more than once."""
    return [tuple(chance.sample(range(sites), 2)) for _ in range(count)]


# The networks.


def sample():
    """The sample network, with the answers that the documents give."""
    story = Story("The sample network of the documents, with the enquiries worked through there.", 4, [
        (0, 1, 2, 3, 1, 5, 10), (0, 2, 4, 1, 1, 2, 10), (1, 3, 2, 6, 2, 5, 4),
        (2, 3, 1, 1, 1, 2, 10), (1, 2, 1, 1, 1, 1, 10), (2, 1, 1, 1, 1, 1, 10)])
    for wanted, lines in ((3, 8), (1, 5), (2, 7)):
        story.order(enquire(0, 3, 1, 8, 10, 20, 15, wanted, "weight"), f"{wanted} routes and {lines} lines")
    story.order(enquire(0, 3, 1, 7, 10, 20, 15, 3, "weight"), "two routes and 7 lines")
    story.order(enquire(0, 3, 1, 8, 10, 20, 15, 3, "width"), "three routes, of widths 10, 10 and 4")
    for notebook in (7, 8, 0, 4096, 5000):
        story.order(enquire(0, 3, 1, 8, 10, 20, 15, 3, "weight", notebook))
    for kind in KINDS:
        story.orders(enquire_freely(0, 3, 32, kind), enquire_freely(0, 3, 2, kind, hops=2), enquire_freely(2, 1, 3, kind))
    story.orders("free 1", "hold 10 1-3", "free 1", "free 2", "free 9")
    story.order(enquire(0, 3, 1, 8, 10, 20, 15, 3, "weight"), "no route, and no line either")
    story.orders("close 1", "confirm 7", "confirm 1", "confirm 1", "let-go 1", "close 3", "end 1", "end 1", "end 2",
                 "close 1", "close 1", "free 1", enquire(0, 3, 1, 8, 10, 20, 15, 3, "weight"), "hold 1 1-3",
                 "reopen 1", "reopen 1", "reopen 6", "close 6", "close 4294967295")
    story.orders("hold 0 9", "hold 1 6", "hold 1 0-4294967295", "hold 1 0-3", "hold 1 4-5", "hold 1 0-4-5-2",
                 "hold 5 0-2", "hold 256 0-4-3", "hold 4 0-2", "hold 1 0-2", "hold 6 0-4-3", "hold 1 0-4-3",
                 "hold 1 0-1-2-3-4-5-0-1-2-3-4-5-0-1-2-3", "hold 1 9-1-2-3-4-5-0-1-2-3-4-5-0-1-2-3",
                 "hold 0 9-1-2-3-4-5-0-1-2-3-4-5-0-1-2-3",
                 "hold 1 9-0-3", "hold 99 0-5-4", "hold 99 4-5", "let-go 2", "let-go 2", "end 3", "confirm 3", "end 3")
    story.orders(enquire(4, 3, 0, 8, 10, 20, 0, 0, "hops"), enquire(0, 4, 1, 8, 10, 20, 15, 3, "weight"),
                 enquire(4, 4, 1, 8, 10, 20, 15, 3, "weight"), enquire(3, 3, 0, 8, 10, 20, 15, 3, "charge"),
                 enquire(0, 3, 0, 8, 10, 20, 16, 3, "delay"), enquire(0, 3, 1, 8, 10, 20, 0, 0, "jitter"),
                 enquire(0, 3, 1, 8, 10, 20, 16, 3, "width"), enquire(0, 3, 1, 8, 10, 20, 15, 0, "weight", 0),
                 enquire(0, 3, 1, 8, 10, 20, 15, 33, "weight", 0), enquire(0, 3, 1, 8, 10, 20, 15, 32, "weight", 0))
    add_orders(story, 4, 8)


def smallest():
    """Networks with no arcs, with one arc and with arcs of capacity 0."""
    story = Story("Two sites and no arcs.", 2, [])
    story.orders(enquire_freely(0, 1, 1, "weight"), enquire_freely(1, 0, 32, "width", notebook=0), "hold 1 0", "close 0",
                 "reopen 0", "free 0", "end 1", "confirm 1")
    add_refused_enquiry(story)
    story = Story("Twelve sites and no arcs.", 12, [])
    add_orders(story, 4, 6)
    story = Story("Two sites and one arc.", 2, [(0, 1, 3, 4, 5, 6, 7)])
    story.orders(enquire_freely(0, 1, 1, "weight"), enquire_freely(1, 0, 1, "weight"),
                 enquire(0, 1, 7, 4, 5, 6, 1, 1, "width"), enquire(0, 1, 8, 4, 5, 6, 1, 1, "width"),
                 enquire(0, 1, 7, 3, 5, 6, 1, 1, "weight"), enquire(0, 1, 7, 4, 4, 6, 1, 1, "weight"),
                 enquire(0, 1, 7, 4, 5, 5, 1, 1, "weight"),
                 enquire_freely(0, 1, 1, "hops", notebook=2), enquire_freely(0, 1, 1, "hops", notebook=1),
                 enquire_freely(0, 1, 1, "hops", notebook=0), enquire_freely(0, 1, 1, "hops", width=256, notebook=0))
    add_orders(story, 6, 12)
    story = Story("Arcs of capacity 0, which are usable at no width.", 3, [
        (0, 1, 1, 1, 1, 1, 0), (1, 2, 1, 1, 1, 1, 5), (0, 2, 9, 9, 9, 9, 0), (2, 0, 0, 0, 0, 0, 0), (0, 1, 2, 2, 2, 2, 5)])
    story.orders(*(enquire_freely(0, 2, 3, kind) for kind in KINDS))
    add_orders(story, 6, 12)


def parallel_arcs():
    """Networks with many arcs between the same sites."""
    story = Story("Forty parallel arcs, all alike, and as many routes of the same length.", 2, [(0, 1, 1, 1, 1, 1, 9)] * 40)
    story.orders(*(enquire_freely(0, 1, wanted, kind) for wanted, kind in zip((1, 5, 31, 32, 32, 32), KINDS)))
    story.orders(enquire_freely(0, 1, 32, "weight", notebook=41), enquire_freely(0, 1, 32, "weight", notebook=40))
    add_orders(story, 2, 10)
    story = Story("Parallel arcs on three stages, with weight set against delay.", 4,
                  [(stage, stage + 1) + against(weight) for stage in range(3) for weight in (7, 0, 4, 9, 2)])
    add_orders(story, 14, 10, ends=(0, 3))
    story = Story("Parallel arcs on five stages, with weight set against delay.", 6,
                  [(stage, stage + 1) + against(weight) for stage in range(5) for weight in (5, 0, 8, 3)])
    for kind, delay, jitter, charge in zip(KINDS, (99, 25, 20, 99, 12, 22), (7, 6, 7, 4, 9, 7), (7, 10, 8, 11, 7, 8)):
        story.order(enquire(0, 5, 1, delay, jitter, charge, 5, 32, kind))
    add_orders(story, 12, 8, ends=(0, 5))
    story = Story("Parallel arcs both ways round a ring of five sites; the figures: zero or one.", 5,
                  both_ways(ring(5) * 2, "zero or one"))
    add_orders(story, 12, 10)


def rings_and_lines():
    """Rings, and lines long enough to meet the limit on hops."""
    for sites, style in ((3, "all equal"), (7, "small")):
        story = Story(f"A ring of {sites} sites, both ways; the figures: {style}.", sites, both_ways(ring(sites), style))
        add_orders(story, 8, 10)
    story = Story("A ring of 12 sites, one way; the figures: all equal.", 12, one_way(ring(12), "all equal"))
    story.orders(enquire_freely(0, 11, 2, "weight"), enquire_freely(11, 0, 2, "weight"))
    add_orders(story, 6, 10)
    story = Story("A line of 17 sites: a route of 15 arcs can be listed and held, one of 16 cannot.", 17,
                  one_way(line(17), "all equal") + [(site + 1, site, 0, 0, 0, 0, 10) for site in range(16)])
    fifteen = "-".join(map(str, range(15)))
    story.orders(enquire_freely(0, 15, 2, "weight"), enquire_freely(0, 16, 2, "weight"), enquire_freely(1, 16, 2, "width"),
                 enquire_freely(0, 15, 2, "hops", hops=14), enquire(0, 15, 1, 15, 15, 15, 15, 1, "delay"),
                 enquire(0, 15, 1, 14, 15, 15, 15, 1, "delay"), enquire_freely(16, 1, 3, "charge"),
                 enquire_freely(16, 0, 3, "charge"), f"hold 4 {fifteen}", f"hold 4 {fifteen}-15", f"hold 7 {fifteen}",
                 f"hold 1 {fifteen}", "free 14", "free 15", "confirm 1", "end 1", enquire_freely(0, 15, 1, "width"),
                 "let-go 2")
    add_orders(story, 6, 8)
    story = Story("A line of 17 sites with a few short cuts, so that routes of 15 arcs and of fewer reach the end.", 17,
                  one_way(line(17) + [(0, 2), (4, 7), (14, 16), (3, 2)], "all equal"))
    story.orders(*(enquire_freely(0, 16, 32, kind) for kind in KINDS))
    story.orders(*(enquire_freely(0, 16, 32, "weight", hops=hops) for hops in (11, 12, 13, 14)))
    add_orders(story, 6, 8, ends=(0, 16))


def dense():
    """Complete graphs and grids."""
    for sites, style in ((4, "all zero"), (5, "all equal"), (5, "small"), (6, "zero or one"), (6, "weight against delay"),
                         (6, "up to the greatest"), (7, "weight against delay")):
        story = Story(f"A complete graph of {sites} sites; the figures: {style}.", sites, both_ways(complete(sites), style))
        add_orders(story, 12, 11)
    for rows, columns, style in ((3, 3, "all equal"), (3, 4, "no weight")):
        story = Story(f"A grid of {rows} by {columns} sites, both ways; the figures: {style}.", rows * columns,
                      both_ways(grid(rows, columns), style))
        story.orders(enquire_freely(0, rows * columns - 1, 32, "weight", hops=8))
        add_orders(story, 12, 10)


def traps():
    """Networks in which a partial route looks as if it could go on, and cannot."""
    story = Story("Arcs into the source and out of the destination, with nothing on them, which no route uses.", 5, [
        (1, 0, 0, 0, 0, 0, 255), (2, 0, 0, 0, 0, 0, 255), (4, 3, 0, 0, 0, 0, 255), (4, 1, 0, 0, 0, 0, 255),
        (0, 1, 5, 2, 1, 1, 9), (1, 2, 5, 2, 1, 1, 9), (2, 4, 5, 2, 1, 1, 9), (0, 3, 9, 1, 1, 1, 8), (3, 4, 9, 1, 1, 1, 8),
        (4, 0, 0, 0, 0, 0, 255)])
    story.orders(*(enquire_freely(0, 4, 32, kind) for kind in KINDS))
    add_orders(story, 8, 12, ends=(0, 4))
    story = Story("A blind alley: from sites 2 and 3 the only way to the destination goes back over site 1.", 5, [
        (0, 1, 0, 0, 0, 0, 9), (1, 2, 0, 0, 0, 0, 9), (2, 3, 0, 0, 0, 0, 9), (3, 1, 0, 0, 0, 0, 9), (1, 4, 1, 1, 1, 1, 9),
        (2, 1, 0, 0, 0, 0, 9), (0, 4, 1, 1, 1, 1, 9)])
    for kind in KINDS:
        story.orders(enquire_freely(0, 4, 1, kind), enquire_freely(0, 4, 32, kind), enquire_freely(0, 4, 32, kind, hops=4))
    add_orders(story, 4, 8, ends=(0, 4))
    story = Story("Limits that a partial route meets one by one and no route meets together.", 4, [
        (0, 1, 1, 0, 4, 2, 9), (0, 1, 1, 4, 0, 2, 9), (1, 2, 1, 0, 4, 2, 9), (1, 2, 1, 4, 0, 2, 9), (2, 3, 1, 0, 4, 0, 9),
        (2, 3, 1, 4, 0, 9, 9)])
    for delay, jitter in ((0, 0), (4, 4), (4, 8), (8, 4), (12, 0), (0, 12), (11, 0), (8, 8)):
        story.order(enquire(0, 3, 1, delay, jitter, 20, 15, 32, "weight"))
    add_orders(story, 6, 6, ends=(0, 3))
    story = Story("Two islands: no way from one to the other.", 8, both_ways(complete(4), "all equal") +
                  both_ways([(low + 4, high + 4) for low, high in complete(4)], "all equal"))
    story.orders(enquire_freely(0, 7, 3, "weight"), enquire_freely(0, 7, 3, "weight", notebook=0),
                 enquire_freely(4, 7, 3, "hops"))
    add_orders(story, 8, 10)
    story = Story("One island is reached from the other, but not the other way.", 6,
                  both_ways(complete(3) + [(3, 4), (4, 5)], "small") + one_way([(1, 3), (2, 5)], "all equal"))
    add_orders(story, 10, 10)


def many_lines():
    """Enquiries whose line counts are at and above 4,096."""
    stages = [(stage, stage + 1, 1, 0, 0, 0, 9) for stage in range(11) for _ in range(2)]
    last_stage = [(11, 12, 1, 1, 0, 0, 9), (11, 12, 1, 0, 1, 0, 9)]  # with no delay and no jitter allowed, neither will do
    direct = [(0, 12, 50, 0, 0, 0, 9)] * 2  # arcs 24 and 25
    story = Story("Eleven stages of two arcs and a last one that no route passes: 4,095 lines, and one more for each of two "
                  "direct arcs.", 13, stages + last_stage + direct)
    ask = enquire(0, 12, 1, 0, 0, 0, 15, 32, "weight")
    story.orders(ask, f"{ask} notebook 4097", f"{ask} notebook 5000",
                 "close 24", ask, f"{ask} notebook 4096", f"{ask} notebook 4095", f"{ask} notebook 5000",
                 "close 25", f"{ask} notebook 4095", f"{ask} notebook 4094", "reopen 24", "reopen 25",
                 enquire(0, 12, 1, 0, 0, 0, 15, 32, "width"), enquire(0, 12, 1, 0, 0, 0, 15, 1, "hops"),
                 enquire(0, 12, 1, 0, 0, 0, 11, 2, "weight"), enquire(0, 12, 1, 0, 0, 0, 12, 2, "delay", 5000),
                 enquire(0, 12, 1, 0, 1, 0, 15, 32, "weight"), "hold 9 0", ask, "confirm 1")
    story = Story("Fourteen stages of two arcs, quick or steady: half of each must do, so many lines are written in vain.", 15,
                  [(stage, stage + 1, 1, steady, 1 - steady, 1, 9) for stage in range(14) for steady in (0, 1)])
    for delay, jitter in ((7, 6), (5, 8), (6, 6), (7, 7), (3, 10), (2, 11), (1, 12), (0, 14)):
        story.order(enquire(0, 14, 1, delay, jitter, 14, 14, 32, "weight", chance.choice((None, 5000, GREATEST))))
    story.order(enquire_freely(0, 14, 32, "delay"))
    add_orders(story, 0, 6)


def largest():
    """The greatest numbers of sites and arcs, and the greatest figures."""
    pairs = [(site, (site + step) % 64) for step in (1, 63, 7, 30) for site in range(64)]
    story = Story("The greatest number of sites and of arcs, and figures up to the greatest.", 64,
                  one_way(pairs, "up to the greatest"))
    story.orders(enquire_freely(63, 30, 3, "weight", hops=5), enquire_freely(62, 29, 32, "width", width=9, hops=5),
                 enquire_freely(0, 63, 4, "delay", hops=6), enquire_freely(64, 0, 3, "weight"), "close 255", "close 256",
                 "free 255", "hold 1 255-63", "reopen 255", "free 255", "hold 1 255-29")
    add_orders(story, 8, 10)
    story = Story("The greatest figures on every arc.", 4, [(start, end, 4095, 4095, 1023, 1023, 255)
                                                           for start in range(4) for end in range(4) if start != end])
    story.orders(*(enquire_freely(0, 3, 32, kind, width=255) for kind in KINDS))
    story.orders(enquire(0, 3, 255, 8190, 2046, 2046, 15, 32, "weight"),
                 enquire(0, 3, 255, 8189, 2046, 2046, 15, 32, "weight"),
                 enquire(0, 3, 256, 8190, 2046, 2046, 15, 32, "weight"), "hold 255 2", "free 2", "hold 1 2", "hold 256 1")
    add_orders(story, 6, 10)


def full_ledger():
    """A ledger whose 64 rows are all taken."""
    story = Story("A ledger of which every row is taken; what is let go or ended can be held again, under a new ticket.", 4, [
        (0, 1, 1, 1, 1, 1, 255), (1, 2, 1, 1, 1, 1, 255), (2, 3, 1, 1, 1, 1, 255), (0, 2, 5, 1, 1, 1, 100),
        (1, 3, 5, 1, 1, 1, 100)])
    for _ in range(64):
        route = chance.choice(("0", "1", "2", "0-1", "1-2", "0-1-2", "3", "4", "3-2"))
        story.order(f"hold {chance.randint(1, 2)} {route}")
    story.orders("hold 1 0", "hold 1 0-1-2", "hold 255 0", "hold 0 0", "hold 1 5", "close 0")
    story.orders(*(f"free {arc}" for arc in range(5)))
    story.orders("confirm 64", "confirm 1", "hold 1 0", "end 64", "hold 1 0-4", "hold 1 0-4", "let-go 64", "let-go 33",
                 "hold 1 3", "hold 1 3", "confirm 65", "end 1", "end 65", "hold 2 0-1", "hold 2 1-2", "hold 2 2", "free 0",
                 "free 3")
    for kind in KINDS:
        story.orders(enquire_freely(0, 3, 32, kind), enquire_freely(0, 3, 32, kind, width=100))
    for ticket in chance.sample(range(1, 69), 40):
        story.order(f"{chance.choice(('confirm', 'let-go', 'end'))} {ticket}")
    story.orders(*(enquire_freely(0, 3, 32, "width", width=width) for width in (1, 90, 180, 230, 255)))
    story.orders(*(f"free {arc}" for arc in range(6)))


def kept_routes():
    """The same enquiry again and again while arcs are closed, reopened and held."""
    story = Story("The same enquiry while arcs are closed one by one and reopened again.", 6, both_ways(complete(6), "small"))
    usable = [number for number, arc in enumerate(story.ledger.arcs) if arc.capacity >= 1]
    ask = enquire(0, 5, 1, 12, 9, 9, 5, 12, "weight")
    closings = chance.sample(usable, 8)
    story.order(ask)
    for arc in closings:
        story.orders(f"close {arc}", ask)
    for arc in closings[:4]:
        story.orders(f"reopen {arc}", ask)
    story = Story("The same enquiry by width while what it lists first is held, time after time.", 6,
                  [(low, high, 1, 1, 1, 1, 3 + (5 * low + high) % 9) for low, high in complete(6)])
    for _ in range(10):
        story.order(enquire_freely(0, 5, 6, "width"))
        story.order(f"hold 2 {'-'.join(map(str, story.routes[0]))}")
        story.order(f"free {story.routes[0][0]}")
    story.orders("confirm 1", "let-go 2", "end 1", enquire_freely(0, 5, 32, "width"),
                 enquire_freely(0, 5, 32, "width", width=4))


def drawn_networks():
    """Networks drawn by chance, in several styles of figures."""
    for sites, style, arcs_a_site in ((3, "small", 3), (5, "all equal", 3), (6, "small", 6), (7, "zero or one", 4),
                                      (8, "no weight", 3), (9, "weight against delay", 3), (10, "up to the greatest", 3),
                                      (11, "no delay", 3), (12, "small", 4)):
        story = Story(f"Drawn by chance: {sites} sites; the figures: {style}.", sites,
                      one_way(drawn_pairs(sites, sites * arcs_a_site), style))
        add_orders(story, 11, 11)


def main():
    """Print all cases."""
    print("# Cases for the program `listings`, printed by tests/make_cases.py. What it must answer is worked out by")
    print("# tests/lister.py; both files are written by tests/regenerate_listings.")
    for tell in (sample, smallest, parallel_arcs, rings_and_lines, dense, traps, many_lines, largest, full_ledger,
                 kept_routes, drawn_networks):
        tell()


if __name__ == "__main__":
    main()
