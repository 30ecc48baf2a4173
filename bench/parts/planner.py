"""A slow and plain planner, and a server over it, which the scripts that judge the program share.

It follows the rules word by word and shares no code with the crates; the texts of replies are those
of the table in tools/lines.py. `Server` says what is replied to each command; `least_cost` is a
search by force; random networks, hoses and commands are drawn of a `random.Random`.
compare_planner.py tries it on rows that were worked out by hand.
"""
from collections import Counter
from itertools import combinations, product
from typing import NamedTuple

from lines import COMMANDS, ENDS, told

OPERATOR = "operator"  # who may take links out of service and put them back
CUSTOMERS = ("acme", "zeta", OPERATOR)
QUOTES = 16  # that a customer holds at most


class Link(NamedTuple):
    a: int
    b: int
    capacity: int
    length: int
    cost: int


class Network(NamedTuple):
    nodes: list  # of names
    links: list


class Vpn(NamedTuple):
    customer: str
    hose: list  # of (node, rate), ascending
    plan: list  # of (link, amount), ascending
    cost: int


class Quote(NamedTuple):
    hose: list
    epoch: int  # at which it was made
    kind: str  # of its plan
    plan: list
    cost: int
    grounds: object  # at that epoch


# ---- The planner.


def far_end(link, node):
    """The node that the link joins to this one; none where the link is not at it."""
    if node == link.a:
        return link.b
    if node == link.b:
        return link.a
    return None


def distances(network, over, root):
    """The least cost of a walk over these links from the root to each node, where there is one."""
    dist = [None] * len(network.nodes)
    dist[root] = 0
    settled = False
    while not settled:
        settled = True
        for number in over:
            link = network.links[number]
            for near, far in ((link.a, link.b), (link.b, link.a)):
                if dist[near] is None:
                    continue
                if dist[far] is None or dist[near] + link.cost < dist[far]:
                    dist[far] = dist[near] + link.cost
                    settled = False
    return dist


def weight(network, over, hose, root):
    """The sum of each endpoint's rate times its distance from the root, where all are reached."""
    dist = distances(network, over, root)
    if any(dist[node] is None for node, _ in hose):
        return None
    return sum(rate * dist[node] for node, rate in hose)


def best_root(network, over, hose):
    """The lowest node of least weight; none where no node reaches all endpoints."""
    best = least = None
    for node in range(len(network.nodes)):
        weighs = weight(network, over, hose, node)
        if weighs is not None and (least is None or weighs < least):
            best, least = node, weighs
    return best


def tight_link(network, over, dist, node):
    """The lowest link to a node nearer to the root by just the link's cost, and that node."""
    for number in sorted(over):
        link = network.links[number]
        near = far_end(link, node)
        if near is None or dist[near] is None:
            continue
        if dist[near] + link.cost == dist[node]:
            return number, near
    raise AssertionError("a node that is reached has no tight link")


def tree(network, over, hose, root):
    """The links on the endpoints' ways to the root."""
    dist = distances(network, over, root)
    links = set()
    for node, _ in hose:
        while node != root:
            number, node = tight_link(network, over, dist, node)
            links.add(number)
    return links


def reached(network, over, start):
    """The nodes that a walk over these links leads to."""
    dist = distances(network, over, start)
    return [node for node in range(len(network.nodes)) if dist[node] is not None]


def canonical_plan(network, over, hose):
    """What the hose reserves on the tree of its root, by links; none where there is no root."""
    root = best_root(network, over, hose)
    if root is None:
        return None
    links = tree(network, over, hose, root)
    total = sum(rate for _, rate in hose)
    plan = []
    for number in sorted(links):
        side = reached(network, links - {number}, network.links[number].a)
        rates = sum(rate for node, rate in hose if node in side)
        plan.append((number, min(rates, total - rates)))
    return plan


def free_rate(network, loads, number):
    return network.links[number].capacity - loads[number]


def fits(network, loads, plan):
    return all(amount <= free_rate(network, loads, number) for number, amount in plan)


def plan_cost(network, plan):
    return sum(network.links[number].cost * amount for number, amount in plan)


def in_service(network, out):
    """The links that are not out of service."""
    return frozenset(range(len(network.links))) - frozenset(out)


def safe_links(network, service, loads, hose):
    half = sum(rate for _, rate in hose) // 2
    return {number for number in service if free_rate(network, loads, number) >= half}


def allowed_links(network, service, loads, hose, kind):
    """The links over which a plan of this kind was made."""
    return service if kind == "first" else safe_links(network, service, loads, hose)


def decide(network, service, loads, hose):
    """`first` or `second` and the plan to admit the hose with; or `refused` and the side."""
    first = canonical_plan(network, service, hose)
    if first is not None and fits(network, loads, first):
        return "first", first
    safe = safe_links(network, service, loads, hose)
    second = canonical_plan(network, safe, hose)
    if second is None:
        return "refused", reached(network, safe, hose[0][0])
    assert fits(network, loads, second), "a plan over the safe links does not fit"
    return "second", second


def grounds(network, service, loads, hose):
    """The links in service, whether the first plan exists and fits, and the safe links where it
    does not."""
    first = canonical_plan(network, service, hose)
    if first is not None and fits(network, loads, first):
        return service, True, None
    return service, False, safe_links(network, service, loads, hose)


# ---- The search by force.


def matrices(hose):
    """All traffic within the rates: what each two endpoints send each other, both ways together."""
    pairs = list(combinations(range(len(hose)), 2))
    most = [min(hose[i][1], hose[j][1]) for i, j in pairs]
    for amounts in product(*(range(least + 1) for least in most)):
        sums = [0] * len(hose)
        for (i, j), amount in zip(pairs, amounts):
            sums[i] += amount
            sums[j] += amount
        if all(total <= rate for total, (_, rate) in zip(sums, hose)):
            yield dict(zip(pairs, amounts))


def trees(network, over, hose):
    """Every tree of these links that joins the hose, as a set of links."""
    for count in range(1, len(network.nodes)):
        for links in combinations(sorted(over), count):
            nodes = {network.links[number].a for number in links}
            nodes |= {network.links[number].b for number in links}
            one_part = set(reached(network, set(links), hose[0][0])) == nodes
            if one_part and len(nodes) == count + 1 and all(node in nodes for node, _ in hose):
                yield set(links)


def least_cost(network, over, hose):
    """What the cheapest tree of these links costs that carries all traffic within the rates."""
    traffic = list(matrices(hose))
    heaviest = {}  # the greatest load across a link, by the endpoints on its one side
    least = None
    for links in trees(network, over, hose):
        cost = 0
        for number in links:
            away = reached(network, links - {number}, network.links[number].a)
            side = tuple(node in away for node, _ in hose)
            if side not in heaviest:
                heaviest[side] = max(
                    sum(amount for (i, j), amount in matrix.items() if side[i] != side[j])
                    for matrix in traffic
                )
            cost += network.links[number].cost * heaviest[side]
        least = cost if least is None else min(least, cost)
    return least


# ---- The server: what it replies to each command.


def loads_of(network, live):
    """What these VPNs reserve on each link."""
    loads = [0] * len(network.links)
    for vpn in live:
        for number, amount in vpn.plan:
            loads[number] += amount
    return loads


def ends_of(network, hose):
    """The endpoints of a hose, with the names of their nodes."""
    return [(network.nodes[node], rate) for node, rate in hose]


def ends_text(network, hose):
    return pairs_text(ends_of(network, hose))


def link_told(network, number, load, is_out, epoch):
    """The reply that tells a link."""
    link = network.links[number]
    a, b = network.nodes[link.a], network.nodes[link.b]
    return told("LinkState", number, a, b, link.capacity, link.cost, load, is_out, epoch)


def refusal_told(network, side, epoch):
    return told("Refused", epoch, [network.nodes[node] for node in side])


def link_line(number, a, b, capacity, cost, load):
    """What an audit tells of a link: what the reply has before its epoch."""
    return told("LinkState", number, a, b, capacity, cost, load, False, 0)[:-len(" at 0")]


def audit_lines(network, epoch, live):
    """The audit of a book whose live VPNs stand by their numbers."""
    loads, lines = loads_of(network, live.values()), [f"epoch {epoch}"]
    for number, link in enumerate(network.links):
        a, b = network.nodes[link.a], network.nodes[link.b]
        lines.append(link_line(number, a, b, link.capacity, link.cost, loads[number]))
    for number, vpn in live.items():
        rest = f"ends {ends_text(network, vpn.hose)} links {pairs_text(vpn.plan)}"
        lines.append(f"vpn {number} {vpn.customer} cost {vpn.cost} {rest}")
    total = sum(load * link.cost for load, link in zip(loads, network.links))
    return lines + [f"live {len(live)} cost {total}"]


class Server:
    def __init__(self, network, by_force=False):
        self.network = network
        self.by_force = by_force
        self.epoch = 0
        self.live = {}  # VPNs by their numbers
        self.out = set()  # the links that are out of service
        self.quotes = {customer: {} for customer in CUSTOMERS}  # those held, by their numbers
        self.kinds = Counter()

    def service(self):
        return in_service(self.network, self.out)

    def loads(self):
        return loads_of(self.network, self.live.values())

    def ends_text(self, hose):
        return ends_text(self.network, hose)

    def refused(self, command, side):
        self.kinds[f"{command}, refused"] += 1
        return refusal_told(self.network, side, self.epoch)

    def cost(self, hose, kind, plan):
        """What the plan costs, or by force what none costs less than."""
        if not self.by_force:
            return plan_cost(self.network, plan)
        self.kinds["least cost by force"] += 1
        over = allowed_links(self.network, self.service(), self.loads(), hose, kind)
        return least_cost(self.network, over, hose)

    def enter(self, customer, hose, plan, cost):
        self.epoch += 1
        self.live[self.epoch] = Vpn(customer, hose, plan, cost)
        return told("Admitted", self.epoch, cost, self.epoch, plan)

    def admit(self, customer, hose, command="admit"):
        hose = sorted(hose)
        kind, found = decide(self.network, self.service(), self.loads(), hose)
        if kind == "refused":
            return self.refused(command, found)
        self.kinds[f"{command}, admitted with the {kind} plan"] += 1
        return self.enter(customer, hose, found, self.cost(hose, kind, found))

    def answer(self, customer, command, said):
        """The reply to a command, by the method of its name, to what its fields tell."""
        return getattr(self, command.replace("-", "_"))(customer, *said)

    def vpns_of(self, customer):
        """The numbers of the customer's live VPNs, in the order of admission."""
        return [number for number in self.live if self.of_customer(customer, number)]

    def vpns(self, customer):
        ids = self.vpns_of(customer)
        self.kinds[f"vpns, {'some' if ids else 'none'}"] += 1
        return told("Vpns", ids, self.epoch)

    def admit_after(self, customer, known, hose):
        newest = (self.vpns_of(customer) or [0])[-1]
        if newest != known:
            self.kinds["admit-after, newest"] += 1
            return told("Newest", newest, self.epoch)
        return self.admit(customer, hose, "admit-after")

    def quote(self, customer, hose):
        hose = sorted(hose)
        held, loads = self.quotes[customer], self.loads()
        free = [number for number in range(1, QUOTES + 1) if number not in held]
        if not free:
            self.kinds["quote, too many quotes"] += 1
            return told("TooMany", self.epoch)
        service = self.service()
        kind, found = decide(self.network, service, loads, hose)
        if kind == "refused":
            return self.refused("quote", found)
        self.kinds[f"quote, quoted with the {kind} plan"] += 1
        cost, rests_on = self.cost(hose, kind, found), grounds(self.network, service, loads, hose)
        held[free[0]] = Quote(hose, self.epoch, kind, found, cost, rests_on)
        return told("Quoted", free[0], cost, self.epoch, found)

    def take(self, customer, number):
        quote = self.quotes[customer].pop(number, None)
        if quote is None:
            self.kinds["take, no quote"] += 1
            return told("NoQuote", number, self.epoch)
        later = "" if quote.epoch == self.epoch else " after other entries"
        service, loads = self.service(), self.loads()
        rests_on = grounds(self.network, service, loads, quote.hose)
        if rests_on != quote.grounds:
            why = " by links in service alone" if rests_on[1:] == quote.grounds[1:] else ""
            self.kinds[f"take, stale{why}"] += 1
            return told("Stale", quote.epoch, self.epoch)
        decision = decide(self.network, service, loads, quote.hose)
        assert decision == (quote.kind, quote.plan), "equal grounds, and another decision"
        self.kinds[f"take, admitted with the {quote.kind} plan{later}"] += 1
        return self.enter(customer, quote.hose, quote.plan, quote.cost)

    def of_customer(self, customer, number):
        vpn = self.live.get(number)
        return vpn if vpn is not None and vpn.customer == customer else None

    def no_vpn(self, command, number):
        self.kinds[f"{command}, no vpn"] += 1
        return told("NoVpn", number, self.epoch)

    def release(self, customer, number):
        if self.of_customer(customer, number) is None:
            return self.no_vpn("release", number)
        self.kinds["release, released"] += 1
        self.epoch += 1
        del self.live[number]
        return told("Released", number, self.epoch)

    def show(self, customer, number):
        vpn = self.of_customer(customer, number)
        if vpn is None:
            return self.no_vpn("show", number)
        self.kinds["show, vpn"] += 1
        ends = ends_of(self.network, vpn.hose)
        return told("Shown", number, vpn.cost, self.epoch, ends, vpn.plan)

    def change(self, command, customer, number):
        """Takes a link out of service, `down`, or puts it back, `up`."""
        if number >= len(self.network.links):
            self.kinds[f"{command}, bad"] += 1
            return told("Bad", 3)
        if customer != OPERATOR:
            self.kinds[f"{command}, denied"] += 1
            return told("Denied", self.epoch)
        if (number in self.out) == (command == "down"):
            self.kinds[f"{command}, already"] += 1
            return told("Already", number, self.epoch)
        self.kinds[f"{command}, {command}"] += 1
        self.epoch += 1
        self.out ^= {number}
        return told(COMMANDS[command].entered, number, self.epoch)

    def down(self, customer, number):
        return self.change("down", customer, number)

    def up(self, customer, number):
        return self.change("up", customer, number)

    def link(self, customer, number):
        if number >= len(self.network.links):
            self.kinds["link, bad"] += 1
            return told("Bad", 3)
        is_out = number in self.out
        self.kinds[f"link, link{' out' if is_out else ''}"] += 1
        return link_told(self.network, number, self.loads()[number], is_out, self.epoch)


def pairs_text(plan):
    return " ".join(f"{number}:{amount}" for number, amount in plan)


# ---- Random networks and scripts.


class Size(NamedTuple):
    nodes: int
    links: int
    ends: int
    rate: int


COMPARED = Size(nodes=9, links=27, ends=5, rate=6)
FORCED = Size(nodes=6, links=9, ends=4, rate=3)


def random_network(draw, size):
    """Few nodes and costs, and little room.

    So there are cycles, parallel links and ties, and first plans often do not fit.
    """
    names = draw.sample("abcdefghijklmnopqrstuvwxyz", draw.randint(2, size.nodes))
    links = []
    for _ in range(draw.randint(len(names) - 1, min(3 * len(names), size.links))):
        a, b = draw.sample(range(len(names)), 2)
        length = draw.randint(1, 4)
        capacity, cost = draw.randint(1, 16), draw.choice((length, length, draw.randint(1, 4)))
        links.append(Link(a, b, capacity, length, cost))
    return Network(names, links)


def topology_lines(network):
    lines = [f"node {name}" for name in network.nodes]
    for link in network.links:
        line = f"link {network.nodes[link.a]} {network.nodes[link.b]} {link.capacity} {link.length}"
        lines.append(line if link.cost == link.length else f"{line} {link.cost}")
    return lines + ["end"]


def random_hose(draw, network, size):
    most = min(size.ends, len(network.nodes))
    nodes = draw.sample(range(len(network.nodes)), draw.randint(2, most))
    return [(node, draw.randint(1, size.rate)) for node in nodes]


def random_vpn(draw, server):
    """A customer and a number, mostly those of a live VPN."""
    if server.live and draw.random() < 0.8:
        number, vpn = draw.choice(list(server.live.items()))
        return vpn.customer, number
    return draw.choice(CUSTOMERS), draw.randint(0, server.epoch + 1)


def random_known(draw, server, customer):
    """What a customer knows as the newest own VPN, which it mostly is."""
    own = server.vpns_of(customer) or [0]
    if draw.random() < 0.7:
        return own[-1]
    return draw.choice((0, own[0], server.epoch, draw.randint(0, server.epoch + 1)))


def random_quote(draw, server):
    """A customer and a number, mostly those of a quote that is held."""
    held = [(name, number) for name in CUSTOMERS for number in sorted(server.quotes[name])]
    if held and draw.random() < 0.8:
        return draw.choice(held)
    return draw.choice(CUSTOMERS), draw.randint(0, QUOTES + 1)


def random_change(draw, server, kind):
    """A customer and a link for `down` or `up`, mostly the operator and one that is not so yet."""
    customer = OPERATOR if draw.random() < 0.85 else draw.choice(CUSTOMERS)
    links = {"up": sorted(server.out), "down": sorted(server.service())}
    wanted = kind if draw.random() < 0.9 else draw.choice(("up", "down"))
    if links[wanted] and draw.random() < 0.9:
        return customer, draw.choice(links[wanted])
    return customer, draw.randint(0, len(server.network.links))


# How often each command comes beside the others.
WEIGHTS = {
    "admit": 8, "admit-after": 4, "quote": 9, "take": 9, "release": 6, "show": 2, "vpns": 3,
    "link": 3, "down": 2, "up": 4,
}
HOARDING = {
    "admit": 1, "admit-after": 1, "quote": 40, "take": 2, "release": 2, "show": 1, "vpns": 1,
    "link": 1, "down": 1, "up": 1,
}


def random_weights(draw):
    return HOARDING if draw.random() < 0.1 else WEIGHTS


def random_command(draw, server, size, weights):
    """A line, and the reply to it."""
    customer = draw.choice(CUSTOMERS)
    kind = draw.choices(list(weights), list(weights.values()))[0]
    fields, said = COMMANDS[kind].fields, []
    if ENDS in fields:
        said.append(random_hose(draw, server.network, size))
    if "K" in fields:
        said.insert(0, random_known(draw, server, customer))
    if COMMANDS[kind].who == OPERATOR:
        customer, *said = random_change(draw, server, kind)
    elif fields == ("L",):
        said = [draw.randint(0, len(server.network.links))]
    elif fields == ("Q",):
        customer, *said = random_quote(draw, server)
    elif fields == ("ID",):
        customer, *said = random_vpn(draw, server)
    words = [server.ends_text(one) if isinstance(one, list) else str(one) for one in said]
    return " ".join([customer, kind, *words]), server.answer(customer, kind, said)


# ---- Small networks, for rows that were worked out by hand.

STAR = Network(list("abch"), [Link(0, 3, 10, 1, 1), Link(1, 3, 10, 2, 2), Link(2, 3, 10, 3, 3)])
RING = Network(list("yaxb"), [Link(a, b, 10, 1, 1) for a, b in ((1, 2), (2, 3), (1, 0), (0, 3))])
PARALLEL = Network(list("ab"), [Link(0, 1, 10, 1, 1), Link(0, 1, 10, 1, 1)])
APART = Network(list("abc"), [Link(0, 2, 10, 1, 1)])
TRIANGLE = Network(list("abc"), [Link(0, 1, 10, 1, 2), Link(2, 1, 10, 1, 2), Link(2, 0, 10, 9, 3)])
MESH = [Link(a, b, 10, 3, 3) for a in range(4) for b in range(a + 1, 4)]
HUB = Network(list("abcdh"), MESH + [Link(a, 4, 10, 2, 2) for a in range(4)])


def detour(capacity):
    long_way = [Link(0, 2, capacity, 2, 2), Link(2, 1, capacity, 2, 2)]
    return Network(list("abc"), [Link(0, 1, 4, 1, 1), *long_way])
