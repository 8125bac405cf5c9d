"""The states of a network that runs: at each all routers must hold the same, and have the routes of it."""
import time
from collections import Counter

import frr
from trials import until  # it adds tools/ to the path
import compare
from nets import Ours

# Seconds: until a state must be alike at all routers, and before the first look at it.
LIMIT, QUIET = 90, 8


class Trial:
    """A network that runs, and what was found of its states."""

    def __init__(self, net):
        self.net, self.states, self.lsps, self.routes, self.faults = net, 0, 0, 0, []

    def compare(self, what):
        """Waits until all databases and FRR's routes are alike at one look, and keeps what isn't so at the last look; then looks at the daemons' routes."""
        parts = []

        def is_alike():
            parts[:] = [compare.databases(self.net), compare.their_routes(self.net)]
            return not any(faults for _, faults in parts)

        frr.rest(QUIET)
        until(LIMIT, is_alike)
        parts.append(compare.our_routes(self.net))
        self.states, self.lsps, self.routes = self.states + 1, self.lsps + parts[0][0], self.routes + parts[1][0] + parts[2][0]
        self.faults += [f"{what}: {it}" for _, faults in parts for it in faults]


def flap(node, link, seconds):
    """A link that one end takes down and up each second, for so many seconds."""
    begun = time.monotonic()
    while time.monotonic() - begun < seconds:
        for state in ("down", "up"):
            node.net.batch(node.space, [f"link set dev {link.name} {state}"])
            frr.rest(0.5)
    node.net.batch(node.space, [f"addr replace {link.address(node)}/24 dev {link.name}"])


def drops_of(net):
    """For which causes the daemons dropped datagrams in their last boots, as words."""
    drops = sum((compare.Held(node).drops for node in net.each(Ours)), Counter())
    return ", ".join(f"{word} {count}" for word, count in sorted(drops.items())) or "none"
