"""A daemon on a LAN, of both levels, with keys, a prefix, a metric, a priority and an address, on 127.0.0.1.

The system's sockets record nothing that a clause could speak of, so what they do is tested: to whom datagrams go, from whom they are taken, how much of
each, at which address, and how long a second is.
"""
import re
import socket
import threading
import time

from limits import told
from serving import WORDS, free

LAN = (
    'system = "0000.0000.0001"\nareas = ["49.0001"]\nlevel = "L1L2"\nleak = true\narea_key = "00"\ndomain_key = "01"\n'
    '[[circuit]]\nkind = "lan"\nbind = "127.0.0.1:{0}"\npeers = ["127.0.0.1:{1}", "127.0.0.1:{2}"]\n'
    'metric = 20\npriority = 100\naddress = "10.0.0.1"\nkey = "00"\n[[prefix]]\nprefix = "10.0.3.0/24"\nmetric = 5\n'
)


def end_of(host="127.0.0.1"):
    end = socket.socket(socket.AF_INET, socket.SOCK_DGRAM)
    end.bind((host, 0))
    end.setblocking(False)
    return end


def heard(end):
    """What came to a socket."""
    came = []
    try:
        while True:
            came.append(end.recv(4096).hex())
    except BlockingIOError:
        return came


def lan(run):
    """A LAN of two peers, with keys: each gets all that the journal has as sent, and nobody else; what peers send is taken, of each datagram the first
    2,048 octets; a stranger's and what comes to another address isn't; and seconds are seconds."""
    one, two, stranger, port = end_of(), end_of(), end_of(), free(1)[0]
    places = [port, *(end.getsockname()[1] for end in (one, two))]
    ends, began = [], time.monotonic()
    daemon = threading.Thread(target=lambda: ends.append(run(WORDS[:-1] + ["5"], LAN.format(*places))))
    daemon.start()
    time.sleep(1)
    one.sendto(b"A" * 2000, ("127.0.0.1", port))
    two.sendto(b"B" * 3000, ("127.0.0.1", port))
    stranger.sendto(b"S" * 100, ("127.0.0.1", port))
    one.sendto(b"C" * 100, ("127.0.0.2", port))
    daemon.join()
    lasted, ended = time.monotonic() - began, ends[0]
    sent = [octets for line in ended.output.splitlines() if " -> send" in line for octets in line.split(" -> send")[1].split()]
    taken = [(octets[:2], len(octets) // 2) for octets in re.findall(r"(?m)^\d+ 1 take 1 ([0-9a-f]+) -> ", ended.output)]
    yield "a LAN", told(ended, 0)
    yield "both peers get all", None if sent and heard(one) == sent == heard(two) else f"{len(sent)} datagrams sent"
    yield "a stranger gets nothing", None if not heard(stranger) else "a stranger got something"
    yield "what peers send", None if sorted(taken) == [("41", 2000), ("42", 2048)] else f"taken {taken}"
    yield "five seconds", None if ended.output.count(" second -> ") == 5 and 4.5 < lasted < 9 else f"{lasted:.1f} s"
    for end in (one, two, stranger):
        end.close()
