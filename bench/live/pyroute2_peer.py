"""`pyroute2_peer.py HOW links|routes SECONDS`: the reader of bench/run-live by pyroute2, as `reader.c`.

It reads the value of each attribute, which pyroute2 decodes only then.
"""

import resource
import sys
import time

from pyroute2 import IPRoute


def read_list(is_links):
    """The messages and the attributes of a list."""
    messages = attributes = 0
    with IPRoute() as route:
        for message in route.get_links() if is_links else route.get_routes(family=2):
            messages += 1
            for _name, _value in message["attrs"]:
                attributes += 1
    return messages, attributes


def used():
    now = resource.getrusage(resource.RUSAGE_SELF)
    return now.ru_utime, now.ru_stime, time.monotonic()


def main(_how, name, seconds):
    before, times = used(), 0
    while times == 0 or time.monotonic() - before[2] < float(seconds):
        counts = read_list(name == "links")
        times += 1
    took = [(after - begin) / times for after, begin in zip(used(), before)]
    print(*counts, 0, *(f"{it:.9f}" for it in took))


if __name__ == "__main__":
    main(*sys.argv[1:])
