#!/usr/bin/env python3
"""filter_routes.py SIZE FILE < ROUTES: answers each line `PREFIX METRIC` by the filter of FILE, as `ncroute filter` does."""
import sys

from gomthau_filter import Filter, Refused


def main(size, path):
    with open(path, "rb") as it:
        source = it.read()
    try:
        filter = Filter(source, int(size))
    except Refused as why:
        print("refused", why.code, why.place)
        print(path, why, sep=":" if why.line else ": ", file=sys.stderr)
        return 1
    routes = [(prefix, int(metric)) for prefix, metric in map(str.split, sys.stdin)]
    with filter:
        for metric in filter.run_all(routes):
            print("reject" if metric is None else f"accept {metric}")
    return 0


if __name__ == "__main__":
    if len(sys.argv) != 3:
        sys.exit("usage: filter_routes.py SIZE FILE < ROUTES")
    sys.exit(main(*sys.argv[1:]))
