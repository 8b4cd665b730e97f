#!/usr/bin/env python3
"""What `ncroute-ctl status json` answers, as Prometheus reads it: ncroute-ctl status json | monitor.py"""
import json
import sys

status = json.load(sys.stdin)
uses = [(link["node"], way, link[way]) for link in status["links"] for way in ("import", "export") if link[way]]
print(f'ncroute_info{{version="{status["version"]}",domain="{status["domain"] or ""}"}} 1')
for name in ("up", "entries", "forgotten", "saved", "segments", "bytes"):
    print(f"ncroute_{name} {status[name] or 0}")
for name in ("up", "sessions", "received", "sent", "waiting"):
    for link in status["links"]:
        print(f'ncroute_link_{name}{{node="{link["node"]}"}} {int(link["state"] == "up") if name == "up" else link[name]}')
for name in ("accepted", "rejected", "budget"):
    for node, way, used in uses:
        print(f'ncroute_filter_{name}{{node="{node}",direction="{way}",filter="{used["name"] or ""}"}} {used[name]}')
