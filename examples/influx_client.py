#!/usr/bin/python3
"""Writes into a node over HTTP with InfluxDB's own client for Python, and checks what a fetch then answers.

usage: influx_client.py PROGRAM

Starts PROGRAM, a built rr. The client is Debian's package python3-influxdb, which /usr/bin/python3 has.
"""

import sys
import tempfile
import time

from http_node import Node, check

try:
    from influxdb import InfluxDBClient
    from influxdb.exceptions import InfluxDBClientError
except ImportError:
    sys.exit("influx_client.py: there is no client: install python3-influxdb")

MINUTE = 60_000_000_000


def point(time_, **fields):
    """A point of one series or more, as the client takes it: whole numbers are written as integers."""
    return {"measurement": "boiler", "tags": {"site": "north wing"}, "time": time_, "fields": fields}


def refusal(client, points, **words):
    """The status and the text of a write that is refused."""
    try:
        client.write_points(points, **words)
    except InfluxDBClientError as error:
        return error.code, str(error.content).strip()
    return 204, ""


def main():
    if len(sys.argv) != 2:
        sys.exit(__doc__)
    first = int(time.time()) // 60 - 1000
    with tempfile.TemporaryDirectory() as folder:
        node = Node(sys.argv[1], folder)
        try:
            client = InfluxDBClient("127.0.0.1", node.http, database="any", timeout=30)
            written = [point((first + i) * MINUTE, temp=i, load=-i) for i in range(900)]
            check("900 points in batches of 100", client.write_points(written, batch_size=100), True)
            rows = f"cf=LAST&resolution=60&start={first * 60}&end={(first + 900) * 60}"
            for field, sign in (("temp", 1), ("load", -1)):
                key = rf"boiler,site=north\ wing {field}"
                status, text = node.curl(f"/fetch?{rows}&key=boiler,site=north%5C%20wing%20{field}")
                want = "".join(f'"{key}",{(first + i) * 60},{sign * i}\n' for i in range(900))
                check(f"the rows of {field}", (status, text.strip()), (200, want.strip()))
            check("a number with a point", refusal(client, [point(first * MINUTE, temp=7.5)]),
                  (400, '{"error":"partial write: line 1: FloatField; points 0 samples 0 refused 1"}'))
            check("another precision", refusal(client, [point(first * 60, temp=1)], time_precision="s"),
                  (400, '{"error":"the precision of this node is ns"}'))
            node.is_well("at the end")
        finally:
            node.kill()


if __name__ == "__main__":
    main()
