"""Sends what collectd reads to a node: a write plugin for collectd's Python plugin.

Counters, such as the bytes of an interface, are sent as rates per second, unless `StoreRates` is false. A node takes
whole numbers, so each value is multiplied by `Scale` and rounded. Readings are collected for `Every` seconds and sent
over one connection, which is then closed. If the node can't be reached, up to a million of them are kept for the next
time.
"""

import collections
import math
import socket
import time

import collectd

settings = {"host": "127.0.0.1", "port": 8094, "scale": 1000, "every": 60, "storerates": True}
lines = collections.deque(maxlen=1_000_000)
sent = time.monotonic()
# The last time and count of each counter.
counts = {}


def configure(module):
    for child in module.children:
        settings[child.key.lower()] = child.values[0]


def name(text):
    """A name as it is written in a line."""
    return "".join("\\" + byte if byte in ",= " else byte for byte in text)


def rate(key, source, moment, count, interval):
    """The rate per second since the last count; NaN for the first one, and after the count restarts."""
    _, kind, least, most = source
    if kind == "absolute":
        return count / interval
    before, last = counts.get(key, (moment, count))
    counts[key] = moment, count
    if moment <= before:
        return math.nan
    if kind == "counter" and count < last:
        # It wrapped, at 32 bits or at 64.
        count += 1 << (32 if last < 1 << 32 else 64)
    found = (count - last) / (moment - before)
    is_out = least is not None and found < least or most is not None and found > most
    return math.nan if is_out else found


def keep(values, _=None):
    """Keeps the readings of a collectd callback, and sends all that are kept when it is time."""
    tags = [("host", values.host), ("instance", values.plugin_instance), ("kind", values.type_instance)]
    front = name(values.plugin) + "".join(f",{key}={name(tag)}" for key, tag in tags if tag)
    for source, value in zip(collectd.get_dataset(values.type), values.values):
        field = name(f"{values.type}_{source[0]}")
        if source[1] != "gauge" and settings["storerates"]:
            value = rate((front, field), source, values.time, value, values.interval)
        if math.isfinite(value):
            number = round(value * settings["scale"])
            lines.append(f"{front} {field}={number}i {int(values.time * 1e9)}\n")
    if time.monotonic() - sent >= settings["every"]:
        send()


def send():
    """Sends all that is kept over one connection, and waits for its report."""
    global sent
    sent = time.monotonic()
    # Other threads may add lines meanwhile.
    batch = [lines.popleft() for _ in range(len(lines))]
    try:
        with socket.create_connection((settings["host"], int(settings["port"])), timeout=30) as stream:
            stream.sendall("".join(batch).encode())
            stream.shutdown(socket.SHUT_WR)
            report = b"".join(iter(lambda: stream.recv(65_536), b""))
    except OSError as error:
        lines.extendleft(reversed(batch))
        collectd.warning(f"rr: {len(lines)} readings are kept: {error}")
        return
    if not report.endswith(b" refused 0\n"):
        collectd.warning(f"rr: {report.decode()}")


collectd.register_config(configure)
collectd.register_write(keep)
collectd.register_shutdown(send)
