"""A plan of one's own: a table of flows (CSV), or JSON. `tools/check_plan` reads it, and `tools/plan_to_csv` writes such a table.

The table has the columns `from`, `to` and `flow`; columns `spent` and `revenue` may be there and say nothing. JSON is a list of
objects with the members `from`, `to` and `flow`, or an object with such a list as its member `flows`. A flow is a number of
units, as tables of networks have them; decimals of any length and fractions as 5/3 are taken too. An arc that is left out carries
nothing."""

import json
import re
from fractions import Fraction

import csv_tables
import pooling

FLOW = re.compile(r"-?[0-9]{1,40}(?:\.[0-9]{1,200}|/[0-9]{1,200})?")
SHOWN = 20


def flow_of(text):
    """The units of a flow, or nothing."""
    grouped = csv_tables.millionths(text)
    if grouped is not None:
        return pooling.units(grouped)
    try:
        return Fraction(text.strip()) if FLOW.fullmatch(text.strip()) else None
    except ZeroDivisionError:
        return None


def read_flows(net, path):
    """The flows of a plan's file, in millionths."""
    with open(path, "rb") as file:
        data = file.read(pooling.explain.MAX_BYTES + 1)
    if len(data) > pooling.explain.MAX_BYTES:
        raise pooling.Ends(3, f"{path}: longer than {pooling.explain.MAX_BYTES:,} bytes")
    rows = of_json(path, data) if data.lstrip()[:1] in (b"{", b"[") else of_table(path, data)
    place, found = {ends: number for number, ends in enumerate(net.arc_names())}, {}
    for start, end, flow, where in rows:
        if (start, end) not in place:
            near = pooling.explain.similar(f"{start} -> {end}", [" -> ".join(ends) for ends in place], "an arc of the network")
            raise pooling.Ends(3, f"{where}: {start} -> {end} is no arc of the network", f"    right:        {near if len(near) < 200 else 'an arc of the network'}")
        if place[start, end] in found:
            raise pooling.Ends(3, f"{where}: the arc {start} -> {end} stands twice")
        found[place[start, end]] = flow * pooling.UNIT
    flows = [found.get(number, Fraction(0)) for number in range(len(place))]
    feeds, outs = len(net.feeds), len(net.outs)
    return pooling.Flows(flows[:feeds], flows[feeds : feeds + outs], flows[feeds + outs :])


def of_table(path, data):
    faults = []
    try:
        table = csv_tables.Table("flows", path, data, faults, flow_of)
    except csv_tables.Refused as refused:
        faults.append(refused.args[0])
    if faults:
        raise pooling.Ends(3, *[line for fault in faults[:SHOWN] for line in fault.lines()])
    for row in table.rows:
        yield row["from"].text, row["to"].text, flow_of(row["flow"].text), row["flow"].where()


def of_json(path, data):
    try:
        value = json.loads(data.decode("utf-8"), parse_float=str, parse_int=str, parse_constant=str)
    except (ValueError, RecursionError) as error:
        raise pooling.Ends(3, f"{path}: no JSON: {error}") from None
    rows = value.get("flows") if isinstance(value, dict) else value
    if not isinstance(rows, list):
        raise pooling.Ends(3, f"{path}: no list of flows: a list, or an object with a member flows that is one")
    for number, row in enumerate(rows):
        where = f"{path}: flows[{number}]"
        if not isinstance(row, dict) or any(not isinstance(row.get(name), str) for name in ("from", "to", "flow")):
            raise pooling.Ends(3, f'{where}: not of the form {{"from": "A", "to": "P", "flow": "2.5"}}')
        if flow_of(row["flow"]) is None:
            raise pooling.Ends(3, f"{where}.flow: a number of another form: {row['flow'][:40]}")
        yield row["from"], row["to"], flow_of(row["flow"]), where
