"""The four tables of a network, `sources.csv`, `pools.csv`, `products.csv` and `arcs.csv`: their columns, and the way
from them to a network file and back. `tools/network_from_csv` and `tools/csv_from_network` are its commands.

| Table | Columns that must be there | Columns that may be absent |
|---|---|---|
| sources | `name`, `cost` | `max`; `quality K` for each quality K, in the order of the network's qualities |
| pools | `name` | `max`; `ratio:K` for qualities K |
| products | `name`, `price`, `max` | `min`; `least K` and `most K` for qualities K |
| arcs | `from`, `to` | `cost`, `max` |

The first line has the titles, in any order, and every other line is a row; a line of empty cells is none. A cell of
`max` of a source, a pool or an arc, of `min`, `least K`, `most K` or `ratio:K`, or of `cost` of an arc may be empty, and
says nothing then. A ratio is how many thousandths of a quality leave a pool, from 0 to 1000; where it is empty, all does.
The network is of version 2 where `ratio:K`, or `cost` or `max` of an arc, says something, and else of version 1. Tables
are CSV with commas between cells, in UTF-8 with a byte order mark or without. A number has a point before its decimals,
of which at most six are not 0, and may have thousands separators: commas (in double quotes), spaces or apostrophes. Names
are taken as they stand.
"""

import csv
import io
import json
import re
from dataclasses import dataclass
from decimal import Decimal

import pooling

explain = pooling.explain

# Of each table: the titles that must be there, those that may be absent, and what stands before the name of a quality.
COLUMNS = {
    "sources": (["name", "cost"], ["max"], ["quality "]),
    "pools": (["name"], ["max"], ["ratio:"]),
    "products": (["name", "price", "max"], ["min"], ["least ", "most "]),
    "arcs": (["from", "to"], ["cost", "max"], []),
}
PLAN = (["from", "to", "flow"], ["spent", "revenue", "max"], [])  # the table of a plan's flows
NAMES = {"name", "from", "to"}
PLAIN = re.compile(r"-?(0|[1-9][0-9]*)(\.[0-9]+)?")
GROUPED = re.compile(r"-?[1-9][0-9]{0,2}([,' \u2019\u00a0\u202f])[0-9]{3}(\1[0-9]{3})*(\.[0-9]+)?")
OTHER_WAY = re.compile(r"-?[0-9]{1,3}(\.[0-9]{3})+,[0-9]+")
BEHIND_COMMA = re.compile(r"0[0-9]{2}")
PLACE = re.compile(r"(?:sources|pools|products|arcs|qualities)\[[0-9]+\](?:\.name)?")


@dataclass
class Cell:
    """A cell of a table: its file, its line from 1, its column from 0 (none of a whole line), and what stands there."""

    file: str
    line: int
    column: object
    title: str
    text: str

    def where(self):
        if self.column is None:
            return f"{self.file}:{self.line}"
        title = f" ({self.title})" if self.title else ""
        return f"{self.file}:{self.line}: column {letters(self.column)}{title}"


@dataclass
class Fault:
    """Where something is wrong, what, and what would be right."""

    cell: Cell
    what: str
    right: str

    def lines(self):
        yield f"{self.cell.where()}: {self.what}"
        yield f"    stands there: {' '.join(self.cell.text.split()) or 'nothing'}"
        yield f"    right:        {self.right}"


class Refused(Exception):
    """Tables that no more can be read of; the argument is the fault."""


def letters(column):
    """The name of a column in a spreadsheet: A to Z, AA and so on."""
    return (letters(column // 26 - 1) if column > 25 else "") + chr(ord("A") + column % 26)


# ---- a table


def decoded(file, data):
    for mark in (b"\xff\xfe", b"\xfe\xff"):
        if data.startswith(mark):
            cell = Cell(file, 1, None, "", "a byte order mark of UTF-16")
            raise Refused(Fault(cell, "the table is not in UTF-8", "saved as CSV in UTF-8, with commas"))
    try:
        return data.decode("utf-8-sig")
    except UnicodeDecodeError as error:
        lines = re.split("\r\n|\r|\n", data[: error.start].decode("utf-8-sig"))
        cells = next(csv.reader(lines[-1:]), [])
        cell = Cell(file, len(lines), max(0, len(cells) - 1), "", f"the byte {data[error.start]:#04x}")
        raise Refused(Fault(cell, "the table is not in UTF-8", "saved as CSV in UTF-8, with commas")) from None


def lines_of(file, text):
    """Each line of the table that is not empty, as its number and its cells."""
    reader, begun = csv.reader(io.StringIO(text, newline=""), strict=True), 1
    try:
        for cells in reader:
            if any(cells):
                yield begun, cells
            begun = reader.line_num + 1
    except csv.Error as error:
        cell = Cell(file, begun, None, "", "a line that is no CSV")
        raise Refused(Fault(cell, str(error), 'double quotes around a cell, and "" for one within it')) from None


class Table:
    """A table that is read: its titles, and its rows as cells by title. Faults are kept in a list."""

    def __init__(self, kind, file, data, faults, number=None):
        self.kind, self.file, self.faults, self.number = kind, file, faults, number or millionths
        self.titles, self.title_line, self.rows = [], 1, []
        self.needed, self.optional, self.families = COLUMNS.get(kind, PLAN)
        for line, cells in lines_of(file, decoded(file, data)):
            if self.titles:
                self.take_row(line, cells)
            else:
                self.take_titles(line, cells)
        if not self.titles:
            self.tell(Cell(file, 1, None, "", ""), "the table has no titles", ",".join(self.needed + self.optional))

    def tell(self, cell, what, right):
        self.faults.append(Fault(cell, what, right))

    def take_titles(self, line, cells):
        self.titles, self.title_line = cells, line
        known = self.needed + self.optional
        if len(cells) == 1 and re.search("[;\t]", cells[0]):
            right = "saved as CSV with commas, and numbers with a point: 2.5"
            raise Refused(Fault(Cell(self.file, line, 0, "", cells[0]), "the cells are not separated by commas", right))
        for column, title in enumerate(cells):
            cell = Cell(self.file, line, column, "", title)
            if title in cells[:column] and title:
                self.tell(cell, "a title stands twice", "one column of that title")
            elif title not in known and not self.family_of(title) and title:
                self.tell(cell, "a column that the table may not have", self.title_meant(title.strip()))
        for title in self.needed:
            if title not in cells:
                cell = Cell(self.file, line, None, "", ",".join(cells))
                self.tell(cell, "a column is absent", f'a column "{title}"')

    def title_meant(self, title):
        for front in self.families:
            if re.match(front[:-1] + "[ :].", title, re.IGNORECASE):
                return f'"{front}{title[len(front) :]}"'
        return explain.similar(title, self.needed + self.optional + [f"{front}NAME" for front in self.families], "")

    def family_of(self, title):
        """What stands in a title before the name of a quality, and the name; nothing where it has no such title."""
        return next(((front, title[len(front) :]) for front in self.families if title.startswith(front) and title != front), None)

    def qualities(self, front):
        """The names of the qualities that have a column of that family, each with the cell of its title."""
        for column, title in enumerate(self.titles):
            found = self.family_of(title)
            if found and found[0] == front and title not in self.titles[:column]:
                yield found[1], Cell(self.file, self.title_line, column, "", title)

    def take_row(self, line, texts):
        row = {"": Cell(self.file, line, None, "", ",".join(texts))}
        for column, title in enumerate(self.titles):
            text = texts[column] if column < len(texts) else ""
            cell = Cell(self.file, line, column, title, text)
            if title:
                row.setdefault(title, cell)
                self.judge(cell)
            elif text:
                self.tell(cell, "a cell in a column without a title", "a title, or an empty cell")
        for column in range(len(self.titles), len(texts)):
            if texts[column]:
                cell = Cell(self.file, line, column, "", texts[column])
                self.tell(cell, "a cell behind the last column", "double quotes around a number or a name with a comma")
        self.rows.append(row)

    def judge(self, cell):
        """Tells of a cell that is empty and may not be, and of a number of another form."""
        may_be_empty = cell.title in self.optional or self.kind != "sources" and self.family_of(cell.title)
        if cell.title in NAMES or not (cell.title in self.needed + self.optional or self.family_of(cell.title)):
            if cell.title in self.needed and not cell.text:
                self.tell(cell, "a name is absent", "the name of a source, a pool or a product")
        elif not cell.text.strip():
            if not may_be_empty:
                self.tell(cell, "a number is absent", "a number, 0 too")
        elif self.number(cell.text) is None:
            self.tell(cell, "a number of another form", meant(cell.text))


def millionths(text):
    """The millionths of a cell's number, or nothing where it is none or has more than six decimals."""
    text = text.strip()
    found = GROUPED.fullmatch(text)
    plain = text.replace(found.group(1), "") if found else text
    if not PLAIN.fullmatch(plain) or len(plain) > 60:
        return None
    whole, _, decimals = plain.partition(".")
    decimals = decimals.rstrip("0")
    if len(decimals) > 6:
        return None
    return int(whole.lstrip("-") + decimals.ljust(6, "0")) * (-1 if whole[0] == "-" else 1)


def meant(text):
    """What a planner may have meant by a number of another form."""
    text = text.strip()
    if BEHIND_COMMA.fullmatch(text):
        return f'double quotes around both cells where this is the end of a number as "1,{text}"; else {int(text)}'
    if OTHER_WAY.fullmatch(text):
        text = text.replace(".", "")
    return explain.meant(text).replace('"', "")


# ---- from tables to a network


def member(table, row, title):
    """A member of a row as JSON, or nothing where its cell is empty or absent."""
    cell = row.get(title)
    if cell is None or not cell.text or (title not in NAMES and not cell.text.strip()):
        return None
    if title in NAMES:
        return json.dumps(cell.text, ensure_ascii=False)
    written = explain.as_written(millionths(cell.text))
    return written.strip('"') if title.startswith("ratio:") else written


def object_text(members):
    return "{" + ",".join(f"{json.dumps(name)}:{text}" for name, text in members if text is not None) + "}"


class Joined:
    """The text of the network of four tables, and which cell each of its members comes from."""

    def __init__(self, tables, title):
        self.cells = {}
        qualities = list(tables["sources"].qualities("quality "))
        for number, (name, cell) in enumerate(qualities):
            self.cells[f"qualities[{number}]"] = cell
        self.names = [name for name, _ in qualities]
        self.second = False
        rows = {kind: [self.row(table, n, row) for n, row in enumerate(table.rows)] for kind, table in tables.items()}
        lists = [f'"{kind}":[' + ",\n".join(rows[kind]) + "]" for kind in COLUMNS]
        first = [("version", "2" if self.second else "1"), ("title", json.dumps(title) if title else None)]
        first += [("qualities", json.dumps(self.names, ensure_ascii=False, separators=(",", ":")))]
        self.whole = Cell(tables["sources"].file, 1, None, "", "")
        self.text = ",\n".join([object_text(first)[:-1], *lists]) + "}\n"

    def row(self, table, number, row):
        path = f"{table.kind}[{number}]"
        self.cells[path] = row.get("name", row[""])
        members = []
        for title in table.needed + table.optional:
            self.cells[f"{path}.{title}"] = row.get(title, row[""])
            members.append((title, member(table, row, title)))
        if table.kind == "arcs" and all(text is None for _, text in members[2:]):
            ends = [row["from"], row["to"]]
            self.cells.update({f"{path}[{n}]": end for n, end in enumerate(ends)})
            return json.dumps([end.text for end in ends], ensure_ascii=False, separators=(",", ":"))
        for front in table.families:
            word = front[:-1]
            limits = [(name, member(table, row, front + name)) for name in self.names]
            self.cells.update({f"{path}.{word}.{name}": row.get(front + name, row[""]) for name in self.names})
            if word == "quality" or any(text is not None for _, text in limits):
                members.append((word, object_text(limits)))
        self.second = self.second or table.kind == "arcs" or members[-1][0] == "ratio"
        return object_text(members)

    def cell_of(self, path):
        """The cell of a member, or that of what it is a part of."""
        while path not in self.cells and path:
            path = path[: max(path.rfind("."), path.rfind("["), 0)]
        return self.cells.get(path, self.whole)

    def fault(self, fault):
        """A fault of the network's text as one of the tables."""
        right = PLACE.sub(lambda found: self.cell_of(found.group()).where(), fault.right)
        return Fault(self.cell_of(fault.path), f"{explain.CAUSES[fault.cause]} ({fault.cause})", right)


def network_of(tables_data, title):
    """The text of the network of four tables, given as bytes by file name in the order of `COLUMNS`; and the faults."""
    faults, tables = [], {}
    for kind, (file, data) in zip(COLUMNS, tables_data):
        try:
            tables[kind] = Table(kind, file, data, faults)
        except Refused as refused:
            faults.append(refused.args[0])
    if "sources" in tables and "products" in tables:
        names = [name for name, _ in tables["sources"].qualities("quality ")]
        for kind, front in (("products", "least "), ("products", "most "), ("pools", "ratio:")):
            for name, cell in tables[kind].qualities(front) if kind in tables else []:
                if name not in names:
                    right = explain.similar(name, names, f'a column "quality {name}" in {tables["sources"].file}')
                    faults.append(Fault(cell, "a quality that no source has", right))
    if faults:
        return "", faults
    joined = Joined(tables, title)
    return joined.text, [joined.fault(fault) for fault in explain.judged(joined.text.encode())[0]]


# ---- from a network to tables


def number_text(value):
    """The cell of a quantity: its number without separators."""
    return f"{Decimal(explain.millionths(value)).scaleb(-6):f}".rstrip("0").rstrip(".")


def cell_text(row, title, families):
    """The cell of a row's member, or of a member of it that is named by a quality."""
    if row.kind == "list":
        return row.data[title == "to"].data if title in NAMES else ""
    front = next((front for front in families if title.startswith(front) and title != front), "")
    value = row.members.get(front[:-1] or title)
    if value is not None and front:
        value = value.members.get(title[len(front) :])
    if value is None:
        return ""
    return value.data if title in NAMES else number_text(value)


def is_of_version_2(kind, title):
    """Whether a column is written only where a row says something there."""
    return kind == "arcs" and title not in NAMES or title.startswith("ratio:")


def tables_of(text):
    """The four tables of a network's text without faults, as a text by file name."""
    top = explain.Reader(text).whole().members
    lists = {kind: top[kind].data if kind in top else [] for kind in [*COLUMNS, "qualities"]}
    written = {}
    for kind, (needed, optional, families) in COLUMNS.items():
        titles = needed + optional + [front + name.data for name in lists["qualities"] for front in families]
        columns = [[title, *(cell_text(row, title, families) for row in lists[kind])] for title in titles]
        rows = zip(*(column for column in columns if any(column[1:]) or not is_of_version_2(kind, column[0])))
        out = io.StringIO()
        csv.writer(out, lineterminator="\n").writerows(rows)
        written[f"{kind}.csv"] = out.getvalue()
    return written
