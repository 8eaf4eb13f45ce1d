"""Reads printed tables by Python's csv module, strictly, and checks each against docs/RULES.md and what the program said of it.

usage: python3 .ci/readers.py NAME.TABLE..

Beside a table lies NAME.TABLE.words, the line on standard error. Into NAME.TABLE.sums go the figures that .ci/readers has SQL add up too.
Prints how many tables were read, or of the first that is wrong, why.
"""

import csv
import io
import re
import sys
from collections import Counter

HEADERS = {
    "records": ["packet", "bearer", "length", "microseconds"],
    "packets": ["packet", "bearer", "length", "fate", "period"],
    "periods": ["period", "network", "application"],
}
FATES = ("delivered", "bearer-full", "queue-full", "waiting", "pending")
NUMBER = re.compile("0|[1-9][0-9]*")


class Fault(Exception):
    pass


def expect(holds, otherwise):
    if not holds:
        raise Fault(otherwise)


def read(path):
    try:
        with open(path, newline="", encoding="ascii") as file:
            return list(csv.reader(file, strict=True))
    except (csv.Error, UnicodeError) as error:
        raise Fault(f"it is not read: {error}")


def written(rows):
    file = io.StringIO(newline="")
    csv.writer(file, lineterminator="\r\n").writerows(rows)
    return file.getvalue().encode("ascii")


def is_refusal(rows):
    return len(rows) == 1 and len(rows[0]) == 2 and all(map(NUMBER.fullmatch, rows[0]))


def check_row(at, row, header):
    expect(len(row) == len(header), f"row {at} has {len(row)} fields, and the header {len(header)}")
    for name, field in zip(header, row):
        expect(field in FATES if name == "fate" else NUMBER.fullmatch(field), f"row {at} has {field!r} as its {name}")
    expect(int(row[0]) == at, f"row {at} is counted as {row[0]}")


def check_rows(table, rows):
    expect(rows and rows[0] == HEADERS[table], "the header is another")
    for at, row in enumerate(rows[1:]):
        check_row(at, row, rows[0])


def column(table, rows, name):
    return [row[HEADERS[table].index(name)] for row in rows[1:]]


def words(table, rows):
    """What the line on standard error is, as far as the rows can tell."""
    if is_refusal(rows):
        return "{}: the capture is refused with {}, place {}: .+".format(table, *rows[0])
    many = len(rows) - 1
    if table == "records":
        return f"records: {many} packets?"
    if table == "periods":
        return rf"periods: \d+ packets?, \d+ turns?, {many} periods?; .+"
    counts = Counter(column(table, rows, "fate"))
    return rf"packets: {many} packets?, \d+ turns?, \d+ periods?; " + ", ".join(f"{counts[fate]} {fate}" for fate in FATES)


def sums(table, rows):
    if is_refusal(rows):
        return [rows[0]]
    if table == "periods":
        network, application = (list(map(int, column(table, rows, name))) for name in ("network", "application"))
        return [[len(network), sum(network), sum(application), max(network, default=""), min(application, default="")]]
    key, lengths = column(table, rows, "bearer" if table == "records" else "fate"), column(table, rows, "length")
    last = column(table, rows, "microseconds" if table == "records" else "period")
    return [group(value, key, lengths, last) for value in sorted(set(key))]


def group(value, key, lengths, last):
    chosen = [at for at, found in enumerate(key) if found == value]
    return [value, len(chosen), sum(int(lengths[at]) for at in chosen), max(int(last[at]) for at in chosen)]


def check(path):
    table = path.rsplit(".", 1)[1]
    rows = read(path)
    if not is_refusal(rows):
        check_rows(table, rows)
    with open(path, "rb") as file:
        expect(written(rows) == file.read(), "written again it is another")
    with open(path + ".words", encoding="ascii") as file:
        expect(re.fullmatch(words(table, rows) + "\n", file.read()), "its words tell of other rows")
    with open(path + ".sums", "w", encoding="ascii") as file:
        file.writelines("|".join(map(str, row)) + "\n" for row in sums(table, rows))


def main(paths):
    for path in paths:
        try:
            check(path)
        except Fault as fault:
            print(f"readers: {path.rsplit('/', 1)[-1]} by csv: {fault}")
            sys.exit(1)
    print(len(paths))


if __name__ == "__main__":
    main(sys.argv[1:])
