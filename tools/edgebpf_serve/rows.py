"""The tables of `serve.db`. Each row has a sum of all that it says, as pages of SQLite have none; and each table that has no running number has
the sum of its rows in `meta`, by which a row that is gone is seen, too."""
import hashlib
import zlib

TABLES = """
create table meta(name text primary key, value, sum integer) without rowid;
create table journal(seq integer primary key, id text, edits blob, sum integer);
create table results(seq integer primary key, id text, digest blob, added integer, removed integer, sum integer);
create table programs(name text primary key, record integer, form text, body blob, tab blob, owner text, sum integer) without rowid;
create table columns(name text primary key, seq integer, file text, digest blob, owner text, sum integer) without rowid;
create table tokens(hash blob primary key, name text, roles text, limits text, sum integer) without rowid;
create table snapshots(seq integer primary key, file text, edges integer, file_sum integer, sum integer);
"""
WIDTHS = {"journal": 4, "results": 6, "programs": 7, "columns": 6, "tokens": 5, "snapshots": 5}
# The tables whose rows are summed in `meta`, and the name of their key.
SUMMED = {"programs": "name", "columns": "name", "tokens": "hash", "snapshots": "seq"}


class Damaged(Exception):
    """A row is not the one that was written."""


def part_of(value):
    """The bytes of a value of a row, which no other value has."""
    if isinstance(value, bytes):
        return b"b%d:" % len(value) + value
    if isinstance(value, str):
        text = value.encode("utf-8", "surrogatepass")
        return b"s%d:" % len(text) + text
    return b"n%d:" % value if value is not None else b"-"


def sum_of(*values):
    """The sum of a row's values."""
    number = 0
    for value in values:
        number = zlib.crc32(part_of(value), number)
    return number


def summed(*values):
    """A row with its sum."""
    return *values, sum_of(*values)


def checked(table, row):
    """A row without its sum, if that is right."""
    try:
        right = row[-1] == sum_of(*row[:-1])
    except TypeError:
        right = False
    if not right:
        raise Damaged(f"a row of the table {table} is damaged")
    return row[:-1]


def digest_of(body):
    """By this a batch is known again."""
    return hashlib.blake2b(body, digest_size=16).digest()


def insert(db, table, rows):
    """Adds rows, each without its sum."""
    holes = ", ".join("?" * WIDTHS[table])
    db.executemany(f"insert into {table} values({holes})", [summed(*row) for row in rows])


def read_meta(db):
    found = {}
    for row in db.execute("select name, value, sum from meta"):
        name, value = checked("meta", row)
        found[name] = value
    return found


def set_meta(db, name, value):
    db.execute("insert or replace into meta values(?, ?, ?)", summed(name, value))


def put(db, table, row):
    """Puts a row into a table whose rows are summed, in the place of one with the same key."""
    remove(db, table, row[0])
    insert(db, table, [row])
    turn(db, table, sum_of(*row))


def find(db, table, key):
    """The row of a key, without its sum; None if there is none. Within a transaction that is the row as the transaction has it."""
    row = db.execute(f"select * from {table} where {SUMMED[table]} = ?", (key,)).fetchone()
    return row and checked(table, row)


def owners(db, table):
    """The owner of each row."""
    return [owner for owner, in db.execute(f"select owner from {table}")]


def remove(db, table, key):
    """Takes the row of a key out, and returns whether there was one."""
    old = db.execute(f"select sum from {table} where {SUMMED[table]} = ?", (key,)).fetchone()
    if old is None:
        return False
    db.execute(f"delete from {table} where {SUMMED[table]} = ?", (key,))
    turn(db, table, old[0])
    return True


def turn(db, table, number):
    """A row came or went: its sum turns that of the table."""
    row = db.execute("select name, value, sum from meta where name = ?", (table,)).fetchone()
    set_meta(db, table, (checked("meta", row)[1] if row else 0) ^ number)


def read(db, table):
    """All rows of a table whose rows are summed, by their key."""
    rows = [checked(table, row) for row in db.execute(f"select * from {table} order by {SUMMED[table]}")]
    wanted = db.execute("select name, value, sum from meta where name = ?", (table,)).fetchone()
    number = 0
    for row in rows:
        number ^= sum_of(*row)
    if number != (checked("meta", wanted)[1] if wanted else 0):
        raise Damaged(f"a row of the table {table} is missing, or is one too many")
    return rows
