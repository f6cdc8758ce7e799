"""Zone files, read and written record by record."""

import ctypes
import io
import os
import stat
import struct
from ctypes import addressof, byref, c_char, c_size_t
from functools import partial
from typing import BinaryIO, Callable, Iterable, Iterator, List, NamedTuple, Optional, Tuple, Union

from . import _checks
from . import _header as dnw
from ._checks import Bytes
from ._data import NameLike
from ._errors import DnsError, check, sentence, stored
from ._library import by_address, library, taken
from ._names import Name, whole_name
from ._records import MOST_TTL, Record, own_record, record_of

# The octets that are read at once, and the most that an entry of a file may have.
_WINDOW = 1 << 16
_MOST = 1 << 24
# The records that are read in one call, at most, the octets for them, and the members of the row of each.
_ROWS = 256
_ROWS_SIZE = dnw.ZONE_OCTETS_SIZE + (1 << 15)
_ROW = struct.Struct("NNNNNIHH")
# How deep files include others, how many are included in all, and how many octets of a line are shown before and after what is wrong.
_DEPTH = 10
_FILES = 1000
_SHOWN = 500

_next, _read = by_address("dnw_zone_next"), by_address("dnw_zone_read")

Path = Union[str, "os.PathLike[str]"]


class ZoneError(DnsError):
    """An entry of a zone file is not valid. `str` shows where, and what is wrong, as compilers do.

    `file` is the name of the file, `line` and `column` are the place in it, from 1, and `offset` is the same in octets, from 0.
    `text` is the line, in which octets that are not printable ASCII are shown as `\\DDD`, as in the name that `str` shows. Of an
    included file it is empty before the first record of that file, so that no line of a file is shown that is no zone file.

    >>> from dns_names_wire import read_zone
    >>> list(read_zone(b"a 60 A 192.0.2.256\\n", "example."))
    Traceback (most recent call last):
    dns_names_wire._zones.ZoneError: <bytes>:1:8: wanted an IPv4 address (field 0)
    """

    def __init__(
        self, reason: str = "", offset: Optional[int] = None, file: str = "", line: int = 0, column: int = 0, text: str = ""
    ) -> None:
        super().__init__(reason, offset)
        self.file, self.line, self.column, self.text = file, line, column, text

    def __str__(self) -> str:
        return f"{_shown_name(self.file)}:{self.line}:{self.column}: {self.reason}"


def _shown(octets: bytes) -> str:
    """Returns octets as text, in which those that are not printable ASCII are escaped."""
    return "".join(chr(octet) if 32 <= octet < 127 or octet == 9 else f"\\{octet:03}" for octet in octets)


def _shown_name(name: str) -> str:
    """Returns the name of a file, in which octets that are not printable ASCII are escaped."""
    return _shown(os.fsencode(name)).replace("\t", "\\009")


class _File:
    """A file that is read, in parts that end where it is read up to: the next entry begins at `at`. Relative paths begin in `folder`."""

    def __init__(self, stream: BinaryIO, name: str, folder: Optional[str], zone: dnw.Zone, is_own: bool = True) -> None:
        self.stream, self.name, self.folder, self.zone, self.is_own = stream, name, folder, zone, is_own
        self.shows_lines = True
        self.window = (c_char * _WINDOW)()
        self.at = self.there = 0
        self.more = True

    def read_on(self) -> None:
        """Reads more of the file after what is left of the part, at least as many octets, or up to the file's end."""
        left = self.there - self.at
        window = self.window
        if 2 * left > len(window):
            window = (c_char * (2 * len(window)))()
        octets = memoryview(window).cast("B")
        octets[:left] = memoryview(self.window).cast("B")[self.at : self.there]
        self.window, self.at, self.there = window, 0, left
        while self.there < len(octets) and self.more:
            read = self.stream.readinto(octets[self.there :])  # type: ignore[attr-defined]
            read = _checks.number("readinto", read, len(octets) - self.there)
            self.there += read
            self.more = read > 0

    def close(self) -> None:
        """Closes the file, unless the caller opened it."""
        if self.is_own:
            self.stream.close()

    def error(self, reason: str, entry: dnw.ZoneEntry, place: int) -> ZoneError:
        """Returns the error at an offset of the part that is there."""
        place += self.at
        octets = memoryview(self.window).cast("B")
        before = octets[max(self.at, place - _SHOWN) : place].tobytes()
        after = octets[place : min(self.there, place + _SHOWN)].tobytes()
        text = before[before.rfind(b"\n") + 1 :] + after.partition(b"\n")[0].rstrip(b"\r")
        return ZoneError(reason, entry.offset, self.name, entry.line, entry.column, _shown(text) if self.shows_lines else "")

    def identity(self) -> Optional[Tuple[int, int]]:
        """Returns what identifies the file, if it is one of the system's."""
        try:
            status = os.fstat(self.stream.fileno())
        except (AttributeError, OSError):
            return None
        return status.st_dev, status.st_ino


class _Reader:
    """Reads the entries of a file and of those that it includes, which are below these folders after links are followed."""

    def __init__(self, errors: Optional[Callable[[ZoneError], object]], folders: Iterable[str]) -> None:
        self.errors, self.count = errors, 0
        self.folders = tuple(os.path.join(os.path.realpath(folder), "") for folder in folders)
        self.files: List[_File] = []
        self.entry, self.octets = dnw.ZoneEntry(), (c_char * _ROWS_SIZE)()
        self.entry_at, self.octets_at = addressof(self.entry), addressof(self.octets)
        self.rows, self.read = (c_char * (_ROWS * _ROW.size))(), dnw.RowsRead()
        self.rows_at, self.read_at = addressof(self.rows), addressof(self.read)
        self.owner: Optional[Name] = None

    def take(self, file: _File) -> int:
        """Takes the next entry of a file, and returns its kind. Its octets are not passed yet."""
        entry = self.entry
        while True:
            part = addressof(file.window) + file.at, file.there - file.at, file.more, addressof(file.zone)
            check(_next(*part, self.octets_at, dnw.ZONE_OCTETS_SIZE, self.entry_at))
            if entry.kind != dnw.ZONE_MORE and (entry.kind != dnw.ZONE_END or not file.more):
                return int(entry.kind)
            if file.there - file.at >= _MOST:
                self.report(file.error(f"an entry has more than {_MOST} octets", entry, 0))
                return dnw.ZONE_END
            file.read_on()

    def take_rows(self, file: _File) -> Iterator[Record]:
        """Yields the records that are next in the part of a file that is there, up to what is none, and passes them."""
        read, kind = self.read, dnw.ZONE_RECORD
        while kind == dnw.ZONE_RECORD:
            part = addressof(file.window) + file.at, file.there - file.at, file.more, addressof(file.zone)
            check(_read(*part, self.rows_at, _ROWS, self.octets_at, _ROWS_SIZE, self.read_at))
            octets = taken(self.octets, read.octets_len)
            found = _ROW.iter_unpack(taken(self.rows, read.row_count * _ROW.size))
            file.at, kind, file.shows_lines = file.at + read.used, read.next, file.shows_lines or read.row_count > 0
            for _, at, size, name_size, data_size, ttl, record_type, record_class in found:
                yield self.made(octets[at : at + size], name_size, data_size, ttl, record_type, record_class)

    def records(self) -> Iterator[Record]:
        """Yields the records of the files, up to the end of the first one."""
        while self.files:
            file, entry = self.files[-1], self.entry
            yield from self.take_rows(file)
            kind = self.take(file)
            if kind == dnw.ZONE_END:
                self.files.pop().close()
                continue
            used = entry.used
            if kind == dnw.ZONE_RECORD:
                file.shows_lines = True
                wire = taken(self.octets, entry.len)
                yield self.made(wire, entry.name_len, entry.data_len, entry.ttl, entry.record_type, entry.record_class)
            elif kind == dnw.ZONE_ERROR:
                self.report(file.error(sentence(entry.fault), entry, entry.fault.offset))
            elif kind == dnw.ZONE_INCLUDE:
                self.include(file)
            file.at += used

    def report(self, error: ZoneError) -> None:
        """Raises an error, or shows it to who reads on."""
        if self.errors is None:
            raise error
        self.errors(error)

    def made(self, wire: bytes, name_size: int, data_size: int, ttl: int, record_type: int, record_class: int) -> Record:
        """Returns the record that was taken, with its owner as an object that the record before may share."""
        owner = self.owner
        if owner is None or owner.wire != wire[:name_size]:
            owner = self.owner = Name._of(wire[:name_size], True)
        return record_of(wire, owner, record_type, record_class, ttl, len(wire) - data_size)

    def include(self, file: _File) -> None:
        """Opens the file of the `$INCLUDE` that was taken, whose entries come next."""
        entry, octets = self.entry, taken(self.octets, self.entry.len)
        wire, name = octets[: entry.name_len], os.fsdecode(octets[entry.name_len :])
        fault, shown = file.error("", entry, 0), f"'{_shown_name(name)}'"
        try:
            included = self.opened(file, name, shown)
        except (OSError, ValueError) as error:
            fault.reason = str(error) if isinstance(error, ValueError) else f"{shown} cannot be read: {error.strerror or error}"
            self.report(fault)
        else:
            check(library.dnw_zone_include(wire, len(wire), byref(included.zone)))
            self.files.append(included)

    def opened(self, file: _File, name: str, shown: str) -> _File:
        """Opens a file that another one includes. It has a copy of its state."""
        if file.folder is None:
            raise ValueError("$INCLUDE is not followed here: no folder is given")
        if len(self.files) >= _DEPTH:
            raise ValueError(f"{_DEPTH} files include one another already")
        if self.count >= _FILES:
            raise ValueError(f"{_FILES} files are included already")
        path = os.path.join(file.folder, name)
        place = os.path.realpath(path) if os.path.isdir(os.path.dirname(path) or ".") else ""
        # The same error, whether it is there or not
        if not (place + os.sep).startswith(self.folders):
            raise ValueError(f"{shown} is outside the folders to include from")
        if not stat.S_ISREG(os.stat(place).st_mode):
            raise ValueError(f"{shown} is not a file")
        included = _File(open(place, "rb", buffering=0), path, os.path.dirname(path), dnw.Zone.from_buffer_copy(file.zone))
        if included.identity() in [it.identity() for it in self.files]:
            included.close()
            raise ValueError(f"{shown} includes itself")
        self.count, included.shows_lines = self.count + 1, False
        return included


def read_zone(
    source: Union[Path, Bytes, BinaryIO],
    origin: NameLike,
    *,
    default_ttl: Optional[int] = None,
    generate_limit: int = 0,
    folder: Optional[Path] = None,
    errors: Optional[Callable[[ZoneError], object]] = None,
) -> Iterator[Record]:
    """Returns an iterator over the records of a zone file (RFC 1035, section 5; RFC 2308, section 4), which is a path, its octets,
    or a binary file that is open, as `sys.stdin.buffer` or what `gzip.open` returns.

    The origin is the name of the zone, which completes names without a last dot. What an entry leaves out, the owner, the TTL or
    the class, is that of an entry before it. Without a TTL before it, an SOA has its minimum, and so has what follows it; any other
    record has `default_ttl`, or is not valid. A file is read in parts, so that its size makes no difference to the memory. One that
    was open is not closed.

    `$INCLUDE` is followed, up to ten files deep, to 1000 files in all, and never into a file that is open already. A relative path
    begins in the folder of the file that has it. The file has to be a plain one in the folder of the zone file or below it, or
    below `folder`, after links are followed. Octets and an open file have no folder of their own: their relative paths begin in
    `folder`, and without it they include no file.

    `$GENERATE`, an entry of BIND's that is in no RFC, is not valid, unless `generate_limit` is how many records it may stand for.

    Raises `ZoneError` at the first entry that is not valid. With `errors`, that is called with each error instead, and reading
    goes on at the next entry. Raises `OSError` if the file cannot be read.

    >>> zone = b"$TTL 1h\\n@ NS ns\\nns A 192.0.2.1\\n   TXT ( hello\\n   world )\\n"
    >>> for record in read_zone(zone, "example."):
    ...     print(record)
    example. 3600 IN NS ns.example.
    ns.example. 3600 IN A 192.0.2.1
    ns.example. 3600 IN TXT "hello" "world"
    """
    zone = _begun(origin)
    if default_ttl is not None:
        zone.fallback_ttl, zone.has_fallback_ttl = _checks.number("default_ttl", default_ttl, MOST_TTL), 1
    zone.generate_limit = _checks.number("generate_limit", generate_limit, 2**32 - 1)
    stream: BinaryIO
    folders, is_own = [] if folder is None else [os.fspath(folder)], True
    if isinstance(source, (str, os.PathLike)):
        name = os.fspath(source)
        stream = open(name, "rb", buffering=0)
        if stat.S_ISREG(os.fstat(stream.fileno()).st_mode):
            folders.insert(0, os.path.dirname(name))
    elif hasattr(source, "readinto"):
        name, stream, is_own = str(getattr(source, "name", "<stream>")), source, False  # type: ignore[assignment]
    else:
        name, stream = "<bytes>", io.BytesIO(_checks.octets("source", source))
    return _records(_File(stream, name, folders[0] if folders else None, zone, is_own), _Reader(errors, folders))


def _begun(origin: NameLike) -> dnw.Zone:
    """Returns the state before the first entry of a zone file."""
    zone, wire = dnw.Zone(), whole_name("origin", origin).wire
    check(library.dnw_zone_begin(wire, len(wire), byref(zone)))
    return zone


def _records(file: _File, reader: _Reader) -> Iterator[Record]:
    """Yields the records of a file, and closes what is open in the end."""
    reader.files.append(file)
    try:
        yield from reader.records()
    finally:
        for it in reader.files:
            it.close()


def zone_lines(records: Iterable[Record], origin: NameLike, ttl: Optional[int] = None) -> Iterator[str]:
    """Yields the lines of a zone file with these records (RFC 1035, section 5.1; RFC 2308, section 4), each with the end of
    its line, as `file.writelines` takes them. The first one is the `$ORIGIN`, and with `ttl` the second one is a `$TTL`.

    What the lines before a record say is left out of its line: its owner if it is that of the record before, the last labels of
    another owner if they are those of the origin, and its TTL if it is that of the `$TTL`. Capitals count. The class, the type
    and the data are written in full. `read_zone` reads the same records if their data are valid for their types.

    Raises `ValueError` if the origin is relative or the TTL is out of range, and `TypeError` if an item is not a `Record`.

    >>> zone = [Record.from_text(line) for line in ("a. 60 NS ns.a.", "ns.a. 60 A 192.0.2.1", "ns.a. 5 A 192.0.2.2")]
    >>> print(*zone_lines(zone, "a.", 60), sep="", end="")
    $ORIGIN a.
    $TTL 60
    @ IN NS ns.a.
    ns IN A 192.0.2.1
     5 IN A 192.0.2.2
    """
    seconds = None if ttl is None else _checks.number("ttl", ttl, MOST_TTL)
    return _lines(records, whole_name("origin", origin).wire, seconds, _begun(origin))


def _lines(records: Iterable[Record], origin: bytes, ttl: Optional[int], zone: dnw.Zone) -> Iterator[str]:
    """Yields the lines of a zone file whose state this is."""
    yield stored(library.dnw_zone_put_origin, origin, len(origin), byref(zone)).decode("ascii")
    if ttl is not None:
        yield stored(library.dnw_zone_put_ttl, ttl, byref(zone)).decode("ascii")
    for record in records:
        message, start = own_record("records", record)._message, record._start
        given, failed = (message, len(message), start, byref(zone)), partial(check, offset=start)
        yield stored(library.dnw_zone_put_record, *given, result=dnw.PrintedRecord(), failed=failed).decode("ascii")


# What a zone is found to have, by the numbers of the checks in `dns_names_wire.h`.
_REASONS = (
    "", "no SOA record is at the apex", "no NS record is at the apex", "the owner is not in the zone",
    "the class is not that of the first record", "a SOA record is not at the apex",
    "the owner has two records of a type of which there is one", "the time to live is not that of the set's first record",
    "the owner of a CNAME record has other data", "a DS record is not at a delegation",
    "the owner is below that of a DNAME record", "the owner is below a delegation, and the record is no address",
    "the owner is no name that hosts have", "the name of a server is an alias",
    "the name of a server has no address in the zone", "a DNAME record is beside NS records", "the owner of an NS record is a wildcard",
    "the digest does not have the length of its type", "the tag has other octets than letters and digits, or none",
    "the name of a server is the text of an address", "the name of a server, of another delegation, has no address in the zone",
    "the name of a host has no address in the zone",
)


class ZoneFinding(NamedTuple):
    """What a zone is found to have that the standards forbid or advise against. `str` shows it.

    `check` is the number of the check in `dns_names_wire.h`, `record` is the record that it is about, and `other` is another one
    that the record is not right beside. Both are `None` if no record is meant.
    """

    check: int
    reason: str
    is_error: bool
    record: Optional[Record]
    other: Optional[Record]

    def __str__(self) -> str:
        kind = "error" if self.is_error else "warning"
        shown = [str(record) for record in (self.record, self.other) if record is not None]
        return ": ".join([kind, self.reason] + ["; ".join(shown)] * bool(shown))


def check_zone(records: Iterable[Record], zone: NameLike) -> List[ZoneFinding]:
    """Returns what a zone has that the standards forbid or advise against, by its records, in any order: first what its apex
    lacks, and then what is found of each record, in canonical order of the owners (RFC 4034, section 6.1).

    Errors are what servers refuse, such as a CNAME record beside other data (RFC 2181, section 10.1), a name server of the zone
    without an address, or an owner that is not in the zone; warnings are, for one, different TTLs in a set (RFC 2181, section
    5.2). What DNSSEC asks of a zone is not checked.

    Raises `ValueError` if the zone is relative, and `TypeError` if an item is not a `Record`.

    >>> zone = [Record.from_text(line) for line in ("a. 60 NS ns.a.", "a. 60 SOA ns.a. h.a. 1 2 3 4 5", "b.a. 60 CNAME a.")]
    >>> for finding in check_zone(zone, "a."):
    ...     print(finding)
    error: the name of a server has no address in the zone: a. 60 IN NS ns.a.
    """
    wire, given = whole_name("zone", zone).wire, [own_record("records", record) for record in records]
    given.sort(key=lambda record: record.owner.sort_key())
    whole = b"".join(record.to_wire() for record in given)
    most, count = 2 + 10 * len(given), c_size_t()
    found = (dnw.ZoneFinding * most)()
    check(library.dnw_zone_check(wire, len(wire), whole, len(whole), found, most, byref(count)))
    return [_finding(it, given) for it in found[: count.value]]


def _finding(it: dnw.ZoneFinding, records: List[Record]) -> ZoneFinding:
    """Returns a finding of these records."""
    record, other = (records[number] if number < len(records) else None for number in (it.number, it.other))
    return ZoneFinding(it.check, _REASONS[it.check], it.is_error, record, other)
