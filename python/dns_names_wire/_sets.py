"""Sets of records."""

from typing import Dict, FrozenSet, Iterable, List, NoReturn, Sequence, Tuple, Union, final, overload

from ._codes import RecordClass, RecordType
from ._data import Data, NameLike, TypeLike
from ._names import Name
from ._records import Record, own_record


@final
class RRset(Sequence[Record]):
    """The records of one owner, class and type, each once and in their order: an immutable sequence (RFC 2181, section 5).

    Two sets are equal if they have the same records in any order, as records compare: the TTL makes no difference.

    >>> from dns_names_wire import A, Record
    >>> addresses = RRset.of("a.", 60, [A("192.0.2.1"), A("192.0.2.2")])
    >>> print(addresses)
    a. 60 IN A 192.0.2.1
    a. 60 IN A 192.0.2.2
    >>> len(addresses), addresses.record_type, Record("A.", 5, A("192.0.2.2")) in addresses
    (2, RecordType.A, True)
    >>> addresses == RRset(reversed(addresses))
    True
    """

    __slots__ = ("_records",)

    _records: Tuple[Record, ...]

    def __init_subclass__(cls) -> NoReturn:
        raise TypeError("RRset has no subclasses")

    def __init__(self, records: Iterable[Record]) -> None:
        """Raises `ValueError` if there are no records, or they have more than one owner, class or type."""
        found = [own_record("records", record) for record in records]
        keys = {(record.owner, record.record_class, record.record_type) for record in found}
        if len(keys) != 1:
            raise ValueError(f"records: they have {len(keys)} owners, classes and types, and a set has one")
        self._records = tuple(dict.fromkeys(found)) if len(found) > 1 else tuple(found)

    @classmethod
    def of(cls, owner: NameLike, ttl: int, data: Iterable[Data], record_class: TypeLike = RecordClass.IN) -> "RRset":
        """Returns the set of the records with an owner, a TTL and these data."""
        return cls(Record(owner, ttl, one, record_class) for one in data)

    @property
    def owner(self) -> Name:
        """The owner of the first record."""
        return self._records[0].owner

    @property
    def record_class(self) -> RecordClass:
        """The class of the records."""
        return self._records[0].record_class

    @property
    def record_type(self) -> RecordType:
        """The type of the records."""
        return self._records[0].record_type

    @property
    def ttl(self) -> int:
        """The least TTL of the records; they should have one (RFC 2181, section 5.2)."""
        return min(record.ttl for record in self._records)

    @property
    def data(self) -> Tuple[Data, ...]:
        """The data of each record. Raises as `Record.fields`."""
        return tuple(record.data for record in self._records)

    @overload
    def __getitem__(self, index: int) -> Record: ...

    @overload
    def __getitem__(self, index: slice) -> Tuple[Record, ...]: ...

    def __getitem__(self, index: Union[int, slice]) -> Union[Record, Tuple[Record, ...]]:
        return self._records[index]

    def __len__(self) -> int:
        return len(self._records)

    def __eq__(self, other: object) -> bool:
        if not isinstance(other, RRset):
            return NotImplemented
        return self._all() == other._all()

    def __hash__(self) -> int:
        return hash(self._all())

    def _all(self) -> FrozenSet[Record]:
        return frozenset(self._records)

    def __str__(self) -> str:
        return "\n".join(map(str, self._records))

    def __repr__(self) -> str:
        return f"<RRset {self.owner} {self.record_class} {self.record_type} [{len(self)}]>"


def rrsets(records: Iterable[Record]) -> Tuple[RRset, ...]:
    """Returns the sets of these records, in the order of their first records.

    >>> from dns_names_wire import Record
    >>> lines = "a. 60 IN NS b.a.", "b.a. 60 IN A 192.0.2.1", "A. 60 IN NS c.a."
    >>> rrsets(map(Record.from_text, lines))
    (<RRset a. IN NS [2]>, <RRset b.a. IN A [1]>)
    """
    found: Dict[Tuple[Name, int, int], List[Record]] = {}
    for record in map(lambda one: own_record("records", one), records):
        found.setdefault((record.owner, record.record_class, record.record_type), []).append(record)
    return tuple(map(RRset, found.values()))
