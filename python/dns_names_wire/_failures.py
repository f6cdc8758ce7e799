# made by tools/types from include/dns_names_wire.h; change it there
"""An exception for each failure of the C library."""

from typing import Dict, Type

from ._errors import DnsError


class MessageCut(DnsError):
    """The message ends within the name, or before it."""

    number = 3


class PointerNotBack(DnsError):
    """A compression pointer does not point backwards, to before the segment that it ends."""

    number = 4


class ReservedOctet(DnsError):
    """An octet from 64 to 191 at the start of a label or a pointer."""

    number = 5


class SegmentsOverlap(DnsError):
    """A segment of the name runs into the one that points to it."""

    number = 6


class NameTooLong(DnsError):
    """A name of more than 255 octets."""

    number = 7


class LabelTooLong(DnsError):
    """A label of more than 63 octets."""

    number = 8


class BadText(DnsError):
    """A label that is empty, or a line of a master file that does not begin with a name."""

    number = 9


class NotUtf8(DnsError):
    """A text has no UTF-8, for example since it has half a surrogate pair, or that of an EDNS option is not UTF-8."""

    number = 10


class BytesLeft(DnsError):
    """Bytes follow a name that should end the input."""

    number = 11


class MessageTooLong(DnsError):
    """A message longer than its maximum."""

    number = 12


class UnknownText(DnsError):
    """A text that is not the name of a type or class."""

    number = 14


class NotOrdered(DnsError):
    """Two serial numbers that are 2^31 apart."""

    number = 15


class BadBitmap(DnsError):
    """A type bitmap that is not valid, or longer than 65535 octets."""

    number = 16


class BadTime(DnsError):
    """A text that is not a TTL, or a TTL above 4294967295 seconds."""

    number = 17


class TextCut(DnsError):
    """A text that ends within an escape, or after a carriage return."""

    number = 18


class IllegalCharacter(DnsError):
    """A character that is not allowed there."""

    number = 19


class ControlCharacter(DnsError):
    """A control character that is not white space."""

    number = 20


class UnclosedList(DnsError):
    """A text that ends within a list, before its `)`."""

    number = 21


class UnclosedQuote(DnsError):
    """A text that ends within a quoted text, before its closing quote."""

    number = 22


class UnknownEntry(DnsError):
    """A `$` that is not the start of $INCLUDE, $ORIGIN or $TTL."""

    number = 23


class WrongDataLength(DnsError):
    """The fields of a record's data do not end where the data do."""

    number = 24


class NotReverse(DnsError):
    """A name that is not the reverse name of an address or a net."""

    number = 26


class BadItem(DnsError):
    """An item of a message after one of a later section, or after the last one; or a reply to a response."""

    number = 27


class EmptyLabel(DnsError):
    """A text with an empty label."""

    number = 28


class BadEscape(DnsError):
    """An escape that is not three decimal digits up to 255."""

    number = 29


class TooManyPointers(DnsError):
    """The names of a message follow more compression pointers than the caller allows."""

    number = 30


class DuplicateEdns(DnsError):
    """A message with more than one OPT record."""

    number = 31


class OwnerNotRoot(DnsError):
    """An OPT record whose owner is not the root."""

    number = 32


class CutOption(DnsError):
    """An option of an OPT record that is cut."""

    number = 33


class BadParams(DnsError):
    """Service parameters that are not in ascending order."""

    number = 34


class BadData(DnsError):
    """A text or octets that are not data of the record type or of an option, or more than 65535."""

    number = 35


class NotRrsig(DnsError):
    """A record that should be an RRSIG and is of another type."""

    number = 36


class NotCovered(DnsError):
    """An RRSIG that covers none of the records."""

    number = 37


class TooFewLabels(DnsError):
    """An RRSIG whose owner has fewer labels than it counts."""

    number = 38


class DataTooLong(DnsError):
    """Data of more than 65535 octets, or a character string of more than 255, that should be written."""

    number = 39


class OutsideAdditionals(DnsError):
    """An OPT record in the Answer or Authority section of a message."""

    number = 40


class NotDnskey(DnsError):
    """Octets that are not the data of a DNSKEY record."""

    number = 41


class UnknownAlgorithm(DnsError):
    """An unknown digest type or hash algorithm."""

    number = 42


class TooManyIterations(DnsError):
    """More iterations of a hash than the caller allows."""

    number = 43


class BadFamily(DnsError):
    """An address, a prefix or a gateway that its family or type does not allow."""

    number = 44


CLASSES: Dict[int, Type[DnsError]] = {
    3: MessageCut, 4: PointerNotBack, 5: ReservedOctet, 6: SegmentsOverlap, 7: NameTooLong, 8: LabelTooLong, 9: BadText,
    10: NotUtf8, 11: BytesLeft, 12: MessageTooLong, 14: UnknownText, 15: NotOrdered, 16: BadBitmap, 17: BadTime,
    18: TextCut, 19: IllegalCharacter, 20: ControlCharacter, 21: UnclosedList, 22: UnclosedQuote, 23: UnknownEntry,
    24: WrongDataLength, 26: NotReverse, 27: BadItem, 28: EmptyLabel, 29: BadEscape, 30: TooManyPointers,
    31: DuplicateEdns, 32: OwnerNotRoot, 33: CutOption, 34: BadParams, 35: BadData, 36: NotRrsig, 37: NotCovered,
    38: TooFewLabels, 39: DataTooLong, 40: OutsideAdditionals, 41: NotDnskey, 42: UnknownAlgorithm,
    43: TooManyIterations, 44: BadFamily,
}
