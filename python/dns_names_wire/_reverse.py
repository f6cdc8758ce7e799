"""Reverse names of addresses."""

import ipaddress
from ctypes import byref, c_char
from typing import Union

from . import _header as dnw
from ._errors import check, stored
from ._library import library, taken
from ._names import Name, wire_of

Address = Union[ipaddress.IPv4Address, ipaddress.IPv6Address]
Network = Union[ipaddress.IPv4Network, ipaddress.IPv6Network]


def reverse_name(address: Union[Address, str]) -> Name:
    """Returns the reverse name of an address, which owns its PTR records (RFC 1035, section 3.5; RFC 3596, section
    2.5).

    Raises `ValueError` for a text that is not an address.

    >>> reverse_name("192.0.2.1")
    Name('1.2.0.192.in-addr.arpa.')
    """
    octets = ipaddress.ip_address(address).packed
    return Name._of(stored(library.dnw_reverse_name, octets, len(octets)), True)


def parse_reverse_name(name: Name) -> Network:
    """Returns the net of a reverse name. The net of an address's reverse name has that one address.

    Raises `NotReverse` if the name is not fully qualified, is not below `in-addr.arpa.` or `ip6.arpa.`, has a label
    that is not an octet in decimal or a hexadecimal digit, or has more labels than an address.

    >>> parse_reverse_name(Name("168.192.in-addr.arpa."))
    IPv4Network('192.168.0.0/16')
    """
    wire, length = wire_of("name", name)
    if not name.is_fqdn:
        check(dnw.NOT_REVERSE)
    address, net = (c_char * 16)(), dnw.Net()
    check(library.dnw_reverse_parse(wire, length, address, len(address), byref(net)))
    return ipaddress.ip_network((taken(address, net.len), net.prefix_len))
