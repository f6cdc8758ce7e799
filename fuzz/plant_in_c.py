#!/usr/bin/env python3
"""Plants functions of C that report out of memory while there is memory, for what is ordinary, and says which of them the tests see.

usage: fuzz/plant_in_c.py LIBRARY [FUNCTION..]        LIBRARY is libdns_names_wire.a

Each function of the header that can fail with DNW_NO_MEMORY gets another one in front of it, by the linker, which fails so for one number
of octets, names, records or seconds of its input: each number from 0 to 40, and some above. c/test_ample.c has to fail then. Those that
take records get one that fails so for one type of the first record: each type of c/test_ample_types.c, which has to fail. The last line
is `N seen, N unseen`. It takes a minute.
"""

import os
import pathlib
import re
import subprocess
import sys
import tempfile

import callers

ROOT = pathlib.Path(__file__).resolve().parent.parent
NUMBERS = (*range(41), 100, 127, 128, 255, 256, 468, 512, 600, 1024, 4096)
# What the number of a function is, by its parameters; and what its first record is. No number is -1.
OF_DATA = "data_len_of(message, message_len)"
SUBJECTS = {
    "dnw_data_parse": "text_len - 9",  # spaces before an address
    "dnw_data_text_fault": "text_len - 7",
    "dnw_message_json": "message_len < 12 ? -1 : message[4] << 8 | message[5]",
    "dnw_message_pack": "message_len < 12 ? -1 : message[6] << 8 | message[7]",
    "dnw_message_print": "message_len < 12 ? -1 : message[4] << 8 | message[5]",
    "dnw_names_sort": "names_len / 7",
    "dnw_names_write": "names_len",
    "dnw_option_print": "data_len",
    "dnw_option_write": "rest_len",
    "dnw_record_data": OF_DATA,
    "dnw_record_parse": "text_len - 19",  # spaces in a line of 19 others
    "dnw_record_print": OF_DATA,
    "dnw_record_sort_key": OF_DATA,
    "dnw_record_text_fault": "text_len - 19",
    "dnw_signed_octets": "records_in(section_end - 30)",
    "dnw_text_fault_print": "fault->offset",
    "dnw_token_next": "text_len - 1",
    "dnw_ttl_parse": "text_len - 1",
    "dnw_types_read": "bitmap_len",
    "dnw_types_write": "codes_count",
    "dnw_zone_check": "records_in(records_len)",
    "dnw_zone_digest": "records_in(records_len)",
    "dnw_zone_next": "text_len - 1",
    "dnw_zone_put_origin": "origin_len / 2",
    "dnw_zone_put_record": OF_DATA,
    "dnw_zone_put_ttl": "ttl",
    "dnw_zone_read": "(text_len - 14) / 3",  # octets in the form of any data
}
TYPES = {
    "dnw_data_parse": "record_type",
    "dnw_data_text_fault": "record_type",
    "dnw_message_json": "type_of(message + 12, message_len - 12)",
    "dnw_message_pack": "type_of(message + 12, message_len - 12)",
    "dnw_message_print": "type_of(message + 12, message_len - 12)",
    "dnw_record_data": "type_of(message, message_len)",
    "dnw_record_print": "type_of(message, message_len)",
    "dnw_record_sort_key": "type_of(message, message_len)",
    "dnw_signed_octets": "type_of(message + start, section_end - start)",
    "dnw_zone_check": "type_of(records, records_len)",
    "dnw_zone_digest": "type_of(records, records_len)",
    "dnw_zone_put_record": "type_of(message, message_len)",
}
# No name has more labels.
MOST = {"dnw_zone_put_origin": 127}
HEAD = """#include "dns_names_wire.h"
#include <stdlib.h>
#include <string.h>

static long asked(const char *name)
{
    const char *value = getenv(name);
    return value == NULL ? -2 : atol(value);
}

static long data_len_of(const uint8_t *record, size_t len)
{
    return len < 11 || record[0] != 0 ? -1 : record[9] << 8 | record[10];
}

/* So many records of four octets of data. */
static long records_in(size_t len)
{
    return len % 15 == 0 ? (long)(len / 15) : -1;
}

static long type_of(const uint8_t *record, size_t len)
{
    return len < 11 || record[0] != 0 ? -1 : record[1] << 8 | record[2];
}

static bool is_planted(const char *function, long number, long record_type)
{
    const char *planted = getenv("PLANTED");
    return planted != NULL && strcmp(function, planted) == 0 && (number == asked("NUMBER") || record_type == asked("TYPE"));
}
"""


def wrapper(function):
    """A function in front of one of the library."""
    declared = ", ".join(f"{'const ' if it.is_const else ''}{it.type} {'*' if it.is_pointer else ''}{it.name}" for it in function.parameters)
    name, passed = function.name, ", ".join(it.name for it in function.parameters)
    planted = f'is_planted("{name}", (long)({SUBJECTS[name]}), (long)({TYPES.get(name, "-1")}))'
    return f"""
uint32_t __real_{name}({declared});
uint32_t __wrap_{name}({declared});
uint32_t __wrap_{name}({declared})
{{
    return {planted} ? DNW_NO_MEMORY : __real_{name}({passed});
}}
"""


def build(room, library, listed):
    """Compiles both tests with all functions in front of those of the library."""
    (room / "wraps.c").write_text(HEAD + "".join(wrapper(it) for it in listed), encoding="utf-8")
    flags = ["-std=c11", "-O1", "-Wall", "-Wextra", "-Werror", "-Wno-unused-function", f"-I{ROOT / 'include'}", f"-I{ROOT / 'c'}", *(f"-Wl,--wrap={it.name}" for it in listed)]
    for test in ("test_ample", "test_ample_types"):
        subprocess.run(["cc", *flags, ROOT / f"c/{test}.c", room / "wraps.c", library, "-o", room / test], check=True)


def is_seen(command, **planted):
    """Whether a test fails with what is planted."""
    ran = subprocess.run(command, env={**os.environ, **planted}, stderr=subprocess.PIPE, text=True, check=False)
    if ran.returncode != 0 and ": failed: " not in ran.stderr:
        sys.exit(f"plant_in_c: {command} ended with {ran.returncode}: {ran.stderr}")
    return ran.returncode != 0


def main(library, *names):
    listed, _, failures, _ = callers.read_header()
    listed = [it for it in listed if "DNW_NO_MEMORY" in callers.errors(it, listed, failures)]
    if {it.name for it in listed} != set(SUBJECTS):
        sys.exit(f"plant_in_c: SUBJECTS is not of these functions: {sorted({it.name for it in listed} ^ set(SUBJECTS))}")
    listed = [it for it in listed if not names or it.name in names]
    types = re.findall(r'^    \{(\d+), "', (ROOT / "c/test_ample_types.c").read_text(encoding="utf-8"), re.M)
    seen, unseen = 0, 0
    with tempfile.TemporaryDirectory(prefix="plant-") as folder:
        room = pathlib.Path(folder)
        build(room, library, listed)
        for command in (["test_ample", *names], ["test_ample_types"]) if not names else ():
            if is_seen([room / command[0]]):
                sys.exit(f"plant_in_c: {command[0]} fails, and nothing is planted")
        for it in listed:
            numbers = [n for n in NUMBERS if n <= MOST.get(it.name, n)]
            lost = [f"number {n}" for n in numbers if not is_seen([room / "test_ample", it.name], PLANTED=it.name, NUMBER=str(n))]
            tried = len(numbers)
            if it.name in TYPES:
                lost += [f"type {kind}" for kind in types if not is_seen([room / "test_ample_types"], PLANTED=it.name, TYPE=kind)]
                tried += len(types)
            print(f"{it.name}: {tried - len(lost)} of {tried} seen{'; NOT SEEN: ' if lost else ''}{', '.join(lost)}", flush=True)
            seen, unseen = seen + tried - len(lost), unseen + len(lost)
    print(f"{seen} seen, {unseen} unseen")
    return 1 if unseen else 0


if __name__ == "__main__":
    sys.exit(main(*sys.argv[1:]) if len(sys.argv) > 1 else __doc__)
