"""Times whole responses through the Python package beside dnspython: messages.py FILE.., with messages in hexadecimal.

A response is read with all its records, whose owners, times to live and data are looked at; one that was made is written; one is
made of names and data and written; and one is made of a query that was read and of records, and written, as a server does. The two
take turns, round by round, and the median of the rounds is taken, in processor time, which other programs disturb less.
"""

import pathlib
import statistics
import sys
import time

import dns.flags
import dns.message
import dns.name
import dns.rdataclass
import dns.rdatatype
import dns.rrset
import dns.version

from dns_names_wire import Message, Record

ROUNDS = 31
SECONDS = 0.02
MOST = 65535


def read_ours(octets):
    message, seen = Message.from_wire(octets), 0
    for section in (message.answers, message.authorities, message.additionals):
        for record in section:
            seen += (record.owner is not None) + (record.data is not None) + record.ttl
    return seen


def read_theirs(octets):
    message, seen = dns.message.from_wire(octets), 0
    for section in (message.answer, message.authority, message.additional):
        for rrset in section:
            for data in rrset:
                seen += (rrset.name is not None) + (data is not None) + rrset.ttl
    return seen


def make_ours(parts):
    header, questions, *sections = parts
    made = ([Record(owner, ttl, data) for owner, ttl, data in section] for section in sections)
    return len(Message.build(header, questions, *made).to_wire(MOST))


def parts_of_ours(octets):
    message = Message.from_wire(octets)
    sections = [
        [(record.owner, record.ttl, record.data) for record in section]
        for section in (message.answers, message.authorities, message.additionals)
    ]
    return (message.header, message.questions, *sections)


def make_theirs(parts):
    message = dns.message.Message(0x1234)
    message.flags = parts[0]
    message.question.append(dns.rrset.RRset(*parts[1]))
    for section, sets in zip((message.answer, message.authority, message.additional), parts[2]):
        for name, ttl, data in sets:
            section.append(dns.rrset.from_rdata_list(name, ttl, data))
    return len(message.to_wire(max_size=MOST))


def parts_of_theirs(octets):
    message = dns.message.from_wire(octets)
    question = message.question[0]
    sections = [
        [(rrset.name, rrset.ttl, list(rrset)) for rrset in section]
        for section in (message.answer, message.authority, message.additional)
    ]
    return message.flags, (question.name, question.rdclass, question.rdtype), sections


def written_ours(message):
    return len(message.to_wire(MOST))


def written_theirs(message):
    return len(message.to_wire(max_size=MOST))


def query_of(octets):
    """The octets of the query that a response answers: its header without QR and without other sections, and its question."""
    asked = dns.message.from_wire(octets)
    query = dns.message.make_query(asked.question[0].name, asked.question[0].rdtype, use_edns=0 if asked.edns == 0 else False)
    return query.to_wire()


def replied_ours(parts):
    query, sections = parts
    return len(query.reply(*sections, authoritative=True).to_wire(MOST))


def reply_parts_of_ours(octets):
    sections = [[Record(*record) for record in section if record[2].record_type != 41] for section in parts_of_ours(octets)[2:]]
    return Message.from_wire(query_of(octets)), sections


def replied_theirs(parts):
    query, (answer, authority, additional) = parts
    message = dns.message.make_response(query)
    message.flags |= dns.flags.AA
    message.answer.extend(answer)
    message.authority.extend(authority)
    message.additional.extend(additional)
    return len(message.to_wire(max_size=MOST))


def reply_parts_of_theirs(octets):
    message = dns.message.from_wire(octets)
    return dns.message.from_wire(query_of(octets)), (message.answer, message.authority, message.additional)


# What each task does, and what it is done to: ours and theirs.
TASKS = {
    "read": ((read_ours, bytes), (read_theirs, bytes)),
    "write": ((written_ours, lambda octets: built(octets)), (written_theirs, dns.message.from_wire)),
    "make": ((make_ours, parts_of_ours), (make_theirs, parts_of_theirs)),
    "reply": ((replied_ours, reply_parts_of_ours), (replied_theirs, reply_parts_of_theirs)),
}


def built(octets):
    header, questions, *sections = parts_of_ours(octets)
    return Message.build(header, questions, *([Record(*record) for record in section] for section in sections))


def timed(task, value, count):
    start = time.process_time()
    for _ in range(count):
        task(value)
    return (time.process_time() - start) / count


def main(files):
    print(f"microseconds of processor time of a response; Python {sys.version.split()[0]}, dnspython {dns.version.version}")
    print(f"{'response':10} {'task':8} {'ours':>10} {'dnspython':>16} {'times':>6}")
    for file in files:
        octets = bytes.fromhex(pathlib.Path(file).read_text())
        for name, contenders in TASKS.items():
            plans = [(task, make(octets)) for task, make in contenders]
            counts = [max(1, int(SECONDS / timed(*plan, 20))) for plan in plans]
            rounds = [[timed(*plan, count) for plan, count in zip(plans, counts)] for _ in range(ROUNDS)]
            ours, theirs = (1e6 * statistics.median(column) for column in zip(*rounds))
            print(f"{pathlib.Path(file).stem:10} {name:8} {ours:10.1f} {theirs:16.1f} {theirs / ours:6.1f}")


if __name__ == "__main__":
    main(sys.argv[1:])
