#!/usr/bin/env python3
"""Makes lists/codes.txt: requests for codes, keys, sets of types and serial numbers, by a generator with fixed seeds, and the
answers of an oracle, a program over hickory-proto 0.26.3 that answers requests line by line.

    make_codes.py ORACLE    writes the list

Ranges of codes and runs of bitmaps are folded into checksums (FNV-1a of 64 bits over a line for each answer). `Unknown` of
a code that has a name is left out: the Rust takes it for the same type in an order, and for another elsewhere.
"""
import os
import sys

from oracle import Oracle, Random, hexed

TESTS = "any cert cname ns soa srv ip_addr dnssec rrsig zero".split()
NAMES = """A AAAA ANAME ANY AXFR CAA CDNSKEY CDS CERT CNAME CSYNC DNAME DNSKEY DS HINFO HTTPS IXFR KEY MX NAPTR NS NSEC NSEC3
NSEC3PARAM NULL OPENPGPKEY OPT PTR RRSIG SIG SMIMEA SOA SRV SSHFP SVCB TLSA TSIG TXT ZERO Unknown *""".split()
LABELS = b"a A b B ab aB * z".split()
CLASSES = "IN CH HS NONE ANY OPT UNKNOWN *".split()


def checksum(lines):
    sum = 14695981039346656037
    for byte in "".join(line + "\n" for line in lines).encode():
        sum = (sum ^ byte) * 1099511628211 % 2**64
    return sum


def error(answer):
    """The error's Debug text without blanks."""
    return answer[4:].split("\t")[0].replace(" ", "")


def type_line(answer):
    _, code, debug, name, _, tests = answer.split()
    return " ".join([code, debug, name] + [test for test, holds in zip(TESTS, tests) if holds == "1"])


def class_line(answer):
    return " ".join(answer.split()[1:4])


def set_line(answer):
    if answer.startswith("err"):
        return f"{error(answer)} 0"
    _, codes, cursor, emitted = answer.split()
    return f"{codes.replace('U', '')} {emitted} {cursor}"


def bitmap(random):
    """As `bitmap` of replay/src/codes.rt."""
    form, windows, out, window = random.below(4), 1 + random.below(3), bytearray(), random.below(3)
    for _ in range(windows):
        len_ = random.below(36) if form == 2 else 1 + random.below(8)
        out += bytes([window, len_])
        for _ in range(len_):
            out.append(random.below(256) if random.below(3) == 0 else 0)
        window = random.below(3) if form == 3 else window + 1 + random.below(3)
    size = len(out)
    if form == 1:
        del out[random.below(size + 1):]
    if form == 2:
        at = random.below(size)
        out[at] = random.below(256)
    return bytes(out)


def near(names):
    """Texts that are nearly names."""
    for name in names:
        yield from (name, name.lower(), name.capitalize(), name + "X", name[:-1], "X" + name, name + name, name + "1", name + "*",
                    name[::-1], name[1:], name.swapcase()[:1] + name[1:])
    yield from ("TYPE1", "CLASS1", "1", "**", "a*", "NSEC4", "ÄAAA", "A\u0301", "É", "UNKNOWN", "unknown")


def key_words(key, between):
    flag, labels, code = key
    return [f"{flag}{between}{','.join(label.hex() for label in labels) or '-'}", str(code)]


def main(oracle):
    out = ["# Codes, sets of types and serial numbers: answers of hickory-proto 0.26.3, by diff/make_codes.py."]
    types = oracle.ask([f"type {code}" for code in range(65536)])
    classes = oracle.ask([f"class {code}" for code in range(65536)])
    for first in range(0, 65536, 4096):
        end = first + 4096
        out.append(f"types {first} {end} = {checksum(map(type_line, types[first:end]))}")
        out.append(f"classes {first} {end} = {checksum(map(class_line, classes[first:end]))}")
    out += [f"type {code} = {type_line(types[code])}" for code in range(65536) if "Unknown" not in types[code]]
    out += [f"class {code} = {class_line(classes[code])}" for code in range(65536) if "Unknown" not in classes[code]]

    random = Random(1)
    sizes = [0, 1, 511, 512, 513, 4096, 65535] + [random.below(65536) for _ in range(50)]
    out += [f"for-opt {n} = {a.split()[2]}" for n, a in zip(sizes, oracle.ask([f"for_opt {n}" for n in sizes]))]
    codes = [random.below(300) if random.below(2) else random.below(65536) for _ in range(800)]
    pairs = [(codes[i], codes[i] if i % 16 == 0 else codes[i + 1]) for i in range(0, len(codes), 2)]
    for kind in "type", "class":
        for (a, b), answer in zip(pairs, oracle.ask([f"{kind}-cmp {a} {b}" for a, b in pairs])):
            cmp, eq, hash = (word.split("=")[1] for word in answer.split())
            out.append(f"{kind}-cmp {a} {b} = {cmp} {'true' if eq == '1' else 'false'} {'true' if hash == '1' else 'false'}")
    for kind, names in ("type", NAMES), ("class", CLASSES):
        texts = sorted(text for text in set(near(names)) if text and " " not in text)
        answers = oracle.ask([f"{kind}-str {text.encode().hex()}" for text in texts])
        for text, answer in zip(texts, answers):
            told = answer.split()[2] if answer.startswith("ok") else error(answer)
            out.append(f"{kind}-name {text} = {told}")

    edges = [0, 1, 2, 2**31 - 2, 2**31 - 1, 2**31, 2**31 + 1, 2**32 - 2, 2**32 - 1]
    serials = [(a, b) for a in edges for b in edges]
    for _ in range(2000):
        a = random.below(2**31) * 2 + random.below(2)
        apart = [random.below(2**31), 2**31 - 2 + random.below(5), random.below(3)][random.below(3)]
        serials.append((a, (a + apart) % 2**32 if random.below(2) else (a - apart) % 2**32))
    for (a, b), answer in zip(serials, oracle.ask([f"serial {a} {b}" for a, b in serials])):
        cmp, eq, sum = (word.split("=")[1] for word in answer.split())
        out.append(f"serial {a} {b} = {cmp} {'true' if eq == '1' else 'false'} {sum}")

    random = Random(2)
    bitmaps = [bitmap(random) for _ in range(3000)]
    for octets, answer in zip(bitmaps, oracle.ask([f"typeset-read {len(b)} {hexed(b)}" for b in bitmaps])):
        out.append(f"set-read {len(octets)} {hexed(octets)} = {set_line(answer)}")
    short = [(random.below(len(b) + 3), b) for b in bitmaps[:500]]
    for (size, octets), answer in zip(short, oracle.ask([f"typeset-read {n} {hexed(b)}" for n, b in short])):
        out.append(f"set-read {size} {hexed(octets)} = {set_line(answer)}")
    for seed in range(3, 103):
        random = Random(seed)
        run = [bitmap(random) for _ in range(1000)]
        answers = oracle.ask([f"typeset-read {len(b)} {hexed(b)}" for b in run])
        out.append(f"sets {seed} 1000 = {checksum(map(set_line, answers))}")

    random = Random(103)
    listed = [[[random.below(64), random.below(300), random.below(65536)][random.below(3)] for _ in range(random.below(12))] for _ in range(1000)]
    members = oracle.ask([f"typeset-new {' '.join(map(str, l))}".rstrip() for l in listed])
    octets = oracle.ask([f"typeset-emit {' '.join(map(str, l))}".rstrip() for l in listed])
    for codes, own, emitted in zip(listed, members, octets):
        out.append(f"set-new {','.join(map(str, codes)) or '-'} = {own.split()[1].replace('U', '')} {emitted.split()[1]}")

    random = Random(104)
    keys = [(random.below(2), [random.pick(LABELS) for _ in range(random.below(3))], random.below(4)) for _ in range(400)]
    asked = [f"key-cmp {' '.join(key_words(keys[i], ' ') + key_words(keys[i + 1], ' '))}" for i in range(0, 400, 2)]
    for i, answer in enumerate(oracle.ask(asked)):
        cmp, eq, hash = (word.split("=")[1] for word in answer.split())
        pair = " ".join(key_words(keys[2 * i], ":") + key_words(keys[2 * i + 1], ":"))
        out.append(f"key-cmp {pair} = {cmp} {'true' if eq == '1' else 'false'} {'true' if hash == '1' else 'false'}")

    path = os.path.join(os.path.dirname(os.path.abspath(__file__)), "lists", "codes.txt")
    with open(path, "w") as file:
        file.write("\n".join(out) + "\n")


if __name__ == "__main__":
    main(Oracle(sys.argv[1]))
