#!/usr/bin/env python3
"""Makes the list of the Rust's answers on order, equality, hash and edits: requests by a generator with a fixed seed,
answers by an oracle, a program over hickory-proto 0.26.3 that answers requests line by line.

    make_order.py ORACLE    writes lists/ordering.txt

README.md has the format.
"""
import os
import re
import sys

from oracle import Oracle, Random

LETTERS = "0123456789ABCDEFGHIJKLMNOPQRSTUVWXYZabcdefghijklmnopqrstuvwxyz-_"
ORDERS = {"Less": 0, "Equal": 1, "Greater": 2}
WORDS = b"a b z A Z example Example www WWW com net x-y _tcp * localhost 0 9 aa ab".split()


def flat(name):
    """A name as the list writes it."""
    flag, labels = name
    return f"{flag}:" + (",".join(l.hex() for l in labels) or "-")


def asked(name):
    return flat(name).replace(":", " ")


def size(labels):
    return 1 + sum(len(l) + 1 for l in labels)


def some_label(r):
    kind = r.below(8)
    if kind < 4:
        return r.pick(WORDS)
    if kind < 6:
        return bytes(r.below(256) for _ in range(1 + r.below(3)))
    if kind == 6:
        return bytes([r.pick([64, 65, 90, 91, 96, 97, 122, 123, 0, 31, 32, 127, 128, 255])])
    return bytes(r.pick(b"aAbB") for _ in range(1 + r.below(20)))


def some_name(r, most=6):
    return [r.below(2), [some_label(r) for _ in range(r.below(most))]]


def near(r, name):
    """A name that differs little, or in case or in the flag alone."""
    flag, labels = name[0], list(name[1])
    kind = r.below(9)
    if kind == 0:
        flag = 1 - flag
    elif kind == 1:
        labels = [bytes(c ^ 32 if chr(c).isascii() and chr(c).isalpha() and r.below(2) else c for c in l) for l in labels]
    elif kind == 2 and labels:
        labels = labels[1:]
    elif kind == 3 and labels:
        labels = labels[:-1]
    elif kind == 4:
        labels = [some_label(r)] + labels
    elif kind == 5 and labels:
        i = r.below(len(labels))
        label = bytearray(labels[i])
        j = r.below(len(label))
        label[j] = (label[j] + r.pick([1, 255, 32, 224])) % 256
        labels[i] = bytes(label)
    elif kind == 6 and len(labels) > 1:
        i = r.below(len(labels) - 1)
        labels[i : i + 2] = [(labels[i] + labels[i + 1])[:63]]
    elif kind == 7 and labels:
        i = r.below(len(labels))
        if len(labels[i]) > 1:
            cut = 1 + r.below(len(labels[i]) - 1)
            labels[i : i + 1] = [labels[i][:cut], labels[i][cut:]]
    elif labels:
        i = r.below(len(labels))
        labels[i] = (labels[i] + bytes([r.pick([0, 1, 42, 97, 255])]))[:63]
    return [flag, labels] if size(labels) <= 255 else name


def family(r, count):
    names = [some_name(r)]
    while len(names) < count:
        names.append(near(r, r.pick(names)))
    return names


def large(r):
    """A name of 255 octets, or nearly."""
    kind = r.below(3)
    if kind == 0:
        labels = [bytes([r.pick(b"aA")]) for _ in range(127)]
    else:
        labels = [bytes(r.pick(b"aAbz") for _ in range(n)) for n in [63, 63, 63, 61]]
    return [1, labels]


def sets_of_names(r):
    for _ in range(290):
        yield family(r, 16)
    # each octet as a label
    for start in range(0, 256, 16):
        yield [[1, [bytes([c]), b"a"]] for c in range(start, start + 16)]
    # a letter, its capital and the octets that lie as far apart
    yield [[1, [bytes([c])]] for c in (64, 65, 90, 91, 96, 97, 122, 123, 32, 33, 58, 59, 192, 193, 224, 225)]
    for _ in range(8):
        names = [large(r)]
        while len(names) < 5:
            names.append(near(r, r.pick(names)))
        yield names


def pairs(names):
    return [(a, b) for a in names for b in names]


def fields(answer):
    return dict(part.split("=") for part in answer.split())


def order_word(answer):
    f = fields(answer)
    orders = 3 * ORDERS[f["cmp"]] + ORDERS[f["cmp_case"]] + 9 * int(f["hash"])
    tests = [f[key] for key in ("eq", "eq_case", "eq_root", "eq_root_case", "zone", "zone_case")]
    return LETTERS[orders] + LETTERS[sum(int(test) << i for i, test in enumerate(tests))]


def label_word(answer):
    f = fields(answer)
    return LETTERS[3 * ORDERS[f["cmp"]] + ORDERS[f["case"]] + 9 * int(f["hash"])] + LETTERS[int(f["eq"])]


def lower_word(answer):
    f = fields(answer)
    return LETTERS[ORDERS[f["cmp"]]] + LETTERS[int(f["eq"]) + 2 * int(f["zone"]) + 4 * int(f["hash"])]


def lists_of_pairs(oracle, kind, request, word, write, sets):
    sets = list(sets)
    answers = iter(oracle.ask([f"{request} {write(a)} {write(b)}" for items in sets for a, b in pairs(items)]))
    for items in sets:
        words = " ".join(word(next(answers)) for _ in pairs(items))
        yield f"{kind} {' '.join(flat(it) if kind != 'label-order' else it.hex() for it in items)} = {words}"


def result(answer):
    """A name or an error, as the list writes it."""
    if answer.startswith("ok "):
        flag, labels = answer.split()[1:3]
        return f"{flag}:{labels}"
    error = answer[len("err ") :].split("\t")[0]
    # our error does not list those of the labels
    error = re.sub(r'Msg\("error converting some labels.*"\)', 'Msg("error converting some labels")', error)
    return error.replace(" ", "")


def edits(oracle, r):
    names = [some_name(r, 8) for _ in range(560)] + [large(r) for _ in range(3)]
    requests = []
    for name in names:
        counts = range(len(name[1]) + 2)
        requests.append([f"name {asked(name)}"] + [f"{call} {asked(name)}" for call in ("base_name", "into_wildcard", "to_lowercase")]
                        + [f"trim_to {n} {asked(name)}" for n in counts])
    answers = iter(oracle.ask([it for some in requests for it in some]))
    for name, some in zip(names, requests):
        said = [next(answers) for _ in some]
        back = fields(said[0])["back"]
        yield f"edits {flat(name)} = {' '.join([back] + [result(it) for it in said[1:]])}"


def joins(oracle, r):
    requests = []
    for _ in range(300):
        name, other, label = some_name(r), some_name(r), some_label(r)
        requests.append((f"append_name {flat(name)} {flat(other)}", f"append_name {asked(name)} {asked(other)}"))
        requests.append((f"append_domain {flat(name)} {flat(other)}", f"append_domain {asked(name)} {asked(other)}"))
        for call in ("append_label", "prepend_label"):
            requests.append((f"{call} {flat(name)} {label.hex()}", f"{call} {asked(name)} {label.hex()}"))
    # at the limit of 255 octets, on both sides of it
    for octets in range(56, 64):
        name = [1, [b"a" * 63, b"b" * 63, b"c" * 62]]
        for call in ("append_label", "prepend_label"):
            requests.append((f"{call} {flat(name)} {'64' * octets}", f"{call} {asked(name)} {'64' * octets}"))
        for call in ("append_name", "append_domain"):
            other = [0, [b"x", b"d" * octets, b"y"]]
            requests.append((f"{call} {flat(name)} {flat(other)}", f"{call} {asked(name)} {asked(other)}"))
    for octets in (0, 64, 65):
        label = "64" * octets or "-"
        requests.append((f"prepend_label 1:61 {label}", f"prepend_label 1 61 {label}"))
    for (request, _), answer in zip(requests, oracle.ask([it[1] for it in requests])):
        yield f"{request} = {result(answer)}"


def from_labels(oracle, r):
    requests = []
    for _ in range(400):
        labels = [some_label(r) for _ in range(1 + r.below(7))]
        if r.below(4) == 0:
            labels[r.below(len(labels))] = r.pick([b"", b"x" * 64, b"y" * 63])
        if labels != [b""]:
            requests.append(labels)
    for count in (126, 127, 128, 255, 256, 257):
        requests.append([b"a"] * count)
        requests.append([b"a"] * count + [b""])
    requests.append([b"a" * 63] * 3 + [b"a" * 61])
    requests.append([b"a" * 63] * 3 + [b"a" * 62])
    asked_of = ["from_labels " + ",".join(l.hex() for l in labels) for labels in requests]
    for labels, answer in zip(requests, oracle.ask(asked_of)):
        words = " ".join(l.hex() or "-" for l in labels)
        yield f"from_labels {words} = {result(answer)}"


def sets_of_labels(r):
    for _ in range(70):
        labels = [some_label(r)]
        while len(labels) < 16:
            label = bytearray(r.pick(labels))
            i = r.below(len(label))
            label[i] = (label[i] + r.pick([0, 1, 255, 32, 224])) % 256
            labels.append(bytes(label) if r.below(2) else bytes(label)[: 1 + r.below(len(label))])
        yield labels


def main():
    oracle = Oracle(sys.argv[1])
    r = Random(6)
    with open(os.path.join(os.path.dirname(__file__), "lists", "ordering.txt"), "w") as out:
        print("# Answers of hickory-proto 0.26.3, by diff/make_order.py. README.md has the format.", file=out)
        for lines in (
            lists_of_pairs(oracle, "order", "cmp", order_word, asked, sets_of_names(r)),
            lists_of_pairs(oracle, "label-order", "label-cmp", label_word, bytes.hex, sets_of_labels(r)),
            lists_of_pairs(oracle, "lower-order", "lower-cmp", lower_word, asked, (family(r, 16) for _ in range(60))),
            edits(oracle, r),
            joins(oracle, r),
            from_labels(oracle, r),
        ):
            for line in lines:
                print(line, file=out)


if __name__ == "__main__":
    main()
