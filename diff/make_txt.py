#!/usr/bin/env python3
"""Makes lists/tokens.txt, the list of the Rust's tokens and times: texts by a generator with a fixed seed, answers by an oracle,
a program over hickory-proto 0.26.3 that answers requests line by line.

    make_txt.py ORACLE    writes lists/tokens.txt and zones/counts

README.md has the format. The Rust differs on purpose in three ways: a list that the text leaves open may give a word or
nothing, the error of an unrecognized word after a `$` does not say which, and a lexer goes on after an error. What is
written for such texts is what `expected` below says; for all others the two are compared here, and have to agree.
"""
import os
import re
import sys
import unicodedata

from oracle import Oracle, Random, hexed

# White space, as Rust's `char::is_whitespace` has it.
SPACE = set("\t\n\x0b\x0c\r \x85\xa0\u1680\u2028\u2029\u202f\u205f\u3000") | {chr(c) for c in range(0x2000, 0x200B)}
CONTROL = {chr(c) for c in [*range(0x20), *range(0x7F, 0xA0)]}
WORDS = {"INCLUDE": "include", "ORIGIN": "origin", "TTL": "ttl"}


class Fault(Exception):
    pass


def hex_of(text):
    return text.encode().hex()


def is_numeric(c):
    return unicodedata.category(c) in ("Nd", "Nl", "No")


# ---- what the tokens of a text are, in the list's words

def line_end(text, i):
    while i < len(text) and text[i] == "\r":
        i += 1
    if i == len(text):
        raise Fault("!eof")
    if text[i] != "\n":
        raise Fault("!illegal:" + hex_of(text[i]))
    return "eol", i + 1, True


def word_from(text, i, ends):
    start = i
    while i < len(text) and text[i] not in SPACE and text[i] not in ends:
        if text[i] in CONTROL:
            raise Fault("!char:" + hex_of(text[i]))
        if text[i] == ")":
            raise Fault("!illegal:" + hex_of(text[i]))
        i += 1
    return text[start:i], i


def after_comment(text, i):
    while i < len(text) and text[i] not in "\r\n":
        i += 1
    return i


def list_from(text, i):
    words = []
    while i < len(text):
        if text[i] == ")":
            return "l:" + ",".join(map(hex_of, words)), i + 1, False
        if text[i] == ";":
            i = after_comment(text, i)
        elif text[i] in SPACE:
            i += 1
        else:
            word, i = word_from(text, i, ";)")
            words.append(word)
    raise Fault("!list")


def escape_from(text, i):
    if i == len(text):
        raise Fault("!eof")
    if text[i] in CONTROL:
        raise Fault("!illegal:" + hex_of(text[i]))
    if not is_numeric(text[i]):
        return text[i], i + 1
    value = 0
    for _ in range(3):
        if i == len(text):
            raise Fault("!eof")
        if text[i] not in "0123456789":
            raise Fault("!illegal:" + hex_of(text[i]))
        value, i = 256 * value + int(text[i]), i + 1
    return chr(value), i


def quoted_from(text, i):
    out = ""
    while i < len(text):
        if text[i] == '"':
            return "c:" + hex_of(out), i + 1, False
        if text[i] == "\\":
            c, i = escape_from(text, i + 1)
        else:
            c, i = text[i], i + 1
        out += c
    raise Fault("!quote")


def token_from(text, i, starts):
    """The token at i, where the next one begins, and whether a line starts there; `None` at the end."""
    if starts and i < len(text) and text[i] in SPACE and text[i] not in "\r\n":
        return "blank", i + 1, False
    while i < len(text) and text[i] in SPACE and text[i] not in "\r\n":
        i += 1
    if i < len(text) and text[i] == ";":
        i = after_comment(text, i)
    if i == len(text):
        return None
    c = text[i]
    if c in "\r\n":
        return line_end(text, i)
    if c == "@":
        return "at", i + 1, False
    if c == "(":
        return list_from(text, i + 1)
    if c == '"':
        return quoted_from(text, i + 1)
    if c == "$":
        word = re.match("[A-Z]*", text[i + 1 :]).group()
        if word not in WORDS:
            raise Fault("!dollar:" + hex_of(word))
        return WORDS[word], i + 1 + len(word), False
    word, i = word_from(text, i, ";")
    return "c:" + hex_of(word), i, False


def expected(text):
    words, i, starts = [], 0, True
    try:
        while found := token_from(text, i, starts):
            word, i, starts = found
            words.append(word)
        words.append("none")
    except Fault as fault:
        words.append(str(fault))
    return words


def expected_time(text):
    if not re.fullmatch("([0-9]+[smhdwSMHDW])*([0-9]+[smhdwSMHDW]?)", text):
        return "!time"
    weights = dict(s=1, m=60, h=3600, d=86400, w=604800)
    value = sum(int(n) * weights[u.lower() or "s"] for n, u in re.findall("([0-9]+)([a-zA-Z]?)", text))
    return str(value) if value < 2**32 else "!time"


# ---- the same by the Rust

def rust_char(debug):
    """The character that Rust's Debug shows."""
    simple = {r"\0": "\0", r"\t": "\t", r"\n": "\n", r"\r": "\r", r"\'": "'", r"\"": '"', r"\\": "\\"}
    if m := re.fullmatch(r"\\u\{([0-9a-f]+)\}", debug):
        return chr(int(m.group(1), 16))
    return simple.get(debug, debug)


def rust_word(word):
    for rust, own in [("CharData:", "c:"), ("List:", "l:")]:
        if word.startswith(rust):
            rest = word[len(rust) :]
            return own + ("" if rest == "-" else rest)
    if word.startswith("err:"):
        debug = word[4:]
        if m := re.fullmatch(r"(IllegalCharacter|UnrecognizedChar)\('(.*)'\)", debug, re.S):
            return {"I": "!illegal:", "U": "!char:"}[debug[0]] + hex_of(rust_char(m.group(2)))
        return {"EOF": "!eof", "UnclosedList": "!list", "UnclosedQuotedString": "!quote",
                'UnrecognizedDollar("")': "!dollar:"}[debug]
    return word.lower()


def differs_by_design(rust, want):
    if want[-1].startswith("!dollar:"):
        return rust == want[:-1] + ["!dollar:"]
    return want[-1] == "!list" and rust[: len(want) - 1] == want[:-1]


class Asked:
    """Compares what is expected with the oracle, and counts."""

    def __init__(self, oracle):
        self.oracle, self.texts, self.differ = oracle, 0, 0

    def tokens(self, texts):
        wanted = [expected(text) for text in texts]
        for text, want, said in zip(texts, wanted, self.oracle.ask([f"lex {hexed(t.encode())}" for t in texts])):
            rust = [rust_word(word) for word in said.split(" ")]
            self.texts += 1
            if rust != want:
                assert differs_by_design(rust, want), (text, want, rust)
                self.differ += 1
        return [" ".join(want) for want in wanted]

    def times(self, texts):
        wanted = [expected_time(text) for text in texts]
        for text, want, said in zip(texts, wanted, self.oracle.ask([f"ttl {hexed(t.encode())}" for t in texts])):
            assert said == f"ok {want}" or want == "!time" and said.startswith("err ParseTime"), (text, want, said)
            self.texts += 1
        return wanted


def checksum(answers):
    value = 0xCBF29CE484222325
    for byte in "".join(answer + "\n" for answer in answers).encode():
        value = (value ^ byte) * 0x100000001B3 % 2**64
    return f"{value:016x}"


# ---- texts

HOSTS = "@ a www ns1 mail *.x _sip._tcp 1.2.0.192.in-addr.arpa. example.com. 192.0.2.1 2001:db8::1 \\046 a\\.b".split()
TYPES = "IN CH A NS SOA MX TXT AAAA RRSIG 300 1h30m 86400 CLASS1 TYPE65280 \\# 4 C0000201".split()
TELLING = list(" \t\n\r();\"\\$@0a") + ["\x0b", "\x7f", "\x85", "\xa0", "é", "\u2003", "\u2028", "♥", "😀", "²", "\0"]
SPACES = [" ", " ", "  ", "\t", "\u2003"]


def quoted(r):
    pieces = ["v=spf1 -all", "a", " ", ";", "(", "\\\"", "\\\\", "\\;", "\\065", "\\009", "\\999", "\n", "é", "♥", "$"]
    return '"' + "".join(r.pick(pieces) for _ in range(r.below(6))) + '"'


def rdata(r):
    kind = r.below(8)
    if kind == 0:
        return quoted(r)
    if kind == 1:
        inside = [r.pick(TYPES + HOSTS[1:] + ["; remark\n", "\n", "\r\n  ", ";)\n"]) for _ in range(r.below(7))]
        return "(" + r.pick(["", " ", "\n\t"]) + " ".join(inside) + r.pick(["", " "]) + ")"
    return r.pick(TYPES + HOSTS)


def line(r):
    kind = r.below(12)
    if kind == 0:
        return r.pick(["$TTL 3600", "$ORIGIN example.com.", "$INCLUDE <a b> c", "$TTL1h", "$FOO a", "$"])
    if kind == 1:
        return "; " + r.pick(["remark", "()\"", "$TTL"])
    start = r.pick(HOSTS) if r.below(3) else r.pick(SPACES)
    return start + "".join(r.pick(SPACES) + rdata(r) for _ in range(1 + r.below(4))) + r.pick(["", "", " ; remark", ";"])


def zone(r):
    return "".join(line(r) + r.pick(["\n", "\n", "\r\n", "\n\n"]) for _ in range(1 + r.below(4)))


def changed(r, text):
    chars = list(text)
    for _ in range(1 + r.below(3)):
        i = r.below(len(chars) + 1)
        kind = r.below(3)
        if kind == 0:
            chars.insert(i, r.pick(TELLING))
        elif i < len(chars):
            chars[i : i + 1] = [] if kind == 1 else [r.pick(TELLING)]
    return "".join(chars)


def hostile(r):
    return "".join(r.pick(TELLING) for _ in range(1 + r.below(14)))


def time(r):
    digits = lambda: "".join(r.pick("0123456789") for _ in range(1 + r.below(r.pick([2, 4, 11]))))
    text = "".join(digits() + r.pick("smhdwSMHDW") for _ in range(r.below(5))) + (digits() if r.below(2) else "")
    if r.below(4) == 0:
        i = r.below(len(text) + 1)
        text = text[:i] + r.pick(["x", " ", "-", "+", "s", "é", ""]) + text[i + 1 :]
    return text


HERE = os.path.dirname(os.path.abspath(__file__))
KINDS = ["blank", "l:", "c:", "at", "include", "origin", "ttl", "eol"]


def rows():
    """The texts of the worked examples."""
    for row in open(os.path.join(HERE, "rows", "tokens.txt")):
        if row.startswith("lex ") and "×" not in row:
            yield bytes.fromhex(row.split(" ")[1].strip("-")).decode()


def count_zones(asked):
    """How many tokens of each kind the master files have, and a checksum of all."""
    for name in sorted(os.listdir(os.path.join(HERE, "zones"))):
        if name != "counts":
            with open(os.path.join(HERE, "zones", name), newline="") as f:
                answer = asked.tokens([f.read()])[0]
            words = answer.split(" ")
            counts = " ".join(f"{kind}{sum(word.startswith(kind) for word in words)}" for kind in KINDS)
            yield f"{name} {counts} {words[-1]} {checksum([answer])}"


def cut(asked, text):
    cuts = [text[:i] for i in range(len(text) + 1)]
    return f"lex-cuts {hexed(text.encode())} = {checksum(asked.tokens(cuts))}"


def main():
    asked, r = Asked(Oracle(sys.argv[1])), Random(17)
    out = ["# Tokens and times of hickory-proto 0.26.3, by diff/make_txt.py. README.md has the format."]
    out += ["# the texts of the worked examples are cut after each of their characters"]
    out += [cut(asked, text) for text in rows()]
    out += ["# Texts by a generator."]
    seen = set()
    for make, count in [(zone, 750), (lambda r: changed(r, zone(r)), 950), (hostile, 900)]:
        for _ in range(count):
            text = make(r)
            if text in seen:
                continue
            seen.add(text)
            out.append(cut(asked, text))
    texts = sorted({hostile(r) for _ in range(4000)} | {changed(r, line(r)) for _ in range(2000)})
    out += [f"lex {hexed(t.encode())} = {a}" for t, a in zip(texts, asked.tokens(texts))]
    times = sorted({time(r) for _ in range(4000)} | {"", "4294967295", "4294967296", "7101w", "7102w"})
    out += [f"time {hexed(t.encode())} = {a}" for t, a in zip(times, asked.times(times))]
    out += families(asked)
    with open(os.path.join(HERE, "lists", "tokens.txt"), "w") as f:
        f.write("\n".join(out) + "\n")
    with open(os.path.join(HERE, "zones", "counts"), "w") as f:
        f.write("\n".join(count_zones(asked)) + "\n")
    print(f"{asked.texts} texts, of which {asked.differ} differ by design")


def all_texts(letters, length):
    for index in range(len(letters) ** length):
        text = ""
        for _ in range(length):
            text, index = text + letters[index % len(letters)], index // len(letters)
        yield text


def families(asked):
    out = []
    for letters, longest in [(' \n\r();"\\$@0a', 4), ('a"\\0123 ', 5), ("(a;) \n\x7f\u2003", 4), ("$TLORIGNCUDE ", 3)]:
        for length in range(longest + 1):
            answers = asked.tokens(list(all_texts(letters, length)))
            out.append(f"lex-texts {hexed(letters.encode())} {length} = {checksum(answers)}")
    for letters, longest in [("019smHdWx", 4)]:
        for length in range(longest + 1):
            answers = asked.times(list(all_texts(letters, length)))
            out.append(f"times {hexed(letters.encode())} {length} = {checksum(answers)}")
    return out


if __name__ == "__main__":
    main()
