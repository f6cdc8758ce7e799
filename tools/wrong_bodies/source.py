"""What tools/wrong-bodies reads in a file of Rattle: its functions, what a check calls them, their tokens and their contracts."""

import re


class Function:
    """A function of a file: its path as the check prints it, what callers write, its lines and its code. `top` is the line
    of its first comment or attribute, `body` that of its body's first line, and `at` that of its impl's first line."""

    def __init__(self, module, head, name, first, top, at=None):
        self.module, self.head, self.name, self.first, self.last, self.top = module, head, name, first, first, top
        self.at, self.body = at, first
        self.type = type_of(head) if head else ""
        # The code is without the signature and the clauses, which call nothing.
        self.code = ""

    def set_paths(self, homes):
        """Finds how a check may print the function: by the module of its file, or by that of its type."""
        self.homes = homes
        if not self.head or re.match(r"(pub )?trait ", self.head):
            owners = [self.type]
        else:
            owners = [owner_of(self.head), owner_of(self.head, True)] + ([self.type] if self.name == "drop" else [])
        modules = [self.module, homes.get(self.type, self.module)]
        parts = [(above, owner) for above in modules for owner in owners]
        self.paths = {"::".join(filter(None, [above, owner, self.name])) for above, owner in parts}
        # What is inside a function, such as a closure.
        self.inside = tuple("::".join(filter(None, [above, "fn", owner, self.name])) + "::" for above, owner in parts)

    def calls_itself(self):
        own = rf"\b(?:self\.|Self::|{self.type}::){self.name}\b" if self.head else rf"(?<![.\w]){self.name}\b"
        return re.search(own, self.code) is not None

    def has_twin(self):
        """Whether a copy under another name means the same: not for a method of a trait, nor for a function that calls itself."""
        return not re.search(r"\btrait\b|\bfor\b", self.head) and not self.calls_itself()

    def twin(self, number):
        """The function under another name."""
        other = Function(self.module, self.head, f"{self.name}_wrong{number}", self.first, self.top)
        other.set_paths(self.homes)
        return other

    def folders(self):
        """Where its proof files may be, below `proofs`, as parts of a path."""
        return [path.split("::")[1:] for path in sorted({*self.paths, *(it[: -len("::")] for it in self.inside)})]

    def is_at(self, path):
        """Whether this is the function that a check prints by a path. A trait's own body is proved in each impl."""
        if self.head.startswith(("trait ", "pub trait ")):
            return re.search(rf"{self.type}::{self.name}$", path) is not None
        return path in self.paths or path.startswith(self.inside)

    def calls(self, other, code=None):
        """Whether it may call another function of its crate, or would with other code. A method that is called after a dot stands
        for all of its name."""
        code = self.code if code is None else code
        before = r"\." if other.type else r"(?<![.\w])"
        if re.search(rf"{before}{other.name}\b", code):
            return True
        owner = rf"(?:{other.type}|Self)" if self.type == other.type else other.type
        return bool(other.type) and re.search(rf"\b{owner}(?:::<[^(]*>)?(?: as [^>]*>)?::{other.name}\b", code) is not None


def words_of(kind, own):
    """The words of a type in the path of an impl, as Rattle joins them: `&[u8]` is RefSliceU8. `own` are the impl's parameters."""
    kind = re.sub(r"'\w+\s*", "", kind).replace("&mut ", "Mut ").replace("&", "Ref ").replace("[", "Slice ")
    found = [word.rpartition("::")[2] for word in re.findall(r"\w+(?:::\w+)*", kind)]
    return "".join(word[0].upper() + word[1:] for word in found if word not in own and word != "_")


def owner_of(head, is_whole=False):
    """The word in paths for the methods of an impl or a trait, by its first line; with the trait's whole path if so asked, which
    Rattle takes if something else in scope has the shorter word."""
    head = re.sub(r"^(pub(\([\w: ]+\))? )?(unsafe )?", "", head.strip())
    if head.startswith("trait "):
        return re.match(r"trait (\w+)", head)[1]
    parameters, rest = re.match(r"impl(<(?:[^<>]|<[^<>]*>)*>)? (.*?)(?: where\b.*)?(?: \{)?$", head).groups()
    own = {it.partition(":")[0].strip() for it in re.sub(r"<[^<>]*>", "", (parameters or "")[1:-1]).split(",")}
    trait, _, kind = rest.rpartition(" for ")
    if not trait:
        return re.match(r"\w+", kind)[0]
    name, _, arguments = trait.partition("<")
    called = "".join(word[0].upper() + word[1:] for word in name.split("::")) if is_whole else words_of(name, own)
    return words_of(kind, own) + called + words_of(arguments, own)


def type_of(head):
    """The name of the type that an impl is for, or of a trait, by its first line."""
    kind = re.sub(r"^.*?\btrait ", "", head) if "trait " in head else re.sub(r"^impl(<(?:[^<>]|<[^<>]*>)*>)? ", "", head)
    return re.search(r"\w+", re.sub(r"'\w+", "", kind.rpartition(" for ")[2]))[0]


OPENED = re.compile(r"( *)(?:pub(?:\([\w: ]+\))? )?(?:const )?(?:unsafe )?(?:extern \"C\" )?fn (\w+)")


def functions_of(module, text):
    """The functions of a file, which is in the layout of `rt fmt`."""
    found, head, at, inner, indent, is_open, top = [], "", None, None, "", False, 0
    for number, line in enumerate(text.split("\n")):
        opened = OPENED.match(line)
        if inner is None and opened:
            inner, indent, is_open = Function(module, head, opened[2], number, top, at), opened[1], False
        if inner and (is_open and line == indent + "}" or line in (indent + "{}", indent + "{ }")):
            inner.last = number
            inner.body = inner.body if is_open else number
            found.append(inner)
            inner = None
        elif inner and is_open:
            inner.code += line + "\n"
        elif inner:
            # After the signature and its clauses. A trait's method may have no body.
            is_open = line == indent + "{" or line.endswith("{") and not re.match(r" *(requires|ensures|ghost)\b", line)
            inner.body = number
            ends = line.endswith(";") and not line.startswith(indent + 5 * " ")
            inner = None if ends else inner
        elif re.match(r"(pub(\([\w: ]+\))? )?(unsafe )?(impl|trait)\b", line):
            head, at = line, number
        elif line == "}":
            head, at = "", None
        elif re.match(r"mod \w+ \{", line):
            break
        # Comments and attributes stand right above their function.
        top = number + 1 if line == "" or line.endswith(("{", "}", ";")) else top
    return found


def module_of(crate, path):
    """The path of a file's module."""
    return "::".join([crate, *(it for it in path[len("src/") : -len(".rt")].split("/") if it not in ("lib", "main"))])


TOKEN = re.compile(r"""//[^\n]*|/\*.*?\*/|b?"(?:\\.|[^"\\])*"|b?'(?:\\.|[^'\\])+'|'\w+|\w+|\S""", re.S)


def tokens_of(text):
    """The tokens of a text, without comments and white space."""
    return [it for it in TOKEN.findall(text) if not it.startswith(("//", "/*"))]


def locals_of(tokens):
    """The names that patterns bind in these tokens: of `let`, `for`, arms and closures."""
    text = " ".join(tokens)
    patterns = re.findall(r"\blet (.*?) (?:=|;)", text) + re.findall(r"\bfor (.*?) in\b", text)
    patterns += re.findall(r"\| ([^|]*?) \|", text) + re.findall(r"(?:^|[{},]) ([^{};]*?) = >", text)
    return {name for it in patterns for name in re.findall(r"(?<![.:] )\b[a-z_]\w*\b(?! [({:])", it)}


def is_same_code(old, new):
    """Whether two texts of a function have the same tokens, but for locals that have other names."""
    old, new = tokens_of(old), tokens_of(new)
    pairs = set(zip(old, new))
    if len(old) != len(new) or len({one for one, _ in pairs}) != len(pairs) or len({other for _, other in pairs}) != len(pairs):
        return False
    bound, other = locals_of(old), locals_of(new)
    return all(one == it or one in bound and it in other for one, it in pairs)


IMPORT = re.compile(r"^(?:ghost )?use ([^;{]*)(?:\{([^}]*)\})?;\n?", re.M)


class Shown:
    """What a file shows to the crates above: all but comments, private functions and the bodies of the others. Of `functions` each
    is a pair of its name and its text, which is left out of `rest`: a crate that nowhere has the name can't call it. Methods of
    traits are in the rest, since operators and `for` call them without a name."""

    def __init__(self, text):
        lines, self.functions = text.split("\n"), []
        for function in functions_of("", text):
            is_of_trait = re.search(r"\btrait\b|\bfor\b", function.head)
            end = function.body if function.body < function.last else function.last + 1
            if not is_of_trait and re.match(r" *pub ", lines[function.first]):
                self.functions.append((function.name, without_comments(lines[function.top : end])))
            start = function.body if is_of_trait else function.top
            if not is_of_trait or function.body < function.last:
                lines[start : function.last + 1] = [""] * (function.last + 1 - start)
        shown = without_comments(lines)
        self.rest = IMPORT.sub("", shown)
        self.imports = [(path, name) for path, names in IMPORT.findall(shown) for name in re.findall(r"[^\s,][^,]*", names or path)]

    def to(self, words):
        """What it shows to texts that have these words. Of imports it has those that are named in what is left."""
        kept = "\n".join([self.rest, *(text for name, text in self.functions if name in words)])
        named = set(re.findall(r"\w+", kept))
        return "".join(f"use {path} {name}\n" for path, name in self.imports if is_named(name, named)) + kept


def without_comments(lines):
    return "\n".join(line.rstrip() for line in lines if line.strip() and not re.match(r" *//", line))


def is_named(name, words):
    """Whether an imported name, or the one that it is given there, is one of these words. Operators are taken to be there."""
    word = re.split(r"::|\.| as ", name.strip())[-1].strip()
    return not re.fullmatch(r"\w+", word) or word in words
