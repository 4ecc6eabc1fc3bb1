"""The declarations of .antt files, and what each of them states whatever its bound variables are called."""

import re
from collections.abc import Iterator
from dataclasses import dataclass, field
from functools import cached_property
from pathlib import Path

OPENING, CLOSING = "({[", ")}]"
TOKEN = re.compile(
    r"""--(?=\s|$).*|\[\]|"[^"\n]*"|[(){}\[\],;]|\.(?=\s|$)|[^\s(){}\[\],;]+?(?=\.(?:\s|$)|[\s(){}\[\],;]|$)""",
    re.MULTILINE,
)
BUILT_IN = set("Type Unit ⊥ tt absurd ¬ → × λ = : ; , | ↦ . ? _ let in elim as record if then else cc omega grind refl".split())
"""What a type may say that no module declares."""
WORDS = r"(?:(?:pub|abbrev|unfoldable) )*"
HEAD = re.compile(rf"( *)({WORDS})(?!use |open |module |record |data |unfolding )([^\s(){{}}]+) :(?: |$)")
BLOCK = re.compile(rf"( *){WORDS}(record|data|module|mutual|use|mod|open|ruleset)\b")

Tree = "str | list[Tree]"
"""A token, or a bracketed part: its opening bracket and what is in it."""


@dataclass
class Declaration:
    """A declaration at the top of a file or of a `module _` in it; its lines are those of its comment, type and equations."""

    name: str
    words: list[str]
    module: "Module"
    first: int
    head: int
    end: int
    type_text: str
    telescope: list[str]
    around: str = ""

    @property
    def is_abbreviation(self) -> bool:
        return "abbrev" in self.words

    @cached_property
    def written(self) -> tuple[str, set[str], set[str]]:
        writer = Writer(self.module)
        return writer.written(self.type_text), writer.named, writer.free

    @property
    def statement(self) -> str:
        """The type, with each name by the module that declares it and bound variables by number."""
        return self.written[0]

    @property
    def names(self) -> set[str]:
        """The names of modules that the type has."""
        return self.written[1]

    @property
    def is_closed(self) -> bool:
        """Whether the type names only what other files could import: no variable of a `module _` around it."""
        return not self.written[2]

    @property
    def is_fact(self) -> bool:
        """Whether the type speaks of values, which are in small letters, and isn't that of a definition, as `ℕ → Bool` is."""
        last = [name.rpartition(".")[2] for name in self.names]
        return re.search(r"\bv\d", self.statement) is not None or any(name[0].islower() or "≡" in name for name in last)


@dataclass
class Module:
    """A file: what its names stand for, and its declarations."""

    path: Path
    name: str
    lines: list[str]
    imports: dict[str, str] = field(default_factory=dict)
    passed_on: dict[str, str] = field(default_factory=dict)
    declarations: list[Declaration] = field(default_factory=list)
    own: set[str] = field(default_factory=set)
    tree: dict[str, "Module"] = field(default_factory=dict)

    def origin(self, name: str) -> str | None:
        """The name with the module that declares it, or None for a name that isn't of a module, such as a numeral."""
        for form in (name, f"◌{name}◌"):
            if form in self.own:
                return f"{self.name}.{form}"
            if form in self.imports:
                return declared(self.imports[form], self.tree)
        return None


def declared(full: str, tree: dict[str, Module]) -> str:
    """The name that this one passes on. A name of std is the same whichever of its modules has it."""
    while True:
        module, _, name = full.rpartition(".")
        if module.startswith("Rattle.std."):
            return f"std.{name}"
        if module not in tree or name not in tree[module].passed_on:
            return full
        full = tree[module].passed_on[name]


def tokens(text: str) -> list[str]:
    return [token for token in TOKEN.findall(text) if not token.startswith("--")]


def parts(text: str) -> list:
    """The tokens of the text, bracketed parts as lists that begin with their bracket."""
    stack: list[list] = [[]]
    for token in tokens(text):
        if token in OPENING:
            stack.append([token])
        elif token in CLOSING:
            done = stack.pop()
            stack[-1].append(done)
        else:
            stack[-1].append(token)
    return stack[0]


def is_binder(part: "str | list") -> bool:
    """Whether it is `(x y : T)` or `{x : T}`."""
    if isinstance(part, str) or part[0] not in "({" or ":" not in part:
        return False
    names = part[1 : part.index(":")]
    return bool(names) and all(isinstance(name, str) for name in names)


def split(items: list, mark: str) -> list[list]:
    """The items between the marks."""
    found: list[list] = [[]]
    for item in items:
        if item == mark:
            found.append([])
        else:
            found[-1].append(item)
    return found


def bare(items: list) -> list:
    """The items without brackets that hold all of them or one alone."""
    while len(items) == 1 and isinstance(items[0], list) and items[0][0] == "(" and not is_binder(items[0]):
        items = items[0][1:]
    return items


def is_open_ended(items: list) -> bool:
    """Whether the items reach as far as they can, so that brackets around them matter."""
    return any(item in ("→", "λ", ",", "let", "elim") or is_binder(item) for item in items)


class Writer:
    """Writes a type so that two that say the same are one text."""

    def __init__(self, module: Module) -> None:
        self.module = module
        self.bound = 0
        self.named: set[str] = set()
        self.free: set[str] = set()

    def written(self, text: str) -> str:
        return self.all(parts(text), {})

    def name(self, token: str, scope: dict[str, str]) -> str:
        head, dot, rest = token.partition(".")
        if not head or head[0] == '"':
            return token
        if head in scope:
            return scope[head] + dot + rest
        origin = self.module.origin(head)
        if origin:
            self.named.add(origin)
        elif head not in BUILT_IN and not head.isdigit():
            self.free.add(head)
        return (origin or head) + dot + rest

    def all(self, items: list, scope: dict[str, str]) -> str:
        """What these items say where these variables are bound."""
        items = bare(items)
        out: list[str] = []
        at = 0
        while at < len(items):
            item = items[at]
            if item == "λ":
                end = items.index(".", at)
                inner = self.lambda_scope(items[at + 1 : end], scope)
                return " ".join([*out, inner[0], self.all(items[end + 1 :], inner[1])])
            if is_binder(item) and self.binds(items, at):
                return " ".join([*out, self.binder(items, at, scope)])
            if not out and (arrow := self.arrow(items, at)):
                return self.plain(items[at:arrow], scope) + " → " + self.all(items[arrow + 1 :], scope)
            # The name of a field, or of an argument that is given by name.
            is_given = isinstance(item, str) and items[at + 1 : at + 2] == ["="]
            out.append(item if is_given else self.one(item, scope))
            at += 1
        return " ".join(out)

    def arrow(self, items: list, at: int) -> int | None:
        """The place of the arrow before which nothing is bound."""
        for place in range(at, len(items)):
            if items[place] == "→":
                return place
            if items[place] in ("λ", "let") or (is_binder(items[place]) and self.binds(items, place)):
                return None
        return None

    def plain(self, items: list, scope: dict[str, str]) -> str:
        """A part before an arrow, in brackets only where it has an arrow itself."""
        inner = bare(items)
        return f"( {self.all(inner, scope)} )" if is_open_ended(inner) else self.all(inner, scope)

    def one(self, item: "str | list", scope: dict[str, str]) -> str:
        if isinstance(item, str):
            return self.name(item, scope)
        inner = bare([item])
        if len(inner) == 1 and inner[0] is not item:
            return self.one(inner[0], scope)
        mark = item[0]
        close = CLOSING[OPENING.index(mark)]
        held = item[1:] if len(inner) == 1 else inner
        texts = [self.all(part, scope) for part in split(held, ",")]
        return f"{mark} {' , '.join(texts)} {close}"

    def binds(self, items: list, at: int) -> bool:
        """Whether the binder stands before an arrow, a product or another that does."""
        while at < len(items) and is_binder(items[at]):
            at += 1
        return at < len(items) and items[at] in ("→", "×")

    def fresh(self) -> str:
        self.bound += 1
        return f"v{self.bound}"

    def binder(self, items: list, at: int, scope: dict[str, str]) -> str:
        """`(x y : T) → rest`: one variable at a time, without a name where the rest doesn't use it."""
        mark, *names = items[at][: items[at].index(":")]
        kind = items[at][items[at].index(":") + 1 :]
        rest = items[at + 1 :]
        joined = rest[0] if rest and rest[0] in ("→", "×") else "→"
        if joined == "→" and not is_binder(rest[0]):
            rest = rest[1:]
        elif joined == "×":
            rest = rest[1:]
        texts = []
        for place, name in enumerate(names):
            used = joined == "×" or mark == "{" or mentions(rest, name)
            if used and name != "_":
                type_text = self.all(kind, scope)
                scope = scope | {name: self.fresh()}
                texts.append(f"{mark} {scope[name]} : {type_text} {CLOSING[OPENING.index(mark)]}")
            else:
                texts.append(self.plain(kind, scope))
        return f" {joined} ".join([*texts, self.all(rest, scope)])

    def lambda_scope(self, binders: list, scope: dict[str, str]) -> tuple[str, dict[str, str]]:
        """The variables of a λ, and what is bound behind it. The types that it gives them follow from where it stands."""
        texts = []
        for binder in binders:
            names = [binder] if isinstance(binder, str) else binder[1 : binder.index(":")] if ":" in binder else binder[1:]
            for name in names:
                if isinstance(name, str):
                    scope = scope | {name: self.fresh()}
                    texts.append(f"λ {scope[name]} .")
        return " ".join(texts), scope


def mentions(items: list, name: str) -> bool:
    return any(mentions(item, name) if isinstance(item, list) else item.split(".")[0] == name for item in items)


def module_names(text: str) -> Iterator[tuple[bool, str, str]]:
    """Each name that a `use` line brings: whether it is passed on, the name here and its full name."""
    for passed, path, inner, alias in re.findall(r"^(pub )?use ([^\s{;]+?)(?:\.\{([^\n]*)\})?(?: as (\S+?))?;?$", text, re.MULTILINE):
        if not inner:
            yield bool(passed), alias or path.rpartition(".")[2], path
            continue
        for full in listed(path, inner):
            full, _, other = full.partition(" as ")
            yield bool(passed), other or full.rpartition(".")[2], full


def listed(path: str, inner: str) -> list[str]:
    """The full names of `path.{a, B.c, B.{d, e}}`."""
    found, depth, start = [], 0, 0
    for place, letter in enumerate(inner + ","):
        depth += (letter == "{") - (letter == "}")
        if letter == "," and depth == 0:
            word = inner[start:place].strip()
            start = place + 1
            if word.endswith("}"):
                head, _, rest = word.partition(".{")
                found += listed(f"{path}.{head}", rest[:-1])
            elif word:
                found.append(f"{path}.{word}")
    return found


def block_end(lines: list[str], at: int, end: int, indent: int) -> int:
    """The first line after this one that belongs to no bracket or body begun before it."""
    at += 1
    while at < end and (not lines[at].strip() or len(lines[at]) - len(lines[at].lstrip()) > indent or lines[at].lstrip()[0] in CLOSING):
        at += 1
    return at


def read_declarations(module: Module, start: int, end: int, indent: int, telescope: list[str], around: str = "") -> None:
    """Adds the declarations that stand between these lines at this indentation."""
    lines, at, last = module.lines, start, None
    while at < end:
        block, head = BLOCK.match(lines[at]), HEAD.match(lines[at])
        if block and len(block[1]) == indent:
            last = None
            stop = block_end(lines, at, end, indent)
            if block[2] == "module":
                text = "\n".join(lines[at:stop])
                before = text[: text.index("where")] if "where" in text else text
                names = [name for part in parts(before) if is_binder(part) for name in part[1 : part.index(":")]]
                inside = around + " " + re.sub(r"^ *module _", "", before)
                inner = at + before.count("\n") + 1
                read_declarations(module, inner, stop, indent + 2, telescope + names, inside)
            elif block[2] in ("record", "data"):
                declare_type(module, lines, at, stop)
            at = stop
        elif head and len(head[1]) == indent:
            stop = block_end(lines, at, end, indent)
            text = "\n".join([lines[at][head.end() - 1 :], *lines[at + 1 : stop]])
            first = comment_start(lines, at, start, indent)
            last = Declaration(head[3], head[2].split(), module, first, at, stop, text, telescope, around)
            module.declarations.append(last)
            module.own.add(head[3])
            at = stop
        else:
            stop = block_end(lines, at, end, indent)
            if last and not lines[at].lstrip().startswith("--"):
                last.end = stop
            at = stop
    trim(module)


def trim(module: Module) -> None:
    """Takes blank lines and the comments of what follows from the ends of declarations."""
    for it in module.declarations:
        while it.end > it.head + 1 and (not module.lines[it.end - 1].strip() or module.lines[it.end - 1].lstrip().startswith("--")):
            it.end -= 1


def declare_type(module: Module, lines: list[str], at: int, stop: int) -> None:
    """The name of a record or data type, and its constructors."""
    named = re.match(rf" *{WORDS}(?:record|data) (\S+)", lines[at])
    if named:
        module.own.add(named[1])
    for line in lines[at + 1 : stop]:
        if lines[at].lstrip().startswith(("pub data", "data")) and (made := re.match(r"\s+(?:pub )?([^\s(){}]+) :", line)):
            module.own.add(made[1])


def comment_start(lines: list[str], at: int, start: int, indent: int) -> int:
    while at > start and lines[at - 1].startswith(" " * indent + "--"):
        at -= 1
    return at


def read_module(path: Path, name: str) -> Module:
    text = path.read_text()
    module = Module(path, name, text.split("\n"))
    for passed, short, full in module_names(text):
        module.imports[short] = full
        if passed:
            module.passed_on[short] = full
    read_declarations(module, 0, len(module.lines), 0, [])
    return module


def read_crates(crates: Path) -> dict[str, Module]:
    """Each .antt file of the folder's crates, by the name of its module."""
    tree: dict[str, Module] = {}
    for path in sorted(crates.glob("*/specs/**/*.antt")) + sorted(crates.glob("*/proofs/**/*.antt")):
        words = path.relative_to(crates).with_suffix("").parts
        module = read_module(path, ".".join(("Rattle", *words)))
        module.tree = tree
        tree[module.name] = module
    return tree
