"""Finds the cells that an edit makes stale, and who reads whom, for notebooks of the statements of `random_edits`.

A cell is stale where it is new, has another text, or where its last run read something that is another now: what a
name is bound to, the length of the memory of an array that it came to by a name, an element that the cell did not make
or write itself, or an input. A cell that was refused is stale where the rule is another. All cells are run here from
nothing over arrays with one axis; a run keeps what it read. Texts are read as Python's own syntax tree; a call of
another form, or an index that is a text, raises NotImplementedError.
"""
import ast
import operator
from dataclasses import dataclass, field
from enum import Enum
from typing import Any, Callable, Dict, List, Optional, Set, Tuple, Union

INT64 = 1 << 63
OPERATORS = {ast.Add: operator.add, ast.Sub: operator.sub, ast.Mult: operator.mul, ast.BitXor: operator.xor,
             ast.FloorDiv: lambda a, b: a // b if b else 0}
BaseKey = Tuple[int, int]


class Refused(Exception):
    """The rest of the cell is not run."""


def wrapped(number: int) -> int:
    """The int64 that a number wraps to."""
    return (number + INT64) % (2 * INT64) - INT64


@dataclass(frozen=True)
class Scalar:
    """A NumPy scalar."""
    number: int
    kind: str = "int64"


@dataclass(frozen=True)
class Array:
    """Elements of a base, by their places."""
    base: BaseKey
    places: Tuple[int, ...]
    kind: str = "int64"


Value = Union[int, bool, Scalar, Array]
Item = Union[slice, Tuple[Value, ...], Value]


class Form(Enum):
    """What an index gives: the chosen elements themselves, new ones, or a number."""
    VIEW = 1
    COPY = 2
    NUMBER = 3


def same(one: Optional[Value], other: Optional[Value]) -> bool:
    return type(one) is type(other) and one == other


@dataclass
class Session:
    """What names are bound to, and the elements of each base."""
    names: Dict[str, Value] = field(default_factory=dict)
    bases: Dict[BaseKey, List[int]] = field(default_factory=dict)

    def copy(self) -> "Session":
        return Session(dict(self.names), {base: list(numbers) for base, numbers in self.bases.items()})


@dataclass
class Reads:
    """What a run read from before the cell."""
    names: Dict[str, Optional[Value]] = field(default_factory=dict)
    elements: Dict[Tuple[BaseKey, int], int] = field(default_factory=dict)
    lengths: Dict[BaseKey, int] = field(default_factory=dict)
    inputs: Dict[str, Any] = field(default_factory=dict)

    def agree(self, session: Session, inputs: Dict[str, Any]) -> bool:
        """Whether a run would read the same of these names, bases and inputs."""
        for name, value in self.names.items():
            if not same(session.names.get(name), value):
                return False
        for (base, place), number in self.elements.items():
            if place >= len(session.bases.get(base, [])) or session.bases[base][place] != number:
                return False
        if any(len(session.bases.get(base, [])) != count for base, count in self.lengths.items()):
            return False
        return all(inputs.get(name) == value for name, value in self.inputs.items())


class Run:
    """A run of one cell."""

    def __init__(self, session: Session, label: int, inputs: Dict[str, Any]) -> None:
        self.session, self.label, self.inputs = session, label, inputs
        self.reads, self.own, self.made = Reads(), set(), 0
        self.bound: set = set()
        self.is_refused = False

    def run(self, text: str, is_read: bool) -> None:
        """Runs a text, none of which is run where it is no cell."""
        self.is_refused = not is_read
        if is_read:
            try:
                for statement in ast.parse(text).body:
                    self.statement(statement)
            except Refused:
                self.is_refused = True

    def name(self, name: str) -> Value:
        value = self.session.names.get(name)
        if name not in self.bound:
            self.reads.names.setdefault(name, value)
        if value is None:
            raise Refused
        if isinstance(value, Array) and value.base[0] != self.label:
            self.reads.lengths.setdefault(value.base, len(self.session.bases[value.base]))
        return value

    def bind(self, name: str, value: Optional[Value]) -> None:
        self.bound.add(name)
        if value is None:
            self.session.names.pop(name, None)
        else:
            self.session.names[name] = value

    def element(self, base: BaseKey, place: int) -> int:
        number = self.session.bases[base][place]
        if base[0] != self.label and (base, place) not in self.own:
            self.reads.elements.setdefault((base, place), number)
        return number

    def numbers(self, value: Array) -> List[int]:
        return [self.element(value.base, place) for place in value.places]

    def write(self, array: Array, numbers: List[int]) -> None:
        for place, number in zip(array.places, numbers):
            self.own.add((array.base, place))
            self.session.bases[array.base][place] = number

    def fresh(self, numbers: List[int], kind: str = "int64") -> Array:
        base = (self.label, self.made)
        self.made += 1
        self.session.bases[base] = list(numbers)
        return Array(base, tuple(range(len(numbers))), kind)

    def statement(self, node: ast.stmt) -> None:
        if isinstance(node, ast.Assign):
            value = self.value(node.value)
            target = node.targets[0]
            self.bind(target.id, value) if isinstance(target, ast.Name) else self.assign(target, value)
        elif isinstance(node, ast.AugAssign):
            self.augment(node)
        elif isinstance(node, ast.Delete):
            name = node.targets[0].id
            self.name(name)
            self.bind(name, None)
        elif isinstance(node, ast.Expr):
            self.call(node.value)

    def call(self, node: ast.Call) -> None:
        """A call that prints or saves: its arguments are evaluated first, and then read."""
        used = node.args[1:] if isinstance(node.func, ast.Attribute) else node.args
        for value in [self.value(argument) for argument in used]:
            self.use(value)

    def value(self, node: ast.expr) -> Value:
        if isinstance(node, ast.Constant):
            if type(node.value) is int and node.value >= 2 * INT64:
                raise Refused
            return node.value
        if isinstance(node, ast.UnaryOp):
            return -self.value(node.operand)
        if isinstance(node, ast.Name):
            return self.name(node.id)
        if isinstance(node, ast.Subscript):
            return self.taken(*self.choose(self.value(node.value), self.item(node.slice)))
        if isinstance(node, ast.Attribute):
            if node.attr != "T":
                raise NotImplementedError(node.attr)
            value = self.value(node.value)
            if not isinstance(value, Array):
                raise Refused
            return value
        return self.made_by(node)

    def made_by(self, node: ast.Call) -> Value:
        """A new array: counted, of an input, or none."""
        word = node.func.attr if isinstance(node.func, ast.Attribute) else node.func.id
        if len(node.args) != 1 or node.keywords or not isinstance(node.args[0], ast.Constant):
            raise NotImplementedError(ast.dump(node))
        argument = node.args[0].value
        if word == "arange":
            return self.fresh(list(range(argument)))
        if word == "zeros":
            raise Refused
        if word not in ("load", "buffer"):
            raise NotImplementedError(word)
        found = self.inputs.get(argument)
        self.reads.inputs.setdefault(argument, found)
        if found is None or found.kind != word or found.elements is None:
            raise Refused
        whole = self.fresh(found.elements, found.element_kind)
        return Array(whole.base, whole.places[:found.count], whole.kind)

    def item(self, node: ast.expr) -> Item:
        """What stands in an index."""
        if isinstance(node, ast.Slice):
            return slice(*(part and self.value(part) for part in (node.lower, node.upper, node.step)))
        if isinstance(node, ast.Tuple):
            return tuple(self.value(part) for part in node.elts)
        if isinstance(node, ast.Constant) and not isinstance(node.value, int):
            raise NotImplementedError(ast.dump(node))
        return self.value(node)

    def choose(self, array: Value, item: Item) -> Tuple[Array, Form]:
        """The elements that an item chooses. An array that is an item is read first."""
        self.use(item)
        if not isinstance(array, Array) or isinstance(item, (tuple, bool)):
            raise Refused
        if isinstance(item, slice):
            return Array(array.base, array.places[item], array.kind), Form.VIEW
        positions = self.numbers(item) if isinstance(item, Array) else [getattr(item, "number", item)]
        try:
            places = tuple(array.places[at] for at in positions)
        except IndexError:
            raise Refused from None
        return Array(array.base, places, array.kind), Form.COPY if isinstance(item, Array) else Form.NUMBER

    def taken(self, chosen: Array, form: Form) -> Value:
        """What an index gives of the elements that it chose."""
        if form is Form.VIEW:
            return chosen
        numbers = self.numbers(chosen)
        return self.fresh(numbers, chosen.kind) if form is Form.COPY else Scalar(numbers[0], chosen.kind)

    def use(self, value: Item) -> None:
        """Reads the elements of a value, as a statement does that is refused behind it."""
        if isinstance(value, Array):
            self.numbers(value)

    def assign(self, target: ast.Subscript, value: Value) -> None:
        array, item = self.value(target.value), self.item(target.slice)
        self.use(value)
        self.put(self.choose(array, item)[0], value)

    def put(self, chosen: Array, value: Value) -> None:
        """Writes a value to the elements that an index chose."""
        self.write(chosen, [fitted(number, chosen.kind) for number in self.operand(value, chosen)])

    def augment(self, node: ast.AugAssign) -> None:
        work = OPERATORS[type(node.op)]
        if isinstance(node.target, ast.Name):
            old, value = self.name(node.target.id), self.value(node.value)
            if isinstance(old, Array):
                self.in_place(old, work, value)
            else:
                self.bind(node.target.id, self.computed(work, old, value))
            return
        chosen, form = self.choose(self.value(node.target.value), self.item(node.target.slice))
        old, value = self.taken(chosen, form), self.value(node.value)
        if isinstance(old, Array):
            self.in_place(old, work, value)
        else:
            old = self.computed(work, old, value)
        if form is not Form.VIEW:
            self.put(chosen, old)

    def in_place(self, target: Array, work: Any, value: Value) -> None:
        self.use(target)
        self.use(value)
        right = self.operand(value, target)
        self.write(target, [fitted(work(a, b), target.kind) for a, b in zip(self.numbers(target), right)])

    def operand(self, value: Value, target: Array) -> List[int]:
        """The numbers of a value, one for each element of a target."""
        count = len(target.places)
        if isinstance(value, Array):
            if len(value.places) not in (1, count):
                raise Refused
            return self.numbers(value) * (count if len(value.places) == 1 else 1)
        return [value.number if isinstance(value, Scalar) else weak(value, target.kind)] * count

    def computed(self, work: Any, one: Value, other: Value) -> Value:
        """A number, or a new array."""
        self.use(other)
        kinds = {value.kind for value in (one, other) if isinstance(value, (Scalar, Array))}
        if not kinds:
            result = work(one, other)
            if not -INT64 <= result < 2 * INT64:
                raise Refused
            return result
        kind = "int64" if "int64" in kinds else "int8"
        left = one.number if isinstance(one, Scalar) else weak(one, kind)
        if isinstance(other, Array):
            return self.fresh([fitted(work(left, number), kind) for number in self.numbers(other)], kind)
        right = other.number if isinstance(other, Scalar) else weak(other, kind)
        return Scalar(fitted(work(left, right), kind), kind)


def weak(number: int, kind: str) -> int:
    """A number of Python beside elements of a kind, which takes their kind where it fits."""
    if fitted(number, kind) != number:
        raise Refused
    return int(number)


def fitted(number: int, kind: str) -> int:
    """A number as an element of a kind."""
    number = int(number)
    return wrapped(number) if kind == "int64" else (number + 128) % 256 - 128


@dataclass
class Ran:
    """A run that is kept: the label and the text of its cell, what it read, whether it was refused, and what stands of it:
    the names that it bound or unbound, and the elements of arrays of other cells that it wrote."""
    label: int
    text: str
    reads: Reads
    is_refused: bool
    bound: Set[str] = field(default_factory=set)
    written: Set[Tuple[BaseKey, int]] = field(default_factory=set)


@dataclass
class Told:
    """What a cell read: names and arrays, each with the cell that it is of, and inputs. An array is told by the cell that
    made it and the last one that made it or wrote an element that was read."""
    names: Dict[str, Optional[int]]
    inputs: Set[str]
    arrays: Set[Tuple[int, int]]


@dataclass
class Pass:
    """The runs of all cells of a notebook under a rule."""
    rule: str = "python"
    runs: List[Ran] = field(default_factory=list)
    stale: List[int] = field(default_factory=list)

    def stands(self, ran: Ran, cell: Any, rule: str) -> bool:
        """Whether a run of this pass is one of the cell's present text, and no other rule may change what it left."""
        return (ran.label, ran.text) == (cell.label, cell.text) and (rule == self.rule or not ran.is_refused)

    def then(self, cells: List[Any], inputs: Dict[str, Any], is_read: Any, rule: str = "python") -> "Pass":
        """Runs all cells anew under a rule, and finds the places of those for which no run of this pass stands."""
        session, following = Session(), Pass(rule)
        for place, cell in enumerate(cells):
            if not any(self.stands(ran, cell, rule) and ran.reads.agree(session, inputs) for ran in self.runs):
                following.stale.append(place)
            before = session.copy()
            run = Run(session, cell.label, inputs)
            run.run(cell.text, is_read(cell.text))
            following.runs.append(Ran(cell.label, cell.text, run.reads, run.is_refused))
            if rule == "atomic" and run.is_refused:
                session = before
            else:
                following.runs[-1].bound, following.runs[-1].written = run.bound, run.own
        return following

    def last(self, at: int, is_it: Callable[[Ran], bool]) -> Optional[int]:
        """The last cell in front of a place whose run is the one that is meant."""
        return next((place for place in reversed(range(at)) if is_it(self.runs[place])), None)

    def told(self, at: int) -> Told:
        """What the cell at a place read, and of which cells."""
        reads, arrays = self.runs[at].reads, set()
        for base in {*reads.lengths, *(base for base, _ in reads.elements)}:
            used = {element for element in reads.elements if element[0] == base}
            maker = self.last(at, lambda ran: ran.label == base[0])
            arrays.add((maker, self.last(at, lambda ran: ran.label == base[0] or bool(ran.written & used))))
        names = {name: self.last(at, lambda ran: name in ran.bound) for name in reads.names}
        return Told(names, set(reads.inputs), arrays)
