"""Values as the program tells them: type, shape and bytes. Formats of PEP 3118 and NPY files are read here."""
from __future__ import annotations

import ast
import json
import struct
from typing import Any, NamedTuple, Optional, Sequence

NAMES = {'?': 'bool', 'b': 'int8', 'h': 'int16', 'i': 'int32', 'q': 'int64',
         'B': 'uint8', 'H': 'uint16', 'I': 'uint32', 'Q': 'uint64'}
LETTERS = {name: code for code, name in NAMES.items()}
SIZES = {code: struct.calcsize('=' + code) for code in NAMES}
CODES = {'b1': '?', 'i1': 'b', 'i2': 'h', 'i4': 'i', 'i8': 'q', 'u1': 'B', 'u2': 'H', 'u4': 'I', 'u8': 'Q'}
DESCRS = {code: descr for descr, code in CODES.items()}


class Layout(NamedTuple):
    """How the elements of a buffer lie in its bytes."""
    format: str
    itemsize: int
    shape: tuple[int, ...]
    strides: tuple[int, ...]
    offset: int = 0

    @staticmethod
    def of_view(view: memoryview) -> 'Layout':
        """The layout of a view's elements once they are copied in C order."""
        strides: list[int] = []
        place = view.itemsize
        for length in reversed(view.shape):
            strides.insert(0, place)
            place *= length
        return Layout(view.format, view.itemsize, tuple(view.shape), tuple(strides))

    @staticmethod
    def of_json(text: str) -> 'Layout':
        """The layout that a JSON object tells; a ValueError says what is wrong in it."""
        told = json.loads(text)
        if not isinstance(told, dict) or set(told) - set(Layout._fields):
            raise ValueError('a layout is an object of format, itemsize, shape, strides and offset')
        form = told.get('format')
        if not isinstance(form, str) or not form or any(sign.isspace() for sign in form):
            raise ValueError('format is a text of PEP 3118 without spaces')
        shape, strides = told.get('shape'), told.get('strides')
        numbers = [told.get('itemsize'), told.get('offset', 0)]
        for part in (shape, strides):
            if not isinstance(part, list):
                raise ValueError('shape and strides are lists of integers')
            numbers += part
        if any(type(number) is not int for number in numbers) or min([0, *numbers[:2], *shape]) < 0:
            raise ValueError('itemsize, offset, shape and strides are integers, and only strides may be negative')
        return Layout(form, numbers[0], tuple(shape), tuple(strides), numbers[1])


class Field(NamedTuple):
    """A field of a structure, or the one number of another type, whose name is empty."""
    name: str
    code: str           # an order, '<' or '>', and a letter of NAMES
    at: int

    @property
    def kind(self) -> str:
        is_plain = self.code[0] == '<' or SIZES[self.code[1]] == 1
        return NAMES[self.code[1]] if is_plain else self.code[0] + DESCRS[self.code[1]]


class Type(NamedTuple):
    """One number, or the fields of a structure."""
    fields: tuple[Field, ...]
    size: int
    is_structure: bool

    @property
    def kind(self) -> str:
        return 'structure' if self.is_structure else self.fields[0].kind

    @property
    def native(self) -> str:
        """The kind of one element, whatever the order of its bytes."""
        return NAMES[self.fields[0].code[1]]

    @property
    def is_mask(self) -> bool:
        return self.kind == 'bool'

    @staticmethod
    def of_kind(kind: str) -> 'Type':
        return Type((Field('', '<' + LETTERS[kind], 0),), SIZES[LETTERS[kind]], False)

    @staticmethod
    def of_format(text: str, size: int) -> 'Type':
        """A format that the program writes: '<q', or 'T{<H:sensor:2x>i:count:}'."""
        if not text.startswith('T{'):
            return Type((Field('', text.rjust(2, '<'), 0),), size, False)
        fields, order, at, place, count = [], '<', 2, 0, ''
        while text[at] != '}':
            sign = text[at]
            at += 1
            if sign in '<>':
                order = sign
            elif sign.isdigit():
                count += sign
            elif sign == 'x':
                place, count = place + int(count or 1), ''
            else:
                end = text.index(':', at + 1)
                fields.append(Field(text[at + 1:end], order + sign, place))
                place, at = place + SIZES[sign], end + 1
        return Type(tuple(fields), size, True)

    @staticmethod
    def of_descr(descr: Any) -> 'Type':
        """The type in the header of an NPY file: '<i8', or a list of pairs, where pads have no name."""
        def code(text: str) -> str:
            return ('>' if text[0] == '>' else '<') + CODES[text.lstrip('<>|=')]
        if isinstance(descr, str):
            return Type((Field('', code(descr), 0),), int(descr[-1]), False)
        fields, place = [], 0
        for name, text in descr:
            if name:
                fields.append(Field(name, code(text), place))
            place += int(text.lstrip('<>|=V') if 'V' in text else text[-1])
        return Type(tuple(fields), place, True)


def lengths(shape: Sequence[int]) -> str:
    return ' × '.join(f'{length:,}' for length in shape)


class Known(NamedTuple):
    """What a value is without its elements: `kind` is 'int', 'bool', 'scalar', 'array' or 'row'."""
    kind: str
    type: Optional[Type] = None
    shape: tuple[int, ...] = ()
    number: Any = None
    format: str = ''

    @staticmethod
    def of_answer(line: str) -> 'Known':
        """What the command `type` answers."""
        word, rest = line.split(' ', 1)
        if word == 'int':
            return Known('int', number=int(rest))
        if word == 'bool':
            return Known('bool', number=rest == 'True')
        if word == 'scalar':
            kind, number = rest.split(' ')
            return Known('scalar', Type.of_kind(kind), number=int(number))
        shape: tuple[int, ...] = ()
        if word == 'array':
            rest, told = rest.rsplit(' ', 1)
            shape = () if told == '()' else tuple(map(int, told.split(',')))
        text, size = rest.rsplit(' ', 1)
        return Known(word, Type.of_format(text, int(size)), shape, format=text)

    @property
    def is_array(self) -> bool:
        return self.kind == 'array'

    @property
    def kind_name(self) -> str:
        return self.kind if self.type is None else self.type.kind

    @property
    def words(self) -> str:
        """'int64 · 7 × 24', 'a Python integer', or 'a row'."""
        if self.is_array:
            return f'{self.kind_name} · {lengths(self.shape) or "no axes"}'
        words = {'int': 'a Python integer', 'bool': 'a Python Boolean', 'row': 'a row'}
        return words.get(self.kind, self.kind_name)


class Value(NamedTuple):
    """A value: what it is as `Known` has it; a number stands in `number`, elements in `data`."""
    kind: str
    type: Optional[Type] = None
    shape: tuple[int, ...] = ()
    data: bytes = b''
    number: Any = None
    format: str = ''

    @staticmethod
    def of_answer(line: str) -> 'Value':
        """What the command `value` answers: elements stand behind what `type` answers."""
        has_elements = line.startswith(('array ', 'row '))
        front, digits = line.rsplit(' ', 1) if has_elements else (line, '-')
        known = Known.of_answer(front)
        data = b'' if digits == '-' else bytes.fromhex(digits)
        return Value(known.kind, known.type, known.shape, data, known.number, known.format)

    @property
    def known(self) -> Known:
        return Known(self.kind, self.type, self.shape, self.number, self.format)

    @staticmethod
    def of_npy(file: bytes) -> 'Value':
        """What `np.save` of a cell has put into a file."""
        begin = 12 if file[6] > 1 else 10
        end = begin + int.from_bytes(file[8:begin], 'little')
        header = ast.literal_eval(file[begin:end].decode('utf-8' if file[6] == 3 else 'latin-1'))
        return Value('array', Type.of_descr(header['descr']), header['shape'], file[end:])

    @property
    def kind_name(self) -> str:
        return self.known.kind_name

    def elements(self, field: Optional[Field] = None) -> Any:
        """All numbers in C order: of an array of numbers, or of one field."""
        _, code, at = field or self.type.fields[0]
        if not self.type.is_structure:
            return struct.unpack('%s%d%s' % (code[0], len(self.data) // self.type.size, code[1]), self.data)
        places = range(at, len(self.data), self.type.size)
        return [struct.unpack_from(code, self.data, place)[0] for place in places]

    def rows(self) -> list[tuple]:
        """The structures of an array, or the one of a row, as tuples."""
        return list(zip(*(self.elements(field) for field in self.type.fields)))

    def numpy(self) -> Any:
        """The value as NumPy's own, where NumPy is there."""
        import numpy as np
        if self.type is None:
            return self.number
        if self.kind == 'scalar':
            return np.dtype(self.type.kind).type(self.number)
        formats = [field.code[0] + DESCRS[field.code[1]] for field in self.type.fields]
        dtype = np.dtype(formats[0])
        if self.type.is_structure:
            dtype = np.dtype({'names': [field.name for field in self.type.fields], 'formats': formats,
                              'offsets': [field.at for field in self.type.fields], 'itemsize': self.type.size})
        array = np.frombuffer(self.data, dtype).reshape(self.shape)
        return array[()] if self.kind == 'row' else array

    def tolist(self) -> Any:
        """Python numbers in nested lists, as NumPy's `tolist`."""
        if self.number is not None:
            return self.number
        return nested(self.rows() if self.type.is_structure else list(self.elements()), self.shape)


def nested(flat: list, shape: tuple[int, ...]) -> Any:
    """Elements in C order as nested lists."""
    if not shape:
        return flat[0]
    if len(shape) == 1:
        return flat
    size = len(flat) // shape[0] if shape[0] else 0
    return [nested(flat[at * size:(at + 1) * size], shape[1:]) for at in range(shape[0])]
