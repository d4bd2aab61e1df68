"""Instructions as a listing has them, and the lines of the source at which they stand (JVMS 4.7.10, 4.7.12)."""

from typing import Dict, List, Optional, Tuple

from oracle.classes import Method, Reader, read_pool
from oracle.opcodes import ARRAY_TYPES, MNEMONICS, PRIMITIVES

def signed(data: bytes) -> int:
    return int.from_bytes(data, "big", signed=True)


def instruction(method: Method, at: int) -> str:
    """Mnemonic and operands of an instruction, as a listing has them."""
    code, pool = method.code or b"", method.owner.pool
    name = MNEMONICS[code[at]]
    index = int.from_bytes(code[at + 1 : at + 3], "big")
    if name == "bipush":
        return f"{name} {signed(code[at + 1 : at + 2])}"
    if name == "sipush":
        return f"{name} {signed(code[at + 1 : at + 3])}"
    if name in ("ldc", "ldc_w"):
        index = code[at + 1] if name == "ldc" else index
        sort, value = pool[index]
        shown = {"int": str(value), "class": f"class {value}"}
        return f"{name} {shown.get(sort, f'#{index}')}"
    if name in ("iload", "aload", "istore", "astore"):
        return f"{name} {code[at + 1]}"
    if name == "iinc":
        return f"{name} {code[at + 1]} {signed(code[at + 2 : at + 3])}"
    if name.startswith("if") or name == "goto":
        return f"{name} {at + signed(code[at + 1 : at + 3])}"
    if name == "newarray":
        return f"{name} {PRIMITIVES[ARRAY_TYPES[code[at + 1]]]}"
    if name in ("new", "anewarray", "checkcast", "instanceof"):
        return f"{name} {pool[index][1]}"
    if 0xB2 <= code[at] <= 0xB9:
        owner, member, descriptor = pool[index][1]
        count = f" {code[at + 3]}" if name == "invokeinterface" else ""
        return f"{name} {owner}.{member}:{descriptor}{count}"
    assert name not in ("tableswitch", "lookupswitch", "wide", "goto_w"), name
    return name


class Lines:
    """The source file of a class file, and the lines of the code of its methods."""

    def __init__(self, data: bytes) -> None:
        reader = Reader(data)
        reader.take(8)
        self.texts = {index: value for index, (tag, value) in read_pool(reader).items() if tag == 1}
        reader.take(6)
        reader.take(2 * reader.number(2))
        self.source: Optional[str] = None
        self.lines: Dict[Optional[Tuple[str, str]], List[Tuple[int, int]]] = {}
        for _ in range(reader.number(2)):
            reader.take(6)
            self.attributes(reader, None)
        for _ in range(reader.number(2)):
            reader.take(2)
            key = self.texts[reader.number(2)], self.texts[reader.number(2)]
            self.attributes(reader, key)
        self.attributes(reader, None)

    def attributes(self, reader: Reader, method: Optional[Tuple[str, str]]) -> None:
        for _ in range(reader.number(2)):
            name, size = self.texts[reader.number(2)], reader.number(4)
            inner = Reader(reader.take(size))
            if name == "SourceFile":
                self.source = self.texts[inner.number(2)]
            elif name == "Code":
                inner.take(4)
                inner.take(inner.number(4))
                inner.take(8 * inner.number(2))
                self.attributes(inner, method)
            elif name == "LineNumberTable":
                table = [(inner.number(2), inner.number(2)) for _ in range(inner.number(2))]
                self.lines.setdefault(method, []).extend(table)

    def at(self, method: Method, offset: int) -> str:
        """The line of an offset: that of the entry which begins last at it or before it."""
        found = [entry for entry in self.lines.get((method.name, method.descriptor), []) if entry[0] <= offset]
        if not found or self.source is None:
            return ""
        last = max(start for start, _ in found)
        return f"{self.source}:{[line for start, line in found if start == last][-1]}"
