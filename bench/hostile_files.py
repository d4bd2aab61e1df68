"""Sets of class files that are hard to link or to verify, by the name of their shape.

What is in them of each kind there is as often as a number says, which is 1 at least. Where it is too large for a class
file, `struct.error` is raised.
"""

import struct
from typing import Callable, Dict, Iterable, List, Sequence

from tools.class_files import FIELDREF, METHODREF, NAME_AND_TYPE, class_entry, pair, u2, utf8
from tools.growing_classes import INTERFACE, OBJECT, Code, GrowingClass

THROWABLE = "java/lang/Throwable"

# The class with `main`, in the first file.
MAIN = "A"

ABSTRACT_CLASS = 0x0421
PUBLIC, PRIVATE, PUBLIC_STATIC, PUBLIC_FINAL = 0x0001, 0x0002, 0x0009, 0x0011
PUBLIC_STATIC_FINAL, PUBLIC_ABSTRACT = 0x0019, 0x0401

NOP, ACONST_NULL, ICONST_0 = 0x00, 0x01, 0x03
ALOAD, ISTORE, ASTORE, POP, DUP = 0x19, 0x36, 0x3A, 0x57, 0x59
TABLESWITCH, RETURN, GETSTATIC = 0xAA, 0xB1, 0xB2
INVOKEVIRTUAL, INVOKESPECIAL, INVOKESTATIC = 0xB6, 0xB7, 0xB8
NEW, ATHROW, CHECKCAST, WIDE, GOTO_W = 0xBB, 0xBF, 0xC0, 0xC4, 0xC8

# How many objects are made in each of many loops.
IN_EACH = 2_048

Shape = Callable[[int], List[bytes]]


def numbered(first: str, number: int) -> str:
    """The name of what has a number below 65,536: a letter and four more."""
    return first + "".join(chr(ord("A") + (number >> shift) % 16) for shift in (12, 8, 4, 0))


def behind_switch(at: int, number: int) -> int:
    """The offset behind a switch with so many places at an offset."""
    return at + 13 + (3 - at) % 4 + 4 * number


class Body(Code):
    """Code whose jumps are wide, and which may have any number of local variables."""

    def of_local(self, opcode: int, local: int) -> None:
        """A load from a local variable, or a store to it."""
        self.code += bytes([WIDE, opcode]) + u2(local)

    def go_to(self, target: int) -> None:
        self.code += struct.pack(">Bi", GOTO_W, target - self.here())

    def switch(self, default: int, places: Sequence[int]) -> None:
        """A switch, which leads to the places, and else to the default."""
        at = self.here()
        numbers = [default - at, 0, len(places) - 1, *(place - at for place in places)]
        self.code += bytes([TABLESWITCH]) + bytes((3 - at) % 4) + struct.pack(f">{len(numbers)}i", *numbers)


class Class(GrowingClass):
    """A class or an interface, some of whose constants are many."""

    def main(self, body: Body, stack: int, local_count: int) -> None:
        self.method(PUBLIC_STATIC, "main", "([Ljava/lang/String;)V", body, stack, local_count)

    def new_class(self, name: str) -> int:
        """The Class of a name that no entry of the pool has yet."""
        return self.pool.push(class_entry(self.pool.push(utf8(name))))

    def described(self, name: str, descriptor: str) -> int:
        return self.pool.entry(pair(NAME_AND_TYPE, self.pool.text(name), self.pool.text(descriptor)))


def data_of(classes: Iterable[Class]) -> List[bytes]:
    return [one.data() for one in classes]


def with_main(body: Body, stack: int, local_count: int) -> Class:
    """The class with this `main`."""
    one = Class(MAIN)
    one.main(body, stack, local_count)
    return one


def idle_main() -> Class:
    """The class with a `main` that does nothing."""
    return with_main(Body(RETURN), 0, 1)


def chained(letter: str, place: int, above: str = OBJECT) -> Class:
    """A class of a chain."""
    return Class(numbered(letter, place), numbered(letter, place - 1) if place else above)


def chain(letter: str, number: int, above: str = OBJECT) -> List[bytes]:
    """So many empty classes, each below the one before, the first below a class of this name."""
    return data_of(chained(letter, place, above) for place in range(number))


# ---- methods with many handlers and many local variables


def set_local(body: Body, local: int, parity: int) -> None:
    """Puts an int into a local variable whose number has this parity, and null into another."""
    constant, store = (ICONST_0, ISTORE) if local % 2 == parity else (ACONST_NULL, ASTORE)
    body.ops(constant)
    body.of_local(store, local)


def set_locals(body: Body, number: int, parity: int) -> None:
    for local in range(number):
        set_local(body, local, parity)


def protect(body: Body, start: int, end: int, handlers: Iterable[int]) -> None:
    body.handlers += [(start, end, handler, 0) for handler in handlers]


def end_protected(body: Body, start: int, number: int) -> None:
    """Ends the code by a return, with so many handlers behind it over what stands before it from an offset on."""
    end = body.here()
    body.ops(RETURN)
    protect(body, start, end, range(body.here(), body.here() + number))
    body.ops(*[ATHROW] * number)


def handlers(number: int) -> List[bytes]:
    """So many handlers over as many stores into as many local variables, which held nothing before."""
    body = Body()
    set_locals(body, number, 0)
    end_protected(body, 0, number)
    return [with_main(body, 1, number).data()]


def raised_handlers(number: int) -> List[bytes]:
    """So many handlers over stores that change the type of each local variable, so that each raises the frame types
    of all handlers."""
    body = Body()
    set_locals(body, number, 0)
    start = body.here()
    set_locals(body, number, 1)
    end_protected(body, start, number)
    return [with_main(body, 1, number).data()]


def early_handlers(number: int) -> List[bytes]:
    """What `raised_handlers` makes, with the handlers before the stores, so that each is looked at again as often as
    it is raised."""
    body = Body()
    body.go_to(number + 5)
    first = body.here()
    body.ops(*[ATHROW] * number)
    set_locals(body, number, 0)
    start = body.here()
    set_locals(body, number, 1)
    end = body.here()
    body.ops(RETURN)
    protect(body, start, end, range(first, first + number))
    return [with_main(body, 1, number).data()]


def alternating_handlers(number: int) -> List[bytes]:
    """So many handlers over as many places, where two frame types that differ in as many local variables stand by
    turns. A switch leads to each second place; its default changes all local variables, and leads to the others by
    another switch."""
    body = Body()
    set_locals(body, number, 0)
    body.ops(ICONST_0)
    other = behind_switch(body.here(), number)
    start = behind_switch(other + 5 * number + 1, number)
    body.switch(other, range(start, start + 20 * number, 20))
    set_locals(body, number, 1)
    body.ops(ICONST_0)
    body.switch(start + 10, range(start + 10, start + 10 + 20 * number, 20))
    end = start + 20 * number
    for local in range(number):
        for parity in (0, 1):
            set_local(body, local, parity)
            body.go_to(end)
    end_protected(body, start, number)
    return [with_main(body, 1, number).data()]


# ---- methods with many local variables or a deep stack


def slow_loop(number: int) -> List[bytes]:
    """A loop over so many local variables, each of which takes what the one before it held: the first holds another
    type from the second time on, which each time goes one further."""
    one, body = Class(MAIN), Body()
    own, other = one.pool.class_of(MAIN), one.pool.class_of(OBJECT)
    body.ops(ACONST_NULL)
    body.op_short(CHECKCAST, own)
    for local in range(number):
        body.ops(DUP)
        body.of_local(ASTORE, local)
    body.of_local(ASTORE, number)
    head = body.here()
    for local in range(number - 1, 0, -1):
        body.of_local(ALOAD, local - 1)
        body.of_local(ASTORE, local)
    body.ops(ACONST_NULL)
    body.op_short(CHECKCAST, other)
    body.of_local(ASTORE, 0)
    body.go_to(head)
    one.main(body, 2, number + 1)
    return [one.data()]


def deep_stack(number: int) -> List[bytes]:
    """So many operands on the stack, of two types by turns, where a switch leads to as many places, all of which go on
    at one."""
    body = Body(*([ICONST_0, ACONST_NULL] * number)[:number], ICONST_0)
    first = behind_switch(body.here(), number)
    end = first + 5 * number
    body.switch(first, range(first, end, 5))
    for _ in range(number):
        body.go_to(end)
    body.ops(RETURN)
    return [with_main(body, number + 1, 1).data()]


# ---- chains of classes and ladders of interfaces


def catch_chain(number: int) -> List[bytes]:
    """So many instructions, each with as many entries of the exception table, which catch the classes of a chain, the
    lowest first, at one handler."""
    one, body = Class(MAIN), Body(*[NOP] * number, RETURN, ATHROW)
    for place in reversed(range(number)):
        body.handlers.append((0, number, number + 1, one.new_class(numbered("E", place))))
    one.main(body, 1, 1)
    return [one.data(), *chain("E", number, THROWABLE)]


def rungs(place: int) -> List[str]:
    return [numbered("L", place), numbered("R", place)]


def interface_ladder(number: int) -> List[bytes]:
    """Two interfaces a rung, each of which stands on both of the rung below; and a class that implements the upmost
    ones."""
    made = [idle_main()]
    made[0].stands_on(*rungs(number - 1))
    for place in range(number):
        for name in rungs(place):
            made.append(Class(name, flags=INTERFACE))
            made[-1].stands_on(*(rungs(place - 1) if place else []))
    return data_of(made)


def long_class_name(number: int) -> List[bytes]:
    """A class with a name of so many bytes, named by as many constants, and as many casts of null to it."""
    one, body, name = Class(MAIN), Body(), "n" * number
    text = one.pool.text(name)
    for _ in range(number):
        body.ops(ACONST_NULL)
        body.op_short(CHECKCAST, one.pool.push(class_entry(text)))
        body.ops(POP)
    body.ops(RETURN)
    one.main(body, 1, 1)
    return data_of([one, Class(name)])


# ---- loops that are run through once for each class of a chain


class Loop(Body):
    """Code with a loop whose head is where local variable 1 holds null."""

    def __init__(self) -> None:
        super().__init__(ACONST_NULL)
        self.of_local(ASTORE, 1)
        self.head = self.here()

    def finish(self, one: Class, number: int) -> None:
        """At its end stands a switch that leads to so many places, each of which puts null as a class of a chain, the
        lowest first, into local variable 1, and goes to the head of the loop."""
        self.ops(ICONST_0)
        first = behind_switch(self.here(), number)
        self.switch(first, range(first, first + 13 * number, 13))
        for place in reversed(range(number)):
            self.ops(ACONST_NULL)
            self.op_short(CHECKCAST, one.new_class(numbered("C", place)))
            self.of_local(ASTORE, 1)
            self.go_to(self.head)


def loop_up_a_chain(number: int) -> List[bytes]:
    """The classes of a chain of so many below a class, joined at the head of a loop, the lowest first."""
    one, body = Class(MAIN), Loop()
    body.finish(one, number)
    one.main(body, 1, 2)
    return [one.data(), *chain("C", number)]


def objects_in_a_loop(one: Class, number: int) -> Loop:
    """A loop in which so many objects are made, up a chain of as many classes."""
    made, body = one.new_class(numbered("C", 0)), Loop()
    for _ in range(number):
        body.op_short(NEW, made)
        body.ops(POP)
    body.finish(one, number)
    return body


def objects_up_a_chain(number: int) -> List[bytes]:
    """A loop up a chain of so many classes, where as many objects are made in it."""
    one = Class(MAIN)
    one.main(objects_in_a_loop(one, number), 1, 2)
    return [one.data(), *chain("C", number)]


def many_loops(number: int) -> List[bytes]:
    """So many methods that are the same, each of 2,048 objects in a loop up one chain of as many classes."""
    one = Class(MAIN)
    body = objects_in_a_loop(one, IN_EACH)
    for place in range(number):
        one.method(PUBLIC_STATIC, numbered("m", place), "()V", body, 1, 2)
    one.main(Body(RETURN), 0, 1)
    return [one.data(), *chain("C", IN_EACH)]


def calls_in_a_loop(one: Class, called: int, arguments: Sequence[int], number: int) -> Loop:
    """So many calls of a method of this object, with arguments that instructions push, in a loop."""
    body = Loop()
    for _ in range(number):
        body.of_local(ALOAD, 0)
        body.ops(*arguments)
        body.op_short(INVOKESPECIAL, called)
    body.finish(one, number)
    return body


def calls_up_a_chain(number: int) -> List[bytes]:
    """In a method of an object, so many calls of a method of its superclass in a loop, which the upmost of as many
    superclasses declares."""
    above = numbered("S", number - 1)
    one = Class(MAIN, above)
    called = one.pool.member(METHODREF, above, "m", "()V")
    one.method(PUBLIC, "l", "()V", calls_in_a_loop(one, called, [], number), 1, 2)
    one.main(Body(RETURN), 0, 1)
    superclasses = [chained("S", place) for place in range(number)]
    superclasses[0].method(PUBLIC, "m", "()V", Body(RETURN))
    return [*data_of([one, *superclasses]), *chain("C", number)]


def descriptors_up_a_chain(number: int) -> List[bytes]:
    """A loop up a chain of so many classes, where the method that is called in it is a private one. Its descriptor
    names a class whose name is four times as many bytes long."""
    one, name = Class(MAIN), "n" * (4 * number)
    descriptor = f"(L{name};)V"
    called = one.pool.member(METHODREF, MAIN, "m", descriptor)
    one.method(PUBLIC, "l", "()V", calls_in_a_loop(one, called, [ACONST_NULL], number), 2, 2)
    one.method(PRIVATE, "m", descriptor, Body(RETURN), 0, 2)
    one.main(Body(RETURN), 0, 1)
    return [*data_of([one, Class(name)]), *chain("C", number)]


# ---- members that are found far from the class by which they are named


def main_with_calls(owner: str, number: int) -> Class:
    """The class with `main`, which calls so many methods by way of a class, by a receiver that is null."""
    one, body = Class(MAIN), Body()
    for place in range(number):
        called = one.pool.member(METHODREF, owner, numbered("m", place), "()V")
        body.ops(ACONST_NULL)
        body.op_short(INVOKEVIRTUAL, called)
    body.ops(RETURN)
    one.main(body, 1, 1)
    return one


def main_with_reads(owner: str, number: int, are_own: bool = False) -> Class:
    """The class with `main`, which reads so many static fields by way of a class, and has them where they are own."""
    one, body = Class(MAIN), Body()
    index = one.pool.class_of(owner)
    for place in range(number):
        if are_own:
            one.field(PUBLIC_STATIC, numbered("g", place), "I")
        described = one.described(numbered("g", place), "I")
        body.op_short(GETSTATIC, one.pool.push(pair(FIELDREF, index, described)))
        body.ops(POP)
    body.ops(RETURN)
    one.main(body, 1, 1)
    return one


def below_interfaces(one: Class, upmost: Class, number: int) -> List[bytes]:
    """A class, so many interfaces below each other, of which the upmost one is given, and as many abstract classes
    below each other, each of which implements the lowest interface."""
    made = [one, upmost]
    for place in range(1, number):
        made.append(Class(numbered("I", place), flags=INTERFACE))
        made[-1].stands_on(numbered("I", place - 1))
    for place in range(number):
        above = numbered("C", place - 1) if place else OBJECT
        made.append(Class(numbered("C", place), above, ABSTRACT_CLASS))
        made[-1].stands_on(numbered("I", number - 1))
    return data_of(made)


def inherited_methods(number: int) -> List[bytes]:
    """So many classes below each other, each of which implements the lowest of so many interfaces below each other.
    The upmost interface has as many methods, which are called by way of the lowest class."""
    upmost = Class(numbered("I", 0), flags=INTERFACE)
    for place in range(number):
        upmost.method(PUBLIC_ABSTRACT, numbered("m", place), "()V")
    return below_interfaces(main_with_calls(numbered("C", number - 1), number), upmost, number)


def inherited_fields(number: int) -> List[bytes]:
    """What `inherited_methods` makes, with static fields in the place of methods."""
    upmost = Class(numbered("I", 0), flags=INTERFACE)
    for place in range(number):
        upmost.field(PUBLIC_STATIC_FINAL, numbered("g", place), "I")
    return below_interfaces(main_with_reads(numbered("C", number - 1), number), upmost, number)


def add_idle_methods(one: Class, flags: int, number: int) -> None:
    """Adds so many methods that do nothing."""
    for place in range(number):
        one.method(flags, numbered("m", place), "()V", Body(RETURN))


def methods_up_a_chain(number: int) -> List[bytes]:
    """So many classes below each other. The upmost one has as many methods, which are called by way of the lowest
    one."""
    made = [chained("C", place) for place in range(number)]
    add_idle_methods(made[0], PUBLIC, number)
    return data_of([main_with_calls(numbered("C", number - 1), number), *made])


def methods_of_interfaces(number: int) -> List[bytes]:
    """An abstract class that implements so many interfaces, each of which has a method; all are called by way of the
    class."""
    made = [main_with_calls("C", number)]
    for place in range(number):
        made.append(Class(numbered("I", place), flags=INTERFACE))
        made[-1].method(PUBLIC_ABSTRACT, numbered("m", place), "()V")
    made.append(Class("C", flags=ABSTRACT_CLASS))
    made[-1].stands_on(*(numbered("I", place) for place in range(number)))
    return data_of(made)


def long_method_name(number: int) -> List[bytes]:
    """So many static methods of one name, which is four times as many bytes long, each called with nulls. Each takes
    three arrays of ints, of other dimensions for each number below 13,824."""
    one, body, name = Class(MAIN), Body(), "n" * (4 * number)
    for place in range(number):
        arrays = ("[" * (dimensions % 24) + "[I" for dimensions in (place, place // 24, place // 576))
        descriptor = f"({''.join(arrays)})V"
        one.method(PUBLIC_STATIC, name, descriptor, Body(RETURN), 0, 3)
        called = one.pool.member(METHODREF, MAIN, name, descriptor)
        body.ops(ACONST_NULL, ACONST_NULL, ACONST_NULL)
        body.op_short(INVOKESTATIC, called)
    body.ops(RETURN)
    one.main(body, 3, 1)
    return [one.data()]


# ---- classes with many members, and many references to them


def overriding_classes(number: int) -> List[Class]:
    """So many classes below each other, with as many methods each, which override those of the class above."""
    made = [chained("C", place) for place in range(number)]
    for one in made:
        add_idle_methods(one, PUBLIC, number)
    return made


def overriding_methods(number: int) -> List[bytes]:
    """So many classes below each other, with as many methods each, which override those of the class above."""
    return data_of([idle_main(), *overriding_classes(number)])


def overriding_beside_finals(number: int) -> List[bytes]:
    """What `overriding_methods` makes, beside a class that has final methods of the same names."""
    one = idle_main()
    add_idle_methods(one, PUBLIC_FINAL, number)
    return data_of([one, *overriding_classes(number)])


def redeclared_fields(number: int) -> List[bytes]:
    """So many classes below each other, with as many fields each, of the same names, and as many others in the upmost
    one, each of which is read by way of the lowest one."""
    made = [chained("C", place) for place in range(number)]
    for one in made:
        for place in range(number):
            one.field(PUBLIC_STATIC, numbered("f", place), "I")
            if one is made[0]:
                one.field(PUBLIC_STATIC, numbered("g", place), "I")
    return data_of([main_with_reads(numbered("C", number - 1), number), *made])


def read_fields(number: int) -> List[bytes]:
    """A class with so many fields, each of which is read."""
    return [main_with_reads(MAIN, number, are_own=True).data()]


def long_descriptor(number: int) -> List[bytes]:
    """A method with a descriptor of some so many bytes, the name of a class, which is called as many times, each time
    by a constant of its own."""
    one, body, name = Class(MAIN), Body(), "n" * number
    descriptor = f"(L{name};)V"
    owner, described = one.pool.class_of(MAIN), one.described("m", descriptor)
    for _ in range(number):
        called = one.pool.push(pair(METHODREF, owner, described))
        body.ops(ACONST_NULL)
        body.op_short(INVOKESTATIC, called)
    body.ops(RETURN)
    one.main(body, 1, 1)
    one.method(PUBLIC_STATIC, "m", descriptor, Body(RETURN))
    return data_of([one, Class(name)])


SHAPES: Dict[str, Shape] = {
    shape.__name__.replace("_", "-"): shape
    for shape in (
        alternating_handlers,
        calls_up_a_chain,
        catch_chain,
        deep_stack,
        descriptors_up_a_chain,
        early_handlers,
        handlers,
        inherited_fields,
        inherited_methods,
        interface_ladder,
        long_class_name,
        long_descriptor,
        long_method_name,
        loop_up_a_chain,
        many_loops,
        methods_of_interfaces,
        methods_up_a_chain,
        objects_up_a_chain,
        overriding_beside_finals,
        overriding_methods,
        raised_handlers,
        read_fields,
        redeclared_fields,
        slow_loop,
    )
}
