"""Elements, numbers and object identifiers (X.690; RFC 3417 section 8; docs/DECISIONS.md, "The profile")."""


class Fault(Exception):
    """No element is where one has to be. `place` counts octets from 0: where the element would begin."""

    def __init__(self, place):
        super().__init__(place)
        self.place = place


class Element:
    """An element that stands in `octets`: its tag, where it begins, and its content from `start` to `stop`."""

    def __init__(self, octets, at, end):
        if at + 2 > end or octets[at] & 31 == 31:
            raise Fault(at)
        length, start = octets[at + 1], at + 2
        if length >= 128:
            count = length - 128
            if count not in (1, 2, 3, 4) or start + count > end:
                raise Fault(at)
            length = int.from_bytes(octets[start : start + count], "big")
            start += count
        if start + length > end:
            raise Fault(at)
        self.octets, self.tag, self.at, self.start, self.stop = octets, octets[at], at, start, start + length

    @property
    def content(self):
        return self.octets[self.start : self.stop]


class Children:
    """The elements that fill a part of the octets, from left to right."""

    def __init__(self, octets, start, stop):
        self.octets, self.at, self.stop = octets, start, stop

    def one(self, tags=None):
        element = Element(self.octets, self.at, self.stop)
        if tags is not None and element.tag not in tags:
            raise Fault(element.at)
        self.at = element.stop
        return element

    def inside(self, tags):
        element = self.one(tags)
        return Children(self.octets, element.start, element.stop)

    def integer(self, least, most):
        element = self.one([0x02])
        number = integer_of(element.content)
        if number is None or not least <= number <= most:
            raise Fault(element.at)
        return number

    def end(self):
        if self.at != self.stop:
            raise Fault(self.at)


def integer_of(content):
    """The number of 32 bits with sign that the content is, in the fewest octets, or None."""
    if not 1 <= len(content) <= 4:
        return None
    number = int.from_bytes(content, "big", signed=True)
    return number if integer_content(number) == content else None


def integer_content(number):
    count = 1
    while not -(1 << (8 * count - 1)) <= number < 1 << (8 * count - 1):
        count += 1
    return number.to_bytes(count, "big", signed=True)


def identifier_of(content):
    """The arcs of an object identifier, or None."""
    if not content or content[-1] & 0x80:
        return None
    numbers, number, begins = [], 0, True
    for octet in content:
        if begins and octet == 0x80:
            return None
        number = number * 128 + (octet & 0x7F)
        begins = not octet & 0x80
        if begins:
            if number > 0xFFFFFFFF:
                return None
            numbers.append(number)
            number = 0
    first = min(numbers[0] // 40, 2)
    arcs = [first, numbers[0] - 40 * first, *numbers[1:]]
    return arcs if len(arcs) <= 128 else None


def element(tag, *contents):
    """The canonical spelling of an element: the shortest length."""
    content = b"".join(contents)
    size = len(content)
    if size < 128:
        return bytes([tag, size]) + content
    digits = size.to_bytes((size.bit_length() + 7) // 8, "big")
    return bytes([tag, 0x80 | len(digits)]) + digits + content


def integer(number):
    return element(0x02, integer_content(number))
