"""Captures in the format of libpcap and in pcapng, and the datagrams that they hold (docs/formats.md, `datagrams`)."""
import struct

LARGEST = 262144
MICROSECONDS, NANOSECONDS = 0xA1B2C3D4, 0xA1B23C4D
SECTION, MAGIC = 0x0A0D0D0A, 0x1A2B3C4D
TAGS = (0x8100, 0x88A8)
SKIPPED = (0, 43, 44, 60)  # extension headers of IPv6: hop by hop, routing, fragment, destination
FRAMES = {1: (12, 14), 113: (14, 16), 276: (0, 20)}  # the place of the type, and the size of the header


class Passed(Exception):
    """The record isn't in the log, and is counted by this reason."""


class Told(Exception):
    """The record isn't in the log, and is reported."""


class OutOfForm(Exception):
    """The octet at which the capture is out of its form."""


def number(octets, at, size=2):
    return int.from_bytes(octets[at : at + size], "big")


# ---- reading


def behind_frame(link, packet):
    """The version of IP, and what begins at its header."""
    if link == 101:
        version = packet[0] >> 4 if packet else None
        if version not in (4, 6):
            raise Passed("not IP")
        return version, packet
    if link not in FRAMES:
        raise Passed(f"link type {link}")
    place, head = FRAMES[link]
    if len(packet) < head:
        raise Passed("not IP")
    kind, packet = number(packet, place), packet[head:]
    while kind in TAGS and len(packet) > 3:
        kind, packet = number(packet, 2), packet[4:]
    versions = {0x0800: 4, 0x86DD: 6}
    if kind not in versions:
        raise Passed("not IP")
    return versions[kind], packet


def behind_ipv4(packet, is_whole):
    """What UDP has, and how much the header says that it has."""
    if len(packet) < 20:
        raise Passed("not IP") if is_whole else Told("cut short")
    head, total = 4 * (packet[0] & 15), number(packet, 2)
    if packet[0] >> 4 != 4 or head < 20 or total < head:
        raise Passed("not IP")
    if packet[9] != 17:
        raise Passed("not UDP")
    if number(packet, 6) & 0x3FFF:
        raise Told("fragment")
    return packet[head:total], total - head


def behind_ipv6(packet, is_whole):
    if len(packet) < 40:
        raise Passed("not IP") if is_whole else Told("cut short")
    if packet[0] >> 4 != 6:
        raise Passed("not IP")
    end, kind, at = 40 + number(packet, 4), packet[6], 40
    packet = packet[:end]
    while kind in SKIPPED:
        header = packet[at : at + 8]
        if len(header) < 8:
            raise Passed("not UDP") if is_whole else Told("cut short")
        if kind == 44 and number(header, 2) & 0xFFF9:
            raise Told("fragment") if header[0] == 17 else Passed("not UDP")
        at += 8 if kind == 44 else 8 * header[1] + 8
        kind = header[0]
    if kind != 17:
        raise Passed("not UDP")
    return packet[at:], max(end - at, 0)


def datagram(link, packet, is_whole, ports):
    """The datagram from or to one of the ports."""
    version, rest = behind_frame(link, packet)
    octets, size = (behind_ipv4 if version == 4 else behind_ipv6)(rest, is_whole)
    if size < 8:
        raise Told("bad length")
    if len(octets) < 8:
        raise Told("cut short")
    length = number(octets, 4)
    if not 8 <= length <= size:
        raise Told("bad length")
    if length > len(octets):
        raise Told("cut short")
    if not {number(octets, 0), number(octets, 2)} & set(ports):
        raise Passed("another port")
    if length == 8:
        raise Told("empty datagram")
    return octets[8:length]


def header(octets):
    """The order of the octets of each number, and the link."""
    for order in "><":
        if len(octets) >= 24 and struct.unpack(order + "I", octets[:4])[0] in (MICROSECONDS, NANOSECONDS):
            (major,), (link,) = struct.unpack(order + "H", octets[4:6]), struct.unpack(order + "I", octets[20:24])
            if major != 2:
                raise OutOfForm(4)
            if link > 0xFFFF:
                raise OutOfForm(20)
            return order, link
    raise OutOfForm(0)


def records(octets, order):
    """The moment, the packet, and whether it was captured whole, of each record."""
    at = 24
    while at < len(octets):
        head = octets[at : at + 16]
        moment, _, size, original = struct.unpack(order + "IIII", head) if len(head) == 16 else (0, 0, LARGEST + 1, 0)
        packet = octets[at + 16 : at + 16 + size]
        if size > LARGEST or len(packet) < size:
            raise OutOfForm(at)
        yield moment, packet, original <= size
        at += 16 + size


def described(order, content):
    """What the content of an interface block says: the link, the units of a second, and the offset in seconds."""
    (link,) = struct.unpack(order + "H", content[:2])
    units, offset, rest = 10**6, 0, content[8:]
    while len(rest) >= 4:
        code, size = struct.unpack(order + "HH", rest[:4])
        value = rest[4 : 4 + size]
        if code == 0 or len(value) < size:
            break
        if (code, size) == (9, 1):
            units = 2 ** (value[0] - 128) if value[0] >= 128 else 10 ** value[0]
        if (code, size) == (14, 8):
            (offset,) = struct.unpack(order + "q", value)
        rest = rest[4 + -(-size // 4) * 4 :]
    return link, units, offset


def blocks(octets):
    """The place, the order, the kind and the content of each block of pcapng."""
    at, order = 0, None
    while at < len(octets):
        head = octets[at : at + 12]
        if head[:4] == SECTION.to_bytes(4, "big"):
            order = {struct.pack(it + "I", MAGIC): it for it in "><"}.get(head[8:])
        if len(head) < 12 or order is None:
            raise OutOfForm(at)
        kind, size = struct.unpack(order + "II", head[:8])
        text = octets[at : at + size]
        if size < (28 if kind == SECTION else 12) or size % 4 or len(text) < size or text[-4:] != head[4:8]:
            raise OutOfForm(at)
        yield at, order, kind, text[8:-4]
        at += size


def packets(octets):
    """The link, the moment or None, the packet, and whether it was captured whole, of each record of a capture."""
    if octets[:4] != SECTION.to_bytes(4, "big"):
        order, link = header(octets)
        for moment, packet, is_whole in records(octets, order):
            yield link, moment, packet, is_whole
        return
    interfaces = []
    for at, order, kind, content in blocks(octets):
        if kind == SECTION:
            interfaces = []
            if struct.unpack(order + "H", content[4:6])[0] != 1:
                raise OutOfForm(at)
        elif kind == 1:
            if not 8 <= len(content) <= LARGEST + 16:
                raise OutOfForm(at)
            interfaces.append(described(order, content))
        elif kind == 6:
            fields = (
                struct.unpack(order + "IIIII", content[:20]) if len(content) >= 20 else (len(interfaces), 0, 0, 0, 0)
            )
            which, high, low, size, original = fields
            if which >= len(interfaces) or size > min(len(content) - 20, LARGEST):
                raise OutOfForm(at)
            link, units, offset = interfaces[which]
            moment = (high * 2**32 + low) // units + offset
            yield link, moment if 0 <= moment < 2**64 else None, content[20 : 20 + size], original <= size
        elif kind in (2, 3):
            yield 0, None, b"", True


def datagrams(name, octets, ports):
    """What `datagrams` prints, on both streams, and its status."""
    log, told, counts = [], [], {}
    try:
        for place, (link, moment, packet, is_whole) in enumerate(packets(octets), 1):
            try:
                if moment is None:
                    raise Told("no moment")
                log.append(f"{moment} {datagram(link, packet, is_whole, ports).hex()}\n")
            except Told as why:
                told.append(f"snmpsec: record {place}: {why}\n")
            except Passed as why:
                counts[str(why)] = counts.get(str(why), 0) + 1
    except OutOfForm as place:
        return "".join(log) + f"refused datagrams {name} octet {place}\n", "".join(told), 1
    if counts:
        told.append("snmpsec: passed over: " + ", ".join(f"{why} {counts[why]}" for why in sorted(counts)) + "\n")
    return "".join(log), "".join(told), 0


# ---- writing


def udp(source, destination, octets, length=None):
    return struct.pack(">HHHH", source, destination, 8 + len(octets) if length is None else length, 0) + octets


def ipv4(content, protocol=17, piece=0, total=None, options=b""):
    head = 20 + len(options)
    total = head + len(content) if total is None else total
    fields = struct.pack(">BBHHHBBH", 0x40 | head // 4, 0, total, 7, piece, 64, protocol, 0)
    return fields + bytes([192, 0, 2, 1, 192, 0, 2, 2]) + options + content


def ipv6(content, kind=17, size=None):
    fields = struct.pack(">IHBB", 6 << 28, len(content) if size is None else size, kind, 64)
    return fields + b"".join(b"\x20\x01\x0d\xb8" + bytes(11) + bytes([it]) for it in (1, 2)) + content


def framed(link, kind, content):
    """The content on a link, with its type."""
    if link == 101:
        return content
    if link == 276:
        return struct.pack(">HHIHBB", kind, 0, 1, 772, 0, 6) + bytes(8) + content
    addresses = bytes([0, 0, 3, 4, 0, 6]) + bytes(8) if link == 113 else bytes([2, 0, 0, 0, 0, 2, 2, 0, 0, 0, 0, 1])
    return addresses + struct.pack(">H", kind) + content


def capture(order, magic, link, rows):
    """A capture of these records: the moment, the packet, and how many octets it had."""
    text = struct.pack(order + "IHHiIII", magic, 2, 4, 0, 0, LARGEST, link)
    return text + b"".join(
        struct.pack(order + "IIII", moment, 7, len(packet), original) + packet for moment, packet, original in rows
    )


def block(order, kind, content):
    size = 12 + -(-len(content) // 4) * 4
    return struct.pack(order + "II", kind, size) + content.ljust(size - 12, b"\0") + struct.pack(order + "I", size)


def option(order, code, value):
    return struct.pack(order + "HH", code, len(value)) + value + bytes(-len(value) % 4)


def section(order, rows):
    """A section: of each row the interface's place, its time, the packet and how many octets it had, or a block's kind
    and content."""
    text = block(order, SECTION, struct.pack(order + "IHHq", MAGIC, 1, 0, -1))
    for row in rows:
        if len(row) == 2:
            text += block(order, *row)
            continue
        which, time, packet, original = row
        fields = struct.pack(order + "IIIII", which, time >> 32, time & 0xFFFFFFFF, len(packet), original)
        text += block(order, 6, fields + packet)
    return text
