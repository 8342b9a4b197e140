"""A gateway in a plain form, to the octet: the messages of SNMPv3 and SNMPv2c, access to views, and what a gateway
takes and sends.

RFC 3412, section 6, and RFC 3414, sections 2.4, 6.3.1 and 7.3.1 (messages); RFC 3415, section 3 (access); RFC 3413,
section 3.2, and RFC 3416, section 4.2 (requests, and what becomes of a device's answers); RFC 1901, section 3 (messages
to a device). docs/gateway.md tells what a gateway does. Nothing here is of the library: check-gate compares both.
"""
import functools
import hmac

from made_devices import END, GEN_ERR, NO_SUCH_INSTANCE, NO_SUCH_NAME, NO_SUCH_OBJECT, TOO_BIG, spelled
from made_views import compares
from slow_model.ber import Children, Element, Fault, element, identifier_of, integer, integer_content, integer_of
from slow_model.manager import fed_back, localised

LARGEST, SHORT = 65507, 1472
GET, GET_NEXT, RESPONSE, SET, GET_BULK, INFORM, TRAP, REPORT = 0xA0, 0xA1, 0xA2, 0xA3, 0xA5, 0xA6, 0xA7, 0xA8
CONFIRMED = GET, GET_NEXT, GET_BULK, SET, INFORM
NO_ACCESS, RESOURCE_UNAVAILABLE, AUTHORIZATION_ERROR, LAST_STATUS = 6, 13, 16, 18
NO_AUTH, AUTH, PRIV = 0, 1, 2
# the limits that a configuration says, in the order of a row of data; the others are always the same
CONFIGURED = "waiting", "rounds", "again", "tries", "last", "gather", "long_answers", "report_unreachable"
JOINED, NAMES, GATHERED = 16, 100, 262028
REMEMBERED, REMEMBERED_SETS, REQUEST_IDS, MOST_VARIABLES = 301_000, 4096, 1 << 31, 256
COUNTERS = {
    "UnknownContexts": (1, 3, 6, 1, 6, 3, 12, 1, 5, 0),
    "UnavailableContexts": (1, 3, 6, 1, 6, 3, 12, 1, 4, 0),
    "UnknownPduHandlers": (1, 3, 6, 1, 6, 3, 11, 2, 1, 3, 0),
}


# ---- messages

class User:
    """A user with one password for both keys: the code's hash, if there is one, and whether there is privacy."""

    def __init__(self, name, code, password, has_privacy, engine):
        self.name, self.code, self.has_privacy = name, code, has_privacy
        self.key = localised(code, password, engine) if code else b""
        self.octets = {None: 0, "md5": 12, "sha1": 12, "sha256": 24}[code]


def level_message(user, level, engine, numbers, scoped, salt):
    """A message of SNMPv3. `numbers` are msgID, msgMaxSize, msgFlags, boots and time."""
    number, most, flags, boots, time = numbers
    header = element(0x30, integer(number), integer(most), element(4, bytes([flags | (0, 1, 3)[level]])), integer(3))
    if level == PRIV:
        iv = boots.to_bytes(4, "big") + time.to_bytes(4, "big") + salt
        scoped = element(4, fed_back(user.key[:16], iv, scoped, False))
    front = element(4, engine) + integer(boots) + integer(time) + element(4, user.name)
    back = element(4, salt if level == PRIV else b"")

    def whole(code):
        return element(0x30, integer(3), header, element(4, element(0x30, front, element(4, code), back)), scoped)

    if level == NO_AUTH:
        return whole(b"")
    return whole(hmac.digest(user.key, whole(bytes(user.octets)), user.code)[:user.octets])


def scoped_of(engine, context, pdu):
    return element(0x30, element(4, engine), element(4, context), pdu)


def pdu_of(tag, number, second, third, octets):
    return element(tag, integer(number), integer(second), integer(third), element(0x30, octets))


def community_message(community, pdu, version=1):
    return element(0x30, integer(version), element(4, community), pdu)


@functools.cache
def spelled_names(names):
    """variable-bindings of these names, each unSpecified."""
    return spelled([(name, (5, b"")) for name in names])


def bindings_in(octets):
    """The bindings of variable-bindings."""
    left, found = Children(octets, 0, len(octets)), []
    while left.at != left.stop:
        binding = left.inside([0x30])
        name = identifier_of(binding.one([0x06]).content)
        if name is None:
            raise Fault(0)
        value = binding.one()
        binding.end()
        found.append((tuple(name), (value.tag, value.content)))
    return found


def answer_in(datagram):
    """community, number, error-status, error-index and bindings of a Response in a message of SNMPv2c, or None."""
    try:
        whole = Element(datagram, 0, len(datagram))
        parts = Children(datagram, whole.start, whole.stop)
        version, community = parts.integer(0, 2 ** 31 - 1), parts.one([4]).content
        pdu = parts.inside([RESPONSE])
        numbers = [pdu.integer(-(1 << 31), (1 << 31) - 1) for _ in range(3)]
        octets = pdu.one([0x30]).content
        pdu.end(), parts.end()
        if whole.tag != 0x30 or whole.stop != len(datagram) or version != 1:
            return None
        return community, *numbers, bindings_in(octets)
    except Fault:
        return None


def is_unsigned(content, most):
    return (
        bool(content)
        and content[0] < 0x80
        and integer_content(int.from_bytes(content, "big")) == content
        and int.from_bytes(content, "big") < most
    )


def is_value(value):
    """RFC 2578, section 7.1, and RFC 3416, section 3."""
    tag, content = value
    if tag in (0x05, 0x80, 0x81, 0x82):
        return not content
    if tag in (0x04, 0x44):
        return len(content) <= 65535
    if tag == 0x02:
        return integer_of(content) is not None
    if tag == 0x06:
        return identifier_of(content) is not None
    if tag == 0x40:
        return len(content) == 4
    return tag in (0x41, 0x42, 0x43, 0x46) and is_unsigned(content, 1 << (64 if tag == 0x46 else 32))


# ---- access

FREE = 3  # as all greater arcs, which no row has
ROW_ARCS = 4  # that a row has at most


class View:
    """Family rows (RFC 3415, section 4), by a search through all names that differ for them."""

    def __init__(self, rows):
        self.rows = sorted(rows, key=lambda row: (len(row[0]), row[0]), reverse=True)
        self.compared = [
            (len(subtree), [at for at in range(len(subtree)) if compares(mask, at)], subtree, include)
            for subtree, mask, include in self.rows
        ]
        self.known, self.least = {}, {}

    def decides(self, name):
        for count, places, subtree, include in self.compared:
            if count <= len(name):
                for at in places:
                    if name[at] != subtree[at]:
                        break
                else:
                    return include
        return False

    def sees(self, name):
        if name not in self.known:
            self.known[name] = self.decides(name)
        return self.known[name]

    def first_below(self, beginning):
        """The least name that begins so, can be spelled and is seen."""
        if beginning not in self.least:
            self.least[beginning] = self.search_below(beginning)
        return self.least[beginning]

    def search_below(self, beginning):
        if len(beginning) > 1 and self.sees(beginning):
            return beginning
        if len(beginning) >= ROW_ARCS:
            return None
        return next(filter(None, (self.first_below((*beginning, arc)) for arc in range(FREE + 1))), None)

    def after(self, name):
        """The least name after this one that can be spelled and is seen."""
        if len(name) >= ROW_ARCS:
            if self.sees(name):
                return (*name, 0)
        else:
            found = next(filter(None, (self.first_below((*name, arc)) for arc in range(FREE + 1))), None)
            if found:
                return found
        for at in range(len(name) - 1, -1, -1):
            most = 2 if at == 0 else 39 if at == 1 and name[0] < 2 else (1 << 32) - 1
            for arc in range(name[at] + 1, min(most, max(FREE, name[at] + 1)) + 1):
                found = self.first_below((*name[:at], arc))
                if found:
                    return found
        return None

    def place_after(self, name):
        """The name from which a walk asks: just before the next one that is seen."""
        following = self.after(name)
        if following is None:
            return None
        *front, last = following
        place = (*front, last - 1, 2147483647) if last else tuple(front)
        return place if len(place) > 1 and place > name else name


class Tables:
    """The four tables of RFC 3415: contexts, groups of users, access rows (group, prefix, is exact, level, read,
    write), and views."""

    def __init__(self, contexts, groups, access, views):
        self.contexts, self.groups, self.access, self.views = contexts, groups, access, views

    def view_of(self, message, is_write):
        """isAccessAllowed, section 3, but for the variable: the view, or which error it is."""
        if message.context not in self.contexts:
            return "noSuchContext"
        group = self.groups.get(message.user.name)
        if group is None:
            return "noGroupName"
        fits = [row for row in self.access if row[0] == group and row[3] <= message.level
                and (message.context == row[1] if row[2] else message.context.startswith(row[1]))]
        if not fits:
            return "noAccessEntry"
        # one row of a group, a prefix and a level: an exact one before a prefix, then the longest, then the highest
        # level
        best = max(fits, key=lambda row: (row[2], len(row[1]), row[3]))
        return self.views.get(best[4 + is_write], "noSuchView")


# ---- what is asked of a device for one request

class Column:
    """One binding: its number, its name, how many variables it wants, and what it has."""

    def __init__(self, number, name, most):
        self.number, self.first, self.at, self.most = number, name, name, most
        self.got, self.is_ended = [], False

    def wants(self):
        return not self.is_ended and len(self.got) < self.most

    def binding(self, repetition):
        if repetition < len(self.got):
            return self.got[repetition]
        return (self.got[-1][0] if self.got else self.first, END) if self.is_ended else None


class NoShare(Exception):
    """As many requests wait for the device as may."""


class Ends(Exception):
    """How a request ends: `what` is columns, front, own (error-status and error-index), a reason of RFC 3412, or
    silent."""

    def __init__(self, what, *numbers):
        super().__init__(what, numbers)
        self.what, self.numbers, self.fault = what, numbers, ""


class Unfit(Ends):
    """Its device's answer doesn't fit what was asked: why, with the place and the misfit where it is one of a
    binding."""

    def __init__(self, why, *where):
        super().__init__("own", GEN_ERR, 0)
        self.fault = f" {why}({', '.join(map(str, where))})" if where else f" {why}"


def front_of(columns, singles, most):
    """What a Response to a GetBulk holds: RFC 3416, section 4.2.3, to the first binding that isn't known."""
    front = []
    for column in columns[:singles]:
        if column.binding(0) is None:
            return front
        front.append(column.binding(0))
    rest = columns[singles:]
    for repetition in range(most if rest else 0):
        for column in rest:
            if column.binding(repetition) is None:
                return front
            front.append(column.binding(repetition))
        if all(column.is_ended and len(column.got) <= repetition for column in rest):
            return front
    return front


class Talk:
    """What a device is asked for a Get, a GetNext or a GetBulk."""

    def __init__(self, message, view, limits, device):
        self.tag, self.view, self.limits = message.tag, view, limits
        self.rounds, self.repetitions, self.at_once = limits["rounds"], device.repetitions, device.names
        self.singles, self.most = len(message.names), 1
        if self.tag == GET_BULK:
            self.singles, self.most = max(message.second, 0), max(message.third, 0)
        self.columns = [
            Column(number, name, 1 if number < self.singles else self.most) for number, name in enumerate(message.names)
        ]
        if self.tag == GET:
            for column in self.columns:
                if not view.sees(column.first):
                    column.got.append((column.first, NO_SUCH_OBJECT))
        self.asked, self.kind, self.times = [], None, 1

    def has_repetition(self):
        return all(column.binding(0) is not None for column in self.columns)

    def has_front(self):
        return bool(self.columns) and self.columns[0].binding(0) is not None

    def ends(self):
        raise Ends("front" if self.tag == GET_BULK else "columns")

    def go_on(self):
        """Says in `asked` which columns the device is asked for, each with its name, or ends."""
        places = {}
        for column in self.columns:
            if column.wants():
                places[column.number] = column.at if self.tag == GET else self.view.place_after(column.at)
                column.is_ended = places[column.number] is None
        wanting = [column for column in self.columns if column.wants()]
        if not wanting:
            self.ends()
        if self.tag == GET_BULK:
            octets = sum(len(name) + len(value[1]) for column in self.columns for name, value in column.got)
            if octets > self.limits["gathered"] and self.has_front():
                self.ends()
        if not self.rounds:
            if self.tag == GET_BULK and self.has_repetition():
                self.ends()
            raise Ends("own", GEN_ERR, wanting[0].number + 1)
        self.rounds -= 1
        self.kind, self.times = self.tag, 1
        if self.tag == GET_BULK:
            wanting = self.choose(wanting)
        self.asked = [(column, places[column.number]) for column in wanting]

    def choose(self, wanting):
        """Of the repeaters those that have the fewest are asked, as many as are asked at once."""
        fewest = min((len(column.got) for column in wanting if column.number >= self.singles), default=0)
        chosen = [column for column in wanting if column.number < self.singles or len(column.got) == fewest][
            : max(self.at_once, 1)
        ]
        due = min(self.repetitions, max(self.most - fewest, 0))
        if due > 1 and any(column.number >= self.singles for column in chosen):
            self.times = due
        else:
            self.kind = GET_NEXT
        return chosen

    def ask(self):
        """The tag, both numbers and the bindings of what the device is asked."""
        octets = spelled_names(tuple(name for _, name in self.asked))
        if self.kind == GET_BULK:
            return self.kind, sum(column.number < self.singles for column, _ in self.asked), self.times, octets
        return self.kind, 0, 0, octets

    def take(self, status, index, bindings):
        if status:
            return self.take_error(status, index)
        if self.kind == GET:
            return self.take_values(bindings)
        if self.kind == GET_BULK and not bindings:
            return self.take_less()
        return self.take_walks(bindings)

    def take_error(self, status, index):
        column = self.asked[index - 1][0] if 1 <= index <= len(self.asked) else None
        place = column.number + 1 if column else 0
        if status == TOO_BIG and self.tag == GET_BULK:
            return self.take_less()
        if status == TOO_BIG:
            raise Ends("own", TOO_BIG, 0)
        if status == NO_SUCH_NAME and column and self.tag == GET:
            raise Ends("own", NO_SUCH_NAME, place)
        if status == NO_SUCH_NAME and column:
            column.is_ended = True
            return None
        raise Ends("own", GEN_ERR, place)

    def take_less(self):
        if self.kind == GET_BULK:
            self.repetitions = self.times // 2
        elif len(self.asked) > 1:
            self.at_once = len(self.asked) // 2
        elif self.has_front():
            self.ends()
        else:
            raise Ends("own", TOO_BIG, 0)

    def take_values(self, bindings):
        for place, ((column, name), (given, value)) in enumerate(zip(self.asked, bindings)):
            if given != name:
                raise Unfit("AtBinding", place, "OtherName")
            if value[0] == END[0] or not is_value(value):
                raise Unfit("AtBinding", place, "NotValue")
            column.got.append((given, value))
        if len(bindings) != len(self.asked):
            raise Unfit("TooFew" if len(bindings) < len(self.asked) else "TooMany")

    def take_walks(self, bindings):
        again = [
            place
            for place, (column, _) in enumerate(self.asked)
            if self.kind == GET_BULK and column.number >= self.singles
        ]
        turns = list(range(len(self.asked))) + again * (self.times - 1)
        names, has_ended = [name for _, name in self.asked], set()
        for at, (place, (name, value)) in enumerate(zip(turns, bindings)):
            column = self.asked[place][0]
            if value[0] == END[0]:
                has_ended.add(place)
            elif place in has_ended:
                raise Unfit("AtBinding", at, "AfterEnd")
            elif name <= names[place]:
                raise Unfit("AtBinding", at, "NotAfter")
            elif value[0] in (NO_SUCH_OBJECT[0], NO_SUCH_INSTANCE[0]) or not is_value(value):
                raise Unfit("AtBinding", at, "NotValue")
            else:
                names[place] = column.at = name
                if self.view.sees(name):
                    column.got.append((name, value))
        if len(bindings) > len(turns) or self.kind == GET_NEXT and len(bindings) < len(turns):
            raise Unfit("TooMany" if len(bindings) > len(turns) else "TooFew")
        for place in has_ended:
            self.asked[place][0].is_ended = True


# ---- the gateway

class Device:
    def __init__(self, context, community, write, max_size, repetitions, names, at_once):
        self.context, self.community, self.write, self.max_size = context, community, write, max_size
        self.repetitions, self.names, self.at_once = repetitions, names, at_once


class Message:
    """An accepted message."""

    def __init__(self, client, user, level, engine, context, pdu, numbers, datagram):
        self.client, self.user, self.level, self.engine, self.context, self.datagram = (
            client,
            user,
            level,
            engine,
            context,
            datagram,
        )
        self.tag, self.request_id, self.second, self.third, self.octets = pdu
        self.number, self.max_size, self.boots, self.time = numbers
        self.bindings = bindings_in(self.octets)
        self.names = [name for name, _ in self.bindings]
        self.asks = client, user.name, level, engine, context, self.tag, self.second, self.third, self.octets


class Waiting:
    """A request that waits."""

    def __init__(self, number, message, now):
        self.number, self.messages, self.began = number, [message], now
        self.device = self.talk = self.ends = self.asked = None
        self.at, self.times = now, 0
        self.log = []  # what the device was asked, and what it answered


class Gateway:
    """The calls of the gateway. Each returns what a row of data answers, and `log` has what was accepted, asked,
    answered and sent."""

    def __init__(self, engine, boots, started, tables, devices, limits):
        self.engine, self.boots, self.started, self.tables, self.devices, self.limits = (
            engine,
            boots,
            started,
            tables,
            devices,
            limits,
        )
        self.requests, self.begun, self.sets = [], 0, {}
        self.ids = [[] for _ in devices]
        self.counters = dict.fromkeys(COUNTERS, 0)
        self.said = ""  # error-status and error-index of the last Response, or that it was a Report
        self.told = None  # those of the last Response
        self.log = []

    # ---- what comes from clients

    def why_unhandled(self, message):
        if message.tag in (RESPONSE, REPORT):
            return "NoRequest"
        if message.engine != self.engine or message.tag not in (GET, GET_NEXT, GET_BULK, SET):
            return "UnknownPduHandlers"
        return None if message.context in self.tables.contexts else "UnknownContexts"

    def take_client(self, now, message):
        own = now // 1000 - self.started
        if message.level and (message.boots != self.boots or abs(own - message.time) > 150):
            # (RFC 3412, section 7.1, step 3: on what isn't read yet by its flag, else on what is of the Confirmed
            # Class)
            has_report = message.level == PRIV or message.tag in CONFIRMED
            return f"refused 10 NotInWindow {'report' if has_report else 'no report'}"
        self.log.append(("accepted", message))
        self.sets = {datagram: it for datagram, it in self.sets.items() if now - it[0] <= REMEMBERED}
        for request in self.requests:
            # (what was told before of another datagram isn't the answer to this one)
            if request.messages[0].asks == message.asks and not (request.ends and request.ends.what == "again"):
                return self.join(now, request, message)
        if len(self.requests) >= self.limits["waiting"]:
            return "no room"
        return self.begin(now, message)

    def join(self, now, request, message):
        # (one that joins is remembered, even if its context isn't known)
        is_noted = message.tag == SET
        if is_noted and message.datagram in self.sets:
            return "set of before"
        if is_noted and len(self.sets) >= REMEMBERED_SETS:
            return "no room"
        if len(request.messages) >= max(self.limits["joined"], 1):
            return "no room"
        if is_noted:
            self.sets[message.datagram] = now, None
        request.messages.append(message)
        return f"joins {request.number}"

    def begin(self, now, message):
        request = Waiting(self.begun, message, now)
        try:
            if not self.asks(now, request, message):
                return "set of before"
        except NoShare:
            return "no room"
        except Ends as ends:
            request.ends = ends
        self.begun += 1
        self.requests.append(request)
        return f"begins {request.number}"

    def asks(self, now, request, message):
        """Whether the device is asked. False: a Set of before of which nothing is known."""
        why = self.why_unhandled(message)
        request.device = next((number for number, it in enumerate(self.devices) if it.context == message.context), None)
        if why or request.device is None:
            raise Ends(why or "UnknownContexts")
        if message.tag == SET:
            return self.asks_set(now, request, message)
        view = self.tables.view_of(message, False)
        if message.names and isinstance(view, str):
            raise Ends("own", AUTHORIZATION_ERROR, 0)
        if len(message.names) > MOST_VARIABLES:
            raise Ends("own", TOO_BIG, 0)
        request.talk = Talk(message, view, self.limits, self.devices[request.device])
        request.talk.go_on()
        self.share(request)
        return True

    def share(self, request):
        """Refuses the request if as many wait for its device as may."""
        others = sum(it.ends is None and it.device == request.device for it in self.requests)
        if others >= self.limits["waiting_per_device"]:
            raise NoShare

    def asks_set(self, now, request, message):
        if message.datagram in self.sets:
            says = self.sets[message.datagram][1]
            if says is None:
                return False
            raise Ends("again", *says)
        view = self.tables.view_of(message, True)
        if message.names and isinstance(view, str):
            raise Ends("own", AUTHORIZATION_ERROR, 0)
        for number, name in enumerate(message.names):
            if not view.sees(name):
                raise Ends("own", NO_ACCESS, number + 1)
        if len(self.response(now, message, LAST_STATUS, len(message.names), message.octets, bytes(8))) > self.limit_of(
            message
        ):
            raise Ends("own", TOO_BIG, 0)
        if not message.names:
            raise Ends("own", 0, 0)
        if self.device_of(message).write is None:
            raise Ends("own", NO_ACCESS, 1)
        if len(self.sets) >= REMEMBERED_SETS:
            raise Ends("own", RESOURCE_UNAVAILABLE, 0)
        self.share(request)
        self.sets[message.datagram] = now, None
        return True

    def device_of(self, message):
        return next(it for it in self.devices if it.context == message.context)

    # ---- what comes from devices

    def take_device(self, now, number, datagram):
        answer = answer_in(datagram)
        if answer is None:
            return "unreadable"
        community, request_id, status, index, bindings = answer
        request = next(
            (it for it in self.requests if it.ends is None and it.device == number and it.asked == request_id), None
        )
        if request is None or community != self.community_of(request):
            return "not waited for"
        self.ids[number].remove(request_id)
        request.asked, request.times = None, 0
        self.log.append(("answers", request, status, bindings))
        request.log.append((status, bindings))
        try:
            self.go_on(now, request, status, index, bindings)
        except Ends as ends:
            request.ends = ends
        hidden = sum(not request.talk.view.sees(name) for name, _ in bindings) if request.talk else 0
        return f"answers {request.number}{f' hidden {hidden}' if hidden else ''}{request.ends.fault if request.ends else ''}"

    def community_of(self, request):
        device = self.devices[request.device]
        return device.community if request.talk else device.write

    @staticmethod
    def set_outcome(message, status, index):
        """RFC 3416, section 4.2.5."""
        status = status if 0 <= status <= LAST_STATUS else GEN_ERR
        is_number = 1 <= index <= len(message.names) and status not in (0, TOO_BIG)
        return status, index if is_number else 0

    def go_on(self, now, request, status, index, bindings):
        if not request.talk:
            raise Ends("own", *self.set_outcome(request.messages[0], status, index))
        request.talk.take(status, index, bindings)
        if (
            request.talk.tag == GET_BULK
            and now - request.began >= self.limits["gather"]
            and request.talk.has_repetition()
        ):
            raise Ends("front")
        request.talk.go_on()

    # ---- what goes out

    def next(self, now, salt, ask_id):
        for request in self.requests:
            if request.ends:
                return self.answer(now, request, salt)
            wait = self.limits["again"] if request.talk else self.limits["again"] * self.limits["tries"]
            tries = self.limits["tries"] if request.talk else 1
            if request.asked is None:
                if now >= request.began + self.limits["last"]:
                    return self.give_up(request)
                if len(self.ids[request.device]) < self.devices[request.device].at_once:
                    return self.ask(now, request, salt, ask_id)
            elif now >= request.at + wait:
                if request.times < tries and now < request.began + self.limits["last"]:
                    return self.ask(now, request, salt, None)
                return self.give_up(request)
        return "nothing"

    def give_up(self, request):
        if request.asked is not None:
            self.ids[request.device].remove(request.asked)
            request.asked = None
        reports = self.limits["report_unreachable"] and request.talk
        request.ends = Ends("UnavailableContexts" if reports else "silent")
        self.log.append(("given up", request))
        return f"given up {request.number} {request.device}"

    def ask(self, now, request, salt, ask_id):
        message, ids = request.messages[0], self.ids[request.device]
        is_new = request.asked is None
        number = request.asked
        if is_new:
            number = ask_id % REQUEST_IDS
            while number in ids:
                number = (number + 1) % REQUEST_IDS
        tag, second, third, octets = request.talk.ask() if request.talk else (SET, 0, 0, message.octets)
        datagram = community_message(self.community_of(request), pdu_of(tag, number, second, third, octets))
        if len(datagram) > self.devices[request.device].max_size:
            request.ends = Ends("own", TOO_BIG, 0)
            return self.answer(now, request, salt)
        if is_new:
            ids.append(number)
        request.asked, request.at, request.times = number, now, request.times + 1
        self.log.append(("asks", request, message, is_new, number, (tag, second, third, octets), datagram))
        if is_new:
            request.log.append((tag, second, third, octets))
        return f"to device {request.number} {request.device} {datagram.hex()}"

    def limit_of(self, message):
        most = min(LARGEST, message.max_size)
        if self.limits["long_answers"] or message.level != NO_AUTH:
            return most
        return min(most, max(SHORT, 2 * len(message.datagram)))

    def seal(self, now, message, scoped, salt):
        numbers = message.number, LARGEST, 0, self.boots, now // 1000 - self.started
        return level_message(message.user, message.level, self.engine, numbers, scoped, salt)

    def response(self, now, message, status, index, octets, salt):
        scoped = scoped_of(message.engine, message.context, pdu_of(RESPONSE, message.request_id, status, index, octets))
        return self.seal(now, message, scoped, salt)

    def report(self, now, message, why, salt):
        if why in COUNTERS:
            self.counters[why] += 1
        if message.tag not in CONFIRMED:
            return None
        octets = spelled([(COUNTERS[why], (0x41, integer_content(self.counters[why])))])
        return self.seal(
            now, message, scoped_of(self.engine, b"", pdu_of(REPORT, message.request_id, 0, 0, octets)), salt
        )

    def answer(self, now, request, salt):
        message = request.messages.pop(0)
        if not request.messages:
            self.requests.remove(request)
        datagram = self.reply(now, request, message, salt)
        if datagram is None:
            return f"unanswered {request.number}"
        return f"to client {request.number} '{message.client} {self.said} {datagram.hex()}"

    def reply(self, now, request, message, salt):
        """The datagram that answers a message, or None."""
        what, numbers = request.ends.what, request.ends.numbers
        if what == "silent":
            return None
        if what in ("own", "again"):
            datagram = self.fitting(now, request, message, *numbers, None, salt)
            if datagram is not None and message.datagram in self.sets:
                self.sets[message.datagram] = self.sets[message.datagram][0], self.told
            return datagram
        if what == "columns":
            return self.fitting(
                now, request, message, 0, 0, [column.binding(0) for column in request.talk.columns], salt
            )
        if what == "front":
            talk = request.talk
            return self.fitting(
                now, request, message, 0, 0, front_of(talk.columns, talk.singles, talk.most), salt, True
            )
        datagram = self.report(now, message, what, salt)
        if datagram:
            self.log.append(("reports", request, message))
            self.said = "report"
        return datagram

    def fitting(self, now, request, message, status, index, bindings, salt, has_fronts=False):
        """The Response, or its front, or tooBig, or None: what the client takes (RFC 3416, section 4.2.1)."""
        shown = message.bindings if bindings is None else bindings
        octets = message.octets if bindings is None else spelled(bindings)
        if status == TOO_BIG:
            shown, octets = [], b""
        datagram = self.response(now, message, status, index, octets, salt)
        while has_fronts and shown and len(datagram) > self.limit_of(message):
            shown = shown[:-1]
            datagram = self.response(now, message, status, index, spelled(shown), salt)
        if len(datagram) > self.limit_of(message):
            status, index, shown = TOO_BIG, 0, []
            datagram = self.response(now, message, status, index, b"", salt)
        if len(datagram) > self.limit_of(message):
            return None
        self.log.append(("responds", request, message, status, index, shown))
        self.said, self.told = f"{status} {index}", (status, index)
        return datagram

    def due(self):
        def moment(request):
            if request.ends:
                return 0
            if request.asked is None:
                return request.began + self.limits["last"]
            return request.at + self.limits["again"] * (1 if request.talk else self.limits["tries"])
        return min(map(moment, self.requests), default="none")
