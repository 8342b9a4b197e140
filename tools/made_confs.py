"""Files of snmpd.conf that are made from a seed: lines of all directives on users and access, right ones and broken
ones, and files that name one another. The words are few, so that rows meet in one index, group or view."""
import random

# The words of each kind: those that are right, and those that are wrong or odd.
NAMES = (
    (b"ann", b"bob", b"a.b", b"a_b", b"carl", b'"tom tom"'),
    (b"a\\ b", b"'it'", b"\xc3\xa9va", b"-s", b"-e", b"n" * 32, b"n" * 40, b'""'),
)
GROUPS = ((b"g", b"g", b"h", b"adm", b"grpann"), (b"grpa_b", b'"two words"', b"G" * 32, b"G" * 33, b"\xff"))
CONTEXTS = ((b'""', b'""', b"a", b"ab", b"abc"), (b"''", b"adm", b"admin", b"c" * 32, b"c" * 33, b"\xc3\xa9"))
STARRED = ((b"a*", b"*", b"ab", b"adm*"), (b"**", b"c" * 33 + b"*"))
MODELS = (
    (b"usm", b"usm", b"usm", b"any", b"any", b"ANY", b"v1", b"v2c", b"tsm"),
    (b"V1", b"v2C", b"USM", b"ksm", b"3", b"1", b"2c"),
)
LEVELS = ((b"noauth", b"auth", b"auth", b"priv"), (b"AUTH", b"noAuthNoPriv", b"authNoPriv", b"authpriv", b"high"))
MATCHES = ((b"exact", b"prefix"), (b"0", b"PREFIX", b"1"))
VIEWS = ((b"v", b"w", b"all"), (b"none", b"_all_", b"_none_", b"viewUSM1", b"x" * 32, b"x" * 33, b"x" * 34, b"\xff"))
TYPES = ((b"read", b"write", b"notify", b"log"), (b"execute", b"net", b"READ", b"reads", b""))
INCLUDED = ((b"included", b"excluded"), (b"includes",))
OIDS = (
    (
        *(b".1", b".1.3", b"1.3.6", b".1.3.6.1.2.1", b".1.3.6.1.2.1.1.", b".1.3.6.1.2.1.1.1.0", b".1.3.6.1.1"),
        b".1.3.6.1.2",
    ),
    (
        *(b"0", b".0", b"2", b".1.3.010", b"1.0x1f", b".1.4294967295", b".1.4294967296", b"1.99999999999999999999999"),
        *(b".1." + b"7" * 5000, b".1.3.08", b"system", b".iso.3", b"..1", b".", b"1..3", b".1" * 128, b".1" * 129),
        *(b".1.0X", b"1.-3", b".1.+3", b"1.3_6", b"1.0x1F.007.0", b".1." + b"0" * 30 + b"7"),
    ),
)
MASKS = (
    (b"", b"", b"ff", b"80", b"ff:a0", b"f8.7f"),
    (
        *(b"ffa0", b"f.f:f", b"0xff", b"0x", b"-1", b"+7f", b"-0x80", b"zz", b"fz", b"ff:a0:ff:ff", b"100", b"--1"),
        *(b":".join([b"ff"] * 34), b".".join([b"aa"] * 35), b"\tff", b"ff\t80", b"ff # 80", b"::", b"1 2 3"),
    ),
)
HASHES = (
    (b"MD5", b"SHA", b"SHA-256"),
    (b"sha", b"S", b"m", b"SHA-2", b"SHA-512", b"SHA-224", b"NOAUTH", b"no", b"SHA-1x", b'""'),
)
PASSPHRASES = (
    (b"maplesyrup", b'"maple syrup"', b"second-syrup"),
    (
        *(b"defaultsyrup", b'"defaultsyrup"', b"short", b"-l", b"-m", b"mapl\\esyrup", b'"sec \\" ond"'),
        *(b"'single quoted'", b"s\xc3\xbcrupwasser", b"octets\xff\xfe\xfd", b"p" * 1100, b'"left open'),
        b"\xf0\x9f\x8d\x81" * 3,
    ),
)
CIPHERS = (
    (b"AES", b"AES-128"),
    (
        *(b"aes", b"AES128", b"DES", b"d", b"NOPRIV", b"AES-192", b"AES256", b"AES-256-C", b"AES-257", b"default"),
        *(b"x", b'""'),
    ),
)
ENGINES = ((b"0x80001f8880a1b2c3d4",), (b"1",))
COMMUNITIES = ((b"public", b"private"), (b'"a b"', b"-v"))
SOURCES = ((b"default", b"127.0.0.1"), (b"10.0.0.0/8",))

OTHERS = (
    *(b"sysLocation here", b"com2sec local default public", b"usmUser 1 3 0x80 0x61", b"vacmAccess 1", b"disk / 10%"),
    *(b"usmuser 1", b"engineBoots 7", b"root:$6$salt:19000:0:99999:7:::"),
    b"correct-horse-battery-staple-1234567890 rest",
)
SECTIONS = (
    *(b"[snmpd]", b"[snmp]", b"[snmpd", b"[", b"[]", b"[snmptrapd]", b"[snmpd] # all", b"[SNMPD]", b'"[snmpd]"'),
    b"[snmp] [snmpd]",
)
EMPTY = (b"", b"   ", b"# rouser ann", b"\0", b"\r", b"#")
BLANKS = (b" ", b" ", b" ", b"  ", b"\t", b" \t ", b"\v", b"\f", b"\r")
SPOTS = (
    *(b"\0", b"\xff", b"\x80", b"\x01", b"\x7f", b'"', b"'", b"\\", b"#", b" # ", b"\r", b"\t", b"*", b"]"),
    b"\xe2\x82",
)
FILES = ("one.conf", "two.conf", "folder/three.conf", "folder/four.conf", "folder/.five.conf", "folder/six.txt")
INCLUDES = (
    *(b"includeFile one.conf", b"includefile two.conf", b"includeFile folder/three.conf", b"includeFile four.conf"),
    *(b"includeDir folder", b"iNCLUDEDIR folder/", b"includeDir no/such", b"includeFile no.conf"),
    *(b"includeFile folder", b"includeSearch one.conf", b"include one.conf", b"includeFile", b"IncludeFile one.conf"),
    *(b"includeFile one.conf ", b"includeFile \xff", b"[snmp] includeFile two.conf"),
)
GIVEN = (
    *([], [], [], ["--strict"], ["--no-include"], ["--context", "a"], ["--context", "adm", "--context", "admin"]),
    *(["--context=\xe9"], ["--context", "ab", "--context", "", "--context", "ab", "--strict"]),
    ["--context", "c" * 32],
)


class Maker:
    """Makes lines from a source of chance, in which so great a part of the words is right."""

    def __init__(self, chance, care):
        self.chance, self.care = chance, care
        sets, simple = (self.setaccess, self.authaccess), (self.simple, self.community)
        self.makers = chance.choice(
            (
                (self.group, self.access, *sets, *simple, self.view, self.user),
                (self.group, self.access, self.access, self.access, *sets),
                (self.group, self.simple, *simple),
                (self.view, self.user, self.simple),
            )
        )

    def pick(self, words):
        return self.chance.choice(words[0] if self.chance.random() < self.care else words[1])

    def is_likely(self, part):
        return self.chance.random() < part

    def types(self):
        comma = self.chance.choice((b",", b"|", b":", b",,"))
        return comma.join(self.pick(TYPES) for _ in range(self.chance.randint(1, 3)))

    def rights(self):
        """What follows the name in a simple line."""
        views = (self.pick(OIDS), b"-V " + self.pick(VIEWS), b"-V" if self.is_likely(1 - self.care) else b"_all_")
        context = self.pick(self.chance.choice((CONTEXTS, STARRED)))
        return [self.chance.choice(views), context][: self.chance.randint(0, 2)]

    def group(self):
        return [b"group", self.pick(GROUPS), self.pick(MODELS), self.pick(NAMES)]

    def conditions(self):
        return [self.pick(it) for it in (GROUPS, CONTEXTS, MODELS, LEVELS, MATCHES)]

    def access(self):
        return [b"access", *self.conditions(), self.pick(VIEWS), self.pick(VIEWS), self.pick(VIEWS)]

    def setaccess(self):
        return [b"setaccess", *self.conditions(), self.pick(TYPES), self.pick(VIEWS)]

    def authaccess(self):
        parts = [b"authaccess", self.types(), self.pick(GROUPS)]
        parts += [self.chance.choice((b"-s", b"-S")), self.pick(MODELS)] if self.is_likely(0.4) else []
        rest = [self.pick(VIEWS), self.pick(LEVELS), self.pick(self.chance.choice((CONTEXTS, STARRED)))]
        return parts + rest[: self.chance.randint(1, 3)]

    def view(self):
        return [b"view", self.pick(VIEWS), self.pick(INCLUDED), self.pick(OIDS), self.pick(MASKS)]

    def simple(self):
        word = self.chance.choice((b"rouser", b"rwuser", b"authuser", b"authgroup"))
        parts = [word, *([self.types()] if word.startswith(b"auth") else [])]
        parts += [b"-s", self.pick(MODELS)] if self.is_likely(0.3) else []
        parts.append(self.pick(GROUPS if word == b"authgroup" else NAMES))
        return parts + ([self.pick(LEVELS), *self.rights()] if self.is_likely(0.6) else [])

    def community(self):
        words = (b"rocommunity", b"rwcommunity6", b"rwcommunity", b"rocommunity6", b"authcommunity")
        word = self.chance.choice(words)
        parts = [word, *([self.types()] if word == b"authcommunity" else [])]
        parts += [b"-v", self.pick(MODELS)] if self.is_likely(0.3) else []
        parts.append(self.pick(COMMUNITIES))
        return parts + ([self.pick(SOURCES), *self.rights()] if self.is_likely(0.5) else [])

    def user(self):
        parts = [b"createUser", *([b"-M"] if self.is_likely(0.05) else [])]
        parts += [b"-e", self.pick(ENGINES)] if self.is_likely(0.05) else []
        rest = [self.pick(it) for it in (HASHES, PASSPHRASES, CIPHERS, PASSPHRASES)]
        count = self.chance.choice((0, 2, 2, 3, 4, 4)) if self.is_likely(self.care) else 1
        return [*parts, self.pick(NAMES), *rest[:count]]

    def directive(self):
        parts = self.chance.choice(self.makers)()
        if self.is_likely(0.8):
            return b" ".join(parts)
        return b"".join(part + self.chance.choice(BLANKS) for part in parts)

    def spoiled(self, line):
        """The line with octets put in, taken out, or in the other case."""
        at, way = self.chance.randint(0, len(line)), self.chance.randint(0, 4)
        if way == 0:
            return line[:at] + self.chance.choice(SPOTS) + line[at:]
        if way == 1:
            return line[:at]
        if way == 2:
            return line.swapcase()
        if way == 3:
            return line[:at] + line[at:] * self.chance.choice((2, 2, 60))
        return line[:at] + bytes([self.chance.randint(0, 255)]) + line[at + 1 :]

    def odd(self):
        """A line that is none of access: most often one that is empty, or names a section or another file."""
        return self.chance.choice(self.chance.choice((SECTIONS[:2], SECTIONS, OTHERS, INCLUDES, INCLUDES, EMPTY)))

    def line(self):
        if self.is_likely(self.care):
            return self.directive()
        way = self.chance.randint(0, 3)
        if way == 0:
            return self.chance.choice(SECTIONS[:2]) + b" " + self.directive()
        return self.odd() if way == 1 else self.spoiled(self.directive())

    def text(self, most):
        """A file of at most so many lines."""
        end = self.chance.choice((b"\n", b"\n", b"\n", b"\r\n"))
        lines = [self.line() for _ in range(self.chance.randint(0, most))]
        return end.join(lines) + self.chance.choice((b"", end))


def careful(seed):
    """A file of which snmpd takes each line, or refuses it for a reason that it tells."""
    return Maker(random.Random(seed), 1.0).text(12)


def made(seed):
    """Files by their names, of which the one named `f` is to be read, and the words that stand before it."""
    chance = random.Random(seed)
    maker = Maker(chance, chance.choice((0.5, 0.8, 0.95, 0.99)))
    files = {"f": maker.text(chance.choice((6, 12, 12, 40, 40, 120)))}
    if b"nclude" in files["f"].lower():
        files.update((name, maker.text(4)) for name in FILES if maker.is_likely(0.8))
    return files, chance.choice(GIVEN)
