"""Configurations, and isAccessAllowed (README; RFC 3415 sections 3 and 4)."""
import itertools
import re
import tomllib

TABLES = ["user", "context", "group", "access", "family"]
LEVELS = {"noAuthNoPriv": 1, "authNoPriv": 2, "authPriv": 3}
MODEL_MOST = 0x7FFFFFFF
ARC = re.compile(r"0|[1-9][0-9]*")


class RefusedConfig(Exception):
    pass


def is_text(value):
    return isinstance(value, str)


def is_name(value):
    return is_text(value) and len(value.encode()) <= 32


def is_model(value):
    return isinstance(value, int) and not isinstance(value, bool) and 0 <= value <= MODEL_MOST


def is_mask(value):
    return is_text(value) and re.fullmatch(r"(?:[0-9A-Fa-f]{2}){0,16}", value) is not None


def arcs_of(text):
    """The arcs of an identifier in dotted decimal, or None."""
    words = text.split(".")
    if len(words) > 128 or not all(
        ARC.fullmatch(word) and len(word) <= 10 and int(word) <= 0xFFFFFFFF for word in words
    ):
        return None
    return [int(word) for word in words]


# the keys of each table: what is allowed, and whether the key may be left out
KEYS = {
    "user": {
        "name": (is_text, False),
        "auth": (lambda value: is_text(value) and value in ("md5", "sha1", "sha256"), True),
        "auth-password": (is_text, True),
        "priv-password": (is_text, True),
    },
    "context": {"name": (is_name, False)},
    "group": {"model": (is_model, False), "name": (is_name, False), "group": (is_name, False)},
    "access": {
        "group": (is_name, False),
        "prefix": (is_name, False),
        "model": (is_model, False),
        "level": (lambda value: is_text(value) and value in LEVELS, False),
        "match": (lambda value: is_text(value) and value in ("exact", "prefix"), False),
        "read": (is_name, True),
        "write": (is_name, True),
        "notify": (is_name, True),
    },
    "family": {
        "view": (is_name, False),
        "subtree": (lambda value: is_text(value) and arcs_of(value) is not None, False),
        "include": (lambda value: isinstance(value, bool), False),
        "mask": (is_mask, True),
    },
}


def is_right(table, row):
    keys = KEYS[table]
    if set(row) - set(keys):
        return False
    if table == "user" and ("auth" in row) != ("auth-password" in row):
        return False
    return all(allowed(row[key]) if key in row else may_miss for key, (allowed, may_miss) in keys.items())


def is_array_of_tables(value):
    return isinstance(value, list) and all(isinstance(it, dict) for it in value)


def user_fault(row, before):
    name = row["name"].encode()
    if not 1 <= len(name) <= 32 or ("priv-password" in row and "auth" not in row):
        return "BadUser"
    if any(len(row[key].encode()) < 8 for key in ("auth-password", "priv-password") if key in row):
        return "ShortPassword"
    return "DuplicateUser" if any(other["name"] == row["name"] for other in before) else None


def index_of(table, row):
    if table == "context":
        return row["name"]
    if table == "group":
        return row["model"], row["name"]
    if table == "access":
        return row["group"], row["prefix"], row["model"], row["level"]
    return row["view"], tuple(arcs_of(row["subtree"]))


def row_fault(table, row, before):
    empty = {"context": [], "group": ["name", "group"], "access": ["group"], "family": ["view"]}[table]
    if any(row[key] == "" for key in empty) or (table == "group" and row["model"] == 0):
        return "BadRow"
    return "Duplicate" if any(index_of(table, other) == index_of(table, row) for other in before) else None


def read(text):
    """The rows of each table that a text says."""
    try:
        document = tomllib.loads(text.decode("utf-8"))
    except (UnicodeDecodeError, tomllib.TOMLDecodeError):
        raise RefusedConfig("refused config toml\n") from None
    if any(key not in TABLES or not is_array_of_tables(value) for key, value in document.items()):
        raise RefusedConfig("refused config top\n")
    rows = {table: document.get(table, []) for table in TABLES}
    for table in TABLES:
        for position, row in enumerate(rows[table]):
            if not is_right(table, row):
                raise RefusedConfig(f"refused config {table} {position} BadKey\n")
    for table in TABLES:
        for position, row in enumerate(rows[table]):
            fault = (user_fault if table == "user" else lambda row, before: row_fault(table, row, before))(
                row, rows[table][:position]
            )
            if fault:
                raise RefusedConfig(f"refused config {table} {position} {fault}\n")
    return rows


def best(rows, fits, rank):
    """The position of the best of the rows that fit, or None."""
    return max((k for k, row in enumerate(rows) if fits(row)), key=lambda k: rank(rows[k]), default=None)


def best_access(rows, group, model, level, context):
    def fits(row):
        prefix = row["prefix"].encode()
        return (
            row["group"] == group
            and row["model"] in (0, model)
            and LEVELS[row["level"]] <= level
            and (prefix == context or (row["match"] == "prefix" and context.startswith(prefix)))
        )

    def rank(row):
        return row["model"] != 0, len(row["prefix"].encode()), LEVELS[row["level"]]

    return best(rows, fits, rank)


def deciding_family(rows, view, variable):
    def fits(row):
        subtree, mask = arcs_of(row["subtree"]), bytes.fromhex(row.get("mask", ""))
        if row["view"] != view or len(subtree) > len(variable):
            return False
        bits = [mask[k // 8] >> (7 - k % 8) & 1 if k // 8 < len(mask) else 1 for k in range(len(subtree))]
        return all(not bit or arc == other for bit, arc, other in zip(bits, subtree, variable))

    def rank(row):
        subtree = arcs_of(row["subtree"])
        return len(subtree), subtree

    return best(rows, fits, rank)


def explained(rows, model, name, level, view, context, variable):
    """The answer, and after it the lines of what decided."""
    at = best(rows["context"], lambda row: row["name"].encode() == context, lambda row: 0)
    if at is None:
        return ["noSuchContext"]
    lines = [f"context {at}"]
    at = best(rows["group"], lambda row: row["model"] == model and row["name"].encode() == name, lambda row: 0)
    if at is None:
        return ["noGroupName", *lines]
    group = rows["group"][at]["group"]
    lines.append(f"group {at} {group}")
    at = best_access(rows["access"], group, model, level, context)
    if at is None:
        return ["noAccessEntry", *lines]
    lines.append(f"access {at}")
    named = rows["access"][at].get(view, "")
    if not named:
        return ["noSuchView", *lines]
    lines.append(f"view {named}")
    if all(row["view"] != named for row in rows["family"]):
        return ["noSuchView", *lines]
    at = deciding_family(rows["family"], named, variable)
    if at is None:
        return ["notInView", *lines]
    return ["accessAllowed" if rows["family"][at]["include"] else "notInView", *lines, f"family {at}"]


def bad_word(words):
    """The name of the first word of a question that is out of its form, or None."""
    model, _, level, view, _, identifier = words
    if not ARC.fullmatch(model) or len(model) > 10 or not 1 <= int(model) <= MODEL_MOST:
        return "MODEL"
    if level not in LEVELS:
        return "LEVEL"
    if view not in ("read", "write", "notify"):
        return "VIEW"
    return "OID" if arcs_of(identifier) is None else None


def asked(text, words, lines_of):
    """What is printed where a question is asked, what is reported on standard error, and the status."""
    bad = bad_word(words)
    if bad:
        return "", f"snmpsec: bad word {bad}\n", 2
    try:
        rows = read(text)
    except RefusedConfig as refused:
        return str(refused), "", 1
    model, name, level, view, context, identifier = words
    context = b"" if context == "@" else context.encode()
    lines = explained(rows, int(model), name.encode(), LEVELS[level], view, context, arcs_of(identifier))
    return "".join(f"{line}\n" for line in lines_of(lines)), "", 0 if lines[0] == "accessAllowed" else 1


def check_access(text, words):
    return asked(text, words, lambda lines: lines[:1])


def explain_access(text, words):
    return asked(text, words, lambda lines: lines)


def check_config(text):
    """What `check-config` prints, and its status."""
    try:
        rows = read(text)
    except RefusedConfig as refused:
        return str(refused), 1
    return "".join(f"{table} {len(rows[table])}\n" for table in TABLES), 0


# ---- over all questions that can be answered accessAllowed


def word(name):
    """A name as a word: as it is, or as a TOML basic string."""
    if name not in ("", "@") and not re.search(r"[\x00-\x20\x7f\"'\\]", name):
        return name
    return '"' + re.sub(r'[\x00-\x1f\x7f]', lambda it: f"\\u{ord(it[0]):04X}", re.sub(r'["\\]', r"\\\g<0>", name)) + '"'


def context_word(name):
    return word(name) if name else "@"


def supports(rows, model, name, level):
    """Whether the name is a user's, and that user has the passwords for the level."""
    user = next((row for row in rows["user"] if row["name"] == name), None)
    return (
        model == 3 and user is not None and all(key in user for key in ["auth-password", "priv-password"][: level - 1])
    )


def names_below(rows, arcs):
    """The name, and longer ones that begin so: each arc is one that a subtree has there, or one that none has."""
    subtrees = [arcs_of(row["subtree"]) for row in rows["family"]]
    other = max((max(subtree) for subtree in subtrees), default=0) + 1
    for size in range(len(arcs), max((len(subtree) for subtree in subtrees), default=0) + 1):
        there = [
            sorted({subtree[k] for subtree in subtrees if k < len(subtree)} | {other}) for k in range(len(arcs), size)
        ]
        yield from ([*arcs, *rest] for rest in itertools.product(*there))


def who_sees(text, identifier, view=None, only_users=False, is_below=False):
    """What `who-sees` prints, and its status; None where it says why on standard error."""
    if arcs_of(identifier) is None:
        return "", None, 2
    if view not in (None, "read", "write", "notify"):
        return "", None, 2
    try:
        rows = read(text)
    except RefusedConfig as refused:
        return str(refused), None, 1
    arcs = arcs_of(identifier)
    names = [arcs, *names_below(rows, arcs)] if is_below else [arcs]
    lines = [
        f"{group['model']} {word(group['name'])} {level} {asked_view} {context_word(context['name'])}\n"
        for asked_view in ([view] if view else ["read", "write", "notify"])
        for group in rows["group"]
        for level, number in LEVELS.items()
        for context in rows["context"]
        if not only_users or supports(rows, group["model"], group["name"], number)
        if any(
            explained(rows, group["model"], group["name"].encode(), number, asked_view, context["name"].encode(), name)[
                0
            ]
            == "accessAllowed"
            for name in names
        )
    ]
    return "".join(lines), "", 0 if lines else 1


def pattern(row):
    """The arcs of a family row's subtree, None for one that the mask leaves free."""
    mask = bytes.fromhex(row.get("mask", ""))
    is_free = lambda k: k // 8 < len(mask) and not mask[k // 8] >> (7 - k % 8) & 1
    return [None if is_free(k) else arc for k, arc in enumerate(arcs_of(row["subtree"]))]


def needed(rows):
    """The rows of a view, the least first, without those that change no answer, where none has a wildcard."""
    rows = sorted(rows, key=lambda row: (len(arcs_of(row["subtree"])), arcs_of(row["subtree"])))
    if any(None in pattern(row) for row in rows):
        return rows
    # without wildcards an answer changes at the subtrees themselves, or nowhere
    kept = list(rows)
    for row in rows:
        others = [it for it in kept if it is not row]
        says = lambda given, arcs: (
            [it["include"] for it in given if arcs_of(it["subtree"]) == arcs[: len(arcs_of(it["subtree"]))]] or [False]
        )[-1]
        if all(says(kept, arcs_of(it["subtree"])) == says(others, arcs_of(it["subtree"])) for it in rows):
            kept = others
    return kept


def seen(rows, model, name, number, view, context):
    """What a name sees, behind the words of the question: an answer, or lines."""
    lines = explained(rows, model, name.encode(), number, view, context.encode(), [])
    named = next((line[5:] for line in lines if line.startswith("view ")), None)
    families = needed([row for row in rows["family"] if row["view"] == named])
    if lines[0] != "notInView" or not families:
        return lines[:1]
    return [
        f"{'+' if row['include'] else '-'} {'.'.join('*' if arc is None else str(arc) for arc in pattern(row))}"
        for row in families
    ]


def sees(text, model, name):
    """What `sees` prints, and its status; None where it says why on standard error."""
    if not ARC.fullmatch(model) or len(model) > 10 or not 1 <= int(model) <= MODEL_MOST:
        return "", "snmpsec: bad word MODEL\n", 2
    try:
        rows = read(text)
    except RefusedConfig as refused:
        return str(refused), None, 1
    lines = [
        (f"{level} {view} {context_word(context['name'])} ", line)
        for level, number in LEVELS.items()
        for view in ("read", "write", "notify")
        for context in rows["context"]
        for line in seen(rows, int(model), name, number, view, context["name"])
    ]
    return "".join(f"{head}{line}\n" for head, line in lines), "", 0 if any(line[0] == "+" for _, line in lines) else 1
