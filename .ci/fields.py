"""Compares docs/FORMAT.md with the crates' `specs/`: field tables row by row, by key, rule and kind; enumerations by their
words. And the keys of the tables by which tools/envelopes makes envelopes."""
import re
from pathlib import Path

FORMAT = Path("docs/FORMAT.md")
SCHEMA = Path("tools/envelopes/src/schema.rs")

# Tables without a row of their own in FORMAT: those of a container's list, of any kind, and one that lends its text.
UNTOLD = {"listed_fields", "lent_fields", "LentCrontab"}

# Enumerations whose words are told to people: FORMAT doesn't list them.
TOLD_TO_PEOPLE = {"Expected", "Found", "Repair", "Wanted"}

# How FORMAT says each rule of a row; `{}` is its default.
RULES = {
    "must": "must", "may": "may", "may_null": "may, null", "may_strict": "may, strict", "at_once": "at once",
    "draw": "draw", "default": "default {}", "always": "always {}",
}

# How FORMAT says each default. An empty list or map is said by no rule.
DEFAULTS = {
    "empty_list": None, "empty_map": None, "(natural_cell 0)": "0", "(truth false)": "false", "ok_status": "`ok`",
    "usual_fingerprint": "`{{ default }}` alone", "empty_meta": "the empty one",
    "no_meta": "the mechanism meta without fields",
}

# How FORMAT says each kind. None: it says nothing, since the key's name or the default says it.
KINDS = {
    "text_kind": None, "truth_kind": "boolean", "any_kind": "tree", "pair_kind": "pair",
    "(unsigned_kind (2 ^ 16))": "u16", "(unsigned_kind (2 ^ 32))": "u32", "(unsigned_kind (2 ^ 64))": "u64",
    "(signed_kind (2 ^ 31))": "i32", "(signed_kind (2 ^ 63))": "i64", "severity_kind": "1 to 24",
    "(list text_kind)": "list of texts", "(list any_kind)": "list of trees", "(map text_kind)": "map of texts",
    "(map any_kind)": "map of trees", "fingerprint_kind": "list of texts",
    "rfc3339_kind": "RFC 3339 text", "seconds_kind": "seconds",
    "hyphenated_kind": "hyphenated UUID", "simple_kind": "UUID of 32 digits", "span_id_kind": "span id",
    "trace_id_kind": "trace id", "debug_kind": "debug id", "code_kind": "code id", "thread_id_kind": "id of a thread",
    "address_kind": "address", "(map address_kind)": "map of register values", "url_kind": "URL", "dsn_kind": "DSN",
    "ip_kind": "IP address", "ip_address_kind": "IP address or `{{auto}}`",
    "organization_text_kind": "text of an organization's id", "sample_rate_kind": "text of a decimal",
    "sample_rand_kind": "text of a sample rand", "sampled_kind": "text `true` or `false`",
    "sampling_kind": "dynamic sampling context", "sdk_kind": "SDK", "(list package_kind)": "list of packages",
    "entry_kind": "log entry", "stacktrace_kind": "stack trace", "(list frame_kind)": "list of frames",
    "template_kind": "template info", "mechanism_kind": "mechanism", "c_error_kind": "error of the C library",
    "signal_kind": "signal", "mach_kind": "Mach exception", "mechanism_meta_kind": None,
    "user_kind": "user", "request_kind": "request", "contexts_kind": "map of contexts",
    "system_kind": "system SDK info", "(list image_kind)": "list of images", "debug_meta_kind": None,
    "(list span_kind)": "list of spans", "(list item_kind)": "list of its items",
    "(list group_kind)": "list of their items", "attributes_kind": "session attributes",
    "(map attribute_kind)": "map of attributes", "schedule_kind": "schedule", "config_kind": "monitor",
    "(values breadcrumb_kind)": "list under `values`", "(values exception_kind)": "list under `values`",
    "(values thread_kind)": "list under `values`",
    **{f"{word}_kind": None for word in (
        "category", "check_in_status", "interval_unit", "level", "log_level", "metric_type", "orientation", "reason",
        "session_status", "span_status", "unit")},
}


def phrases(rule, kind):
    """What FORMAT may say behind a key of a rule and a kind."""
    word, _, default = (rule[1:-1] if rule.startswith("(") else rule).partition(" ")
    text = re.fullmatch(r'\(text \(codes "(.*)"\)\)', default)
    told = f"`{text[1]}`" if text else DEFAULTS.get(default, default) if word in ("default", "always") else ""
    said = RULES[word].format(told) if told is not None else "always" if word == "always" else ""
    forms = {", ".join(filter(None, (said, KINDS.get(kind, kind))))}
    if kind in ("span_id_kind", "trace_id_kind") or kind == "truth_kind" and told:
        forms.add(said)
    return forms


def defined():
    """The tables of specs: the tag, the type or the name of each, and its rows."""
    types, tags, tables = {}, {}, {}
    for file in Path("crates").glob("*/specs/*.antt"):
        text = file.read_text()
        types |= dict(re.findall(r"^\w+ pub (\w+) : List \(Field (\w+)\)", text, re.M))
        tags |= {fields: tag for tag, fields in re.findall(r'case \(codes "(\w+)"\) \(rows_of (\w+)\)', text)}
        found = re.findall(r"^(\w+)[\w ]* =((?:\s*∷?\s*field .*)+)", text, re.M)
        rows = [re.findall(r'field \(codes "([^"]*)"\) (\(.*?\)+|\w+) (\(.*\)|\w+) \(λ', rows) for _, rows in found]
        if sum(map(len, rows)) != text.count('field (codes "'):
            raise SystemExit(f"{file}: a row isn't understood")
        tables |= {fields: rows for (fields, _), rows in zip(found, rows)}
    names = {fields: tags.get(fields, types.get(fields, fields)) for fields in tables}
    return {names[fields]: rows for fields, rows in tables.items() if names[fields] not in UNTOLD}


def told():
    """The tables of FORMAT, alike: each key with what is said behind it."""
    tables = {}
    for first, rows in re.findall(r"^\| (.*?) \| (`\w+`.*) \|$", FORMAT.read_text(), re.M):
        of = re.findall(r"\(`(\w+)`\)" if "(" in first else r"`(\w+)`", first)
        groups = [re.fullmatch(r"((?:`\w+`(?:, )?)+) ?(.*)", group) for group in re.split(r"; (?=`\w+`)", rows)]
        if all(groups):
            said = {key: re.sub(r"\b(list|map)s\b", r"\1", group[2]) for group in groups for key in re.findall(r"`(\w+)`", group[1])}
            tables |= {name: said for name in of}
    return tables


def schema_faults(in_specs):
    """The tables of specs whose keys no table of the schema has. An authentication stands in no envelope."""
    text, tables = SCHEMA.read_text(), []
    for begin in re.finditer(r"\b(?:table|open)\(&\[", text):
        depth, at = 1, begin.end()
        keys = set()
        while depth:
            found = re.compile(r'[\[\]]|\b(?:must|may|drawn)\(\s*"(\w+)"').search(text, at)
            at = found.end()
            depth += {"[": 1, "]": -1}.get(found[0], 0)
            keys |= {found[1]} if found[1] and depth == 1 else set()
        tables.append(keys)
    keys = {name: {key for key, _, _ in rows} for name, rows in in_specs.items() if name != "Auth"}
    yield from (f"{SCHEMA}: no table of {name}: {', '.join(sorted(keys[name]))}" for name in keys if keys[name] not in tables)


def word_faults():
    """Where the enumerations of FORMAT and the specs differ: the words of each, in order."""
    rows = re.findall(r"^\| .*\(`(\w+)`\) \| (`.*?) \| .*\|$", FORMAT.read_text(), re.M)
    in_format = {of: re.findall(r"`([\w.]+)`", re.sub(r"\(.*?\)", "", words)) for of, words in rows}
    for file in sorted(Path("crates").glob("*/specs/*.antt")):
        text = file.read_text()
        for name, of in re.findall(r"^\w+ pub (\w+) : (\w+) → List ℕ$", text, re.M):
            words = re.findall(rf'^{name} \(?\w+\.\w.* = codes "(.*)"$', text, re.M)
            if words and of not in TOLD_TO_PEOPLE and in_format.get(of) != words:
                yield f"{FORMAT}: words of {of}: {in_format.get(of)}, not {words}"


def faults():
    """Where FORMAT and the specs differ."""
    yield from word_faults()
    in_format, in_specs = told(), defined()
    yield from schema_faults(in_specs)
    yield from (f"{FORMAT}: no table of {name}" for name in in_specs if name not in in_format)
    for name, rows in in_specs.items():
        said = in_format.get(name, {})
        yield from (f"{FORMAT}: {name} has no row {key}" for key in said.keys() - {key for key, _, _ in rows})
        for key, rule, kind in rows:
            forms = phrases(rule, kind)
            if said.get(key) not in forms:
                yield f"{FORMAT}: {name}, {key}: {said.get(key)}, not {' or '.join(sorted(forms))}"
