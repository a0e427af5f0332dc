#!/usr/bin/env python3
"""tools/std_enums.py [ROOT]: turns the repository's own enums of the shape of Option and Result to std's, by text.

It goes over crates/*/src, specs, proofs, must-fail and over oracle/wrong, as they stood at the commit in the first line of docs/DESIGN-PASS.md. What it
leaves differs from what stands today only where something else was changed: so a reader who wants to see that no definition says less runs it in a
checkout of that commit, and lays the two beside each other. It is kept for that alone; in today's checkout it finds nothing to do.
"""

import os
import re
import sys

ROOT = sys.argv[1] if len(sys.argv) > 1 else "."
CRATES = os.path.join(ROOT, "crates")
WRONG = os.path.join(ROOT, "oracle", "wrong")


class Enum:
    """An enum of our own: where it stands, the types that stand for it, and for each of its cases the number of its values and what is written for it."""

    def __init__(self, place, rust, antt, cases, alias=False, name_in_specs=None):
        self.crate, self.module, self.name = place.split(".")
        self.rust, self.antt, self.cases, self.alias, self.name_in_specs = rust, antt, cases, alias, name_in_specs
        self.path = os.path.join(CRATES, self.crate, "src", (self.module or "lib") + ".rt")


def option(place, none, some, rust, antt, values=1, **more):
    cases = {none: (0, "None", "None"), some: (values, "Some(%s)", "Some %s")}
    return Enum(place, "Option<%s>" % rust, "Option %s" % antt, cases, **more)


def result(place, ok, rust, antt, values=1, errors=1, error="Refusal", error_antt="Refusal", **more):
    cases = {ok: (values, "Ok(%s)", "Ok %s"), "No": (errors, "Err(%s)", "Err %s")}
    return Enum(place, "Result<%s, %s>" % (rust, error), "Result %s %s" % (antt, error_antt), cases, **more)


AT_LINE = dict(errors=3, error="(Refusal, Side, usize)", error_antt="(Refusal × Side × ℕ)", alias=True)
HELD = "Rattle.engine.specs.Held"
ENUMS = [
    result("refusal.verdict.Verdict", "Pass", "()", "Unit", 0, name_in_specs=("Verdict", "Rattle.refusal.specs.Verdicts")),
    result("engine.answer.Outcome", "Done", "()", "Unit", 0),
    result("engine.sending.SendAnswer", "Number", "Seq", "Seq"),
    result("engine.links.AddAnswer", "Slot", "u8", "ℕ"),
    result("engine.resending.ResendAnswer", "Message", "(ReliableMsg, u32)", "(ReliableMsg × ℕ)", 2),
    result("engine.handing_out.HandOut", "Message", "(ReliableMsg, Seq, u32)", "(ReliableMsg × Seq × ℕ)", 3, alias=True, name_in_specs=("HandOut", HELD)),
    result("engine.handing_out.TakeAck", "Number", "Seq", "Seq"),
    result("engine.handing_out.Due", "Is", "bool", "Bool"),
    result("engine.slowness.SlowAnswer", "Listed", "SlowLinks", "SlowLinks"),
    Enum("engine.deadlines.ConfirmTimeout", "Result<Option<(u8, bool, u64)>, Refusal>", "Result (Option (ℕ × Bool × ℕ)) Refusal",
         {"Packet": (3, "Ok(Some(%s))", "Ok (Some %s)"), "Nothing": (0, "Ok(None)", "Ok None"), "No": (1, "Err(%s)", "Err %s")},
         alias=True, name_in_specs=("ConfirmTimeout", HELD)),
    result("msg.reading.Reading", "Message", "LinkMsg", "LinkMsg"),
    result("msg.writing.Written", "Bytes", "usize", "ℕ"),
    result("comparing.comparison.Compared", "Lists", "(usize, usize, usize)", "(ℕ × ℕ × ℕ)", 3, **AT_LINE),
    result("comparing.comparison.Judged", "Pass", "()", "Unit", 0, **AT_LINE),
    option("seq..Apart", "Far", "By", "i32", "ℤ"),
    option("link.acks.OldestAck", "Nothing", "Number", "Seq", "Seq"),
    option("link.row.MaxPing", "Unlimited", "UpTo", "u64", "ℕ"),
    option("link.row.Limit", "Clear", "At", "Seq", "Seq"),
    option("link.row.Ping", "Idle", "Since", "u64", "ℕ"),
    option("engine.state.Flushed", "Unflushed", "FlushedAt", "u64", "ℕ"),
    option("engine.state.Held", "Nothing", "Message", "(ReliableMsg, u32)", "(ReliableMsg × ℕ)", 2, alias=True, name_in_specs=("Held", HELD)),
    option("engine.deadlines.FirstSent", "Nothing", "Is", "InFlight", "InFlight"),
    option("text.hex.HexByte", "Bad", "Byte", "u8", "ℕ"),
    option("text.hex.HexRun", "Bad", "Count", "usize", "ℕ"),
    option("text.reading.Decimal", "Bad", "Number", "u64", "ℕ"),
    option("msg.reliable.FromLink", "Other", "Reliable", "(ReliableMsg, Seq)", "(ReliableMsg × Seq)", 2),
    option("comparing.messages.Start", "Bad", "Number", "Seq", "Seq"),
    option("comparing.messages.Waiting", "Frame", "Payload", "Message", "Message"),
    option("comparing.table.Held", "Not", "At", "(usize, usize)", "(ℕ × ℕ)", 2, alias=True),
    option("replaying.session.Waiting", "Frame", "Payload", "Seq", "Seq"),
    option("replaying.session.Answer", "Nothing", "Line", "(u8, Seq)", "(ℕ × Seq)", 2),
    option("door.given.Given", "Nothing", "Message", "ReliableMsg", "ReliableMsg"),
    option("door.messages.LinkGiven", "Nothing", "Message", "LinkMsg", "LinkMsg"),
    option("runs.given.Given", "Nothing", "Message", "ReliableMsg", "ReliableMsg"),
    option("calls.call.Settings", "Bad", "Are", "AckTimeout", "AckTimeout"),
    option("calls.kinds.Reliable", "Bad", "Is", "ReliableMsg", "ReliableMsg"),
    option("calls.message.Message", "Bad", "Is", "LinkMsg", "LinkMsg"),
    option("calls.words.Byte", "Bad", "Is", "u8", "ℕ"),
    option("calls.words.Number", "Bad", "Is", "u32", "ℕ"),
    option("calls.words.Flag", "Bad", "Is", "bool", "Bool"),
    option("calls.words.Limit", "Bad", "Is", "Option<u64>", "(Option ℕ)"),
    option("calls.words.Bytes", "Bad", "Count", "usize", "ℕ"),
]
# What a goal is called by the case that a match is in.
GOALS = {"Some(%s)": "Some", "None": "None", "Ok(%s)": "Ok", "Err(%s)": "Err", "Ok(Some(%s))": "Ok-Some", "Ok(None)": "Ok-None"}


def read(path):
    with open(path, encoding="utf-8") as f:
        return f.read()


def write(path, text):
    with open(path, "w", encoding="utf-8") as f:
        f.write(text)


def below(folder, end):
    for at, _, names in os.walk(folder):
        for name in sorted(names):
            if name.endswith(end):
                yield os.path.join(at, name)


def closing(text, at):
    """Where the parenthesis at a place is closed."""
    deep = 0
    for i in range(at, len(text)):
        deep += (text[i] == "(") - (text[i] == ")")
        if deep == 0:
            return i
    return None


# Rust.

USE = re.compile(r"(?m)^(?:pub |pub\(crate\) )?use ([^;]+);\n?")


def uses(text):
    """The paths that a source brings in, each with its local name."""
    found = []

    def expand(path, before):
        path = path.strip()
        brace = path.find("{")
        if brace < 0:
            whole, _, local = (before + path).partition(" as ")
            found.append((whole.split("::"), local.strip() or whole.split("::")[-1]))
            return
        deep, part = 0, ""
        for c in path[brace + 1:path.rindex("}")] + ",":
            deep += (c == "{") - (c == "}")
            if c == "," and deep == 0:
                if part.strip():
                    expand(part, before + path[:brace])
                part = ""
            else:
                part += c

    for m in USE.finditer(text):
        expand(m.group(1), "")
    return found


def names_in(crate, path, text):
    """Our enums by the names that a source has for them."""
    names = {e.name: e for e in ENUMS if e.path == path}
    modules = {e.module for e in ENUMS if e.crate == crate}
    for segments, local in uses(text):
        where = crate if segments[0] == "crate" or segments[0] in modules else segments[0]
        fit = [e for e in ENUMS if e.crate == where and e.name == segments[-1]]
        exact = [e for e in fit if len(segments) > 2 and e.module == segments[-2]]
        if exact or fit:
            names[local] = (exact or fit)[0]
    return names


def turn_cases(text, names):
    for local, enum in names.items():
        for case, (values, written, _) in enum.cases.items():
            pattern, at = re.compile(r"(?<![\w:])%s::%s\b" % (local, case)), 0
            while m := pattern.search(text, at):
                end, inner = m.end(), "()"
                if values:
                    shut = closing(text, end)
                    inner, end = text[end + 1:shut].strip().rstrip(","), shut + 1
                    if values > 1:
                        inner = "(%s)" % inner
                new = written % inner if "%s" in written else written
                text, at = text[:m.start()] + new + text[end:], m.start() + (1 if values else len(new))
    return text


def turn_rust(text, names):
    text = turn_cases(text, names)
    for local, enum in names.items():
        for case, (values, _, written) in enum.cases.items():
            text = turn_terms(text, r"(?<![\w.])%s\.%s(?![\w])" % (local, case), values, written)

    def types(part):
        for local, enum in names.items():
            if not enum.alias:
                part = re.sub(r"(?<![\w:.])%s\b(?!\s*::)(?!\.)" % local, enum.rust, part)
        return part

    out, at = "", 0
    for m in re.finditer(r"(?m)(^(?:pub |pub\(crate\) |ghost )?use [^;]+;\n)|(//[^\n]*)", text):
        out += types(text[at:m.start()]) + m.group(0)
        at = m.end()
    return out + types(text[at:])


def drop_uses(text, names):
    def without(m):
        line = m.group(0)
        for local, enum in names.items():
            if not enum.alias and re.search(r"\b%s\b" % local, line):
                if re.search(r"::%s;" % local, line):
                    return ""
                line = re.sub(r"(?<![\w:])%s\b(?!::)\s*,?\s*" % local, "", line)
        line = re.sub(r",\s*\}", "}", line)
        return "" if re.search(r"\{\s*\}", line) else line

    return USE.sub(without, text)


def drop_declaration(text, enum):
    pattern = r"((?://[^\n]*\n)*)#\[derive\([^\n]*\)\]\n((?:pub(?:\([a-z]+\))? )?)enum %s \{\n.*?\n\}\n\n?"
    name = re.escape(enum.name)
    if not re.search(pattern % name, text, re.S):
        name = re.escape(enum.rust)
    new = r"\1\2type %s = %s;\n\n" % (enum.name, enum.rust) if enum.alias else ""
    return re.sub(pattern % name, new, text, count=1, flags=re.S)


# Definitions and proofs.

DECLARED = re.compile(r"(?m)^(?:pub )?use Rattle\.(\w+)\.specs\.declared\.([\w.]+?)(\.TheVariants)?(?:\.\{([^}\n]*)\}| as (\w+))\n")


def atom(text, at):
    """Where the term behind a place starts and ends."""
    while at < len(text) and text[at] == " ":
        at += 1
    if text[at:at + 1] == "(":
        end = closing(text, at) + 1
        while m := re.compile(r"\.[\w'₀-₉-]+").match(text, end):
            end = m.end()
        return at, end
    m = re.compile(r"\w[\w'′₀-₉⁻¹.-]*").match(text, at)
    return (at, m.end() - m.group(0).endswith(".")) if m else None


def turn_terms(text, pattern, values, written):
    pattern, at = re.compile(pattern), 0
    while m := pattern.search(text, at):
        if values == 0:
            new = written % "tt" if "%s" in written else written
            before, after = text[:m.start()].rstrip(" ")[-1:], text[m.end():].lstrip(" ")[:1]
            alone = before == "(" and after == ")"
            whole = before in "=≡→(" and (after in "\n)}×→" or after == "") or before == "≡" and not re.match(r"[\w(\n]", after)
            if " " in new and not (alone or whole):
                new = "(%s)" % new
            text, at = text[:m.start()] + new + text[m.end():], m.start() + len(new)
        elif values == 1:
            new = written.replace(" %s", "")
            text, at = text[:m.start()] + new + text[m.end():], m.start() + len(new)
        else:
            end, arguments = m.end(), []
            while len(arguments) < values and (a := atom(text, end)):
                arguments.append(text[a[0]:a[1]])
                end = a[1]
            if len(arguments) < values:
                at = m.end()
                continue
            text, at = text[:m.start()] + written % ("(%s)" % ", ".join(arguments)) + text[end:], m.start() + 1
    return text


def names_in_terms(text):
    """What a file calls our enums and their cases, and where it brings them in."""
    found, cuts = {}, []
    for m in DECLARED.finditer(text):
        crate, path, variants, group, alias = m.groups()
        segments = path.split(".")
        module = segments[-2] if len(segments) > 1 else ""
        enum = next((e for e in ENUMS if (e.crate, e.module, e.name) == (crate, module, segments[-1])), None)
        if enum is None:
            continue
        cuts.append(m.span())
        if group is None:
            found.update({"%s.%s" % (alias, case): (enum, case) for case in enum.cases} if variants else {})
            continue
        for item in filter(None, map(str.strip, group.split(","))):
            name, _, local = item.partition(" as ")
            found[local.strip() or name] = (enum, name if variants else None)
    return found, cuts


def turn_antt(text, names):
    whole = r"(?<![\w.'-])%s(?![\w'.-])"
    for local in sorted(names, key=len, reverse=True):
        enum, case = names[local]
        if case:
            values, _, written = enum.cases[case]
            text = turn_terms(text, whole % re.escape(local), values, written)
    for local in sorted(names, key=len, reverse=True):
        enum, case = names[local]
        if case:
            continue
        new = enum.name_in_specs[0] if enum.name_in_specs else enum.antt
        pattern, at = re.compile(whole % re.escape(local)), 0
        while m := pattern.search(text, at):
            before = text[:m.start()].rstrip(" ")[-1:]
            put = new if " " not in new or before in ":→×=≡(" else "(%s)" % new
            text, at = text[:m.start()] + put + text[m.end():], m.start() + len(put)
    return text


def past_comments(text, turn):
    """Turns a text but for its lines of comment."""
    kept = []

    def keep(m):
        kept.append(m.group(0))
        return "--\0%d" % (len(kept) - 1)

    return re.sub(r"--\0(\d+)", lambda m: kept[int(m.group(1))], turn(re.sub(r"(?m)^ *--.*$", keep, text)))


STD = ["Some", "None", "Option", "Ok", "Err", "Result"]
PLACES = {
    "Refusal": "Rattle.refusal.specs.declared.Refusal", "Seq": "Rattle.seq.specs.declared.Seq", "Side": "Rattle.comparing.specs.declared.comparison.Side",
    "ReliableMsg": "Rattle.msg.specs.declared.reliable.ReliableMsg", "LinkMsg": "Rattle.msg.specs.declared.link_msg.LinkMsg",
    "InFlight": "Rattle.engine.specs.declared.state.InFlight", "SlowLinks": "Rattle.engine.specs.declared.slowness.SlowLinks",
    "Message": "Rattle.comparing.specs.declared.messages.Message", "AckTimeout": "Rattle.link.specs.declared.timeout.AckTimeout",
}


def bring_in(text, path, names):
    """Adds what a turned file uses now and did not bring in."""
    body = "\n".join(l for l in text.split("\n") if not re.match(r"(pub )?use |\s*--", l))
    heads = "\n".join(l for l in text.split("\n") if re.match(r"(pub )?use ", l))

    def wants(name):
        return re.search(r"(?<![\w.'-])%s(?![\w'.-])" % name, body)

    def has(name):
        items = [i.split(" as ")[-1].strip() for g in re.findall(r"\{([^}]*)\}", heads) for i in g.split(",")]
        return name in items or re.search(r"(?m)^(?:pub |abbrev |unfoldable |data |record )+%s\b" % name, text)

    more = [s for s in STD if wants(s) and not has(s)]
    for head in ("use Rattle.std.specs.Prelude.{", "use Rattle.std.proofs.Common.{"):
        at = text.find(head)
        if more and at >= 0:
            end = text.find("}", at)
            text, more = text[:end] + ", " + ", ".join(more) + text[end:], []
    lines = ["use Rattle.std.specs.Prelude.{%s}\n" % ", ".join(more)] if more else []
    lines += ["use %s.{%s}\n" % (PLACES[n], n) for n in PLACES if wants(n) and not has(n)]
    module = re.sub(r"\W", ".", os.path.relpath(path, CRATES)[:-5])
    for name, place in {e.name_in_specs for e, _ in names.values() if e.name_in_specs}:
        if wants(name) and not has(name) and not ("Rattle." + module).endswith(place):
            lines.append("use %s.{%s}\n" % (place, name))
    if lines:
        first = re.search(r"(?m)^(?:pub )?use ", text)
        at = first.start() if first else re.match(r"(?:--[^\n]*\n|\n)*", text).end()
        text = text[:at] + "".join(lines) + text[at:]
    return text


def function(text, name):
    """The text of a function, from its name to the brace that ends it."""
    m = re.search(r"(?m)^( *)(?:pub |pub\(crate\) |extern \"C\" )*fn %s\b" % re.escape(name), text)
    if m:
        end = re.compile(r"(?m)^%s\}" % m.group(1)).search(text, m.end())
        return text[m.start():end.end() if end else len(text)]
    return None


def turn_goals(text, crate, path, sources, names):
    """The goals of a function are called by the cases that it matches."""
    parts = os.path.relpath(path, os.path.join(CRATES, crate, "proofs")).split(os.sep)[:-1]
    if not parts:
        return text
    own = sorted(p for p in sources if p.startswith(os.path.join(CRATES, crate) + os.sep))
    own.sort(key=lambda p: os.path.basename(p)[:-3] != parts[0])
    found = next(((p, t) for p in own if (t := function(sources[p], parts[-1]))), None)
    for local, enum in (names[found[0]] if found else {}).items():
        for case, (values, written, _) in enum.cases.items():
            if re.search(r"\b%s::%s\b" % (local, case), found[1]):
                goal = GOALS[written]
                if values > 1:
                    text = re.sub(r"in-%s((?:-[\w-]+)?)\.field-(\d)" % case, r"in-%s\1.field-0-\2" % goal, text)
                text = re.sub(r"in-%s(?![A-Za-z])" % case, "in-" + goal, text)
    return text


def turn_edit(path, crate, names, terms):
    lines, file = [], None
    for line in read(path).split("\n"):
        key, _, text = line.partition(": ")
        if key == "crate":
            crate = text.strip()
        elif key == "file":
            file = os.path.join(CRATES, crate, text.strip())
        elif key in ("old", "new"):
            line = "%s: %s" % (key, turn_rust(text, names[file]) if file in names else turn_antt(text, terms.get(file, {})))
        lines.append(line)
    write(path, "\n".join(lines))


def main():
    sources = {p: read(p) for c in os.listdir(CRATES) for p in below(os.path.join(CRATES, c, "src"), ".rt")}
    names = {p: names_in(os.path.relpath(p, CRATES).split(os.sep)[0], p, t) for p, t in sources.items()}
    terms = {}
    for path in below(CRATES, ".antt"):
        crate = os.path.relpath(path, CRATES).split(os.sep)[0]
        if os.sep + "out" + os.sep in path:
            continue
        text = read(path)
        new = turn_goals(text, crate, path, sources, names) if os.sep + "proofs" + os.sep in path else text
        terms[path], cuts = names_in_terms(new)
        for start, end in reversed(cuts):
            new = new[:start] + new[end:]
        if terms[path]:
            new = bring_in(past_comments(new, lambda t: turn_antt(t, terms[path])), path, terms[path])
        if new != text:
            write(path, new)
    for path in below(CRATES, ".edit"):
        turn_edit(path, os.path.relpath(path, CRATES).split(os.sep)[0], names, terms)
    for path in below(WRONG, ".edit"):
        turn_edit(path, None, names, terms)
    for path, text in sources.items():
        new = turn_rust(text, names[path])
        for enum in ENUMS:
            if enum.path == path:
                new = drop_declaration(new, enum)
        new = drop_uses(new, names[path])
        if new != text:
            write(path, new)


if __name__ == "__main__":
    main()
