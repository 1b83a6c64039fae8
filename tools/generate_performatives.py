#!/usr/bin/env python3
"""Writes the rows of the performatives of AMQP 1.0, and what follows from them row by row.

    apt-get install amqp-specs
    python3 tools/generate_performatives.py            writes the files into crates/performatives_10
    python3 tools/generate_performatives.py FOLDER     writes them below another folder
    python3 tools/generate_performatives.py --check    compares them with those of crates/performatives_10

From the published definition (Debian's package amqp-specs) come the names, the descriptors, and each field with its type,
its need and its default: specs/Rows.antt, specs/View.antt, and of the sources the structs, a reader and a writer for each
row. `rt fmt` lays them out. This is no part of the build.
"""

import re
import sys
import xml.etree.ElementTree as ElementTree
from pathlib import Path

from generated import camel, run, snake

CRATE = Path(__file__).resolve().parent.parent / "crates" / "performatives_10"
DEFINITION = Path("/usr/share/amqp/specs/1-0")
PRIMITIVE = {"boolean", "ubyte", "ushort", "uint", "ulong", "binary", "string", "symbol", "map"}
# Fields with a `requires` in place of a type.
REQUIRED = {"source": "source", "target": "target", "delivery-state": "state", "address": "address",
            "outcome": "anything", "distribution-mode": "symbol"}
# Defaults that the definition gives by the name of a choice.
CHOICES = {"mixed": "2", "first": "0"}
# What a terminus leaves open is told as it was sent, so defaults of its fields aren't filled in, and what its outcomes and
# capabilities are isn't looked into.
TERMINI = {"source", "target"}
LOOSE = {"outcomes", "capabilities"}
RENAMED = {"sasl-server-mechanisms": "mechanisms"}
MODULES = {"connection": ["open", "close"], "session": ["begin", "end"],
           "link": ["attach", "flow", "transfer", "disposition", "detach"],
           "sasl": ["sasl-mechanisms", "sasl-init", "sasl-challenge", "sasl-response", "sasl-outcome"]}
HEADS = {"connection": "The performatives of a connection (AMQP 1.0 2.7.1, 2.7.9).",
         "session": "The performatives of a session (AMQP 1.0 2.7.2, 2.7.8).",
         "link": "The performatives of a link (AMQP 1.0 2.7.3 to 2.7.7).",
         "sasl": "The frames of the SASL layer (AMQP 1.0 5.3.3)."}
PARTS = ["error", "received", "rejected", "modified", "source", "target"]
SECTION = {"open": "2.7.1", "begin": "2.7.2", "attach": "2.7.3", "flow": "2.7.4", "transfer": "2.7.5",
           "disposition": "2.7.6", "detach": "2.7.7", "end": "2.7.8", "close": "2.7.9", "error": "2.8.14",
           "received": "3.4.1", "rejected": "3.4.3", "modified": "3.4.5", "source": "3.5.3", "target": "3.5.4",
           "sasl-mechanisms": "5.3.3.1", "sasl-init": "5.3.3.2", "sasl-challenge": "5.3.3.3",
           "sasl-response": "5.3.3.4", "sasl-outcome": "5.3.3.5"}
DOCS = {"idle-time-out": "In milliseconds", "timeout": "In seconds", "role": "True is the receiver",
        "snd-settle-mode": "0 unsettled, 1 settled, 2 mixed (2.8.2)",
        "rcv-settle-mode": "0 first, 1 second (2.8.3)", "max-frame-size": "In bytes",
        "max-message-size": "In bytes", "durable": "0 none, 1 configuration, 2 unsettled state (3.5.5)",
        "mechanisms": "One symbol, or an array of symbols", "code": "0 is success (5.3.3.6)",
        "outgoing-locales": "One symbol, or an array of symbols",
        "incoming-locales": "One symbol, or an array of symbols",
        "offered-capabilities": "One symbol, or an array of symbols",
        "desired-capabilities": "One symbol, or an array of symbols",
        "properties": "A map", "unsettled": "A map", "dynamic-node-properties": "A map", "filter": "A map",
        "address": "`None` also where it is no string"}
RUST = {"boolean": "bool", "ubyte": "u8", "ushort": "u16", "uint": "u32", "ulong": "u64", "binary": "ByteText",
        "string": "ByteText", "symbol": "ByteText", "address": "ByteText", "symbols": "Spelling10",
        "mapping": "Spelling10", "anything": "Spelling10", "error": "Error10", "state": "State", "source": "Source10",
        "target": "Target10"}
# Values of these types are kept as they are spelled, unless the field is mandatory: then it is asked for.
KEPT = {"symbols", "mapping", "anything"}
PLAIN = {"boolean", "ubyte", "ushort", "uint", "ulong"}
COMPOSITE = {"error", "state", "source", "target"}
STRUCT = {"error": "Error10", "source": "Source10", "target": "Target10"}
VIEW = {"symbols": "a_value", "mapping": "a_value", "anything": "a_value", "address": "a_string", "error": "error_tree",
        "state": "state_tree", "source": "source_tree", "target": "target_tree"}


class Field:
    def __init__(self, name, kind, need, default):
        self.name, self.kind, self.need, self.default = name, kind, need, default
        self.rust = name.replace("-", "_")
        self.built = kind in KEPT and need == "mandatory"


def roots():
    for name in ("transport", "messaging", "security"):
        text = (DEFINITION / f"{name}.bare.xml").read_text()
        yield ElementTree.fromstring(re.sub(r' xmlns="[^"]+"', "", text, count=1))


def composites():
    """Name of the composite type to its descriptor and its fields."""
    restricted, types = {}, {}
    for root in list(roots()):
        for node in root.iter("type"):
            if node.get("class") == "restricted":
                restricted[node.get("name")] = node.get("source")
            elif node.get("class") == "composite":
                types[node.get("name")] = node
    wanted = PARTS + ["accepted", "released"] + [name for names in MODULES.values() for name in names]
    found = {}
    for name, node in types.items():
        if name not in wanted:
            continue
        code = int(node.find("descriptor").get("code").split(":")[1], 16)
        found[name] = (code, [field_of(name, field, restricted) for field in node.findall("field")])
    return found


def field_of(owner, node, restricted):
    name = RENAMED.get(node.get("name"), node.get("name"))
    kind = node.get("type")
    if kind == "*":
        kind = REQUIRED[node.get("requires")]
    while kind in restricted:
        kind = restricted[kind]
    if node.get("multiple") == "true":
        kind = "symbols"
    if owner in TERMINI and name in LOOSE:
        kind = "anything"
    kind = "mapping" if kind == "map" else kind
    default = None if owner in TERMINI else node.get("default")
    default = CHOICES.get(default, default)
    need = "mandatory" if node.get("mandatory") == "true" else "optional" if default is None else "default"
    return Field(name, kind, need, default)


# ---- the definitions


def row_of(field):
    kind = field.kind if field.kind in COMPOSITE else f"(leaf {field.kind})"
    if field.need == "mandatory":
        return f"needs {kind}"
    if field.need == "optional":
        return f"may {kind}"
    value = f"value.{field.kind} {field.default}"
    return f"has {kind} ({value})"


def rows_text(name, fields):
    out = [f"abbrev pub {snake(name)}_rows : List Row"]
    if not fields:
        return "\n".join(out + [f"{snake(name)}_rows = []"])
    out.append(f"{snake(name)}_rows =")
    for k, field in enumerate(fields):
        link = "  " if k == 0 else "∷ "
        out.append(f"    {link}{row_of(field)} -- {field.name}")
    return "\n".join(out + ["    ∷ []"])


def tree_of(field, whose):
    make = "value_tree" if field.built else VIEW.get(field.kind, f"a_{field.kind}")
    what = f"{whose}.{field.rust}"
    return f"maybe {make} {what}" if field.need == "optional" else f"{make} {what}"


def view_text(name, fields, struct):
    out = [f"abbrev pub {snake(name)}_fields : {struct} → List Tree"]
    if not fields:
        return "\n".join(out + [f"{snake(name)}_fields p = []"])
    out.append(f"{snake(name)}_fields p =")
    for k, field in enumerate(fields):
        out.append(f"    {'  ' if k == 0 else '∷ '}{tree_of(field, 'p')}")
    return "\n".join(out + ["    ∷ []"])


# ---- the sources


def struct_text(name, fields, struct):
    out = [f"/// {'An' if name[0] in 'aeo' else 'A'} {name} (AMQP 1.0 {SECTION[name]}).",
           "#[derive(Debug, Drop)]", f"pub struct {struct} {{"]
    for field in fields:
        if field.name in DOCS:
            out.append(f"    /// {DOCS[field.name]}")
        kind = "Value10" if field.built else RUST[field.kind]
        kind = f"Option<{kind}>" if field.need == "optional" else kind
        out.append(f"    pub {field.rust}: {kind},")
    return "\n".join(out + ["}"])


def getter(field, place):
    if field.need == "mandatory":
        return f"needed_{field.kind}(alloc, fields, {place})"
    if field.need == "optional":
        return f"{field.kind}_at(alloc, fields, {place})"
    return f"{field.kind}_or(alloc, fields, {place}, {literal(field)})"


def literal(field):
    if field.default == "4294967295":
        return "u32::MAX"
    return "u16::MAX" if field.default == "65535" else field.default


def read_lines(fields):
    """The statements that read the fields in order. What owns memory is handed on by `both`, so that no `?` drops it."""
    lines, held = [], []
    for place, field in enumerate(fields):
        call = getter(field, place)
        whole = held[0] if len(held) == 1 else "read"
        if not held:
            lines.append(f"let {field.rust} = {call}?;")
        elif field.kind in PLAIN:
            lines.append(f"let ({whole}, {field.rust}) = both({whole}, {call})?;")
        else:
            lines.append(f"let read = both({whole}, {call})?;")
        if field.kind not in PLAIN:
            held.append(field.rust)
    if len(held) > 1:
        pattern = held[0]
        for name in held[1:]:
            pattern = f"({pattern}, {name})"
        lines.append(f"let {pattern} = read;")
    return lines


def reader_text(name, fields, struct):
    lines = "\n".join(f"    {line}" for line in read_lines(fields))
    inits = "\n".join(f"        {field.rust}," for field in fields)
    return f"""/// The fields of {name}.
pub(crate) fn {snake(name)}_of(alloc: Global, fields: &SpelledList<'_>) -> Result<Perf, Stop<PerfFault>>
    ensures {{ Gives parts_of result (perf_in PerfKind.{struct} (trees_of fields.now)) }}
{{
{lines}
    Ok(Perf::{struct}({struct} {{
{inits}
    }}))
}}"""


def adder(field):
    what = f"perf.{field.rust}"
    maybe = "maybe_" if field.need == "optional" else ""
    if field.need == "default" and field.kind == "boolean":
        return f"push_unless_default(&mut fields, {what}, {field.default})?;"
    if field.kind in COMPOSITE:
        return f"push_{maybe}{field.kind}(alloc, &mut fields, &{what})?;"
    if field.kind in PLAIN:
        if maybe:
            return f"fields.push_maybe_{field.kind}({what})?;"
        return f"fields.push(Value10::{camel(field.kind)}({what}))?;"
    name = "value" if field.built else "kept" if field.kind in KEPT else "string" if field.kind == "address" else field.kind
    return f"fields.push_{maybe}{name}(alloc, &{what})?;"


def writer_text(name, fields, struct, public):
    lines = "\n".join("    " + adder(field) for field in fields)
    rows = f"{snake(name)}_rows"
    return f"""/// What is written of the fields of {name}.
{'pub(crate) ' if public else ''}fn {snake(name)}_written(alloc: Global, perf: &{struct}) -> Result<Fields, Memory>
    ensures {{ IfOk result (λ f. f ≡ written {rows} ({snake(name)}_fields perf.now)) }}
{{
    let mut fields = Fields::empty(alloc);
{lines}
    Ok(fields)
}}"""


GENERATED = "This file is written by tools/generate_performatives.py from the definition of AMQP 1.0."


def rows_file(types):
    perfs = [name for names in MODULES.values() for name in names]
    perfs.sort(key=lambda name: types[name][0])
    blocks = [rows_text(name, types[name][1]) for name in PARTS + perfs]
    codes = [f"row perf.{camel(name)} = ({types[name][0]}, {snake(name)}_rows)" for name in perfs]
    kinds = " ∷ ".join(f"perf.{camel(name)}" for name in perfs)
    return f"""-- {GENERATED}

-- The table of the performatives (AMQP 1.0 2.7, 5.3.3) and of the composite types inside them (2.8.14, 3.4, 3.5): the code of the descriptor, and one line a field, with its need, its type and its default, in the order of the standard.
use Rattle.std.specs.Prelude.{{ℕ, false, List, [], ◌∷◌}}
use Rattle.types_10.specs.Tree as value
use Rattle.performatives_10.specs.Fields.{{boolean, ubyte, ushort, uint, ulong, binary, string, symbol, symbols, mapping, address, anything, leaf, error, state, source, target, Row, needs, may, has}}
use Rattle.performatives_10.specs.declared.kind.PerfKind.{{PerfKind}}
use Rattle.performatives_10.specs.declared.kind.PerfKind.TheVariants as perf

""" + "\n\n".join(blocks) + """

-- the code of the descriptor, and the fields
abbrev pub row : PerfKind → ℕ × List Row
""" + "\n".join(codes) + f"""

-- all kinds
abbrev pub kinds : List PerfKind
kinds = {kinds} ∷ []

-- the codes of the composite types inside performatives
""" + "\n".join(f"abbrev pub {name}_code : ℕ\n{name}_code = {code}" for name, code in sorted(
        ((n, types[n][0]) for n in PARTS + ["accepted", "released"]), key=lambda x: x[1])) + "\n"


def view_file(types):
    perfs = sorted((n for names in MODULES.values() for n in names), key=lambda n: types[n][0])
    structs = ["Error10", "Source10", "Target10", "State", "Perf"] + [camel(n) for n in perfs]
    uses = "\n".join(f"use Rattle.performatives_10.specs.declared.performative.{s}.{{{s}}}" for s in structs)
    error = Field_kept(types["error"][1], ["condition", "description"])
    termini = [view_text(n, types[n][1], STRUCT[n]) for n in ("source", "target")]
    blocks = [view_text(n, types[n][1], camel(n)) for n in perfs]
    return f"""-- {GENERATED}

-- A performative as its kind and its fields in order: null for an absent field.
use Rattle.std.specs.Prelude.{{List, [], ◌∷◌}}
use Rattle.types_10.specs.Tree.{{Tree}}
use Rattle.types_10.specs.Fields.{{maybe, a_boolean, a_ubyte, a_ushort, a_uint, a_ulong, a_binary, a_string, a_symbol, a_value}}
use Rattle.types_10.specs.View.{{value_tree}}
use Rattle.performatives_10.specs.Rows.{{error_code, received_code, accepted_code, rejected_code, released_code, modified_code, source_code, target_code}}
use Rattle.performatives_10.specs.Composites.{{composite}}
use Rattle.performatives_10.specs.declared.kind.PerfKind.{{PerfKind}}
use Rattle.performatives_10.specs.declared.kind.PerfKind.TheVariants as row
use Rattle.performatives_10.specs.declared.performative.Perf.TheVariants as perf
use Rattle.performatives_10.specs.declared.performative.State.TheVariants as state
{uses}

-- of an error its information is dropped
{view_text("error", error, "Error10")}

abbrev pub error_tree : Error10 → Tree
error_tree p = composite error_code (error_fields p)

-- of a state only the error of a rejection is kept
abbrev pub state_tree : State → Tree
state_tree state.Received = composite received_code []
state_tree state.Accepted = composite accepted_code []
state_tree (state.Rejected e) = composite rejected_code (maybe error_tree e ∷ [])
state_tree state.Released = composite released_code []
state_tree state.Modified = composite modified_code []

{termini[0]}

abbrev pub source_tree : Source10 → Tree
source_tree p = composite source_code (source_fields p)

{termini[1]}

abbrev pub target_tree : Target10 → Tree
target_tree p = composite target_code (target_fields p)

""" + "\n\n".join(blocks) + """

-- the row of a performative
abbrev pub kind_of : Perf → PerfKind
""" + "\n".join(f"kind_of (perf.{camel(n)} p) = row.{camel(n)}" for n in perfs) + """

-- its fields, in the order of that row
abbrev pub fields_of : Perf → List Tree
""" + "\n".join(f"fields_of (perf.{camel(n)} p) = {snake(n)}_fields p" for n in perfs) + """

-- both together
abbrev pub parts_of : Perf → PerfKind × List Tree
parts_of p = (kind_of p, fields_of p)
"""


def Field_kept(fields, names):
    return [field for field in fields if field.name in names]


def performative_file(types):
    perfs = sorted((n for names in MODULES.values() for n in names), key=lambda n: types[n][0])
    error = Field_kept(types["error"][1], ["condition", "description"])
    parts = [struct_text("error", error, "Error10").replace("(AMQP 1.0 2.8.14).", "(AMQP 1.0 2.8.14). Its information is dropped."),
             struct_text("source", types["source"][1], "Source10"),
             struct_text("target", types["target"][1], "Target10")]
    variants = "\n".join(f"    {camel(n)}({camel(n)})," for n in perfs)
    return f"""//! {GENERATED}
//!
//! The performatives as structs of their fields. An absent field is `None`, or its default where it has one. Values that nobody asks for are kept as they are spelled.

use types_10::{{Spelling10, Value10}};
use wire_base::ByteText;

{parts[0]}

/// The state of a delivery (AMQP 1.0 3.4). Only the error of a rejection is kept. `Received` is read, and can't be written as it stands, since its mandatory fields aren't kept.
#[derive(Debug, Drop)]
pub enum State {{
    Received,
    Accepted,
    Rejected(Option<Error10>),
    Released,
    Modified,
}}

{parts[1]}

{parts[2]}

""" + "\n\n".join(struct_text(n, types[n][1], camel(n)) for n in perfs) + f"""

/// A performative (AMQP 1.0 2.7) or a frame body of the SASL layer (5.3.3).
#[derive(Debug, Drop)]
pub enum Perf {{
{variants}
}}
"""


def module_file(module, types):
    names = MODULES[module]
    readers, writers = [], []
    for name in names:
        code, fields = types[name]
        readers.append(reader_text(name, fields, camel(name)))
        writers.append(writer_text(name, fields, camel(name), True))
    body = "\n\n".join(x for pair in zip(readers, writers) for x in pair)
    called = sorted(set(re.findall(r"\b(both|(?:needed_)?[a-z]+(?:_at|_or)?)\((?=alloc, fields, \d|\w+, \w+\(alloc)", body)))
    rows = ", ".join(f"{snake(n)}_rows" for n in names)
    views = ", ".join(f"{snake(n)}_fields" for n in names)
    structs = ", ".join(sorted([camel(n) for n in names] + ["Perf"]))
    collected = sorted(set(re.findall(r"\b(push_\w+)\((?:alloc, )?&mut fields", body)))
    joined = ", ".join(collected)
    collecting = f"use crate::collecting::{joined if len(collected) == 1 else f'{{{joined}}}'};\n" if collected else ""
    values = "Fields, SpelledList, Value10" if "Value10::" in body else "Fields, SpelledList"
    return f"""//! {GENERATED}
//!
//! {HEADS[module]}

ghost use Rattle.std.specs.Prelude.{{◌≡◌, IfOk}};
ghost use Rattle.wire_base.specs.Reading.{{Gives}};
ghost use Rattle.types_10.specs.Tree.{{trees_of}};
ghost use Rattle.performatives_10.specs.Rows.{{{rows}}};
ghost use Rattle.performatives_10.specs.View.{{parts_of, {views}}};
ghost use Rattle.performatives_10.specs.Reading.{{perf_in}};
ghost use Rattle.performatives_10.specs.Writing.{{written}};

{collecting}use crate::fault::PerfFault;
use crate::getting::{{{", ".join(called)}}};
use crate::kind::PerfKind;
use crate::performative::{{{structs}}};
use std::alloc::Global;
use types_10::{{{values}}};
use wire_base::{{Memory, Stop}};

{body}
"""


def files_of(types):
    files = {"specs/Rows.antt": rows_file(types), "specs/View.antt": view_file(types),
             "src/performative.rt": performative_file(types)}
    for module in MODULES:
        files[f"src/{module}.rt"] = module_file(module, types)
    return files


if __name__ == "__main__":
    sys.exit(run(CRATE, files_of(composites())))
