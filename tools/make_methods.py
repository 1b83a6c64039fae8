#!/usr/bin/env python3
"""Writes the rows of the methods of AMQP 0-9-1, and what follows from them row by row.

    apt-get install amqp-specs
    python3 tools/make_methods.py            writes the files into crates/methods_091
    python3 tools/make_methods.py FOLDER     writes them below another folder
    python3 tools/make_methods.py --check    compares them with those of crates/methods_091

From the published definition (Debian's package amqp-specs) come the names, the ids, and each argument with its type:
specs/Rows.antt, specs/View.antt, and of the sources the methods, their kinds, and for each class its readers and writers.
proofs/Rebuilding.antt goes back from the rows to a method. `rt fmt` lays them out. This is no part of the build.

The definition is that of 0-9-1 with the additions of RabbitMQ, of which the crate has basic.nack and the class confirm;
exchange.bind and exchange.unbind, and their answers, are left out by purpose.
"""

import re
import sys
import xml.etree.ElementTree as ElementTree
from pathlib import Path

from generated import camel, run, snake

CRATE = Path(__file__).resolve().parent.parent / "crates" / "methods_091"
DEFINITION = Path("/usr/share/amqp/specs/0-9-1-rabbit/amqp0-9-1.stripped.extended.xml")
LEFT_OUT = {"exchange.bind", "exchange.bind-ok", "exchange.unbind", "exchange.unbind-ok"}
GENERATED = "This file is written by tools/make_methods.py from the published definition of AMQP 0-9-1."
# `type` is a word of the language, and confirm.select alone spells `nowait`.
RENAMED = {"type": "kind", "nowait": "no_wait"}
HEADS = {"connection": "The class connection (AMQP 0-9-1 1.4).", "channel": "The class channel (AMQP 0-9-1 1.5).",
         "exchange": "The class exchange (AMQP 0-9-1 1.6).", "queue": "The class queue (AMQP 0-9-1 1.7).",
         "basic": "The class basic (AMQP 0-9-1 1.8, with basic.nack of RabbitMQ).",
         "confirm": "The class confirm, an addition of RabbitMQ.", "tx": "The class tx (AMQP 0-9-1 1.9)."}
# Of each type: how a field holds it, what reads it, what passes over it, what writes it, and what writes its blank.
TYPES = {"octet": ("u8", "u8_in", "u8_in", "put_u8", "put_u8"),
         "short": ("u16", "u16_in", "u16_in", "put_u16", "put_u16"),
         "long": ("u32", "u32_in", "u32_in", "put_u32", "put_u32"),
         "longlong": ("u64", "u64_in", "u64_in", "put_u64", "put_u64"),
         "shortstr": ("ByteText", "shortstr_in", "short_in", "put_shortstr", "put_u8"),
         "longstr": ("ByteText", "longstr_in", "long_in", "put_longstr", "put_u32"),
         "fields": ("Table", "next_table", None, "put_table", None),
         "bits": ("bool", "u8_in", "u8_in", "put_u8", "put_u8")}
NUMBERS = {"octet", "short", "long", "longlong"}
TAKING = {"shortstr", "longstr", "fields"}
# What writes two arguments that stand together.
PAIRS = {("octet", "octet"): "put_version", ("longlong", "bits"): "put_tag", ("longstr", "longstr"): "put_longstrs"}


class Argument:
    """An argument as it stands on the wire: of flags, all those of one octet."""

    def __init__(self, kind, names, reserved):
        self.kind, self.names, self.reserved = kind, names, reserved

    @property
    def name(self):
        return self.names[0]


class Method:
    def __init__(self, owner, name, ids, arguments):
        self.owner, self.name, self.ids, self.arguments = owner, name, ids, arguments
        self.full, self.rust, self.short = f"{owner}.{name}", snake(name), camel(name)
        self.variant = camel(owner) + camel(name)
        self.kind = f"MethodKind.{camel(owner)} {camel(owner)}Kind.{self.short}"
        self.row = f"(class.{camel(owner)} in_{owner}.{self.short})"

    @property
    def kept(self):
        return [argument for argument in self.arguments if not argument.reserved]

    @property
    def fields(self):
        return [name for argument in self.kept for name in argument.names]

    @property
    def takes_memory(self):
        return any(argument.kind in TAKING for argument in self.kept)

    @property
    def is_short(self):
        """Whether the class's function writes it itself: it has one argument."""
        return len(self.arguments) == 1

    @property
    def pattern(self):
        fields = ", ".join(self.fields)
        return f"Method91::{self.variant} {{ {fields} }}" if fields else f"Method91::{self.variant}"

    @property
    def any(self):
        return f"Method91::{self.variant} {{ .. }}" if self.fields else f"Method91::{self.variant}"

    @property
    def term(self):
        return f"(method.{self.variant} {' '.join(self.fields)})" if self.fields else f"method.{self.variant}"


def classes():
    """Name of the class to its methods, both in the order of their ids."""
    root = ElementTree.parse(DEFINITION).getroot()
    domains = {domain.get("name"): domain.get("type") for domain in root.iter("domain")}
    found = {}
    for group in sorted(root.iter("class"), key=lambda node: int(node.get("index"))):
        owner = group.get("name")
        rows = sorted(group.findall("method"), key=lambda node: int(node.get("index")))
        found[owner] = [Method(owner, node.get("name"), (int(group.get("index")), int(node.get("index"))),
                               arguments_of(node, domains))
                        for node in rows if f"{owner}.{node.get('name')}" not in LEFT_OUT]
    return found


def arguments_of(node, domains):
    found = []
    for field in node.findall("field"):
        domain = field.get("domain") or field.get("type")
        kind = {"bit": "bits", "table": "fields"}.get(domains.get(domain, domain), domains.get(domain, domain))
        name = snake(field.get("name"))
        reserved = field.get("reserved") is not None
        # Consecutive bits share an octet.
        if kind == "bits" and found and found[-1].kind == "bits" and found[-1].reserved == reserved:
            found[-1].names.append(RENAMED.get(name, name))
        else:
            found.append(Argument(kind, [RENAMED.get(name, name)], reserved))
    return found


# ---- the definitions


def kind_of(argument):
    kind = f"bits {len(argument.names)}" if argument.kind == "bits" else argument.kind
    if argument.reserved:
        return f"reserved ({kind})" if " " in kind else f"reserved {kind}"
    return kind


def value_of(argument):
    if argument.reserved:
        kind = f"(rows.bits {len(argument.names)})" if argument.kind == "bits" else f"rows.{argument.kind}"
        return f"arg.reserved {kind}"
    if argument.kind == "bits":
        return f"arg.bits ({list_of(argument.names)})"
    return f"arg.{argument.kind} {argument.name}"


def list_of(items):
    return " ∷ ".join([*items, "[]"])


def uses_of_kinds(found, types=True):
    lines = []
    for owner in found:
        if types:
            lines.append(f"use Rattle.methods_091.specs.declared.kind.{camel(owner)}Kind.{{{camel(owner)}Kind}}")
        lines.append(f"use Rattle.methods_091.specs.declared.kind.{camel(owner)}Kind.TheVariants as in_{owner}")
    return "\n".join(lines)


def rows_file(found):
    methods = [method for rows in found.values() for method in rows]
    rows = "\n".join(f"row {method.row} = ({method.ids[0]}, {method.ids[1]}, {list_of(map(kind_of, method.arguments))})"
                     for method in methods)
    lists = "\n\n".join(f"abbrev pub {owner}_kinds : List {camel(owner)}Kind\n{owner}_kinds = "
                        f"{list_of(f'in_{owner}.{method.short}' for method in rows)}" for owner, rows in found.items())
    finders = "\n\n".join(f"abbrev pub {owner}_with : ℕ → Option {camel(owner)}Kind\n{owner}_with id = "
                          f"first_with (λ k. id_of (class.{camel(owner)} k)) {owner}_kinds id" for owner in found)
    chain = "".join(f"if c == {rows[0].ids[0]} then option_map class.{camel(owner)} ({owner}_with id)\n    else "
                    for owner, rows in found.items())
    members = "\n\n".join(f"abbrev pub as_{owner} : MethodKind → Option {camel(owner)}Kind\n"
                          f"as_{owner} (class.{camel(owner)} k) = Some k\nas_{owner} k = None" for owner in found)
    return f"""-- {GENERATED}

-- The table of the methods (AMQP 0-9-1 1.3 to 1.8; basic.nack and the class confirm are additions of RabbitMQ): one line a method, with its class id, its method id, and the kinds of its arguments in order. Nothing here names a value of an argument.
use Rattle.std.specs.Prelude.{{◌==◌, if◌then◌else◌, ℕ, List, [], ◌∷◌, Option, Some, None, option_map}}
use Rattle.methods_091.specs.declared.kind.MethodKind.{{MethodKind}}
use Rattle.methods_091.specs.declared.kind.MethodKind.TheVariants as class
{uses_of_kinds(found)}

-- the kind of a method, under a name for other crates
abbrev pub Kind : Type 0
Kind = MethodKind

-- the kind of an argument (AMQP 0-9-1 4.2.5): a number of one, two, four or eight bytes, a text behind a length of one or four bytes, a table, so many flags in one octet, or a reserved argument of some kind
pub data ArgKind : Type 0 where
  octet : ArgKind
  short : ArgKind
  long : ArgKind
  longlong : ArgKind
  shortstr : ArgKind
  longstr : ArgKind
  fields : ArgKind
  bits : ℕ → ArgKind
  reserved : ArgKind → ArgKind

-- the class id, the method id, and the kinds of the arguments
abbrev pub row : MethodKind → ℕ × ℕ × List ArgKind
{rows}

-- the columns of the table
abbrev pub class_of : MethodKind → ℕ
class_of k = (row k).0

abbrev pub id_of : MethodKind → ℕ
id_of k = (row k).1

abbrev pub shape : MethodKind → List ArgKind
shape k = (row k).2

-- the methods of each class
{lists}

-- the first of some kinds with this id
abbrev pub first_with : {{K : Type 0}} → (K → ℕ) → List K → ℕ → Option K
first_with id_in [] id = None
first_with id_in (k ∷ ks) id = if id == id_in k then Some k else first_with id_in ks id

-- the method of a class that has this id
{finders}

-- the kind with this class id and this method id
abbrev pub kind_with : ℕ → ℕ → Option MethodKind
kind_with c id =
    {chain}None

-- the kind within a class, for a method of that class
{members}
"""


def view_file(found):
    methods = [method for rows in found.values() for method in rows]
    kinds = "\n".join(f"kind_of {method.term} = {method.row[1:-1]}" for method in methods)
    values = "\n".join(f"args_of {method.term} = {list_of(map(value_of, method.arguments))}" for method in methods)
    return f"""-- {GENERATED}

-- A method as its kind and its arguments.
use Rattle.std.specs.Prelude.{{List, [], ◌∷◌}}
use Rattle.methods_091.specs.Rows as rows
use Rattle.methods_091.specs.Arguments.{{Arg}}
use Rattle.methods_091.specs.Arguments as arg
use Rattle.methods_091.specs.declared.method.Method91.{{Method91}}
use Rattle.methods_091.specs.declared.method.Method91.TheVariants as method
use Rattle.methods_091.specs.declared.kind.MethodKind.{{MethodKind}}
use Rattle.methods_091.specs.declared.kind.MethodKind.TheVariants as class
{uses_of_kinds(found, types=False)}

-- the row of a method
abbrev pub kind_of : Method91 → MethodKind
{kinds}

-- the arguments of a method, in order
abbrev pub args_of : Method91 → List Arg
{values}

-- both
abbrev pub parts_of : Method91 → MethodKind × List Arg
parts_of m = (kind_of m, args_of m)
"""


# ---- the way back


def held(method):
    """The fields of a method, each from the argument at its place."""
    for place, argument in enumerate(method.arguments):
        if argument.reserved:
            continue
        if argument.kind == "bits":
            yield from (f"(flag xs {place} {bit})" for bit in range(len(argument.names)))
        else:
            holder = {"shortstr": "text", "longstr": "text", "fields": "entries"}.get(argument.kind, "number")
            yield f"({holder} xs {place})"


def rebuilding_file(found):
    methods = [method for rows in found.values() for method in rows]
    back = "\n".join(" ".join([f"rebuilt {method.row} xs = method.{method.variant}", *held(method)]) for method in methods)
    return f"""-- {GENERATED}

-- A method is what its kind and its arguments make it.
use Rattle.std.proofs.Common.{{◌≡◌, ℕ, Bool, false, List, [], get_or, refl, ap, sym, ◌∙◌}}
use Rattle.tables_091.specs.Tree.{{Tree}}
use Rattle.methods_091.specs.Arguments.{{Arg}}
use Rattle.methods_091.specs.Arguments as arg
use Rattle.methods_091.specs.View.{{kind_of, args_of, parts_of}}
use Rattle.methods_091.specs.declared.method.Method91.{{Method91}}
use Rattle.methods_091.specs.declared.method.Method91.TheVariants as method
use Rattle.methods_091.specs.declared.kind.MethodKind.{{MethodKind}}
use Rattle.methods_091.specs.declared.kind.MethodKind.TheVariants as class
{uses_of_kinds(found, types=False)}

-- what an argument holds

abbrev number_in : Arg → ℕ
number_in (arg.octet n) = n
number_in (arg.short n) = n
number_in (arg.long n) = n
number_in (arg.longlong n) = n
number_in a = 0

abbrev text_in : Arg → List ℕ
text_in (arg.shortstr s) = s
text_in (arg.longstr s) = s
text_in a = []

abbrev entries_in : Arg → List (List ℕ × Tree)
entries_in (arg.fields ms) = ms
entries_in a = []

abbrev flags_in : Arg → List Bool
flags_in (arg.bits bs) = bs
flags_in a = []

-- what the argument at a place holds

abbrev number : List Arg → ℕ → ℕ
number xs i = number_in (get_or xs i (arg.bits []))

abbrev text : List Arg → ℕ → List ℕ
text xs i = text_in (get_or xs i (arg.bits []))

abbrev entries : List Arg → ℕ → List (List ℕ × Tree)
entries xs i = entries_in (get_or xs i (arg.bits []))

abbrev flag : List Arg → ℕ → ℕ → Bool
flag xs i j = get_or (flags_in (get_or xs i (arg.bits []))) j false

-- the method of a kind with these arguments
abbrev rebuilt : MethodKind → List Arg → Method91
{back}

-- each method is rebuilt alike
rebuilt_is : (m : Method91) → rebuilt (kind_of m) (args_of m) ≡ m
rebuilt_is {methods[0].term} = refl
rebuilt_is m = refl

pub same_parts : (m n : Method91) → parts_of m ≡ parts_of n → m ≡ n
same_parts m n e = sym (rebuilt_is m) ∙ ap (λ (p : MethodKind × List Arg). rebuilt p.0 p.1) e ∙ rebuilt_is n
"""


# ---- the sources: methods and kinds


def variant_text(method):
    fields = [f"        {name}: {TYPES[argument.kind][0]}," for argument in method.kept for name in argument.names]
    body = "\n".join([" {", *fields, "    }"]) if fields else ""
    return f"    /// {method.full}\n    {method.variant}{body},"


def method_file(found):
    methods = [method for rows in found.values() for method in rows]
    variants = "\n".join(variant_text(method) for method in methods)
    tests = "\n".join(f"        if let Some(kind) = {owner}::kind(self) {{\n            return "
                      f"MethodKind::{camel(owner)}(kind);\n        }}" for owner in found)
    telling = [owner for owner, rows in found.items() if any(map(told, rows))]
    others = " | ".join(f"MethodKind::{camel(owner)}(_)" for owner in found if owner not in telling)
    tellers = "\n".join(f"            MethodKind::{camel(owner)}(_) => {owner}::tell_ranges(self)," for owner in telling)
    return f"""//! {GENERATED}
//!
//! The methods (AMQP 0-9-1 1.3 to 1.8, with the additions of RabbitMQ).

ghost use Rattle.std.specs.Prelude.{{◌≡◌}};
ghost use Rattle.methods_091.specs.Rows.{{class_of, id_of}};
ghost use Rattle.methods_091.specs.View.{{kind_of}};
ghost use Rattle.methods_091.specs.Writing.{{HasRanges}};

use crate::kind::MethodKind;
use crate::{{{", ".join(sorted(found))}}};
use tables_091::Table;
use wire_base::ByteText;

/// A method and its arguments, in the order of the wire. Reserved arguments are no fields: what
/// stands there is dropped when a method is read, and is zero or empty when one is written.
///
/// A text that is written has at most 255 bytes where it is a short string, and fewer than 2^32
/// where it is a long one. The long strings are the mechanisms, locales, challenges and responses
/// of the class connection.
#[derive(Debug, Drop)]
pub enum Method91 {{
{variants}
}}

/// The class id and the method id of a method.
pub fn ids(method: &Method91) -> (u16, u16)
    ensures {{ result ≡ (class_of (kind_of method.now), id_of (kind_of method.now)) }}
{{
    method.kind().ids()
}}

impl Method91 {{
    /// The kind of a method.
    #[tactic(auto, using(crate::proofs::KindLaws::some_class))]
    pub(crate) fn kind(&self) -> MethodKind
        ensures {{ result ≡ kind_of self.now }}
    {{
{tests}
        unreachable!()
    }}

    /// Tells proofs that the numbers of a method are of their types. The call does nothing.
    #[tactic(auto, using(crate::proofs::Written::confirm_told, crate::proofs::Written::tx_told))]
    pub fn tell_ranges(&self)
        ensures {{ HasRanges self.now }}
    {{
        match self.kind() {{
{tellers}
            {others} => {{}}
        }}
    }}
}}
"""


def kinds_text(owner, rows):
    variants = "\n".join(f"    {method.short}," for method in rows)
    return f"""/// The methods of the class {owner}.
#[derive(Clone, Copy)]
pub(crate) enum {camel(owner)}Kind {{
{variants}
}}"""


def finder_text(owner, rows):
    arms = "\n".join(f"        {method.ids[1]} => Some({camel(owner)}Kind::{method.short})," for method in rows)
    return f"""fn {owner}_kind(id: u16) -> Option<{camel(owner)}Kind>
    ensures {{ result ≡ {owner}_with id }}
{{
    match id {{
{arms}
        _ => None,
    }}
}}"""


def ids_text(owner, rows):
    arms = "\n".join(f"        {camel(owner)}Kind::{method.short} => {method.ids}," for method in rows)
    return f"""fn {owner}_ids(kind: {camel(owner)}Kind) -> (u16, u16)
    ensures {{ result ≡ (class_of (MethodKind.{camel(owner)} kind),
        id_of (MethodKind.{camel(owner)} kind)) }}
{{
    match kind {{
{arms}
    }}
}}"""


def kind_file(found):
    withs = ", ".join(f"{owner}_with" for owner in found)
    classes_text = "\n".join(f"    {camel(owner)}({camel(owner)}Kind)," for owner in found)
    arms = "\n".join(f"        {rows[0].ids[0]} => MethodKind::{camel(owner)}({owner}_kind(id)?),"
                     for owner, rows in found.items())
    ids = "\n".join(f"            MethodKind::{camel(owner)}(kind) => {owner}_ids(kind)," for owner in found)
    blocks = [kinds_text(*entry) for entry in found.items()] + [finder_text(*entry) for entry in found.items()]
    blocks += [ids_text(*entry) for entry in found.items()]
    return f"""//! {GENERATED}
//!
//! The kinds of methods, and their ids.

ghost use Rattle.std.specs.Prelude.{{◌≡◌}};
ghost use Rattle.methods_091.specs.Rows.{{class_of, id_of, {withs}, kind_with}};

/// The kind of a method, by its class.
#[derive(Clone, Copy)]
pub(crate) enum MethodKind {{
{classes_text}
}}

""" + "\n\n".join(blocks) + f"""

/// The kind with these ids; `None` where no method has them.
pub(crate) fn kind_at(class: u16, id: u16) -> Option<MethodKind>
    ensures {{ result ≡ kind_with class id }}
{{
    let kind = match class {{
{arms}
        _ => return None,
    }};
    Some(kind)
}}

impl MethodKind {{
    /// The class id and the method id.
    pub(crate) fn ids(self) -> (u16, u16)
        ensures {{ result ≡ (class_of self, id_of self) }}
    {{
        match self {{
{ids}
        }}
    }}
}}
"""


# ---- the sources: a class


def of_class_text(owner, rows):
    arms = "\n".join(f"        {method.any} => Some({camel(owner)}Kind::{method.short})," for method in rows)
    return f"""/// The kind of a method of the class; `None` where it is of another.
pub(crate) fn kind(method: &Method91) -> Option<{camel(owner)}Kind>
    ensures {{ result ≡ as_{owner} (kind_of method.now) }}
{{
    match method {{
{arms}
        _ => None,
    }}
}}"""


def reader_text(method):
    lines, bytes_name = [], "bytes"
    for argument in method.arguments:
        _, reader, passing, _, _ = TYPES[argument.kind]
        if argument.reserved:
            lines.append(f"    let (_, rest) = {passing}(end, {bytes_name})?;")
        else:
            name = "flags" if argument.kind == "bits" else argument.name
            alloc = "alloc, " if argument.kind in TAKING else ""
            lines.append(f"    let ({name}, rest) = {reader}({alloc}end, {bytes_name})?;")
        bytes_name = "rest"
    fields = []
    for argument in method.kept:
        if argument.kind == "bits":
            fields += [f"{name}: bit(flags, {place})" for place, name in enumerate(argument.names)]
        else:
            fields.append(argument.name)
    if fields:
        lines.append(f"    let method = Method91::{method.variant} {{ {', '.join(fields)} }};\n    Ok((method, rest))")
    else:
        lines.append(f"    Ok((Method91::{method.variant}, rest))")
    body = "\n".join(lines)
    alloc = "alloc: Global, " if method.takes_memory else ""
    return f"""/// The arguments of {method.full}.
fn {method.rust}_in({alloc}end: usize, bytes: &[u8]) -> Result<(Method91, &[u8]), Stop<usize>>
    ensures {{ Gives (λ x. (parts_of x.0, x.1.now)) result
        (row_in ({method.kind}) end bytes.now) }}
{{
{body}
}}"""


def writes(argument):
    _, _, _, writer, blank = TYPES[argument.kind]
    if argument.reserved:
        return f"{blank}(out, 0)"
    if argument.kind == "bits":
        flags = ", ".join(f"*{name}" for name in argument.names)
        return f"put_u8(out, octet_of_{len(argument.names)}({flags}))"
    return f"{writer}(out, {'*' if argument.kind in NUMBERS else ''}{argument.name})"


def calls_of(arguments):
    """What writes them in turn. In a long row two that stand together are one call, which keeps its proof short."""
    calls, rest = [], arguments
    while rest:
        writer = PAIRS.get(tuple(argument.kind for argument in rest[:2])) if len(arguments) > 4 else None
        count = 2 if writer else 1
        written = [writes(argument) for argument in rest[:count]]
        given = ", ".join(call.split("(out, ", 1)[1][:-1] for call in written)
        calls.append(f"{writer}(out, {given})" if writer else written[0])
        rest = rest[count:]
    return calls


WRITES = """    ensures ok { OnOk result (out.new ≡ out.old ++ args_text (args_of method.now)) }
    ensures err { OnErr result (take (length out.old) out.new ≡ out.old) }"""


def writer_text(method):
    *first, last = calls_of(method.arguments)
    body = "\n".join([f"    {call}?;" for call in first] + [f"    {last}"])
    can = "    requires can { CanPut method.now }\n" if method.takes_memory else ""
    return f"""/// Writes the arguments of {method.full}.
fn put_{method.rust}(out: &mut ByteText, method: &Method91) -> Result<(), Memory>
    requires kind {{ kind_of method.now ≡ {method.kind} }}
{can}{WRITES}
{{
    let {method.pattern} = method else {{ unreachable!() }};
{body}
}}"""


def class_reader_text(owner, rows):
    alloc = any(method.takes_memory for method in rows)
    reads = any(method.arguments for method in rows)
    arms = []
    for method in rows:
        given = ("alloc, " if method.takes_memory else "") + "end, bytes"
        call = f"{method.rust}_in({given})" if method.arguments else f"Ok((Method91::{method.variant}, bytes))"
        arms.append(f"        {camel(owner)}Kind::{method.short} => {call},")
    head = ("alloc: Global, " if alloc else "") + f"kind: {camel(owner)}Kind, end: usize, bytes: &[u8]"
    body = "\n".join(arms)
    if not reads:
        return class_of_none_text(owner, rows)
    return f"""/// The arguments of a method of the class.
pub(crate) fn method_in({head}) -> Result<(Method91, &[u8]), Stop<usize>>
    ensures {{ Gives (λ x. (parts_of x.0, x.1.now)) result
        (row_in (MethodKind.{camel(owner)} kind) end bytes.now) }}
{{
    match kind {{
{body}
    }}
}}"""


def class_of_none_text(owner, rows):
    arms = "\n".join(f"        {camel(owner)}Kind::{method.short} => Method91::{method.variant}," for method in rows)
    return f"""/// A method of the class, none of which has arguments.
pub(crate) fn method_of(kind: {camel(owner)}Kind) -> Method91
    ensures {{ parts_of result ≡ (MethodKind.{camel(owner)} kind, []) }}
{{
    match kind {{
{arms}
    }}
}}"""


def class_writer_text(owner, rows):
    arms = [f"        {method.pattern} => {writes(*method.arguments)}," if method.is_short else
            f"        {method.any} => put_{method.rust}(out, method)," for method in rows if method.arguments]
    empty = " | ".join(method.pattern for method in rows if not method.arguments)
    arms += [f"        {empty} => Ok(()),"] if empty else []
    can = "    requires can { CanPut method.now }\n" if any(method.takes_memory for method in rows) else ""
    body = "\n".join(arms)
    return f"""/// Writes the arguments of a method of the class.
pub(crate) fn put_arguments(out: &mut ByteText, method: &Method91) -> Result<(), Memory>
    requires class {{ as_{owner} (kind_of method.now) ≢ None }}
{can}{WRITES}
{{
    match method {{
{body}
        _ => unreachable!(),
    }}
}}"""


def told(method):
    """What tells the ranges of a method: its numbers, and its tables."""
    numbers = [argument.name for argument in method.kept if argument.kind in NUMBERS]
    tables = [argument.name for argument in method.kept if argument.kind == "fields"]
    return (tuple(numbers), tuple(tables)) if numbers or tables else None


def teller_text(owner, rows):
    groups = {}
    for method in rows:
        if key := told(method):
            groups.setdefault(key, []).append(method)
    arms = []
    for (numbers, tables), methods in groups.items():
        names = [name for name in methods[0].fields if name in numbers + tables]
        patterns = []
        for method in methods:
            rest = [] if len(names) == len(method.fields) else [".."]
            patterns.append(f"Method91::{method.variant} {{ {', '.join(names + rest)} }}")
        known = ", ".join(f"*{name}" for name in numbers)
        known = f"let _known = {f'({known})' if len(numbers) > 1 else known};" if numbers else ""
        calls = " ".join(f"{name}.tell_ranges();" for name in tables)
        body = f"{tables[0]}.tell_ranges()," if tables and not numbers else f"{{ {known} {calls} }}"
        arms.append(f"        {' | '.join(patterns)} => {body}")
    if not arms:
        return None
    body = "\n".join(arms)
    return f"""/// Tells proofs that the numbers of a method of the class are of their types. The call does nothing.
pub(crate) fn tell_ranges(method: &Method91)
    ensures {{ (kind : {camel(owner)}Kind) → kind_of method.now ≡ MethodKind.{camel(owner)} kind
        → HasRanges method.now }}
{{
    match method {{
{body}
        _ => {{}}
    }}
}}"""


def stands_in(name, body):
    """Whether a body uses a name, or an operator, which stands between blanks."""
    if "◌" in name:
        return f" {name.strip('◌')} " in body
    return re.search(rf"(?<!\w){re.escape(name)}(?!\w)", body) is not None


def named(module, names, body, ghost=False):
    """The import of those of the names that the body uses."""
    used = [name for name in names if stands_in(name, body)]
    if not used:
        return ""
    many = f"{{{', '.join(used)}}}" if len(used) > 1 or ghost else used[0]
    return f"{'ghost ' if ghost else ''}use {module}{'.' if ghost else '::'}{many};\n"


def class_file(owner, rows):
    given = [method for method in rows if method.arguments]
    blocks = [of_class_text(owner, rows)] + [reader_text(method) for method in given]
    blocks.append(class_reader_text(owner, rows))
    if given:
        blocks += [writer_text(method) for method in given if not method.is_short]
        blocks.append(class_writer_text(owner, rows))
    if teller := teller_text(owner, rows):
        blocks.append(teller)
    body = "\n\n".join(blocks)
    specs = "Rattle.methods_091.specs"
    ghosts = [("Rattle.std.specs.Prelude", ["◌≡◌", "◌≢◌", "[]", "◌++◌", "length", "take", "None", "OnOk", "OnErr"]),
              ("Rattle.wire_base.specs.Reading", ["Gives"]),
              (f"{specs}.Rows", [f"as_{owner}"]),
              (f"{specs}.View", ["kind_of", "args_of", "parts_of"]),
              (f"{specs}.Reading", ["row_in"]),
              (f"{specs}.Writing", ["args_text", "CanPut", "HasRanges"])]
    uses = [("crate::arguments", ["bit", "longstr_in", *(f"octet_of_{n}" for n in range(1, 6)), "put_longstr",
                                  "put_longstrs", "put_shortstr", "put_tag", "put_version", "shortstr_in"]),
            ("crate::kind", sorted([f"{camel(owner)}Kind", "MethodKind"])),
            ("crate::method", ["Method91"]),
            ("std::alloc", ["Global"]),
            ("tables_091", ["Table", "next_table", "put_table"]),
            ("wire_base", ["ByteText", "Memory", "Stop", "long_in", "put_u8", "put_u16", "put_u32", "put_u64", "short_in",
                           "u8_in", "u16_in", "u32_in", "u64_in"])]
    ghost_lines = "".join(named(module, names, body, ghost=True) for module, names in ghosts)
    use_lines = "".join(named(module, names, body) for module, names in uses)
    return f"""//! {GENERATED}
//!
//! {HEADS[owner]}

{ghost_lines}
{use_lines}
{body}
"""


def files_of(found):
    files = {"specs/Rows.antt": rows_file(found), "specs/View.antt": view_file(found),
             "proofs/Rebuilding.antt": rebuilding_file(found),
             "src/method.rt": method_file(found), "src/kind.rt": kind_file(found)}
    for owner, rows in found.items():
        files[f"src/{owner}.rt"] = class_file(owner, rows)
    return files


if __name__ == "__main__":
    sys.exit(run(CRATE, files_of(classes())))
