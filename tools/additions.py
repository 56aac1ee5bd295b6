#!/usr/bin/env python3
"""Writes the tables of the profile's grammar with one construct added, from grammar.txt and additions.txt.

The prover checks every entry (crates/py_constructs/proofs/TableSets.antt), so nothing here is trusted.

    tools/additions.py        writes crates/py_constructs/specs/Table.antt, and for the code in crates/py_outside
                              src/symbol.rt, kind_numbers.rt, name_numbers.rt, rows.rt, added.rt, the files of rows that these
                              two name and three of sights, and specs/PlainSymbols.antt and RowNumbers.antt; `rt fmt` brings
                              them into form
"""

import re
import sys

import table
from table import END_NUMBER, HERE, KINDS, constant_name, kind_constant, number_of, pascal

CONSTRUCTS = {}


def read_rows(right):
    rows = []
    for alternative in re.split(r" \| ", right.strip()):
        guard, symbols = None, []
        for word in alternative.split():
            if word == "-":
                continue
            if word.startswith("?"):
                guard = word[1:]
            elif word.startswith("!"):
                symbols.append(("do", word[1:]))
            elif word.startswith("'"):
                symbols.append(("tok", word[1:-1]))
            else:
                symbols.append(("tok" if word in KINDS else "non", word))
        rows.append((guard, symbols))
    return rows


def read_additions():
    """The profile's rows that stand here anew, the places, the rows added by construct and nonterminal, and which targets become more."""
    text = "\n".join(line for line in (HERE / "additions.txt").read_text().splitlines() if not line.startswith("#"))
    part, own, places, added, widenings = None, {}, {}, {}, {}
    for line in re.sub(r"\n +", " ", text).splitlines():
        if line.startswith("=="):
            part = line[3:].strip()
        elif line.strip():
            left, right = line.split(": ", 1)
            if part == "additions":
                construct, nonterminal = left.split()
                added.setdefault(construct, {}).setdefault(nonterminal, []).extend(read_rows(right))
            elif part == "widenings":
                widenings[left] = right.strip()
            else:
                {"own": own, "places": places}[part][left] = read_rows(right)
    return own, places, added, widenings


class Grammar:
    def __init__(self):
        self.profile = table.read_grammar()
        self.own, self.places, self.added, self.widenings = read_additions()
        self.names = list(self.profile) + list(self.places)
        self.rows = {x: self.own.get(x) or self.places.get(x) or self.profile[x] for x in self.names}
        for rows in self.with_all().values():
            for _, symbols in rows:
                for sort, text in symbols:
                    assert sort != "non" or text in self.rows, text

    def with_added(self, construct):
        return {x: rows + self.added.get(construct, {}).get(x, []) for x, rows in self.rows.items()}

    def with_all(self):
        return {x: rows + [r for a in self.added.values() for r in a.get(x, [])] for x, rows in self.rows.items()}

    def sets(self):
        """Sets that hold with any construct, each of which one token of sight decides with them."""
        nullable, first, follow, _, begins = table.sets_of(self.with_all(), quiet=True)
        for construct in self.added:
            for x, rows in self.with_added(construct).items():
                taken = {}
                for i, (_, symbols) in enumerate(rows):
                    for s in begins(symbols, follow[x]):
                        if s in taken:
                            print(f"conflict with {construct} in {x} at {s}: rows {taken[s]} and {i}", file=sys.stderr)
                        taken[s] = i
        rank = table.sets_of(self.rows, quiet=True)[3]
        return nullable, first, follow, rank, begins


def construct_names():
    """Each construct's name in the definitions, by what is printed."""
    text = (HERE.parent / "crates/py_constructs/specs/Construct.antt").read_text()
    return {printed: name for name, printed in re.findall(r'construct_text (\w+) = codes "([\w-]+)"', text)}


def antt_symbol(grammar, symbol):
    sort, text = symbol
    if sort == "tok":
        return f"Tok {number_of(text)}"
    if sort == "non":
        return f"Non (Profile t.{text})" if text in grammar.profile else f"Non {text}"
    if text in OWN_ACTIONS:
        return f"Do {text}"
    m = re.match(r"(\w+)\((\w+)\)", text)
    return f"Do (Own (b.{m.group(1)} {m.group(2)}))" if m else f"Do (Own b.{text})"


def antt_row(grammar, row):
    guard, symbols = row
    listed = " ∷ ".join([antt_symbol(grammar, s) for s in symbols] + ["[]"])
    shown = listed if listed == "[]" else f"({listed})"
    if guard is None:
        return f"row {shown}"
    return f"guarded ({guard} w) {shown}" if guard.endswith("_with") else f"guarded {guard} {shown}"


def antt_rows(grammar, rows):
    return " ∷ ".join([antt_row(grammar, r) for r in rows] + ["[]"])


def write_antt(grammar):
    nullable, first, follow, rank, _ = grammar.sets()
    names = construct_names()
    assert list(names) == list(grammar.added), (set(names) ^ set(grammar.added), list(names), list(grammar.added))
    guards = sorted({g for rows in grammar.with_all().values() for g, _ in rows if g})
    anew = [*grammar.own.values(), *grammar.places.values(), *(rows for by in grammar.added.values() for rows in by.values())]
    arguments = sorted({m.group(1) for rows in anew for _, symbols in rows for s, t in symbols if s == "do" for m in [re.match(r"\w+\((\w+)\)", t)] if m})
    own = [x for x in grammar.own]
    out = [f"""-- The profile's grammar with one construct added, as a table: the profile's rows, with a name for each place where a construct may
-- come, and the rows that each construct adds. The sets by which one token of sight decides hold with any of them.
-- `tools/additions.py` writes this file from `tools/grammar.txt` and `tools/additions.txt`.
use Rattle.std.specs.Prelude.{{ℕ, Bool, true, false, ◌==◌, if◌then◌else◌, List, [], ◌∷◌, ◌++◌, map, Some, None}}
use Rattle.grammars.specs.Grammar.{{Sym, Tok, Non, Do, Always, Where, Row, Grammar, Sight}}
use Rattle.grammars.specs.Sets.{{Sets}}
use Rattle.py_syntax.specs.Token.{{Token}}
use Rattle.py_syntax.specs.Kinds.{{kind_of, specimen}}
use Rattle.py_syntax.specs.Tree.{{{", ".join(arguments)}}}
use Rattle.py_syntax.specs.Build as b
use Rattle.py_syntax.specs.Table as t
use Rattle.py_constructs.specs.Construct as c
use Rattle.py_constructs.specs.Values.{{Value, take_in, Action, Own, {", ".join(OWN_ACTIONS)}, act, Widening, NoWidening, {", ".join([*sorted(set(grammar.widenings.values())), *guards])}}}

pub data Name : Type 0 where
  Profile : (nonterminal : t.Nonterminal) → Name
"""]
    out += [f"  {x} : Name\n" for x in grammar.places]
    out.append("""
abbrev pub Symbol : Type 0
Symbol = Sym Name Action

abbrev pub row : List Symbol → Row Name Action Value
row symbols = record { guard = Always; symbols = symbols }

abbrev pub guarded : (Value → Bool) → List Symbol → Row Name Action Value
guarded test symbols = record { guard = Where test; symbols = symbols }

abbrev pub profile_symbol : t.Symbol → Symbol
profile_symbol (Tok k) = Tok k
profile_symbol (Non x) = Non (Profile x)
profile_symbol (Do a) = Do (Own a)

-- rows of the profile's table, of which none of these has a guard
abbrev pub profile_rows : List (Row t.Nonterminal b.Action b.Parts) → List (Row Name Action Value)
profile_rows [] = []
profile_rows (r ∷ rows) = row (map profile_symbol r.symbols) ∷ profile_rows rows

-- by what else targets may be
abbrev pub rows_between : Widening → t.Nonterminal → List (Row Name Action Value)
""")
    for x in own:
        lines = [antt_row(grammar, r) for r in grammar.own[x]] + ["[]"]
        out.append(f"rows_between w t.{x} =\n    " + "\n    ∷ ".join(lines) + "\n")
    out.append("rows_between w x = profile_rows (t.rows x)\n\nabbrev pub rows_of : Widening → Name → List (Row Name Action Value)\nrows_of w (Profile x) = rows_between w x\n")
    for x, rows in grammar.places.items():
        lines = [antt_row(grammar, r) for r in rows] + ["[]"]
        out.append(f"rows_of w {x} =\n    " + "\n    ∷ ".join(lines) + "\n")
    out.append("\n-- numbers tell names apart\nabbrev pub number_of : Name → ℕ\n")
    numbers = {x: i for i, x in enumerate(grammar.names)}
    out += [f"number_of {'(Profile t.' + x + ')' if x in grammar.profile else x} = {i}\n" for x, i in numbers.items()]
    out.append("\nabbrev pub names : List Name\nnames =\n    " + " ∷ ".join([f"Profile t.{x}" if x in grammar.profile else x for x in grammar.names] + ["[]"]) + "\n")
    out.append("""
pub data Addition : Type 0 where
  to : (name : Name) → (rows : List (Row Name Action Value)) → Addition
  -- more may be targets
  widened : (by : Widening) → Addition

-- what each construct adds
abbrev pub additions : c.Construct → List Addition
""")
    for printed, by in grammar.added.items():
        lines = []
        if printed in grammar.widenings:
            lines.append(f"widened {grammar.widenings[printed]}")
        for x, rows in by.items():
            name = f"(Profile t.{x})" if x in grammar.profile else x
            lines.append(f"to {name} ({antt_rows(grammar, rows)})")
        out.append(f"additions c.{names[printed]} =\n    " + "\n    ∷ ".join(lines + ["[]"]) + "\n")
    out.append("""
abbrev pub added_to : ℕ → List Addition → List (Row Name Action Value)
added_to n [] = []
added_to n (to x rows ∷ more) = if number_of x == n then rows ++ added_to n more else added_to n more
added_to n (widened w ∷ more) = added_to n more

abbrev pub widening_of : List Addition → Widening
widening_of [] = NoWidening
widening_of (to x rows ∷ more) = widening_of more
widening_of (widened w ∷ more) = w

abbrev pub rows_with : List Addition → Name → List (Row Name Action Value)
rows_with more x = rows_of (widening_of more) x ++ added_to (number_of x) more

-- with these additions
abbrev pub grammar_with : List Addition → Grammar Name Action Token Value
grammar_with more = record { kind = kind_of; take_in = take_in; act = act; rows = rows_with more }

-- the profile's grammar with this construct added
abbrev pub extended : c.Construct → Grammar Name Action Token Value
extended construct = grammar_with (additions construct)

abbrev pub goal : List Symbol
goal = Do (Own b.BeginBody) ∷ Non (Profile t.Module) ∷ []

abbrev pub nullable : Name → Bool
""")
    shown = lambda x: f"(Profile t.{x})" if x in grammar.profile else x
    out += [f"nullable {shown(x)} = {'true' if nullable[x] else 'false'}\n" for x in grammar.names]
    out.append("\nabbrev pub first : Name → List Sight\n")
    out += [f"first {shown(x)} = {table.sights(first[x])}\n" for x in grammar.names]
    out.append("\nabbrev pub follow : Name → List Sight\n")
    out += [f"follow {shown(x)} = {table.sights(follow[x])}\n" for x in grammar.names]
    out.append("\nabbrev pub rank : Name → ℕ\n")
    out += [f"rank {shown(x)} = {rank[x]}\n" for x in grammar.names]
    out.append("""
abbrev pub sets : Sets Name Token
sets = record { nullable = nullable; first = first; follow = follow; rank = rank; specimen = specimen }
""")
    (HERE.parent / "crates/py_constructs/specs/Table.antt").write_text("".join(out))


HEADER = "`tools/additions.py` writes this file from `tools/grammar.txt` and `tools/additions.txt`."
GUARDS = ["is_name", "is_target", "are_targets", "is_annotable", "is_deleted", "is_bare", "is_first_argument", "may_be_targets"]
WIDE_GUARDS = ["is_target_with", "are_targets_with"]
OWN_ACTIONS = {
    "Head": "The last token is the construct's head.",
    "Hold": "The last token on the stack is the head, if another token comes.",
    "Forget": "Drops the last item.",
    "Plain": "The last expression is no target.",
    "TellTargets": "The last token tells the head of the targets before it.",
    "TellLoop": "The last token tells that the first bracket of the loop is the head, or one round the loop that may be a target.",
    "HoldSlice": "The last slice is the head, if another token comes.",
}

# The code's files of rows: each goes from a name to the next one's.
ROW_FILES = [
    ("place_rows", "places where a construct may come", "NamedExpression"),
    ("argument_rows", "what literals, decorators, parameters and arguments that are added are made of", "MoreBytes"),
    ("target_rows", "what annotations, targets and bases that are added are made of", "AnnotatedDefault"),
    ("statement_rows", "what other constructs are made of", "Step"),
]
ADDED_FILES = [
    ("added_literals", "literals, operators, definitions and arguments", "float"),
    ("added_members", "annotations, attributes and bases of classes", "annotation"),
    ("added_statements", "slices, blocks and other statements", "slice-step"),
    ("added_parts", "comprehensions, imports and targets", "generator-expression"),
]


def chunks(names, files):
    """The names of each file, which goes from its first to the next file's."""
    starts = [names.index(first) for _, _, first in files] + [len(names)]
    return [(module, title, names[a:b]) for (module, title, _), a, b in zip(files, starts, starts[1:])]


def rust_name(grammar, x):
    return f"Profile({x})" if x in grammar.profile else x


def rust_symbol(grammar, symbol):
    sort, text = symbol
    if sort == "tok":
        return f"Read({kind_constant(text)})"
    if sort == "non":
        return f"Expand({rust_name(grammar, text)})"
    if text in OWN_ACTIONS:
        return f"Do({text})"
    name, argument = table.with_argument(text)
    return f"Do(Own({name}({table.argument_type(name)}::{argument})))" if argument else f"Do(Own({name}))"


def rust_row(grammar, row):
    guard, symbols = row
    return f"Row {{ guard: Guard::{pascal(guard) if guard else 'Always'}, symbols: &[{', '.join(rust_symbol(grammar, s) for s in symbols)}] }}"


def rust_uses(grammar, text, others):
    """What a file of rows imports."""
    words = set(re.findall(r"\w+", re.sub(r"\w+::\w+|const \w+|//.*", "", text)))
    kinds = {kind_constant(t) for rows in grammar.with_all().values() for _, symbols in rows for sort, t in symbols if sort == "tok"}
    profile_actions = {a for a, _ in table.all_actions()}
    uses = [
        ("crate::kind_numbers", sorted(words & kinds)),
        ("crate::symbol::Action", sorted(words & {"Own", *OWN_ACTIONS})),
        ("crate::symbol::Name", sorted(words & {"Profile", *grammar.places})),
        ("crate::symbol::Symbol", sorted(words & {"Do", "Expand", "Read"})),
        ("crate::symbol", ["Guard", "Row"]),
        *others,
        ("py_ast", sorted(set(re.findall(r"\b(\w+Operator)::", text)))),
        ("py_table::symbol::Action", sorted(words & profile_actions)),
        ("py_table::symbol::Nonterminal", sorted(words & set(grammar.profile))),
    ]
    return "".join(f"use {path}::{{{', '.join(names)}}};\n" for path, names in uses if names)


def write_symbols(grammar, source):
    shown = ["//! What rows are made of. " + HEADER + "\n\nuse py_table::symbol as profile;\nuse py_table::symbol::Nonterminal;\n"]
    shown.append("""
/// What symbols stand for: the profile's nonterminals, places where a construct may come, and what constructs are made of.
#[derive(Clone, Copy, Debug, PartialEq, Eq)]
pub enum Name {
    Profile(Nonterminal),
""")
    shown += [f"    {x},\n" for x in grammar.places]
    shown.append("""}

/// What is done between symbols.
#[derive(Clone, Copy, Debug, PartialEq, Eq)]
pub enum Action {
    Own(profile::Action),
""")
    shown += [f"    /// {text}\n    {a},\n" for a, text in OWN_ACTIONS.items()]
    shown.append("""}

/// When a row may be taken, by the last items.
#[derive(Clone, Copy, Debug, PartialEq, Eq)]
pub enum Guard {
    Always,
""")
    shown += [f"    {pascal(g)},\n" for g in GUARDS + WIDE_GUARDS]
    shown.append("""}

#[derive(Clone, Copy, Debug, PartialEq, Eq)]
pub enum Symbol {
    /// A token whose kind has this number.
    Read(u8),
    Expand(Name),
    Do(Action),
}

/// What may take the place of a name.
#[derive(Clone, Copy, Debug)]
pub struct Row {
    pub guard: Guard,
    pub symbols: &'static [Symbol],
}

/// A row that is taken: one of the profile's, none of which here has a guard, or another.
#[derive(Clone, Copy, Debug)]
pub enum Taken {
    Profile(&'static profile::Row),
    Own(&'static Row),
}

/// The rows of a name.
#[derive(Clone, Copy, Debug)]
pub(crate) enum Rows {
    Profile(&'static [profile::Row]),
    Own(&'static [Row]),
}

/// A row that a construct adds to a name, and the numbers of the sights that take it.
#[derive(Clone, Copy, Debug)]
pub(crate) struct AddedRow {
    pub(crate) name: Name,
    pub(crate) sights: &'static [u8],
    pub(crate) row: Row,
}
""")
    (source / "symbol.rt").write_text("".join(shown))


def write_kinds(grammar, source):
    rows = [*grammar.own.values(), *grammar.places.values(), *(r for by in grammar.added.values() for r in by.values())]
    kinds = sorted({t for those in rows for _, symbols in those for sort, t in symbols if sort == "tok"}, key=number_of)
    out = [f"//! Numbers of the kinds of tokens that rows read. {HEADER}\n\n"]
    out += [f"pub(crate) const {kind_constant(t)}: u8 = {number_of(t)};\n" for t in kinds]
    (source / "kind_numbers.rt").write_text("".join(out))


def write_rows(grammar, source):
    places = {}
    files = [("changed_rows", "the profile's nonterminals at which a place for a construct stands", list(grammar.own))]
    for module, title, names in files + chunks(list(grammar.places), ROW_FILES):
        places.update({x: module for x in names})
        body = []
        for x in names:
            rows = grammar.own.get(x) or grammar.places[x]
            body.append(f"\npub(crate) const {constant_name(x)}_ROWS: &[Row] = &[{', '.join(rust_row(grammar, r) for r in rows)}];\n")
        text = "".join(body)
        (source / f"{module}.rt").write_text(f"//! The rows of {title}. {HEADER}\n\n" + rust_uses(grammar, text, []) + text)
    out = [f"""//! The rows of each name, with no construct added. {HEADER}

ghost use Rattle.std.specs.Prelude.{{◌≡◌}};
ghost use Rattle.py_constructs.specs.Table.{{rows_of as rows_of_name, rows_between}};
ghost use Rattle.py_constructs.specs.Values.{{Widening}};
ghost use Rattle.py_table.specs.PlainSymbols.{{plain_nonterminal}};
ghost use Rattle.py_outside.specs.PlainSymbols.{{plain_name, plain_rows}};

use crate::symbol::{{Name, Rows}};
use crate::{{{', '.join(sorted(set(places.values())))}}};
use py_table::rows;
use py_table::symbol::Nonterminal;

/// The rows of one of the profile's nonterminals.
fn rows_of_nonterminal(nonterminal: Nonterminal) -> Rows
    ensures {{ (w : Widening) → plain_rows w result ≡ rows_between w (plain_nonterminal nonterminal) }}
{{
    match nonterminal {{
"""]
    out += [f"        Nonterminal::{x} => Rows::Own({places[x]}::{constant_name(x)}_ROWS),\n" for x in grammar.own]
    same = [x for x in grammar.profile if x not in grammar.own]
    out.append("        " + " | ".join(f"Nonterminal::{x}" for x in same) + " => Rows::Profile(rows::rows_of(nonterminal)),\n")
    out.append("""    }
}

/// The rows of a name.
pub(crate) fn rows_of(name: Name) -> Rows
    ensures { (w : Widening) → plain_rows w result ≡ rows_of_name w (plain_name name) }
{
    match name {
        Name::Profile(nonterminal) => rows_of_nonterminal(nonterminal),
""")
    out += [f"        Name::{x} => Rows::Own({places[x]}::{constant_name(x)}_ROWS),\n" for x in grammar.places]
    out.append("    }\n}\n")
    (source / "rows.rt").write_text("".join(out))


def sights_ahead(grammar, symbols, nullable, first, follow):
    """The numbers of the sights at which symbols may begin, in the order of the definition `ahead`."""
    shown = lambda sights: [END_NUMBER if s == table.END else s for s in sorted(sights)]
    if not symbols:
        return shown(follow)
    (sort, text), more = symbols[0], symbols[1:]
    if sort == "tok":
        return [number_of(text)]
    if sort == "do":
        return sights_ahead(grammar, more, nullable, first, follow)
    return shown(first[text]) + (sights_ahead(grammar, more, nullable, first, follow) if nullable[text] else [])


def write_added(grammar, source, nullable, first, follow):
    names = construct_names()
    places = {}
    for module, title, printed in chunks(list(grammar.added), ADDED_FILES):
        places.update({c: module for c in printed})
        body = []
        for c in printed:
            rows = [
                f"AddedRow {{ name: {rust_name(grammar, x)}, sights: &{sights_ahead(grammar, r[1], nullable, first, follow[x])}, row: {rust_row(grammar, r)} }}"
                for x, rows in grammar.added[c].items()
                for r in rows
            ]
            body.append(f"\npub(crate) const {constant_name(names[c])}_ROWS: &[AddedRow] = &[{', '.join(rows)}];\n")
        text = "".join(body)
        (source / f"{module}.rt").write_text(f"//! The rows that are added by constructs: {title}. {HEADER}\n\n" + rust_uses(grammar, text, [("crate::symbol", ["AddedRow"])]) + text)
    out = [f"""//! The rows that each construct adds. {HEADER}

ghost use Rattle.std.specs.Prelude.{{◌≡◌, map}};
ghost use Rattle.py_constructs.specs.Table.{{additions, widening_of}};
ghost use Rattle.py_outside.specs.PlainConstructs.{{plain_construct}};
ghost use Rattle.py_outside.specs.PlainSymbols.{{plain_added}};
ghost use Rattle.py_outside.specs.PlainValues.{{plain_widening}};
ghost use Rattle.py_outside.specs.Sights.{{spread}};

use crate::construct::Construct;
use crate::symbol::AddedRow;
use crate::targets::Widening;
use crate::{{{', '.join(sorted(set(places.values())))}}};

pub(crate) fn rows_added(construct: Construct) -> &'static [AddedRow]
    ensures {{ map (plain_added (widening_of (additions (plain_construct construct)))) result.now ≡ spread (additions (plain_construct construct)) }}
{{
    match construct {{
"""]
    out += [f"        Construct::{names[c]} => {places[c]}::{constant_name(names[c])}_ROWS,\n" for c in grammar.added]
    out.append("""    }
}

/// What a construct lets be targets besides the profile's.
pub(crate) fn widening_by(construct: Construct) -> Widening
    ensures { plain_widening result ≡ widening_of (additions (plain_construct construct)) }
{
    match construct {
""")
    out += [f"        Construct::{names[c]} => Widening::{w},\n" for c, w in grammar.widenings.items()]
    out.append("        " + " | ".join(f"Construct::{names[c]}" for c in grammar.added if c not in grammar.widenings) + " => Widening::Nothing,\n    }\n}\n")
    (source / "added.rt").write_text("".join(out))


def write_name_numbers(grammar, source):
    numbers = {x: i for i, x in enumerate(grammar.names)}
    out = [f"""//! Numbers that tell names apart. {HEADER}

ghost use Rattle.std.specs.Prelude.{{◌≡◌}};
ghost use Rattle.py_constructs.specs.Table.{{Profile, number_of as number_of_name}};
ghost use Rattle.py_table.specs.PlainSymbols.{{plain_nonterminal}};
ghost use Rattle.py_outside.specs.PlainSymbols.{{plain_name}};

use crate::symbol::Name;
use py_table::symbol::Nonterminal;

fn number_of_nonterminal(nonterminal: Nonterminal) -> u8
    ensures {{ result ≡ number_of_name (Profile (plain_nonterminal nonterminal)) }}
{{
    match nonterminal {{
"""]
    out += [f"        Nonterminal::{x} => {numbers[x]},\n" for x in grammar.profile]
    out.append("""    }
}

pub(crate) fn number_of(name: Name) -> u8
    ensures { result ≡ number_of_name (plain_name name) }
{
    match name {
        Name::Profile(nonterminal) => number_of_nonterminal(nonterminal),
""")
    out += [f"        Name::{x} => {numbers[x]},\n" for x in grammar.places]
    out.append("    }\n}\n")
    (source / "name_numbers.rt").write_text("".join(out))


def write_sights(grammar, source, begins, follow):
    numbers = {x: table.row_numbers(x, grammar.rows[x], begins, follow) for x in grammar.names}
    for module, title, names, variant, view, extra in [
        ("profile_sights", "of the profile's nonterminals", list(grammar.profile), "Nonterminal", "(Profile (plain_nonterminal nonterminal))", True),
        ("place_sights", "of other names", list(grammar.places), "Name", "(plain_name name)", False),
    ]:
        argument = variant.lower()
        out = [f"//! Which row {title} one token of sight takes, with no construct added. {HEADER}\n\n"]
        out.append("ghost use Rattle.std.specs.Prelude.{◌≡◌};\nghost use Rattle.py_outside.specs.RowNumbers.{row_numbers};\n")
        if extra:
            out.append("ghost use Rattle.py_constructs.specs.Table.{Profile};\nghost use Rattle.py_table.specs.PlainSymbols.{plain_nonterminal};\n\nuse py_table::symbol::Nonterminal;\n\n")
        else:
            out.append("ghost use Rattle.py_outside.specs.PlainSymbols.{plain_name};\n\nuse crate::profile_sights::row_numbers_of_nonterminal;\nuse crate::symbol::Name;\n\n")
        for x in names:
            out.append(f"const {constant_name(x)}: &[u8] = &{numbers[x]};\n\n")
        function = "row_numbers_of_nonterminal" if extra else "row_numbers_of"
        out.append(f"""/// For each number of a sight the number of the row that is taken, or how many rows there are.
pub(crate) fn {function}({argument}: {variant}) -> &'static [u8]
    ensures {{ result.now ≡ row_numbers {view} }}
{{
    match {argument} {{
""")
        if not extra:
            out.append("        Name::Profile(nonterminal) => row_numbers_of_nonterminal(nonterminal),\n")
        out += [f"        {variant}::{x} => {constant_name(x)},\n" for x in names]
        out.append("    }\n}\n")
        (source / f"{module}.rt").write_text("".join(out))
    out = [f"""-- For each number of a sight the number of the row that it takes with no construct added, or how many rows there are.
-- {HEADER}
use Rattle.std.specs.Prelude.{{ℕ, List, [], ◌∷◌}}
use Rattle.py_syntax.specs.Table as t
use Rattle.py_constructs.specs.Table as meaning

abbrev pub row_numbers : meaning.Name → List ℕ
"""]
    for x in grammar.names:
        name = f"(meaning.Profile t.{x})" if x in grammar.profile else f"meaning.{x}"
        out.append(f"row_numbers {name} = {' ∷ '.join(map(str, numbers[x]))} ∷ []\n")
    (source.parent / "specs/RowNumbers.antt").write_text("".join(out))


def write_views(grammar, source):
    out = [f"""-- What rows are made of, as the table of the profile's grammar with a construct added has it. {HEADER}
use Rattle.std.specs.Prelude.{{List, map}}
use Rattle.grammars.specs.Grammar.{{Tok, Non, Do, Always, Where, Guard as PlainGuard, Row as PlainRow}}
use Rattle.py_constructs.specs.Table as meaning
use Rattle.py_constructs.specs.Values as value
use Rattle.py_table.specs.PlainSymbols as profile
use Rattle.py_table.specs.declared.symbol.Row.{{Row as ProfileRow}}
use Rattle.py_outside.specs.Sights.{{Added}}
use Rattle.py_table.specs.Sights.{{sight_numbered}}
use Rattle.py_outside.specs.declared.symbol.Name.{{Name}}
use Rattle.py_outside.specs.declared.symbol.Name.TheVariants as name
use Rattle.py_outside.specs.declared.symbol.Action.{{Action}}
use Rattle.py_outside.specs.declared.symbol.Action.TheVariants as action
use Rattle.py_outside.specs.declared.symbol.Guard.{{Guard}}
use Rattle.py_outside.specs.declared.symbol.Guard.TheVariants as guard
use Rattle.py_outside.specs.declared.symbol.Symbol.{{Symbol}}
use Rattle.py_outside.specs.declared.symbol.Symbol.TheVariants as symbol
use Rattle.py_outside.specs.declared.symbol.Row.{{Row}}
use Rattle.py_outside.specs.declared.symbol.Taken.{{Taken}}
use Rattle.py_outside.specs.declared.symbol.Taken.TheVariants as taken
use Rattle.py_outside.specs.declared.symbol.Rows.{{Rows}}
use Rattle.py_outside.specs.declared.symbol.Rows.TheVariants as rows
use Rattle.py_outside.specs.declared.symbol.AddedRow.{{AddedRow}}

abbrev pub plain_name : Name → meaning.Name
plain_name (name.Profile x) = meaning.Profile (profile.plain_nonterminal x)
"""]
    out += [f"plain_name name.{x} = meaning.{x}\n" for x in grammar.places]
    out.append("\nabbrev pub plain_action : Action → value.Action\nplain_action (action.Own a) = value.Own (profile.plain_action a)\n")
    out += [f"plain_action action.{a} = value.{a}\n" for a in OWN_ACTIONS]
    out.append(table.symbol_views(GUARDS, "value", "plain_name", "value.Value", "meaning.Name value.Action value.Value", WIDE_GUARDS, "value.Widening → ", " w"))
    out.append("""
-- a row of the profile's table, without its guard
abbrev pub plain_profile_row : ProfileRow → PlainRow meaning.Name value.Action value.Value
plain_profile_row r = meaning.row (map meaning.profile_symbol (profile.plain_symbols r.symbols.now))

abbrev pub plain_taken : value.Widening → Taken → PlainRow meaning.Name value.Action value.Value
plain_taken w (taken.Profile r) = plain_profile_row r.now
plain_taken w (taken.Own r) = plain_row w r.now

abbrev pub plain_rows : value.Widening → Rows → List (PlainRow meaning.Name value.Action value.Value)
plain_rows w (rows.Profile l) = meaning.profile_rows (map profile.plain_row l.now)
plain_rows w (rows.Own l) = map (plain_row w) l.now

abbrev pub plain_added : value.Widening → AddedRow → Added
plain_added w r = record { name = meaning.number_of (plain_name r.name); sights = map sight_numbered r.sights.now; row = plain_row w r.row }
""")
    (source.parent / "specs/PlainSymbols.antt").write_text("".join(out))


def write_rust(grammar):
    nullable, first, follow, _, begins = grammar.sets()
    source = HERE.parent / "crates/py_outside/src"
    variants = list(grammar.profile) + list(grammar.places) + [a for a, _ in table.all_actions()] + ["Own", *OWN_ACTIONS]
    assert len(set(variants)) == len(variants), sorted(v for v in variants if variants.count(v) > 1)
    write_symbols(grammar, source)
    write_kinds(grammar, source)
    write_rows(grammar, source)
    write_added(grammar, source, nullable, first, follow)
    write_name_numbers(grammar, source)
    write_sights(grammar, source, begins, follow)
    write_views(grammar, source)


if __name__ == "__main__":
    read = Grammar()
    write_antt(read)
    write_rust(read)
