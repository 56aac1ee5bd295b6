#!/usr/bin/env python3
"""Writes the grammar's table from grammar.txt: rows, nullable, first and follow sets, and ranks.

The prover checks every entry (crates/py_syntax/proofs/TableSets.antt), so nothing here is trusted.

    tools/table.py            writes crates/py_syntax/specs/Table.antt, and for the code in crates/py_table
                              src/symbol.rt, rows.rt, the four files of rows, kind_numbers.rt and sights.rt, and the
                              views of their types, specs/PlainSymbols.antt; `rt fmt` brings them into form
"""

import re
import sys
from pathlib import Path

HERE = Path(__file__).parent
KINDS = ["OTHERNAME", "ASCIINAME", "NUMBER", "TEXT", "FLOAT", "IMAGINARY", "BYTES", "FORMATTED", "NEWLINE", "INDENT", "DEDENT"]
KEYWORDS = """False None True and as assert async await break class continue def del elif else except finally for from
global if import in is lambda nonlocal not or pass raise return try while with yield""".split()
OPERATORS = """//= **= <<= >>= ... // ** << >> <= >= == != += -= *= %= &= |= ^= /= @= -> := + - * % & | ^ ~ < > ( ) [ ] { } , : . ; = / @""".split()
OPERATOR_NAMES = """DoubleSlashEqual DoubleStarEqual LeftShiftEqual RightShiftEqual Ellipsis DoubleSlash DoubleStar LeftShift RightShift
LessEqual GreaterEqual EqualEqual NotEqual PlusEqual MinusEqual StarEqual PercentEqual AmpersandEqual BarEqual CaretEqual SlashEqual
AtEqual Arrow ColonEqual Plus Minus Star Percent Ampersand Bar Caret Tilde Less Greater OpenParenthesis CloseParenthesis OpenBracket
CloseBracket OpenBrace CloseBrace Comma Colon Dot Semicolon Equal Slash At""".split()
FIRST_KEYWORD = len(KINDS)
FIRST_OPERATOR = FIRST_KEYWORD + len(KEYWORDS) + 1  # a keyword that is none has a number too
GOAL = "Module"
END_NUMBER = FIRST_OPERATOR + len(OPERATORS) + 1  # the number of a sight where no token comes


def number_of(token):
    """The number of a token's kind, as in specs/Kinds.antt."""
    if token in KINDS:
        return KINDS.index(token)
    if token in KEYWORDS:
        return FIRST_KEYWORD + KEYWORDS.index(token)
    return FIRST_OPERATOR + OPERATORS.index(token)


def symbol_name(token):
    """The name of a token's symbol in the table."""
    if token in KINDS:
        return {"OTHERNAME": "other_name", "ASCIINAME": "ascii_name"}.get(token, "a_" + token.lower())
    if token in KEYWORDS:
        return "the_" + token.lower()
    name = OPERATOR_NAMES[OPERATORS.index(token)]
    return "the" + re.sub(r"[A-Z]", lambda m: "_" + m.group(0).lower(), name)


def read_grammar():
    """The rows of each nonterminal: a guard or None, and symbols as (sort, text)."""
    text = "\n".join(line for line in (HERE / "grammar.txt").read_text().splitlines() if not line.startswith("#"))
    text = re.sub(r"\n +", " ", text)
    grammar = {}
    for line in text.splitlines():
        if not line.strip():
            continue
        name, right = line.split(":", 1)
        rows = []
        for alternative in re.split(r" \| ", right.strip()):
            guard, symbols = None, []
            for word in alternative.split():
                if word == "-":
                    continue
                if word.startswith("?"):
                    guard = word[1:]
                elif word.startswith("!"):
                    symbols.append(("do", word[1:]))
                elif word.startswith("'"):
                    symbols.append(("tok", word[1:-1]))
                elif word in KINDS:
                    symbols.append(("tok", word))
                else:
                    symbols.append(("non", word))
            rows.append((guard, symbols))
        grammar[name] = rows
    for rows in grammar.values():
        for _, symbols in rows:
            for sort, text in symbols:
                assert sort != "non" or text in grammar, text
    return grammar


END = -1


def sets_of(grammar, quiet=False):
    nullable = {x: False for x in grammar}
    first = {x: set() for x in grammar}
    follow = {x: set() for x in grammar}
    follow[GOAL].add(END)

    def begins(symbols, behind):
        out = set()
        for sort, text in symbols:
            if sort == "tok":
                return out | {number_of(text)}
            if sort == "non":
                out |= first[text]
                if not nullable[text]:
                    return out
        return out | behind

    changed = True
    while changed:
        before = (dict(nullable), {x: len(s) for x, s in first.items()}, {x: len(s) for x, s in follow.items()})
        for x, rows in grammar.items():
            for _, symbols in rows:
                if all(s == "do" or (s == "non" and nullable[t]) for s, t in symbols):
                    nullable[x] = True
                first[x] |= begins(symbols, set())
                for i, (sort, text) in enumerate(symbols):
                    if sort == "non":
                        follow[text] |= begins(symbols[i + 1:], follow[x])
        changed = before != (nullable, {x: len(s) for x, s in first.items()}, {x: len(s) for x, s in follow.items()})
    for x, rows in grammar.items():
        taken = {}
        for i, (_, symbols) in enumerate(rows):
            for s in begins(symbols, follow[x]):
                if s in taken and not quiet:
                    print(f"conflict in {x} at {s}: rows {taken[s]} and {i}", file=sys.stderr)
                taken[s] = i
    rank = {}
    while len(rank) < len(grammar):
        progress = False
        for x, rows in grammar.items():
            if x in rank:
                continue
            exits = [symbols for guard, symbols in rows if guard is None and all(s != "non" or t in rank for s, t in symbols)]
            if exits:
                rank[x] = min(max([rank[t] + 1 for s, t in e if s == "non"], default=0) for e in exits)
                progress = True
        if not progress:
            print("no exit:", [x for x in grammar if x not in rank], file=sys.stderr)
            break
    return nullable, first, follow, rank, begins


def antt_symbol(symbol):
    sort, text = symbol
    if sort == "tok":
        return symbol_name(text)
    if sort == "non":
        return "Non " + text
    m = re.match(r"(\w+)\((\w+)\)", text)
    return f"Do ({m.group(1)} {m.group(2)})" if m else "Do " + text


def antt_row(guard, symbols):
    listed = " ∷ ".join([antt_symbol(s) for s in symbols] + ["[]"])
    shown = listed if listed == "[]" else f"({listed})"
    return f"row {shown}" if guard is None else f"guarded {guard} {shown}"


def sights(s):
    return " ∷ ".join(["None" if n == END else f"Some {n}" for n in sorted(s)] + ["[]"])


def write_antt(grammar, nullable, first, follow, rank):
    used = []
    actions, arguments, guards = set(), set(), set()
    for rows in grammar.values():
        for guard, symbols in rows:
            if guard:
                guards.add(guard)
            for sort, text in symbols:
                if sort == "tok" and text not in used:
                    used.append(text)
                if sort == "do":
                    m = re.match(r"(\w+)\((\w+)\)", text)
                    actions.add(m.group(1) if m else text)
                    if m:
                        arguments.add(m.group(2))
    used.sort(key=number_of)
    out = [f"""-- The grammar as a table: rows of symbols for each nonterminal, and the sets by which one token of sight decides.
-- Grammar.antt says what a module is; that the table says the same is proved. `tools/table.py` writes this file from
-- `tools/grammar.txt`.
use Rattle.std.specs.Prelude.{{ℕ, Bool, true, false, List, [], ◌∷◌, Some, None}}
use Rattle.grammars.specs.Grammar.{{Sym, Tok, Non, Do, Always, Where, Row, Grammar, Sight}}
use Rattle.grammars.specs.Sets.{{Sets}}
use Rattle.py_syntax.specs.Token.{{Token}}
use Rattle.py_syntax.specs.Kinds.{{kind_of, specimen}}
use Rattle.py_syntax.specs.Tree.{{{", ".join(sorted(arguments))}}}
use Rattle.py_syntax.specs.Build.{{PToken, Parts, Action, {", ".join(sorted(actions))}, act, {", ".join(sorted(guards))}}}

pub data Nonterminal : Type 0 where
"""]
    out += [f"  {x} : Nonterminal\n" for x in grammar]
    out.append("""
abbrev pub Symbol : Type 0
Symbol = Sym Nonterminal Action

""")
    for t in used:
        out.append(f"abbrev pub {symbol_name(t)} : Symbol\n{symbol_name(t)} = Tok {number_of(t)}\n\n")
    out.append("""abbrev pub row : List Symbol → Row Nonterminal Action Parts
row symbols = record { guard = Always; symbols = symbols }

abbrev pub guarded : (Parts → Bool) → List Symbol → Row Nonterminal Action Parts
guarded test symbols = record { guard = Where test; symbols = symbols }

abbrev pub rows : Nonterminal → List (Row Nonterminal Action Parts)
""")
    for x, rows in grammar.items():
        lines = [antt_row(g, s) for g, s in rows] + ["[]"]
        one = f"rows {x} = " + " ∷ ".join(lines)
        out.append(one + "\n" if len(one) <= 140 else f"rows {x} =\n    " + "\n    ∷ ".join(lines) + "\n")
    out.append("""
abbrev pub table : Grammar Nonterminal Action Token Parts
table = record { kind = kind_of; take_in = λ t v. PToken t ∷ v; act = act; rows = rows }

abbrev pub nullable : Nonterminal → Bool
""")
    out += [f"nullable {x} = {'true' if nullable[x] else 'false'}\n" for x in grammar]
    out.append("\nabbrev pub first : Nonterminal → List Sight\n")
    out += [f"first {x} = {sights(first[x])}\n" for x in grammar]
    out.append("\nabbrev pub follow : Nonterminal → List Sight\n")
    out += [f"follow {x} = {sights(follow[x])}\n" for x in grammar]
    out.append("\n-- how far each is from an exit: a name for an expression, and nothing for a tail\nabbrev pub rank : Nonterminal → ℕ\n")
    out += [f"rank {x} = {rank[x]}\n" for x in grammar]
    out.append("""
abbrev pub sets : Sets Nonterminal Token
sets = record { nullable = nullable; first = first; follow = follow; rank = rank; specimen = specimen }
""")
    (HERE.parent / "crates/py_syntax/specs/Table.antt").write_text("".join(out))


HEADER = "`tools/table.py` writes this file from `tools/grammar.txt`."


# The code's files of rows: each goes from a nonterminal to the next one's.
ROW_FILES = [
    ("compound_rows", "compound statements, definitions and imports", "Module"),
    ("simple_rows", "simple statements and what they bind", "Line"),
    ("operator_rows", "expressions with operators", "ExpressionList"),
    ("primary_rows", "primaries and displays", "Primary"),
]


def constant_name(nonterminal):
    return re.sub(r"(?<=[a-z])(?=[A-Z])", "_", nonterminal).upper()


def kind_constant(token):
    """The name of a token kind's number in the code."""
    name = symbol_name(token)
    return re.sub(r"^(a_|the_)", "", name).upper() if token in KINDS else name.upper()


def with_argument(action):
    m = re.match(r"(\w+)\((\w+)\)", action)
    return m.groups() if m else (action, None)


def argument_type(action):
    return {"MakeUnary": "UnaryOperator", "MakeSign": "ComparisonOperator", "MakeLongSign": "ComparisonOperator"}.get(action, "BinaryOperator")


def pascal(guard):
    return "".join(w.capitalize() for w in guard.split("_"))


def all_actions():
    """The actions in the order of specs/Build.antt, with the type of an argument or None."""
    text = (HERE.parent / "crates/py_syntax/specs/Build.antt").read_text()
    text = text[text.index("pub data Action"):]
    text = text[:text.index("abbrev")]
    return re.findall(r"^  (\w+) : (?:\(o : (\w+)\) → )?Action", text, re.M)


def row_numbers(x, rows, begins, follow):
    """For each sight the number of its row, or how many rows there are; the last is for the end."""
    def number(sight):
        for i, (_, symbols) in enumerate(rows):
            if sight in begins(symbols, follow[x]):
                return i
        return len(rows)
    return [number(k) for k in range(END_NUMBER)] + [number(END)]


def rust_symbol(symbol):
    sort, text = symbol
    if sort == "tok":
        return f"Read({kind_constant(text)})"
    if sort == "non":
        return f"Expand({text})"
    name, argument = with_argument(text)
    return f"Do({name}({argument_type(name)}::{argument}))" if argument else f"Do({name})"


def symbol_views(guards, module, name_view, value, row, wide_guards=(), type_of_w="", w=""):
    """The views of guards, symbols and rows: the guards' tests stand in a module, and a view tells names. Wide guards ask by w."""
    tests = "".join(f"plain_guard{w} guard.{pascal(g)} = Where {module}.{g}\n" for g in guards)
    tests += "".join(f"plain_guard{w} guard.{pascal(g)} = Where ({module}.{g}{w})\n" for g in wide_guards)
    return f"""
abbrev pub plain_guard : {type_of_w}Guard → PlainGuard {value}
plain_guard{w} guard.Always = Always
{tests}
abbrev pub plain_symbol : Symbol → meaning.Symbol
plain_symbol (symbol.Read kind) = Tok kind
plain_symbol (symbol.Expand x) = Non ({name_view} x)
plain_symbol (symbol.Do a) = Do (plain_action a)

abbrev pub plain_symbols : List Symbol → List meaning.Symbol
plain_symbols = map plain_symbol

abbrev pub plain_row : {type_of_w}Row → PlainRow {row}
plain_row{w} r = record {{ guard = plain_guard{w} r.guard; symbols = plain_symbols r.symbols.now }}
"""


def write_rust(grammar, follow, begins):
    source = HERE.parent / "crates/py_table/src"
    guards = ["are_targets_last", "is_target_last", "is_name_last"]
    actions = all_actions()
    kinds = []
    for rows in grammar.values():
        for _, symbols in rows:
            kinds += [t for sort, t in symbols if sort == "tok" and t not in kinds]
    kinds.sort(key=number_of)

    out = [f"""//! What rows are made of. {HEADER}

use py_ast::{{BinaryOperator, ComparisonOperator, UnaryOperator}};

/// What symbols stand for.
#[derive(Clone, Copy, Debug, PartialEq, Eq)]
pub enum Nonterminal {{
"""]
    out += [f"    {x},\n" for x in grammar]
    out.append("}\n\n/// What is done between symbols, to build a tree.\n#[derive(Clone, Copy, Debug, PartialEq, Eq)]\npub enum Action {\n")
    out += [f"    {a}({t}),\n" if t else f"    {a},\n" for a, t in actions]
    out.append("""}

/// When a row may be taken, by the last part built.
#[derive(Clone, Copy, Debug, PartialEq, Eq)]
pub enum Guard {
    Always,
    AreTargetsLast,
    IsTargetLast,
    IsNameLast,
}

#[derive(Clone, Copy, Debug, PartialEq, Eq)]
pub enum Symbol {
    /// A token whose kind has this number.
    Read(u8),
    Expand(Nonterminal),
    Do(Action),
}

/// What may take the place of a nonterminal.
#[derive(Clone, Copy, Debug)]
pub struct Row {
    pub guard: Guard,
    pub symbols: &'static [Symbol],
}
""")
    (source / "symbol.rt").write_text("".join(out))

    out = [f"//! Numbers of the kinds of tokens that rows read. {HEADER}\n\n"]
    out += [f"pub(crate) const {kind_constant(t)}: u8 = {number_of(t)};\n" for t in kinds]
    (source / "kind_numbers.rt").write_text("".join(out))

    places = {}
    names = list(grammar)
    for (module, title, first_name), following in zip(ROW_FILES, ROW_FILES[1:] + [None]):
        end = names.index(following[2]) if following else len(names)
        here = names[names.index(first_name):end]
        places.update({x: module for x in here})
        body = []
        for x in here:
            body.append(f"\npub(crate) const {constant_name(x)}_ROWS: &[Row] = &[\n")
            for guard, symbols in grammar[x]:
                shown = pascal(guard) if guard else "Always"
                body.append(f"    Row {{ guard: Guard::{shown}, symbols: &[{', '.join(rust_symbol(s) for s in symbols)}] }},\n")
            body.append("];\n")
        text = "".join(body)
        used = {k: sorted(set(re.findall(rf"\b{k}\((\w+)", text))) for k in ["Do", "Expand", "Read"]}
        operators = sorted(set(re.findall(r"\b(\w+Operator)::", text)))
        imports = [
            ("crate::symbol::Action", used["Do"]),
            ("crate::symbol::Nonterminal", used["Expand"]),
            ("crate::symbol::Symbol", [k for k in used if used[k]]),
            ("crate::symbol", ["Guard", "Row"]),
            ("crate::kind_numbers", used["Read"]),
            ("py_ast", operators),
        ]
        head = f"//! The rows of {title}. {HEADER}\n\n" + "".join(f"use {path}::{{{', '.join(used_names)}}};\n" for path, used_names in imports if used_names)
        (source / f"{module}.rt").write_text(head + text)

    out = [f"""//! The rows of each nonterminal. {HEADER}

ghost use Rattle.std.specs.Prelude.{{◌≡◌, map}};
ghost use Rattle.py_syntax.specs.Table.{{rows}};
ghost use Rattle.py_table.specs.PlainSymbols.{{plain_nonterminal, plain_row}};

use crate::symbol::{{Nonterminal, Row}};
"""]
    out += [f"use crate::{module};\n" for module, _, _ in ROW_FILES]
    out.append("""
/// The rows of a nonterminal.
pub fn rows_of(nonterminal: Nonterminal) -> &'static [Row]
    ensures { map plain_row result.now ≡ rows (plain_nonterminal nonterminal) }
{
    match nonterminal {
""")
    out += [f"        Nonterminal::{x} => {places[x]}::{constant_name(x)}_ROWS,\n" for x in grammar]
    out.append("    }\n}\n")
    (source / "rows.rt").write_text("".join(out))

    out = [f"""//! Which row of a nonterminal one token of sight takes. {HEADER}

ghost use Rattle.std.specs.Prelude.{{◌≡◌}};
ghost use Rattle.py_table.specs.PlainSymbols.{{plain_nonterminal}};
ghost use Rattle.py_table.specs.RowNumbers.{{row_numbers}};

use crate::symbol::Nonterminal;

"""]
    for x, rows in grammar.items():
        out.append(f"const {constant_name(x)}: &[u8] = &{row_numbers(x, rows, begins, follow)};\n\n")
    out.append("""/// For each number of a sight the number of the row that is taken, or how many rows there are.
pub(crate) fn row_numbers_of(nonterminal: Nonterminal) -> &'static [u8]
    ensures { result.now ≡ row_numbers (plain_nonterminal nonterminal) }
{
    match nonterminal {
""")
    out += [f"        Nonterminal::{x} => {constant_name(x)},\n" for x in grammar]
    out.append("    }\n}\n")
    (source / "sights.rt").write_text("".join(out))

    out = [f"""-- For each number of a sight the number of the row that it takes, or how many rows there are. {HEADER}
use Rattle.std.specs.Prelude.{{ℕ, List, [], ◌∷◌}}
use Rattle.py_syntax.specs.Table as meaning

abbrev pub row_numbers : meaning.Nonterminal → List ℕ
"""]
    for x, rows in grammar.items():
        out.append(f"row_numbers meaning.{x} = {' ∷ '.join(map(str, row_numbers(x, rows, begins, follow)))} ∷ []\n")
    (HERE.parent / "crates/py_table/specs/RowNumbers.antt").write_text("".join(out))

    out = [f"""-- What rows are made of, as the table has it. {HEADER}
use Rattle.std.specs.Prelude.{{List, map}}
use Rattle.grammars.specs.Grammar.{{Tok, Non, Do, Always, Where, Guard as PlainGuard, Row as PlainRow}}
use Rattle.py_syntax.specs.Table as meaning
use Rattle.py_syntax.specs.Build as build
use Rattle.py_ast.specs.PlainOperators.{{plain_unary, plain_binary, plain_comparison}}
use Rattle.py_table.specs.declared.symbol.Nonterminal.{{Nonterminal}}
use Rattle.py_table.specs.declared.symbol.Nonterminal.TheVariants as nonterminal
use Rattle.py_table.specs.declared.symbol.Action.{{Action}}
use Rattle.py_table.specs.declared.symbol.Action.TheVariants as action
use Rattle.py_table.specs.declared.symbol.Guard.{{Guard}}
use Rattle.py_table.specs.declared.symbol.Guard.TheVariants as guard
use Rattle.py_table.specs.declared.symbol.Symbol.{{Symbol}}
use Rattle.py_table.specs.declared.symbol.Symbol.TheVariants as symbol
use Rattle.py_table.specs.declared.symbol.Row.{{Row}}

abbrev pub plain_nonterminal : Nonterminal → meaning.Nonterminal
"""]
    out += [f"plain_nonterminal nonterminal.{x} = meaning.{x}\n" for x in grammar]
    out.append("\nabbrev pub plain_action : Action → build.Action\n")
    for a, t in actions:
        if t:
            view = {"UnaryOperator": "plain_unary", "BinaryOperator": "plain_binary", "ComparisonOperator": "plain_comparison"}[t]
            out.append(f"plain_action (action.{a} o) = build.{a} ({view} o)\n")
        else:
            out.append(f"plain_action action.{a} = build.{a}\n")
    out.append(symbol_views(guards, "build", "plain_nonterminal", "build.Parts", "meaning.Nonterminal build.Action build.Parts"))
    (HERE.parent / "crates/py_table/specs/PlainSymbols.antt").write_text("".join(out))


def main():
    grammar = read_grammar()
    nullable, first, follow, rank, begins = sets_of(grammar)
    print(len(grammar), "nonterminals,", sum(len(r) for r in grammar.values()), "rows", file=sys.stderr)
    write_antt(grammar, nullable, first, follow, rank)
    write_rust(grammar, follow, begins)


if __name__ == "__main__":
    main()
