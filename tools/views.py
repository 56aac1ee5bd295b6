#!/usr/bin/env python3
"""Writes the views of the code's trees as plain trees: crates/py_ast/specs/PlainExprs.antt and PlainTrees.antt.

Each is a fold over the tree and an equation for each variant. The prover checks all of it.
"""

from pathlib import Path

SPECS = Path(__file__).parent.parent / "crates/py_ast/specs"

# How a field is seen: its type in the code, the view of it, and the view inside a step of the fold, where children are
# plain already; `None` for a field that has no children.
FIELDS = {
    "place": ("Place", "plain_place {}", None),
    "comma": ("Option Place", "option_map plain_place {}", None),
    "name": ("Name", "{}.0", None),
    "number": ("ℕ", "{}", None),
    "text": ("List ℕ", "{}", None),
    "name_at": ("NameAt", "plain_name {}", None),
    "names": ("List NameAt", "plain_names {}", None),
    "unary": ("UnaryOperator", "plain_unary {}", None),
    "binary": ("BinaryOperator", "plain_binary {}", None),
    "comparison": ("ComparisonOperator", "plain_comparison {}", None),
    "loop_target": ("LoopTarget", "plain_loop_target {}", None),
    "target": ("Target", "plain_target {}", None),
    "target_lists": ("List Targets", "plain_target_lists {}", None),
    "parameters": ("List Parameter", "plain_parameters {}", None),
    "base": ("Option ClassName", "option_map plain_class {}", None),
    "imports": ("List Imported", "plain_imports {}", None),
    "expr": ("Expr", "plain_expr {}", "{}"),
    "exprs": ("List Expr", "plain_exprs {}", "exprs_of {}"),
    "maybe": ("Option Expr", "plain_maybe {}", "maybe_of {}"),
    "pairs": ("List (Expr × Expr)", "plain_pairs {}", "pairs_of {}"),
    "links": ("List (Place × ComparisonOperator × Expr)", "plain_links {}", "links_of {}"),
    "keywords": ("List (NameAt × Expr)", "plain_keywords {}", "keywords_of {}"),
    "loops": ("List (Place × LoopTarget × Expr × List Expr)", "plain_loops {}", "loops_of {}"),
    "body": ("List Stmt", "plain_body {}", "body_of {}"),
    "handlers": ("List (Place × Caught × List Stmt)", "plain_handlers {}", "handlers_of {}"),
}

EXPR = """Name EName place name
Number ENumber place number
Text EText place text
True ETrue place
False EFalse place
None ENone place
Parenthesis EParenthesis place expr
EmptyTuple EEmptyTuple place
Tuple ETuple place exprs
List EList place comma exprs
ListComprehension EListComprehension place expr loops
Dict EDict place pairs
Set ESet place exprs
Attribute EAttribute place expr name_at
Call ECall place expr exprs keywords
Subscript ESubscript place expr expr
Slice ESlice place expr maybe maybe
Unary EUnary place unary expr
Binary EBinary place binary expr expr
Compare ECompare place comparison expr expr links
Not ENot place expr
And EAnd place expr expr exprs
Or EOr place expr expr exprs
Conditional EConditional place expr expr expr"""

# in a statement expressions are no children of the fold
STMT = """Expr SExpr place expr
Assign SAssign place target_lists expr
Augmented SAugmented place binary target expr
Pass SPass place
Break SBreak place
Continue SContinue place
Return SReturn place maybe
Raise SRaise place expr
Yield SYield place expr
Global SGlobal place names
Assert SAssert place expr maybe
Delete SDelete place place expr expr
If SIf place expr body body
While SWhile place expr body
For SFor place loop_target expr body
Try STry place body handlers
Def SDef place name_at parameters body
Class SClass place name_at base body
Import SImport place imports
FromImport SFromImport place name_at imports"""

LETTERS = "abcdefgh"


def variants(text, children):
    for line in text.splitlines():
        code, plain, *fields = line.split()
        yield code, plain, [(LETTERS[i], FIELDS[f], f in children) for i, f in enumerate(fields)]


def applied(form, name):
    shown = form.format(name)
    return f"({shown})" if " " in shown else shown


def fold_view(out, kind, view, step, text, children, child_maps):
    """The step, the view and an equation for each variant. `child_maps` are lemmas on children that are lists."""
    low = kind.lower()
    all_variants = list(variants(text, children))
    out.append(f"abbrev pub {step} : {low}_open.{kind}-F meaning.{kind} → meaning.{kind}\n")
    for code, plain, fields in all_variants:
        names = " ".join(n for n, _, _ in fields)
        shown = " ".join(applied(f[2] if c else f[1], n) for n, f, c in fields)
        out.append(f"{step} ({low}.{code} {names}) = meaning.{plain} {shown}\n".replace(f"({low}.", f"({low}_open."))
    out.append(f"\nunfoldable pub {view} : {kind} → meaning.{kind}\n{view} = fold-{kind} meaning.{kind} {step}\n\n")
    return all_variants


def equations(out, kind, view, step, all_variants, child_maps, ruleset):
    low = kind.lower()
    for code, plain, fields in all_variants:
        typed = " ".join(f"({n} : {f[0]})" for n, f, _ in fields)
        names = " ".join(n for n, _, _ in fields)
        shown = " ".join(applied(f[1], n) for n, f, _ in fields)
        out.append(f"pub {view}-{code} : {typed} → {view} ({low}.{code} {names}) ≡ meaning.{plain} {shown}\nunfolding {view}\n")
        roll = f"ap (fold-{kind} meaning.{kind} {step}) (sym ({low}.rolls-{code} {names})) ∙ fold-roll-{kind} meaning.{kind} {step} _"
        maybes = [n for n, f, c in fields if c and f[1].startswith("plain_maybe")]
        if maybes:
            # what may be absent is mapped by cases
            for some in range(2 ** len(maybes)):
                args = " ".join((f"(Some {n})" if some >> maybes.index(n) & 1 else "None") if n in maybes else n for n, _, _ in fields)
                out.append(f"{view}-{code} {args} = {roll.replace(f'{code} {names}', f'{code} {args}')}\n")
            out.append("\n")
            continue
        mapped = [(n, f[1].split()[0]) for n, f, c in fields if c and f[1].split()[0] in child_maps]
        if mapped:
            # one child after another takes its plain form
            for i, (n, name) in enumerate(mapped):
                parts = []
                for m, f, c in fields:
                    if m == n:
                        parts.append("hole")
                    elif c and f[1].split()[0] in child_maps and m > n:
                        parts.append(applied(child_maps[f[1].split()[0]], m))
                    elif c and f[2] == "{}":
                        parts.append(applied(f"fold-{kind} meaning.{kind} {step} {{}}", m))
                    else:
                        parts.append(applied(f[1], m))
                roll += f"\n    ∙ ap (λ hole. meaning.{plain} {' '.join(parts)}) ({name}-map {n})"
        out.append(f"{view}-{code} {names} = {roll}\n\n")
    listed = ", ".join(f"{view}-{code}" for code, _, _ in all_variants)
    out.append(f"-- what functions that build or match them name by `using`\npub ruleset {ruleset} = ({listed})\n")


EXPR_HEAD = """-- The code's expressions as the plain trees that definitions speak of. `tools/views.py` writes this file.
use Rattle.std.specs.Prelude.{◌≡◌, ℕ, List, [], ◌∷◌, map, Option, Some, None}
use Rattle.std.specs.Option.{option_map}
use Rattle.std.proofs.Common.{refl, ap, ap₂, sym, ◌∙◌}
use Rattle.py_syntax.specs.Tree as meaning
use Rattle.py_ast.specs.PlainOperators.{plain_unary, plain_binary, plain_comparison}
use Rattle.py_lexer.specs.PlainTokens.{plain_place}
use Rattle.shed_base.specs.declared.place.Place.{Place}
use Rattle.shed_base.specs.declared.names.Name.{Name}
use Rattle.py_ast.specs.declared.tree.NameAt.{NameAt}
use Rattle.py_ast.specs.declared.operator.UnaryOperator.{UnaryOperator}
use Rattle.py_ast.specs.declared.operator.BinaryOperator.{BinaryOperator}
use Rattle.py_ast.specs.declared.operator.ComparisonOperator.{ComparisonOperator}
use Rattle.py_ast.specs.declared.tree.LoopTarget.{LoopTarget}
use Rattle.py_ast.specs.declared.tree.LoopTarget.TheVariants as loop_target
use Rattle.py_ast.specs.declared.tree.LoopTarget.TheOpen as loop_target_open
use Rattle.py_ast.specs.declared.tree.LoopTarget.TheFolds.{fold-LoopTarget, fold-roll-LoopTarget}
use Rattle.py_ast.specs.declared.tree.Expr.{Expr}
use Rattle.py_ast.specs.declared.tree.Expr.TheVariants as expr
use Rattle.py_ast.specs.declared.tree.Expr.TheOpen as expr_open
use Rattle.py_ast.specs.declared.tree.Expr.TheFolds.{fold-Expr, fold-roll-Expr}

abbrev pub plain_name : NameAt → meaning.NameAt
plain_name x = record { place = plain_place x.place; name = x.name.0 }

abbrev pub plain_names : List NameAt → List meaning.NameAt
plain_names = map plain_name

"""

EXPR_LISTS = """-- children that are plain already, as the plain trees have them
abbrev pub exprs_of : List meaning.Expr → meaning.Exprs
exprs_of [] = meaning.no_exprs
exprs_of (e ∷ es) = meaning.more_exprs e (exprs_of es)

abbrev pub maybe_of : Option meaning.Expr → meaning.MaybeExpr
maybe_of None = meaning.no_expr
maybe_of (Some e) = meaning.an_expr e

abbrev pub pairs_of : List (meaning.Expr × meaning.Expr) → meaning.Pairs
pairs_of [] = meaning.no_pairs
pairs_of (e ∷ es) = meaning.more_pairs e.0 e.1 (pairs_of es)

abbrev pub links_of : List (Place × ComparisonOperator × meaning.Expr) → meaning.Links
links_of [] = meaning.no_links
links_of (e ∷ es) = meaning.more_links (plain_place e.0) (plain_comparison e.1) e.2 (links_of es)

abbrev pub keywords_of : List (NameAt × meaning.Expr) → meaning.Keywords
keywords_of [] = meaning.no_keywords
keywords_of (e ∷ es) = meaning.more_keywords (plain_name e.0) e.1 (keywords_of es)

abbrev pub loops_of : List (Place × LoopTarget × meaning.Expr × List meaning.Expr) → meaning.Loops
loops_of [] = meaning.no_loops
loops_of (e ∷ es) = meaning.more_loops (plain_place e.0) (plain_loop_target e.1) e.2 (exprs_of e.3) (loops_of es)

"""

EXPR_CHILDREN = """abbrev pub plain_exprs : List Expr → meaning.Exprs
plain_exprs [] = meaning.no_exprs
plain_exprs (e ∷ es) = meaning.more_exprs (plain_expr e) (plain_exprs es)

abbrev pub plain_maybe : Option Expr → meaning.MaybeExpr
plain_maybe None = meaning.no_expr
plain_maybe (Some e) = meaning.an_expr (plain_expr e)

abbrev pub plain_pairs : List (Expr × Expr) → meaning.Pairs
plain_pairs [] = meaning.no_pairs
plain_pairs (e ∷ es) = meaning.more_pairs (plain_expr e.0) (plain_expr e.1) (plain_pairs es)

abbrev pub plain_links : List (Place × ComparisonOperator × Expr) → meaning.Links
plain_links [] = meaning.no_links
plain_links (e ∷ es) = meaning.more_links (plain_place e.0) (plain_comparison e.1) (plain_expr e.2) (plain_links es)

abbrev pub plain_keywords : List (NameAt × Expr) → meaning.Keywords
plain_keywords [] = meaning.no_keywords
plain_keywords (e ∷ es) = meaning.more_keywords (plain_name e.0) (plain_expr e.1) (plain_keywords es)

abbrev pub plain_loops : List (Place × LoopTarget × Expr × List Expr) → meaning.Loops
plain_loops [] = meaning.no_loops
plain_loops (e ∷ es) = meaning.more_loops (plain_place e.0) (plain_loop_target e.1) (plain_expr e.2) (plain_exprs e.3) (plain_loops es)

folded : Expr → meaning.Expr
folded = fold-Expr meaning.Expr expr_step

plain_exprs-map : (es : List Expr) → exprs_of (map (fold-Expr meaning.Expr expr_step) es) ≡ plain_exprs es
unfolding plain_expr
plain_exprs-map [] = refl
plain_exprs-map (e ∷ es) = ap (meaning.more_exprs (plain_expr e)) (plain_exprs-map es)

plain_pairs-map : (es : List (Expr × Expr)) → pairs_of (map (λ e. (fold-Expr meaning.Expr expr_step e.0, fold-Expr meaning.Expr expr_step e.1)) es) ≡ plain_pairs es
unfolding plain_expr
plain_pairs-map [] = refl
plain_pairs-map (e ∷ es) = ap (meaning.more_pairs (plain_expr e.0) (plain_expr e.1)) (plain_pairs-map es)

plain_links-map : (es : List (Place × ComparisonOperator × Expr)) → links_of (map (λ e. (e.0, e.1, fold-Expr meaning.Expr expr_step e.2)) es) ≡ plain_links es
unfolding plain_expr
plain_links-map [] = refl
plain_links-map (e ∷ es) = ap (meaning.more_links (plain_place e.0) (plain_comparison e.1) (plain_expr e.2)) (plain_links-map es)

plain_keywords-map : (es : List (NameAt × Expr)) → keywords_of (map (λ e. (e.0, fold-Expr meaning.Expr expr_step e.1)) es) ≡ plain_keywords es
unfolding plain_expr
plain_keywords-map [] = refl
plain_keywords-map (e ∷ es) = ap (meaning.more_keywords (plain_name e.0) (plain_expr e.1)) (plain_keywords-map es)

plain_loops-map : (es : List (Place × LoopTarget × Expr × List Expr)) → loops_of (map (λ e. (e.0, e.1, fold-Expr meaning.Expr expr_step e.2, map (fold-Expr meaning.Expr expr_step) e.3)) es) ≡ plain_loops es
unfolding plain_expr
plain_loops-map [] = refl
plain_loops-map (e ∷ es) = ap₂ (meaning.more_loops (plain_place e.0) (plain_loop_target e.1) (plain_expr e.2)) (plain_exprs-map e.3) (plain_loops-map es)

"""

# how a list of children stands in a step
EXPR_MAPS = {
    "plain_exprs": "exprs_of (map (fold-Expr meaning.Expr expr_step) {})",
    "plain_pairs": "pairs_of (map (λ e. (fold-Expr meaning.Expr expr_step e.0, fold-Expr meaning.Expr expr_step e.1)) {})",
    "plain_links": "links_of (map (λ e. (e.0, e.1, fold-Expr meaning.Expr expr_step e.2)) {})",
    "plain_keywords": "keywords_of (map (λ e. (e.0, fold-Expr meaning.Expr expr_step e.1)) {})",
    "plain_loops": "loops_of (map (λ e. (e.0, e.1, fold-Expr meaning.Expr expr_step e.2, map (fold-Expr meaning.Expr expr_step) e.3)) {})",
}

# Of a small tree, each variant with its plain one, and each field with its type, and its view in a step and in an equation.
LOOP_TARGET = (
    ("Name", "LoopName", (("a", "NameAt", "(plain_name a)", "(plain_name a)"),)),
    ("Names", "LoopNames", (("a", "Place", "(plain_place a)", "(plain_place a)"), ("b", "List NameAt", "(plain_names b)", "(plain_names b)"))),
    ("Parenthesis", "LoopParenthesis", (("a", "Place", "(plain_place a)", "(plain_place a)"), ("b", "LoopTarget", "b", "(plain_loop_target b)"))),
)

PLACE = ("p", "Place", "(plain_place p)", "(plain_place p)")
INNER = ("ts", "Targets", "ts", "(plain_targets ts)")
TARGETS = (
    ("One", "OneTarget", (("t", "Target", "(plain_target t)", "(plain_target t)"),)),
    ("Several", "SomeTargets", (PLACE, ("ts", "List Target", "(plain_target_list ts)", "(plain_target_list ts)"))),
    ("Parenthesis", "ParenthesisTargets", (PLACE, INNER)),
    ("Bracket", "BracketTargets", (PLACE, INNER)),
)


def small_view(kind, low, rows, ruleset):
    """The step, the view and the equations of a tree whose children are no lists of it."""
    view, step = f"plain_{low}", f"{low}_step"
    fold = f"fold-{kind} meaning.{kind} {step}"
    out = [f"abbrev pub {step} : {low}_open.{kind}-F meaning.{kind} → meaning.{kind}\n"]
    for code, plain, fields in rows:
        names = " ".join(name for name, _, _, _ in fields)
        out.append(f"{step} ({low}_open.{code} {names}) = meaning.{plain} {' '.join(inner for _, _, inner, _ in fields)}\n")
    out.append(f"\nunfoldable pub {view} : {kind} → meaning.{kind}\n{view} = {fold}\n\n")
    for code, plain, fields in rows:
        names = " ".join(name for name, _, _, _ in fields)
        typed = " ".join(f"({name} : {of})" for name, of, _, _ in fields)
        out.append(f"pub {view}-{code} : {typed} → {view} ({low}.{code} {names}) ≡ meaning.{plain} {' '.join(shown for _, _, _, shown in fields)}\n")
        out.append(f"unfolding {view}\n{view}-{code} {names} = ap ({fold}) (sym ({low}.rolls-{code} {names})) ∙ fold-roll-{kind} meaning.{kind} {step} _\n\n")
    out.append(f"pub ruleset {ruleset} = ({', '.join(f'{view}-{code}' for code, _, _ in rows)})\n\n")
    return "".join(out)


SLICES = """-- the same for each number of bounds
pub plain_expr-Slice-neither : (a : Place) (b : Expr) → plain_expr (expr.Slice a b None None) ≡ meaning.ESlice (plain_place a) (plain_expr b) meaning.no_expr meaning.no_expr
plain_expr-Slice-neither a b = plain_expr-Slice a b None None

pub plain_expr-Slice-lower : (a : Place) (b c : Expr) → plain_expr (expr.Slice a b (Some c) None) ≡ meaning.ESlice (plain_place a) (plain_expr b) (meaning.an_expr (plain_expr c)) meaning.no_expr
plain_expr-Slice-lower a b c = plain_expr-Slice a b (Some c) None

pub plain_expr-Slice-no-upper : (a : Place) (b : Expr) (c : Option Expr) → plain_expr (expr.Slice a b c None) ≡ meaning.ESlice (plain_place a) (plain_expr b) (plain_maybe c) meaning.no_expr
plain_expr-Slice-no-upper a b c = plain_expr-Slice a b c None

pub plain_expr-Slice-upper : (a : Place) (b : Expr) (c : Option Expr) (d : Expr) → plain_expr (expr.Slice a b c (Some d)) ≡ meaning.ESlice (plain_place a) (plain_expr b) (plain_maybe c) (meaning.an_expr (plain_expr d))
plain_expr-Slice-upper a b c d = plain_expr-Slice a b c (Some d)

"""


def write_exprs():
    out = [EXPR_HEAD]
    out.append("-- one level, whose parts are plain already\n" + small_view("LoopTarget", "loop_target", LOOP_TARGET, "plain_loop_targets"))
    out.append(EXPR_LISTS)
    children = {"expr", "exprs", "maybe", "pairs", "links", "keywords", "loops"}
    out.append("-- one level, whose parts are plain already\n")
    found = fold_view(out, "Expr", "plain_expr", "expr_step", EXPR, children, EXPR_MAPS)
    out.append(EXPR_CHILDREN.replace("folded : Expr → meaning.Expr\nfolded = fold-Expr meaning.Expr expr_step\n\n", ""))
    equations(out, "Expr", "plain_expr", "expr_step", found, EXPR_MAPS, "plain_exprs_by_variant")
    text = "".join(out).replace("pub plain_expr-Unary :", SLICES + "pub plain_expr-Unary :")
    text = text.replace("plain_expr-Slice, plain_expr-Unary", "plain_expr-Slice-neither, plain_expr-Slice-lower, plain_expr-Slice-no-upper, plain_expr-Slice-upper, plain_expr-Unary")
    (SPECS / "PlainExprs.antt").write_text(text)


STMT_HEAD = """-- The code's targets, statements and modules as the plain trees that definitions speak of. `tools/views.py` writes this
-- file.
use Rattle.std.specs.Prelude.{◌≡◌, List, [], ◌∷◌, map, Option}
use Rattle.std.specs.Option.{option_map}
use Rattle.std.proofs.Common.{refl, ap, ap₂, sym, ◌∙◌}
use Rattle.py_syntax.specs.Tree as meaning
use Rattle.py_lexer.specs.PlainTokens.{plain_place}
use Rattle.py_ast.specs.PlainExprs.{plain_name, plain_names, plain_loop_target, plain_expr, plain_maybe}
use Rattle.py_ast.specs.PlainOperators.{plain_binary}
use Rattle.shed_base.specs.declared.place.Place.{Place}
use Rattle.py_ast.specs.declared.tree.NameAt.{NameAt}
use Rattle.py_ast.specs.declared.operator.BinaryOperator.{BinaryOperator}
use Rattle.py_ast.specs.declared.tree.LoopTarget.{LoopTarget}
use Rattle.py_ast.specs.declared.tree.Expr.{Expr}
use Rattle.py_ast.specs.declared.tree.Target.{Target}
use Rattle.py_ast.specs.declared.tree.Target.TheVariants as target
use Rattle.py_ast.specs.declared.tree.Targets.{Targets}
use Rattle.py_ast.specs.declared.tree.Targets.TheVariants as targets
use Rattle.py_ast.specs.declared.tree.Targets.TheOpen as targets_open
use Rattle.py_ast.specs.declared.tree.Targets.TheFolds.{fold-Targets, fold-roll-Targets}
use Rattle.py_ast.specs.declared.tree.Imported.{Imported}
use Rattle.py_ast.specs.declared.tree.ClassName.{ClassName}
use Rattle.py_ast.specs.declared.tree.ClassName.TheVariants as class_name
use Rattle.py_ast.specs.declared.tree.Caught.{Caught}
use Rattle.py_ast.specs.declared.tree.Caught.TheVariants as caught
use Rattle.py_ast.specs.declared.tree.Parameter.{Parameter}
use Rattle.py_ast.specs.declared.tree.Stmt.{Stmt}
use Rattle.py_ast.specs.declared.tree.Stmt.TheVariants as stmt
use Rattle.py_ast.specs.declared.tree.Stmt.TheOpen as stmt_open
use Rattle.py_ast.specs.declared.tree.Stmt.TheFolds.{fold-Stmt, fold-roll-Stmt}
use Rattle.py_ast.specs.declared.tree.Module.{Module}

abbrev pub plain_target : Target → meaning.Target
plain_target (target.Name x) = meaning.TargetName (plain_name x)
plain_target (target.Attribute p e x) = meaning.TargetAttribute (plain_place p) (plain_expr e) (plain_name x)
plain_target (target.Subscript p e i) = meaning.TargetSubscript (plain_place p) (plain_expr e) (plain_expr i)

abbrev pub plain_target_list : List Target → List meaning.Target
plain_target_list = map plain_target

"""

STMT_LISTS = """abbrev pub plain_target_lists : List Targets → List meaning.Targets
plain_target_lists = map plain_targets

abbrev pub plain_class : ClassName → meaning.ClassName
plain_class (class_name.Bare x) = meaning.BareClass (plain_name x)
plain_class (class_name.Within m x) = meaning.ClassWithin (plain_name m) (plain_name x)

abbrev pub plain_caught : Caught → meaning.Caught
plain_caught caught.Everything = meaning.Everything
plain_caught (caught.Exceptions c x) = meaning.Exceptions (plain_class c) (option_map plain_name x)

abbrev pub plain_imported : Imported → meaning.Imported
plain_imported x = record { name = plain_name x.name; alias = option_map plain_name x.alias }

abbrev pub plain_imports : List Imported → List meaning.Imported
plain_imports = map plain_imported

abbrev pub plain_parameter : Parameter → meaning.Parameter
plain_parameter x = record { name = plain_name x.name; default = plain_maybe x.default }

abbrev pub plain_parameters : List Parameter → List meaning.Parameter
plain_parameters = map plain_parameter

-- children that are plain already, as the plain trees have them
abbrev pub body_of : List meaning.Stmt → meaning.Body
body_of [] = meaning.no_stmts
body_of (s ∷ body) = meaning.more_stmts s (body_of body)

abbrev pub handlers_of : List (Place × Caught × List meaning.Stmt) → meaning.Handlers
handlers_of [] = meaning.no_handlers
handlers_of (h ∷ hs) = meaning.more_handlers (plain_place h.0) (plain_caught h.1) (body_of h.2) (handlers_of hs)

-- one level, whose bodies are plain already
"""

STMT_CHILDREN = """abbrev pub plain_body : List Stmt → meaning.Body
plain_body [] = meaning.no_stmts
plain_body (s ∷ body) = meaning.more_stmts (plain_stmt s) (plain_body body)

abbrev pub plain_handlers : List (Place × Caught × List Stmt) → meaning.Handlers
plain_handlers [] = meaning.no_handlers
plain_handlers (h ∷ hs) = meaning.more_handlers (plain_place h.0) (plain_caught h.1) (plain_body h.2) (plain_handlers hs)

plain_body-map : (body : List Stmt) → body_of (map (fold-Stmt meaning.Stmt stmt_step) body) ≡ plain_body body
unfolding plain_stmt
plain_body-map [] = refl
plain_body-map (s ∷ body) = ap (meaning.more_stmts (plain_stmt s)) (plain_body-map body)

plain_handlers-map : (hs : List (Place × Caught × List Stmt)) → handlers_of (map (λ h. (h.0, h.1, map (fold-Stmt meaning.Stmt stmt_step) h.2)) hs) ≡ plain_handlers hs
unfolding plain_stmt
plain_handlers-map [] = refl
plain_handlers-map (h ∷ hs) = ap₂ (meaning.more_handlers (plain_place h.0) (plain_caught h.1)) (plain_body-map h.2) (plain_handlers-map hs)

"""

STMT_MAPS = {
    "plain_body": "body_of (map (fold-Stmt meaning.Stmt stmt_step) {})",
    "plain_handlers": "handlers_of (map (λ h. (h.0, h.1, map (fold-Stmt meaning.Stmt stmt_step) h.2)) {})",
}


def write_stmts():
    out = [STMT_HEAD, small_view("Targets", "targets", TARGETS, "plain_targets_by_variant"), STMT_LISTS]
    found = fold_view(out, "Stmt", "plain_stmt", "stmt_step", STMT, {"body", "handlers"}, STMT_MAPS)
    out.append(STMT_CHILDREN)
    equations(out, "Stmt", "plain_stmt", "stmt_step", found, STMT_MAPS, "plain_stmts_by_variant")
    out.append("\nabbrev pub plain : Module → meaning.Body\nplain m = plain_body m.body\n")
    (SPECS / "PlainTrees.antt").write_text("".join(out))


if __name__ == "__main__":
    write_exprs()
    write_stmts()
