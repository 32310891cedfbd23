"""docs/audit on a small repository of two crates: what it lists, and where it ends the program."""
import importlib.machinery
import importlib.util
import pathlib
import tempfile
import typing
import unittest

TOP = pathlib.Path(__file__).resolve().parent.parent.parent
FILES = {
    "crates.txt": "low: kit_low\ntop: low kit_top\nlow_tests: low kit_tests\n",
    "crates/low/src/lib.rt": "mod kind;\nmod laws;\npub use kind::{Kind, Seen};\npub const LIMIT: u32 = 4;\n",
    "crates/low/src/kind.rt": """\
ghost use Rattle.low.specs.Even.{rank};
use crate::hidden::Hidden;

/// A kind.
pub enum Kind {
    One,
}

impl Ord for Kind {
    ghost cmp = { λ a b. rank a b };

    ghost total = { a_proof };

    fn cmp(&self, other: &Kind) -> Ordering {
        Equal
    }
}

/// A type whose places are cited.
pub enum Placed {
    First,
}

/// What contracts see as a number.
pub struct Seen {
    hidden: Hidden,
}

impl Model for Seen {
    ghost use Rattle.low.specs.Even.{twice};

    ghost Value = { ℕ };

    ghost view = { λ s. twice s.hidden.now };

    ghost inverse = { λ n. a_proof };
}
""",
    "crates/low/src/hidden.rt": "/// Private.\npub struct Hidden {\n    number: u32,\n}\n",
    "crates/low/src/laws.rt": """\
ghost use Rattle.low.specs.Even.{EvensAreEven};

/// A law.
pub fn evens_are_even()
    ensures { EvensAreEven }
{}

/// Another one.
pub fn no_law()
    ensures { EvensAreEven }
{}
""",
    "crates/low/specs/Even.antt": """\
use Rattle.std.specs.Prelude.{ℕ, Bool, true, ◌≡◌}
use Rattle.low.specs.declared.TheConstants.{LIMIT}
use Rattle.low.specs.declared.kind.Kind.{Kind}
use Rattle.low.specs.contracts.kind.KindOrd.TheImpl as derived
use Rattle.low.specs.contracts.kind.Placed.{the_type}

-- as many steps as the limit
abbrev pub is_even : ℕ → Bool
is_even n = steps LIMIT n

steps : ℕ → ℕ → Bool
steps bound n = the_type

twice : ℕ → ℕ
twice n = n

rank : Kind → Kind → Bool
rank a b = true

order : Kind → Kind → Bool
order = (derived.ghosts).cmp

-- nobody cites it
unused : ℕ
unused = LIMIT

IsEven : ℕ → Type 0
IsEven n = is_even n ≡ true

EvensAreEven : {Number : Type 0} → Type 0
EvensAreEven {Number} = (n : Number) → (m : ℕ) → IsEven m
""",
    "crates/top/src/lib.rt": "mod commands;\n",
    "crates/top/src/commands.rt": """\
ghost use Rattle.top.specs.Run.{IsRun};
use low::Seen;

/// The call.
pub fn run(words: &Seen) -> u32
    ensures run { IsRun words.now result }
{
    0
}
""",
    "crates/top/specs/Run.antt": """\
use Rattle.std.specs.Prelude.{ℕ, true, ◌≡◌}
use Rattle.low.specs.Even.{is_even, order}
use Rattle.low.specs.declared.kind.Seen.{Seen}

pub record IsRun (words : Seen) (status : ℕ) : Type 0 where
  pub even : is_even status ≡ true
  pub ordered : order words words ≡ true
""",
}


def audit() -> typing.Any:
    """docs/audit as a module."""
    loader = importlib.machinery.SourceFileLoader("audit", str(TOP / "docs/audit"))
    spec = importlib.util.spec_from_loader("audit", loader)
    assert spec is not None
    module = importlib.util.module_from_spec(spec)
    loader.exec_module(module)
    return module


class Audit(unittest.TestCase):
    def small(self, changes: dict[str, tuple[str, str]]) -> tuple[typing.Any, typing.Any]:
        """The small repository with a text of some files changed, and docs/audit as a module."""
        module = audit()
        folder = tempfile.TemporaryDirectory()
        self.addCleanup(folder.cleanup)
        top = pathlib.Path(folder.name)
        for name, text in FILES.items():
            old, new = changes.get(name, ("", ""))
            self.assertIn(old, text)
            (top / name).parent.mkdir(parents=True, exist_ok=True)
            (top / name).write_text(text.replace(old, new) if old else text, encoding="utf-8")
        return module.Repository(top), module

    def reached(self, changes: dict[str, tuple[str, str]], laws: tuple[str, ...] = ()) -> set[str]:
        """The names that are reached in it."""
        repository, module = self.small(changes)
        file = repository.rust_file("top", ["commands"])
        found: dict[int, tuple[typing.Any, typing.Any]] = {}
        module.walk(repository, [(file, file.functions["run"])], found)
        for law in laws:
            module.walk(repository, [module.law_of(repository, "low", law)], found)
        return {item.name for _, item in found.values()}

    def ends(self, name: str, old: str, new: str) -> str:
        """What is said where the walk ends the program."""
        with self.assertRaises(SystemExit) as caught:
            self.reached({name: (old, new)})
        return str(caught.exception)

    def test_a_chain_is_followed(self) -> None:
        names = self.reached({})
        due = "run IsRun is_even steps LIMIT Placed order rank Kind Seen twice".split()
        self.assertEqual(names, {*due, "Ord of Kind"})

    def test_a_law_adds_its_relation_alone(self) -> None:
        added = self.reached({}, laws=("evens_are_even",)) - self.reached({})
        self.assertEqual(added, {"evens_are_even", "EvensAreEven", "IsEven"})

    def test_the_shorter_list_of_names_is_printed(self) -> None:
        module = audit()
        with tempfile.TemporaryDirectory() as folder:
            specs, code = pathlib.Path(folder) / "Even.antt", pathlib.Path(folder) / "kind.rt"
            specs.write_text("a : Bool\na = true\n\nb : Bool\nb = a\n\nc : Bool\nc = b\n", encoding="utf-8")
            code.write_text("pub struct Kind(u8);\n", encoding="utf-8")
            file = module.read_spec(specs)
            items = list(file.items.values())
            self.assertEqual(module.names_of(file, items), "all")
            self.assertEqual(module.names_of(file, items[1:]), "all but `a`")
            self.assertEqual(module.names_of(file, items[:1]), "`a`")
            file = module.read_rust(code)
            self.assertEqual(module.names_of(file, list(file.items.values())), "`Kind`")

    def test_private_fields_and_proofs_are_not_followed(self) -> None:
        names = self.reached({})
        self.assertFalse({"Hidden", "a_proof", "unused"} & names)

    def test_a_name_that_is_nothing_ends_it(self) -> None:
        specs, code = "crates/low/specs/Even.antt", "crates/top/src/commands.rt"
        for name, old, new, word in (
            (specs, "steps LIMIT n", "stops LIMIT n", "stops"),
            (code, "{ IsRun words.now result }", "{ IsRum words.now result }", "IsRum"),
            ("crates/top/specs/Run.antt", "is_even", "is_odd", "is_odd"),
            ("crates/top/specs/Run.antt", "is_even status", "is_evn status", "is_evn"),
        ):
            said = self.ends(name, old, new)
            self.assertIn("names nothing", said)
            self.assertIn(word, said)

    def test_crates_of_the_kit_are_those_that_a_crate_stands_on(self) -> None:
        repository, _ = self.small({})
        self.assertEqual(repository.kit_below("top"), ["kit_low", "kit_top"])

    def test_a_crate_that_is_not_listed_ends_it(self) -> None:
        self.assertIn("does not list low", self.ends("crates.txt", "low: kit_low\n", ""))

    def test_a_law_that_is_missing_ends_it(self) -> None:
        with self.assertRaises(SystemExit) as caught:
            self.reached({}, laws=("odds_are_odd",))
        self.assertIn("has no law odds_are_odd", str(caught.exception))
