"""Small examples for check-copies: each has a few files, and what is found in them."""

PRELUDE = "use Rattle.std.specs.Prelude.{◌≡◌, ℕ, Bool, false, ◌||◌, List, [], ◌∷◌, length}\n"
ROOT = "crates/a/src/lib.rt"


def using(*names):
    """An .rt file that cites lemmas, by `module::name`."""
    return {ROOT: "#[tactic(auto, using(" + ", ".join(f"crate::proofs::{name}" for name in names) + "))]"}


LEMMA = "or_false : (b : Bool) → b || false ≡ b\nor_false b = refl\n"


def taken(types, name, kind, of=""):
    """A file with a type, and a definition of this kind on lists."""
    return PRELUDE + (
        "use Rattle.std.specs.Prelude.{Option, None, Some, ◌-◌, take}\n"
        f"abbrev pub {types}\n"
        f"abbrev pub {name} : {kind}\n"
        f"{name}{of} None now = now\n"
        f"{name}{of} (Some count) now = take (length now - count) now\n"
    )


EXAMPLES = [
    ("a rename is found", {
        "crates/a/proofs/One.antt": PRELUDE + "pub " + LEMMA,
        "crates/a/proofs/Two.antt": PRELUDE + "-- the same\npub or_no : (c : Bool) →\n    c || false ≡ c\nor_no c = refl\n",
    } | using("One::or_false", "Two::or_no"), ["`or_no` is a copy of `or_false`"]),
    ("a definition on another definition of that name is none", {
        "crates/a/specs/One.antt": PRELUDE + "abbrev pub Fits : ℕ → Type 0\nFits n = n ≡ n\n",
        "crates/a/specs/Two.antt": PRELUDE + "abbrev pub Fits : ℕ → Type 0\nFits n = length [] ≡ n\n",
        "crates/a/proofs/One.antt": PRELUDE + (
            "use Rattle.a.specs.One.{Fits}\n"
            "pub one : (a b : ℕ) → Fits a → Fits b\n"
            "one a b h = h\n"
        ),
        "crates/a/proofs/Two.antt": PRELUDE + (
            "use Rattle.a.specs.Two.{Fits}\n"
            "pub two : (a b : ℕ) → Fits a → Fits b\n"
            "two a b h = h\n"
        ),
    } | using("One::one", "Two::two"), []),
    ("a lemma on a copied definition is found", {
        "crates/a/specs/One.antt": PRELUDE + "abbrev pub Fits : ℕ → Type 0\nFits n = length [] ≡ n\n",
        "crates/a/specs/Two.antt": PRELUDE + "abbrev pub Suits : ℕ → Type 0\nSuits size = length [] ≡ size\n",
        "crates/a/proofs/One.antt": PRELUDE + (
            "use Rattle.a.specs.One.{Fits}\n"
            "pub one : (a b : ℕ) → Fits a → Fits b\n"
            "one a b h = h\n"
        ),
        "crates/a/proofs/Two.antt": PRELUDE + (
            "use Rattle.a.specs.Two.{Suits}\n"
            "pub two : (a b : ℕ) → Suits a → Suits b\n"
            "two a b h = h\n"
        ),
    } | using("One::one", "Two::two"), ["`Suits` is a copy of `Fits`", "`two` is a copy of `one`"]),
    ("a definition at another type is found, whatever its types are made of, and at any type too", {
        "crates/a/specs/One.antt": taken("Carried : Type 0\nCarried = ℕ", "shown", "Option ℕ → List Carried → List Carried"),
        "crates/a/specs/Two.antt": taken("Signed : Type 0\nSigned = ℕ × Bool", "shown", "Option ℕ → List Signed → List Signed"),
        "crates/a/specs/Three.antt": taken("Ends : Type 0\nEnds = List Bool", "seen", "Option ℕ → List (ℕ × List Ends) → List (ℕ × List Ends)"),
        "crates/a/specs/Four.antt": taken("Room : Type 0\nRoom = Bool", "left", "{X : Type 0} → Option ℕ → List X → List X", " {X}"),
        ROOT: "".join(f"ghost use Rattle.a.specs.{names};\n" for names in (
            "One.{Carried, shown}", "Two.{Signed, shown}", "Three.{Ends, seen}", "Four.{Room, left}"
        )),
    }, ["`shown` is a copy but for types of `left`", "`seen` is a copy but for types of `left`", "`shown` is a copy but for types of `left`"]),
    ("a lemma at another type is found, one that takes a field isn't", {
        "crates/a/proofs/One.antt": PRELUDE + "pub one : (xs : List ℕ) → length xs ≡ 0 → xs ≡ [] || xs\none xs h = sym h\n"
        "pub field : (a b : ℕ) → a.number ≡ b.number → a ≡ b\nfield a b h = it h\n",
        "crates/a/proofs/Two.antt": PRELUDE + "pub two : (ys : List (List Bool)) → length ys ≡ 0 → ys ≡ [] || ys\ntwo ys h = sym h\n"
        "pub other : (a b : Bool) → a.number ≡ b.number → a ≡ b\nother a b h = it h\n",
    } | using("One::one", "One::field", "Two::two", "Two::other"), ["`two` is a copy but for types of `one`"]),
    ("bound names of λ, let and elim don't matter", {
        "crates/a/specs/One.antt": PRELUDE + "abbrev pub One : ℕ → Type 0\n"
        "One n = let m : ℕ = n in elim m [ zero ↦ m ≡ n | suc k ↦ (λ (x : ℕ) y. x ≡ y) k m ]\n",
        "crates/a/specs/Two.antt": PRELUDE + "abbrev pub Two : ℕ → Type 0\n"
        "Two a = let b : ℕ = a in elim b [ zero ↦ b ≡ a | suc c ↦ (λ (d : ℕ) e. d ≡ e) c b ]\n",
        "crates/a/specs/Three.antt": PRELUDE + "abbrev pub Three : ℕ → Type 0\n"
        "Three a = let b : ℕ = a in elim b [ zero ↦ b ≡ a | suc c ↦ (λ (d : ℕ) e. e ≡ d) c b ]\n",
        ROOT: "ghost use Rattle.a.specs.One.{One};\nghost use Rattle.a.specs.Two.{Two};\nghost use Rattle.a.specs.Three.{Three};",
    }, ["`Two` is a copy of `One`"]),
    ("a section's parameters stand in front", {
        "crates/a/proofs/One.antt": PRELUDE + (
            "module _ (xs : List ℕ) (n : ℕ) where\n"
            "  pub one : (k : ℕ) → length xs ≡ k → k ≡ length xs\n"
            "  one k h = sym h\n"
        ),
        "crates/a/proofs/Two.antt": PRELUDE + (
            "pub two : (ys : List ℕ) (i : ℕ) → length ys ≡ i → i ≡ length ys\n"
            "two ys i h = sym h\n"
        ),
    } | using("One::one", "Two::two"), ["`two` is a copy of `one`"]),
    ("a premise of a section counts where the proof needs it", {
        "crates/a/proofs/One.antt": PRELUDE + (
            "module _ (xs : List ℕ) (h : length xs ≡ 0) where\n"
            "  pub one : (k : ℕ) → length xs ≡ k\n"
            "  one k = use_it h\n"
        ),
        "crates/a/proofs/Two.antt": PRELUDE + (
            "module _ (xs : List ℕ) (h : length xs ≡ 1) where\n"
            "  pub two : (k : ℕ) → length xs ≡ k\n"
            "  two k = use_it h\n"
        ),
    } | using("One::one", "Two::two"), []),
    ("a copy in a `where` block is found, one that rests on its surroundings isn't", {
        "crates/a/proofs/One.antt": PRELUDE + "pub one : (n : ℕ) → n ≡ 1\none n = or_no n\n  where\n"
        "    or_no : (b : Bool) → b || false ≡ b\n    or_no b = refl\n",
        "crates/a/proofs/Two.antt": PRELUDE + (
            "pub "
            + LEMMA +
            "pub two : (a b : ℕ) → a ≡ b → a ≡ b\n"
            "two a b h = go\n"
            "  where\n"
            "    go : length [] ≡ 0 || false\n"
            "    go = it h\n"
        ),
        "crates/a/proofs/Three.antt": PRELUDE + (
            "pub three : (a b : ℕ) → b ≡ a → a ≡ b\n"
            "three a b h = go\n"
            "  where\n"
            "    go : length [] ≡ 0 || false\n"
            "    go = it h\n"
        ),
    } | using("One::one", "Two::two", "Two::or_false", "Three::three"), ["`or_false` is a copy of `or_no`"]),
    ("a dead lemma is found, and what only it cites", {
        "crates/a/proofs/One.antt": PRELUDE + LEMMA + "pub one : (b : Bool) → b ≡ b || false\none b = sym (or_false b)\n",
    }, ["only dead names cite `or_false`", "nothing cites `one`"]),
    ("a lemma that another module passes on is used where it is cited there", {
        "crates/a/proofs/One.antt": PRELUDE + "pub " + LEMMA,
        "crates/a/proofs/Two.antt": "pub use Rattle.a.proofs.One.{or_false}\n",
    } | using("Two::or_false"), []),
    ("a library that a crate lists is named by its code", {
        "crates.txt": "# crate: libraries\nb:\na: b c d\n",
        "crates/a/src/lib.rt": "// c is named in a comment alone\nuse b::x;\n",
        "crates/a/proofs/One.antt": "use Rattle.d.specs.D.{x}\npub use Rattle.d.specs.D.{x}\n",
        "crates/b/src/lib.rt": "use c::x;\n",
    }, ["no file of `a` names `c`"]),
    ("an operator's parts are uses of it, a field's name isn't one", {
        "crates/a/proofs/One.antt": PRELUDE + "use Rattle.std.specs.Prelude.{if◌then◌else◌, ◌++◌, at}\n"
        "pub one : (b : Bool) (xs : List ℕ) → (if b || false then xs.at else (3 ∷ [])) ≡ xs\none b xs = length refl\n",
    } | using("One::one"), ["the import `◌++◌` is unused", "the import `at` is unused"]),
    ("a clause uses what its file imports for it; a parameter of that name and code don't", {
        ROOT: (
            "ghost use Rattle.std.specs.Prelude.{◌≡◌, ◌+◌, map};\n"
            "ghost use Rattle.toml.specs.Data.{table, view as seen};\n"
            "// The map of a table.\n"
            "fn f(table: u8) -> u8\n"
            "    ensures { result ≡ seen table.now }\n"
            "{\n"
            "    table + 1\n"
            "}\n"
        ),
    }, ["the import `◌+◌` is unused", "the import `map` is unused", "the import `table` is unused"]),
]


def run(check, allowed, findings_of):
    """Run the examples; the exit status."""
    failed = 0
    for title, texts, expected in EXAMPLES:
        found = [line.split(": ", 1)[1].split(" at ")[0] for line in findings_of(check(texts), allowed(""))[0]]
        if "unused" not in "".join(expected):
            found = [line for line in found if "unused" not in line]
        if sorted(found) != sorted(expected):
            failed += 1
            print(f"{title}: expected {sorted(expected)}, found {sorted(found)}")
    pair = {"crates/a/proofs/One.antt": PRELUDE + LEMMA, "crates/b/proofs/Two.antt": PRELUDE + LEMMA}
    exceptions = "or_false crates/a/proofs/One.antt crates/b/proofs/Two.antt : a test\nno_such crates/a/proofs/One.antt : a test"
    lines = findings_of(check(pair), allowed(exceptions))[0]
    if any("copy" in line for line in lines) or not any("`no_such` matches nothing" in line for line in lines):
        failed += 1
        print(f"exceptions: found {lines}")
    stands = {"crates/a/proofs/One.antt": PRELUDE + LEMMA + "pub one : (b : Bool) → b ≡ b || false\none b = sym (or_false b)\n"}
    lines = findings_of(check(stands), allowed("one crates/a/proofs/One.antt : a test"))[0]
    if any("cite" in line or "matches nothing" in line for line in lines):
        failed += 1
        print(f"what may stand dead, with what it cites: found {lines}")
    print(f"check-copies: {len(EXAMPLES) + 2 - failed} passed, {failed} failed")
    return 1 if failed else 0
