# Tests that the page of definitions is what the sources say, and holds by its own words; and by made-up sources what comes
# on a page, and that a change is told.
# shellcheck shell=sh disable=SC2154,SC2016

holds 'the page of definitions is what the sources say' "$tools/definitions.py" --check
holds 'it holds by its own words' python3 "$tools/tests/definitions.py" "$top/docs/DEFINITIONS.md"

rm -rf definitions
mkdir -p definitions/docs definitions/crates/range_den/src definitions/crates/range_den/specs \
    definitions/crates/range_sett/src definitions/crates/range_sett/specs
printf '%s\n' '# The crates.' 'range_den:' 'range_sett: range_den' >definitions/crates.txt
cat >definitions/crates/range_den/src/fox.rt <<'END_OF_FILE'
// Foxes.

ghost use Rattle.range_den.specs.Fox.{IsYoung};

use std::marker::Model;

/// The most foxes of a den.
pub const FOX_LIMIT: u32 = 8;

/// How a fox feels.
pub enum Mood {
    /// It has eaten.
    Happy,
    Hungry { hours: u32 },
}

// Where a fox lives, which contracts see as a number.
pub struct Den {
    hidden: u32,
}

impl Model for Den {
    ghost use Rattle.std.specs.Prelude.{ℕ};

    ghost Value = { ℕ };
}

/// A fox.
#[derive(Clone)]
pub struct Fox {
    pub age: u32,
    pub mood: Mood,
    pub den: Den,
    pub ghost young: { IsYoung age },
}

/// A type that no contract names.
pub struct Badger {
    pub age: u32,
}
END_OF_FILE
cat >definitions/crates/range_den/specs/Fox.antt <<'END_OF_FILE'
-- What a fox is.
use Rattle.std.specs.Prelude.{◌≡◌, ◌+◌, ◌<◌, ℕ, Bool, true, false, List, [], ◌∷◌, Result, Ok, Err}
use Rattle.range_den.specs.declared.fox.Fox.{Fox}
use Rattle.range_den.specs.declared.fox.Mood.{Mood}
use Rattle.range_den.specs.declared.fox.Mood.TheVariants as moods
use Rattle.range_den.specs.declared.fox.TheConstants.{FOX_LIMIT}

-- what foxes come to, each by a weight, by the name of what is shown below
unfoldable pub sum : (ℕ → ℕ) → List Fox → ℕ
sum loner [] = 0
sum loner (fox ∷ foxes) = loner fox.age + sum loner foxes
-- whether a mood is good
abbrev pub is_good : Mood → Bool
is_good moods.Happy = true
is_good (moods.Hungry hours) = false

-- a fox of no year
abbrev pub IsYoung : ℕ → Type 0
IsYoung age = age < FOX_LIMIT

-- a definition that nothing uses
abbrev pub loner : ℕ
loner = FOX_LIMIT

-- a fox, or why there is none
pub data Found : Type 0 where
  of_fox : Fox → Found
  of_none : Found

-- one after the other
infixl 10 ◌>>=◌
abbrev pub ◌>>=◌ : {A B : Type 0} → Result A ℕ → (A → Result B ℕ) → Result B ℕ
(Ok x) >>= f = f x
(Err e) >>= f = Err e
-- a fox twice
abbrev pub twice : Found → Result ℕ ℕ
twice (of_fox fox) = do
  age ← Ok fox.age
  Ok (age + age)
twice of_none = Err 0
END_OF_FILE
cat >definitions/crates/range_sett/specs/Night.antt <<'END_OF_FILE'
-- What a night is.
use Rattle.std.specs.Prelude.{◌≡◌, ℕ, List, true, Err}
use Rattle.range_den.specs.declared.fox.Fox.{Fox}
use Rattle.range_den.specs.Fox.{sum as total, is_good, of_fox, twice}

-- a night of foxes
pub record IsNight (foxes : List Fox) (hours : ℕ) : Type 0 where
  -- all their hours
  pub all : total (λ age. age) foxes ≡ hours
  pub good : (fox : Fox) → is_good fox.mood ≡ true

-- a night without one
abbrev pub IsEmpty : Fox → Type 0
IsEmpty fox = twice (of_fox fox) ≡ Err 0
END_OF_FILE
cat >definitions/crates/range_sett/src/night.rt <<'END_OF_FILE'
// Nights.

ghost use Rattle.std.specs.Prelude.{◌≡◌};
ghost use Rattle.range_sett.specs.Night.{IsEmpty, IsNight};

use range_den::Fox;

pub fn follow(foxes: Vec<Fox>) -> u32
    ensures night { IsNight foxes.items result }
{
    0
}

pub fn run_with_gate(fox: Fox) -> u32
    ensures empty { IsEmpty fox }
{
    0
}

pub fn answer_to<T>(first: &T) -> u32
    ensures none { result ≡ 0 }
{
    0
}
END_OF_FILE

# The page of the made-up sources is written.
writes() {
    "$tools/definitions.py" definitions >defined 2>&1
}
# It is told in one line, with this in it, that the page of the sources as they stand now is another or cannot be made.
is_told() {
    "$tools/definitions.py" --check definitions >defined 2>&1
    holds "definitions: $1" [ "$?-$(grep -c . defined)-$(grep -cF -- "$2" defined)" = 1-1-1 ]
}
# The same, once sed has changed this file so; the file is then as it was.
tells() {
    cp "definitions/$4" defined_before
    sed -i "$3" "definitions/$4"
    holds "definitions: $1: it is changed" is_refused cmp -s "definitions/$4" defined_before
    is_told "$1" "$2"
    cp defined_before "definitions/$4"
}

holds 'definitions: a page is written' writes
holds 'definitions: it is right' "$tools/definitions.py" --check definitions
holds 'definitions: it holds by its own words' python3 "$tools/tests/definitions.py" definitions/docs/DEFINITIONS.md
holds 'definitions: it quotes its sources' python3 "$tools/tests/quotes.py" definitions definitions/docs/DEFINITIONS.md
sed -n 's/^### //p' definitions/docs/DEFINITIONS.md | paste -s -d ';' - >defined
holds 'definitions: what is on it, and in which order' [ "$(cat defined)" = "enum Mood;struct Den;const FOX_LIMIT;IsYoung;\
struct Fox;sum;is_good;data Found;the operator ◌>>=◌ of Fox;twice;record IsNight;IsEmpty;the headline: follow;\
the report: run_with_gate;the program: answer_to" ]
# The page has this line.
has_line() {
    holds "definitions: it has $1" grep -qxF -- "$1" definitions/docs/DEFINITIONS.md
}
has_line 'whether a mood is good *(headline)*'
has_line 'a fox, or why there is none *(report)*'
has_line 'How a fox feels. *(headline, report)*'
has_line 'Here `moods` stands for the variants of [enum Mood](#enum-mood).'
has_line 'Here `total` stands for [sum](#sum).'
has_line '| headline, `follow` | the tables and polygons of all files, in every schedule of the threads | 4 | 12 | 4 | 15 |'
has_line '    ghost Value = { ℕ };'

fox=crates/range_den/specs/Fox.antt night=crates/range_sett/specs/Night.antt code=crates/range_den/src/fox.rt
other='docs/DEFINITIONS.md is not what the sources say: run tools/definitions.py'
tells 'a changed definition' "$other" 's/^sum loner \[\] = 0/sum loner [] = 1/' "$fox"
tells 'a changed sentence' "$other" 's/^-- a fox twice/-- a fox thrice/' "$fox"
tells 'a changed type of the code' "$other" 's/hours: u32/hours: u64/' "$code"
tells 'a changed limit' "$other" 's/u32 = 8/u32 = 9/' "$code"
tells 'a changed contract' "$other" 's/result ≡ 0/result ≡ 1/' crates/range_sett/src/night.rt
tells 'a definition more' "$other" 's/^loner = FOX_LIMIT/&\n/; s/^IsYoung age = age/IsYoung age = loner/' "$fox"
tells 'a definition that is taken out of the page' "$other" '/^### is_good/,/^### data/{/^### data/!d}' docs/DEFINITIONS.md
tells 'another word on the page' "$other" 's/^a fox of no year/a fox of a year/' docs/DEFINITIONS.md
tells 'a definition without a sentence' "$fox: is_good has no sentence above it" '/^-- whether a mood/d' "$fox"
tells 'a type without a sentence' "$code: Mood has no sentence above it" '/^\/\/\/ How a fox/d' "$code"
tells 'a name that nothing says' "$night: IsEmpty: nothing says what twice is" 's/, twice}/}/' "$night"
tells 'a name of a contract that nothing says' 'night.rt: follow: nothing says what IsNight is' 's/, IsNight}/}/' \
    crates/range_sett/src/night.rt
tells 'a definition that is not there' "$night: IsEmpty: Rattle.range_den.specs.Fox has no definition of_hare" \
    's/of_fox/of_hare/' "$night"
tells 'a type that is not there' "crates/range_den/src has no type, trait or constant Fix" \
    's/Fox\.{Fox}/Fix.{Fix as Fox}/' "$night"
tells 'a contract that is not there' 'there are 0 public functions follow, and not one' 's/^pub fn follow/fn follow/' \
    crates/range_sett/src/night.rt
holds 'definitions: it is right again' "$tools/definitions.py" --check definitions

# A page that holds not by its own words has this fault, once sed has changed it so.
has_fault() {
    sed "$2" definitions/docs/DEFINITIONS.md >defined_page
    python3 "$tools/tests/definitions.py" defined_page >defined 2>&1
    holds "definitions, by words: $1" [ "$?-$(grep -cF -- "$1" defined)" = 1-1 ]
}
has_fault 'record IsNight: nothing says what is_good is' '/^### is_good/,/^### data/{/^### data/!d}'
has_fault 'const FOX_LIMIT: one comes to it from' '/^IsYoung age/s/FOX_LIMIT/8/'
has_fault 'IsEmpty: nothing says what Err is' 's/`Err`, //; s/, `Err`//'
has_fault "is_good: one comes to it from ['headline'], not from ['report']" 's/^whether a mood is good .*/whether a mood is good *(report)*/'
has_fault 'sum: it uses data Found, which is shown below it' 's/^sum loner \[\] = 0/sum loner [] = of_none/'
sed '/^## The contracts/,$d' definitions/docs/DEFINITIONS.md >defined_page
holds 'definitions, by words: a page without contracts' is_refused python3 "$tools/tests/definitions.py" defined_page
