# Tests that what the pages quote stands in the sources, and by made-up sources that a page which quotes something else
# is told, with its line.
# shellcheck shell=sh disable=SC2154

for page in README.md docs/PROOF.md docs/DEFINITIONS.md; do
    holds "the quotes of $page" python3 "$tools/tests/quotes.py" "$top" "$top/$page"
done

rm -rf quotes
mkdir -p quotes/crates/den/src quotes/crates/den/specs quotes/crates/sett/src
cat >quotes/crates/den/src/fox.rt <<'END'
pub fn sleep(hours: u32) -> u32
    requires night { hours ≤ 8 }
    ensures rest { result ≡ hours }
{
    hours
}

pub fn wake() -> u32
    ensures hungry { result ≡ 1 }
{
    1
}
END
mkdir quotes/crates/den/must-fail
echo 'file: src/fox.rt' >quotes/crates/den/must-fail/fox_is_never_hungry.edit
printf '%s\n' '-- a fox is red' 'IsRed : Fox → Type 0' 'IsRed fox = fox.coat ≡ red' >quotes/crates/den/specs/Fox.antt
cat >quotes/crates/sett/src/badger.rt <<'END'
pub fn dig(depth: u32) -> u32 {
    depth
}

pub fn eat() -> u32
    ensures full { result ≡ 2 }
{
    2
}
END

# What is said of the page on standard input.
quote() {
    cat >quotes/page.md
    python3 "$tools/tests/quotes.py" quotes quotes/page.md >quoted 2>&1
    ended=$?
}

# The page on standard input has so many quotes, and all are found.
found() {
    quote
    holds "quotes: $2" [ "$ended-$(tail -n 1 quoted)" = "0-$1 of $1 quotes found" ]
}

# The page on standard input has a quote in this line that is not found, and no other.
missed() {
    quote
    holds "quotes: $2: refused" [ "$ended" -eq 1 ]
    holds "quotes: $2: the line" [ "$(sed -n 's/^quotes\/page.md:\([0-9]*\): .*/\1/p' quoted)" = "$1" ]
}

found 3 'whole, cut, and of no named file' <<'END'
```rust crates/den/src/fox.rt
pub fn sleep(hours: u32) -> u32
    requires night
        { hours ≤ 8 }
```

```text crates/den/src/fox.rt
pub fn sleep(hours: u32) -> u32
    ...
    ensures hungry { result ≡ 1 }
```

```antt
IsRed : Fox → Type 0
```
END
found 5 'clauses, and names of a crate' <<'END'
| `sleep`, clause `rest`, in `den` | a fox |
|---|---|
| It sleeps. | `wake`, clause `hungry`; `sleep`, clauses `rest` and `rest` |

**den**
- `IsRed` says what a fox is.

`IsBlue` is no name of the den.
END
missed 2 'another word' <<'END'
Words.
```antt crates/den/specs/Fox.antt
IsRed fox = fox.coat ≡ grey
```
END
missed 1 'a part of a word' <<'END'
```antt
Red : Fox → Type 0
```
END
missed 1 'a quote of another file' <<'END'
```rust crates/den/src/fox.rt
pub fn dig(depth: u32) -> u32
```
END
missed 1 'a file that is not there' <<'END'
```rust crates/den/src/wolf.rt
pub fn dig(depth: u32) -> u32
```
END
missed 1 'pieces in another order' <<'END'
```rust crates/den/src/fox.rt
    ensures hungry { result ≡ 1 }
...
    ensures rest { result ≡ hours }
```
END
missed 1 'pieces of two files' <<'END'
```rust
pub fn wake() -> u32
...
pub fn dig(depth: u32) -> u32
```
END
missed 1 'nothing but a cut' <<'END'
```rust crates/den/src/fox.rt
...
```
END
missed 1 'a line that is left out and not told' <<'END'
```rust
pub fn sleep(hours: u32) -> u32
    ensures rest { result ≡ hours }
```
END
missed 1 'a clause of another function' <<'END'
It is never hungry: `sleep`, clause `hungry`.
END
missed 1 'a clause of the next function' <<'END'
It eats: `dig`, clause `full`.
END
missed 1 'a clause of another crate' <<'END'
It digs: `sleep`, clause `rest`, in `sett`.
END
missed 3 'a name of another crate' <<'END'
**den**
- `sleep` is what a fox does.
- `dig` is not.
END
found 2 'edits' <<'END'
| A fox wakes. | `wake`, clause `hungry`, in `den` | `fox_is_never_hungry` |
END
missed 1 'an edit of another crate' <<'END'
| A badger eats. | `eat`, clause `full`, in `sett` | `fox_is_never_hungry` |
END
missed 1 'a name of another crate in a table' <<'END'
| `sett` | a badger | `dig`, `sleep` |
END
echo 'No quote.' | quote
holds 'quotes: a page without quotes' [ "$ended" -eq 1 ]
