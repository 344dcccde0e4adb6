"""What the page of definitions says itself: of the contracts, of signs, and of names of the toolchain."""

# The function that has each contract, what the page calls the contract, and what it promises.
ROOTS = {
    "follow": ("headline", "the tables and polygons of all files, in every schedule of the threads"),
    "run_with_gate": ("report", "the bytes of the report"),
    "answer_to": ("program", "what the program writes, its status and its line on standard error"),
}
ABOUT = (
    "This page has every definition of this repository that three contracts rest on, word for word, the lowest first: "
    "nothing is used before it is shown, unless it is used by itself. Whoever has read it has read what the numbers "
    "of a report mean, but for what the toolchain defines. `tools/definitions.py` writes it from the sources, and "
    "`./test` holds it to them. [PROOF.md](PROOF.md) says what the contracts promise, and what they do not.",
    "*Definitions* stand in specs. *Types and limits* are those of the code that definitions name: its types, traits "
    "and constants. Of a type that contracts see as another kind of thing, the page has the first line and the line "
    "that says what it is seen as (`ghost Value`). Lines are those of the blocks below. Behind the sentence of each "
    "stands which contracts rest on it. What the toolchain defines is [named at the end](#what-the-toolchain-defines), "
    "and [the three contracts](#the-contracts) stand below that.",
)
NOTATION = """\
`ℕ`, `ℤ`, `List T`	whole numbers from 0; all whole numbers; finite lists
`Option T`, `Result T E`	a `T` or nothing (`Some x`, `None`); a `T` or a fault (`Ok x`, `Err e`)
`[]`, `x ∷ xs`, `xs ++ ys`	the empty list; x, and then the members of xs; one list behind the other
`A → B`, `(x : T) → P`	if A then B, or between kinds of things a function; P for each x of T
`A × B`, `(x : T) × P`	A and B, or a pair; P for some x of T
`A ⊎ B`, `¬ A`, `⊤`, `⊥`	A or B; not A; what is always true; what is never true
`a ≡ b`, `a ≢ b`, `A ↔ B`	a is b; it is not; each of A and B follows from the other
`==`, `&&`, `\\|\\|`, `not`, `nat_lt`	the same as tests, which are `true` or `false`
`+ℤ`, `≤ℤ`, `pos n`	sums and order of whole numbers that may be negative; n as one of them
`f x y`, `λ x. e`	f of x and y, without brackets; the function that gives e for x
`x.part`, `p.0`, `p.1`	a part of a record; the first and the second of a pair
`name : T`, `name x = e`	what kind of thing it is; what it is of x, by cases, of which the first that fits counts
`Type 0`	behind a last arrow: a statement; else a kind of things
`record`, `record r { p = e }`	a list of named parts, of which statements all hold; r with another part p
`data`	all ways in which something is made, or holds
`do`, `x ← e`	one step after the other; x is what e gives, and a fault of e is that of all
`pub`, `abbrev`, `unfoldable`	others may name it; how the prover opens it. They change no meaning
`requires`, `ensures`, `result`	of a contract: what the caller sees to; what then holds; what the call returns
`x.old`, `x.new`, `x.now`	of a reference: what it shows before the call; after it; where it does not change
`u8` to `u64`, `usize`, `i64`	in contracts whole numbers, from 0 but for the last, within their bits
`xs.items`, `vec_len xs`	the members of an array as a list; how many they are
"""
# Of names of the toolchain, such as are on the page.
MEANINGS = """\
`All P xs`	P of each member of xs
`AllPairs R xs`	R of each member and each later one
`AllZip R xs ys`	the lists are as long as each other, and R of every two members with the same index
`Contains xs x`	x is a member of xs
`IsPrefix xs ys`	ys begins with xs
`length xs`, `map f xs`, `filter p xs`	how many members; f of each; those that pass p
`take n xs`, `drop n xs`	the first n members; all but these
`flat_map f xs`	the lists f of each member, one behind the other
`count_by p xs`, `list_all p xs`, `list_any p xs`	how many pass p; whether all do; whether some do
`fold f a xs`	f of a and the first member, then f of that and the second, and so on
`range_with_len a n`	n numbers, from a on
`slice_get xs i`, `slice_index_or xs i d`	the member with index i, from 0, if there is one; that member, or d
`slice_split p xs`	what stands between the members that pass p
`option_map f x`, `unwrap_or x d`	f of what x holds, if it holds anything; what it holds, or else d
`IfSome x P`, `IfOk x P`, `IfErr x P`	if x holds a value, P of it; if it is `Ok`, P of what that holds; so for `Err`
`IsSome x`, `IsOk x`, `OnOk x P`	x holds a value; it is `Ok`; P, if it is `Ok`
`codes "text"`, `decimal n`, `signed_decimal z`	the bytes of a text; those of a number in decimal digits; with its sign
`string_bytes s`, `bytes_eq a b`	the bytes of a string; whether they are the same
`digits_value 10 bs`	the number that decimal digits write
`unsigned_abs z`	the size of z, without its sign
`Appends old new bs`	where the bytes that an output holds are known: now they are those before, and behind them bs
`records`, `strip_bom`, `default_config`	records as the crate `csv` reads them; without the mark; as usual
`matches_of`, `fault_of`	what the crate `clap` finds in words for a command; what it refuses them for
`general_category`	the category of a character in the tables of Unicode
"""
