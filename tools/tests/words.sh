# Tests that the page of words is what the sources say; and by made-up sources what comes on a page, and that a change is told.
# shellcheck shell=sh disable=SC2154

holds 'the page of words is what the sources say' "$tools/words.py" --check

rm -rf words
mkdir -p words/docs words/crates/split_titles/src
cat >words/crates/split_titles/src/dictionary.rt <<'END'
// Words.

/// Foxes, in two
/// languages.
pub const FOXES: [&str; 2] = ["fox", "liška"];

/// Badgers.
pub const BADGERS: [&str; 1] = ["a\u{a0}brock"];
END

holds 'words: a page is written' "$tools/words.py" words
holds 'words: it is right' "$tools/words.py" --check words
# shellcheck disable=SC2016
holds 'words: a list' grep -qxF '| Foxes, in two languages | `fox`, `liška` |' words/docs/WORDS.md
holds 'words: a blank that does not break' grep -qxF "| Badgers | \`a$(printf '\302\240')brock\` |" words/docs/WORDS.md

# It is told in one line, with this in it, that the page of the sources is another or cannot be made, once sed has changed them so.
tells_words() {
    cp words/crates/split_titles/src/dictionary.rt words_before
    sed -i "$3" words/crates/split_titles/src/dictionary.rt
    "$tools/words.py" --check words >worded 2>&1
    holds "words: $1" [ "$?-$(grep -c . worded)-$(grep -cF -- "$2" worded)" = 1-1-1 ]
    cp words_before words/crates/split_titles/src/dictionary.rt
}

tells_words 'a changed word' 'docs/WORDS.md is not what the sources say: run tools/words.py' 's/"fox"/"vixen"/'
tells_words 'a changed sentence' 'docs/WORDS.md is not what the sources say: run tools/words.py' 's/Badgers/Setts/'
tells_words 'a word twice' 'FOXES has liška twice' 's/"fox"/"LISKA"/'
tells_words 'a list without a sentence' 'BADGERS has no sentence above it' '/^\/\/\/ Badgers/d'
tells_words 'no list' 'dictionary.rt has no list' '/const/d'
holds 'words: it is right again' "$tools/words.py" --check words
