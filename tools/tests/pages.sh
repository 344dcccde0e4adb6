# Tests that links on pages lead somewhere, that files which CONTRIBUTING.md names are there, and that a number is the same
# wherever it stands; and by made-up pages that a fault is told.
# shellcheck shell=sh disable=SC2154

holds 'links, files and numbers on pages' python3 "$tools/tests/page_facts.py" "$top"

rm -rf pages
mkdir -p pages/docs pages/src
cat >pages/docs/FOX.md <<'END'
# The fox
## Its den, in `winter`
It has 2,400 fixes.
```
[no link](nowhere.md)
# No heading
```
END
echo 'FIXES = 2_400' >pages/src/fox.py
printf 'fixes\tdocs/FOX.md\thas ([0-9,]+)\nfixes\tsrc/fox.py\tFIXES = ([0-9_]+)\n' >numbers

# What is said of a repository whose CONTRIBUTING.md is standard input.
looks() {
    cat >pages/CONTRIBUTING.md
    python3 "$tools/tests/page_facts.py" pages numbers >looked 2>&1
    ended=$?
}
# It has this one fault.
has_fault() {
    looks
    holds "pages: $1" [ "$ended-$(grep -c . looked)-$(head -n 1 looked)" = "1-2-$1" ]
}

looks <<'END'
[The fox](docs/FOX.md#its-den-in-winter), [itself](#more), [elsewhere](https://example.org/fox#den), `src/fox.py` and
`f*.py` by `crates/NAME/x.edit`.
# More
END
holds 'pages: all is well' [ "$ended-$(cat looked)" = '0-2 links, 2 files and 1 numbers, 0 faults' ]
has_fault 'CONTRIBUTING.md: the link to docs/OWL.md leads nowhere' <<'END'
[The owl](docs/OWL.md)
END
has_fault 'CONTRIBUTING.md: the link to docs/FOX.md#no-heading: there is no such heading' <<'END'
[The fox](docs/FOX.md#no-heading)
END
has_fault 'CONTRIBUTING.md: src/owl.py is not there' <<'END'
[The fox](docs/FOX.md) and `src/owl.py`
END
echo 'FIXES = 2_401' >pages/src/fox.py
has_fault 'numbers: fixes: 2400 in docs/FOX.md, 2401 in src/fox.py' <<'END'
[The fox](docs/FOX.md)
END
echo 'FIXES = 2_400' >pages/src/fox.py
echo 'No link.' | looks
holds 'pages: a repository without links' [ "$ended" -eq 1 ]
