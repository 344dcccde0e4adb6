# Tests the Python package by pytest, each of whose tests is counted, and its types by mypy.
# shellcheck shell=sh disable=SC2154

# What a summary of pytest says of tests that ended so.
ended() {
    sed -n "s/^$1 //p" summary
}

if ! python3 -c 'import pandas, pytest' 2>errors; then
    skip "the Python package: $(tail -n 1 errors)"
else
    export PYTHONDONTWRITEBYTECODE=1
    python3 -m pytest -q -r pfEs -p no:cacheprovider "$top/python/tests" >summary 2>&1
    status=$?
    ended PASSED >>"$work/passed"
    ended SKIPPED | while read -r said; do skip "the Python package: $said"; done
    for end in FAILED ERROR; do
        ended "$end" | while read -r said; do holds "the Python package: $said" false; done
    done
    holds 'the tests of the Python package' [ "$status" -eq 0 ]
    if ! python3 -c 'import mypy' 2>errors; then
        skip 'types of the Python package: no mypy'
    elif python3 -c 'import sys, numpy; sys.exit(not numpy.__version__.startswith("2.2."))'; then
        skip 'types of the Python package: to numpy 2.2 each list may be a number'
    else
        typed() {
            MYPYPATH="$top/python" python3 -m mypy --config-file "$top/python/pyproject.toml" --cache-dir "$work/mypy" "$@"
        }
        holds 'types of the Python package' typed "$top/python/homerange" "$top/python/homerange_verifier" "$top/python/backend"
        for script in "$tools"/*.py "$tools"/herd/*.py; do
            holds "types of ${script#"$top/"}" typed "$script"
        done
        # What a user's script is told of results, with names of classes in place of the stubs that Debian has not.
        MYPYPATH="$top/python/tests/types/stubs:$top/python" python3 -m mypy --strict --follow-imports=silent \
            --cache-dir "$work/user" "$top/python/tests/types/user.py" >types 2>&1
        # Younger versions of mypy write tuple, leave out builtins, and write | in place of Union.
        sed -n 's/.*Revealed type is "\(.*\)"$/\1/p' types |
            sed 's/builtins\.//g; s/Tuple\[/tuple[/g; s/^Union\[\(.*\), None\]$/\1 | None/' >revealed
        holds 'types that a user sees' cmp "$top/python/tests/types/wanted" revealed
    fi
fi
