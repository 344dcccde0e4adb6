# All scripts in shell pass shellcheck.
# shellcheck shell=sh disable=SC2154

if is_here shellcheck 'the scripts in shell'; then
    for script in "$top/homerange" "$tools"/homerange-* "$top/test" "$top/.ci/run" "$tools"/*.sh "$tools"/*/*.sh; do
        holds "shellcheck of ${script#"$top/"}" shellcheck -x -P "$top" "$script"
    done
fi
