# Options. The functions are those of program.sh.
# shellcheck shell=sh disable=SC2154,SC2034

cd "$work/program" || exit 1

refuses 2 "--block" --block 0 a.csv
refuses 2 "--block" --block 1025
refuses 2 "--depth" --depth 65
refuses 2 "--workers" --workers 9
refuses 2 "--unit" --unit ft a.csv
refuses 2 "--bogus" --bogus a.csv
refuses 2 "--percent" a.csv --percent
refuses 2 '--percent: level 1 is not a whole number from 1 to 100' --percent '' a.csv
refuses 2 '--percent: level 2 is not a whole number from 1 to 100' --percent 50,101
refuses 2 '--percent: more than 8 levels' --percent 1,2,3,4,5,6,7,8,9
bytes=$(printf 'fox\377.csv')
refuses 2 'word 3 of the command line is not UTF-8' --unit m "$bytes"

# The longest list of levels, each by the rule: of five fixes ceil(5 p / 100) are kept.
run --percent 1,20,21,40,41,60,61,100 a.csv
holds 'eight levels' told 0 ''
holds 'eight levels: what they keep' \
    [ "$(grep ^percent written | cut -d , -f 3,4 | tr '\n' ' ')" = '1,1 20,1 21,2 40,2 41,3 60,3 61,4 100,5 ' ]

# Help and version write, and read nothing.
for word in --help -h --version -V; do
    run $word none.csv
    holds "$word" told 0 ''
    holds "$word writes" [ -s written ]
done
