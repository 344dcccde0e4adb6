# Tests what all scripts answer: --help says what the script does, --version which one it is, and a word that is none is
# refused in one line with status 2, before anything is made.
# shellcheck shell=sh disable=SC2154

# Whether a script says what it does, with status 0.
helps() {
    (cd commands && "$@" --help >said 2>errors) && [ "$(wc -l <commands/said)" -ge 2 ] && [ ! -s commands/errors ]
}

# Whether a script says its version.
is_versioned() {
    (cd commands && "$@" --version 2>errors) | grep -qE '^[a-z].* 1\.[0-9]+\.[0-9]+$' && [ ! -s commands/errors ]
}

# Whether a script refuses an option that there is not, in one line.
refuses_words() {
    (cd commands && "$@" --nonsense >said 2>errors)
    [ $? -eq 2 ] && [ "$(wc -l <commands/errors)" -eq 1 ] && [ ! -s commands/said ]
}

rm -rf commands
mkdir commands
if python3 -c 'import pandas' 2>errors; then python=1; else
    python=
    skip "what scripts of Python answer: $(tail -n 1 errors)"
fi
for script in "$top"/test "$tools"/*.sh "$tools"/herd/*.sh "$tools"/*.py "$tools"/herd/*.py "$top/qgis/pack.py"; do
    case ${script#"$tools/"} in
        # These are read by others, and no commands.
        answers.sh | sources.sh | run.sh | herd/words.sh | progress.py | */progress.py) continue ;;
    esac
    case $script in
        *.py) [ -n "$python" ] || continue ;;
    esac
    called=${script#"$top/"}
    holds "$called --help" helps "$script"
    holds "$called --version" is_versioned "$script"
    holds "$called --nonsense" refuses_words "$script"
done
if is_here Rscript 'what scripts of R answer'; then
    holds 'check.R --help' helps "$tools/check.R"
    holds 'check.R --version' is_versioned "$tools/check.R"
    holds 'check.R --nonsense' refuses_words "$tools/check.R"
fi
holds 'nothing was made' [ "$(LC_ALL=C ls commands)" = "errors
said" ]

# A command that is ended by a signal says so by its status, and leaves nothing, neither where it makes something nor in
# the folder for what is temporary.
if [ -n "$python" ]; then
    mkdir -p commands/temporary
    cat >commands/slow <<END
#!/bin/sh
[ "\$1" = --version ] || { : >'$PWD/commands/waits'; sleep 5; }
exec '$HOMERANGE' "\$@"
END
    chmod +x commands/slow
    for call in "evidence.py commands/made $top/examples/fox.csv" "corners.py 95 $top/examples/fox.csv"; do
        for signal in INT:130 TERM:143 HUP:129; do
            rm -f commands/waits
            # A shell has its calls behind it not hear INT.
            # shellcheck disable=SC2086
            TMPDIR=$PWD/commands/temporary HOMERANGE=$PWD/commands/slow env --default-signal=INT \
                python3 "$tools"/$call >commands/said 2>commands/errors &
            waiting=$!
            for _ in $(seq 100); do
                [ ! -e commands/waits ] || break
                sleep 0.1
            done
            kill -"${signal%:*}" "$waiting"
            wait "$waiting"
            holds "${call%% *} ended by ${signal%:*} says so" [ $? -eq "${signal#*:}" ]
            holds "it leaves nothing: ${call%% *}, ${signal%:*}" [ -z "$(ls commands/temporary)$(ls -d commands/made* 2>errors)" ]
            holds "it says nothing: ${call%% *}, ${signal%:*}" [ ! -s commands/errors ]
        done
    done
fi

# All that has a version has that of the program.
version=$("$HOMERANGE" --version | sed 's/^homerange \([0-9.]*\).*/\1/')
holds 'the program has a version' [ -n "$version" ]
for has in "python/homerange/__init__.py:__version__ = \"$version\"" \
    "r/DESCRIPTION:Version: $version" "qgis/homerange/metadata.txt:version=$version" \
    "CITATION.cff:version: $version" "CHANGELOG.md:## $version"; do
    holds "${has%%:*} has the version of the program" grep -qxF -- "${has#*:}" "$top/${has%%:*}"
done
