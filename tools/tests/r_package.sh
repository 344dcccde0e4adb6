# Builds the package for R in a folder of its own, and checks it as CRAN does, with its tests and its vignette.
# shellcheck shell=sh disable=SC2154,SC2016

# Whether what the check wants is there; where it is not, says what is skipped.
is_r_ready() {
    is_here R 'the package for R' && is_here pandoc 'the package for R' || return 1
    for package in bit64 dplyr lubridate sf sp testthat units knitr rmarkdown; do
        Rscript -e "library($package)" >/dev/null 2>&1 || {
            skip "the package for R: no $package"
            return 1
        }
    done
}

# Runs R with the package that was checked, and without the program.
without_program() {
    HOMERANGE=/none R_LIBS=$PWD/homerange.Rcheck Rscript "$@"
}

rm -rf r_package
mkdir r_package
cd r_package || exit 1
for layer in ranges fixes; do
    holds "its style of $layer is that of the package for Python" \
        cmp "$top/r/inst/extdata/$layer.qml" "$top/python/homerange/$layer.qml"
done
if is_r_ready; then
    holds 'the package for R is built' R CMD build "$top/r"
    holds 'the package for R is checked' env _R_CHECK_FORCE_SUGGESTS_=false HOMERANGE_VERIFIER="$tools/verify.py" \
        R CMD check --no-manual homerange_*.tar.gz
    holds 'the check of the package has nothing to say' grep -qx 'Status: OK' homerange.Rcheck/00check.log
    holds 'its tests found the program' grep -q 'FAIL 0 | WARN 0 | SKIP 0 ' homerange.Rcheck/tests/testthat.Rout
    mkdir installed
    holds 'the package for R is installed from the clone' R CMD INSTALL --library=installed "$top/r"
    for file in $programs; do
        holds "it has the released $file in it" cmp "$top/release/$file" "installed/homerange/bin/$file"
    done
    cat >own.R <<'END'
library(homerange)
ranges <- home_range(deer, quiet = TRUE)
stopifnot(ranges$program$path == system.file("bin", "homerange", package = "homerange"))
stopifnot(homerange:::split_program() == system.file("bin", "homerange-split", package = "homerange"))
END
    holds 'which it runs' env -u HOMERANGE R_LIBS="$PWD/installed" Rscript own.R
    {
        echo 'library(homerange)'
        echo 'fixes <- read_fixes(deer, quiet = TRUE)'
        sed -n 's/^| R | `\(drawn <- .*\)` |$/\1/p' "$top/docs/GUIDE.md"
        echo 'stopifnot(summary(home_range(drawn, quiet = TRUE))$fixes == 300)'
    } >draws.R
    holds "the guide's draws of equal numbers" env -u HOMERANGE R_LIBS="$PWD/installed" Rscript draws.R
    echo >>installed/homerange/bin/homerange-split
    holds 'and not another homerange-split that was put there' is_refused env -u HOMERANGE R_LIBS="$PWD/installed" \
        Rscript -e 'homerange:::split_program()'
    echo >>installed/homerange/bin/homerange
    holds 'and not another that was put there' is_refused env -u HOMERANGE R_LIBS="$PWD/installed" \
        Rscript -e 'homerange::homerange_program()'
    page=homerange.Rcheck/homerange/doc/homerange.html
    holds 'its vignette has two pictures' [ "$(grep -c 'src="data:image/png' $page)" -eq 2 ]
    if python3 -c 'import geopandas, pandas' 2>errors; then
        "$HOMERANGE" "$top"/examples/fox.csv "$top"/examples/badger.csv "$top"/examples/otter.csv >report.txt
        mkdir -p pages/by_r pages/by_python frames
        mv report.txt pages
        export PYTHONDONTWRITEBYTECODE=1
        holds 'cases of pages' python3 "$tools/tests/same_pages.py" make pages
        holds 'its evidence and its page' env R_LIBS="$PWD/homerange.Rcheck" Rscript "$tools/tests/same_pages.R" pages
        holds 'they are those of the package for Python, byte for byte, and hold' \
            python3 "$tools/tests/same_pages.py" hold pages
        holds 'its evidence of frames' env R_LIBS="$PWD/homerange.Rcheck" Rscript "$tools/tests/frames.R" frames
        holds 'it is that of the package for Python, byte for byte, and holds' python3 "$tools/tests/same_frames.py" frames
        for folder in pages/by_r/*/ frames/by_r/*/; do
            holds "a second way to $folder" python3 "$tools/tests/second_way.py" "$folder"
        done
        python3 "$tools/tests/forged_frames.py" "$HOMERANGE" frames/by_r >forged 2>&1
        python3 "$tools/tests/forged_layers.py" frames/by_r/told/ranges.gpkg frames/by_python/told/ranges.gpkg >>forged 2>&1
        holds 'all evidence of frames was forged' [ "$(grep -c '^ok ' forged)" -ge 99 ]
        while read -r how name; do
            holds "forgery by R: $name" [ "$how" = ok ]
        done <forged
    else
        skip "pages of both packages: $(tail -n 1 errors)"
    fi
    cp -r "$top/r/tests/." "$top/r/vignettes/homerange.Rmd" .
    holds 'its tests skip what wants the program' without_program testthat.R
    holds 'its vignette is made without the program' without_program -e 'rmarkdown::render("homerange.Rmd", quiet = TRUE)'
    # Lines of the page end where pandoc ends them.
    tr '\n' ' ' <homerange.html >lines
    holds 'it says that nothing was run' grep -q 'nothing on it was run' lines
fi
