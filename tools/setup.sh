#!/bin/sh
# setup.sh [--qgis | --missing]: installs, as root, what ./test uses of Debian's packages, beside the toolchain. With --qgis
# it installs QGIS too, which is a gigabyte, and without which the tests of its plugin are skipped. With --missing it
# installs nothing, and prints in one line those that are not installed, QGIS left out. A package that this release of Debian
# has not is left out, and said so.
#
# Packages of Python are for Debian's own, /usr/bin/python3.
set -eu
top=$(cd "$(dirname "$0")/.." && pwd)
# shellcheck source=tools/answers.sh
. "$top/tools/answers.sh"
answer_words "$@"
packages='chromium fonts-dejavu-core fuse3 gcc iproute2 libc6-dev gnuplot-nox make man-db munge mypy openssh-client openssl pandoc
poppler-utils python3 python3-build python3-fusepy python3-geopandas python3-matplotlib python3-pandas python3-pyproj
python3-pytest python3-scipy python3-setuptools python3-shapely python3-venv python3-wheel r-base-core r-cran-bit64
r-cran-dplyr r-cran-generics r-cran-ggplot2 r-cran-knitr r-cran-lubridate r-cran-rmarkdown r-cran-sf r-cran-sp r-cran-testthat
r-cran-units shellcheck slurm-wlm snakemake'
case $*: in
    :) ;;
    --qgis:) packages="$packages qgis python3-qgis qgis-providers" ;;
    --missing:)
        missing=''
        for package in $packages; do
            [ "$(dpkg-query -W -f '${db:Status-Status}' "$package" 2>/dev/null)" = installed ] || missing="$missing $package"
        done
        echo "${missing# }"
        exit
        ;;
    *) misuse "it takes --qgis or --missing alone, and not $*" ;;
esac
export DEBIAN_FRONTEND=noninteractive
# Before this no package is found.
apt-get -q update
known=''
for package in $packages; do
    if apt-cache -q show "$package" >/dev/null 2>&1; then known="$known $package"; else
        echo "setup.sh: this release of Debian has no $package" >&2
    fi
done
# shellcheck disable=SC2086
apt-get -q -y --no-install-recommends install $known
