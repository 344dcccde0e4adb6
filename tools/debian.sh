#!/bin/sh
# debian.sh RELEASE ROOT [PART ..]: tests the packages on another release of Debian, such as trixie or sid. As root it makes
# that Debian in the folder ROOT, or takes the one that it has made there before, installs what tools/setup.sh does, puts the
# last commit of this clone into it, and has tools/test.sh test each PART there; if left out, python_package and r_package. With
# the part qgis it installs QGIS too. It prints the versions of packages, and then what tools/test.sh prints, whose status it has.
#
# Needs debootstrap, unshare and a net. Packages come from MIRROR of the environment, or else from deb.debian.org.
set -eu
top=$(cd "$(dirname "$0")/.." && pwd)
# shellcheck source=tools/answers.sh
. "$top/tools/answers.sh"
answer_words "$@"
case ${1:-} in
    -*) misuse "it takes no option $1" ;;
esac
[ $# -ge 2 ] || misuse 'it takes a release of Debian and a folder'
[ "$(id -u)" -eq 0 ] || misuse 'only root can make a Debian'
release=$1 root=$2
shift 2
[ $# -gt 0 ] || set -- python_package r_package

# Runs a command in that Debian, with devices of this one. What it leaves running ends with it.
inside() {
    # shellcheck disable=SC2016
    unshare --mount --pid --fork --kill-child --mount-proc="$root/proc" sh -c '
        root=$1
        shift
        mount --rbind /dev "$root/dev"
        exec chroot "$root" env -i HOME=/root LANG=C.UTF-8 PATH=/usr/sbin:/usr/bin:/sbin:/bin "$@"
    ' sh "$root" "$@"
}

# The versions of what the suites are about.
versions() {
    # shellcheck disable=SC2016
    inside dpkg-query -W -f '${Package} ${Version} ${db:Status-Status}\n' base-files python3 python3-pandas python3-geopandas \
        python3-pyproj 'libgdal[0-9]*' r-base-core r-cran-sf qgis 2>/dev/null | sed -n 's/ installed$//p'
}

if [ ! -e "$root/etc/debian_version" ]; then
    debootstrap --variant=minbase "$release" "$root" "${MIRROR:-http://deb.debian.org/debian}"
    # Packages of services are not to start them.
    printf '#!/bin/sh\nexit 101\n' >"$root/usr/sbin/policy-rc.d"
    chmod +x "$root/usr/sbin/policy-rc.d"
    # A mirror may be of an earlier day.
    echo 'Acquire::Check-Valid-Until "false";' >"$root/etc/apt/apt.conf.d/80mirror"
fi
rm -rf "$root/homerange"
mkdir "$root/homerange"
git -C "$top" archive HEAD | tar -x -C "$root/homerange"
case " $* " in
    *' qgis '*) inside /homerange/tools/setup.sh --qgis ;;
    *) inside /homerange/tools/setup.sh ;;
esac
versions
inside /homerange/tools/test.sh /homerange/release/homerange "$@"
