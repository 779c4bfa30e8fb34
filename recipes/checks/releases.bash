# LCOV and coverage.py of later releases of Debian. Suites load this after common.
# shellcheck shell=bash

# A package of a later release of Debian, unpacked: release, package, folder.
fetch() {
    local apt=$BATS_FILE_TMPDIR/apt/$1 mirror options
    mirror=$(apt-get indextargets --format '$(SITE)' 'Created-By: Packages' 2>/dev/null | grep '/debian$' | head -n 1)
    mkdir -p "$apt/lists/partial" "$apt/cache/archives/partial" "$3"
    echo "deb [signed-by=/usr/share/keyrings/debian-archive-keyring.gpg] ${mirror:-http://deb.debian.org/debian} $1 main" >"$apt/sources.list"
    options=(-q -o Dir::Etc::SourceList="$apt/sources.list" -o Dir::Etc::SourceParts=/dev/null -o Dir::State::Lists="$apt/lists"
        -o Dir::Cache="$apt/cache" -o Acquire::Languages=none -o Debug::NoLocking=1 -o APT::Sandbox::User="$(id -un)")
    [ -e "$apt/updated" ] || apt-get "${options[@]}" update >"$apt/log" 2>&1 || return 1
    : >"$apt/updated"
    (cd "$3" && apt-get "${options[@]}" download "$2" >>"$apt/log" 2>&1 && dpkg-deb -x "$2"_*.deb . && ls "$2"_*.deb) || return 1
}
# The version in the name of a package that was fetched.
version_of() { # PACKAGE FILE
    local version=${2#"$1"_}
    version=${version%%+*}
    echo "${version%%-*}"
}
# A tool of LCOV that was unpacked.
lcov_of() { # FOLDER TOOL WORD...
    local folder=$1 tool=$2
    shift 2
    PERL5LIB=$folder/usr/share/perl5 "$folder/usr/bin/$tool" "$@"
}
# coverage.py that was unpacked. Its C extension is for another Python, and not needed.
coverage_of() { # FOLDER WORD...
    local folder=$1
    shift
    PYTHONPATH=$folder/usr/lib/python3/dist-packages /usr/bin/python3 -W ignore -m coverage "$@"
}
