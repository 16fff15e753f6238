#!/bin/sh
# Makes a release: sh dist/release.sh VERSION
#
# Runs the gate, builds the library, makes the files of dist/, checks and commits them, and runs all
# tests, also in a clean Debian. Needs the toolchain, wasm-opt, a clean work tree, and an entry for
# VERSION at the top of CHANGELOG.md. Nothing is pushed.
set -eu
cd "$(dirname "$0")/.."
fail() {
    echo "release.sh: $*" >&2
    exit 1
}
[ $# -eq 1 ] || { sed -n '2,6s/^# \{0,1\}//p' "$0" >&2; exit 2; }
version=$1
echo "$version" | grep -Eqx '[0-9]+\.[0-9]+\.[0-9]+' ||
    fail "a version has three numbers, as 1.0.0; this is $version"
[ -z "$(git status --porcelain)" ] || fail "commit or put away what is changed first: git status"
grep -Eq "^## \[?$version\]?( |\$)" CHANGELOG.md || fail "CHANGELOG.md has no entry '## $version'"

echo "$version" >dist/VERSION
major=${version%%.*} rest=${version#*.} minor=${rest%%.*} patch=${rest#*.}
sed -i -e "s/^#define VTEX_VERSION \".*\"/#define VTEX_VERSION \"$version\"/" \
    -e "s/^#define VTEX_VERSION_MAJOR .*/#define VTEX_VERSION_MAJOR $major/" \
    -e "s/^#define VTEX_VERSION_MINOR .*/#define VTEX_VERSION_MINOR $minor/" \
    -e "s/^#define VTEX_VERSION_PATCH .*/#define VTEX_VERSION_PATCH $patch/" include/vtex.h
sed -i "s/\"version\": \".*\"/\"version\": \"$version\"/" examples/viewer/package.json

logs=$(mktemp -d)
trap 'rm -rf "$logs"' EXIT
{ rt ci 2>&1 && echo passed >"$logs/gate"; } | tee "$logs/ci.log"
[ -f "$logs/gate" ] || fail "the gate failed"
if ! (cd crates/vtex_c && rt lib) >"$logs/lib.log" 2>&1; then
    tail -20 "$logs/lib.log" >&2
    fail "the library was not built"
fi
python3 dist/check.py --make --log "$logs/ci.log"
python3 dist/check.py --release
git add -A
git commit -qm "Release $version"
{ bash test && bash tests/plain_machine.sh; } ||
    fail "the tests failed, and $version is committed: git reset --hard HEAD~1 takes it back"
echo "release.sh: $version is made and committed; look at it (git show --stat) and push it"
