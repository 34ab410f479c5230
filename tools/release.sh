#!/usr/bin/env bash
# Makes the archive of a release from a built tree: the program, the wheel of the Python package, examples, pages, the files that pages link, checksums.
set -euo pipefail

usage() {
    cat <<'TEXT'
usage: tools/release.sh FOLDER

Writes FOLDER/nfot-VERSION-linux-x86_64.tar.gz from this tree, as it is committed. Build it first (`bash .ci/run`).
The program is crates/nfot/out/nfot. It is refused if a source in crates is newer than it is. That it is the proved build of this commit
can't be told from its bytes: run the gate right before.
The archive holds bin/nfot, the wheel, examples, docs, README.md, CHANGELOG.md, CONTRIBUTING.md, CITATION.cff, BUILD (commit, version, kit)
and SHA256SUMS. Of crates and bench it holds only the files that pages link, such as the definitions that docs/CLAIMS.md cites.
The same commit and program give the same bytes. The unpacked program is tried on examples/one.net.

Statuses: 0 written and tried; 1 something is missing, differs or fails; 2 wrong arguments.
TEXT
}

refuse() {
    echo "release: $1" >&2
    exit 1
}

[ $# = 1 ] || { usage >&2; exit 2; }
[ "$1" != --help ] || { usage; exit 0; }
top=$(cd "$(dirname "$0")/.." && pwd)
[ -d "$1" ] || refuse "$1: there is no such folder"
folder=$(cd "$1" && pwd)
cd "$top"
program=crates/nfot/out/nfot
[ -x "$program" ] || refuse "$program is not built: run bash .ci/run first"
[ -z "$(git status --porcelain)" ] || refuse "the tree has changes that are not committed"
newer=$(find crates crates.txt -name out -prune -o -type f ! -name '*.md' -newer "$program" -print -quit)
[ -z "$newer" ] || refuse "$program is older than $newer: run bash .ci/run again"
echo "release: takes $program of $(date -u -r "$program" '+%Y-%m-%d %H:%M UTC'), sha256 $(sha256sum <"$program" | cut -d ' ' -f 1); no source is newer"
version=$(sed -n 's/^version = "\(.*\)"$/\1/p' pyproject.toml)
[ -n "$version" ] || refuse "pyproject.toml has no version"
grep -qx "version: $version" CITATION.cff || refuse "CITATION.cff has another version than pyproject.toml, $version"
grep -q "^## $version " CHANGELOG.md || refuse "CHANGELOG.md has no section $version"

name=nfot-$version-linux-x86_64
work=$(mktemp -d)
trap 'rm -rf "$work"' EXIT
SOURCE_DATE_EPOCH=$(git log -1 --format=%ct)
export SOURCE_DATE_EPOCH

# Copies what the release holds, from the commit alone; the wheel is built from it too, so that nothing of the folder creeps in. The wheel
# also holds the commit, for `nfot-py --cite`.
mkdir -p "$work/tree" "$work/$name/bin"
git archive HEAD | tar xf - -C "$work/tree"
git rev-parse HEAD >"$work/tree/python/nfot/data/commit.txt"
(cd "$work/tree" && python3 -m pip wheel --quiet --no-deps --no-build-isolation --no-cache-dir --wheel-dir "$work/$name" .) || refuse "the wheel could not be built"
cp -r "$work/tree/examples" "$work/tree/docs" "$work/tree/README.md" "$work/tree/CHANGELOG.md" "$work/tree/CONTRIBUTING.md" "$work/tree/CITATION.cff" "$work/$name"
# The files of crates and bench that the pages link, with their paths, so that these links work in the archive.
linked=$(cd "$work/$name" && grep -ohE '\]\((\.\./)?(crates|bench)/[^)#]+' README.md CONTRIBUTING.md docs/*.md \
    | sed -E 's,^\]\((\.\./)?,,' | LC_ALL=C sort -u) || refuse "the pages link no definition"
while read -r file; do
    [ -f "$work/tree/$file" ] || refuse "$file: a page links it, and it is not in the commit"
    (cd "$work/tree" && cp --parents "$file" "$work/$name")
done <<<"$linked"
cp "$program" "$work/$name/bin/nfot"
chmod 755 "$work/$name/bin/nfot"
cat >"$work/$name/BUILD" <<TEXT
version $version
commit $(git rev-parse HEAD)
kit $(rt version)
TEXT
(cd "$work/$name" && find . -type f ! -name SHA256SUMS | LC_ALL=C sort | sed 's,^\./,,' | tr '\n' '\0' | xargs -0 sha256sum >"$work/sums" && mv "$work/sums" SHA256SUMS)

# One order, owner and time for all files, and no name or time in the compressed file.
tar -C "$work" --sort=name --owner=0 --group=0 --numeric-owner --mode=u+rwX,go+rX,go-w --mtime="@$SOURCE_DATE_EPOCH" -cf - "$name" | gzip -n -9 >"$work/archive"

# Tries the archive as a user would: unpacked in an empty folder.
mkdir "$work/try"
tar xzf "$work/archive" -C "$work/try"
cd "$work/try/$name"
sha256sum --quiet -c SHA256SUMS || refuse "the unpacked files differ from SHA256SUMS"
bin/nfot solve examples/one.net --horizon 2 | cmp - "$top/crates/nfot/stdout" || refuse "the unpacked program does not print the report of examples/one.net"

cp "$work/archive" "$folder/.$name.part"
mv "$folder/.$name.part" "$folder/$name.tar.gz"
echo "release: $folder/$name.tar.gz, sha256 $(sha256sum <"$folder/$name.tar.gz" | cut -d ' ' -f 1)"
