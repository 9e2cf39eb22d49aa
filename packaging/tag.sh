#!/bin/sh
# SPDX-License-Identifier: MIT
#
# Tags a release. VERSION is the version in include/minisign.h. The script makes a commit on top of HEAD that adds the files
# that bindings/go_copies.sh copies into the Go module, and tags this commit as vVERSION and bindings/go/vVERSION. Other commits
# do not contain these files, because git ignores them, but `go` fetches a module from a commit and so needs them there. No
# branch and no tracked file is changed.
#
#     packaging/tag.sh
#
# Run it in a clone without changes, after CI and `make -f tests/Makefile release` have passed. Then push both tags.
set -eu
cd "$(dirname "$0")/.."
version=$(sed -n 's/^.define MINISIGN_VERSION_TEXT "\(.*\)"/\1/p' include/minisign.h)
test -z "$(git status --porcelain)" || { echo 'packaging/tag.sh: there are changes that are not committed' >&2; exit 1; }
for tag in "v$version" "bindings/go/v$version"; do
    ! git rev-parse -q --verify "refs/tags/$tag" >/dev/null || { echo "packaging/tag.sh: there is a tag $tag" >&2; exit 1; }
done
# Fails if dist/ was not built from the sources as they are.
make -s -C c current
sh bindings/go_copies.sh

# The commit is made with a separate index, so that the user's index is unchanged.
GIT_INDEX_FILE=$(git rev-parse --absolute-git-dir)/tag-index
export GIT_INDEX_FILE
trap 'rm -f "$GIT_INDEX_FILE"' EXIT
trap 'exit 1' HUP INT TERM
git read-tree HEAD
git add -f bindings/go/*.[ach]
commit=$(git commit-tree "$(git write-tree)" -p HEAD -m "release: add the files of the Go module to $version")
git tag "v$version" "$commit"
git tag "bindings/go/v$version" "$commit"
echo "Tagged $commit. Next: git push origin v$version bindings/go/v$version"
