#!/bin/sh
# Makes a Debian package of the built program.
#
#     sh packaging/make_deb.sh PROGRAM FOLDER
#
# In FOLDER come rxbatch_VERSION-1_amd64.deb and the tree that it is made of. Needs dpkg-deb, strip and objdump. The maintainer is
# whoever makes the package: DEBFULLNAME and DEBEMAIL, else those of git.
set -eu
program=$1
folder=$2
tree=$folder/tree
version=$("$program" --version | sed -n 's/^rxbatch \([0-9.]*\).*/\1/p')
test -n "$version" || { echo "make_deb: $program has no version" >&2; exit 1; }
maintainer="${DEBFULLNAME:-$(git log -1 --format=%an)} <${DEBEMAIL:-$(git log -1 --format=%ae)}>"

rm -rf "$tree"
make --silent install PROGRAM="$program" DESTDIR="$tree" PREFIX=/usr
strip --remove-section=.comment "$tree/usr/bin/rxbatch"
gzip -9n "$tree/usr/share/man/man1/rxbatch.1"
documents=$tree/usr/share/doc/rxbatch
mv "$documents/CHANGELOG.md" "$documents/changelog"
cat > "$documents/changelog.Debian" <<EOF
rxbatch ($version-1) unstable; urgency=low

  * Version $version: see changelog.gz.

 -- $maintainer  $(date -R)
EOF
gzip -9n "$documents/changelog" "$documents/changelog.Debian"
mkdir -p "$tree/usr/share/zsh/vendor-completions"
mv "$tree/usr/share/zsh/site-functions/_rxbatch" "$tree/usr/share/zsh/vendor-completions/"
rmdir "$tree/usr/share/zsh/site-functions"
{
  echo "rxbatch is under the Apache License, version 2.0, or the MIT licence, at your choice."
  echo "Debian has the first in /usr/share/common-licenses/Apache-2.0. The second:"
  echo
  cat LICENSE-MIT
} > "$documents/copyright"

mkdir -p "$tree/usr/share/lintian/overrides"
echo "rxbatch: initial-upload-closes-no-bugs" > "$tree/usr/share/lintian/overrides/rxbatch"

glibc=$(objdump -T "$tree/usr/bin/rxbatch" | sed -n 's/.*GLIBC_\([0-9.]*\).*/\1/p' | sort -V | tail -n 1)
mkdir -p "$tree/DEBIAN"
cat > "$tree/DEBIAN/control" <<EOF
Package: rxbatch
Version: $version-1
Architecture: amd64
Maintainer: $maintainer
Installed-Size: $(du -sk "$tree/usr" | cut -f 1)
Section: utils
Priority: optional
Depends: libc6 (>= ${glibc:-2.36})
Suggests: python3, slurm-client
Description: batch adjudicator for pharmacy claims
 Takes a batch file of pharmacy claims (NCPDP Batch 1.2 with Telecommunication
 D.0), a plan sheet and the books of members and standing claims, and gives the
 response file, the end books and a settlement per pharmacy. The answers are
 proved to be those of the written rules, whatever the number of threads.
EOF
(cd "$tree" && find usr -type f -exec md5sum {} + > DEBIAN/md5sums)
chmod -R u=rwX,go=rX "$tree"
dpkg-deb --root-owner-group --build "$tree" "$folder/rxbatch_$version-1_amd64.deb"
