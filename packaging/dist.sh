#!/bin/sh
# Makes what is handed on of a built program: an archive, a Debian package where dpkg-deb is found,
# the page where it was made, and their checksums. Archive and package have the library where it was
# made. `make dist` calls it at the root of the repository:
#
#     sh packaging/dist.sh PROGRAM FOLDER PAGE LIBRARY
#
# CRATES names those that the program is made of, lowest first. packaging/maintainer has the name and
# the address that stand in the Debian package; MAINTAINER, as 'Name <address>', states others.
set -eu
umask 022

program=$1
page=$3
library=$4
mkdir -p "$2"
dist=$(cd "$2" && pwd)
version=$("$program" --version | sed 's/.* //')
platform=linux-x86_64
name=station_check-$version-$platform
commit=$(git rev-parse HEAD 2> /dev/null || echo 'not known')
[ -z "$(git status --porcelain 2> /dev/null)" ] || commit="$commit, with changes"
# All files have the time of the last commit, so that the same files give the same archive.
time=${SOURCE_DATE_EPOCH:-$(git log -1 --format=%ct 2> /dev/null || echo 0)}
glibc=$(grep -a -h -s -o 'GLIBC_[0-9.]*' "$program" "$library" | sed 's/GLIBC_//' |
  sort -t. -k1,1n -k2,2n | tail -n 1)

# The name and the address of those who make the package.
maintainer=${MAINTAINER:-$(cat packaging/maintainer)}

# What the packed program was proved with, by the logs of its build; the packed library is named too.
proved() {
  of_library=''
  if [ -f "$2" ]; then
    of_library="SHA-256 of the library, which has the exports of station_page: $(sha256sum "$2" | cut -d ' ' -f 1)
"
  fi
  cat << END
station_check $version for $platform
commit: $commit
SHA-256 of the program: $(sha256sum "$1" | cut -d ' ' -f 1)
${of_library}toolchain: $("${RT:-rt}" --version 2> /dev/null || echo 'not at hand when this was packed')
needs: Linux on x86-64 (x86-64-v2) with glibc $glibc or later

The build proves each function of these crates against its contract, lowest crate first; where a
proof fails, there is no program. What it said at the end of each:

END
  for crate in $CRATES; do
    echo "$crate"
    said=$(grep -s -h -e '^axioms ' -e '^logic=' "build/proved/$crate") ||
      said='no log of make is here: it was proved elsewhere, or not at all'
    echo "$said" | sed 's/^/  /'
  done
  cat << END

The main contract is that of check_bytes, in crates/station_check/src/check.rt of the sources.
docs/TRUST.md says what is proved, and README.md what is trusted.
END
}

# The files of an installation below a folder, with their note. The program has no symbols.
fill() {
  root=$1 prefix=$2
  rm -rf "$root"
  MAKEFLAGS='' make -s -o "$program" PROGRAM="$program" LIBRARY="$library" DESTDIR="$root" PREFIX="$prefix" install
  packed=$root$prefix/bin/station_check
  packed_library=$root$prefix/lib/$(basename "$library")
  for file in "$packed" "$packed_library"; do
    if command -v strip > /dev/null && [ -f "$file" ] && [ "$(head -c 4 "$file" | tail -c 3)" = ELF ]; then
      strip -R .comment "$file"
    fi
  done
  cp packaging/copyright "$root$prefix/share/doc/station_check"
  proved "$packed" "$packed_library" > "$root$prefix/share/doc/station_check/PROVED"
}

fill "$dist/$name" ''
(cd "$dist/$name" && find . -type f ! -name SHA256SUMS | sort | xargs sha256sum > SHA256SUMS)
tar -C "$dist" --sort=name --owner=0 --group=0 --numeric-owner --mtime="@$time" -cf - "$name" |
  gzip -9 -n > "$dist/$name.tar.gz"

made=$name.tar.gz
if command -v dpkg-deb > /dev/null; then
  root=$dist/deb
  fill "$root" /usr
  gzip -9 -n "$root"/usr/share/man/man1/*.1
  mv "$root/usr/share/zsh/site-functions" "$root/usr/share/zsh/vendor-completions"
  # Debian has documents below the name of the package.
  mv "$root/usr/share/doc/station_check" "$root/usr/share/doc/station-check"
  ln -s station-check "$root/usr/share/doc/station_check"
  if [ -f "$library" ]; then
    # Debian has modules where its Python looks for them, and what names no architecture in share.
    mkdir -p "$root/usr/lib/python3/dist-packages" "$root/usr/share/lintian/overrides"
    mv "$root/usr/share/station_check/station_check.py" "$root/usr/lib/python3/dist-packages"
    mv "$root/usr/lib/pkgconfig" "$root/usr/share/pkgconfig"
    cp packaging/lintian-overrides "$root/usr/share/lintian/overrides/station-check"
  fi
  gzip -9 -n > "$root/usr/share/doc/station-check/changelog.gz" << END
station-check ($version) unstable; urgency=medium

  * CHANGELOG.md, beside this file, says what changed.

 -- $maintainer  $(LC_ALL=C date -u -R -d "@$time")
END
  mkdir "$root/DEBIAN"
  if [ -f "$library" ]; then
    echo 'activate-noawait ldconfig' > "$root/DEBIAN/triggers"
    echo "libstation_check ${library##*.} station-check (>= $version)" > "$root/DEBIAN/shlibs"
  fi
  cat > "$root/DEBIAN/control" << END
Package: station-check
Version: $version
Architecture: amd64
Section: science
Priority: optional
Depends: libc6 (>= $glibc), python3 (>= 3.10)
Installed-Size: $(find "$root/usr" -type f -printf '%s\n' | awk '{ n += int(($1 + 1023) / 1024) } END { print n }')
Maintainer: $maintainer
Description: prints least-squares directions of a GSI file, and checks yours
 A total station writes the sets of directions that it measured to a field file,
 in Leica's GSI format. station_check prints the least-squares directions of a
 station, and checks those of another program against them: rounded ones in a
 table, or exact fractions in a sheet. Its code is proved against its contracts.
END
  (cd "$root" && find usr -type f | sort | xargs md5sum > DEBIAN/md5sums)
  find "$root" -exec touch -h -d "@$time" {} +
  deb=station-check_${version}_amd64.deb
  SOURCE_DATE_EPOCH=$time dpkg-deb --root-owner-group --build "$root" "$dist/$deb" > /dev/null
  rm -rf "$root"
  made="$made $deb"
fi

if [ -f "$page" ]; then
  cp "$page" "$dist/station_check-$version.html"
  made="$made station_check-$version.html"
fi

# shellcheck disable=SC2086 # the names have no blanks
(cd "$dist" && rm -rf "$name" && sha256sum $made > SHA256SUMS && cat SHA256SUMS)
