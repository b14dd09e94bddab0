#!/bin/sh
# Writes a package of a program to out/, the same bytes for the same sources and program, and its sum to out/SHA256SUMS.
#
#     make_package.sh archive|deb PROGRAM
#
# An archive has the files where `make install` puts them, below one folder; a deb is a Debian package. The program must
# be of the newest release in docs/CHANGELOG.md. All packed files have the time of that release.
set -eu
umask 022
kind=$1
program=$2
maintainer="Luntsegi maintainers <maintainers@users.noreply.luntsegi.example>"
stage=$PWD/out/stage
version=$(tools/package/release.sh version)
SOURCE_DATE_EPOCH=$(tools/package/release.sh time)
export SOURCE_DATE_EPOCH

test_version() {
    found=$("$program" --version)
    [ "$found" = "luntsegi $version" ] || {
        echo "$program is $found, but the newest release in docs/CHANGELOG.md is $version" >&2
        exit 1
    }
}

# Installs all files below a folder and a prefix. The manual page is made anew, with the date of this time.
install_files() {
    rm -f out/luntsegi.1
    make --no-print-directory -s install PROGRAM="$program" DESTDIR="$1" PREFIX="$2" ZSH_COMPLETIONS="$3"
    strip "$1$2/libexec/luntsegi"
}

# Gives all files below a folder that time.
set_times() {
    find "$1" -exec touch --no-dereference --date="@$SOURCE_DATE_EPOCH" {} +
}

make_archive() {
    package=luntsegi-$version-linux-x86_64.tar.gz
    folder=${package%.tar.gz}
    install_files "$stage/$folder" "" /share/zsh/site-functions
    set_times "$stage"
    tar --create --directory="$stage" --sort=name --format=gnu --owner=0 --group=0 --numeric-owner "$folder" |
        gzip -n -9 > "out/$package"
}

# The package's description for dpkg. The oldest C library is that of the newest symbols that the program needs.
control() {
    library=$(grep -ao 'GLIBC_[0-9][0-9.]*' "$program" | sort -V | tail -n 1)
    cat << END
Package: luntsegi
Version: $version
Architecture: amd64
Maintainer: $maintainer
Depends: libc6 (>= ${library#GLIBC_})
Installed-Size: $(du -k -s --apparent-size "$stage/usr" | cut -f 1)
Section: database
Priority: optional
Description: inspect, check, compact and recover bbolt database files
 Luntsegi works on bbolt database files, the format etcd uses. It takes no
 lock, never writes to its input and never crashes on a corrupt file. Of a
 damaged file it saves what is intact, and says what is lost.
END
}

# The changes of each release, as Debian's packages have them.
changelog() {
    grep '^## ' docs/CHANGELOG.md | while IFS= read -r heading; do
        release=${heading#'## '}
        printf 'luntsegi (%s) unstable; urgency=medium\n\n' "${release%%, *}"
        awk -v heading="$heading" '/^## / { is_there = $0 == heading } is_there && sub(/^- /, "  * ")' docs/CHANGELOG.md
        printf '\n -- %s  %s\n\n' "$maintainer" "$(LC_ALL=C date -u -R -d "${release#*, }")"
    done
}

# What the package says of copying: no licence was named.
copyright() {
    echo "No licence was named for Luntsegi. Ask its maintainers before you pass it on."
}

make_deb() {
    package=luntsegi_${version}_amd64.deb
    install_files "$stage" /usr /usr/share/zsh/vendor-completions
    gzip -n -9 "$stage/usr/share/man/man1/luntsegi.1"
    changelog | gzip -n -9 > "$stage/usr/share/doc/luntsegi/changelog.gz"
    copyright > "$stage/usr/share/doc/luntsegi/copyright"
    mkdir "$stage/DEBIAN"
    control > "$stage/DEBIAN/control"
    (cd "$stage" && find usr -type f | LC_ALL=C sort | xargs md5sum) > "$stage/DEBIAN/md5sums"
    set_times "$stage"
    dpkg-deb --root-owner-group --threads-max=1 --build "$stage" "out/$package" > /dev/null
}

# Writes the sums of the packages of this release that are there.
write_sums() {
    (cd out && find . -maxdepth 1 -name "luntsegi[-_]${version}[-_]*" -printf '%P\n' | LC_ALL=C sort | xargs sha256sum) > out/SHA256SUMS
}

test_version
rm -rf "$stage"
mkdir -p "$stage"
"make_$kind"
rm -r "$stage"
write_sums
echo "out/$package"
