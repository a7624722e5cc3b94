#!/bin/sh
# Installs the package that this script stands in: sh install.sh PREFIX [--force]
# Below PREFIX come bin, lib, include and share. Every file is looked at first: where the package is damaged, or a file of another content is there already, nothing is
# written; --force puts the new one over it. Each file is put in its place whole, by a rename. PREFIX/share/daybook/SHA256SUMS lists what was installed.
set -eu
usage="usage: sh install.sh PREFIX [--force]"
prefix= force=
for word in "$@"; do
    case $word in
        --force) force=yes ;;
        -*) echo "$usage" >&2; exit 2 ;;
        *) [ -z "$prefix" ] || { echo "$usage" >&2; exit 2; }; prefix=$word ;;
    esac
done
[ -n "$prefix" ] || { echo "$usage" >&2; exit 2; }
case $prefix in /*) ;; *) prefix=$PWD/$prefix ;; esac
cd "$(dirname "$0")"

sha256sum --quiet -c SHA256SUMS || { echo "install.sh: the package is damaged; nothing was installed" >&2; exit 1; }
files=$(cut -c 67- SHA256SUMS | grep -E '^(bin|lib|include|share)/'; find lib -type l)
there=
for file in $files; do
    [ -e "$prefix/$file" ] || [ -L "$prefix/$file" ] || continue
    if [ -L "$file" ]; then
        [ -L "$prefix/$file" ] && [ "$(readlink "$file")" = "$(readlink "$prefix/$file")" ] && continue
    elif cmp -s "$file" "$prefix/$file"; then
        continue
    fi
    there="$there
$prefix/$file"
    [ -L "$prefix/$file" ] || [ -f "$prefix/$file" ] || { echo "install.sh: $prefix/$file is no file; nothing was installed" >&2; exit 1; }
done
if [ -n "$there" ] && [ -z "$force" ]; then
    echo "install.sh: there already, with another content:$there" >&2
    echo "install.sh: nothing was installed; --force puts the package's files over them" >&2
    exit 1
fi

# One file to its place below the prefix.
new=
trap '[ -z "$new" ] || rm -f "$new"' EXIT
place() {
    mkdir -p "$(dirname "$prefix/$2")"
    new=$prefix/$2.new.$$
    cp -P "$1" "$new"
    mv -f "$new" "$prefix/$2"
    new=
}
for file in $files; do place "$file" "$file"; done
place SHA256SUMS share/daybook/SHA256SUMS
wheel=$(find share/daybook -name '*.whl')
echo "installed below $prefix"
echo "  program   $prefix/bin/daybook"
echo "  C, C++    PKG_CONFIG_PATH=$prefix/lib/pkgconfig pkg-config --cflags --libs daybook"
echo "  Rust      daybook = { path = \"$prefix/share/daybook/rust\" }"
echo "            daybook-text = { path = \"$prefix/share/daybook/rust-text\" }"
echo "  Python    python3 -m pip install $prefix/$wheel"
