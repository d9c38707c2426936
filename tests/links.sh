#!/bin/sh
# The documents: every link of README.md and docs/ leads to a file that is there. In docs/PROMISES.md a link's name is declared in the file that it
# leads to, and every must-fail edit is named by a row; docs/ASSUMPTIONS.md has every file of definitions, with its number of lines.
. "$(dirname "$0")/common"
failed=0
say() {
    echo "links: $*"
    failed=1
}

# NAME<tab>PATH of each link of a document, a line each; the path begins at the repository's root
links_of() { # DOCUMENT
    folder=$(dirname "$1")
    grep -o '\[[^]]*\]([^)]*)' "$1" | sed -n 's/^\[\([^]]*\)\](\([^)#]*\)[^)]*)$/\1\t\2/p' | grep -v '	http' | grep -v '	$' |
        sed "s|	|	$folder/|; s|	docs/\.\./|	|; s|	\./|	|"
}

# Whether a name is declared in a file of antt or Rattle, is the name of an edit, or stands in any other file.
declares() { # FILE NAME
    case $1 in
    *.edit) [ "crates/${2%%/*}/must-fail/${2#*/}.edit" = "$1" ] ;;
    *.antt) grep -qE "^ *((abbrev|unfoldable|pub|record|data) )*$2( |\$)" "$1" ;;
    *.rt) grep -qE "(fn|const|struct|enum) $2[^A-Za-z0-9_]" "$1" ;;
    *) grep -qF -- "$2" "$1" ;;
    esac
}

tab=$(printf '\t')
list=$tmp/links
for document in README.md docs/*.md docs/landings/*.md; do
    [ -f "$document" ] || continue
    links_of "$document" >"$list"
    while IFS="$tab" read -r name path; do
        [ -e "$path" ] || say "$document: no file $path"
    done <"$list"
done

links_of docs/PROMISES.md >"$list"
while IFS="$tab" read -r name path; do
    case $name in
    \`*\`)
        bare=${name#\`}
        bare=${bare%\`}
        [ ! -f "$path" ] || declares "$path" "$bare" || say "docs/PROMISES.md: $path does not have $bare"
        ;;
    esac
done <"$list"

for edit in crates/*/must-fail/*.edit; do
    cut -f2 "$list" | grep -qxF "$edit" || say "docs/PROMISES.md: no row names $edit"
done
# docs/ASSUMPTIONS.md names every file of definitions, with its number of lines.
sed -n 's/^| \[[^]]*\](\.\.\/\(crates\/[^)]*\.antt\)) | \([0-9]*\) |.*/\1 \2/p' docs/ASSUMPTIONS.md >"$tmp/lines"
while read -r path lines; do
    [ "$(wc -l <"$path")" -eq "$lines" ] || say "docs/ASSUMPTIONS.md: $path has $(wc -l <"$path") lines"
done <"$tmp/lines"
for path in crates/*/specs/*.antt; do
    case $path in */Layers.antt | */Lib.antt | */Valid.antt) continue ;; esac
    grep -q "^$path " "$tmp/lines" || say "docs/ASSUMPTIONS.md: no row names $path"
done

[ $failed -eq 0 ] && echo "links: $(wc -l <"$list") links of docs/PROMISES.md lead where they say"
exit $failed
