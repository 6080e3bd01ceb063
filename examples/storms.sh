#!/usr/bin/env bash
# Asks bw and sqlite3 the questions of storms.sql, over the CSV file and over a table file of each layout, and says whether the
# answers are the same: examples/storms.sh. It needs sqlite3 (Debian's package of that name).
set -euo pipefail
here=$(cd "$(dirname "$0")" && pwd)
# bw of the environment variable BW, of the PATH, or of the repository
bw=${BW:-$(command -v bw || { [ -x "$here/../bw" ] && "$here/../bw" --where; })} || {
    echo "storms.sh: no bw in the PATH, and none in the folder above this one" >&2
    exit 1
}
folder=$(mktemp -d)
trap 'rm -r "$folder"' EXIT

# sqlite3 gets a table of the schema's columns; an empty field is imported as a text, and made a null
columns=$(awk '$1 == "COLUMN" { print $2 }' "$here/storms.schema")
{
    echo "CREATE TABLE storms ($(echo "$columns" | sed 's/$/ INTEGER/' | paste -s -d ,));"
    echo '.mode csv'
    echo ".import --skip 1 \"$here/storms.csv\" storms"
    for column in $columns; do
        echo "UPDATE storms SET $column = NULL WHERE $column = '';"
    done
} | sqlite3 "$folder/storms.db"

for layout in planes slices; do
    "$bw" load --layout $layout "$here/storms.schema" "$here/storms.csv" "$folder/$layout.bw"
done

same=0
other=0
while read -r question && read -r statement; do
    echo "${question#-- }"
    sqlite3 -list -header -separator , -nullvalue NULL "$folder/storms.db" "$statement" > "$folder/wanted"
    sed 's/^/    /' "$folder/wanted"
    "$bw" direct "$here/storms.schema" "$here/storms.csv" "$statement" > "$folder/direct"
    for layout in planes slices; do
        "$bw" query "$folder/$layout.bw" "$statement" > "$folder/$layout"
    done
    for way in direct planes slices; do
        if cmp -s "$folder/wanted" "$folder/$way"; then
            same=$((same + 1))
        else
            other=$((other + 1))
            echo "bw, $way, answers otherwise:"
            sed 's/^/    /' "$folder/$way"
        fi
    done
done < "$here/storms.sql"
echo "$same answers are sqlite3's, $other aren't"
[ "$other" = 0 ]
