#!/bin/sh
# A cluster of six nodes and an authority in a temporary folder, and SQLite's shell on a database in it.
#
#     examples/sqlite/run.sh LIBRARY [SQL]
#
# LIBRARY is a folder that scripts/build_library made. Without SQL the shell reads from the terminal.
set -eu
here=$(cd "$(dirname "$0")" && pwd)
[ $# -ge 1 ] || { sed -n '2,6s/^# \{0,1\}//p' "$0"; exit 2; }
library=$(cd "$1" && pwd)
folder=$(mktemp -d)
out=$folder/programs
pids=
clean() {
    [ -z "$pids" ] || kill $pids 2>/dev/null || true
    wait
    rm -rf "$folder"
}
trap clean EXIT
trap 'exit 1' INT TERM
make -s -C "$here" LIBRARY="$library" OUT="$out"
cp "$here/plan.json" "$folder/plan.json"
{
    echo 'plan = "plan.json"'
    echo 'authority = "unix:authority.sock"'
    for member in 0 1 2 3 4 5; do echo "node.$member = \"unix:node$member.sock\""; done
} >"$folder/cluster"
mkdir "$folder/authority"
"$out/volume_authority" --cluster "$folder/cluster" --dir "$folder/authority" --new &
pids="$pids $!"
for member in 0 1 2 3 4 5; do
    mkdir "$folder/node$member"
    "$out/volume_node" --cluster "$folder/cluster" --member $member --dir "$folder/node$member" --new &
    pids="$pids $!"
done
printf '.load %s/volume_vfs\n.open "file:app.db?vfs=volume&cluster=%s/cluster"\n' "$out" "$folder" >"$folder/init"
if [ $# -ge 2 ]; then
    sqlite3 -init "$folder/init" :memory: "$2"
else
    sqlite3 -init "$folder/init" :memory:
fi
"$out/volumectl" "$folder/cluster" status
