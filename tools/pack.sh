#!/bin/bash
# Packs the programs that the CI built, so that they can be handed on: tools/pack.sh CI_LOG [FILE]
#
# CI_LOG is what the CI wrote: .ci/run 2>&1 | tee ci.log. FILE is the archive, by default ffm-COMMIT.tar.gz in the
# current folder. It holds the programs in bin/, the tools and schemas for users of them, `identity.txt` with the commit,
# the kit's line and the CI's closing lines, and `SHA256SUMS`. Beside bin/ it has a script of each program's name, which
# runs the program, and at --version prints identity.txt and the program's checksum; the status is 1 where that of the file
# is another. Nothing is packed where the CI didn't pass, where a file of the repository isn't committed, or where a source
# is younger than a program.
set -eu

stop() { echo "pack.sh: $1" >&2; exit 1; }

if [ "${1:---help}" = --help ] || [ "$1" = -h ]; then sed -n '2,/^set/{/^#/s/^# \{0,1\}//p}' "$0"; exit 0; fi
log=$(readlink -f "$1")
[ -f "$log" ] || stop "$1: no such file"
top=$(cd "$(dirname "$(readlink -f "$0")")/.." && pwd)
commit=$(git -C "$top" rev-parse HEAD)
file=$(readlink -f "${2:-ffm-${commit:0:12}.tar.gz}")

grep -qE '^[0-9]+ passed, 0 failed$' <(tail -1 "$log") || stop "the CI's log ends with: $(tail -1 "$log")"
changed=$(git -C "$top" status --porcelain --untracked-files=no; git -C "$top" ls-files --others --exclude-standard crates)
[ -z "$changed" ] || stop "these files aren't committed: $(head -3 <<< "$changed")"
kit=$(rt version) || stop "rt, the command of the Rattle kit, isn't on the path"

room=$(mktemp -d)
trap 'rm -rf "$room"' EXIT
folder="$room/ffm-${commit:0:12}"
mkdir -p "$folder/bin"
for name in $(grep -oE '^(ffm|ffm_view|ffm_explore)\b' "$top/crates.txt"); do
    program="$top/crates/$name/out/$name"
    [ "$(python3 "$top/tools/ffm_program.py" "$name" --which 2>&1)" = "$program" ] || stop "$program isn't there, or a source is younger"
    cp "$program" "$folder/bin"
    cat > "$folder/$name" << END
#!/bin/bash
# Runs bin/$name; at --version it says which program that is.
here=\$(dirname "\$(readlink -f "\$0")")
[ "\$*" = --version ] || exec "\$here/bin/$name" "\$@"
cd "\$here"
cat identity.txt
grep ' bin/$name\$' SHA256SUMS
exec sha256sum --quiet --check <(grep ' bin/$name\$' SHA256SUMS)
END
    chmod +x "$folder/$name"
done
mkdir "$folder/tools"
# The tools that need no repository, and what they import.
for tool in check_runs check_schemas expand import_tfm trace_diff ffm_program plain_machine plain_run plain_listing \
    c_symbols example_files expansion expectations followed json_places plain_script scenario_names; do
    cp "$top/tools/$tool.py" "$folder/tools"
done
cp -r "$top/schemas" "$folder"
{
    echo "commit $commit"
    echo "kit $kit"
    grep -E '^rt: ok;' "$log" | tail -1
    tail -1 "$log"
} > "$folder/identity.txt"
(cd "$folder" && find . -type f ! -name SHA256SUMS -printf '%P\n' | LC_ALL=C sort | xargs sha256sum > SHA256SUMS)
tar -C "$room" -czf "$file" --sort=name --owner=0 --group=0 --mtime="$(git -C "$top" show -s --format=%cI)" "ffm-${commit:0:12}"
echo "$file"
