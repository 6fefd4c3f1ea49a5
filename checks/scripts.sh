#!/bin/bash
# What the scripts do beside their work: the checks run in a folder whose path has blanks, a tab and letters that are not ASCII, over
# the programs that are built, so that nothing is proved again; a container's limits count; ./check ends what it started where it is
# stopped; and shellcheck has nothing to say.
#
#     scripts.sh
#
# The programs are those of crates/*/out, and libdwframe.a at the top. What needs one that is not built, or a tool, is left out, and named.
set -euo pipefail
unset DWFRAME LIBRARY DESTDIR
root=$(cd "$(dirname "$0")/.." && pwd)
folder=$(mktemp -d)
trap 'rm -r "$folder"' EXIT
copy=$folder/$'two  blanks\ta tab, ä and 文'

fail() {
    printf 'scripts: %s\n' "$*"
    exit 1
}

# ---- how many proofs run side by side, on a machine of 8 processors and 64 GB

# jobs NUMBER GROUPS [FILE TEXT]..: what jobs.sh says within these groups, whose files are below sys/fs/cgroup.
jobs() {
    wanted=$1
    mkdir -p "$folder/machine/proc/self"
    printf '%b' "$2" >"$folder/machine/proc/self/cgroup"
    echo "MemAvailable:   64000000 kB" >"$folder/machine/proc/meminfo"
    for ((at = 3; at < $#; at += 2)); do
        file=$folder/machine/sys/fs/cgroup/${!at}
        mkdir -p "$(dirname "$file")"
        next=$((at + 1))
        printf '%b\n' "${!next}" >"$file"
    done
    found=$(PATH=$folder/tools:$PATH sh "$root/checks/jobs.sh" "$folder/machine")
    [ "$found" = "$wanted" ] || fail "jobs.sh says $found and not $wanted within $*"
    rm -r "$folder/machine"
}

mkdir "$folder/tools"
printf '#!/bin/sh\necho 8\n' >"$folder/tools/nproc"
chmod +x "$folder/tools/nproc"
GB=1000000000
jobs 8 ''
jobs 8 '0::/\n'
jobs 8 '0::/a/b\n' a/b/cpu.max 'max 100000' a/b/memory.max max a/b/memory.current $GB
jobs 3 '0::/a/b\n' a/b/cpu.max '350000 100000'
jobs 2 '0::/a/b\n' a/b/cpu.max '350000 100000' a/cpu.max '200000 100000'
jobs 1 '0::/\n' cpu.max '50000 100000'
jobs 4 '0::/a\n' a/memory.max $((15 * GB)) a/memory.current $((2 * GB)) a/memory.stat 'anon 5\ninactive_file 1000000000'
jobs 1 '0::/a\n' memory.max $((2 * GB)) memory.current $GB
jobs 5 '1:name=systemd:/\n0::/a\n' unified/a/cpu.max '500000 100000'
jobs 8 '4:cpu,cpuacct:/\n3:memory:/\n' cpu,cpuacct/cpu.cfs_quota_us -1 cpu,cpuacct/cpu.cfs_period_us 100000 memory/memory.limit_in_bytes 9223372036854771712
jobs 2 '4:cpu,cpuacct:/a\n' cpu,cpuacct/a/cpu.cfs_quota_us 200000 cpu,cpuacct/a/cpu.cfs_period_us 100000
jobs 2 '3:memory:/host/only\n' memory/memory.limit_in_bytes $((9 * GB)) memory/memory.usage_in_bytes $((4 * GB)) \
    memory/memory.stat 'inactive_file 0\ntotal_inactive_file 2000000000'
echo "scripts: as many proofs side by side as a container may run"

# ---- a copy of the repository, with what is built, and an rt that proves nothing

mkdir "$copy"
tar -C "$root" --exclude-vcs --exclude=./crates/*/out --exclude=./bench/out --exclude=./edition/out \
    --exclude=./out -cf - . | tar -C "$copy" -xf -
real=$(command -v rt) || real=false
cat >"$folder/tools/rt" <<SCRIPT
#!/bin/bash
case \$1 in
version | doc) exec "$real" "\$@" ;;
ci)
    sleep 1000 &
    echo \$! >"$folder/started"
    setsid sleep 1000 &
    echo \$! >>"$folder/started"
    wait
    ;;
esac
echo "rt \$*, though all is built" >&2
exit 1
SCRIPT
chmod +x "$folder/tools/rt"
rm "$folder/tools/nproc"

# ---- ./check is stopped, in the midst of its longest part

(cd "$copy" && PATH=$folder/tools:$PATH exec ./check) >"$folder/told" 2>&1 &
check=$!
until [ -f "$folder/started" ] && [ "$(wc -l <"$folder/started")" -eq 2 ]; do
    kill -0 $check 2>/dev/null || { cat "$folder/told"; fail "./check ends before the gate"; }
    sleep 0.1
done
kill -TERM $check
status=0
wait $check || status=$?
[ $status = 143 ] || { cat "$folder/told"; fail "./check that is stopped ends with status $status"; }
# gone PROCESS: whether it ends within seconds.
gone() {
    for ((tenths = 0; tenths < 100; tenths++)); do
        if ! grep -qs '^State:[[:space:]]*[^XZ]' "/proc/$1/status"; then return; fi
        sleep 0.1
    done
    return 1
}
while read -r started; do gone "$started" || fail "./check leaves a process where it is stopped"; done <"$folder/started"
echo "scripts: ./check ends what it started"

# ---- the scripts and checks in that copy

for program in dwframe caller; do
    [ -x "$root/crates/$program/out/$program" ] || continue
    mkdir -p "$copy/crates/$program/out"
    cp "$root/crates/$program/out/$program"* "$copy/crates/$program/out/"
done
[ ! -f "$root/libdwframe.a" ] || touch "$copy/libdwframe.a"

# in_copy COMMAND..: runs it in the copy, where no proof may be asked for.
in_copy() {
    (cd "$copy" && PATH=$folder/tools:$PATH "$@") >"$folder/told" 2>&1 || { cat "$folder/told"; fail "$* fails in $copy"; }
    echo "scripts: $*: $(tail -n 1 "$folder/told")"
}

for check in "documents.py --texts" definitions.py layers.py weight.py answers.py; do
    # shellcheck disable=SC2086 # words
    in_copy python3 checks/$check
done
if [ -x "$copy/crates/dwframe/out/dwframe" ]; then
    program=crates/dwframe/out/dwframe
    in_copy python3 checks/worked.py $program
    in_copy sh checks/examples.sh
    in_copy sh checks/normal_forms.sh
    in_copy bash checks/large_files.sh $program
    in_copy python3 checks/terminal.py $program
    in_copy python3 checks/manual.py $program
    in_copy sh checks/section.sh
else
    echo "scripts: what runs dwframe is left out, for it is not built"
fi
if [ -f "$copy/libdwframe.a" ]; then
    in_copy bash checks/install.sh
else
    echo "scripts: what links libdwframe.a is left out, for it is not built"
fi
if command -v shellcheck >/dev/null; then
    (cd "$root" && shellcheck check dwframe install library prove release section .ci/run checks/*.sh \
        examples/make.sh completions/dwframe.bash) || fail "shellcheck has something to say"
else
    echo "scripts: there is no shellcheck"
fi
