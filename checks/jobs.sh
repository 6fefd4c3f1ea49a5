#!/bin/sh
# How many proofs run side by side: one takes some 2 GB, less than the toolchain reckons with, so as many as processors, with 3 GB
# for each. What the machine has counts, and what the control groups of this process may take (cgroup v2 and v1), as in a container.
#
#     jobs.sh [ROOT]      ROOT is a folder with another proc and sys
set -eu
root=${1:-}

# The folders of this process's groups, each from its own one outwards, of which only some may be seen from within a container.
groups() {
    while IFS=: read -r _ controllers group; do
        set -- "$root/sys/fs/cgroup/$controllers"
        [ "$controllers" ] || set -- "$@" "$root/sys/fs/cgroup/unified"
        for base in "$@"; do
            folder=$base$group
            until [ ${#folder} -lt ${#base} ]; do
                printf '%s\n' "$folder"
                folder=${folder%/*}
            done
        done
    done <"$root/proc/self/cgroup"
}

# What each group may take. The pages of files that are not in use can be given back.
limits() {
    while IFS= read -r folder; do
        set --
        for name in cpu.max cpu.cfs_quota_us cpu.cfs_period_us memory.max memory.limit_in_bytes memory.current memory.usage_in_bytes memory.stat; do
            [ ! -r "$folder/$name" ] || set -- "$@" "$folder/$name"
        done
        [ $# -eq 0 ] || awk '
            FILENAME ~ /cpu\.(max|cfs_quota_us)$/ { quota = $1 + 0 }
            FILENAME ~ /cpu\.max$/ { period = $2 }
            FILENAME ~ /cpu\.cfs_period_us$/ { period = $1 }
            FILENAME ~ /memory\.(max|limit_in_bytes)$/ { most = $1 + 0 }
            FILENAME ~ /memory\.(current|usage_in_bytes)$/ { used = $1 }
            FILENAME ~ /memory\.stat$/ && /^(total_)?inactive_file / { unused = $2 }
            END {
                if (quota > 0 && period > 0) print "processors", quota / period
                if (most > 0) print "kilobytes", (most - used + unused) / 1024
            }' "$@"
    done
}

{
    echo "processors $(nproc)"
    awk '/^MemAvailable:/ { print "kilobytes", $2 }' "$root/proc/meminfo"
    groups | limits
} | awk '
    !($1 in least) || $2 < least[$1] { least[$1] = $2 }
    END {
        jobs = int(least["kilobytes"] / 3000000)
        if (jobs > least["processors"]) jobs = int(least["processors"])
        print (jobs < 1 ? 1 : jobs)
    }'
