#!/usr/bin/env bash
# Tries examples/many/array.slurm in the batch queue Slurm.
#
# usage: queue.sh [PROGRAM]
#
# Debian's slurmctld, slurmd, slurm-client and munge are installed in a copy of this system in memory, which is gone
# afterwards with all that ran there, and its network reaches nothing. A job with wrong options has to keep nothing. The
# job is cancelled in mid-run and handed in again; in the end each document has to be there once, byte for byte as the
# program writes it in one process, and nothing else. Other options are refused then. The example of the manual page has
# to write the same.
#
# It needs root, python3, a network that has Debian's packages, and iproute2. PROGRAM is ours, and is built if it isn't
# given.
set -euo pipefail

top=$(cd "$(dirname "$(readlink -f "${BASH_SOURCE[0]}")")/../.." && pwd)
[ "$(id -u)" -eq 0 ] || { echo "queue: only root can try it" >&2; exit 2; }
[ $# -ge 1 ] || "$top/potrace" -v >/dev/null
program=$(readlink -f "${1:-$top/crates/potrace/out/potrace}")
work=$(mktemp -d)
trap 'rm -rf "$work"' EXIT

mkdir -p "$work/memory" "$work/at/scans"
cd "$work/at"
for number in $(seq 100 139); do
  python3 "$top/bench/pages.py" scan 620 877 "$number" >"scans/$number.pbm"
done
cp scans/100.pbm 'scans/a page.pbm'
cat scans/10[0-3].pbm >scans/four.pbm
head -c 1000 scans/100.pbm >scans/refused.pbm
find scans -type f | sort >pages.txt
cp -r scans "$work/pages"
cp "$top/examples/many/array.slurm" .
# The example stands between .Bd and .Ed, with quotes as \(aq.
sed -n "/^sbatch/,/^\.Ed/ { /^\.Ed/d; s/\\\\(aq/'/g; p }" "$top/docs/potrace.1" >manual

cat >"$work/system" <<'INSIDE'
set -euo pipefail
export DEBIAN_FRONTEND=noninteractive PATH=/usr/sbin:/usr/bin:/sbin:/bin LC_ALL=C.UTF-8
printf '#!/bin/sh\nexit 101\n' >/usr/sbin/policy-rc.d
chmod +x /usr/sbin/policy-rc.d
apt-get install -y -qq --no-install-recommends slurmctld slurmd slurm-client munge >/dev/null 2>&1 ||
  { echo "queue: Slurm can't be had" >&2; exit 2; }
install -d -o munge /run/munge
mkdir -p /etc/slurm /var/spool/slurmctld /var/spool/slurmd
cat >/etc/slurm/slurm.conf <<CONFIG
ClusterName=try
SlurmctldHost=$(hostname)(198.51.100.9)
SlurmUser=root
SlurmdUser=root
StateSaveLocation=/var/spool/slurmctld
SlurmdSpoolDir=/var/spool/slurmd
ProctrackType=proctrack/pgid
TaskPlugin=task/none
SelectType=select/cons_tres
SelectTypeParameters=CR_CPU
MailProg=/bin/true
NodeName=$(hostname) NodeAddr=198.51.100.9 CPUs=$(nproc) State=UNKNOWN
PartitionName=all Nodes=ALL Default=YES State=UP
CONFIG
exec unshare -n bash -euo pipefail /system-2
INSIDE
cat >"$work/system-2" <<'INSIDE'
ip link set lo up
ip link add here type veth peer name there
ip addr add 198.51.100.9/30 dev here
ip link set here up
ip link set there up
runuser -u munge -- /usr/sbin/munged
slurmctld
slurmd

# Waits until a command is true, for four minutes at most: Slurm looks for room when a task ends, and every half minute.
wait_for() {
  local tries
  for tries in $(seq 1200); do
    if "$@"; then return; fi
    sleep 0.2
  done
  echo "queue: waited too long for: $*" >&2
  sinfo -h >&2
  squeue -h | head -n 20 >&2
  exit 1
}
is_idle() { [ "$(timeout 5 sinfo -h -o %T 2>/dev/null)" = idle ] && [ -z "$(timeout 5 squeue -h)" ]; }
come() { [ "$(find run -name '*.status' 2>/dev/null | wc -l)" -ge "$1" ]; }

cd /at
wait_for is_idle
sbatch --version
all_files() { { find scans run 2>/dev/null || true; } | sort; }
# refused WORD..: the job fails, and keeps no status.
refused() {
  local kept
  kept=$(all_files)
  ! sbatch --wait --array=0-1 -o refused-%a.out array.slurm pages.txt run "$@" >/dev/null || { echo "queue: a job $* passes" >&2; exit 1; }
  [ "$kept" = "$(all_files)" ] || { echo "queue: a job $* keeps something" >&2; exit 1; }
  sort -u refused-*.out
  rm refused-*.out
}
refused -s -r 300
first=$(sbatch --parsable --array=0-7%2 array.slurm pages.txt run -s)
wait_for come 5
scancel "$first"
wait_for is_idle
echo "first job: cancelled with $(find run -name '*.status' | wc -l) of $(wc -l <pages.txt) pages done"
sbatch --parsable --array=0-7%2 array.slurm pages.txt run -s >/dev/null
wait_for is_idle
echo "second job: $(find run -name '*.status' | wc -l) pages done; statuses:$(find run -name '*.status' -exec cat {} + | sort | uniq -c | awk '{ printf " %s with %s", $1, $2 }')"
cat slurm-*.out | sort | uniq -c
refused -b dxf
mkdir by-hand
cp -r pages.txt manual by-hand
mv scans traced
cp -r /pages by-hand/scans
cd by-hand
bash manual >/dev/null
wait_for is_idle
echo "the manual page's example: $(find scans -name '*.status' | wc -l) pages done"
find scans -name '*.status' -delete
INSIDE
cat >"$work/start" <<'INSIDE'
mount -t tmpfs none "$1/memory"
cd "$1/memory"
mkdir upper work root
mount -t overlay overlay -o lowerdir=/,upperdir=upper,workdir=work root
mount --rbind /dev root/dev
mount --rbind /sys root/sys
mount -t proc none root/proc
mount -t tmpfs none root/run
mkdir root/at root/pages
mount --bind "$1/at" root/at
mount --bind "$1/pages" root/pages
cp "$1/system" "$1/system-2" root
cp "$2" root/usr/bin/potrace
exec chroot root bash /system
INSIDE
timeout -k 5 900 unshare -m -p -f --kill-child bash -eu "$work/start" "$work" "$program"

mkdir "$work/one"
cp -r "$work/pages" "$work/one/scans"
cd "$work/one"
find scans -name '[!r]*.pbm' -print0 | xargs -0 -n 1000 "$program" -s --
for traced in traced by-hand/scans; do
  diff -r scans "$work/at/$traced"
  echo "$traced: $(find "$work/at/$traced" -name '*.svg' | wc -l) documents, the same as of one process"
done
