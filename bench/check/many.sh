#!/usr/bin/env bash
# Tries examples/many: pages traced over two hosts, of which one is killed in mid-run.
#
# usage: many.sh TARBALL
#
# TARBALL is the one that packaging/make makes. The hosts are network namespaces of this machine with an sshd each, on
# 198.51.100.2 and 198.51.100.6, addresses that are kept for examples; each has a home of its own in memory, and neither
# the pages nor this repository, /opt or parallel. The tarball is unpacked there. Wrong options, and a host with another
# potrace, are refused before the first page. The first run is cut off from here, by a signal; in the second one a host
# goes away: its cable first, and then its processes. In the end each document has to be there once, byte for byte as the
# program writes it here in one process, and nothing else; a third run has nothing to do, other options are refused, and
# this machine alone, without ssh, makes the same.
#
# It needs root, python3 and Debian's packages parallel, openssh-server, openssh-client, rsync and iproute2. It takes
# away what it made, and ends within some minutes.
set -euo pipefail

top=$(cd "$(dirname "$(readlink -f "${BASH_SOURCE[0]}")")/../.." && pwd)
[ $# -eq 1 ] && [ -r "$1" ] || { echo "usage: many.sh TARBALL" >&2; exit 2; }
for tool in python3 parallel /usr/sbin/sshd ssh ssh-keygen rsync ip setsid timeout; do
  command -v "$tool" >/dev/null || { echo "many: $tool is missing" >&2; exit 2; }
done
[ "$(id -u)" -eq 0 ] || { echo "many: only root makes network namespaces" >&2; exit 2; }
taken=$(ip route show root 198.51.100.0/24; ip netns list | grep '^many-' || true)
[ -z "$taken" ] || { echo "many: its addresses or names are taken: $taken" >&2; exit 2; }
tarball=$(readlink -f "$1")
hosts="one two"
work=$(mktemp -d)
export TMPDIR=$work
trap 'clean_up' EXIT

# The processes of a host, by their numbers.
kill_host() {
  ip netns pids "many-$1" 2>/dev/null | xargs -r kill -KILL 2>/dev/null || true
}

clean_up() {
  local host
  for host in $hosts; do
    kill_host "$host"
    ip link del "many-$host" 2>/dev/null || true
    ip netns del "many-$host" 2>/dev/null || true
  done
  rm -rf "$work"
}

fail() {
  echo "many: $*" >&2
  exit 1
}

# start_host NAME HERE THERE: a namespace, a cable to it with an address at each end, and an sshd.
start_host() {
  ip netns add "many-$1"
  ip link add "many-$1" type veth peer name eth0 netns "many-$1"
  ip addr add "$2/30" dev "many-$1"
  ip link set "many-$1" up
  ip -n "many-$1" addr add "$3/30" dev eth0
  ip -n "many-$1" link set eth0 up
  ip -n "many-$1" link set lo up
  cat >"$work/sshd_config-$1" <<CONFIG
ListenAddress $3
HostKey $work/keys/host
PidFile none
PermitRootLogin prohibit-password
MaxStartups 100
CONFIG
  setsid ip netns exec "many-$1" bash -ec "
    for hidden in ~ '$work/at' '$top' /opt /run; do mount -t tmpfs -o mode=755 none \$hidden; done
    mount --bind /dev/null '$(command -v parallel)'
    mkdir -m 700 ~/.ssh /run/sshd
    cp '$work/keys/user.pub' ~/.ssh/authorized_keys
    cd /
    exec /usr/sbin/sshd -D -e -f '$work/sshd_config-$1'" 2>"$work/sshd-$1.log" &
  disown
  cat >>"$work/ssh_config" <<CONFIG
Host $1
HostName $3
IdentityFile $work/keys/user
UserKnownHostsFile $work/known
StrictHostKeyChecking accept-new
LogLevel ERROR
CONFIG
}

# Waits until a command is true, for so many seconds at most.
until_true() {
  local most=$(($1 * 10))
  shift
  while ! "$@"; do
    most=$((most - 1))
    [ "$most" -gt 0 ] || fail "waited too long for: $*"
    sleep 0.1
  done
}

# The pages: scans in a folder of folders, and those that are easily lost.
draw_pages() {
  local number
  mkdir -p scans/old
  for number in $(seq 100 139); do
    python3 "$top/bench/pages.py" scan 1240 1754 "$number" >"scans/$number.pbm"
  done
  python3 "$top/bench/pages.py" map >"scans/old/a map's [page] *.pbm"
  cat scans/10[0-3].pbm >scans/four.pbm
  { cat scans/100.pbm; head -c 1000 scans/101.pbm; } >scans/refused.pbm
  { cat scans/102.pbm; echo behind; } >scans/noted.pbm
  : >scans/old/empty.pbm
  cp "$top/examples/key.pgm" scans/old
  cp scans/104.pbm scans/UPPER.PBM
}

come() { [ "$(find run -name '*.status' 2>/dev/null | wc -l)" -ge "$1" ]; }
answers() { ssh -F "$work/ssh_config" -o ConnectTimeout=2 "$1" true </dev/null 2>/dev/null; }

mkdir -p "$work/keys" "$work/at/one"
cd "$work/at"
draw_pages
mkdir "$work/alone"
cp -r scans "$work/alone"
ssh-keygen -q -t ed25519 -N '' -f "$work/keys/host"
ssh-keygen -q -t ed25519 -N '' -f "$work/keys/user"
tar -xzf "$tarball" -C "$work/keys"
here=$work/keys/bin/potrace

# The one process: all pages at once but for those that end it.
cp -r scans one
(
  cd one
  find scans -type f ! -name refused.pbm ! -name empty.pbm -print0 | xargs -0 -n 1000 "$here" -s --
  for page in scans/refused.pbm scans/old/empty.pbm; do "$here" -s -- "$page" && exit 1 || [ $? -eq 2 ] || exit 1; done
) 2>"$work/one.log" || fail "the one process: $(cat "$work/one.log")"

start_host one 198.51.100.1 198.51.100.2
start_host two 198.51.100.5 198.51.100.6
export PARALLEL_SSH="ssh -F $work/ssh_config"
for host in $hosts; do
  until_true 20 answers "$host"
  $PARALLEL_SSH "$host" 'mkdir .local && tar -xz -C .local' <"$tarball"
  [ -z "$($PARALLEL_SSH "$host" "find /opt '$work/at' '$top' -mindepth 1" </dev/null)" ] || fail "host $host sees what it shouldn't"
  echo "host $host: $($PARALLEL_SSH "$host" '.local/bin/potrace -v' </dev/null)"
done
printf '2/%s\n' $hosts >hosts

# refuses WHAT TEXT WORD..: over_hosts with these words ends with 1, says a text, and keeps and writes nothing.
refuses() {
  local what=$1 text=$2 kept status=0
  shift 2
  kept=$(find . | sort | sha256sum)
  "$top/examples/many/over_hosts" "$@" >"$work/said" 2>&1 || status=$?
  [ "$status" -eq 1 ] && grep -qF -- "$text" "$work/said" || { cat "$work/said" >&2; fail "$what: status $status"; }
  [ "$kept" = "$(find . | sort | sha256sum)" ] || fail "$what: something is kept"
  echo "$what: $(cat "$work/said")"
}
refuses 'wrong options' 'one: potrace: bad arguments' hosts scans run -s -r 300
$PARALLEL_SSH two 'mv .local/bin/potrace .local/bin/ours && printf "#!/bin/sh\necho potrace 1.16\n" >.local/bin/potrace && chmod +x .local/bin/potrace' </dev/null
refuses 'another potrace' 'two: potrace 1.16' hosts scans run -s
$PARALLEL_SSH two 'mv .local/bin/ours .local/bin/potrace' </dev/null
printf 'scans/100.pbm\nscans/100.pgm\n' >"$work/list"
refuses 'one name for two documents' 'would be called scans/100' hosts "$work/list" run -s

# Cut off from here.
setsid "$top/examples/many/over_hosts" hosts scans run -s >"$work/run-1.log" 2>&1 &
first=$!
disown
until_true 60 come 10
kill -KILL -- "-$first"
jobs_first=$(wc -l <run/jobs.log)
echo "first run: cut off with $(find run -name '*.status' | wc -l) pages done"

# A host goes away.
timeout 300 "$top/examples/many/over_hosts" hosts scans run -s >"$work/run-2.log" 2>&1 &
second=$!
until_true 60 come 25
ip link set many-two down
kill_host two
echo "second run: host two goes away with $(find run -name '*.status' | wc -l) pages done"
status=0
wait "$second" || status=$?
echo "second run: status $status; $(grep '^over_hosts' "$work/run-2.log")"
grep -v '^over_hosts' "$work/run-2.log" | sed "s|$work/[^ ]*|FILE|" | sort | uniq -c
# Jobs begin in order but for those that are tried again.
tail -n "+$((jobs_first + 1))" run/jobs.log | sort -t $'\t' -k 3,3n |
  awk '$1 < most { again++ } $1 > most { most = $1 } END { print "tried again in it: " again + 0 " jobs" }'

# Nothing is left to do.
jobs_done=$(wc -l <run/jobs.log)
status=0
"$top/examples/many/over_hosts" hosts scans run -s >"$work/run-3.log" 2>&1 || status=$?
[ "$status" -eq 2 ] || { cat "$work/run-2.log" "$work/run-3.log" >&2; fail "the third run ended with $status"; }
[ "$jobs_done" -eq "$(wc -l <run/jobs.log)" ] || fail "the third run had something to do"
echo "third run: status $status, nothing to do"
diff -r one/scans scans || fail "the documents differ"
refuses 'other options' "run has the options '-s'" hosts scans run -b dxf
(
  cd "$work/alone"
  echo 4/: >hosts
  status=0
  PATH=$work/keys/bin:$PATH PARALLEL_SSH=false "$top/examples/many/over_hosts" hosts scans run -s >"$work/run-4.log" 2>&1 || status=$?
  diff -r "$work/at/one/scans" scans || fail "this machine alone makes other documents: $(cat "$work/run-4.log")"
  echo "this machine alone: status $status; $(grep '^over_hosts' "$work/run-4.log")"
)
echo "$(find scans -name '*.svg' | wc -l) documents and $(find run -name '*.status' | wc -l) statuses, the same as of one process:" \
  "$(find run -name '*.status' -exec cat {} + | sort | uniq -c | awk '{ printf " %s with %s", $1, $2 }')"
awk -F'\t' '$1 != "Seq" { jobs[$2 ", exit value " $7]++ } END { for (it in jobs) print "job log: " jobs[it] " jobs of " it }' run/jobs.log | sort
