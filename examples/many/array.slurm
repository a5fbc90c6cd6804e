#!/usr/bin/env bash
#SBATCH --job-name=potrace
#SBATCH --array=0-99
#SBATCH --cpus-per-task=1
#SBATCH --requeue
# Traces pages as an array job of the batch queue Slurm; handed in again, it goes on where it was cut off.
#
# usage: sbatch [--array=0-LAST[%MOST]] array.slurm LIST RUN [OPTION..]
#
# Of N tasks each takes every N-th page of LIST, a file with a name a line; at most MOST of them run at a time. The folder
# is the one where it is handed in, which all nodes share, and potrace is on the PATH there. The documents come beside the
# pages, as `potrace OPTION.. PAGE` writes them. RUN/PAGE.status has the status of each page that is done: 0, or 2 where it
# was refused. RUN/options has the words of the run, which is refused under others.
#
# A task fails, and traces nothing, where the node's potrace isn't this one or doesn't take the options. It fails where a
# page ended otherwise, as for want of disk or memory, and has no status. How many pages are done:
# `find RUN -name '*.status' | wc -l`.
set -u

fail() {
  echo "array.slurm: $*" >&2
  exit 1
}

[ $# -ge 2 ] || { echo "usage: sbatch array.slurm LIST RUN [OPTION..]" >&2; exit 1; }
list=$1 run=$2 failed=0
shift 2

said=$(potrace --workers 1 "$@" --demo 1 2>&1)
[[ $said == "paths "* ]] || fail "nothing is traced; potrace with these options says: $said"
# The first task to come here writes the run's options.
mkdir -p "$run" && printf '%s\n' "${*@Q}" >"$run/options-$SLURM_ARRAY_TASK_ID" || fail "cannot write in $run"
ln "$run/options-$SLURM_ARRAY_TASK_ID" "$run/options" 2>/dev/null
rm "$run/options-$SLURM_ARRAY_TASK_ID"
[ "${*@Q}" = "$(<"$run/options")" ] || fail "$run has the options $(<"$run/options"): take another RUN"

awk -v count="$SLURM_ARRAY_TASK_COUNT" -v task="$SLURM_ARRAY_TASK_ID" 'NR % count == task' "$list" | {
  while IFS= read -r page; do
    status=$run/$page.status
    [ ! -s "$status" ] || continue
    potrace --workers 1 "$@" -- "$page" </dev/null
    said=$?
    { [ $said -eq 0 ] || [ $said -eq 2 ]; } && mkdir -p "${status%/*}" && echo $said >"$status" || failed=1
  done
  exit $failed
}
