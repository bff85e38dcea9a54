#!/bin/sh
# Diagnoses the dies of a lot, in the lot's folder: the report over logs/DIE.log goes to
# reports/DIE, as many dies at a time as there are processors. The word is the program. A task of a
# Slurm array takes its share of the dies.
#
#     cd LOT && .../diagnose.sh PROGRAM
#     cd LOT && sbatch --array=0-9 --cpus-per-task=4 .../diagnose.sh PROGRAM
program=$1
jobs=${SLURM_CPUS_PER_TASK:-$(nproc)}
mkdir -p reports

# In the shell that xargs starts: $0 is the program and $1 the log. Its status is that of the last
# command.
# shellcheck disable=SC2016
find logs -name '*.log' | sort | awk -v tasks="${SLURM_ARRAY_TASK_COUNT:-1}" -v task="${SLURM_ARRAY_TASK_ID:-0}" 'NR % tasks == task' |
    xargs -P "$jobs" -I LOG sh -c '
        die=${1##*/}
        die=${die%.log}
        exec "$0" diagnose demo "$die" demo.bench demo.scan demo.pat demo.csv "$1" >"reports/$die"
    ' "$program" LOG
