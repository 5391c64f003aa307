#!/bin/sh
#SBATCH --job-name=pmfarm
#SBATCH --cpus-per-task=1
#SBATCH --mem=4G
#SBATCH --output=pmfarm-%A_%a.txt
#$ -N pmfarm
#$ -S /bin/sh
#$ -cwd
#$ -V
#$ -j y
# One task of an array of Slurm, Grid Engine or Kubernetes: checks the logs whose runs stand on its line of TASKS.
#
#     task.sh FARM LIST OUT TASKS
#
# An engine may run a copy of this file from a folder of its own, so the folder of map.sh is the word FARM.
set -u
task=${SLURM_ARRAY_TASK_ID:-${SGE_TASK_ID:-$((JOB_COMPLETION_INDEX + 1))}}
runs=$(sed -n "${task}p" "$4") || exit 4
# shellcheck disable=SC2086
[ -z "$runs" ] || exec "$1/map.sh" "$2" "$3" $runs
