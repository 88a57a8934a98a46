#!/bin/bash
#SBATCH --job-name=posgame
#SBATCH --ntasks=1
#SBATCH --mem=1G
#SBATCH --requeue
#SBATCH --output=posgame-%A.log
#SBATCH --open-mode=append
# Settles many games by Slurm, a game a task: line N of the file LIST is the game of task N.
#
#     sbatch --array=1-$(wc -l < LIST) cluster/settle.sbatch LIST FOLDER [OPTION ..]
#
# Submitted from the folder above cluster/, or with SETTLE_ONE set. A game that is done is left, so
# the same command again goes on after tasks were killed. Nothing here is proved; cluster/try-slurm
# tries it.
set -u
list=$1 folder=$2
shift 2
game=$(sed -n "${SLURM_ARRAY_TASK_ID}p" "$list")
name=$(basename -- "$game")
[[ -n $game && ! -e $folder/${name%.*}.json ]] || exit 0
exec "${SETTLE_ONE:-$SLURM_SUBMIT_DIR/cluster/settle-one}" "$game" "$folder" "$@"
