#!/usr/bin/env bash
# The same as a job array of Slurm, a task for each part. It was NOT tried on a cluster: no Slurm stands where this was written.
#
#   parts.py cut SCRIPT BLOCKS FOLDER
#   sbatch --array=1-$(ls FOLDER/*.txt | wc -l) grid.sbatch DESK_GRID MARKET FOLDER
#   parts.py join SCRIPT FOLDER OUT         # once the array is done; it names a part that was not
#
# A part that was not done is run again by its number: sbatch --array=7 grid.sbatch DESK_GRID MARKET FOLDER
#SBATCH --job-name=desk_grid
#SBATCH --ntasks=1
#SBATCH --cpus-per-task=1
#SBATCH --mem=512M
set -eu
exec "$SLURM_SUBMIT_DIR/run_part.sh" "$1" "$2" "$3/$(printf '%04d' "$SLURM_ARRAY_TASK_ID").txt"
