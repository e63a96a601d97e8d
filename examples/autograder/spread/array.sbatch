#!/bin/sh
#SBATCH --job-name=grade
#SBATCH --array=1-8
#SBATCH --cpus-per-task=4
#SBATCH --mem-per-cpu=2G
#SBATCH --output=grade-%A-%a.out
# sbatch array.sbatch GRADE RESULTS TASK CLASS: marks each folder of the folder CLASS by the jobs of an array, each of which
# takes a part of them. All paths, GRADE (the script grade) too, lie on a file system that all machines see. When the array has
# ended, `grade --results RESULTS --csv marks.csv TASK CLASS/*/` takes up all marks. `sbatch --array=1-32 ..` has 32 jobs. For
# each processor 2 GB are enough for a task whose memory is 1024; with 2048 say `sbatch --mem-per-cpu=4G ..`. GRADE_SEED_FILE is
# the path of the seed's file, which you alone may read; the last call needs it, too, as --seed-file.
set -eu

[ $# = 4 ] || {
    echo "usage: sbatch array.sbatch GRADE RESULTS TASK CLASS" >&2
    exit 2
}
exec "$1" -j "${SLURM_CPUS_PER_TASK:-1}" --part "$SLURM_ARRAY_TASK_ID/$SLURM_ARRAY_TASK_COUNT" --brief --results "$2" \
    ${GRADE_SEED_FILE:+"--seed-file=$GRADE_SEED_FILE"} -- "$3" "$4"/*/
