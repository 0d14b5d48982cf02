#!/bin/sh
#SBATCH --job-name=qapplan-part
#SBATCH --cpus-per-task=1
#SBATCH --requeue
#SBATCH --open-mode=append
#SBATCH --signal=B:TERM@60
#SBATCH --output=/dev/null
# Solves one part of a search, as one task of a Slurm array.
#
#   qapplan split nug18.dat --parts 100 -o parts
#   sbatch --array=1-$(wc -l < parts/parts.txt) part.sbatch nug18.dat parts
#   qapverify nug18.dat parts/skeleton.proof parts/part-*.proof
#
# The first argument is the plan or the instance that was split. All machines must see the files, and have qapplan on their paths. What part N
# says goes to FOLDER/part-N.log. Slurm requeues a task whose machine is lost. A task that falls short, because its time is up or it was told
# to stop, ends with status 5 and is requeued up to three times; the whole array may be submitted again, since valid proofs are kept.
given=$1
folder=$2
number=$SLURM_ARRAY_TASK_ID
node=$(sed -n "${number}p" "$folder/parts.txt")
log=$folder/part-$number.log

{
    echo "$(date) on $(hostname), attempt $((${SLURM_RESTART_COUNT:-0} + 1))"
    qapplan part "$given" --node "$node" --start "$folder/best.sln" -o "$folder/part-$number.proof" --workers "${SLURM_CPUS_PER_TASK:-1}" &
    task=$!
    trap 'kill -TERM "$task"' TERM
    wait "$task"
    status=$?
    # (a signal ends the first wait early)
    while kill -0 "$task" 2> /dev/null; do
        wait "$task"
        status=$?
    done
    echo "status $status"
} >> "$log" 2>&1

if [ "$status" -ne 0 ] && [ "${SLURM_RESTART_COUNT:-0}" -lt 3 ]; then
    scontrol requeue "${SLURM_ARRAY_JOB_ID}_$SLURM_ARRAY_TASK_ID" >> "$log" 2>&1
fi
exit "$status"
