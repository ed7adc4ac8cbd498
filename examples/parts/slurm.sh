#!/bin/sh
#SBATCH --job-name=sgb
#SBATCH --cpus-per-task=1
# Hands Slurm a job that makes the listing of a generator's graph in parts, one a task: FILES.1, FILES.2, .., which one
# after another are the listing. From the folder with examples/, with sgb on the path:
#
#   examples/parts/slurm.sh "board(30000,30000,0,0,1,0,0)" 100 part
#
# It asks for the memory that a task needs (memory.py, which wants Python): little for a generator's graph, more where one is
# built.
#
# A task whose part is not whole fails, and its part has no name of its own then: called once more, only the parts that are
# not there are made.
set -eu
here=examples/parts
task=${SLURM_ARRAY_TASK_ID:-}
if [ -z "$task" ]; then
    [ $# -eq 3 ] || { echo "usage: examples/parts/slurm.sh EXPR PARTS FILES" >&2; exit 2; }
    # what shards.sh refuses is refused before it is handed on
    $here/shards.sh --retry "$1" "$2" "$3" > /dev/null
    memory=$($here/memory.py "$1")
    exec sbatch --mem="${memory}M" --array="1-$2" "$0" "$1" "$3"
fi
# a task: sbatch runs a copy of this script in the folder where it was called, so the others are not beside $0
[ $# -eq 2 ] || { echo "slurm.sh: a task has two words, EXPR FILES" >&2; exit 2; }
parts=${SLURM_ARRAY_TASK_MAX:?is set by sbatch --array}
if [ "${SLURM_ARRAY_TASK_MIN:-1}" -ne 1 ] || [ "${SLURM_ARRAY_TASK_COUNT:-$parts}" -ne "$parts" ]; then
    echo "slurm.sh: the array has to be 1-$parts" >&2
    exit 2
fi
command=$($here/shards.sh --retry "$1" "$parts" "$2" | sed -n "${task}p")
[ -n "$command" ] || { echo "slurm.sh: no command for part $task" >&2; exit 1; }
exec sh -c "$command"
