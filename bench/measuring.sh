# What the benches of this folder share: they source it at the top of the repository.

# bench, path of the program: the bench can't run where no proved program is
need_program() {
    [ -x "$2" ] || { echo "$1: 'sh .ci/run' makes the proved program first" >&2; exit 1; }
}

# words of the command, input: prints the nanoseconds of the fastest of nine runs of $denovo
fastest() {
    local best=0 begun ns
    for _ in 1 2 3 4 5 6 7 8 9; do
        begun=$(date +%s%N)
        "$denovo" $1 < "$2" > /dev/null || true
        ns=$(($(date +%s%N) - begun))
        if [ $best -eq 0 ] || [ $ns -lt $best ]; then best=$ns; fi
    done
    echo $best
}

# text: prints how many events the run of a text has
events_of() { "$denovo" --mode run < "$1" | awk '/^count events /{ print $3 }'; }

# file, sizes: measures the generated texts of these sizes, which are written to the file, and examples/realistic.s
measure_texts() {
    local file=$1 size
    shift
    for size in "$@"; do
        tools/reference.py text "$size" > "$file"
        measure "size $size" "$file"
    done
    measure realistic examples/realistic.s
}
