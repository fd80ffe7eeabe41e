# Read by the scripts beside it.

# The nanoseconds of the fastest of five runs of the program by these words, from the start of the
# process to its end, with the file `$bundle` as its input. It needs a `date` that knows %N.
best_of_five() {
    best=
    for run in 1 2 3 4 5; do
        before=$(date +%s%N)
        "$program" "$@" <"$bundle" >/dev/null || return 1
        after=$(date +%s%N)
        taken=$((after - before))
        if [ -z "$best" ] || [ "$taken" -lt "$best" ]; then
            best=$taken
        fi
    done
    echo "$best"
}
