# Sourced by `run` and by every installed program.
# started PROGRAM ARGS..: runs a program with this command's input and output and leaves with the verdict that it tells: 0, 1 or
# 2, written to descriptor 198 (crates/files/src/told.rt). A program that a signal ends tells none, and its status is that;
# what it was making beside the name of an output is taken away.
# shellcheck shell=bash
started() {
    local told child word status=0 verdict=''
    exec {told}<> <(:)
    # In the background, so that a signal sent to this command alone reaches the program at once; a terminal's are not ignored.
    (
        trap - INT QUIT
        exec "$@" 198>&"$told" {told}>&-
    ) <&0 &
    child=$!
    for signal in HUP INT QUIT TERM; do
        # shellcheck disable=SC2064
        trap "kill -$signal $child 2>/dev/null || true" "$signal"
    done
    while :; do
        status=0
        wait "$child" || status=$?
        kill -0 "$child" 2>/dev/null || break
    done
    read -r -t 1 -n 1 -u "$told" verdict || true
    if [ "$status" -ne 0 ]; then
        # an output that it was making beside its name (crates/files/src/output.rt)
        for word in "${@:2}"; do
            if [ -e "$word.$child.part" ]; then
                rm -f -- "$word.$child.part"
                echo "${1##*/}: ended by a signal; $word is as it was" >&2
            fi
        done
        exit "$status"
    fi
    case $verdict in
    0 | 1 | 2) exit "$verdict" ;;
    *)
        echo "${1##*/}: it ended without a verdict" >&2
        exit 2
        ;;
    esac
}
