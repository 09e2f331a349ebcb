# shellcheck shell=bash disable=SC2034
# count.sh, to be sourced after tests/machine.sh: executed instructions of one call (x86-64, counted under qemu-user, so that the
# figure is the same on every machine and whatever else it does).
#
#   ready_ours, ready_twins    build what is counted: ours out of libsoad.a and the programs bench_repeat and bench_replay; the twins
#   per_call SIDE WORD ..      of a function of libsoad.a (ours) or its twin, by bench.c's words
#   per_event SIDE WHAT QUARTERS LENGTH    of an entry point, by input.c's words; of some entry points that make a round, of all its calls
#
# A cost is the difference between a short and a long run, per call. What the loop does besides the call is taken off on both sides:
# `nothing`, or for a call that the loop makes ready, clears up after or finds out of a round, the same without the call.
# SOAD_LIB names another archive than the one of the crate soad, REPEAT and REPLAY other programs than target/bin/bench_repeat and bench_replay.
work=$root/target/bench
library=${SOAD_LIB:-$root/target/staticlib/libsoad.a}
repeat=${REPEAT:-$root/target/bin/bench_repeat}
replay=${REPLAY:-$root/target/bin/bench_replay}
includes=("-I$root/include" "-I$root/tests" "-I$root/bench")

ready_ours() {
    mkdir -p "$work"
    need qemu-x86_64 qemu-user && need cc gcc && cc -O2 -fPIC -shared -o "$work/insn.so" "$root/bench/insn.c" || return
    [ -n "${SOAD_LIB:-}" ] || proved_library || return
    [ -n "${REPEAT:-}" ] || proved_program bench_repeat || return
    [ -n "${REPLAY:-}" ] || proved_program bench_replay || return
    compile_cross "$work/bench" "${includes[@]}" "$root/bench/bench.c" "$root/bench/twin.c" "$root/bench/table.c" "$library" &&
        compile "$work/input" "${includes[@]}" "$root/bench/input.c"
}

ready_twins() { compile_cross "$work/twins" "${includes[@]}" "$root"/bench/{repeat,replay,dispatch,events,table}.c; }

# count PROGRAM WORD ..: instructions of one run. A program that does not say OK ends the shell.
count() {
    # shellcheck disable=SC2046
    qemu-x86_64 -plugin "$work/insn.so" $(loader) "$@" 2>"$work/counted" >"$work/said" </dev/stdin
    grep -qx OK "$work/said" || { echo "$* did not do what it names" >&2; exit 1; }
    sed -n 's/^instructions //p' "$work/counted"
}

called() { echo $((($(count "$work/bench" "$@" 70 </dev/null) - $(count "$work/bench" "$@" 20 </dev/null)) / 50)); }
per_call() { echo $(($(called "$@") - $(called "$1" nothing 0 0))); }

# repeated PROGRAM WHAT QUARTERS LENGTH: the calls of a short run, 20, and of a long one, 80, so that whole rounds lie between them; 1 and 3 of
# what is long by itself; of a replay of 10 entries 1 and 401, which are 4,000 entries more. What a call costs, or ROUND calls.
repeated() {
    local short=20 long=80 less more
    case $2 in
    *segment | *ticks) short=1 long=3 ;;
    *replay | *tally) short=1 long=401 ;;
    esac
    less=$("${start[@]}" "$work/input" "${@:2}" "$short" | count "$1") || return
    more=$("${start[@]}" "$work/input" "${@:2}" "$long" | count "$1") || return
    echo $(((more - less) * ROUND / (long - short)))
}

per_event() {
    local program=$repeat busy='' besides ROUND=1
    case ${2#+} in replay | tally) program=$replay ;; esac
    [ "$1" = ours ] || program=$work/twins
    case $2 in +*) busy=+ ;; esac
    case ${2#+} in
    transmit) besides=emptied ;;
    waiting) besides=holding ;;
    piece) besides=begun ;;
    wound) besides=wind ;;
    segment | ticks) besides=idle0 ;;
    switch | all | clear) besides=idle ;;
    lost | accept) besides=idle2 ;;
    remote) besides=idle3 ;;
    close) besides=idle4 ;;
    *) besides=nothing ;;
    esac
    case ${2#+} in
    lost | accept | own-lost | own-accept) ROUND=2 ;;
    remote | own-remote) ROUND=3 ;;
    close | own-close) ROUND=4 ;;
    esac
    echo $(($(repeated "$program" "${@:2}") - $(repeated "$program" "$busy$besides" "$3" "$4")))
}
