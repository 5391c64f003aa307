# What the checks of a run stand on: counts, comparisons, and the ways to run the program. `test` reads this file.

passed=0
failed=0

pass() {
    passed=$((passed + 1))
    printf 'ok    %s\n' "$1"
}

# fail NAME [FILE]: counts a failure, and shows the file that says why.
fail() {
    failed=$((failed + 1))
    printf 'FAIL  %s\n' "$1"
    if [ $# -gt 1 ]; then
        sed 's/^/      /' "$2"
    fi
}

# check NAME COMMAND..: the command has to succeed.
check() {
    local name=$1
    shift
    if "$@" </dev/null >"$scratch/said" 2>&1; then
        pass "$name"
    else
        fail "$name" "$scratch/said"
    fi
}

# in_a_room GROUP: calls the function with a folder of its own, for temporary files too, and leaves its counts beside that.
in_a_room() {
    scratch+=/$1 passed=0 failed=0
    export TMPDIR=$scratch
    "$1"
    printf '%s %s\n' "$passed" "$failed" >"$scratch.counts"
}

# side_by_side GROUP..: calls these functions, as many at once as there are processors. What a group prints comes whole once it has ended.
# Its counts are added to ours. A group that ends without counts fails by its name.
side_by_side() {
    local processor group good bad
    set -m
    for ((processor = $(nproc); processor > 0; processor--)); do
        (
            set +m
            for group in "$@"; do
                # (the job that makes the folder takes the group)
                mkdir "$scratch/$group" 2>/dev/null || continue
                (in_a_room "$group") >"$scratch/$group.said" 2>&1
                flock "$scratch" cat "$scratch/$group.said"
            done
        ) </dev/null &
    done
    set +m
    wait
    for group in "$@"; do
        if read -r good bad 2>/dev/null <"$scratch/$group.counts"; then
            passed=$((passed + good)) failed=$((failed + bad))
        else
            fail "$group gives its counts"
        fi
    done
}

# end_jobs: interrupts what `side_by_side` has left running, and kills what is there two seconds later. Each job is a group of processes.
end_jobs() {
    local jobs
    jobs=$(jobs -pr | sed 's/^/-/')
    # shellcheck disable=SC2086
    [ -z "$jobs" ] || { kill -INT -- $jobs; sleep 2; kill -KILL -- $jobs; wait; } 2>/dev/null
}

# has ENGINE: whether it is installed.
has() {
    case $1 in
        'GNU parallel') parallel --version 2>/dev/null </dev/null | grep -q '^GNU parallel' ;;
        'Slurm with munge') has slurmctld && has slurmd && has munged && has sbatch ;;
        'a static C library') has cc && [[ $(cc -print-file-name=libc.a) = */* ]] ;;
        'a root by unshare') unshare -r chroot / true 2>/dev/null ;;
        'a static C library and a root by unshare') has 'a static C library' && has 'a root by unshare' ;;
        'buildah with a static busybox and C library')
            has buildah && has 'a static C library' && ! ldd "$(type -P busybox)" >/dev/null 2>&1 && has busybox
            ;;
        'mounts of its own') unshare -rm mount -t tmpfs none /mnt 2>/dev/null ;;
        'a YAML parser for Python') python3 -c 'import yaml' 2>/dev/null ;;
        'valgrind with its static libraries and gcc')
            has gcc && has valgrind && [ -e /usr/include/valgrind/pub_tool_basics.h ] &&
                ls /usr/lib/x86_64-linux-gnu/valgrind/libcoregrind-amd64-linux.a >/dev/null 2>&1
            ;;
        *'-dev for the tracer')
            has 'valgrind with its static libraries and gcc' && [ -e "/usr/include/${1%%-dev *}.h" ]
            ;;
        *) type -P "$1" >/dev/null ;;
    esac
}

# check_by ENGINE NAME COMMAND..: a check that is skipped by name where the engine is not installed.
check_by() {
    local engine=$1
    shift
    if has "$engine"; then
        check "$@"
    else
        printf 'skip  %s: %s is not installed\n' "$1" "$engine"
    fi
}

# ended WANTED STATUS: says so where a status is not the one that is wanted.
ended() {
    [ "$1" = "$2" ] || {
        printf 'status %s in place of %s\n' "$2" "$1"
        return 1
    }
}

# same WANTED GOT: says what differs between two files.
same() {
    diff -u "$1" "$2"
}

# said TEXT FILE: the file, or standard input where it is `-`, holds these lines, or nothing where the text is empty.
said() {
    diff -u <(if [ -n "$1" ]; then printf '%s\n' "$1"; fi) "$2"
}

# counted NAME COMMAND..: a command that ends with counts of its own, which are added to ours.
counted() {
    local name=$1 status counts
    shift
    "$@" </dev/null 2>&1 | tee "$scratch/gate"
    status=${PIPESTATUS[0]}
    counts=$(grep -Eo '[0-9]+ passed, [0-9]+ failed$' "$scratch/gate" | tail -n 1)
    if [ -z "$counts" ]; then
        fail "$name gives its counts"
        return
    fi
    local ok=${counts%% *} bad=${counts##*passed, }
    bad=${bad%% *}
    passed=$((passed + ok))
    failed=$((failed + bad))
    if [ "$status" -ne 0 ] && [ "$bad" -eq 0 ]; then
        fail "$name ends with status $status"
    fi
}

# told STATUS INPUT TEXT DIAGNOSTICS WORD..: the program on this input, with the texts of both streams.
told() {
    local status=$1 input=$2 text=$3 diagnostics=$4
    shift 4
    printf '%s' "$input" | "$program" "$@" >"$scratch/report" 2>"$scratch/diagnostics"
    ended "$status" $? && said "$text" "$scratch/report" && said "$diagnostics" "$scratch/diagnostics"
}

# refused WORD..: nothing on standard output, a text on standard error, status 2.
refused() {
    "$program" "$@" <examples/first.log >"$scratch/report" 2>"$scratch/diagnostics"
    ended 2 $? && same /dev/null "$scratch/report" && grep -q '^pmfarm: error: ' "$scratch/diagnostics"
}

# full_output INPUT WORD..: a full device as standard output of a command that has something to write.
full_output() {
    local input=$1
    shift
    "$program" "$@" <"$input" 2>"$scratch/diagnostics" >/dev/full
    ended 4 $? && said 'pmfarm: write failed after 0 bytes' "$scratch/diagnostics"
}

is_a_directory='pmfarm: read failed
pmfarm: hint: Is a directory (os error 21)'

# unreadable WORD..: a directory as standard input.
unreadable() {
    "$program" "$@" <examples >"$scratch/report" 2>"$scratch/diagnostics"
    ended 4 $? && said "$is_a_directory" "$scratch/diagnostics" && same /dev/null "$scratch/report"
}

# sweep INPUT WORD..: each request for memory refused in turn.
sweep() {
    tests/sweep "$program" "$@"
}

# cut_off ROOM INPUT WHOLE WORD..: standard output takes ROOM bytes of the text in the file WHOLE, and then no more, since
# the file that they are appended to is then as long as it may be, a multiple of 1,024 bytes.
cut_off() {
    local room=$1 input=$2 whole=$3 blocks=$((($1 + 1023) / 1024))
    shift 3
    head -c $((blocks * 1024 - room)) /dev/zero >"$scratch/cut"
    (
        trap '' XFSZ
        ulimit -f "$blocks"
        exec "$program" "$@" <"$input" >>"$scratch/cut" 2>"$scratch/diagnostics"
    )
    ended 4 $? && said "pmfarm: write failed after $room bytes" "$scratch/diagnostics" || return
    head -c "$room" "$whole" >"$scratch/wanted"
    tail -c "$room" "$scratch/cut" | cmp "$scratch/wanted" - && ended $((blocks * 1024)) "$(wc -c <"$scratch/cut")"
}
