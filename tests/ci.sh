# What docs/GUIDE.md says of CI: examples/recipes/ci.sh, and the files by which CI systems call it. The commands are installed ones; the
# tracer is played but for one check: it writes the log that `played` names.

# A project in an empty folder, in which no failure is known, beside the commands.
ci_project() {
    project=$scratch/project commands=$scratch/commands
    rm -rf "$project" "$commands" && mkdir -p "$project/src" && install_built "$commands" >"$scratch/report" 2>&1 &&
        rm "$commands/bin/pmfarm-trace" && cat >"$commands/bin/pmfarm-trace" <<'SH' || return
#!/bin/sh
while [ "$1" != --log ]; do shift; done
cp "$played" "$2" && shift 2 && exec "$@"
SH
    cp examples/recipes/ci*.sh "$project" && cp examples/c/append_log.c "$project/src" && chmod +x "$commands/bin/pmfarm-trace" &&
        echo '[]' >"$project/known.json"
}

# in_ci STATUS LOG WORD..: these words at the top of the project, where the tracer writes this log. What the last test left is gone.
in_ci() {
    local status=$1 log=$2
    shift 2
    (cd "$project" && played=$log PATH=$commands/bin:$PATH "$@") >"$scratch/rows" 2>"$scratch/diagnostics" </dev/null
    ended "$status" $? || { cat "$scratch/diagnostics" && return 1; }
}

# guide LINE: the document has the line, as one to be pasted.
guide() {
    grep -qxF "    $1" docs/GUIDE.md || { printf 'not in docs/GUIDE.md: %s\n' "$1" && return 1; }
}

missing_fence=$PWD/examples/traced_append_without_a_fence
write_baseline='pmfarm-rows --format text --log pmfarm.out/1/store.log --source-root . --write-baseline known.json pmfarm.out/1/store.report'

# What passes is in the files that are kept, and joins to the report.
ci_passes() {
    guide "echo '[]' > known.json" && guide './ci.sh 1 ./my-test' && ci_project && in_ci 0 "$top/examples/traced_append.log" ./ci.sh 7 true &&
        same /dev/null "$scratch/rows" && same /dev/null "$scratch/diagnostics" || return
    left=$project/pmfarm.out/7
    sed 's/^section 0/section 7/' examples/traced_append.report | same - "$left/store.report" &&
        "$program" join "$left/7.ledger" | same "$left/store.report" - &&
        grep -q 'tests="10" failures="0"' "$left/store.xml" && grep -q '"results": \[' "$left/store.sarif" || return
    in_ci 0 "$top/examples/traced_append.log" ./ci.sh 8 true && (cd "$project/pmfarm.out" && printf '%s\n' */*) |
        said "$(printf '%s\n' {7/7.ledger,7/store.{log,report,sarif,xml},8/8.ledger,8/store.{log,report,sarif,xml}})" -
}

# A failure that is new is shown, also as an annotation of its line; one that is known is not, and fails nothing.
ci_fails_but_for_what_is_known() {
    local rows=$'7.0 5 ORDERED FAIL byte=0x10040 after=0x10000 crash=4\n7.0 14 ORDERED FAIL byte=0x10058 after=0x10000 crash=13
7.0 23 ORDERED FAIL byte=0x10070 after=0x10000 crash=22'
    ci_project && in_ci 1 "$missing_fence.log" ./ci.sh 7 true && said "$rows" "$scratch/rows" && in_ci 1 "$missing_fence.log" ./ci.sh 1 true || return
    in_ci 1 "$missing_fence.log" env GITHUB_ACTIONS=true ./ci.sh 7 true && cut -d % -f 1 "$scratch/rows" |
        said "$(sed 's/^/::error file=src\/append_log.c,line=59,title=ORDERED FAIL::/' <<<"$rows")" - &&
        grep -q 'tests="10" failures="3"' "$project/pmfarm.out/7/store.xml" && grep -q '"uri": "src/append_log.c"' "$project/pmfarm.out/7/store.sarif" &&
        guide "$write_baseline" && in_ci 0 '' $write_baseline || return
    said $'[\n{"key": "ORDERED-FAIL src/append_log.c:59", "count": 3}\n]' "$project/known.json" &&
        in_ci 0 "$missing_fence.log" ./ci.sh 7 true && sed 's/$/ (known)/' <<<"$rows" | same - "$scratch/rows" &&
        in_ci 0 "$missing_fence.log" env GITHUB_ACTIONS=true ./ci.sh 7 true && same /dev/null "$scratch/rows" &&
        grep -q 'tests="10" failures="0" errors="0" skipped="3"' "$project/pmfarm.out/7/store.xml" || return
    in_ci 0 "$top/examples/traced_append.log" ./ci.sh 8 true && said 'gone: ORDERED-FAIL src/append_log.c:59 (3 of 3)' "$scratch/diagnostics"
}

# A log that asserts nothing does not pass; a program that fails, a log that is refused and a list that is missing end with no verdict.
ci_warns_and_refuses() {
    ci_project && printf 'STORE;8;1;8\nFLUSH;8;8\nFENCE\n' >"$scratch/nothing.log" && printf 'PMT.X\n' >"$scratch/refused.log" || return
    in_ci 1 "$scratch/nothing.log" ./ci.sh 7 true && grep -q '^pmfarm: warning: ' "$scratch/diagnostics" &&
        in_ci 3 "$missing_fence.log" ./ci.sh 7 sh -c 'exit 3' && in_ci 2 "$scratch/refused.log" ./ci.sh 7 true &&
        said 'pmfarm: record 1: unknown marker' "$scratch/diagnostics" && rm "$project/known.json" && in_ci 2 "$missing_fence.log" ./ci.sh 7 true &&
        said 'rows: known.json: No such file or directory' "$scratch/diagnostics"
}

# Of one number one test runs at a time. A number that is none is refused before the trace.
ci_is_alone() {
    ci_project && mkdir -p "$project/pmfarm.out/7" && exec {running}<"$project/pmfarm.out/7" && flock -n "$running" || return
    in_ci 4 "$top/examples/traced_append.log" ./ci.sh 7 true && said 'ci.sh: another test of run 7 runs here' "$scratch/diagnostics" &&
        in_ci 0 "$top/examples/traced_append.log" ./ci.sh 8 true && exec {running}<&- && in_ci 0 "$top/examples/traced_append.log" ./ci.sh 7 true || return
    in_ci 2 '' ./ci.sh 7 && in_ci 2 '' ./ci.sh --wait && in_ci 2 '' ./ci.sh --wait x 7 true && in_ci 2 "$missing_fence.log" ./ci.sh x touch traced &&
        in_ci 2 "$missing_fence.log" ./ci.sh 18446744073709551616 touch traced && [ ! -e "$project/traced" ]
}

# child STATUS LOG COMMAND: a test that passes, beside a child process whose log is this, put there by the command.
child() {
    in_ci "$1" "$top/examples/traced_append.log" ./ci.sh --wait 2 7 sh -c "$3" "$2"
}

# A child has a part in all that the test leaves, also where it ends behind its parent. One that goes on, or that has no whole log, is no verdict.
ci_sees_children() {
    local now='cp "$0" pmfarm.out/7/store.log.436' late='(sleep 1; cp "$0" pmfarm.out/7/store.log.436) &'
    local rows=$'7.1000000000000 5 ORDERED FAIL byte=0x10040 after=0x10000 crash=4\n7.1000000000000 14 ORDERED FAIL byte=0x10058 after=0x10000 crash=13
7.1000000000000 23 ORDERED FAIL byte=0x10070 after=0x10000 crash=22'
    ci_project && child 1 "$missing_fence.log" "$now" && said "$rows" "$scratch/rows" && child 1 "$missing_fence.log" "$late" && said "$rows" "$scratch/rows" || return
    "$program" join "$project/pmfarm.out/7/7.ledger" >"$scratch/report"
    ended 1 $? && tail -n 1 "$scratch/report" | said 'total sections=2 pass=17 fail=3 warn=0 empty=0' - &&
        grep -q 'tests="20" failures="3"' "$project/pmfarm.out/7/store.xml" && grep -q '"uri": "src/append_log.c"' "$project/pmfarm.out/7/store.sarif" || return
    in_ci 0 '' ${write_baseline//out\/1/out\/7} && child 0 "$missing_fence.log" "$now" && sed 's/$/ (known)/' <<<"$rows" | same - "$scratch/rows" || return
    child 2 "$missing_fence.log" 'sleep 4 &' && said 'ci.sh: a child of the program still runs after 2 seconds' "$scratch/diagnostics" || return
    printf 'STORE;8;1;8\nPMT.REFUSED;why\n' >"$scratch/refused.log" && : >"$scratch/empty.log" && printf 'PMT.SECTION;1234567890123\n' >"$scratch/wide.log" &&
        child 2 "$scratch/refused.log" "$now" && grep -q ': unknown marker$' "$scratch/diagnostics" && child 4 "$scratch/empty.log" "$now" && child 4 "$scratch/wide.log" "$now"
}

# A signal ends the program, too, and the next test runs.
ci_is_ended() {
    local log=$top/examples/traced_append.log sleeps='echo $$ >pid; exec sleep 60' status tried=0
    ci_project && in_ci 124 "$log" timeout 1 ./ci.sh 7 sh -c "$sleeps" && ! kill -0 "$(<"$project/pid")" 2>/dev/null && rm "$project/pid" || return
    (cd "$project" && played=$log PATH=$commands/bin:$PATH exec ./ci.sh 7 sh -c "$sleeps") >/dev/null 2>&1 &
    until [ -s "$project/pid" ] || [ $((tried += 1)) -gt 100 ]; do
        sleep 0.1
    done
    kill -TERM $!
    wait $!
    ended 143 $? && ! kill -0 "$(<"$project/pid")" 2>/dev/null && in_ci 0 "$log" ./ci.sh 7 true
}

# on_small_disk PAGES: a test that passes, where what it leaves has so many pages of room. With a verdict all is there.
on_small_disk() {
    rm -rf "$project/pmfarm.out" && mkdir "$project/pmfarm.out" && unshare -rm bash -c '
        mount -t tmpfs -o size="$1k" none "$2/pmfarm.out" && cd "$2" && ./ci.sh 7 true
        status=$?
        cp -r pmfarm.out kept
        exit "$status"' _ "$((4 * $1))" "$project" >"$scratch/rows" 2>"$scratch/diagnostics"
}

ci_on_a_full_disk() {
    local pages status whole=0
    ci_project && export played=$top/examples/traced_append.log PATH=$commands/bin:$PATH || return
    for pages in {1..12}; do
        rm -rf "$project/kept"
        on_small_disk "$pages"
        status=$?
        if [ "$status" = 0 ]; then
            whole=$((whole + 1))
            grep -q '</testsuites>' "$project/kept/7/store.xml" && python3 -m json.tool "$project/kept/7/store.sarif" >/dev/null &&
                "$program" join "$project/kept/7/7.ledger" | same "$project/kept/7/store.report" - || return
        elif [ "$status" = 1 ] || [ ! -s "$scratch/diagnostics" ]; then
            echo "$pages pages: status $status"
            return 1
        fi
    done
    [ "$whole" -gt 0 ] && [ "$whole" -lt 12 ]
}

day='total sections=2 pass=17 fail=3 warn=0 empty=0
7.0 5 ORDERED FAIL byte=0x10040 after=0x10000 crash=4
7.0 14 ORDERED FAIL byte=0x10058 after=0x10000 crash=13
7.0 23 ORDERED FAIL byte=0x10070 after=0x10000 crash=22'

# Two ledgers of a day, of the runs 7 and 8, in the folder `kept` of the project.
kept_ledgers() {
    ci_project && mkdir "$project/kept" && "$program" check --ledger --run 8 examples/traced_append.log >"$project/kept/8.ledger" || return
    "$program" check --ledger --run 7 "$missing_fence.log" >"$project/kept/7.ledger"
    ended 1 $?
}

ci_joins_a_day() {
    kept_ledgers && in_ci 0 '' ./ci-day.sh kept/{7,8}.ledger && said "$day" "$scratch/rows" && in_ci 4 '' ./ci-day.sh 'none/*.ledger' &&
        same /dev/null "$scratch/rows" && [ ! -e "$project/day.report" ] && in_ci 4 '' ./ci-day.sh kept/7.ledger kept/9.ledger && in_ci 2 '' ./ci-day.sh &&
        in_ci 2 '' ./ci-day.sh kept/7.ledger "$top/examples/forged.ledger"
}

# night_of FILE: the script that a file of YAML has for each night.
night_of() {
    python3 - "examples/recipes/$1" <<'PY'
import sys, yaml

with open(sys.argv[1]) as file:
    whole = yaml.safe_load(file)
if "jobs" in whole:
    print("\n".join(it["run"] for it in whole["jobs"]["day"]["steps"] if "run" in it))
else:
    print("\n".join(whole["persistent memory of a day"]["script"]))
PY
}

# The night of GitHub, and of GitLab, with `gh` and `curl` played: of three tests one has no ledger.
ci_night_of_github() {
    kept_ledgers && night_of github.yaml >"$scratch/night" && cat >"$commands/bin/gh" <<'SH' && chmod +x "$commands/bin/gh" || return
#!/bin/sh
case $* in
    "run list --workflow persistent-memory.yaml --status completed --created $(date -u -d yesterday +%F) "*) printf '70\n80\n90\n' ;;
    'run download 90 '*) exit 1 ;;
    'run download '[78]'0 --pattern ledger-* --dir ledgers') mkdir -p "ledgers/ledger-${3%0}/${3%0}" && cp "kept/${3%0}.ledger" "ledgers/ledger-${3%0}/${3%0}" ;;
    *) exit 9 ;;
esac
SH
    in_ci 0 '' sh -e "$scratch/night" &&
        said $'run 90 has no ledger\n'"$day" "$scratch/rows"
}

ci_night_of_gitlab() {
    kept_ledgers && night_of gitlab.yaml >"$scratch/night" && cat >"$commands/bin/curl" <<'SH' && chmod +x "$commands/bin/curl" || return
#!/bin/bash
url=${*: -1} day=$(date -u -d yesterday +%F)T10:00:00.000Z
case ${url#https://gitlab/projects/3/jobs} in
    *'&page=1') printf '[{"id": 7, "name": "persistent memory", "created_at": "%s"}, {"id": 6, "name": "other", "created_at": "%s"},
        {"id": 9, "name": "persistent memory", "created_at": "%s"}]\n' "$day" "$day" "$day" ;;
    *'&page=2') printf '[{"id": 8, "name": "persistent memory", "created_at": "%s"}, {"id": 5, "name": "persistent memory",
        "created_at": "2001-01-01T10:00:00.000Z"}]\n' "$day" ;;
    *'&page='*) printf '[]\n' ;;
    /[78]/artifacts)
        job=${url%/*} job=${job##*/}
        mkdir -p "pmfarm.out/1$job" && cp "kept/$job.ledger" "pmfarm.out/1$job" && python3 -m zipfile -c one.zip pmfarm.out && cat one.zip
        rm -r pmfarm.out one.zip
        ;;
    *) exit 22 ;;
esac
SH
    in_ci 0 '' env CI_API_V4_URL=https://gitlab CI_PROJECT_ID=3 PMFARM_TOKEN=x bash -eo pipefail "$scratch/night" &&
        said $'job 9 has no ledger\n'"$day" "$scratch/rows"
}

# The files of the systems have what these ask for, and name what ci.sh leaves.
ci_files_are_whole() {
    grep -qF "junit testResults: 'pmfarm.out/*/store.xml'" examples/recipes/Jenkinsfile &&
        grep -qF "archiveArtifacts artifacts: 'pmfarm.out/**'" examples/recipes/Jenkinsfile && python3 - <<'PY'
import yaml

with open("examples/recipes/github.yaml") as file:
    whole = yaml.safe_load(file)
on = whole[True]
assert set(on) == {"push", "pull_request", "schedule"} and len(on["schedule"][0]["cron"].split()) == 5
check, day = whole["jobs"]["check"], whole["jobs"]["day"]
assert check["permissions"]["security-events"] == "write" and day["permissions"]["actions"] == "read"
assert (check["if"], day["if"]) == ("github.event_name != 'schedule'", "github.event_name == 'schedule'")
for job in (check, day):
    assert all(("uses" in step) != ("run" in step) for step in job["steps"])
uses = {step["uses"].split("@")[0]: step for step in check["steps"] if "uses" in step}
sarif, kept = uses["github/codeql-action/upload-sarif"], uses["actions/upload-artifact"]
assert sarif["with"]["sarif_file"] == "pmfarm.out/${{ github.run_number }}/store.sarif" and sarif["if"].startswith("always()")
assert kept["with"]["path"] == "pmfarm.out/" and kept["if"] == "always()"
with open("examples/recipes/gitlab.yaml") as file:
    whole = yaml.safe_load(file)
job, day = whole["persistent memory"], whole["persistent memory of a day"]
assert job["artifacts"] == {"when": "always", "paths": ["pmfarm.out/"], "reports": {"junit": "pmfarm.out/*/store.xml"}}
assert day["rules"] == [{"if": '$CI_PIPELINE_SOURCE == "schedule"'}]
with open("docs/GUIDE.md") as file:
    shown = yaml.safe_load(file.read().partition("```yaml\n")[2].partition("```")[0])
assert shown == {"persistent memory": job}
PY
}

# The image has a package for each command that the files of the systems, ci.sh and the tracer call, and for the tracer's build.
ci_image_is_whole() {
    local package packages
    packages=" $(sed -n '/apt-get install/,/&& rm/p' examples/recipes/Containerfile.ci | tr -s '\\\n ' ' ') "
    for package in gcc libc6-dev make git valgrind python3 util-linux curl jq gh; do
        [[ $packages = *" $package "* ]] || { echo "no $package" && return 1; }
    done
    ! grep -hoE '^ *(- )?image: .*|docker \{ image .* \}|^ *container: .*' examples/recipes/{github.yaml,gitlab.yaml,Jenkinsfile} | grep -v registry.example/pmfarm:latest
}

# The tracer as it is: a program of the project whose failure is shown at its line.
ci_traces() {
    ci_project && install_built "$commands" >"$scratch/report" 2>&1 &&
        cc -g -I trace/include -I examples/c -DMISSING_FENCE -o "$project/my-test" "$project/src/append_log.c" &&
        in_ci 1 '' env GITHUB_ACTIONS=true HOME="$scratch" ./ci.sh 1 ./my-test pool &&
        cut -d : -f 1-3 "$scratch/rows" | sort -u | said '::error file=src/append_log.c,line=59,title=ORDERED FAIL' -
}

# The shell scripts that ship, and those that call the tests.
scripts_that_ship() {
    local file
    git ls-files | grep -v -e '^tests/' -e '^crates/' | while IFS= read -r file; do
        case $file:$(head -n 1 "$file" | tr -d '\0') in
            *:'#!'*sh | tools/sources:* | completions/*.bash:*) printf '%s\n' "$file" ;;
        esac
    done
}

scripts_pass_shellcheck() {
    local scripts
    mapfile -t scripts < <(scripts_that_ship)
    [ "${#scripts[@]}" -gt 25 ] && shellcheck -x "${scripts[@]}"
}

# `cd` of a relative folder takes CDPATH, and tells where it went.
scripts_go_nowhere_else() {
    local scripts
    mapfile -t scripts < <(scripts_that_ship)
    grep -L '^unset CDPATH$' "${scripts[@]}" | xargs grep -nE '(^|[^[:alnum:]_-])cd [^/]*dirname' | grep -v "CDPATH='' cd" | said '' -
}

try_ci() {
    check 'ci.sh leaves what a CI system shows and keeps' ci_passes
    check 'ci.sh fails where a failure is new' ci_fails_but_for_what_is_known
    check 'ci.sh fails where check warns, and where there is no verdict' ci_warns_and_refuses
    check 'ci.sh runs once for each number' ci_is_alone
    check 'ci.sh waits for child processes, and takes their logs' ci_sees_children
    check 'ci.sh that is ended by a signal ends the program, and holds up no test' ci_is_ended
    check_by 'mounts of its own' 'ci.sh on a full disk has no verdict without its files' ci_on_a_full_disk
    check 'ci-day.sh joins the ledgers of a day' ci_joins_a_day
    check_by 'a YAML parser for Python' 'the night of GitHub, played' ci_night_of_github
    check_by jq 'the night of GitLab, played' ci_night_of_gitlab
    check_by 'a YAML parser for Python' 'the files for GitHub, GitLab and Jenkins have what these ask for' ci_files_are_whole
    check 'the image of these files has what they call' ci_image_is_whole
    check_by shellcheck 'the recipes pass shellcheck' well_formed shellcheck examples/recipes/*.sh
    check_by shellcheck 'each other script that ships passes shellcheck' scripts_pass_shellcheck
    check 'no script that ships goes where CDPATH leads' scripts_go_nowhere_else
    check_by "$tracer" 'ci.sh traces a program of a project' ci_traces
}
