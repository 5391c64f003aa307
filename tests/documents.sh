# What documents say: their sessions and recipes, what they list, and what they claim.

# farm NAME WHAT [ENGINE]: a check of docs/FARM.md; WHAT may have two words.
farm() {
    # shellcheck disable=SC2086
    check_by "${3-bash}" "$1" tests/try-farm "$program" $2
}

# The version at the head of the changelog: of its first title, `## VERSION` or `## VERSION, ..`.
version_of_changelog() {
    local title word
    title=$(grep -m 1 '^## ' CHANGELOG.md)
    title=${title#'## '}
    printf 'pmfarm %s\n' "${title%%,*}" >"$scratch/wanted"
    for word in -V --version; do
        "$program" "$word" >"$scratch/whole" 2>"$scratch/diagnostics"
        ended 0 $? && same /dev/null "$scratch/diagnostics" || return
        sed 's/ (commit .*//' "$scratch/whole" >"$scratch/report"
        same "$scratch/wanted" "$scratch/report" || return
    done
}

# read_by_promises FOLDER: a copy of what tools/promises reads.
read_by_promises() {
    mkdir -p "$1/docs" && cp -r tools "$1" && cp docs/TRUST.md docs/PROMISES.md "$1/docs" && cp crates.txt README.md "$1" &&
        ln -sfn "$top/crates" "$1/crates"
}

# refused_by_promises FILE COMMAND TEXT: docs/DEFINITIONS.md is not written where sed makes FILE so; in a copy.
refused_by_promises() {
    local repo=$scratch/promises
    read_by_promises "$repo" && sed -i "$2" "$repo/$1" || return
    "$repo/tools/promises" >"$scratch/report" 2>"$scratch/diagnostics"
    ended 1 $? && said "promises: $1: $3" "$scratch/diagnostics" && [ ! -e "$repo/docs/DEFINITIONS.md" ]
}

# Each entry has a number one above that of the entry before, and its status below its title.
decisions_have_a_status() {
    awk '/^## / { entry = $0; if ($2 != ++number ".") { print "not entry " number ": " entry } next }
        entry && NF { if (!/^\*(Stands|Superseded by [0-9])/) { print "no status: " entry } entry = "" }
        END { if (!number) { print "no entry" } }' docs/DECISIONS.md | said '' -
}

# What a claim names has to be in the sources, and each file of definitions in the list.
claims_are_of_the_sources() {
    local claim='A section takes each event up to the 2^20th; a refusal leaves it unchanged'
    refused_by_promises docs/PROMISES.md 's/`Section::push`/`Section::pull`/' "$claim: no function Section::pull
promises: docs/PROMISES.md: $claim: no clause ok
promises: docs/PROMISES.md: $claim: no clause too_many
promises: docs/PROMISES.md: $claim: no clause unchanged" &&
        refused_by_promises docs/PROMISES.md 's/`too_many`/`too_few`/' "$claim: no clause too_few" &&
        refused_by_promises docs/PROMISES.md 's/`push.keeps_another_event`/`push.drops_nothing`/' "$claim: no mutant push.drops_nothing" &&
        refused_by_promises README.md 's/`gathers`/`gather`/' '`Ledger::join`: no clause gather' &&
        refused_by_promises docs/TRUST.md 's/^- `pmf_words`: `Words`$//' 'pmf_words.specs.Words is missing' &&
        refused_by_promises docs/TRUST.md 's/`Span`, `Line`, `Address`/`Line`, `Span`, `Address`/' \
            'pmf_event.specs.Line stands before pmf_event.specs.Span'
}

# A mutant that no row names has to be the only one of a public function, and to change its code.
mutants_keep_the_rule() {
    local repo=$scratch/rule folder=crates/pmf_asserts/must-fail
    read_by_promises "$repo" && rm "$repo/crates" && cp -r crates "$repo/crates" && sed -i 's/, `check_persist.empties_every_assertion`//' "$repo/docs/PROMISES.md" || return
    printf '# x; refused by the law\nfile: specs/Lib.antt\n' >"$repo/$folder/check_flush.a_definition.edit"
    printf '# x; refused by the clause\nfile: src/lib.rt\n' >"$repo/$folder/no_such_function.x.edit"
    "$repo/tools/promises" >"$scratch/report" 2>"$scratch/diagnostics"
    ended 1 $? && sort "$scratch/diagnostics" | said "promises: $folder: check_flush.a_definition.edit: it is in no row, and changes no code
promises: $folder: check_persist.empties_every_assertion.edit: it is in no row, and check_persist has another one
promises: $folder: no_such_function.x.edit: it is in no row, and names no public function" -
}

# What docs/DEFINITIONS.md uses it names: each clause, each sign and name of std in a table, each definition that subtracts.
the_page_is_whole() {
    local page=tools/definitions.md
    refused_by_promises $page 's/clause sound of/clause sounds of/' 'no clause sounds of Verdict::rows in pmf_verdict' &&
        refused_by_promises $page 's/`unwrap_or o d`/`or o d`/' 'cut_of: `unwrap_or` is in no table of notation' &&
        refused_by_promises $page 's/`pair.0`/`pair`/' 'value_of: `.0` is in no table of notation' &&
        refused_by_promises $page '/^| `-` in `floor_of`/d' 'floor_of: it is in no row of `-`'
}

# What tools/promises has written is fresh, and stale once it is another.
a_stale_file_is_told() {
    local repo=$scratch/stale
    read_by_promises "$repo" && "$repo/tools/promises" && "$repo/tools/promises" --check && echo >>"$repo/docs/DEFINITIONS.md" || return
    "$repo/tools/promises" --check 2>"$scratch/diagnostics"
    ended 1 $? && said 'promises: docs/DEFINITIONS.md is stale; run tools/promises' "$scratch/diagnostics"
}

# needs ENGINE: what has to be installed for it. Slurm, Grid Engine and Kubernetes are played.
needs() {
    case $1 in
        parallel) echo 'GNU parallel' ;;
        slurm | grid-engine | kubernetes) echo xargs ;;
        *) echo "$1" ;;
    esac
}

# The recipes of docs/FARM.md, and what it says of failures.
try_farms() {
    local engine
    farm 'two hundred logs by xargs: the report of their sections in one log' by_xargs xargs
    farm 'two hundred logs of one run: the bytes of their sections in one log' of_one_run xargs
    farm 'a tree of joins by make: the bytes of one join' 'by_tree make' make
    farm 'a tree of joins by ninja: the bytes of one join' 'by_tree ninja' ninja
    farm 'logs by GNU parallel' by_parallel 'GNU parallel'
    farm 'the hosts of GNU parallel, played' by_hosts xargs
    farm 'a dead host of GNU parallel swallows no jobs' a_dead_host 'GNU parallel'
    farm 'the array job of Slurm, played' 'by_array slurm' xargs
    farm 'the array job of Slurm itself, on this machine alone' by_slurm 'Slurm with munge'
    farm 'a job of Slurm that fails to start is no verdict' srun_fails xargs
    farm 'the array job of Grid Engine, played' 'by_array grid-engine' xargs
    farm 'the pods of Kubernetes, played' by_kubernetes xargs
    farm 'an image of the jobs of Kubernetes, built and run by buildah' by_containers 'buildah with a static busybox and C library'
    farm 'the manifests of Kubernetes say what their pods have and which failures are tried again' manifests 'a YAML parser for Python'
    farm 'the recipes by the shell and the tools of busybox' by_busybox busybox
    farm 'the scripts of the farm are well-formed' parse
    farm 'docs/FARM.md quotes the files of the farm' quoted
    farm 'jobs of several logs check what is missing' chunks xargs
    for engine in xargs make ninja parallel slurm grid-engine kubernetes; do
        farm "a log that was changed, by $engine" "a_changed_log $engine" "$(needs "$engine")"
        farm "a log that changes and changes back while it is checked, by $engine" "changes_back $engine" "$(needs "$engine")"
        farm "a log that was added to the list, by $engine" "a_log_added $engine" "$(needs "$engine")"
        farm "a log that was taken off the list, by $engine" "a_log_taken_off $engine" "$(needs "$engine")"
        farm "an empty list, by $engine" "an_empty_list $engine" "$(needs "$engine")"
        farm "a list with carriage returns, by $engine" "a_list_of_another_system $engine" "$(needs "$engine")"
        farm "names with blanks and a newline, by $engine" "names_with_blanks $engine" "$(needs "$engine")"
        farm "another profile, by $engine" "another_profile $engine" "$(needs "$engine")"
        farm "a log that is refused holds up no other, by $engine" "other_logs_go_on $engine" "$(needs "$engine")"
        farm "a job that is killed, by $engine" "goes_wrong killed_at_once $engine" "$(needs "$engine")"
        farm "a ledger that was cut off, by $engine" "goes_wrong cut_off $engine" "$(needs "$engine")"
        farm "a forged ledger, by $engine" "goes_wrong forged $engine" "$(needs "$engine")"
        farm "a full disk, by $engine" "on_a_full_disk $engine" "$(has 'mounts of its own' && needs "$engine" || echo 'mounts of its own')"
        farm "a log that nobody may read, by $engine" "no_permission $engine" "$(has 'mounts of its own' && needs "$engine" || echo 'mounts of its own')"
        if [ "$engine" != kubernetes ]; then
            farm "two calls at once in one folder, by $engine" "two_at_once $engine" "$(needs "$engine")"
            farm "words that are no numbers, by $engine" "numbers $engine" "$(needs "$engine")"
            farm "an exported CDPATH, by $engine" "in_a_path_of_folders $engine" "$(needs "$engine")"
        fi
    done
    farm 'two jobs of one file of tasks at once, by kubernetes' two_jobs_of_pods xargs
    farm 'two maps of one run at once' two_maps
    farm 'a tree of joins of before is not told, by make' 'a_tree_of_before make' make
    farm 'a tree of joins of before is not told, by ninja' 'a_tree_of_before ninja' ninja
    farm 'a log that changes back in each way gives its own ledger or none' a_log_that_changes_back
    farm 'a job for each processor, and runs that are no numbers' without_jobs xargs
    farm 'the room of a killed map goes a day later' a_room_of_a_killed_map
    farm 'lists that are cut short are told' lists_are_cut xargs
    farm 'lists on a full disk are told' lists_on_a_full_disk 'mounts of its own'
    farm 'lists on a full disk are told by the tools of busybox' 'lists_on_a_full_disk busybox' "$(has 'mounts of its own' && echo busybox || echo 'mounts of its own')"
    farm 'temporary files on a full disk are told' temporary_files_on_a_full_disk 'mounts of its own'
    farm 'a lost job of the farm is told' a_lost_job xargs
    farm 'a killed job of the farm leaves no ledger' a_killed_job
    farm 'a refused log of the farm leaves no ledger' a_refused_log
    farm 'a job of the farm that lacks memory, room or its log leaves no ledger' a_job_that_lacked_something
    farm 'a log that changes while it is checked leaves no ledger' a_log_that_changes
    farm 'a job of the farm that ran twice changes nothing' a_job_that_ran_twice
    farm 'another log under a run, in one folder' other_logs_in_one_folder
    farm 'another log under a run, in two folders' other_logs_in_two_folders
    farm 'jobs of two profiles' two_profiles
    farm 'a forged ledger of the farm' a_forged_ledger
    farm 'a ledger of the farm that lacks a section' a_ledger_that_lacks_a_section
    farm 'a ledger of the farm that was cut anywhere' a_cut_ledger
}

try_documents() {
    check 'the sessions of README.md, docs/GUIDE.md and docs/FORMATS.md' tests/try-sessions "$program" README.md docs/GUIDE.md docs/FORMATS.md
    check 'the rows of docs/FORMATS.md are those of the program and of tools/rows' tests/documented "$program" rows
    check 'the fault lines of docs/FORMATS.md are those of the program' tests/documented "$program" faults
    check 'the links of documents lead somewhere' tests/documented "$program" links
    check 'the commands and tools that documents name are there, with their options' tests/documented "$program" commands
    check 'what people have written has at most 30,000 words, and no turn that is ruled out' tests/documented "$program" words
    check 'each entry of docs/DECISIONS.md has a status' decisions_have_a_status
    check 'docs/PROMISES.md names what is in the sources, and docs/DEFINITIONS.md is fresh' tools/promises --check
    check 'tools/promises tells where it is stale' a_stale_file_is_told
    check 'docs/DEFINITIONS.md names all its notation' the_page_is_whole
    check 'a claim names what is in the sources, and docs/TRUST.md each file of definitions' claims_are_of_the_sources
    check 'tools/promises refuses mutants that break the rule' mutants_keep_the_rule
    check 'the man page and the completions have the options of help, and the program does what they tell' tests/flags "$program"
    check 'the version is that at the head of CHANGELOG.md' version_of_changelog
    try_farms
}
