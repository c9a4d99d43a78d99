# Tests of the sources and the documents; to be sourced by scripts/test.

# Characters, not bytes: the definitions and proofs are full of symbols. Pictures are not for reading.
lines_fit() {
    ! git ls-files -z -- ':!*.svg' | LC_ALL=C.UTF-8 xargs -0 grep -nE '^.{121,}' --
}

# A public call asks nothing of its caller. The public crates are found by their names.
nothing_required() {
    ! grep -rnE '^[[:space:]]*requires' crates/kernel/src crates/*_calls/src crates/records/src
}

# A limit is written as a number in the two files that name it, and nowhere else. 256 * 256 divides a number into bytes.
limits_named_once() {
    ! git grep -nwE '4096|16384|65536|53238|53278|4294967294' -- 'crates/*.rt' 'crates/*.antt' \
        ':!crates/table/src/limits.rt' ':!crates/table/specs/Limits.antt' | grep -v '/ 65536 % 256'
}

# No proof names an axiom of the logic or leaves a hole. The checker refuses both; here it is seen without a check, for
# all files, so that none has to say it.
nothing_assumed() {
    ! git grep -nE '(^|[^[:alnum:]_])(LEM|AC)([^[:alnum:]_]|$)|(^|[ (])\?($|[ )])' -- 'crates/*.antt'
}

# Every file of crates/ that a document names is there. docs/THEOREMS.md leaves `crates/` out.
documents_name_files() {
    local file missing=0
    for file in $(grep -ohE '`crates/[A-Za-z0-9_./-]+`' README.md docs/*.md | tr -d '`') \
        $(grep -ohE '`[a-z_]+/(specs|proofs)/[A-Za-z/]+\.antt`' docs/THEOREMS.md | tr -d '`' | sed 's|^|crates/|'); do
        [ -e "$file" ] || { echo "no such file: $file"; missing=1; }
    done
    return $missing
}
