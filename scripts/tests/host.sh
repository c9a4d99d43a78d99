# Tests of the programs in host/; to be sourced by scripts/test.

host_builds() {
    host build
}

host_tests() {
    host test
}

# The text of each stored tape makes that tape again.
tapes_as_text() {
    local tape tool=target/host/release/tape
    for tape in "${tapes[@]}"; do
        "$tool" to-text "$tape" | "$tool" from-text | cmp - "$tape" || return 1
    done
}

# The README's picture: what the tool writes is what stands in docs/, and `dot` draws all its cells and ties.
square_drawn() {
    needed dot graphviz
    target/host/release/tape draw --ring 1 examples/square.tape > target/square.dot &&
        cmp target/square.dot docs/pictures/square.dot &&
        [ "$(dot -Tsvg target/square.dot | grep -c 'class="node"')" = 10 ]
}

# THE TOOL, as the README has it
text_explained() {
    scripts/tape explain --text examples/square.txt | cmp - examples/square.explained
}
