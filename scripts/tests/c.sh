# Tests from C and C++, by the header and the static library; to be sourced by scripts/test.

warnings=(-Wall -Wextra -Wpedantic -Wconversion -Wshadow -Werror)

# c_program SOURCE PROGRAM [OPTION..]
c_program() {
    needed cc gcc libc6-dev
    local source=$1 program=$2
    shift 2
    cc -std=c11 "${warnings[@]}" "$@" -Iinclude "$source" "$library" -o "$program"
}

# cpp_program SOURCE PROGRAM: a source in C, compiled as C++
cpp_program() {
    needed c++ g++
    c++ -std=c++17 "${warnings[@]}" -Iinclude -x c++ "$1" -x none "$library" -o "$2"
}

under_valgrind() {
    needed valgrind valgrind
    valgrind --quiet --error-exitcode=1 "$@"
}

# functions: the names of the functions that standard input declares or defines
functions() {
    grep -oE '\blotskadi_[a-z_]+\(' | tr -d '(' | sort -u
}

# symbols FILE [OPTION..]: the names of the functions that compiled code has or refers to
symbols() {
    needed nm binutils
    nm --format=posix "$@" | grep -oE '^lotskadi_[a-z_]+' | sort -u
}

# A function that the header defines is static; every other one is the library's, which has no more.
header_is_the_library() {
    diff <(grep -v '^static' include/lotskadi.h | functions) \
        <(symbols "$library" --defined-only --extern-only)
}

# By the compiled program, since its text may name a function in a comment. Prints the functions that are missing.
every_function_called() {
    needed cc gcc libc6-dev
    local missing
    cc -std=c11 -O0 -Iinclude -c tests/calls.c -o target/calls.o || return
    missing=$(comm -23 <(functions < include/lotskadi.h) <(symbols target/calls.o))
    [ -z "$missing" ] || { echo "not called: $missing"; return 1; }
}

calls_from_c() {
    c_program tests/calls.c target/calls && target/calls
}

calls_from_cpp() {
    cpp_program tests/calls.c target/calls-cpp && target/calls-cpp
}

calls_under_valgrind() {
    under_valgrind target/calls
}

# The program is watched, not the library, which no sanitizer has compiled.
calls_with_sanitizers() {
    c_program tests/calls.c target/calls-sanitized -fsanitize=address,undefined -fno-sanitize-recover=all &&
        target/calls-sanitized
}

stack_of_calls() {
    c_program tests/stack.c target/stack -pthread && target/stack
}

screen_from_c() {
    c_program tests/screen.c target/screen && target/screen
}

needs_from_c() {
    c_program tests/needs.c target/needs && target/needs
}

components_from_c() {
    c_program tests/components.c target/components && target/components
}

journal_from_c() {
    c_program tests/journal.c target/journal && target/journal
}

journal_under_valgrind() {
    under_valgrind target/journal
}

planner_in_c() {
    c_program examples/planner.c target/planner && target/planner | cmp - examples/planner.expected
}

planner_under_valgrind() {
    under_valgrind target/planner > /dev/null
}

journal_example() {
    c_program examples/journal.c target/journal-example && target/journal-example | cmp - examples/journal.expected
}

journal_example_under_valgrind() {
    under_valgrind target/journal-example > /dev/null
}
