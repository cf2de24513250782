# What mrt, tools/build, tools/about, tools/install and tools/library share: where the program is, and what is kept of it. They set root, the folder of mrt.
# An archive is a checkout without sources, and what is installed has the program in a folder of its own.
program=$root/crates/mrt/out/mrt
[ -f "$root/crates.txt" ] || [ -f "$program" ] || program=$(readlink -m "$root/../../libexec/semborui/mrt")
# What is built: the program, where a script does not say that it is the library.
made=$program

say() {
    echo "mrt: $*" >&2
}

sum() {
    sha256sum "$@" | cut -d ' ' -f 1
}

here() {
    echo "at $(uname -n):$root"
}

# What is kept of what is built, under a word.
kept() {
    sed -n "s/^$1 //p" "$made.built"
}

# What is kept is of this file, and not of one that was there before.
is_known() {
    [ -f "$made.built" ] && [ "$(kept program)" = "$(sum "$made")" ]
}

# Prints what stands under a heading of the manual page, without its marks. The status is 1 where there is no such heading.
section() {
    heading=$1 awk '
        $0 == ENVIRON["heading"] { found = 1; next }
        /^##/ { if (found) exit }
        found && (NF || begun) {
            if (!/^    /) gsub(/`|\*\*/, "")
            held = held $0 "\n"
            if (NF) { printf "%s", held; held = ""; begun = 1 }
        }
        END { exit !begun }
    ' "$root/docs/COMMANDS.md"
}

page_version() {
    section "## Version" | sed -n 's/^Semborui \([0-9][^ ]*\)$/\1/p'
}
