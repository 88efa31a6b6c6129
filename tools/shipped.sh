# Sourced at the root of the repository: what is known of the archives that ship in lib/, and of the Rattle kit.
#
#   kit_made            the kit that they were made with, by its one-line identity; machine_made: on which kind of machine
#   needs_kit COMMAND   ends with a line that names the kit where there is none
#   crates_changed      whether the code under crates/ is known to be another than that of which they were made
kit_made=$(sed -n 's/^kit //p' lib/MADE)
machine_made=$(sed -n 's/^machine //p' lib/MADE)

needs_kit() {
    if ! command -v rt > /dev/null; then
        echo "$1 needs the Rattle kit, whose command rt isn't on PATH. This release was made with: $kit_made" >&2
        exit 2
    fi
}

crates_changed() {
    local here made
    here=$(git rev-parse -q --verify HEAD:crates 2> /dev/null) || return
    made=$(sed -n 's/^crates //p' lib/MADE)
    git diff --quiet HEAD -- ':(glob)crates/*/src/**' || return 0
    # a shallow clone needn't have that tree
    git cat-file -e "$made" 2> /dev/null && ! git diff --quiet "$made" "$here" -- ':(glob)*/src/**'
}
