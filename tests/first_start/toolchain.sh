#!/bin/sh
# toolchain.sh: makes in this folder a small repository for the real toolchain, `tree`, for toolchain.play. The crates a to d use one another as
# those of tree.sh do; their names, which are in the files a to d, and a comment in them are of this folder alone, so that no stored proof fits.
set -eu

number=$(printf %s "$PWD" | tr -d -c '[:alnum:]' | tr '[:upper:]' '[:lower:]')
for name in a b c d; do printf %s "p${name}_$number" >"$name"; done

# Makes a crate of forty functions: forty, so that Ctrl-C comes amid its proof. WORDS is code at its beginning.
small_crate() { # NAME WORDS
    mkdir -p "tree/crates/$1/src"
    {
        printf '// %s\n#![tactic(auto)]\n\n%s' "$PWD" "$2"
        awk 'BEGIN { for (i = 0; i < 40; i++) printf "pub fn step_%d(x: u32) -> u32 {\n    if x < %d {\n        x + %d\n    } else {\n        x\n    }\n}\n\n", i, i + 1, i + 2 }'
    } >"tree/crates/$1/src/lib.rt"
}

# The program d prints 3.
mkdir -p "tree/crates/$(cat d)/src"
small_crate "$(cat a)" ''
small_crate "$(cat b)" ''
# the _ keeps the line ends at the end
small_crate "$(cat c)" "$(printf 'use %s::step_0 as first;\n\npub fn both(x: u32) -> u32 {\n    first(x)\n}\n\n_' "$(cat a)" | sed 's/_$//')"
printf '#![tactic(auto)]\n\nuse std::io;\nuse %s::step_1;\nuse %s::both;\n\nfn main(rt: HostRuntime) -> io::Result<()> {\n    let x = both(3);\n    let y = step_1(x);\n    println!(rt; "{y}")?;\n    Ok(())\n}\n' \
    "$(cat b)" "$(cat c)" >"tree/crates/$(cat d)/src/main.rt"
printf '%s: %s %s\n%s: %s\n%s:\n%s:\n' "$(cat d)" "$(cat b)" "$(cat c)" "$(cat c)" "$(cat a)" "$(cat b)" "$(cat a)" >tree/crates.txt
