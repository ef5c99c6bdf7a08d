# The lines whose programs time themselves inside. A line sets `name`, and `crates` to what its program in Rattle is over.
. "$BENCH/line.sh"
peers=inside

# Writes a source of bench/inside with its sizes as WORK says.
sized() {
    sed "s/ 1_000_000;/ $(scaled 1000000);/; s/ 100;/ $(scaled 100);/; s/16 << 20/$(scaled 16777216)/" "$BENCH/inside/$1"
}

# Builds the program in Rattle in a repository of its own, over copies of the crates with what was proved of them.
make() {
    mkdir -p "crates/$name/src"
    for crate in $crates; do
        cp -a "$BENCH/../crates/$crate" crates/
        grep "^$crate:" "$BENCH/../crates.txt" >> crates.txt
    done
    echo "$name: $crates memchr" >> crates.txt
    git init -q .
    sized "$name.rt.txt" > "crates/$name/src/main.rt"
    (cd "crates/$name" && ${RT:-rt} run) > build 2>&1 || { cat build >&2; exit 1; }
    ! command -v rustc > /dev/null || { sized "$name.rs" > twin.rs; rustc -O -o twin twin.rs; }
}

by_programs() {
    "crates/$name/out/$name"
    [ ! -x twin ] || ./twin
}
