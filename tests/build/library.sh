# The library, by tools/build, examples/Makefile and bench/run.

archive=$repo/target/staticlib/libpanel.a
has() { [ "$(cat "$archive")" = "$1" ]; }
both=$'version\nlib panel'

run "$repo/tools/build" panel
holds 'first archive' has 'archive 1'
run "$repo/tools/build" panel
holds 'the archive is made once' quiet version
source_of panel 'archive 2'
run "$repo/tools/build" panel
holds 'an archive older than its source' has 'archive 2'
source_of base 'five'
run "$repo/tools/build" panel
holds 'an archive older than a crate that it needs' called "$both"
rm "$archive"
run "$repo/tools/build" panel
holds 'an archive that is gone' has 'archive 2'
echo old >"$archive"
rm "$repo/target/stamp/panel"
run "$repo/tools/build" panel
holds 'an archive of unknown sources' has 'archive 2'
echo other >"$archive"
run "$repo/tools/build" panel
holds 'an archive that something changed' has 'archive 2'
source_of panel 'archive 3'
touch "$repo/no-archive"
run "$repo/tools/build" panel
holds 'no archive is made' gave 1 ''
rm "$repo/no-archive"
source_of panel 'archive 2'
run "$repo/tools/build" panel
holds 'what the failed call left is not taken' has 'archive 2'
source_of panel 'archive 3'
run "$repo/tools/build" panel
holds 'it is made at the next call' has 'archive 3'

examples() { make -s -C "$repo/examples" CC=cc; }
panel_has() { [ "$(cat "$repo/target/examples/panel")" = "$1" ]; }
run examples
holds 'the examples, at first' panel_has 'archive 3'
run examples
holds 'the examples, nothing changed' gave 0 ''
holds 'the examples, quick' quiet version
source_of panel 'archive 4'
run examples
holds 'the examples, a source changed' panel_has 'archive 4'
source_of panel 'archive wrong'
run examples
holds 'the examples, a source not proved' gave 2 ''

bench() { "$repo/bench/run"; }
run bench
holds 'the benchmark, a source not proved' gave 1 ''
source_of panel 'archive 5'
run bench
holds 'the benchmark, a source changed' gave 1 'archive 5'
run bench
holds 'the benchmark, nothing changed' called version
run "$repo/bench/run" "$work/nowhere"
holds 'the benchmark, no such tree beside' gave 2 ''
holds 'the benchmark, no such tree, nothing called' called ''
run "$repo/bench/run" one two
holds 'the benchmark, two trees beside' gave 2 ''
mkdir -p "$work/beside"
cp -R "$repo"/{bench,crates,crates.txt,tools} "$work/beside"
echo 'archive 6' >"$work/beside/crates/panel/src/lib.rt"
run "$repo/bench/run" "$work/beside"
holds 'the benchmark, a tree beside' gave 1 'archive 6'
