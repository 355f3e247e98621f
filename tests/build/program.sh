# A program, by ./dump.

source_of base 'one'
source_of panel 'archive 1'
source_of dump 'items 1 bytes 0'
first='build: proving what is new or has changed, which may take some minutes'

run "$repo/dump" "$work/file"
holds 'first use' gave 0 'items 1 bytes 0'
holds 'what is proved at first use' said "$first
build: proving base (2 of 2 crates left)
build: proving dump (1 of 2 crates left)"
run "$repo/dump" "$work/file"
holds 'nothing changed' gave 0 'items 1 bytes 0'
holds 'nothing is proved anew' quiet version

source_of dump 'items 2 bytes 0'
run "$repo/dump" "$work/file"
holds 'a program older than its source' gave 0 'items 2 bytes 0'
holds 'only what changed is proved' said "$first
build: proving dump (1 of 2 crates left)"
source_of base 'two'
run "$repo/dump" "$work/file"
holds 'a program older than a crate that it needs' gave 0 'items 2 bytes 0'
run "$repo/dump" "$work/file"
holds 'it is proved once' quiet version
rm "$repo/target/bin/dump"
run "$repo/dump" "$work/file"
holds 'a program that is gone' gave 0 'items 2 bytes 0'

source_of dump 'items 3 bytes 0 wrong'
run "$repo/dump" "$work/file"
holds 'a source that is not proved' gave 2 ''
holds 'the reason' says 'crates/dump/src/main.rt:1:1: error: it is wrong'
holds 'the crate' says 'build: crate dump was not proved; target/build/said has all that was said'
holds 'the program' says 'dump: the program was not built, and an older one is not used'
source_of dump 'items 4 bytes 0'
source_of base 'wrong'
run "$repo/dump" "$work/file"
holds 'a crate below that is not proved' gave 2 ''
holds 'its name' says 'build: crate base was not proved; target/build/said has all that was said'
source_of base 'three'
run "$repo/dump" "$work/file"
holds 'both mended' gave 0 'items 4 bytes 0'
mkdir "$work/tools"
for tool in dirname head mktemp rm; do ln -s "$(command -v "$tool")" "$work/tools"; done
run env PATH="$work/tools" "$repo/dump" "$work/file"
holds 'no rt' gave 2 ''
holds 'it is missed' says 'build: rt, which proves and builds, is not on the PATH'
run "$repo/dump" --help
holds 'the help needs no program' quiet ''

run sh -c "echo rest | { $repo/tools/build dump && cat; }"
holds 'the input is not read' gave 0 rest
source_of base 'four'
run env RT_UNTIL='waiting for another build' sh -c "$repo/tools/build dump & $repo/tools/build dump && wait \$!"
holds 'two builds at a time' gave 0 ''
holds 'one waits' says 'build: waiting for another build to end'
holds 'they never meet' [ ! -e "$repo/target/met" ]
run sh -c "for n in 1 2 3 4 5 6 7 8 9 10; do $repo/tools/build dump || exit; done"
holds 'a build right behind another waits for nothing' said ''
source_of dump 'items 5 bytes 0'
run env RT_WAITS=yes "$repo/dump" "$work/file"
holds 'what rt waits for' said "build: waiting for another rt to finish in crates/dump
$first
build: proving dump (1 of 2 crates left)"
echo 'five' >"$repo/edit-base"
source_of base 'six'
run "$repo/tools/build" dump
holds 'a source that changes during the build' gave 1 ''
holds 'it is told' says 'build: a source changed during the build'
run "$repo/tools/build" dump
holds 'all is built at the next call' gave 0 ''
run "$repo/tools/build"
holds 'no crate named' gave 1 ''
