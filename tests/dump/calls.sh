# How the script is called: its options, and links to it.

root=$PWD
paper=$(cat tests/dump/expected/paper.txt)
help='./dump --help tells how to call it'
usage=$(./dump --help)
expect 'help, its first line' 0 'usage: ./dump [FILE]' '' sh -c './dump --help | head -n 1'
expect 'help, the exit statuses' 0 $'  0   the items were printed\n  1   the file was refused' '' sh -c './dump --help | grep -A 2 "^Exit status" | tail -n 2'
expect 'help, in short' 0 "$usage" '' ./dump -h
expect 'an unknown option' 2 '' "dump: no such option: -x; $help" ./dump -x
expect 'an unknown long option' 2 '' "dump: no such option: --version; $help" ./dump --version
expect 'two files' 2 '' "dump: one FILE at most; $help" ./dump examples/paper.fdo examples/paper.fdo
expect 'the input by its name' 0 "$paper" '' sh -c './dump - <examples/paper.fdo'
cp examples/paper.fdo "$work/-x"
expect 'a name that begins as an option' 0 "$paper" '' sh -c "cd $work && $root/dump ./-x"

# links: to the script, to a link, relative, and by a folder that is a link
mkdir -p "$work/links/deep"
ln -s "$root/dump" "$work/links/absolute"
ln -s ../absolute "$work/links/deep/relative"
ln -s deep/relative "$work/links/chain"
ln -s "$(realpath --relative-to="$work/links/deep" dump)" "$work/links/deep/far"
ln -s links/deep "$work/folder"
for link in links/absolute links/deep/relative links/chain folder/relative folder/far; do
    expect "by the link $link" 0 "$paper" '' "$work/$link" examples/paper.fdo
done
expect 'by a link from its folder' 0 "$paper" '' sh -c "cd $work/links && ./chain $root/examples/paper.fdo"
# a CDPATH in which a folder has the same name
name=$(basename "$root")
mkdir -p "$work/other/$name"
expect 'with a CDPATH' 0 "$paper" '' sh -c "cd .. && CDPATH=$work/other $name/dump $root/examples/paper.fdo"
