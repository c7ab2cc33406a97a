# shellcheck shell=sh disable=SC2154
# Tries the script vdo: what it refuses, what it says of itself, and what it puts under a folder. `image_files.sh` reads this, and
# has the functions, the program and the image of the default sizes that are named here.

# The script vdo, in a folder of its own with the program and without crates: what it refuses before anything is made.
mkdir -p checkout/crates/vdo/src checkout/crates/vdo/specs checkout/crates/vdo/proofs checkout/crates/vdo/out checkout/tools
cp -R "$top/vdo" "$top/crates.txt" "$top/docs" checkout
cp "$top/tools/completion.bash" checkout/tools
cp "$vdo" checkout/crates/vdo/out/vdo
caller=$vdo
vdo=$folder/checkout/vdo
try 2 usage nowhere 154 erase
same "$(cat errors)" 'vdo: erase is no command; see vdo --help' 'a word that is no command'
try 2 usage nowhere +154 format
try 2 usage nowhere max format
try 2 usage - max format
try 2 usage nowhere 154
for command in status audit recover force-rebuild 'grow --logical 2000 --slabs 1' 'crash --after 0 --image 0'; do
    # shellcheck disable=SC2086
    try 125 '' nowhere 154 $command
    same "$(cat errors)" 'vdo: there is no file nowhere' "$command of no file"
done
[ ! -e nowhere ] || say_wrong 'a file was made for words that are refused'
for command in run workload; do
    try 4 'bad image: not an image' nowhere 154 $command
    same "$(cat errors)" 'vdo: there is no file nowhere: an empty one is made' "$command of no file"
    rm nowhere
done

# The largest number of blocks, in a word.
try 0 'audit clean, used 0 of 64' image max audit
try 8 'layout: too large to crash' image max crash --after 0 --image 0

# What it prints of itself, and where it puts what.
same "$("$vdo" --help | head -n 1)" 'vdo IMAGE BLOCKS COMMAND [OPTIONS]' 'the help'
case $("$vdo" --version) in
    "vdo "*) well=$((well + 1)) ;;
    *) say_wrong 'the version names no commit' ;;
esac
same "$("$vdo" --install put | wc -l | tr -d ' ')" 3 'lines of what was put under a folder'
alike put/bin/vdo "$caller" 'the program that was put differs'
alike put/share/man/man1/vdo.1 "$top/docs/vdo.1" 'the manual that was put differs'
alike put/share/bash-completion/completions/vdo "$top/tools/completion.bash" 'the completion that was put differs'

# outside STATUS COMMAND OPTION NUMBER: a command refuses an option with this status.
outside() {
    "$vdo" ranged 4294967295 "$2" "$3" "$4" </dev/null >printed 2>errors
    same "$?" "$1" "status of $2 with $3 $4"
}

# ranges STATUS COMMAND: the help of a command tells the ranges of its options. Their ends and their defaults are served, the
# numbers beside them are refused with this status.
ranges() {
    "$vdo" "$2" --help | sed -n 's/^  --\([a-z-]*\) .*: \([0-9]*\) to \([0-9]*\)[,;].*default \([0-9]*\)$/\1 \2 \3 \4/p' >told
    while read -r name least most default; do
        for number in "$least" "$most" "$default"; do
            "$vdo" ranged 4294967295 "$2" "--$name" "$number" </dev/null >printed 2>errors
            if [ $? -le 1 ]; then
                well=$((well + 1))
            else
                say_wrong "$2 with --$name $number: $(cat printed)"
            fi
        done
        [ "$least" = 0 ] || outside "$1" "$2" "--$name" "$((least - 1))"
        [ "${#most}" -ge 19 ] || outside "$1" "$2" "--$name" "$((most + 1))"
    done <told
}

# The help of each command.
for command in status audit recover force-rebuild grow format run workload crash; do
    same "$("$vdo" $command --help | head -n 1 | cut -d ' ' -f 1-4)" "vdo IMAGE BLOCKS $command" "the help of $command"
    same "$("$vdo" image 154 $command --help)" "$("$vdo" $command --help)" "the help of $command behind an image"
done
try 2 usage erase --help
ranges 8 format
try 0 'formatted 154 blocks, 1 slab of 64, logical 1000' ranged 154 format
ranges 2 workload
ranges 2 run
"$vdo" format --help | sed -n 's/^  \(--[a-z-]*\) .*; default \([0-9]*\)$/\1=\2/p' >told
same "$(wc -l <told | tr -d ' ')" 8 'options of format with a default'
rm ranged
# shellcheck disable=SC2046
try 0 'formatted 154 blocks, 1 slab of 64, logical 1000' ranged 154 format $(cat told)
alike ranged image 'an image of the defaults differs from one without options'
vdo=$caller
