#!/bin/sh
# Tries the commands that work on image files, on files in a new folder: what each prints, its status, and what it leaves.
# It prints a line for each try that went wrong, then how many went well and what was left out, and ends with 0 where none
# went wrong. The program is built where a source is newer, unless VDO names another. It takes some four minutes.
unset CDPATH
top=$(cd -- "$(dirname -- "$0")/.." && pwd) || exit 1
folder=$(mktemp -d) || exit 1
leave() {
    umount "$folder/full" "$folder/sealed" 2>/dev/null
    chmod -R u+w "$folder"
    rm -rf "$folder"
}
trap leave EXIT
trap 'exit 129' HUP
trap 'exit 130' INT
trap 'exit 143' TERM
chmod 755 "$folder"
cd "$folder" || exit 1
well=0
wrong=0

# It is built, and then called by itself.
if [ -n "$VDO" ]; then
    vdo=$VDO
else
    "$top/vdo" --build || exit 1
    vdo=$top/crates/vdo/out/vdo
fi
[ -x "$vdo" ] || {
    echo "there is no program $vdo"
    exit 1
}

# say_wrong TEXT: a try went wrong.
say_wrong() {
    echo "$1"
    wrong=$((wrong + 1))
}

# leave_out TEXT: something can't be tried here.
leave_out() {
    echo "left out: $1"
}

# same TEXT TEXT WHAT: two texts are equal.
same() {
    if [ "$1" = "$2" ]; then
        well=$((well + 1))
    else
        say_wrong "$3: '$1', not '$2'"
    fi
}

# alike FILE FILE WHAT: two files have the same bytes.
alike() {
    if cmp -s "$1" "$2"; then
        well=$((well + 1))
    else
        say_wrong "$3"
    fi
}

# try STATUS TEXT WORD..: the program with these words ends with this status and prints this text.
try() {
    status=$1
    text=$2
    shift 2
    printed=$("$vdo" "$@" </dev/null 2>errors)
    same "$? $printed" "$status $text" "vdo $*"
}

# script STATUS TEXT SCRIPT WORD..: the program with these words and this script ends with this status and prints this text.
script() {
    status=$1
    text=$2
    lines=$3
    shift 3
    # shellcheck disable=SC2059
    printed=$(printf "$lines" | "$vdo" "$@" 2>errors)
    same "$? $printed" "$status $text" "vdo $* with '$lines'"
}

# cause TEXT: this is what the last try told on standard error, or its beginning.
cause() {
    case $(cat errors) in
        "vdo: $1"*) well=$((well + 1)) ;;
        *) say_wrong "cause: '$(cat errors)', not 'vdo: $1'" ;;
    esac
}

python=$(command -v python3) || leave_out 'python3 is missing, so no other program is asked what an image says'

# bytes FILE FROM COUNT: bytes of a file, in hexadecimal.
bytes() {
    od -An -v -tx1 -j "$2" -N "$3" "$1" | tr -d ' \n'
}

# put FILE PLACE BYTE: a byte of a file is changed; the byte in octal.
put() {
    printf "\\$3" | dd of="$1" bs=1 seek="$2" conv=notrunc 2>errors || exit 1
}

# agree FILE BLOCKS: the audit and the status of a file are those that the plain program finds, and leave it as it is.
agree() {
    cp "$1" before
    for command in audit status; do
        printed=$("$vdo" "$1" "$2" "$command" </dev/null 2>errors)
        found=$?
        if [ -n "$python" ]; then
            plain=$($python "$top/tools/whole_image.py" "$command" "$1" "$2")
            same "$found $printed" "$? $plain" "$command of $1"
        fi
    done
    alike "$1" before "$1 was written"
}

# mend FILE BLOCKS: what the recovery of a copy of a file prints is what the plain program finds. A second one finds it closed,
# and the audit says the same as before; what was closed already, or is refused, is left as it is.
mend() {
    cp "$1" mended
    audited=$("$vdo" mended "$2" audit </dev/null 2>errors)
    audited="$? $audited"
    printed=$("$vdo" mended "$2" recover </dev/null 2>errors)
    found=$?
    if [ -n "$python" ]; then
        plain=$($python "$top/tools/whole_image.py" recover "$1" "$2")
        same "$found $printed" "$? $plain" "recover of $1"
    fi
    case "$found $printed" in
        '0 recovered '*) try 0 clean mended "$2" recover ;;
        *) alike "$1" mended "$1 was written" ;;
    esac
    printed=$("$vdo" mended "$2" audit </dev/null 2>errors)
    same "$? $printed" "$audited" "audit of $1 after its recovery"
}

# rebuild FILE BLOCKS: what a forced rebuild of a copy of a file prints is what the plain program finds. A second one prints the
# same, and an audit finds no block that differs; what is refused is left as it is.
rebuild() {
    cp "$1" rebuilt
    printed=$("$vdo" rebuilt "$2" force-rebuild </dev/null 2>errors)
    found=$?
    if [ -n "$python" ]; then
        plain=$($python "$top/tools/whole_image.py" force-rebuild "$1" "$2")
        same "$found $printed" "$? $plain" "force-rebuild of $1"
    fi
    case "$found $printed" in
        '0 rebuilt, '*)
            try 0 "$printed" rebuilt "$2" force-rebuild
            try 0 "audit clean, ${printed#rebuilt, }" rebuilt "$2" audit
            ;;
        *) alike "$1" rebuilt "$1 was written" ;;
    esac
}

# grow FILE BLOCKS L S: what growing a copy of a file prints is what the plain program finds. An audit finds no block that
# differs then; what is refused is left as it is.
grow() {
    cp "$1" grown
    printed=$("$vdo" grown "$2" grow --logical "$3" --slabs "$4" </dev/null 2>errors)
    found=$?
    if [ -n "$python" ]; then
        plain=$($python "$top/tools/whole_image.py" grow "$1" "$2" --logical "$3" --slabs "$4")
        same "$found $printed" "$? $plain" "grow of $1 to $3 and $4"
    fi
    case "$found $printed" in
        '0 grown '*)
            try 0 "$printed" grown "$2" grow --logical "$3" --slabs "$4"
            printed=$("$vdo" grown "$2" audit </dev/null 2>errors)
            case "$printed" in
                'audit clean, '*) well=$((well + 1)) ;;
                *) say_wrong "audit of $1 grown: $printed" ;;
            esac
            ;;
        *) alike "$1" grown "$1 was written" ;;
    esac
}

# inside FILE BLOCKS: what the plain program lists of a file is what the status and the audit say: the entries of the journal, the
# data blocks that are used, and of each block that differs its count and its mappings. As JSON it lists the same.
inside() {
    for command in map journal counts; do
        $python "$top/tools/whole_image.py" "$command" "$1" "$2" >"listed.$command"
        $python "$top/tools/whole_image.py" "$command" "$1" "$2" --json | $python -c 'import json, sys
for line in sys.stdin:
    print(*(word for pair in json.loads(line).items() for word in pair))' | sed 's/None/none/g' >told
        alike told "listed.$command" "$command of $1 as JSON says something else"
    done
    "$vdo" "$1" "$2" status >told
    used=$(sed -n 's/^used //p' told)
    entries=$(sed -n 's/^recovery \([0-9]*\) entries$/\1/p' told)
    same "$(tail -n 1 listed.journal)" "$(sed -n '/^mode /p' told) entries ${entries:-0}" "the mode and entries of $1"
    same "$(($(wc -l <listed.journal) - 1))" "${entries:-0}" "the entries of $1"
    same "$(tail -n 1 listed.counts)" "used $used" "the data blocks of $1 that are counted"
    "$vdo" "$1" "$2" audit | grep ' mapped ' >told
    while read -r word block _ stored _ mapped; do
        same "$(sed -n "s/^$word $block stored //p" listed.counts)" "$stored" "the count of block $block of $1"
        same "$(grep -c " block $block\$" listed.map)" "$mapped" "the mappings of block $block of $1"
    done <told
    [ -s told ] || same "$(tail -n 1 listed.map | sed 's/.* used \(.*\) percent.*/\1/')" "$used" "the data blocks of $1 that are mapped"
}

# noise FILE FROM COUNT: blocks of a file are filled with ones.
noise() {
    head -c "$((4096 * $3))" /dev/zero | tr '\000' '\377' | dd of="$1" bs=4096 seek="$2" conv=notrunc 2>errors || exit 1
}

# A file that isn't there is made, as large as what is written to it: the last block of the slab's journal is block 153.
try 0 'formatted 154 blocks, 1 slab of 64, logical 1000' image 154 format
same "$(wc -c <image | tr -d ' ')" 630784 'size of an image of 154 blocks'
same "$(bytes image 0 8)" 5256444f53423031 'superblock'
same "$(bytes image 48 16)" 01000000000000000100000000000000 'clean, and start 1'
same "$(bytes image 36864 4)" 564d5031 'the first root'

# The same again; on a larger device; and with other sizes over it, of which nothing is left.
cp image again
try 0 'formatted 154 blocks, 1 slab of 64, logical 1000' again 154 format
alike image again 'an image that is made again differs'
try 0 'formatted 154 blocks, 1 slab of 64, logical 1000' again 4000000000 format
same "$(wc -c <again | tr -d ' ')" 630784 'size of an image on a larger device'
try 0 'formatted 223 blocks, 2 slabs of 64, logical 1000' again 223 format --slabs 2
same "$(wc -c <again | tr -d ' ')" 913408 'size of an image of 223 blocks'

# What they say of themselves, and their audit; they are closed.
cp image kept
try 0 'audit clean, used 0 of 64' image 154 audit
try 0 'mode clean
recovery none
index 0 chapters
compression refused
used 0 of 64
logical 1000' image 154 status
try 0 'audit clean, used 0 of 128' again 223 audit
agree image 154
agree again 223
try 0 clean image 154 recover
alike image kept 'a closed image was written'
mend again 223
rebuild image 154
rebuild again 223
grow image 223 2000 2
grow image 222 2000 2
grow image 154 999 1
grow again 400 5000 4

# A byte is changed in each region: in the superblock, the recovery journal, a root and its last slot, the index, a data
# block, the counter of the first block and that past its limit, and the slab's journal.
cp image changed
put changed 0 130
try 4 'bad image: not an image' changed 154 audit
try 4 'bad image: not an image' changed 154 status
cp image changed
put changed 36 007
try 4 'bad image: field journal' changed 154 audit
cp image changed
put changed 4096 001
try 0 'audit clean, used 0 of 64' changed 154 audit
cp image changed
put changed 36868 002
try 4 'bad image: page 9 header' changed 154 audit
cp image changed
put changed 40955 002
try 4 'bad image: page 9 slot 811 compressed' changed 154 status
cp image changed
put changed 282624 001
put changed 348160 001
try 0 'audit clean, used 0 of 64' changed 154 audit
cp image changed
put changed 610312 001
try 6 'block 85 stored 1 mapped 0
audit differs 1' changed 154 audit
put changed 610375 376
try 6 'block 85 stored 1 mapped 0
block 148 stored 254 mapped 0
audit differs 2' changed 154 audit
put changed 610375 377
try 4 'bad image: counter 148' changed 154 audit
cp image changed
put changed 614400 001
try 0 'audit clean, used 0 of 64' changed 154 audit
for place in 0 12 40 48 56 400 4096 32767 36864 36899 36900 69632 40959 282624 348160 610304 610312 614400 626688; do
    for byte in 001 020 377; do
        cp image changed
        put changed "$place" "$byte"
        agree changed 154
        mend changed 154
        rebuild changed 154
        grow changed 223 2000 2
        put changed 48 000
        agree changed 154
        mend changed 154
        rebuild changed 154
        grow changed 223 2000 2
    done
done

# A session that wasn't closed: block 1 of the recovery journal has a leaf, block 85, and address 5, block 86.
cp image stopped
put stopped 48 000
for change in 8192=001 8200=001 8208=001 8218=002 8220=126 8221=112 8222=123 8223=061 8224=001 8237=001 8238=125 8248=005 \
    8257=001 8258=126 348160=126 348161=115 348162=120 348163=061 348164=001 348172=125; do
    put stopped "${change%=*}" "${change#*=}"
done
try 0 'mode unclean
recovery 2 entries
index 0 chapters
compression refused
used 2 of 64
logical 1000' stopped 154 status
try 0 'audit clean, used 2 of 64' stopped 154 audit
mend stopped 154
rebuild stopped 154
cp stopped unclosed

# The same with noise in the counters and in the slab's journal: only a forced rebuild makes something of it.
cp stopped noisy
noise noisy 149 5
try 4 'bad image: counter 85' noisy 154 audit
mend noisy 154
rebuild noisy 154
try 0 'rebuilt, used 2 of 64' noisy 154 force-rebuild
same "$(bytes noisy 48 16)" 01000000000000000300000000000000 'clean, and start 3'
try 0 'audit clean, used 2 of 64' noisy 154 audit
cp stopped kept
try 0 'recovered 2 entries' stopped 154 recover
same "$(bytes stopped 48 16)" 01000000000000000300000000000000 'clean, and start 3'
try 0 'mode clean
recovery none
index 0 chapters
compression refused
used 2 of 64
logical 1000' stopped 154 status
try 0 'audit clean, used 2 of 64' stopped 154 audit
try 0 clean stopped 154 recover

# The same where the leaf isn't there: it is refused, and left as it is.
cp kept stopped
put stopped 348160 130
cp stopped kept
try 4 'bad image: page 85 header' stopped 154 recover
alike stopped kept 'an image that was refused was written'

# What stands inside the images of the cases, and of the example.
if [ -n "$python" ]; then
    for name in fresh written counted-twice counted-never stopped stopped-later indexed; do
        $python "$top/tools/case_images.py" "$name" case
        inside case 154
    done
    $python "$top/tools/example_image.py" example >errors
    inside example 1114
    same "$(tail -n 1 listed.map)" 'addresses 1022 used 1024 of 1024 percent-saved 0' 'what is mapped in the example'
    $python "$top/tools/case_images.py" mapped-254-times case
    printed=$($python "$top/tools/whole_image.py" map case 154 | tail -n 1)
    same "$printed" 'addresses 254 used 2 of 64 percent-saved 99' 'what is mapped where one block is shared'
    printed=$($python "$top/tools/whole_image.py" counts case 154)
    same "$? $printed" '4 bad image counter 85' 'counts that are noise'
fi

# A large image with 100,000 entries in its journal, of which nothing is left of the counters and the slabs' journals: it is
# rebuilt, then it grows twice, and a script is served on it. Each address stays mapped to its block, and each block has what it had.
if [ -n "$python" ]; then
    large="$python $top/tools/large_image.py"
    same "$($large make large)" '135233 blocks, 100000 entries in the journal' 'a large image'
    same "$($large noise large)" 'noise in 3072 blocks' 'a large image with noise'
    try 4 'bad image: counter 1089' large 135233 audit
    try 4 'bad image: counter 1089' large 135233 recover
    rebuild large 135233
    try 0 'rebuilt, used 99999 of 131072' large 135233 force-rebuild
    same "$($large check large)" '0 of 123 leaves and 0 of 99876 blocks differ' 'a large image that was rebuilt'
    try 0 'grown 135233 blocks, 1024 slabs of 128, logical 2000000' large 135233 grow --logical 2000000 --slabs 1024
    try 0 'grown 135233 blocks, 1024 slabs of 128, logical 39560640' large 135233 grow --logical 39560640 --slabs 1024
    try 0 'audit clean, used 99999 of 131072' large 135233 audit
    same "$($large check large)" '0 of 123 leaves and 0 of 99876 blocks differ' 'a large image that has grown'
    script 0 '0 0 write 39560639 ok z0:0
0 1 flush ok
0 2 read 39560639 4096*61 z0:1
used 100001 of 131072' '0 write 39560639 4096*61\n0 flush\n0 read 39560639\n' large 135233 run
    try 0 'recovered 2 entries' large 135233 recover
    try 0 'audit clean, used 100001 of 131072' large 135233 audit
    same "$($large check large)" '0 of 123 leaves and 0 of 99876 blocks differ' 'a large image that has grown, behind a run'
    rm large rebuilt
fi

# From one slab to 512, and to 1,024.
try 0 'formatted 154 blocks, 1 slab of 64, logical 1000' slabs 154 format
try 0 'grown 35413 blocks, 512 slabs of 64, logical 200000' slabs 70741 grow --logical 200000 --slabs 512
try 0 'grown 70741 blocks, 1024 slabs of 64, logical 400000' slabs 70741 grow --logical 400000 --slabs 1024
try 0 'audit clean, used 0 of 65536' slabs 70741 audit
try 8 'layout: size slabs' slabs 4000000000 grow --logical 400000 --slabs 1025
rm slabs

# Files without an image; one that is a block short, past whose end stand zeros, and fewer blocks than its image has.
: >bare
try 4 'bad image: not an image' bare 154 audit
try 4 'bad image: not an image' bare 154 status
same "$(wc -c <bare | tr -d ' ')" 0 'size of a file that was looked at'
try 4 'bad image: not an image' bare 0 audit
try 4 'bad image: not an image' absent 154 status
try 4 'bad image: not an image' bare 154 recover
same "$(wc -c <bare | tr -d ' ')" 0 'size of a file with nothing to recover'
dd if=image of=short bs=4096 count=153 2>errors
try 0 'audit clean, used 0 of 64' short 154 audit
agree short 154
same "$(wc -c <short | tr -d ' ')" 626688 'size of a short file that was looked at'
try 4 'bad image: field blocks' image 153 audit
try 4 'bad image: field blocks' image 153 status
try 4 'bad image: field blocks' image 153 recover
dd if=image of=short bs=4096 count=40 2>errors
try 4 'bad image: page 40 header' short 154 audit

# Sizes that can't be had: nothing is written.
try 8 'layout: needs 154 blocks, has 153' small 153 format
same "$(wc -c <small | tr -d ' ')" 0 'size of a file on which no image was made'
cp image kept
try 8 'layout: size height' kept 154 format --height 4
alike image kept 'an image that was refused was written'

# An image in memory is made first.
try 0 'formatted 154 blocks, 1 slab of 64, logical 1000
formatted 223 blocks, 2 slabs of 64, logical 1000' - 223 format --slabs 2
try 8 'layout: needs 154 blocks, has 153' - 153 format
try 0 'formatted 154 blocks, 1 slab of 64, logical 1000
audit clean, used 0 of 64' - 154 audit
try 0 'formatted 154 blocks, 1 slab of 64, logical 1000
clean' - 154 recover

# Runs one after the other on a file: each finds what was written before, and is recovered where it has to be.
cp image served
script 0 'used 0 of 64' '' served 154 run
alike image served 'a script without a request wrote the image'
script 0 '0 0 write 5 ok z0:0
0 1 read 5 4096*61 z0:1
used 2 of 64' '0 write 5 4096*61\n0 read 5\n' served 154 run
agree served 154
mend served 154
script 0 'recovered 2 entries
0 0 write 5 ok z0:0
0 1 flush ok
used 2 of 64' '0 write 5 4096*62\n0 flush\n' served 154 run --schedule 7
cp served kept
try 4 'bad image: field blocks' served 153 run
alike served kept 'an image that was refused was written'
script 2 'recovered 1 entries
script line 1: word' '0 erase 5\n' served 154 run
try 0 clean served 154 recover
script 0 '0 0 read 5 4096*62 z0:0
0 1 read 1000 range
used 2 of 64' '0 read 5\n0 read 1000\n' served 4000000000 run
try 0 'recovered 0 entries' served 154 recover
try 0 'audit clean, used 2 of 64' served 154 audit
script 4 'bad image: not an image' '0 read 5\n' bare 154 run
same "$(wc -c <bare | tr -d ' ')" 0 'size of a file without an image on which a script ran'

# A new image in memory, with these words and without any.
for words in '- 154 run' ''; do
    # shellcheck disable=SC2086
    script 0 'formatted 154 blocks, 1 slab of 64, logical 1000
0 0 write 5 ok z0:0
used 2 of 64' '0 write 5 4096*61\n' $words
done
try 8 'layout: needs 154 blocks, has 153' - 153 run

# A page that is no longer one: where the journal replaces a slot the page's own one isn't looked at.
cp image served
script 0 '0 0 write 5 ok z0:0
used 2 of 64' '0 write 5 4096*61\n' served 154 run
put served 348221 002
cp served kept
try 0 'recovered 2 entries' served 154 recover
cp kept served
put served 348211 002
cp served kept
try 4 'bad image: page 85 slot 3 compressed' served 154 run
alike served kept 'an image that was refused was written'

# Words that are no command line.
try 2 usage image
cause 'a word is missing'
try 2 usage image 154
try 2 usage image blocks format
cause 'blocks: not served; see vdo --help'
try 2 usage image +154 format
try 2 usage image 154 erase
cause 'erase: not served; see vdo --help'
try 2 usage image 154 format --slabs two
cause '--slabs: not served; see vdo --help'
try 2 usage run
try 2 usage run --schedule 7
try 2 usage image 154 run now
cause 'now: not served; see vdo --help'
try 2 usage image 154 run --schedule=-1
cause '--schedule: not served; see vdo --help'
try 2 usage image 154 recover --schedule 0
try 2 usage image 154 force-rebuild --slabs 1
try 2 usage image 154 grow --slabs 1
cause 'a word is missing, or two don'\''t go together; see vdo --help'
try 2 usage image 154 crash
try 2 usage image 154 audit now
try 2 usage image 154 status --logical 1

# Files that can't be opened, or written.
mkdir directory
try 3 'device fault' directory 154 format
cause 'directory: Is a directory'
try 3 'device fault' directory 154 run
try 3 'device fault' directory 154 audit
try 3 'device fault' directory 154 status
try 3 'device fault' directory 154 recover
try 3 'device fault' directory 154 force-rebuild
try 3 'device fault' directory 154 grow --logical 2000 --slabs 1
try 3 'device fault' missing/image 154 format
cause 'missing/image: '
mkfifo pipe
try 3 'device fault' pipe 154 format
try 3 'device fault' pipe 154 status

# What another user may only read is looked at, and not changed.
if [ "$(id -u)" != 0 ]; then
    another=
elif command -v setpriv >errors && setpriv --reuid=65534 --regid=65534 --clear-groups "$vdo" - 154 format >errors 2>&1; then
    another='setpriv --reuid=65534 --regid=65534 --clear-groups'
else
    another=no
fi
if [ "$another" = no ]; then
    leave_out 'no other user can run the program, so nothing is tried on files that may only be read'
else
    : >closed
    cp image readable
    chmod 0 closed
    chmod 444 readable
    cp readable kept
    caller=$vdo
    # with "as_another", "$vdo" is called by the other user
    as_another=$folder/as_another
    printf '#!/bin/sh\nexec %s "%s" "$@"\n' "$another" "$caller" >"$as_another"
    chmod 755 "$as_another"
    vdo=$as_another
    try 3 'device fault' closed 154 format
    cause 'closed: Permission denied'
    try 3 'device fault' closed 154 recover
    try 3 'device fault' closed 154 status
    try 0 'audit clean, used 0 of 64' readable 154 audit
    script 0 'ended
recovered 2 entries
5 4096*61
audit clean, used 2 of 64' '0 write 5 4096*61\n0 flush\n' readable 154 crash --after 100 --image 0
    try 3 'device fault' readable 154 format
    try 3 'device fault' readable 154 run
    try 3 'device fault' readable 154 recover
    try 3 'device fault' readable 154 force-rebuild
    try 3 'device fault' readable 154 grow --logical 2000 --slabs 1
    vdo=$caller
    alike readable kept 'a file that may only be read was written'
fi

# A file system that may only be read.
if [ "$(id -u)" = 0 ] && mkdir sealed && mount -t tmpfs -o size=4m tmpfs sealed 2>errors; then
    cp image sealed/image
    mount -o remount,ro sealed 2>errors
    try 0 'audit clean, used 0 of 64' sealed/image 154 audit
    try 3 'device fault' sealed/image 154 recover
    try 3 'device fault' sealed/image 154 force-rebuild
    try 3 'device fault' sealed/image 154 grow --logical 2000 --slabs 1
    try 3 'device fault' sealed/absent 154 status
    umount sealed
else
    leave_out 'no file system can be mounted here, so none is tried that may only be read'
fi

# One at a time: whoever changes a file holds it alone, and those that look at it share it.
if command -v flock >errors; then
    cp image held
    cp held kept
    for command in format run recover force-rebuild 'grow --logical 2000 --slabs 1' audit 'crash --after 0 --image 0' status; do
        # shellcheck disable=SC2086
        printed=$(flock -x held "$vdo" held 154 $command 2>errors)
        same "$? $printed" '3 device fault' "$command of a file that another changes"
        cause 'held: held by another program'
    done
    for command in format run recover force-rebuild 'grow --logical 2000 --slabs 1'; do
        # shellcheck disable=SC2086
        printed=$(flock -s held "$vdo" held 154 $command 2>errors)
        same "$? $printed" '3 device fault' "$command of a file that another looks at"
    done
    printed=$(flock -s held "$vdo" held 154 audit 2>errors)
    same "$? $printed" '0 audit clean, used 0 of 64' 'audit of a file that another looks at'
    printed=$(flock -s held "$vdo" held 154 crash --after 0 --image 0 </dev/null 2>errors)
    same "$? $printed" '0 stopped
clean
audit clean, used 0 of 64' 'crash of a file that another looks at'
    alike held kept 'a file that another holds was written'
else
    leave_out 'flock is missing, so no file is held by another program'
fi

# pair NUMBER COMMAND: format of two slabs beside this command of an image of one. At least one of the two is done, each says
# that it was or that the file is held, and the image is whole.
pair() {
    cp "$3" both
    "$vdo" both 223 format --slabs 2 >first 2>errors &
    second=$("$vdo" both 223 "$2" 2>errors)
    second="$? $second"
    wait $!
    first="$? $(cat first)"
    case "$first+$second" in
        '3 device fault+3 device fault') say_wrong "pair $1: neither was done" ;;
        '0 formatted 223 blocks, 2 slabs of 64, logical 1000+'* | '3 device fault+'*) well=$((well + 1)) ;;
        *) say_wrong "pair $1: '$first' beside '$second'" ;;
    esac
    case $second in
        '0 formatted 223 blocks, 1 slab of 64, logical 1000' | '0 formatted 154 blocks, 1 slab of 64, logical 1000' | '0 recovered 2 entries' | '0 clean' | '3 device fault') ;;
        *) say_wrong "pair $1: $2 '$second'" ;;
    esac
    audited=$("$vdo" both 223 audit 2>errors)
    case $audited in
        'audit clean, used 0 of 64' | 'audit clean, used 0 of 128' | 'audit clean, used 2 of 64') ;;
        *) say_wrong "pair $1: an audit says '$audited'" ;;
    esac
}
number=0
while [ "$number" -lt 100 ]; do
    pair "$number" format image
    pair "$number" recover unclosed
    number=$((number + 1))
done

# A standard stream that is closed is never the image: an audit of more than 64 KiB of text.
try 0 'formatted 4187 blocks, 1 slab of 4096, logical 1000' many 4187 format --slab-blocks 4096
for sector in 0 1 2 3 4 5 6 7; do
    head -c 504 /dev/zero | tr '\000' '\001' |
        dd of=many bs=1 seek=$((4181 * 4096 + 512 * sector + 8)) conv=notrunc 2>errors || exit 1
done
cp many kept
"$vdo" many 4187 audit >lines
same "$?" 6 'status of an audit of many blocks that differ'
same "$(wc -l <lines | tr -d ' ')" 4033 'lines of an audit of many blocks that differ'
same "$(tail -n 1 lines)" 'audit differs 4032' 'the last line of an audit of many blocks that differ'
[ "$(wc -c <lines)" -gt 65536 ] || say_wrong 'the audit has too few bytes'
cp lines told
"$vdo" many 4187 audit >lines <&-
same "$?" 6 'status of an audit without an input'
alike lines told 'an audit without an input tells something else'
"$vdo" many 4187 audit >lines 2>&-
same "$?" 6 'status of an audit without a place for errors'
alike lines told 'an audit without a place for errors tells something else'
"$vdo" many 4187 audit >&-
same "$?" 6 'status of an audit without an output'
"$vdo" many 4187 audit <&- >&-
same "$?" 6 'status of an audit without an input and an output'
"$vdo" many 4187 audit <&- >&- 2>&-
same "$?" 6 'status of an audit without any stream'
alike many kept 'an audit wrote the image'
"$vdo" many 4187 status >&-
same "$?" 7 'status of a status without an output'
"$vdo" many 4187 status <&- >&- 2>&-
same "$?" 7 'status of a status without any stream'
alike many kept 'a status wrote the image'
"$vdo" image 154 format >&-
same "$?" 7 'status of a format without an output'
same "$("$vdo" image 154 audit)" 'audit clean, used 0 of 64' 'an image that was made without an output'
"$vdo" image 154 run <&- >lines
same "$? $(cat lines)" '7 read fault' 'a run without an input'
if [ -c /dev/full ]; then
    "$vdo" image 154 audit >/dev/full 2>errors
    same "$?" 7 'status of an audit that could not be put'
    try 3 'device fault' /dev/full 154 format
else
    leave_out 'there is no /dev/full'
fi

# A device larger than any memory.
try 5 'no memory' - 4294967295 audit

# A file system with room for 16 blocks, where one can be made: a write fails, and what is left is no image.
if [ "$(id -u)" = 0 ] && mkdir full && mount -t tmpfs -o size=65536 tmpfs full 2>errors; then
    try 3 'device fault' full/image 154 format
    try 4 'bad image: not an image' full/image 154 recover
    umount full
else
    leave_out 'no file system can be mounted here, so none is tried that is full'
fi

# A file that may grow no further: the program asks for the limit, so that no signal ends it.
printed=$(ulimit -f 8; "$vdo" grown 154 format 2>errors)
same "$? $printed" '3 device fault' 'format of a file that may grow no further'

# The script vdo.
. "$top/tools/script_vdo.sh"

# A file that is put onto an image by several runs, killed before each of the first system calls that write.
if [ -n "$python" ] && command -v cc >errors; then
    printed=$($python "$top/tools/killed_runs.py" "$vdo" 200 2>errors)
    same "$? $printed" '0 killed runs: 400 kills, 0 went wrong' 'runs that were killed'
else
    leave_out 'python3 or cc is missing, so no run is killed'
fi

# Two commands one behind the other, the first killed before each of its calls, and a power cut before each of the second.
if [ -n "$python" ] && command -v cc >errors; then
    printed=$($python "$top/tools/two_calls.py" "$vdo" 2>errors | tail -n 1)
    same "$printed" 'two calls: 6546 cuts, 3152 images, 0 went wrong' 'two commands, and a power cut'
else
    leave_out 'python3 or cc is missing, so no two commands are replayed'
fi

# Each call of a run that fails, and each allocation of each command that is refused.
if [ -n "$python" ] && command -v cc >errors; then
    printed=$($python "$top/tools/failing_calls.py" "$vdo" 2>errors)
    same "$? $printed" '0 failing calls: 422 calls, 0 went wrong' 'a run of which a call failed'
    printed=$($python "$top/tools/refused_memory.py" "$vdo" 2>errors | tail -n 1)
    same "$printed" 'refused memory: 1056 refusals, 0 went wrong' 'commands of which an allocation was refused'
else
    leave_out 'python3 or cc is missing, so no call fails, and no allocation is refused'
fi

# Images and scripts of which none is served, the stops of two scripts, and runs with zones and depths.
if [ -n "$python" ]; then
    printed=$($python "$top/tools/refused_runs.py" "$vdo" 2>errors)
    same "$? $printed" '0 refused runs: 215 tries, 0 went wrong' 'runs that were refused'
    printed=$($python "$top/tools/crash_stops.py" "$vdo" 2>errors)
    same "$? $printed" '0 one stream: 2536 images of 634 stops
four streams: 3736 images of 934 stops
stopped scripts: 0 images went wrong' 'scripts that were stopped'
    printed=$($python "$top/tools/zoned_runs.py" "$vdo" --schedules 1 2>errors)
    same "$? $printed" '0 zoned runs: 144 setups, 960 images, 0 went wrong' 'runs with zones and depths'
fi

# The examples of README and of the manual.
if [ -n "$python" ]; then
    $python "$top/tools/examples.py" "$vdo" || say_wrong 'an example of the documents is wrong'
fi

# The documents that are made from the code.
if [ -n "$python" ]; then
    for tool in crates proved; do
        printed=$($python "$top/tools/$tool.py" check) || say_wrong "$printed"
    done
fi

echo "image files: $well tries went well, $wrong went wrong"
[ "$wrong" = 0 ]
