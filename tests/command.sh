#!/bin/sh
# Tests the command, bin/visnumar: runs it on stored inputs and in wrong ways, and compares what it prints (standard output
# lines as they are, standard error after `!`) and its status with command/transcript.txt, byte for byte.
#
#   command.sh             test
#   command.sh rewrite     write inputs and transcript anew, to look at and to commit
#
# Needed: python3 and the built program (bin/run-built says what to do where it is missing).
set -eu
here=$(CDPATH='' cd -- "$(dirname -- "$0")" && pwd -P)
root=$(dirname -- "$here")
work=$(mktemp -d)
trap 'rm -rf "$work"' EXIT
trap 'exit 1' HUP INT TERM
# Where a user without rights has to reach what is made here.
chmod 755 "$work"
mkdir "$work/inputs"

"$here/command/make-inputs" "$work/inputs"
if test "${1-}" = rewrite; then
    rm -f "$here"/command/*.blk
    cp "$work"/inputs/*.blk "$here/command"
fi
for made in "$work"/inputs/*; do
    cmp "$made" "$here/command/$(basename "$made")"
done
for kept in "$here"/command/*.blk; do
    test -f "$work/inputs/$(basename "$kept")" || { echo "make-inputs does not make $kept"; exit 1; }
done

# Runs a command as it stands and shows it with what it gave.
show() {
    echo "\$ $1"
    status=0
    PATH=$root/bin:$PATH sh -c "$1" >"$work/stdout" 2>"$work/stderr" || status=$?
    cat "$work/stdout"
    sed 's/^/! /' "$work/stderr"
    echo "status $status"
    echo
}

# Makes a script $1 that does $2.
script() {
    printf '#!/bin/sh\n%s\n' "$2" >"$1"
    chmod 755 "$1"
}

transcript() {
    cd "$here/command"
    for input in *.blk; do
        show "visnumar judge $input"
        show "visnumar explain $input"
    done

    # The other ways to give the blocks say the same.
    pump="../../examples/pump-old.blk ../../examples/pump-new.blk"
    show "visnumar judge $pump"
    show "visnumar explain $pump"
    show "cat $pump | visnumar judge"
    show "cat $pump | visnumar explain"
    show "visnumar judge ../../examples/pump-old.blk - <../../examples/pump-new.blk"
    show "visnumar judge -- $pump"
    show "visnumar judge <late-first-job.blk"
    show "visnumar explain <wrong-order.blk"

    # An old block of a wrong length is not filled up from the new one, nor cut.
    show "visnumar judge short-old.blk ../../examples/pump-new.blk"
    show "visnumar explain short-old.blk ../../examples/pump-new.blk"
    show "visnumar judge empty.blk short-new.blk"
    show "visnumar judge short-new.blk only-old.blk"
    show "visnumar explain short-new.blk only-old.blk"
    show "visnumar judge ../../examples/pump-old.blk empty.blk"
    show "visnumar judge ../../examples/pump-old.blk short-old.blk"
    show "visnumar explain ../../examples/pump-old.blk very-long.blk"
    show "visnumar judge ../../examples/pump-new.blk ../../examples/pump-old.blk"

    # Unusable.
    show "visnumar"
    show "visnumar judgement"
    show "visnumar judge -x"
    show "visnumar judge no-such-file.blk"
    show "visnumar explain no-such-file.blk"
    show "visnumar judge ../../examples/pump-old.blk no-such-file.blk"
    show "visnumar judge ."
    show "visnumar judge a b c"
    # The shell's and od's own words differ from one system to another.
    show "visnumar judge $pump >/dev/full 2>/dev/null"
    show "visnumar explain $pump >/dev/full 2>/dev/null"
    show "visnumar judge <&- 2>/dev/null"
    show "visnumar judge <. 2>/dev/null"
    show "visnumar --help"
    show "visnumar judge --help"
    show "visnumar --version"

    # From another folder, through symbolic links, and for file names that look odd.
    mkdir "$work/else where"
    cd "$work/else where"
    cat "$here"/../examples/pump-old.blk "$here"/../examples/pump-new.blk >"a pair"
    cp "a pair" ./-pair
    ln -s "$root/bin/visnumar" judge-one
    mkdir links
    ln -s ../judge-one links/judge-two
    show "./judge-one judge 'a pair'"
    show "links/judge-two judge ./-pair"
    show "cd links && ./judge-two judge -- -pair"
    show "cd links && ./judge-two judge -- ../-pair"

    # A tree of its own, where shell scripts stand in for the program: none, or one that misbehaves.
    mkdir -p "$work/alone/bin" "$work/alone/crates/report/out" "$work/alone/x86" "$work/alone/arm"
    cp "$root/bin/visnumar" "$root/bin/run-built" "$work/alone/bin"
    cd "$work/alone"
    cp "../else where/a pair" pair
    script x86/uname "echo x86_64"
    script arm/uname "echo aarch64"
    ln -s "$(command -v dirname)" arm/dirname
    PATH=$work/alone/x86:$PATH
    show "bin/visnumar judge pair"
    show "bin/visnumar explain pair"
    show "bin/run-built"
    show "bin/run-built ./nothing"
    script crates/report/out/report "echo out of order >&2; exit 3"
    show "bin/visnumar judge pair"
    script crates/report/out/report "cat >/dev/null; echo something else"
    show "bin/visnumar judge pair"
    script crates/report/out/report "cat >/dev/null; echo refused 99 0 0 0"
    show "bin/visnumar explain pair"
    script crates/report/out/report "cat >/dev/null; echo refused 8 2 0 0"
    show "bin/visnumar explain pair"
    script crates/report/out/report "cat >/dev/null; echo change 1 2; echo x 1 2 3 4"
    show "bin/visnumar explain pair"

    # The program gets the very bytes: all of them up to the one that is too many.
    script crates/report/out/report "cat >got; echo change 1 2"
    for input in "$here"/command/*.blk; do
        for call in "judge $input" "judge <$input"; do
            sh -c "bin/visnumar $call" >said
            head -c 1025 "$input" | cmp - got || echo "other bytes after $call"
        done
    done
    head -c 512 pair >one
    tail -c 512 pair >other
    bin/visnumar judge one other >said
    cmp pair got || echo "other bytes for two files"

    # Another processor: without a kit, with one that lacks the loader; then where neither the system nor an emulator runs
    # the loader, where an emulator does, and where the system does.
    show "PATH=$work/alone/arm bin/run-built report"
    mkdir -p kit/toolchain/lib
    script arm/rt "echo $work/alone/kit/START-HERE.md"
    show "PATH=$work/alone/arm bin/run-built report"
    script kit/toolchain/lib/ld-linux-x86-64.so.2 "exit 1"
    show "PATH=$work/alone/arm bin/run-built report"
    script arm/qemu-x86_64 'echo "emulator: $*"'
    show "PATH=$work/alone/arm bin/run-built report one two"
    script kit/toolchain/lib/ld-linux-x86-64.so.2 'echo "loader: $*"'
    show "PATH=$work/alone/arm bin/run-built report one two"

    # A file that this user may not read. Root may read everything, so root becomes nobody for it.
    script crates/report/out/report "cat >/dev/null; echo change 1 2"
    chmod -R a+rX .
    chmod 0 pair
    if test "$(id -u)" = 0; then become="setpriv --reuid=65534 --regid=65534 --clear-groups "; else become=; fi
    show "${become}bin/visnumar judge pair" | sed "s/^\\\$ $become/\$ /"
}

# The command adds nothing to the program's lines and leaves nothing out.
for input in "$here"/command/*.blk "$here"/../examples/*.blk; do
    "$root/bin/run-built" report <"$input" >"$work/direct"
    "$root/bin/visnumar" judge "$input" >"$work/said" || test $? = 1
    cmp "$work/direct" "$work/said"
done

(transcript) | sed "s|$work|WORK|g" >"$work/transcript"
if test "${1-}" = rewrite; then
    cp "$work/transcript" "$here/command/transcript.txt"
    echo "written: inputs and transcript of the command"
    exit
fi
if ! diff "$here/command/transcript.txt" "$work/transcript"; then
    echo "the command does not say what command/transcript.txt has (lines with >)"
    exit 1
fi
echo "command: $(grep -c '^\$ ' "$work/transcript") calls as in the transcript"
