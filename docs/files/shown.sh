#!/bin/bash
# shown.sh: closed streams, a second process, an unfinished destroy, a first append that was cut off, interrupted calls, a rename that fails, each as it comes out.
# It asks for strace.
here=$(cd "$(dirname "$0")" && pwd); B=$(realpath "${QMDB:-$here/../../crates/qmdb/out/qmdb}"); Q="$B run any ordered mmr"
one='open\nbatch\nput 1 61 01\nmerkleize 1 prop none\napply 1\ncommit\n'
anew() { cd "$(mktemp -d)"; printf "$one" | $Q > /dev/null; }
anew; sum=$(cat qmdb-data/* | md5sum)
printf 'open\nget 61\n' | $Q >&- 2> said; echo "closed output: status $?, $(cat said)"
$Q <&- 2> said; echo "closed input: status $?, $(cat said)"
printf 'open\nget 61\n' | $Q 2>&- > /dev/null; echo "closed standard error: status $?"
$B other words <&- >&- 2> said; echo "other words: status $?, $(cat said)"
[ "$sum" = "$(cat qmdb-data/* | md5sum)" ] && echo "the files are as they were"
anew; (sleep 1; printf 'open\ninfo\n') | $Q > first & sleep 0.3
printf 'open\n' | $Q 2> said; echo "a second process: status $?, $(head -1 said)"; wait; echo "the first: $(tail -1 first)"
anew; printf 'open\ndestroy\n' | strace -o /dev/null -e trace=unlink -e inject=unlink:signal=KILL:when=2 $Q 2> /dev/null
echo "killed inside a destroy: $(ls qmdb-data | tr '\n' ' ')"; printf 'open\n' | $Q; echo "then: $(ls qmdb-data | tr '\n' ' ')"
cd "$(mktemp -d)"; printf "$one" | strace -o /dev/null -e trace=rename -e inject=rename:signal=KILL:when=1 $Q > /dev/null 2>&1
echo "killed inside the first append: $(ls qmdb-data | tr '\n' ' ')"; printf 'open\n' | $Q; echo "then: $(ls qmdb-data | tr '\n' ' ')"
anew; printf 'open\ninfo\n' | strace -o /dev/null -e trace=read,write -e inject=read:error=EINTR:when=2+2 -e inject=write:error=EINTR:when=1+2 $Q; echo "interrupted reads and writes: status $?"
anew; printf 'open\nprune 1\n' | strace -o /dev/null -e trace=rename -e inject=rename:error=EIO:when=1 $Q 2> said; echo "a rename that fails: status $?, $(head -1 said)"
printf 'open\ninfo\n' | $Q; echo "then: $(ls qmdb-data | tr '\n' ' ')"
