#!/bin/sh
# tree.sh [checkout]: makes in this folder a small repository `tree`, a command `bin/rt` in place of the toolchain's, and the folder `told`, for
# build.play. The crates a and b have no dependencies, c uses a, and the program d uses b and c. The crate `other` is not below d, and
# `thiserror` is no crate of the repository. With `checkout` it also has the script bidi-edit and its programs, which end at once; its host,
# which a script builds, prints its words.
set -eu

top=$(CDPATH='' cd -- "$(dirname -- "$0")/../.." && pwd)
mkdir bin told
for name in a b c d other; do mkdir -p "tree/crates/$name/src"; done
for name in a b c; do awk 'BEGIN { for (i = 0; i < 300; i++) print "// a line" }' >"tree/crates/$name/src/lib.rt"; done
echo '// a line' >tree/crates/d/src/main.rt
printf '# NAME: what it stands on\nd: b c thiserror\nc: a\nb:\na:\nother: a\n' >tree/crates.txt

# A crate has ten functions, proved in a tenth of a second each and stored one by one. The command logs when it starts and ends, and the number
# of proofs; its child lives as long as it does, as the toolchain's do. In the folder TOLD are `log`, and as others wish `slow`, with which a
# proof takes a second more, and `bad`, the name of a crate that fails. The status 2 is that of a program which rt runs, and must not matter.
cat >bin/rt <<'END'
#!/bin/sh
if [ "$1" = version ]; then echo a toolchain && exit; fi
name=$(basename "$PWD")
mkdir -p out/incremental
had=$(ls out/incremental | wc -l)
echo "begin $name $1 $((had))" >>"$TOLD/log"
echo "so far: 0 of 10 functions checked; the verdict comes last"
while [ "$had" -lt 10 ]; do
    sleep 0.1
    had=$((had + 1))
    touch "out/incremental/$had.Proof.oantt" 2>/dev/null
    ! [ -f "$TOLD/slow" ] || sleep 1
done
if [ "$name" = "$(cat "$TOLD/bad" 2>/dev/null)" ]; then
    echo 'fn x: not proved'
    exit 1
fi
echo "logic=proved functions=10 sum=1"
for below in ../*; do
    [ "$below" = "../$name" ] || [ -f "$below/out/rlib/stamp" ] || echo "lacks $below" >>"$TOLD/log"
done
if [ -f src/main.rt ]; then
    cp /bin/true "out/$name"
    echo stamp >"out/$name.stamp"
else
    mkdir -p out/rlib
    echo stamp >out/rlib/stamp
fi
echo "end $name" >>"$TOLD/log"
! [ -f src/main.rt ] || exit 2
END
chmod +x bin/rt

[ "${1:-}" = checkout ] || exit 0
mkdir -p tree/host tree/tools
cp -R "$top/bidi-edit" "$top/data" tree/
cp -R "$top/tools/launcher" tree/tools/
cat >tree/host/build.sh <<'END'
here=$(dirname "$0")
mkdir -p "$here/out"
printf '#!/bin/sh\nprintf "%%s|" host "$@"\necho\n' >"$here/out/bidi-edit"
chmod +x "$here/out/bidi-edit"
END
for name in bidi_edit bidi_print; do
    mkdir -p "tree/crates/$name/src"
    echo '// a line' >"tree/crates/$name/src/main.rt"
done
printf 'bidi_edit: c b\nbidi_print: b\n' >>tree/crates.txt
