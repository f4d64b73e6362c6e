#!/bin/sh
# native_module.sh CRATE OUT: the LLVM module of a library for C, its text as OUT.ll, and as OUT.flags, one a line, the flags that the toolchain compiles it
# with. For measuring alone: what is proved and delivered is the archive that `rt lib` writes in the crate's folder.
#
# How: the toolchain calls its clang with one module. A shadow of the kit, made of links, has a clang that keeps a copy of that module and then calls the real
# one. `rt` takes the folder that it lies in for the kit, so the shadow has a copy of it; the archive that it writes is the same.
set -eu
crate=$1
out=$(cd "$(dirname "$2")" && pwd -P)/$(basename "$2")
cd "$(dirname "$0")/.."
kit=$(dirname "$(rt doc)")
tools=$kit/toolchain
tmp=$(mktemp -d)
trap 'rm -rf "$tmp"' EXIT
shadow=$tmp/kit
mkdir -p "$shadow/bin" "$shadow/toolchain/bin"
links() { # FROM TO BUT..: a link in TO to each file of FROM but these
    from=$1 to=$2
    shift 2
    for file in "$from"/*; do
        case " $* " in *" $(basename "$file") "*) ;; *) ln -s "$file" "$to/" ;; esac
    done
}
links "$kit" "$shadow" bin toolchain
links "$kit/bin" "$shadow/bin" rt rtlib.py
cp "$kit/bin/rt" "$kit/bin/rtlib.py" "$shadow/bin/"
links "$tools" "$shadow/toolchain" bin
links "$tools/bin" "$shadow/toolchain/bin" clang
cat >"$shadow/toolchain/bin/clang" <<END
#!/bin/sh
for word; do
    case \$word in
    *.bc) /bin/cp "\$word" "$tmp/module.bc" ;;
    -c | -x | ir | -o | *.o | --sysroot=*) ;;
    *) echo "\$word" ;;
    esac
done >"$tmp/flags"
exec "$tools/bin/clang" "\$@"
END
chmod +x "$shadow/toolchain/bin/clang"
(cd "crates/$crate" && "$shadow/bin/rt" lib) >"$tmp/log" 2>&1 || { cat "$tmp/log" >&2; exit 1; }
[ -f "$tmp/module.bc" ] || { echo "native_module: no module was kept" >&2; exit 1; }
cp "$tmp/flags" "$out.flags"
"$tools/bin/clang" --target=x86_64-unknown-linux-gnu -O0 -Xclang -disable-llvm-passes -S -emit-llvm -x ir "$tmp/module.bc" -o "$out.ll"
