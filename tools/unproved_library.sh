#!/usr/bin/env bash
# Builds an UNPROVED library of the calls for C, to time code before it is proved: tools/unproved_library.sh OUT
# Then: cd tests && ARVUMNAO_LIB_DIR=OUT cargo run --release -p bench. Nothing that this makes may be shipped.
# It runs the kit's `rattle-cases`, as `rt try` does, with a clang that keeps the module, and compiles that module as the kit does.
set -euo pipefail
out=$(mkdir -p "$1" && cd "$1" && pwd)
cd "$(dirname "$0")/.."
rt=$(readlink -f "$(command -v rt)")
home=$(cd "$(dirname "$rt")/.." && pwd)
kit="$home/on/$(uname -m)"
scratch=$(mktemp -d)
trap 'rm -rf "$scratch"' EXIT

# the kit's tools, with a clang that keeps a copy of what it is given
mkdir -p "$scratch/tools/bin" "$scratch/main"
cp -rL "$kit/toolchain/lib" "$scratch/tools/"
ln -s "$kit/toolchain/bin/ld.lld" "$kit/toolchain/bin/llvm-ar" "$scratch/tools/bin/"
cat >"$scratch/tools/bin/clang" <<CLANG
#!/usr/bin/env bash
case " \$* " in *" -O3 "*) cp module.bc "$scratch/module.bc" ;; esac
exec "$kit/toolchain/bin/clang" "\$@"
CLANG
chmod +x "$scratch/tools/bin/clang"

# a program from which every call for C is reached
cat >"$scratch/main/main.rt" <<'MAIN'
fn main() {
    let mut out = [0u64; 16];
    let r = capi::arvumnao_price(0, 0, 0, 1, 1, &mut out);
}
MAIN
libraries=(--lib "std=$home/libs/std/src/lib.rt")
for crate in price search job negotiation text uses capi; do libraries+=(--lib "$crate=crates/$crate/src/lib.rt"); done
"$kit/bin/rattle-cases" --toolchain "$scratch/tools" "$scratch/main/main.rt" --crate-name main "${libraries[@]}" >/dev/null

# the calls under their own names, a slice as a pointer to its pointer and length
clang=("$kit/toolchain/bin/clang" --target=x86_64-unknown-linux-gnu --no-default-config -fPIE)
"${clang[@]}" -x ir "$scratch/module.bc" -S -emit-llvm -O0 -Xclang -disable-llvm-passes -o "$scratch/module.ll"
sed -i -E 's/define internal noundef i32 @"capi::arvumnao_([a-z_]+)"/define noundef i32 @rattle_\1/; s/@"capi::arvumnao_([a-z_]+)"/@rattle_\1/g; s/^define i32 @main\(\)/define internal i32 @unused()/' "$scratch/module.ll"
"${clang[@]}" -march=x86-64 -ffunction-sections -O3 -c -x ir "$scratch/module.ll" -o "$scratch/module.o"
tools/unproved_calls.py include/arvumnao.h >"$scratch/calls.c"
cc -std=c99 -O2 -fPIE -Wall -Wextra -Werror -Iinclude -c "$scratch/calls.c" -o "$scratch/calls.o"
rm -f "$out/libcapi.a"
ar rcs "$out/libcapi.a" "$scratch/module.o" "$scratch/calls.o"
echo "$out/libcapi.a is UNPROVED"
