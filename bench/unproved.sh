#!/usr/bin/env bash
# Builds the server of a checkout as LLVM compiles it, before anything is proved, so that two texts can be measured in one run.
#   bench/unproved.sh OUT [CHECKOUT]
# OUT is where the program goes. CHECKOUT is a folder with the repository; without it this one is built. It takes two minutes.
# Nothing but a measurement may rest on such a program: what the gate builds is proved first, and is the only one that is released.
# How: `rt try` compiles a text with checks of its own before it runs it. Here its compiler is a script that keeps what it is given. The checks are
# then taken out of that, functions marked #[inline(always)] are marked so again, and the kit's clang compiles it as it compiles what is proved.
# It needs the kit that `rt doc` names, and python3.
set -euo pipefail
if [ "$#" -lt 1 ]; then
  echo "usage: bench/unproved.sh OUT [CHECKOUT]" >&2
  exit 1
fi
out=$(realpath -m "$1")
checkout=$(realpath "${2:-$(dirname "$0")/..}")
kit=$(dirname "$(rt doc)")
work=$(mktemp -d)
trap 'rm -rf "$work"' EXIT

# A kit like the one that is installed, but for its compiler.
mkdir -p "$work/kit/toolchain/bin"
for part in "$kit"/*; do
  case $(basename "$part") in
    bin) cp -r "$part" "$work/kit/bin" ;;
    toolchain) ln -s "$part/lib" "$work/kit/toolchain/lib" ;;
    *) ln -s "$part" "$work/kit/" ;;
  esac
done
for tool in "$kit"/toolchain/bin/*; do
  [ "$(basename "$tool")" = clang ] || ln -s "$tool" "$work/kit/toolchain/bin/"
done
cat >"$work/kit/toolchain/bin/clang" <<SCRIPT
#!/bin/sh
case " \$* " in *-fsanitize=address*) cp module.bc "$work/module.bc"; exit 1 ;; esac
exec "$kit/toolchain/bin/clang" "\$@"
SCRIPT
chmod +x "$work/kit/toolchain/bin/clang"
(cd "$checkout/crates/vx_server" && "$work/kit/bin/rt" try --steps 1000 </dev/null) >"$work/said" 2>&1 || true
if [ ! -f "$work/module.bc" ]; then
  cat "$work/said" >&2
  echo "unproved: nothing was compiled" >&2
  exit 1
fi

cd "$work"
flags=(--target=x86_64-unknown-linux-gnu -march=x86-64 -ffunction-sections -fdata-sections -fPIE -O3 -x ir
  --no-default-config -no-canonical-prefixes -fintegrated-cc1)
for option in -no-trap-after-noreturn -trap-unreachable -no-x86-call-frame-opt -disable-machine-licm -disable-postra-machine-licm -sink-common-insts=false; do
  flags+=(-mllvm "$option")
done
"$kit/toolchain/bin/clang" "${flags[@]}" -S -emit-llvm -Xclang -disable-llvm-passes module.bc -o module.ll
python3 - "$checkout" "$kit" module.ll <<'SCRIPT'
import os, re, sys

checkout, kit, module = sys.argv[1:]
# Where functions are marked #[inline(always)], or #[inline(never)]: their names, and the modules that have one of that name.
always, never = {}, {}
sources = [(f"{checkout}/crates", name) for name in os.listdir(f"{checkout}/crates")]
sources += [(f"{kit}/rattle", name) for name in os.listdir(f"{kit}/rattle")]
for root, crate in sources:
    top = f"{root}/{crate}/src"
    for at, _, files in os.walk(top):
        for file in files:
            if not file.endswith(".rt"):
                continue
            parts = os.path.relpath(f"{at}/{file}", top)[:-3].split("/")
            path = "::".join([crate, *(parts[:-1] if parts[-1] in ("mod", "lib", "main") else parts)])
            with open(f"{at}/{file}", errors="replace") as it:
                text = it.read()
            for name in re.findall(r"#\[inline\(always\)\].*?\bfn\s+(\w+)", text, re.S):
                always.setdefault(name, set()).add(path)
            for name in re.findall(r"#\[inline\(never\)\](?:\s*#\[[^\n]*\])*\s*(?:pub(?:\(crate\))?\s+)?fn\s+(\w+)", text):
                never.setdefault(name, set()).add(path)

check = re.compile(r'call void (@"rattle-llvm-checks::|@llvm\.trap\(|'
                   r'@llvm\.memset\.p0\.i64\(ptr %r\d+, i8 -86,)')
lines = []
with open(module) as it:
    for line in it:
        if check.search(line):
            continue
        if line.startswith(("attributes", "define", "declare")):
            line = line.replace(" sanitize_address", "")
        if line.startswith("define "):
            name = re.search(r'@(?:"([^"]*)"|([\w.]+))\(', line)
            base = (name[1] or name[2]).split("::<")[0]
            for word, marked in ("alwaysinline", always), ("noinline", never):
                if any(base.startswith(f"{path}::") for path in marked.get(base.rsplit("::", 1)[-1], ())):
                    line = re.sub(r" #(\d+) \{$", rf" {word} #\1 {{", line)
        lines.append(line)
with open(module, "w") as it:
    it.writelines(lines)
SCRIPT
"$kit/toolchain/bin/clang" "${flags[@]}" -c module.ll -o module.o
"$kit/bin/rattle-link" --target x86_64-unknown-linux-gnu --toolchain "$kit/toolchain" -o "$out" module.o "$kit/c/libos_c.a" "$kit/c/liblibc_c.a" >/dev/null
echo "$out"
