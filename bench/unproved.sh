#!/usr/bin/env bash
# Builds a program of a checkout without proving it, and without the checks at run time that `rt try` puts in: what the proved
# program's code is compared by where the other one is of sources that nobody proves again. The words are CHECKOUT CRATE OUT and then
# those of a run, as `unproved.sh . program nvheap.unproved replay`. It goes by how `rt try` of rattle-kit-13f calls its compiler, as the
# launcher does: it drops from the module that this is given the calls of its checks and its traps, and has functions inlined where
# the sources say so, which `rt try` does not hand on.
set -eu

[ $# -ge 4 ] || { echo "usage: unproved.sh CHECKOUT CRATE OUT WORDS.." >&2; exit 1; }
checkout=$(readlink -f -- "$1") crate=$(readlink -f -- "$1/crates/$2") out=$(readlink -f -- "$(dirname -- "$3")")/$(basename -- "$3")
shift 3
kit=$(dirname -- "$(dirname -- "$(readlink -f -- "$(command -v rt)")")")
room=$(mktemp -d)
trap 'rm -rf -- "$room"' EXIT

# A kit whose clang keeps the module where it would compile one with checks.
lent=$room/kit
mkdir -p -- "$lent/bin" "$lent/toolchain/bin"
for part in "$kit"/* "$kit"/bin/* "$kit"/toolchain/* "$kit"/toolchain/bin/*; do
    case ${part#"$kit/"} in bin | toolchain | toolchain/bin | toolchain/bin/clang | bin/rt | bin/rtlib.py) continue ;; esac
    ln -s -- "$part" "$lent/${part#"$kit/"}"
done
cp -- "$kit/bin/rt" "$kit/bin/rtlib.py" "$lent/bin"
cat >"$lent/toolchain/bin/clang" <<CLANG
#!/usr/bin/env bash
case " \$* " in *" -fsanitize=address "*) cp -- module.bc ${room@Q} && exit 1 ;; esac
exec ${kit@Q}/toolchain/bin/clang "\$@"
CLANG
chmod +x -- "$lent/toolchain/bin/clang"
(cd -- "$crate" && "$lent/bin/rt" try --steps 1 -- "$@" </dev/null >"$room/log" 2>&1) || true
[ -f "$room/module.bc" ] || { cat -- "$room/log" >&2; exit 1; }

cd -- "$room"
clang=$kit/toolchain/bin/clang
"$clang" -S -emit-llvm -x ir module.bc -Xclang -disable-llvm-passes -O2 -o module.ll 2>>log
python3 - "$checkout/crates" <<'PYTHON'
import pathlib, re, sys

# Functions that the sources want in their callers' code: of a crate, by their last names.
inlined = set()
for path in pathlib.Path(sys.argv[1]).glob("*/src/**/*.rt"):
    crate = path.relative_to(sys.argv[1]).parts[0]
    for name in re.findall(r"#\[inline\(always\)\]\s*(?:pub(?:\([a-z]*\))? )?fn (\w+)", path.read_text()):
        inlined.add((crate, name))
named = re.compile(r'^define .*? @"(\w+)::[^"]*?(\w+)(?:::<[^"]*)?"\(')
with open("module.ll") as module, open("stripped.ll", "w") as stripped:
    for line in module:
        if line.lstrip().startswith(('call void @"rattle-llvm-checks::', "call void @llvm.trap()")):
            continue
        if line.startswith("attributes "):
            for word in ("sanitize_address", '"frame-pointer"="all"'):
                line = line.replace(" " + word, "")
            line = line.replace("{ }", "{ nounwind }")
        found = named.match(line)
        if found and found.groups() in inlined:
            line = line.replace(" #0 {", " alwaysinline #0 {")
        stripped.write(line)
PYTHON
"$clang" --target=x86_64-unknown-linux-gnu --sysroot="$kit/toolchain" -march=x86-64 -ffunction-sections -fdata-sections \
    --no-default-config -c -x ir stripped.ll -o program.o -fPIE -O2 2>>log || { cat log >&2; exit 1; }
"$kit/bin/rattle-link" --target x86_64-unknown-linux-gnu --toolchain "$kit/toolchain" -o "$out" \
    program.o "$kit/c/libos_c.a" "$kit/c/liblibc_c.a"
