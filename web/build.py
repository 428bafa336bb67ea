#!/usr/bin/env python3
"""Makes the page of the LLVM module that the static library is compiled from.

    build.py module MODULE WASM    # WASM, and beside it WASM.proof: whether a prover has accepted what MODULE is made of
    build.py page WASM PAGE        # one file with all inside

The kit has a target for WebAssembly, but none with a heap. So the module is given another triple, and compiled by the
kit's clang for wasm64, since its addresses have 64 bits; binaryen then makes the memory one of 32 bits, which each browser
has. None of this is proved: `agree.py` compares what comes of it with the native library."""
import base64
import gzip
import hashlib
import os
import re
import subprocess
import sys
import tempfile
from pathlib import Path

HERE = Path(__file__).resolve().parent
CALLS = ["version", "status_text", "envelope_show_json", "envelope_normalize", "envelope_mend"]
EXPORTS = ["__heap_base", "web_allocate", "rattle_dealloc", *(f"curdmesa_{it}" for it in CALLS)]
LAYOUT = "e-m:e-p:64:64-p10:8:8-p20:8:8-i64:64-i128:128-n32:64-S128"
# `pshufb` by WebAssembly's `swizzle`: where a place has its highest bit both give 0, and else `pshufb` takes the lowest four.
LOOK_UP = """
declare <16 x i8> @llvm.wasm.swizzle(<16 x i8>, <16 x i8>)
define internal <16 x i8> @"look up"(<16 x i8> %table, <16 x i8> %places) alwaysinline nounwind {
  %low = and <16 x i8> %places, splat (i8 -113)
  %found = call <16 x i8> @llvm.wasm.swizzle(<16 x i8> %table, <16 x i8> %low)
  ret <16 x i8> %found
}
"""
TARGET = "--target=wasm64-unknown-unknown -mcpu=lime1 -msimd128 -ffunction-sections -fdata-sections --no-default-config"
EXPAND = "-mllvm -expand-div-rem-bits=64 -mllvm -expand-fp-convert-bits=64 -fno-crash-diagnostics -Wno-override-module"
FEATURES = "--enable-memory64 --enable-simd --enable-bulk-memory --enable-sign-ext --enable-mutable-globals"
FEATURES += " --enable-nontrapping-float-to-int --enable-multivalue"
POLICY = "default-src 'none'; script-src 'sha256-{PAGE}' 'wasm-unsafe-eval'; style-src 'sha256-{STYLE}'; worker-src blob:; "
POLICY += "connect-src 'none'; form-action 'none'; base-uri 'none'"
PROVED = "A prover has accepted each function of the library"
UNPROVED = "This library was built without proofs, to try it"


def retarget(text):
    """Returns the text of a module for x86-64 as one for wasm64, with fewer exports."""
    text = re.sub(r"^target datalayout = .*$", f'target datalayout = "{LAYOUT}"', text, count=1, flags=re.M)
    text = re.sub(r"^target triple = .*$", 'target triple = "wasm64-unknown-unknown"', text, count=1, flags=re.M)
    text = re.sub(r"^attributes #\d+ = \{.*$", lambda it: re.sub(r' "[\w-]+"="[^"]*"', "", it[0]), text, flags=re.M)
    text = re.sub(r"^attributes (#\d+) = \{ *\}$", r"attributes \1 = { nounwind }", text, flags=re.M)
    others = rf"^define (?=[^@]*@curdmesa_(?!(?:{'|'.join(CALLS)})\())"
    text = re.sub(others, "define internal ", text, flags=re.M)
    look_up = "@llvm.x86.ssse3.pshuf.b.128"
    return re.sub(rf"^declare .*{look_up}\(.*$", "", text, flags=re.M).replace(look_up, '@"look up"') + LOOK_UP


def wrap_addresses(text):
    """Lowers the addresses of the vector instructions that binaryen's pass forgets."""
    inserted, parts, at = [], [], 0
    for it in re.finditer(r"\(v128\.(?:load\w+_(?:zero|splat|[su])|\w+_lane)[^()]*", text):
        depth, end = 1, it.end() + 1
        while depth:
            depth += {"(": 1, ")": -1}.get(text[end], 0)
            end += 1
        inserted += [(it.end(), "(i32.wrap_i64 "), (end, ")")]
    for place, word in sorted(inserted):
        parts += [text[at:place], word]
        at = place
    return "".join([*parts, text[at:]])


def compile_module(module, to):
    clang = str(Path(subprocess.check_output(["rt", "doc"], text=True).strip()).parent / "toolchain/bin/clang")
    with tempfile.TemporaryDirectory(prefix="page-") as folder:

        def call(*parts):
            subprocess.run([word for part in parts for word in part.split()], cwd=folder, check=True)

        def change(name, other, how):
            Path(folder, other).write_text(how(Path(folder, name).read_text("latin-1")), "latin-1")

        os.symlink(clang, f"{folder}/wasm-ld")
        call(clang, f"-S -emit-llvm -Xclang -disable-llvm-passes -Wno-override-module -x ir {module} -o module.ll")
        change("module.ll", "wide.ll", retarget)
        call(clang, TARGET, EXPAND, "-Oz -c -x ir wide.ll -o module.o")
        call(clang, TARGET, f"-O2 -ffreestanding -nostdinc -fno-builtin -c {HERE}/heap.c -o heap.o")
        call("./wasm-ld -flavor wasm -mwasm64 --no-entry --stack-first -z stack-size=1048576 --gc-sections --strip-all",
             *(f"--export={it}" for it in EXPORTS), "module.o heap.o -o wide.wasm")
        call(f"wasm-opt {FEATURES} --no-validation --memory64-lowering -S wide.wasm -o lowered.wat")
        change("lowered.wat", "narrow.wat", wrap_addresses)
        call(f"wasm-opt {FEATURES} -Oz narrow.wat -o {to}")
        is_proved = '!"rattle logic=' in Path(folder, "module.ll").read_text("latin-1")
        Path(f"{to}.proof").write_text(PROVED if is_proved else UNPROVED)


def write_page(module, to):
    names = {"STYLE": "page.css", "PAGE": "page.js", "WORKER": "worker.js", "SAMPLE": "sample.envelope"}
    parts = {part: (HERE / name).read_text() for part, name in names.items()}
    parts["MODULE"] = base64.b64encode(gzip.compress(module.read_bytes(), mtime=0)).decode()
    parts["PROOF"] = Path(f"{module}.proof").read_text()
    hashes = {it: base64.b64encode(hashlib.sha256(parts[it].encode()).digest()).decode() for it in ("PAGE", "STYLE")}
    parts["POLICY"] = POLICY.format(**hashes)
    to.write_text(re.sub(r"\{([A-Z]+)\}", lambda it: parts[it[1]], (HERE / "page.html").read_text()))


if __name__ == "__main__":
    {"module": compile_module, "page": write_page}[sys.argv[1]](*(Path(it).resolve() for it in sys.argv[2:]))
