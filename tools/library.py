"""The directory of a static library as C programs use it: archive, heap object, header and pkg-config file, and a shared object if cc is
available. It has everything needed to link a program, without any part of the toolchain."""

import os
import re
import shutil
import subprocess

import sources

HEADER = "include/ningkraet.h"

# Compiled for the toolchain's heap: malloc, realloc and free by the names that the library calls. It is all of this archive.
HEAP = "c/liblibc_c.a"
ARCHIVER = "toolchain/bin/llvm-ar"

PKG_CONFIG = """prefix=${{pcfiledir}}/../..
libdir=${{prefix}}/lib
includedir=${{prefix}}/include

Name: {name}
Description: authoritative DNS zones in memory{unproved}
Version: {interface}
Cflags: -I${{includedir}}
Libs: -L${{libdir}} -l{name} -l{name}_heap
"""

# What the header of a library that was compiled without its proofs begins with.
UNPROVED = """/* NOT PROVED: this library was compiled from its sources without their proofs, so what is said below about proofs doesn't
 * apply to it. `./build {name}` proves and builds the other one. */
"""


def installed(name, archive, kit, room, is_proved):
    """Makes the folder in room, which says of an unproved library that it is one, and gives its path."""
    folder = f"{room}/{name}"
    for part in ("lib/pkgconfig", "include"):
        os.makedirs(f"{folder}/{part}")
    shutil.copyfile(archive, f"{folder}/lib/lib{name}.a")
    shutil.copyfile(f"{kit}/{HEAP}", f"{folder}/lib/lib{name}_heap.a")
    header = sources.read(HEADER)
    with open(f"{folder}/include/{os.path.basename(HEADER)}", "w", encoding="utf-8") as it:
        it.write(("" if is_proved else UNPROVED.format(name=name)) + header)
    interface = re.search(r"^#define NK_INTERFACE (\d+)$", header, re.M).group(1)
    with open(f"{folder}/lib/pkgconfig/{name}.pc", "w", encoding="utf-8") as it:
        it.write(PKG_CONFIG.format(name=name, interface=interface, unproved="" if is_proved else ", not proved"))
    if shutil.which("cc"):
        # (not in lib/, where the linker would take it in the place of the archive)
        whole = ["-Wl,--whole-archive", f"{folder}/lib/lib{name}.a", f"{folder}/lib/lib{name}_heap.a", "-Wl,--no-whole-archive"]
        subprocess.run(["cc", "-shared", "-o", f"{folder}/lib{name}.so", *whole], check=False)
    return folder


def flags(folder):
    """What a C compiler is handed for a program that uses the library of such a folder, behind the program's own files."""
    return [f"-I{folder}/include", f"-L{folder}/lib", "-lningkraet", "-lningkraet_heap"]


# ---- a library that is compiled without proofs

# What a parameter of an export is handed by the program that calls each export once, so that none is left out. A handle has the name of
# its parameter, as one call takes two.
WORDS = {
    "Global": "alloc",
    "&mut DatabaseHandle": "&mut {}",
    "&mut AccessHandle": "&mut {}",
    "&mut TransferHandle": "&mut {}",
    "&mut StepsHandle": "&mut {}",
    "&mut UpdatesHandle": "&mut {}",
    "&mut PlannedHandle": "&mut {}",
    "&mut PlanHandle": "&mut {}",
    "&mut FilesHandle": "&mut {}",
    "&Signing": "&how",
    "&SignedZone<'_>": "&signed",
    "&[u8]": "&text",
    "&mut [u8]": "&mut {}",
    "&mut usize": "&mut {}",
    "&mut u32": "&mut {}",
    "&ServerSettings<'_>": "&settings",
    "&ClientMessage<'_>": "&message",
    "&RuleTexts<'_>": "&rule",
    "&mut SummaryNumbers": "&mut summary",
}

PROGRAM = """
use call_handles::Handle;

fn main(rt: HostRuntime) -> std::process::ExitCode {{
    let alloc = rt.alloc();
    let (mut zones, mut other, mut plan) = (DatabaseHandle::empty(alloc), DatabaseHandle::empty(alloc), plan_calls::PlanHandle::empty(alloc));
    let (mut access, mut transfer, mut steps) = (AccessHandle::empty(alloc), TransferHandle::empty(alloc), StepsHandle::empty(alloc));
    let mut files = file_calls::FilesHandle::empty(alloc);
    let (mut updates, mut changed, types) = (UpdatesHandle::empty(alloc), 0u32, [1u16]);
    let how = plan_calls::Signing {{ inception: 0, expiration: 0, jitter: 0, key_ttl: 0, denial: 0, iterations: 0, asks_parent: 0 }};
    let (text, mut buffer, mut written) = ([0u8; 8], [0u8; 8], 0usize);
    let (mut update, mut frame, mut frame_written, mut intact) = (PlannedHandle::empty(alloc), [0u8; 8], 0usize, 0usize);
    let (mut serial, mut number, mut id, mut code) = (0u32, 0u32, 0u32, 0u32);
    let settings = ServerSettings {{ nsid: &text, secrets: &text, cookies_required: 0 }};
    let message = ClientMessage {{ octets: &text, address: &text, moment: 0, limit: 512, transport: 0 }};
    let signed = signed_calls::SignedZone {{ origin: &text, keys: &text, salt: &text, held_from: 0, held_until: 0 }};
    let rule = RuleTexts {{ origin: &text, key: &text, name: &text, types: &types, scope: 0, denies: 0 }};
    let mut summary = SummaryNumbers {{ code: 0, kind: 0, truncated: 0, cookie: 0, origin_labels: 0 }};
    let mut worst = 0u32;
{calls}    std::process::ExitCode::from(worst.min(9) as u8)
}}
"""


def texts(name):
    """The texts of a static library's source and of the modules that it names, by their names."""
    text = sources.read(f"crates/{name}/src/lib.rt")
    return {"lib": text} | {it: sources.read(f"crates/{name}/src/{it}.rt") for it in re.findall(r"^pub mod (\w+);", text, re.M)}


def as_program(name):
    """The sources of a static library as those of a program that calls each of its exports, by the names of their files."""
    files, calls = texts(name), ""
    for file, text in files.items():
        for export, parameters, result in re.findall(r'extern "C" fn (\w+)\(([^)]*)\)( -> u32)?', text):
            named = [it.split(":", 1) for it in parameters.split(",") if it.strip()]
            words = [WORDS.get(kind.strip(), "0").format(name.strip()) for name, kind in named]
            call = f"{'' if file == 'lib' else f'{file}::'}{export}({', '.join(words)})"
            calls += f"    worst = worst.max({call});\n" if result else f"    {call};\n"
    return {"main": files.pop("lib") + PROGRAM.format(calls=calls), **files}


def with_exports(name, module):
    """The text of a program's module with the library's exports under their names in C, and without a main."""
    module = re.sub(rf'^define internal (.*@)"{name}::(?:\w+::)?(nk_\w+)"', r"define \1\2", module, flags=re.M)
    module = re.sub(rf'@"{name}::(?:\w+::)?(nk_\w+)"', r"@\1", module)
    return re.sub(r"^define (\w+ @)main\(", r"define internal \1nk_unused(", module, flags=re.M)
