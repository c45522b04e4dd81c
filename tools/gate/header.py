#!/usr/bin/env python3
"""Checks that include/ningkraet.h declares what the static library has: the same names, in the same order, with as many parameters of the
same kinds, structs with the same fields, the same codes and kinds with the same numbers, and the same interface number. If cc is available, the header is also compiled as C
and as C++. Prints what differs, and then ends with status 1."""
import os
import re
import shutil
import subprocess
import sys

sys.dont_write_bytecode = True
sys.path.append(os.path.dirname(os.path.dirname(os.path.realpath(__file__))))

import library
import sources

EXPORTS = "\n".join(library.texts("ningkraet").values())
HEADER, CODES = "include/ningkraet.h", "crates/zone_database/src/outcome.rt"
# The files of the codes that calls on plans, transfers, updates and their journals have besides, and those of how a zone is to be signed, and of rules.
PLAN_CODES, TRANSFER_CODES, SIGNING = "crates/plan_calls/src/outcome.rt", "crates/transfer_calls/src/outcome.rt", "crates/plan_calls/src/signing.rt"
SIGNED_ZONE = "crates/signed_calls/src/signed_zone.rt"
UPDATE_CODES, RULES, JOURNAL_CODES = "crates/update_calls/src/outcome.rt", "crates/update_calls/src/rules.rt", "crates/journal_calls/src/outcome.rt"
# Those of calls about files, and why a file can't be read.
FILE_CODES, LACKS = "crates/file_calls/src/outcome.rt", {"Absent": "FILE", "Folder": "FOLDER", "Stream": "STREAM", "Denied": "PERMISSION", "Unreadable": "OTHER"}
CLIENT, SUMMARY = "crates/arrival_calls/src/client.rt", "crates/arrival_calls/src/summary_numbers.rt"

# What a parameter is in C. The allocator is none there, since it takes no octets.
KINDS = {
    "Global": [],
    "&mut DatabaseHandle": ["nk_zones *"],
    "&mut AccessHandle": ["nk_access *"],
    "&mut TransferHandle": ["nk_transfer *"],
    "&mut StepsHandle": ["nk_steps *"],
    "&mut UpdatesHandle": ["nk_updates *"],
    "&mut PlannedHandle": ["nk_update *"],
    "&RuleTexts<'_>": ["const nk_rule *"],
    "&[u16]": ["const uint16_t *", "size_t"],
    "&mut PlanHandle": ["nk_plan *"],
    "&mut FilesHandle": ["nk_files *"],
    "&Signing": ["const nk_signing *"],
    "&SignedZone<'_>": ["const nk_signed_zone *"],
    "&[u8]": ["const uint8_t *", "size_t"],
    "&mut [u8]": ["uint8_t *", "size_t"],
    "&mut usize": ["size_t *"],
    "&mut u32": ["uint32_t *"],
    "&ServerSettings<'_>": ["const nk_settings *"],
    "&ClientMessage<'_>": ["const nk_message *"],
    "&mut SummaryNumbers": ["nk_summary *"],
    "usize": ["size_t"],
    "u32": ["uint32_t"],
    "u64": ["uint64_t"],
}


def exported():
    """The exports: what each gives and takes, as C sees it."""
    found = {}
    for name, parameters, result in re.findall(r'extern "C" fn (\w+)\(([^)]*)\)(?: -> (\w+))?', EXPORTS):
        kinds = [it.split(":", 1)[1].strip() for it in parameters.split(",") if it.strip()]
        found[name] = (KINDS[result][0] if result else "void", [it for kind in kinds for it in KINDS[kind]])
    return found


def declared(text):
    """The functions of the header: what each gives and takes."""
    found = {}
    for result, name, parameters in re.findall(r"^(\w+) (nk_\w+)\(([^)]*)\);", text, re.M):
        parameters = [] if parameters == "void" else parameters.split(",")
        found[name] = (result, [re.sub(r"\w+$", "", " ".join(it.split())).strip() for it in parameters])
    return found


def in_capitals(name):
    """The name of a variant in C."""
    return "NK" + re.sub(r"([A-Z])", r"_\1", name).upper()


def told():
    """The codes of the library by their names in C."""
    codes = [it for file in (CODES, TRANSFER_CODES, UPDATE_CODES, JOURNAL_CODES, FILE_CODES) for it in re.findall(r"Outcome::(\w+) => (\d+),", sources.read(file))]
    of_plans = re.findall(r"^const (\w+): u32 = (\d+);", sources.read(PLAN_CODES), re.M)
    return {in_capitals(name): int(code) for name, code in codes} | {f"NK_{name}": int(code) for name, code in of_plans}


# The structs that calls take: the name in C, the file and the name in Rattle.
STRUCTS = [("nk_settings", CLIENT, "ServerSettings"), ("nk_message", CLIENT, "ClientMessage"), ("nk_summary", SUMMARY, "SummaryNumbers"), ("nk_signing", SIGNING, "Signing"), ("nk_rule", RULES, "RuleTexts"), ("nk_signed_zone", SIGNED_ZONE, "SignedZone")]


def fields(text, in_c, file, name):
    """The fields of a struct in the header, and as the library has them."""
    body = re.search(r"typedef struct " + in_c + r" \{\n(.*?)\n\}", text, re.S).group(1)
    body = re.sub(r"/\*.*?\*/", "", body)
    there = [(kind.strip(), field) for kind, field in re.findall(r"([\w *]+?)(\w+);", body)]
    source = re.search(r"#\[repr\(C\)\]\n#\[[^\n]*\n?pub struct " + name + r"(?:<'a>)? \{\n(.*?)\n\}", sources.read(file), re.S).group(1)
    here = []
    for field, kind in re.findall(r"pub (\w+): (.*),", source):
        kinds = KINDS[kind.replace("&'a ", "&")]
        here += list(zip(kinds, [field, f"{field}_length"]))
    return there, here


def numbered(text, file, kind, prefix):
    """The numbers of an enum in the header, by the function that numbers it, and as the library has them."""
    here = {prefix(name): int(number) for name, number in re.findall(kind + r"::(\w+) => (\d+),", sources.read(file))}
    there = {name: int(number) for name, number in re.findall(r"(NK_\w+) = (\d+)", text) if name in here}
    return there, here


def differences(text):
    exports, functions = exported(), declared(text)
    if list(exports) != list(functions):
        yield f"the header has {', '.join(functions)}, and the library {', '.join(exports)}"
    for name in exports:
        if functions.get(name, exports[name]) != exports[name]:
            yield f"{name} gives and takes {functions[name]} in the header, and {exports[name]} in the library"
    codes = re.search(r"enum \{\n    NK_DONE(?:.|\n)*?\n\};", text).group()
    numbers = {name: int(code) for name, code in re.findall(r"(NK_\w+) = (\d+)", codes)}
    if numbers != told():
        yield f"the header has the codes {numbers}, and the library {told()}"
    for in_c, file, name in STRUCTS:
        there, here = fields(text, in_c, file, name)
        if there != here:
            yield f"{in_c} has the fields {there} in the header, and {here} in the library"
    for kind, prefix in (("ResponseKind", in_capitals), ("CookieState", lambda name: f"NK_COOKIE_{name.upper()}")):
        there, here = numbered(text, SUMMARY, kind, prefix)
        if there != here:
            yield f"the header has the numbers {there}, and the library {here}"
    here = {f"NK_LACKS_{LACKS[name]}": number for number, name in enumerate(re.findall(r"(?:\d+|_) => Lack::(\w+),", sources.read(FILE_CODES)))}
    there = {name: int(number) for name, number in re.findall(r"(NK_LACKS_\w+) = (\d+)", text)}
    if there != here:
        yield f"the header has the numbers {there}, and the library {here}"
    interface = re.search(r"^#define NK_INTERFACE (\d+)$", text, re.M).group(1)
    if not re.search(r"fn nk_interface\(\) -> u32\n    ensures \{ result ≡ " + interface + r" \}", EXPORTS):
        yield f"NK_INTERFACE is {interface} in the header, and another in the library"


def compiled():
    """What a compiler says of the header, as C and as C++, where there is one."""
    for language in ("c", "c++") if shutil.which("cc") else ():
        words = ["cc", "-x", language, "-Wall", "-Wextra", "-Werror", "-pedantic", "-fsyntax-only", "-"]
        use = f'#include "{sources.TOP}/{HEADER}"\nint main(void) {{ nk_zones zones = NK_ZONES_NONE; nk_zones_free(&zones); return 0; }}\n'
        ran = subprocess.run(words, input=use, text=True, stderr=subprocess.PIPE)
        if ran.returncode and "error trying to exec" not in ran.stderr:
            yield f"as {language}: {ran.stderr.strip()}"


def main():
    text = sources.read(HEADER)
    faults = [*differences(text), *compiled()]
    for fault in faults:
        print(f"header: {fault}", file=sys.stderr)
    return 1 if faults else 0


if __name__ == "__main__":
    sys.exit(main())
