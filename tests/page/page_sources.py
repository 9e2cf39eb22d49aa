"""Checks that the functions of the page's module have the contracts of the library for C, that the built page refers to
nothing outside of it, and that it shows the digest of its sources only if dist/PROVED records that they were proved."""

import hashlib
import os
import re

import build
from process import run_with_stderr
from running import read

# The largest size of the built page. Signatures or a list that are built in (page/build.py --signature, --list) make it larger.
MAX_PAGE_BYTES = 130_000
PROOF = "proved as built for 64-bit WebAssembly"


def check_contracts(checks):
    """Checks that each function that the page's module exports has the same contract as the function of the library for C
    with the prefix minisign_ instead of page_: the same parameters, result and clauses, word for word. There is one
    exception: the contracts say with IsListMeaning which text belongs to an error number, and those of the library for C with
    IsCallMeaning, because only that library has the errors of installing. The functions that compute SHA-256 and SHA-512
    digests are only in the page. (`tools/page_contracts.py` copies the contracts. This check does not use it, so that a
    mistake in it is noticed.)"""
    texts = {}
    for crate, prefix in (("minisign_page", "page_"), ("minisign_c", "minisign_")):
        source = build.read(f"crates/{crate}/src/lib.rt")
        exports = re.findall(r'^pub extern "C" fn ' + prefix + r"(\w+)(\(.*?)^\{$", source, re.M | re.S)
        texts[crate] = {name: re.sub(r"\s+", " ", re.sub(r"(?m)^\s*//.*$", "", text)) for name, text in exports}
    names = [name for name in texts["minisign_page"] if re.fullmatch(r"sha(256|512)_(begin|update|digest)", name)]
    checks.same(
        (len(texts["minisign_page"]), len(names)),
        (21, 6),
        "the number of exports of minisign_page, and of those that hash",
    )
    for name, text in texts["minisign_page"].items():
        if name in names:
            checks.check(name not in texts["minisign_c"], f"minisign_{name} is in minisign_c too")
            continue
        for_c = text.replace("IsListMeaning", "IsCallMeaning")
        checks.check(for_c == texts["minisign_c"].get(name),
                     f"page_{name} has another contract than minisign_{name}: {for_c}, and {texts['minisign_c'].get(name)}")


def check_file(checks, page):
    """Checks that the page is one file that refers to nothing else, with a content security policy that allows nothing
    else, that building it again gives the same bytes, and that it names its version and licence."""
    text = read(page).decode()
    outside = re.search(r"https?:|\ssrc=|@import|url\(|<link (?!rel=\"icon\" href=\"data:,\")|\{\{", text)
    checks.check(
        not outside,
        f"the page refers to something outside of it: {outside and text[outside.start():outside.start() + 80]!r}",
    )
    # The quotes matter: the policy allows 'wasm-unsafe-eval', which WebAssembly needs, but not 'unsafe-eval'.
    policy = re.search(r'http-equiv="Content-Security-Policy" content="([^"]*)"', text)[1]
    checks.check(policy.startswith("default-src 'none'; ") and "unsafe-inline" not in policy and "'unsafe-eval'" not in policy
                 and "connect-src" not in policy and policy.endswith("; trusted-types minisign-thread"), f"the policy is {policy}")
    checks.same(len(re.findall("<script", text)), 1, "the number of scripts")
    checks.check(
        build.page(*build.module_of_page(page)) == text,
        "building the page again from its module and the sources gives other bytes",
    )
    for words in (f"Minisign in Rattle {build.version()}, under the MIT License", "Permission is hereby granted"):
        checks.check(words in text, f"the page does not name {words!r}")
    checks.check(len(text.encode()) <= MAX_PAGE_BYTES, f"the page has {len(text.encode())} bytes, allowed are {MAX_PAGE_BYTES}")


def digests_on(text):
    """Returns the digests of sources that a page shows."""
    return re.findall(r"\b[0-9a-f]{64}\b", re.sub(r"(?s)<script>.*</script>", "", text))


def check_digests(checks, path):
    """Checks what the page says about proofs. dist/PROVED records the digests of the module and of the sources that were
    proved (`sums`). If they are those of the page's module and of the sources here (tools/sources.sh prints their digest),
    the page shows the digest of the sources and says that it is proved. With another module, or other sources, it shows no
    digest and does not say so."""
    module, tool = build.module_of_page(path)
    module_sum = hashlib.sha256(module).hexdigest()
    sources_sum = run_with_stderr(["sh", "tools/sources.sh", "page"], build.TOP)[1].strip()
    page = build.page(module, tool, sums=(module_sum, sources_sum))
    checks.check(
        digests_on(page) == [sources_sum] and PROOF in page,
        f"the proved module and sources: the page shows {digests_on(page)}, expected {[sources_sum]}; it says `{PROOF}`: "
        f"{PROOF in page}",
    )
    for other_module, *sums in (
        (module + b"\0", module_sum, sources_sum),
        (module, "0" * 64, sources_sum),
        (module, module_sum, "0" * 64),
        (module, sources_sum, module_sum),
    ):
        page = build.page(other_module, tool, sums=tuple(sums))
        checks.check(
            digests_on(page) == [] and PROOF not in page and "makes no claim about proofs" in page,
            f"a module of {len(other_module)} bytes, with {sums} in dist/PROVED: the page shows {digests_on(page)}, expected none",
        )
    # The real dist/PROVED has the digests of the page in dist/.
    dist_page = os.path.join(build.TOP, "dist", "minisign.html")
    recorded_module_sum, recorded_sources_sum = build.named_sums()
    dist_module_sum = hashlib.sha256(build.module_of_page(dist_page)[0]).hexdigest()
    checks.same(recorded_module_sum, dist_module_sum, "the digest of the module in dist/PROVED")
    checks.same(digests_on(build.read(dist_page)), [recorded_sources_sum], "the digests that the page of dist/ shows")
