#!/usr/bin/env python3
# Brings the repository's own definitions and lemmas to today's spelling: words in snake case, a lemma that would meet its function's name with _lem.
# Usage: respell.py ROOT. Functions, exported names, strings, inputs and outputs keep theirs. Run once, right after the kit's port.py.
"""Names in antt: a word with a dash or in camel case that begins small. It goes through crates/ (specs, proofs, clauses of src, must-fail),
tests/bites, README.md, CONTRIBUTING.md and docs/. A name of a library, as the file imports it, stays; so does a label that Rattle makes,
which in a Proof.antt stands behind a dot or behind 'tie.'. Where two names would fall together, or one would meet a name that a file has
already, the table KEPT says what stands instead."""

import os
import re
import sys

WORD = re.compile(r'[^\s(){}.;,@"«»\[\]]+')
QUIET = re.compile(r'"(?:[^"\\\n]|\\.)*"|(?<![^\s(){}.;,@"«»])--[^\n]*|\{-.*?-\}', re.S)
USE = re.compile(r"(?m)^(?:pub )?use ([^\s{]+?)\.?(\{[^}]*\})?(?: as (\S+))?$")
DECLARED = re.compile(r"(?m)^( *)((?:abbrev |pub |unfoldable |data |record |mutual )*)([^\s(){}.;,:]+)((?: \{[^{}\n]*\}| \([^()\n]*\))*) :")
# labels of a walk, and a field, that port.py took for words of a library: as they were meant
MENDED = {".type_size": ".size-of", ".is_IsWord": ".is-word", ".Home-of": ".home-of", ".Post-is": ".post_is", ".may_write_lem": ".may-write", ".is_not_sound": ".is-not-sound"}
# names of ours that port.py turned, which documents, edits and bites still have
TURNED = set("""
    above-down after-same all-more all-most all-one all-same all-split allBelow and-assoc and-both and-left and-right and-same answer-ok answerOf any-next
    as-said at-done at-each at-flag at-left at-low at-lt at-most at-open at-place at-right at-row at-rows at-side atBoth begun-fresh below-all below-in
    beside-at best-none both-say box-in byte-at bytes-below bytes-drop bytes-same chunkOf close-spec count-at count-kept count-set cut-keeps digits-are
    digits-value each-fits each-in encode-one end-none ended-of entryAt eq-is every-append every-one fill-step filled-none find-spec first-found first-of
    first-on first-some firstOf firstWord fits-each fits-home fits-one fixed-same flag-is flag-same flag-state flags-long found-as fresh-at fresh-kept
    from-at from-is from-low given-is goes-kept goes-on half-pow heard-all held-none held-on held-up here-found holds-after holds-on homeOf in-head in-
    left in-list in-map in-one in-right in-table in-tail inPieces inv-new is-held is-known isNumber keep-spec keeps-on kept-again kept-fine kept-here
    kept-pair kept-result kept-then kept-there keptAt kind-at last-says lastOf le-refl le-trans length-most lengthAt lengthOf line-as line-read lineOf
    lines-none list-same lt-irrefl lt-not lt-to-le lt-trans map-snoc mark-spec mask-fits maskOf merge-of merged-keeps mul-low named-new new-by new-home
    new-row next-more next-multiple nextOf no-more no-name no-room no-step noRows none-below none-first none-from none-kept none-yet not-listed not-so
    nothing-is number-word numberOf on-list one-answer one-below one-line one-more one-of one-post one-value ones-is only-no open-is or-cases or-left or-
    right own-held own-home own-is ownOf part-low part-up parts-at parts-cut pick-true place-is plan-new planOf post-is post-stays postOf push-spec put-
    either-spec put-spec read-is read-step records-is refusal-is rest-of result-says resultOf room-most room-says row-done row-fits row-is row-step rowAt
    rowIn rowOf rows-back rows-end rows-inside rows-short said-same same-length same-or-not same-refl same-test says-at says-nothing seen-none seen-step
    sent-is shape-is sizeOf some-is some-number source-up start-is start-none startOf stateOf step-is step-of step-spec stepOf table-fits table-is table-
    step take-within taken-none then-grows to-at to-end to-is to-same top-from top-one turn-is turn-more turn-spec turn-step turnOf turns-fit two-guards
    upto-step value-spec valueOf vector-ok walk-more walk-step whole-run whole-sent with-row without-on write-read written-as written-both written-none
    zero-same
""".split())
# a word with no dash that would meet the definition of its name, in the files that have it
MET = {
    "box_in": ("box_in_lem", ("rehearsal/proofs/laws/Alone.antt", "rehearsal/proofs/nights/box_at/Proof.antt", "session/proofs/laws/Reading.antt")),
    "on_list": ("on_list_lem", ("steps/proofs/laws/Acting.antt",)),
}
# what a name becomes where the rule would let two fall together; main adds the lemmas that would have their function's name
KEPT = {"plan-sound": "plan_is_sound"}


def is_odd(w):
    return w[:1].islower() and bool(re.search(r"[a-z0-9₀-₉'][A-Z]", w)) or bool(re.search(r"\w-\w", w)) and not w[:1].isupper()


def find_met(root, own, declared):
    """A lemma that would have the name of a definition gets _lem."""
    defined = {spelled(w) for w in declared if re.search(r"[a-z0-9₀-₉'][A-Z]", w)}
    for p in files(root):
        if p.endswith(".antt"):
            with open(p) as f:
                code = code_of(f.read())
            defined |= {m.group(3) for m in DECLARED.finditer(code) if not m.group(1) and not is_odd(m.group(3))}
    for w in declared:
        if "-" in w and w not in KEPT and spelled(w) in defined:
            KEPT[w] = spelled(w) + "_lem"


def spelled(w):
    if w in KEPT:
        return KEPT[w]
    w = re.sub(r"(?<=[a-z0-9₀-₉'])[A-Z]", lambda m: "_" + m[0].lower(), w)
    return re.sub(r"(?<=\w)-(?=\w)", "_", w)


def crates(root):
    with open(os.path.join(root, "crates.txt")) as f:
        return {l.split(":")[0] for l in f if l.strip() and not l.startswith("#")}


def files(root):
    for top in ("crates", "tests/bites", "docs"):
        for folder, dirs, names in os.walk(os.path.join(root, top)):
            dirs[:] = sorted(d for d in dirs if d not in ("out", "target"))
            for n in sorted(names):
                if n.endswith((".antt", ".rt", ".edit", ".harm", ".same", ".md")):
                    yield os.path.join(folder, n)
    for n in ("README.md", "CONTRIBUTING.md"):
        yield os.path.join(root, n)


def code_of(text):
    return QUIET.sub(lambda m: " " * len(m[0]), text)


def from_libraries(code, own):
    theirs = set()
    for path, items, alias in USE.findall(code):
        steps = path.split(".")
        if not (steps[0] == "Rattle" and steps[1] in own):
            theirs.update(WORD.findall(items) if items else [])
            theirs.update([alias] if alias else [])
    return theirs


def declared_names(root, own):
    found = set()
    for p in files(root):
        if p.endswith(".antt"):
            with open(p) as f:
                code = code_of(f.read())
            found |= {m.group(3) for m in DECLARED.finditer(code)}
    return {w for w in found if is_odd(w)}


def turn_antt(text, declared, own, is_walk, functions, met):
    code = code_of(text)
    theirs = from_libraries(code, own)

    def one(m):
        w = m[0]
        if code[m.start():m.end()] != w:
            quoted = text[m.start() - 1:m.start()] == "`"
            return spelled(w) if w in declared and (quoted or "-" not in w) else w
        before = code[max(0, m.start() - 4):m.start()]
        if w in met and not before.endswith("."):
            return met[w]
        if not is_odd(w) or w in theirs:
            return w
        if before == "tie." or re.match(r"(Need|After|At|In|Then|Else|Start)-", w):
            return w
        if before.endswith(".") and (w not in declared or is_walk and re.sub(r"\d+$", "", w.replace("-", "_")) in functions):
            return w
        return spelled(w)

    return WORD.sub(one, text)


def turn_rest(text, declared):
    return re.sub(r"(?<![\w'-])[a-z][\w'₀-₉-]*(?![\w'-])", lambda m: spelled(m[0]) if m[0] in declared and is_odd(m[0]) else m[0], text)


def turn_spans(text, declared):
    # a session has the name of the theorem that computes it, and keeps it
    named = {w for w in declared if w not in ("document-01", "two-common-jobs")}
    return re.sub(r"`[^`/\n]+`", lambda m: turn_rest(m[0], named), text)


def turn_rt(text, declared):
    lines = text.split("\n")
    depth, out = 0, []
    for l in lines:
        if l.startswith("ghost use") or re.match(r"\s*(requires|ensures|ghost)\b", l) or depth:
            head, sign, rest = l.partition("//")
            out.append(turn_rest(head, declared) + sign + rest)
            depth = max(0, depth + l.count("{") - l.count("}")) if not l.startswith("ghost use") else 0
        else:
            head, sign, rest = l.partition("//")
            out.append(head + sign + turn_rest(rest, {w for w in declared | TURNED if "-" not in w}))
    return "\n".join(out)


def main(root):
    own = crates(root)
    declared = declared_names(root, own)
    find_met(root, own, declared)
    functions = set()
    for p in files(root):
        if p.endswith(".rt"):
            with open(p) as f:
                functions.update(re.findall(r"\bfn (\w+)", f.read()))
    for p in files(root):
        with open(p) as f:
            old = f.read()
        text = old
        met = {w: new for w, (new, where) in MET.items() if p.endswith(where)}
        if p.endswith(".antt"):
            for was, meant in MENDED.items():
                text = re.sub(rf"{re.escape(was)}(?![^\s(){{}}.;,])", meant, text)
            text = turn_antt(text, declared, own, p.endswith("/Proof.antt"), functions, met)
        elif p.endswith(".rt"):
            text = turn_rt(text, declared)
        elif p.endswith(".md"):
            text = turn_spans(text, declared | TURNED)
        else:
            text = turn_rest(text, declared | TURNED)
        if text != old:
            with open(p, "w") as f:
                f.write(text)


if __name__ == "__main__":
    main(sys.argv[1])
