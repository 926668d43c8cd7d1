#!/usr/bin/env python3
"""Brings the names of this repository's own definitions and lemmas to the spelling of the kit's libraries: words in snake case, types and
modules in camel case, an apostrophe for a prime. Run once, at the top, right behind the kit's own port.

usage: tools/respell.py [--dry]

A name is respelled where a file declares it and no library does: `digitOf` and `total-le` become `digit_of` and `total_le`. Comments keep
their words but for such a name of two parts in capitals or in backquotes; functions and fields of src/ keep their names, for they are in
snake case. Must-fail edits are respelled with the files that they fit. The crate `hex` becomes `hex_digits`, since the kit has a library
of that name.
"""
import glob
import os
import re
import sys

CRATES = sorted(os.listdir('crates'))
MADE = {'hex': 'hex_digits'}
# where a lemma, a field or a constructor would fall together with the definition that it is about
LEMMA = '''all-good all-open ask-at bad-length bad-loop block-count bytes-taken count-rule decided-by deliver-at empty-session empty-slot good-line
good-loop good-stop in-bits in-message in-neither is-decided is-figure is-fresh is-good is-listed is-note is-padded key-block last-part
length-rule line-alone loop-number mac-length mac-line mac-number no-digest no-entry none-listed not-begun note-rule on-note open-ones
put-slot refused-by refused-line remove-part sheet-size sheet-written slot-in-order slot-index state-in-order text-after view-part
with-piece with-slot note-of line-of'''.split()
SPECIAL = {n: n.replace('-', '_') + '_lem' for n in LEMMA} | {'no-mac-line': 'no_mac_line_row', 'other-code': 'other_code_row'}
# the same where the name was in snake case already: files, name, new name
BEFORE = [
    ('crates/{sheet_promises,promises,program_promises,rejected,writing_promises}/**', 'loop_rule', 'loop_rule_lem'),
    ('crates/hash/{specs/Promises,proofs/Proved,proofs/State}.antt', 'in_order', 'in_order_lem'),
    ('crates/mac/{specs/Promises,proofs/Proved}.antt', 'in_order', 'in_order_lem'),
    ('crates/coincide/proofs/Mac.antt', r'codes\.in_order', 'codes.in_order_lem'),
    ('crates/hash/{specs/Promises,proofs/Comparing}.antt', 'wrong_size', 'wrong_size_lem'),
    ('crates/mac/{specs/Promises,proofs/Tables}.antt', 'too_long', 'too_long_row'),
    ('crates/lines/{specs/Promises,proofs/Proved}.antt', 'digit_at', 'digit_at_lem'),
    ('crates/rules/{specs/Promises,proofs/Proved}.antt', 'good_length', 'good_length_lem'),
    ('crates/sheet/{specs/Promises,proofs/Proved}.antt', 'header_at', 'header_at_lem'),
    ('crates/units/proofs/**', 'no_(bits|bytes|frames)', r'no_\1_lem'),
    ('crates/session/proofs/Light.antt', 'one_more', 'one_more_lem'),
    ('crates/padded/**', 'in_buffer', 'in_buffer_lem'),
]

WORD = r"[^\s(){}\[\];,.:\"λ@]+"
TOKEN = re.compile(WORD)
CAMEL = re.compile(r"^[a-z][A-Za-z0-9]*[A-Z][A-Za-z0-9]*['′]*$")
KEBAB = re.compile(r"^[a-z][A-Za-z0-9_]*(-[A-Za-z0-9_]+)+['′]*$")
DECLARED = re.compile(r"^\s*(?:(?:pub|abbrev|unfoldable|pattern|let|mod)\s+)*(" + WORD + r")(?:\s+" + WORD + r")*\s+:")
LET = re.compile(r"\blet\s+(" + WORD + r")\s*[:=]")
BINDER = re.compile(r"[({]((?:" + WORD + r"\s+)*" + WORD + r")\s+:")
LAMBDA = re.compile(r"λ ((?:[^.(){}]|\([^)]*\)|\{[^}]*\})*?)\.(?!\d)")


def snake(name):
    if name in SPECIAL:
        return SPECIAL[name]
    body = name.replace('′', "'")
    if CAMEL.match(name):
        body = re.sub(r"([a-z0-9])([A-Z])", lambda m: m.group(1) + '_' + m.group(2).lower(), body)
        body = re.sub(r"([A-Z])", lambda m: '_' + m.group(1).lower(), body)
    return body.replace('-', '_')


def turned(name):
    """Whether the name is spelled as before: it is respelled if a file declares it."""
    if '→' in name or '≡' in name or '≢' in name:
        return False
    return bool(CAMEL.match(name) or KEBAB.match(name) or '′' in name)


def parts(line):
    at = re.search(r"(?:^|\s)--(?:\s|$)", line)
    return (line, '') if not at else (line[: at.start()], line[at.start() :])


def antt_files():
    return sorted(glob.glob('crates/*/specs/**/*.antt', recursive=True) + glob.glob('crates/*/proofs/**/*.antt', recursive=True))


def is_function_proof(path):
    return os.path.basename(path) in ('Proof.antt', 'Answers.antt', 'Invariants.antt')


def library_names(text):
    out = set()
    for m in re.finditer(r"^(?:ghost )?use ([^\n{;]*)(?:\.\{([^}]*)\})?", text, re.M):
        head = m.group(1).strip()
        own = re.match(r"Rattle\.(\w+)", head)
        if own and own.group(1) in CRATES:
            continue
        for n in (m.group(2) or '').split(','):
            n = n.strip().split(' as ')[0].strip()
            if n:
                out.add(n)
    return out


def declared():
    names = {}
    for p in antt_files():
        with open(p) as f:
            text = f.read()
        lib = library_names(text)
        for line in text.split('\n'):
            code, _ = parts(line)
            if ': tie.Need' in code:
                continue
            if code.startswith('use '):
                for m in re.finditer(r"\bas (" + WORD + ")", code):
                    if turned(m.group(1)):
                        names.setdefault(m.group(1), set()).add(p)
                continue
            found = []
            m = DECLARED.match(code)
            if m:
                found += re.findall(WORD, code[: m.end()])
            found += LET.findall(code)
            for b in BINDER.findall(code):
                found += b.split()
            for b in LAMBDA.findall(code):
                found += re.findall(WORD, b)
            # a clause of a definition: its name and what its patterns bind
            c = re.match(r"^\s*(" + WORD + r")((?:\s+(?:" + WORD + r"|\([^=]*\)|\{[^=]*\}))*)\s+=(?:\s|$)", code)
            if c:
                found += re.findall(WORD, c.group(0))
            for n in found:
                if turned(n) and n not in lib:
                    names.setdefault(n, set()).add(p)
    return names


def before():
    for where, name, new in BEFORE:
        braces = re.search(r"\{(.*)\}", where)
        for one in braces.group(1).split(',') if braces else ['']:
            path = where if not braces else where.replace(braces.group(0), one)
            for p in glob.glob(path, recursive=True):
                if p.endswith('.antt'):
                    t = open(p).read()
                    new_t = re.sub(rf"(?<!proofs\.)(?<![\w'-]){name}(?![\w'-])", new, t)
                    if new_t != t:
                        open(p, 'w').write(new_t)


def respell_line(code, names, lib, proof=False):
    def one(m):
        n = m.group(0)
        # a step of a generated proof is called as the function is
        if proof and n in LEMMA and code[: m.start()].endswith('.'):
            return n.replace('-', '_')
        return snake(n) if n in names and n not in lib else n

    # a need of the old generated proofs keeps its name until its file is written anew
    kept = []

    def hold(m):
        kept.append(m.group(0))
        return f"\0{len(kept) - 1}\0"

    code = re.sub(r"tie\.Need-[\w′'-]+", hold, code)
    code = re.sub(r'"[^"]*"', hold, code)
    code = TOKEN.sub(one, code)
    return re.sub(r"\0(\d+)\0", lambda m: kept[int(m.group(1))], code)


def comment(text, names):
    def one(m):
        n = m.group(0)
        return snake(n) if n in names and CAMEL.match(n) else n

    text = TOKEN.sub(one, text)
    return re.sub(r"`([^`]*)`", lambda m: '`' + TOKEN.sub(lambda k: snake(k.group(0)) if k.group(0) in names else k.group(0), m.group(1)) + '`', text)


def crates_of(text):
    for old, new in MADE.items():
        text = re.sub(rf"\bRattle\.{old}\b", f"Rattle.{new}", text)
        text = re.sub(rf"\b(use |crate ){old}(::|;)", rf"\g<1>{new}\2", text)
        text = re.sub(rf"(?<![\w.:]){old}::", f"{new}::", text)
    return text


def main():
    if '--dry' not in sys.argv:
        before()
    names = declared()
    after = {}
    for n in names:
        after.setdefault(snake(n), set()).add(n)
    for new, olds in sorted(after.items()):
        if len(olds) > 1:
            print('together:', new, {o: sorted(names[o])[:4] for o in olds})
    texts = {p: open(p).read() for p in antt_files()}
    # a name that stands already in a file where another is respelled to it
    for p, t in texts.items():
        tokens = set()
        for line in t.split('\n'):
            tokens |= set(TOKEN.findall(parts(line)[0]))
        for n in tokens & set(names):
            if snake(n) in tokens:
                print('meets:', p, n, '->', snake(n))
    if '--dry' in sys.argv:
        print(len(names))
        return
    for p, t in texts.items():
        lib = library_names(t)
        out = []
        for line in t.split('\n'):
            code, said = parts(line)
            out.append(respell_line(code, names, lib, is_function_proof(p)) + comment(said, names))
        new = crates_of('\n'.join(out))
        if new != t:
            open(p, 'w').write(new)
    for p in sorted(glob.glob('crates/*/src/**/*.rt', recursive=True)):
        t = open(p).read()
        lib = library_names(t)
        out = []
        for line in t.split('\n'):
            at = line.find('//')
            code, said = (line, '') if at < 0 else (line[:at], line[at:])
            ghost = code.startswith('ghost use') or re.search(r"[≡×⊎→]|\b(ensures|requires)\b", code)
            own = names if ghost else {n for n in names if CAMEL.match(n)}
            out.append(respell_line(code, own, lib) + comment(said, names))
        new = crates_of('\n'.join(out))
        if new != t:
            open(p, 'w').write(new)
    for p in sorted(glob.glob('crates/*/must-fail/*.edit')):
        t = open(p).read()
        out = []
        antt = False
        for line in t.split('\n'):
            if line.startswith('file: '):
                antt = line.endswith('.antt')
            m = re.match(r"^(old: |new: )(.*)$", line)
            if m:
                text = m.group(2)
                ghost = antt or text.startswith('ghost use') or re.search(r"[≡×⊎→]|\b(ensures|requires)\b", text)
                own = names if ghost else {n for n in names if CAMEL.match(n)}
                line = m.group(1) + crates_of(respell_line(text, own, set()))
            out.append(line)
        new = '\n'.join(out)
        if new != t:
            open(p, 'w').write(new)
    t = open('crates.txt').read()
    new = t
    for old, made in MADE.items():
        new = re.sub(rf"(?m)^{old}:", f"{made}:", new)
        new = '\n'.join(l if l.startswith('#') or ':' not in l else l.split(':', 1)[0] + ':' + re.sub(rf"(?<=\s){old}(?=\s|$)", made, l.split(':', 1)[1]) for l in new.split('\n'))
        if os.path.isdir(f'crates/{old}'):
            os.rename(f'crates/{old}', f'crates/{made}')
    if new != t:
        open('crates.txt', 'w').write(new)


main()
