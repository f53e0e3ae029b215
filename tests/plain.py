"""The crates' sources as plain Rust, without what only a proof reads: contracts (`requires`, `ensures`), ghost imports, fields and members, `impl Model` blocks with their import, the
attributes `tactic` and `cycle`, and `Drop` among the derives. All else stays as it is written, the other derives too. Of the kit's libraries those that crates.txt names are made plain
likewise, from the kit's sources. A crate of definitions and theorems alone has no plain form."""
import re
import kit

CLAUSE = re.compile(r'^[ \t]*(requires|ensures)\b[^{}\n]*\{', re.M)
GHOST = re.compile(r'^[ \t]*(pub(\([a-z]+\))? )?ghost ', re.M)
MODEL = re.compile(r'^impl(<[^\n]*>)? Model for [^{]*\{', re.M)
LINE = re.compile(r'^(use std::marker::Model;|[ \t]*#!?\[(tactic|cycle)\([^\n]*\)\])\n', re.M)
DERIVES = re.compile(r'^([ \t]*)#\[derive\(([^)]*)\)\]\n', re.M)
REMARKS = re.compile(r'//[^\n]*|#!?\[[^\n]*\]')


def behind(text, at, ends):
    """the place behind the first of these characters, from a place on, that stands in no brace opened there"""
    depth = 0
    for i in range(at, len(text)):
        depth += {'{': 1, '}': -1}.get(text[i], 0)
        if depth == 0 and text[i] in ends:
            return i + 1
    raise ValueError(f'no {ends} behind: {text[at:at + 60]}')


def without(text, pattern, ends):
    """a text without each match of the pattern and what follows it up to the first of these characters that stands in no brace opened there"""
    parts, at = [], 0
    while (m := pattern.search(text, at)) is not None:
        parts.append(text[at:m.start()])
        at = behind(text, m.end() - 1, ends)
        at += text.startswith('\n', at)
    return ''.join(parts) + text[at:]


def derives(m):
    """the derives of a struct or an enum but `Drop`, which Rust has not"""
    kept = [d for d in re.split(r',\s*', m[2]) if d != 'Drop']
    return f'{m[1]}#[derive({", ".join(kept)})]\n' if kept else ''


def plain(text):
    text = without(text, MODEL, '}')
    text = without(text, CLAUSE, '}')
    text = without(text, GHOST, ';,')
    return DERIVES.sub(derives, LINE.sub('', text))


def crates(names):
    """those of these crates, of all below them and of the kit's libraries they name that have code, lowest first, each with its files as plain Rust"""
    found = {}
    for crate in kit.below(names):
        for c in [*kit.libraries(crate), crate]:
            files = {f.stem: plain(f.read_text()) for f in sorted(kit.source(c).glob('*.rt'))}
            if any(REMARKS.sub('', text).strip() for text in files.values()):
                found[c] = files
    return found
