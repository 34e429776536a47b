#!/usr/bin/env python3
"""Prints the two lists at the end of docs/DESIGN-PASS.md: what reads otherwise in one tree than in another, old and new side by side.

    git worktree add /some/folder COMMIT
    python3 tools/oldnew.py /some/folder .

First public functions with their clauses, public types and constants, then definitions (whole) and statements of lemmas and theorems, with the
parameters of their section where these differ. It reads the text: what only moved within its crate is not listed, and helpers behind a `where` are not read.
"""
import re, sys, pathlib, collections
OLD, NEW = map(pathlib.Path, sys.argv[1:3])
order = [l.split(':')[0].split()[0] for l in (NEW/'crates.txt').read_text().splitlines() if l.strip() and not l.startswith('#')]

def strip_comments(t):
    return re.sub(r"[ \t]*//[^\n]*", "", t)

def balanced(t, i, o, c):
    d = 0
    while i < len(t):
        if t[i] == o: d += 1
        elif t[i] == c:
            d -= 1
            if d == 0: return i + 1
        i += 1
    return i

def rt_items(path):
    """public functions with clauses, public types, consts of a source file"""
    t = strip_comments(path.read_text())
    out = {}
    # impl contexts
    ctx = []
    for m in re.finditer(r"^impl\b([^{]*)\{", t, re.M):
        e = balanced(t, m.end()-1, '{', '}')
        ctx.append((m.start(), e, re.sub(r"\s+", " ", m.group(1)).strip()))
    for m in re.finditer(r"^pub trait (\w+)[^{]*\{", t, re.M):
        e = balanced(t, m.end()-1, '{', '}')
        out[('type', m.group(1))] = re.sub(r"\n\s*\n", "\n", t[m.start():e]).rstrip()
        ctx.append((m.start(), e, 'trait ' + m.group(1)))
    def context(i):
        for s, e, n in ctx:
            if s < i < e: return n
        return None
    for m in re.finditer(r"^([ ]*)(pub |)((?:unsafe )?(?:extern \"C\" )?)fn (\w+)", t, re.M):
        c = context(m.start())
        intrait = c and (c.startswith('trait ') or ' for ' in c)
        if not m.group(2) and not intrait: continue
        # body start: find '{' that begins a line-end and not clause
        i = t.index('(', m.end())
        i = balanced(t, i, '(', ')')
        # past return type & clauses
        while True:
            mm = re.compile(r"\s*(requires|ensures)\s*(\w*)\s*\{").match(t, i)
            if mm:
                i = balanced(t, mm.end()-1, '{', '}'); continue
            nxt = re.compile(r"[^{;]*?(?=\s*(?:requires\b|ensures\b|\{|;))", re.S).match(t, i)
            if nxt and nxt.end() > i and nxt.group(0).strip():
                i = nxt.end(); continue
            break
        sig = t[m.start():i].rstrip()
        ind = m.group(1)
        sig = "\n".join(l[len(ind):] if l.startswith(ind) else l for l in sig.split("\n"))
        name = path.stem
        sub = path.relative_to(path.parents[0])
        mod = '' if path.stem in ('lib', 'main') else path.stem
        full = "::".join(x for x in (mod, re.sub(r".* for ", "", c).split('<')[0] if c and not c.startswith('trait ') and ' for ' not in c else (c if c else ''), m.group(4)) if x)
        out[('fn', full)] = sig
    for m in re.finditer(r"^((?:#\[[^\n]*\]\n)*)pub (struct|enum|type|const|static) (\w+)", t, re.M):
        kind = m.group(2)
        if kind in ('struct', 'enum'):
            j = min([x for x in (t.find('{', m.end()), t.find(';', m.end())) if x >= 0])
            e = balanced(t, j, '{', '}') if t[j] == '{' else j + 1
        else:
            e = t.index(';', m.end()) + 1
            if kind == 'const' or kind == 'static':
                br = t.find('[', m.end())
                depth = 0; k = m.end()
                while k < len(t):
                    if t[k] in '[{(': depth += 1
                    if t[k] in ']})': depth -= 1
                    if t[k] == ';' and depth == 0: break
                    k += 1
                e = k + 1
        body = re.sub(r"\n\s*\n", "\n", t[m.start():e])
        out[('type' if kind not in ('const', 'static') else 'const', m.group(3))] = body
    return out

def norm(s): return re.sub(r"[\s,]+", "", s)

def crate_rt(tree, c):
    out = {}
    for p in sorted((tree/'crates'/c/'src').glob('**/*.rt')):
        out.update(rt_items(p))
    return out

ITEM = re.compile(r"^( *)((?:(?:abbrev|unfoldable|pub|record|data|private|irreducible|ruleset) )*)([^\s:(){}]+)(.*)$")
def antt_items(path):
    lines = path.read_text().split("\n")
    out = collections.OrderedDict()
    i = 0; mods = []
    n = len(lines)
    def starts(l, ind=None):
        if not l.strip() or l.strip().startswith('--'): return None
        m = re.match(r"^( *)((?:(?:abbrev|unfoldable|pub|private) )*)(record|data|ruleset) (\S+)", l)
        if m: return (len(m.group(1)), m.group(2) + m.group(3), m.group(4))
        m = re.match(r"^( *)((?:(?:abbrev|unfoldable|pub|private) )*)([^\s(){}]+) : ", l + ' ')
        if m and m.group(3) not in ('use', 'module', 'let', 'where', 'unfolding'): return (len(m.group(1)), m.group(2).strip(), m.group(3))
        return None
    while i < n:
        l = lines[i]
        m = re.match(r"^( *)(pub )?module _ (.*)$", l)
        if m:
            ind = len(m.group(1)); j = i; txt = l.strip()
            while not txt.rstrip().endswith('where'):
                j += 1; txt += ' ' + lines[j].strip()
            mods = [x for x in mods if x[0] < ind] + [(ind, re.sub(r"^(pub )?module _ | where$", "", txt))]
            i = j + 1; continue
        s = starts(l)
        if s:
            ind, kind, name = s
            mods = [x for x in mods if x[0] < ind]
            allowed = (mods[-1][0] + 2) if mods else 0
            if ind != allowed:
                i += 1; continue
            j = i + 1
            while j < n:
                x = lines[j]
                if x.strip() and not x.startswith(' ' * (ind + 1)):
                    # a clause of the same item, or a new thing
                    st = x.strip()
                    y = starts(x)
                    if y and y[0] <= ind and y[2] != name: break
                    if y and y[0] == ind and y[2] == name: break
                    if re.match(r"^( *)(pub )?(module|use|mod|unfoldable pub use|pub use)\b", x): break
                    if st.startswith('--'): break
                    if len(x) - len(x.lstrip()) < ind: break
                j += 1
            block = [b for b in lines[i:j]]
            while block and not block[-1].strip(): block.pop()
            definition = 'abbrev' in kind or 'unfoldable' in kind or 'record' in kind or 'data' in kind
            if not definition:
                st = []
                for k, b in enumerate(block):
                    if k and b.strip() and (len(b) - len(b.lstrip())) == ind: break
                    st.append(b)
                block = st
            block = [re.sub(r"\s+--.*$", "", b) for b in block if not b.strip().startswith('--')]
            text = "\n".join(b[ind:] if len(b) >= ind else b for b in block if b.strip())
            out[name] = (text, " ".join(x[1] for x in mods))
            i = j; continue
        i += 1
    return out

def crate_antt(tree, c):
    out = collections.OrderedDict()
    base = tree/'crates'/c
    for p in sorted(base.glob('specs/**/*.antt')) + sorted(base.glob('proofs/**/*.antt')):
        rel = str(p.relative_to(base))
        if re.search(r"/(Answers|Invariants|Proof)\.antt$", rel) or rel.endswith('Lib.antt'): continue
        for k, v in antt_items(p).items():
            out[(rel[:-5], k)] = v
    return out

def show(tag, text):
    lines = text.split("\n")
    return f"{tag}: " + lines[0] + "".join("\n     " + l for l in lines[1:])

src, defs, gone_defs = [], [], []
for c in order:
    if not (OLD/'crates'/c).exists() and not (NEW/'crates'/c).exists(): continue
    a = crate_rt(OLD, c) if (OLD/'crates'/c).exists() else {}
    b = crate_rt(NEW, c) if (NEW/'crates'/c).exists() else {}
    rows = []
    for k in sorted(set(a) | set(b), key=lambda k: ({'type': 0, 'const': 1, 'fn': 2}[k[0]], k[1])):
        x, y = a.get(k), b.get(k)
        if x and y and norm(x) == norm(y): continue
        if not x and k[0] == 'const': continue
        label = f"type {k[1]}" if k[0] == 'type' else f"const {k[1]}" if k[0] == 'const' else k[1]
        rows.append(f"**`{label}`**\n\n```\n{show('old', x or 'not there')}\n{show('new', y or 'not there')}\n```\n")
    if rows: src.append(f"### {c}\n\n" + "\n".join(rows))
    a = crate_antt(OLD, c); b = crate_antt(NEW, c)
    bynm = collections.defaultdict(list)
    for (f, nme), v in b.items(): bynm[nme].append((f, v))
    rows = []
    for (f, nme), (x, xm) in a.items():
        hit = b.get((f, nme)); where = f
        if not hit:
            cand = [z for z in bynm[nme] if (z[0], nme) not in a]
            if cand: where, hit = cand[0]
        if not hit:
            rows.append(f"**`{f}: {nme}`** gone\n\n```\n{show('old', x)}\n```\n"); gone_defs.append((c, f, nme)); continue
        y, ym = hit
        if norm(x) == norm(y) and norm(xm) == norm(ym): continue
        ox = x if norm(xm) == norm(ym) else (f"[{xm}] " if xm else "") + x
        oy = y if norm(xm) == norm(ym) else (f"[{ym}] " if ym else "") + y
        moved = f" (now `{where}`)" if where != f else ""
        rows.append(f"**`{f}: {nme}`**{moved}\n\n```\n{show('old', ox)}\n{show('new', oy)}\n```\n")
    if rows: defs.append(f"### {c}\n\n" + "\n".join(rows))

print("## Old and new: sources\n")
print("Each public function whose signature or clauses read otherwise, and each public type and constant, crate by crate. What only moved is not listed.\n")
print("\n".join(src))
print("## Old and new: definitions and theorems\n")
print("Each definition, whole, and each statement of a theorem or lemma that reads otherwise, with the parameters of its section where these do. Where only the names of an answer, a limit, a step or an outcome changed, the meaning is the same case by case: the table above says\nwhich case became which. New ones are not listed.\n")
print("\n".join(defs))
for g in gone_defs: print("GONE", *g, file=sys.stderr)
