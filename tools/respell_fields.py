#!/usr/bin/env python3
"""respell_fields.py: fields that respell.py called X_lem, as if they were lemmas, are called X again. Run once, at the top."""
import os, re
def files():
    for d, ds, fs in os.walk('crates'):
        ds[:] = sorted(x for x in ds if x != 'out')
        for f in sorted(fs):
            if f.endswith('.antt'): yield os.path.join(d, f)
fields = set(); other = set()
for p in files():
    L = open(p, encoding='utf8').read().split('\n')
    for i, l in enumerate(L):
        m = re.match(r"^(\s*)(?:pub |abbrev |unfoldable )*(\w+_lem)((?: \w+)*) : ", l)
        if not m: continue
        ind = len(m.group(1)); head = ''
        for k in range(i - 1, -1, -1):
            if L[k].strip() and not L[k].lstrip().startswith('--') and len(L[k]) - len(L[k].lstrip()) < ind: head = L[k].strip(); break
        (fields if re.match(r"(pub )?record\b", head) and ind else other).add((m.group(2), p, i + 1))
fn = {f for f, _, _ in fields}
print('fields', sorted(fields)); print('also lemmas', sorted(o for o in other if o[0] in fn))
decl = {(p, i) for _, p, i in fields}
for p in files():
    L = open(p, encoding='utf8').read().split('\n'); new = []
    for i, l in enumerate(L):
        if (p, i + 1) in decl: l = re.sub(r"\b(\w+)_lem\b", r"\1", l, 1)
        l = re.sub(r"\.(\w+)_lem\b", lambda m: '.' + m.group(1) if m.group(1) + '_lem' in fn else m.group(0), l)
        l = re.sub(r"((?:record \{|;|^)\s*)(\w+)_lem =", lambda m: m.group(1) + m.group(2) + ' =' if m.group(2) + '_lem' in fn and (m.group(1).strip() or l.startswith('      ')) else m.group(0), l)
        new.append(l)
    if new != L: open(p, 'w', encoding='utf8').write('\n'.join(new)); print(p)
