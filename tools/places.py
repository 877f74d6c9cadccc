#!/usr/bin/env python3
"""Places that docs/DESIGN-PASS.md counts, found in crates/*/src: at the top of the checkout

    tools/places.py fns | twins | facts | params | arms | ens

fns: the functions; twins: bodies alike but for names and numbers (point 2); facts: conjuncts of `requires` in two functions or more, ens: terms
of `ensures` (point 5); params: parameters that stand together in three functions or more (points 5 and 6); arms: matches with equal arms (point 4)."""
import collections
import difflib
import glob
import itertools
import re
import sys

FN = re.compile(r'^(\s*)(?:#\[.*\]\s*)?(?:pub )?(?:extern "C" )?fn (\w+)(?:<[^>]*>)?\(')


def fns():
    """crate, name, line, head, body and first line of each function"""
    out = []
    for f in sorted(glob.glob('crates/*/src/*.rt')):
        c = f.split('/')[1]
        L = open(f).read().split('\n')
        i = 0
        while i < len(L):
            m = FN.match(L[i])
            if m:
                end = m.group(1)
                j, head = i, []
                while L[j].rstrip() != end + '{' and not re.search(r'[)\w>] \{$', L[j]):
                    head.append(L[j])
                    j += 1
                if L[j].rstrip() != end + '{':
                    head.append(L[j].rstrip()[:-1])
                k, body = j + 1, []
                while L[k] != end + '}':
                    body.append(L[k])
                    k += 1
                out.append((c, m.group(2), i + 1, '\n'.join(head), '\n'.join(body), L[i]))
                i = k
            i += 1
    return out


def twins():
    KW=set('if else while let mut return match fn pub for in as true false continue break const'.split())
    def toks(s):
        s=re.sub(r'//.*','',s); s=re.sub(r'b"(\\.|[^"])*"','0',s)
        return re.findall(r"[A-Za-z_][A-Za-z0-9_]*|\d[\d_]*(?:u8|u32)?|[^\sA-Za-z0-9_]",s)
    def skel(s):
        o=[]
        for t in toks(s):
            if t in KW:o.append(t)
            elif re.match(r'[A-Za-z_]',t):o.append('x')
            elif re.match(r'\d',t):o.append('0')
            elif t==',' : o.append(',')
            else:o.append(t)
        return o
    F=fns()
    G=collections.defaultdict(list)
    S={}
    for c,n,l,h,b,sig in F:
        k=' '.join(skel(b)); G[k].append(f'{c}::{n}'); S[f'{c}::{n}']=skel(b)
    print('== same skeleton')
    for k,v in sorted(G.items(),key=lambda x:-len(x[0])):
        if len(v)>1: print(len(k.split()),v)
    print('== ratio >= .88, not the same')
    names=list(S)
    for i in range(len(names)):
        for j in range(i+1,len(names)):
            a,b=S[names[i]],S[names[j]]
            if a==b or min(len(a),len(b))<12: continue
            if min(len(a),len(b))/max(len(a),len(b))<.7: continue
            m=difflib.SequenceMatcher(None,a,b,autojunk=False)
            if m.quick_ratio()<.88: continue
            r=m.ratio()
            if r>=.88: print(round(r,2),len(a),names[i],names[j])


def facts():
    F=fns()
    # facts: conjuncts of requires/ensures
    def split(s):
        out=[];d=0;cur=''
        for ch in s:
            if ch in '([': d+=1
            if ch in ')]': d-=1
            if ch=='×' and d==0: out.append(cur);cur='';continue
            cur+=ch
        out.append(cur); r=[]
        for x in out:
            x=x.strip()
            while x.startswith('(') and x.endswith(')'):
                d=0;ok=True
                for i,ch in enumerate(x):
                    if ch=='(':d+=1
                    if ch==')':
                        d-=1
                        if d==0 and i<len(x)-1: ok=False;break
                if not ok:break
                x=x[1:-1].strip()
            if '×' in x and x!=s:
                y=split(x)
                if len(y)>1: r+=y; continue
            r.append(x)
        return r
    C=collections.defaultdict(set); CN=collections.defaultdict(set)
    for c,n,l,h,b,sig in F:
        for kind,body in re.findall(r'(requires|ensures)(?:\s+\w+)?\s*\{(.*?)\}(?=\s*(?:\n|$))',h,re.S):
            if kind!='requires': continue
            for x in split(re.sub(r'\s+',' ',body)):
                y=re.sub(r'\.(now|old|new|entry)\b','',x)
                C[y].add(f'{c}::{n}')
    print('== requires conjuncts in >=2 functions')
    for k,v in sorted(C.items(),key=lambda x:-len(x[1])):
        if len(v)>=2: print(len(v),k,'|',' '.join(sorted(v)))


def params():
    F=fns()
    P={}
    for c,n,l,h,b,sig in F:
        s=re.sub(r'\s+',' ',h)
        m=re.search(r'fn \w+(?:<[^>]*>)?\((.*?)\)\s*(?:->|requires|ensures|$)',s)
        ps=[p.strip() for p in m.group(1).split(',') if ':' in p] if m else []
        P[f'{c}::{n}']=[(re.sub('mut ','',p.split(':',1)[0]).strip()) for p in ps]
    cnt=collections.defaultdict(list)
    for f,ps in P.items():
        for r in (2,3,4,5,6):
            for x in itertools.combinations(ps,r): cnt[x].append(f)
    mx=[]
    for x,v in cnt.items():
        if len(v)>=3: mx.append((x,v))
    # maximal: no superset with same function list
    res=[]
    for x,v in mx:
        if any(set(x)<set(y) and set(v)<=set(w) for y,w in mx): continue
        res.append((x,v))
    for x,v in sorted(res,key=lambda t:(-len(t[0]),-len(t[1]))): print(len(x),len(v),' '.join(x),'|',' '.join(v))


def arms():
    t=0
    for c,n,l,h,b,sig in fns():
        if 'match ' not in b: continue
        arms=re.findall(r'^\s*([A-Z][\w:]*(?:\([^)]*\))?) => (.*?),?$',b,re.M)
        cnt=collections.Counter()
        for pat,r in arms:
            cnt[r if r!='{' else pat]+=1
        same={k:v for k,v in cnt.items() if v>1}
        nm=len(re.findall(r'\bmatch ',b))
        boolonly=all(r in('true','false','flag == 0') for p,r in arms)
        wild='_ =>' in b
        print(f'{c}::{n} matches={nm} arms={len(arms)} same={same} {"BOOL" if boolonly else ""}{" WILD" if wild else ""}')


def ens():
    pats={'pool store one two':r'pool store\.\w+ one\.\w+ two\.\w+\b(?! three)','hall_in (pool ..) d':r'hall_in \(pool','written .. out.old with result = length ..':r'out\.new ≡ written','Printed at .. out.old result out.new':r'Printed ','copy_bytes (seat_of copy.old) (set/..(entries_of copy.old)':r'copy_bytes \(seat_of','rows_of (w.last + 1) tab':r'rows_of \(w\.last','blocks_of n/used store':r'blocks_of \w+(\.\w+)? store','blocks_of w.n store':r'blocks_of w\.n','Located store copy ..':r'\bLocated ','record_of':r'record_of','numbers_of t':r'numbers_of t','parse_lines m (drop 16|base ..)':r'parse_lines \w+ \(drop','store_history store':r'store_history store','lines_from lines 0 m':r'lines_from lines 0 m','shaped fields_of parse fits_block':r'shaped fields_of','length x = 512 (any name)':r'length \w+(\.\w+)? ≡ 512','length copy = 16896':r'length \w+\.\w+ ≡ 16.?896','sheet/i/k < 32':r'\b(sheet|i|k|s) < 32','revision/r < 65536':r'\b(revision|r) < 65536','out answer_of result .. copy.new':r'out \(answer_of result\)','created_as':r'created_as','length lines/settings 32/4':r'length \w+(\.\w+)? ≡ (32|4)\b','entry_in copy':r'entry_in copy','encode fields_of':r'encode fields_of','s.new = written at':r's\.new ≡ written','result ≤ 14|32_800|132':r'upper_bound','parse s.now':r'parse \w+\.now'}
    for k,p in pats.items():
        v=[f'{c}::{n}' for c,n,l,h,b,s in fns() if re.search(p,h)]
        print(len(v),k,'|',' '.join(v))


def count():
    F = fns()
    print(len(F))
    print(collections.Counter(c for c, *_ in F))


{'fns': count, 'twins': twins, 'facts': facts, 'params': params, 'arms': arms, 'ens': ens}[sys.argv[1]]()
