#!/usr/bin/env python3
"""Sets today's must-fail edits, definitions, clauses and public statements beside those of LANDED's raw text, by the trees that they are read as.

usage: against_landed.py     at the top; the commit is the first line of docs/PORT.md
It uses none of the port's other scripts, so that what these garble alike on both sides is seen. An old projection binds to the whole application
(`f a .y` is `(f a) .y`), a new one to the word before it. Clauses have the rule of docs/PORT.md on lent buffers applied. Prints counts, and each place to read.
"""
import os
import re
import subprocess
ROOT=os.getcwd()
with open('docs/PORT.md',encoding='utf-8') as it: LANDED=it.readline().strip()
def show(f,c=None):
    r=subprocess.run(['git','-C',ROOT,'show',f'{c or LANDED}:{f}'],capture_output=True,text=True); return r.stdout if r.returncode==0 else None
def norm(n):
    n=n.replace('«','').replace('»','').replace('′',"'").replace('″',"''").replace('¹','1')
    n=re.sub(r"([a-z0-9])([A-Z])",lambda m:m.group(1)+'_'+m.group(2).lower(),n) if n[:1].islower() else n
    return n.replace('-','_').replace('·','.')
TOK=re.compile(r"\s+|--[^\n]*|\"[^\"]*\"|[(){}\[\],;]|(?:\.\s)|\.[\w'«»′-]+|«[^»]*»|[^\W]['\w?′″-]*|[^\s\w(){}\[\],;.]+|\.")
def tokens(t):
    out=[];pos=0
    for m in TOK.finditer(t):
        s=m.group(0)
        space=out and out[-1]==' '
        if s.isspace() or s.startswith('--'):
            if not out or out[-1]!=' ': out.append(' ')
        else: out.append(s)
    return out
IDENT=re.compile(r"^[\w«]")
def parse(toks,tight):
    """A list of items; projections folded. tight: new syntax, `.f` binds to the atom right before with no space. Else old: to the whole spine."""
    pos=0
    def group(close):
        nonlocal pos
        items=[];spine=[]
        def flush():
            nonlocal spine
            if spine: items.append(spine[0] if len(spine)==1 else ('app',*spine)); spine=[]
        prev_space=True
        while pos<len(toks):
            s=toks[pos]
            if s==' ': prev_space=True; pos+=1; continue
            if s in ')]}':
                pos+=1; flush(); return items
            if s in '([{':
                pos+=1; inner=group(s)
                node=inner[0] if s=='(' and len(inner)==1 else (s,*inner)
                spine.append(node)
            elif s.startswith('.') and len(s)>1 and not s[1].isspace():
                f=norm(s[1:])
                if tight:
                    if spine and not prev_space: spine[-1]=('proj',spine[-1],f)
                    else: spine.append(('bareproj',f))
                else:
                    if spine:
                        whole=spine[0] if len(spine)==1 else ('app',*spine)
                        spine=[('proj',whole,f)]
                    else: spine.append(('bareproj',f))
                pos+=1
            elif IDENT.match(s):
                spine.append(norm(s)); pos+=1
            else:
                flush()
                if s!='.': items.append(s.strip())
                else: items.append('.')
                pos+=1
            prev_space=False
            continue
        flush(); return items
    return group(None)
def tree(t,tight): return parse(tokens(t),tight)
def flatten(x):
    if isinstance(x,tuple) or isinstance(x,list): return '('+' '.join(flatten(y) for y in x)+')'
    return x
def bal(t,i):
    d=0
    for k in range(i,len(t)):
        if t[k] in '{([': d+=1
        elif t[k] in '})]':
            d-=1
            if d==0: return k+1
    return len(t)
def funcs(t):
    t=re.sub(r'//[^\n]*','',t); out={}
    for m in re.finditer(r'\bfn (\w+)(<[^(]*>)?\(',t):
        s=m.end()-1; e=bal(t,s); params=t[s+1:e-1]; pos=e; cl=[]
        while True:
            k=re.match(r'[^{};]*?\b(requires|ensures)( \w+)? \{',t[pos:])
            if not k: break
            b=pos+k.end()-1; x=bal(t,b); cl.append((k.group(1),t[b+1:x-1])); pos=x
        if cl: out.setdefault(m.group(1),[]).append((params,cl))
    return out
AFTER={'after','masked_after','rival_after','account_after'}; TURNED={'before':'lent','after':'lent','masked_before':'lent_masked','masked_after':'lent_masked','rival_before':'rival_lent','rival_after':'rival_lent','account_before':'account_of','account_after':'account_of'}
SYN={'nat_eq':'eqb','nat_lt':'ltb','nat_le':'leb','getD':'get_or','clamped':'clamp_len','digits':'last_digits'}
def kinds(p): return {n:('mut' if m else '&') for n,m in re.findall(r'(\w+): &(?:\'\w+ )?(mut )?',p)}
def expand(x,k,ens,head=None):
    """old tree -> the tree that the rule gives"""
    if isinstance(x,str):
        if x in TURNED: return TURNED[x]
        if x in k: return ('proj',x,'now' if k[x]=='&' else ('new' if ens and head in AFTER else 'old'))
        return SYN.get(x,x)
    if x and x[0]=='app':
        h=x[1]
        if h=='unlent' and len(x)==3: return expand(x[2],k,ens,head)
        if h=='now' and len(x)==3:
            y=x[2]
            if isinstance(y,tuple) and y[0]=='proj' and y[1] in k and y[2] in('entry','exit'): return ('proj',y[1],'now' if k[y[1]]=='&' else {'entry':'old','exit':'new'}[y[2]])
            if isinstance(y,str) and y in k: return ('proj',y,'now' if k[y]=='&' else 'old')
        hd=h if isinstance(h,str) and h in TURNED or h in('rival_marked','lent','lent_masked','rival_lent') else head
        return ('app',*[expand(y,k,ens,hd) for y in x[1:]])
    if x and x[0]=='proj': return ('proj',expand(x[1],{},ens,head) if isinstance(x[1],str) else expand(x[1],k,ens,head),x[2])
    return tuple(expand(y,k,ens,head) for y in x)
def syn(x):
    if isinstance(x,str): return SYN.get(x,x)
    return tuple(syn(y) for y in x)
def unwrap(l):
    l=list(l)
    while len(l)==1 and isinstance(l[0],tuple) and l[0] and l[0][0]=='(' : l=list(l[0][1:])
    return tuple(l)
def old_clause(kind,text,k):
    t=text.replace('⌜',' ').replace('⌝',' ').strip()
    var=None
    if kind=='ensures':
        m=re.match(r'λ\s+(\w+|_)\s*\.\s',t)
        if m: var=m.group(1); t=t[m.end():]
    tr=tuple(tree(t,False))
    if var and var!='_':
        def s(x): return ('result' if x==var else x) if isinstance(x,str) else tuple(s(y) for y in x)
        tr=s(tr)
    return unwrap(expand(unwrap(tr),k,kind=='ensures'))
HEAD=re.compile(r"^( *)(?:abbrev |unfoldable )*pub (?:abbrev |unfoldable )*((?:record|data|ruleset) )?([^\s:(){}.,λ→=]+)((?: \{[^}]*\}| \([^)]*\))*) : ")
WORDS={'nat_eq':'eqb','nat_lt':'ltb','nat_le':'leb','getd':'get_or','get_d':'get_or','slice_index_or':'get_or','slice_set':'set','ref_t':'bor','clamped':'clamp_len','digits':'last_digits'}
def plain_tree(x):
    if isinstance(x,(tuple,list)):
        x=[y for y in x]
        return '('+' '.join(plain_tree(y) for y in x)+')'
    x=norm(x).lower() if x[:1].isalpha() else x
    return WORDS.get(x,x)
def statements(t):
    lines=[re.sub(r'--.*','',l) for l in t.split('\n')]; out={}
    for i,l in enumerate(lines):
        m=HEAD.match(l)
        if not m: continue
        s=l.strip(); ind=len(m.group(1)); raw=[l]
        for more in lines[i+1:]:
            if not more.strip() or len(more)-len(more.lstrip())<=ind: break
            s+=' '+more.strip()
        out.setdefault(norm(m.group(3)).lower(),[]).append(s)
    return out

def landed_files(pattern):
    said=subprocess.run(['git','ls-tree','-r','--name-only',LANDED,'--','crates'],capture_output=True,text=True).stdout
    return [f for f in said.split('\n') if re.match(pattern,f)]
def read(f):
    if not os.path.exists(f): return ''
    with open(f,encoding='utf-8') as it: return it.read()
def told(what,n,left):
    print(f'{what}: {n}, the same {n-len(left)}, to read {len(left)}')
    for f,was,now in left: print('==',f.split('crates/')[1]); print('   was:',' '.join(was.split())[:300]); print('   now:',' '.join(now.split())[:300])
def edits():
    n,left=0,[]
    for f in landed_files(r'.*\.edit$'):
        a,b=([l for l in t.split('\n') if l.startswith(('old: ','new:'))] for t in (show(f),read(f)))
        if len(a)!=len(b): left.append((f,f'{len(a)} lines',f'{len(b)} lines'))
        for x,y in zip(a,b):
            n+=1
            if x!=y and flatten(tree(x[5:].replace('⌜','').replace('⌝',''),False))!=flatten(tree(y[5:],True)): left.append((f,x,y))
    told('lines of must-fail edits',n,left)
def blocks(t):
    t=re.sub(r'--[^\n]*','',re.sub(r'^use [^\n]*(?:\n +[^\n]*)*\n','',t,flags=re.M))
    return [b for b in re.split(r'\n\s*\n',t) if b.strip()]
def definitions():
    n,left=0,[]
    for f in landed_files(r'crates/[^/]+/specs/[^/]+\.antt$'):
        now={plain_tree(tree(b,True)) for b in blocks(read(f))}
        for b in blocks(show(f).replace('the-variants','TheVariants')):
            n+=1
            if plain_tree(tree(b,False)) not in now: left.append((f,b,''))
    told('blocks of specs/',n,left)
def clauses():
    n,left=0,[]
    for f in landed_files(r'crates/[^/]+/src/.*\.rt$'):
        a,b=funcs(show(f)),funcs(read(f))
        for name,every in a.items():
            for (p,old),(_,new) in zip(every,b.get(name,[('',[])]*len(every))):
                if [k for k,_ in old]!=[k for k,_ in new]: left.append((f,name+' has other clauses','')); n+=1; continue
                for (kind,x),(_,y) in zip(old,new):
                    n+=1
                    if flatten(old_clause(kind,x,kinds(p)))!=flatten(syn(unwrap(tuple(tree(y.strip(),True))))): left.append((f,name+': '+x,y))
    told('clauses',n,left)
def theorems():
    n,left=0,[]
    for f in landed_files(r'crates/[^/]+/proofs/[^/]+\.antt$'):
        a,b=statements(show(f)),statements(read(f))
        for name,every in a.items():
            now=b.get(name) or b.get(name+'_lem') or []
            trees=[plain_tree(tree(x,True)).replace('_lem ',' ').replace('_lem)',')') for x in now]
            for x in every:
                n+=1
                if plain_tree(tree(x,False)) not in trees: left.append((f,x,now[0] if now else 'none'))
    told('public statements of proofs/',n,left)
if __name__=='__main__':
    garbled,right=(plain_tree(tree(x,True)) for x in ('cycles_of (report bs.account)','cycles_of (report bs).account'))
    assert garbled!=plain_tree(tree('cyclesOf (report bs .account)',False))==right
    edits(); definitions(); clauses(); theorems()
