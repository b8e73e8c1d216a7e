#!/usr/bin/env python3
"""respell.py: the repository's own definitions and lemmas in today's spelling, everywhere that they stand.

Run once, at the top of the repository, on the commit that port.py made. Words of specs/ and proofs/ in lower camel case and with dashes become snake case;
types, modules, names that the library declares, functions of src/, strings and exported names keep their spelling. It proves nothing: rt check decides.
Prints names that fall together in one module and what it makes of them (a lemma that would have its function's name gets _lem), and how many files were written."""
import os,re,collections,glob
HEAD=re.compile(r"^(?:(?:pub|abbrev|unfoldable|mutual|opaque|instance|private|reducible) )*(?:(?:data|record) )?([^\s:({=]+)")
MEMBER=re.compile(r"^ +(?:(?:pub|abbrev|unfoldable|private) )*([^\s:({=;→λ]+)(?: [^\s:({=;]+)* :(?:\s|$)")
TOKEN=re.compile(r"[^\s(){}\[\];.,·@`\"\\|]+")
NOT={'use','mod','unfolding','--','where','let','in','data','record','pub','abbrev','unfoldable'}

def files(ext):
    for d,ds,fs in os.walk('crates'):
        ds[:]=sorted(x for x in ds if x!='out')
        for f in sorted(fs):
            if f.endswith(ext): yield os.path.join(d,f)

def snake(n):
    s=re.sub(r"(?<=[a-z0-9])[A-Z]|(?<=[A-Z])[A-Z](?=[a-z])",lambda m:'_'+m.group(0).lower(),n)
    s=s.replace('-','_')
    s=re.sub(r"\bget_d(?=_|$)","get_or",s)
    return s

def camel_case(n): return bool(re.match(r"[a-z]",n) and re.search(r"[a-z0-9][A-Z]",n))

def wanted(n): return bool(re.match(r"[a-z]",n)) and (camel_case(n) or '-' in n)

own=collections.defaultdict(set)      # name -> files
per=collections.defaultdict(set)      # file -> names
for p in files('.antt'):
    parts=p.split('/')
    inproof=parts[2]=='proofs' and len(parts)>4
    text=open(p,encoding='utf8').read()
    for m in re.finditer(r"^[^\s-].*$",text,re.M):
        if m.group(0).startswith(('use ','pub use ','mod ','pub mod ','unfolding')): continue
        n=HEAD.match(m.group(0))
        if not n or n.group(1) in NOT: continue
        n=n.group(1)
        if inproof:
            # answers are named by the walk; a lemma there is a name of its own
            if re.search(r"^(?:pub |abbrev |unfoldable )*"+re.escape(n)+r" ?:\s*(\([^)]*\) →\s*)?\{?[\w' ]*\}?[\s→]*(tie|[\w-]*lts)\.",text,re.M): continue
            if n.endswith(('-spec','_spec')): continue
        own[n].add(p); per[p].add(n)
    if not inproof:
        for l in text.split('\n'):
            m=MEMBER.match(l)
            if m and m.group(1) not in NOT: own[m.group(1)].add(p); per[p].add(m.group(1))

# names that the library declares or that are imported from it keep their spelling where they are the library's
libnames=set()
for p in list(files('.antt'))+list(files('.rt')):
    for m in re.finditer(r"^\s*(?:ghost |pub )*use ([^\s{;]+)\.\{([^}]*)\}",open(p,encoding='utf8').read(),re.M|re.S):
        crate=m.group(1)
        own_crate=re.match(r"Rattle[.·]([A-Za-z_0-9]+)",crate)
        if own_crate and os.path.isdir('crates/'+own_crate.group(1)): continue
        for n in re.split(r"[,\s]+",m.group(2)):
            if n and n!='as': libnames.add(n)
ren={}
for n in own:
    if wanted(n):
        t=snake(n)
        if t!=n: ren[n]=t
both=[n for n in ren if n in libnames]
# collisions in one file: two declared names, or a declared name and an imported one
clash=collections.defaultdict(set)
imports={}
for p in list(files('.antt')):
    text=open(p,encoding='utf8').read()
    seen=collections.defaultdict(set)
    for n in per[p]: seen[ren.get(n,n)].add(n)
    for m in re.finditer(r"^use [^\s{]+\.\{([^}]*)\}",text,re.M|re.S):
        for n in re.split(r"[,\s]+",m.group(1)):
            if n: seen[ren.get(n,n)].add(n)
    for t,ns in seen.items():
        if len(ns)>1: clash[tuple(sorted(ns))].add(p)
print(len(own),'names of its own,',len(ren),'to respell;',len(both),'are also the library\'s and stay:',both)
for n in both: ren.pop(n)
# A lemma that would have its function's name gets _lem.
local=collections.defaultdict(dict)      # file -> names respelled there alone
def module(p): return 'Rattle.'+p[len('crates/'):-len('.antt')].replace('/','.').replace('.Lib','')
def importing(n,homes):
    """The files where n is the lemma of the modules homes: these modules, and what imports n from them."""
    mods={module(p) for p in homes}
    for p in files('.antt'):
        text=open(p,encoding='utf8').read()
        if p in homes or any(m.group(1) in mods and n in re.split(r"[,\s]+",m.group(2)) for m in re.finditer(r"^(?:pub )?use (Rattle[^\s{]+)\.\{([^}]*)\}",text,re.M|re.S)): yield p
def homes_of(n,ps):
    out={p for p in ps if n in per[p]}
    for p in ps:
        for m in re.finditer(r"^(?:pub )?use (Rattle[^\s{]+)\.\{([^}]*)\}",open(p,encoding='utf8').read(),re.M|re.S):
            if n in re.split(r"[,\s]+",m.group(2)): out|={q for q in own[n] if module(q)==m.group(1)}
    return out
for ns,ps in sorted(clash.items()):
    first=[n for n in ns if re.search(r"[a-z0-9][A-Z]",n)] or [n for n in ns if '-' not in n]
    for n in ns:
        if n==first[0]: continue
        t=snake(n)+'_lem'
        print('falls together:',ns,'->',n,'is',t)
        if '-' in n or re.search(r"[a-z0-9][A-Z]",n): ren[n]=t
        else:
            for p in importing(n,homes_of(n,ps)): local[p][n]=t

def turn(text,names):
    # behind a dot stands a member or a step of the code, and no lemma
    def one(m):
        n=m.group(0); t=names.get(n,n)
        if t.endswith('_lem') and t!=n and re.search(r"(?:^|[\s(,.])[a-z][^\s.(){},]*\.$",text[:m.start()]): return snake(n)
        return t
    return TOKEN.sub(one,text)
changed=0
def put(p,old,new):
    global changed
    if new!=old:
        changed+=1
        open(p,'w',encoding='utf8').write(new)
camel={n:t for n,t in ren.items() if '-' not in n}
for p in files('.antt'):
    t=open(p,encoding='utf8').read(); out=[]; here={**ren,**local.get(p,{})}
    for l in t.split('\n'):
        i=l.find('--') if (l.lstrip().startswith('--') or ' -- ' in l) else -1
        if i>=0 and l.lstrip().startswith('--'): i=l.index('--')
        elif i>=0: i=l.index(' -- ')
        code,com=(l,'') if i<0 else (l[:i],l[i:])
        com=TOKEN.sub(lambda m: camel.get(m.group(0),m.group(0)),com)
        com=re.sub(r"`[^`]*`",lambda m: turn(m.group(0),ren),com)
        out.append(turn(code,here)+com)
    put(p,t,'\n'.join(out))
CLAUSE=re.compile(r"^\s*(?:ghost|requires|ensures)\b")
odd=[]
for p in files('.rt'):
    t=open(p,encoding='utf8').read(); out=[]; depth=None
    inside=False
    for l in t.split('\n'):
        if l.lstrip().startswith('//'):
            out.append(TOKEN.sub(lambda m: camel.get(m.group(0),m.group(0)),l)); continue
        if CLAUSE.match(l): inside=True
        if inside:
            out.append(turn(l,ren))
            # a clause ends at the brace that closes it; the body begins with a lone brace
            if l.rstrip().endswith(('}',';')): inside=False
        else:
            for m in TOKEN.finditer(l):
                if m.group(0) in camel: odd.append((p,l.strip()[:90]))
            out.append(l)
    put(p,t,'\n'.join(out))
for p in sorted(glob.glob('crates/*/must-fail/*.edit')):
    t=open(p,encoding='utf8').read()
    put(p,t,'\n'.join(turn(l,camel if not re.match(r"(old|new):\s*(ensures|requires|ghost)",l) else ren) for l in t.split('\n')))
def pages(): return [p for p in ['README.md']+sorted(glob.glob('docs/**/*.md',recursive=True))+sorted(glob.glob('tests/*.md')) if os.path.exists(p)]
for p in pages():
    t=open(p,encoding='utf8').read()
    put(p,t,re.sub(r"`[^`\n]*`",lambda m: turn(m.group(0),ren),t))
# What is left in lower camel case: constructors declared several in a line, variables of modules, names given by `as`.
left=set()
for p in files('.antt'):
    for l in open(p,encoding='utf8'):
        if not l.startswith(('use ','pub use ')): left|={n for n in TOKEN.findall(re.split(r"(?:^|\s)--",l)[0]) if camel_case(n)}
for p in list(files('.antt'))+list(files('.rt')):
    for l in open(p,encoding='utf8'):
        if re.match(r"\s*(?:ghost |pub )*use ",l): left|={n for n in re.findall(r" as ([^\s,}]+)",l) if camel_case(n)}
rest={n:snake(n) for n in sorted(left-libnames)}
words={n for e in ('.antt','.rt','.edit') for p in files(e) for n in TOKEN.findall(open(p,encoding='utf8').read())}
for n in [n for n in rest if rest[n] in words]:
    if any({n,rest[n]}<=set(TOKEN.findall(open(p,encoding='utf8').read())) for e in ('.antt','.rt') for p in files(e)): print('stands beside its new spelling, left:',n); rest.pop(n)
print(len(rest),'more:',' '.join(rest))
for e in ('.antt','.rt','.edit'):
    for p in files(e):
        t=open(p,encoding='utf8').read(); put(p,t,TOKEN.sub(lambda m: rest.get(m.group(0),m.group(0)),t))
for p in pages():
    t=open(p,encoding='utf8').read(); put(p,t,re.sub(r"`[^`\n]*`",lambda m: turn(m.group(0),rest),t))
for o in odd[:10]: print('in code, left:',o)
print('files written',changed,'names',len(ren)+len(rest))
