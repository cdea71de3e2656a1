#!/usr/bin/env python3
"""Turns walks, proofs/F/Proof.antt, into Invariants.antt and Answers.antt, once, after snake_names.py.

usage: tools/turn_proofs.py CRATE NAMES.json [WORD..]       at the top of the repository

NAMES.json is what `rattle check --generated DIR --old-names` writes of the crate: the old and the new name of each goal and place. WORD.. takes only proofs
whose paths have one of them. What it can't turn it says: helper lemmas over a place of the walk ('helper with tie'), goals that it doesn't find ('need?').
"""
import sys,os,re,json,glob
crate,namesf=sys.argv[1:3]
only=sys.argv[3:]
D=json.load(open(namesf))
def canon(s):
    s=re.sub(r"_(law|diagonals)$","",s)
    return re.sub(r"[-_]","",s).lower()
IDENT=r"[A-Za-z_][\w'\-₀]*"
def items(text):
    """list of dict(kind, name, sig, lines, comment)"""
    res=[]; comment=[]
    lines=text.split('\n'); i=0
    while i<len(lines):
        ln=lines[i]
        if ln.startswith('--'):
            comment.append(ln); i+=1; continue
        if ln.strip()=='' :
            if comment and res==[]: res.append(dict(kind='head',lines=comment,comment=[],name=None)); comment=[]
            i+=1; continue
        if ln.startswith('use '):
            if comment: res.append(dict(kind='head',lines=comment,comment=[],name=None)); comment=[]
            res.append(dict(kind='use',lines=[ln],comment=[],name=None)); i+=1; continue
        m=re.match(r"((?:pub |abbrev |unfoldable )*)(%s)(.*)$"%IDENT,ln)
        name=m.group(2) if m else None
        blk=[ln]; i+=1
        while i<len(lines):
            l2=lines[i]
            if l2.startswith(' ') or l2.strip()=='' or l2.startswith('unfolding'):
                # blank followed by non-indented ends unless same name
                blk.append(l2); i+=1; continue
            m2=re.match(r"(%s)(?=[\s])"%IDENT,l2)
            if m2 and m2.group(1)==name and not re.match(r"%s\s*(\{.*\})?\s*:\s"%IDENT,l2):
                blk.append(l2); i+=1; continue
            break
        while blk and blk[-1].strip()=='': blk.pop()
        res.append(dict(kind='def',name=name,mods=m.group(1) if m else '',lines=blk,comment=comment)); comment=[]
    return res
def convert(path):
    fpath=os.path.relpath(os.path.dirname(path),f'crates/{crate}/proofs')
    key=f"Rattle-{crate}-proofs."+fpath.replace('/','.')+".Lts"
    if key not in D: return f'no key {key}'
    E=D[key]
    text=open(path).read()
    its=items(text)
    if 'tie.' not in text: return 'walk'
    steps={}; facts={}
    for p in E['places']:
        old,new=p[2]
        if not old: continue
        steps.setdefault(canon(old),new)
        for a,b in p[4]:
            facts.setdefault((new,a),b)
    arms={}
    for a in E['arms']:
        if not a: continue
        for f in a[2]:
            if len(f)>=3 and isinstance(f[2],list):
                arms.setdefault((canon(f[1]),'.'.join(map(str,f[2]))),f"{a[0]}.{f[0]}")
    loops={}
    for lp in E['loops']:
        (o,n),vs=lp
        steps[canon(o)]=n; loops[canon(o)]=(n,vs)
        steps[canon(o+'-test')]=n+'-test'
    needs={}
    for o,n in E['needs']:
        needs.setdefault(canon(o),n)
    for o,n in E['needs']:
        needs.setdefault(canon(n),n)
    warn=[]
    def chains(body):
        # place aliases
        alias={'c'}
        changed=True
        while changed:
            changed=False
            for m in re.finditer(r"let (%s) = (%s)((?:\.before)*) in"%(IDENT,IDENT),body):
                if m.group(2) in alias and m.group(1) not in alias:
                    alias.add(m.group(1)); changed=True
        def rep(m):
            root=m.group(1); segs=m.group(2).split('.')[1:]
            if root not in alias: return m.group(0)
            root='c'
            segs=[s for s in segs if s!='before']
            if not segs: return root
            k=canon(segs[0])
            rest='.'.join(segs[1:])
            for (st,pa),new in arms.items():
                if st==k and (rest==pa or rest.startswith(pa+'.')):
                    return root+'.'+new+rest[len(pa):]
            if k in steps:
                new=steps[k]
                tail=segs[1:]
                if tail and (new,tail[0]) in facts: tail=[facts[(new,tail[0])]]+tail[1:]
                if k in loops and tail:
                    n,vs=loops[k]
                    for v in vs:
                        if canon(v)==canon(tail[0]): tail=[v]+tail[1:]
                segs=[new]+tail
            elif segs[0] in('args','ranges') and len(segs)>1:
                pass
            if segs[0]=='well-formed': segs[0]='well_formed'
            return '.'.join([root]+segs)
        body=re.sub(r"(?<![\w.'\-])(%s)((?:\.[\w'«»\-]+)*)"%IDENT,rep,body)
        body=re.sub(r"^[ \t]*let c = c in\n","",body,flags=re.M)
        body=re.sub(r"let c = c in ","",body)
        body=re.sub(r"(\(λ c) κs\.",r"\1.",body)
        return body
    inv=[]; ans=[]; helpers=[]; uses=[]; head=[]
    for it in its:
        L='\n'.join(it['lines'])
        if it['kind']=='head':
            head+= it['lines']; continue
        if it['kind']=='use':
            if re.search(r"\.(Statement\.\{statement\}|Tie as tie)$",L): continue
            uses.append(L); continue
        nm=it['name']
        if nm.endswith('-spec') or nm.endswith('_spec'):
            if 'tie.close' in L or 'tie.spec' in L: continue
        m=re.search(r":\s*tie\.(invariant|decreases)-(%s)"%IDENT,L)
        if m:
            kind,lp=m.groups()
            if canon(lp) not in loops: warn.append('loop? '+lp); continue
            n,vs=loops[canon(lp)]
            # clause line(s): after signature
            b=L.split('\n',1)[1]
            unf=''
            while b.startswith('unfolding'):
                u,b=b.split('\n',1); unf+=u+'\n'
            mm=re.match(r"%s\s+([^=]*?)\s=(?=\s)"%re.escape(nm),b,re.S)
            params=mm.group(1).split(); body=b[mm.end():]
            mp={}
            for p in params:
                q=p
                for v in vs:
                    if canon(v)==canon(p.rstrip('₀')):
                        mp[p]=('l.initial.' if p.endswith('₀') else 'l.')+v
                        break
            body=re.sub(r"(?<![\w.'\-])(%s)(?![\w'\-])"%IDENT,lambda m: mp.get(m.group(1),m.group(1)),body)
            isfor=any(v.endswith('-end') or v.endswith('-index') for v in vs)
            if kind=='decreases' and isfor: continue
            inv.append('\n'.join(it['comment']+[f"abbrev pub {kind}-{n} : goal.{kind}-{n}"])+'\n'+unf+f"{kind}-{n} l ={body}")
            continue
        m=re.search(r":\s*tie\.Need-(%s)"%IDENT,L)
        if m:
            nd=m.group(1)
            new=needs.get(canon(nd))
            if not new:
                warn.append('need? '+nd); new='UNKNOWN-'+nd
            rest=L.split('\n')
            # drop signature lines until a clause line
            j=0
            while j<len(rest) and not re.match(re.escape(nm)+r"(\s|$)",rest[j]) or re.match(re.escape(nm)+r"\s*:",rest[j] if j<len(rest) else ''):
                j+=1
            unf=[r for r in rest[:j] if r.startswith('unfolding')]
            body='\n'.join(rest[j:])
            body=re.sub(r"^%s\s+c(\s+κs)?(?=\s)"%re.escape(nm),new+" c",body)
            body=chains(body)
            ans.append('\n'.join(it['comment']+[f"pub {new} : goal.{new}"]+unf)+'\n'+body)
            continue
        if 'tie.' in L: warn.append('helper with tie: '+nm)
        helpers.append((len(ans),'\n'.join(it['comment'])+('\n' if it['comment'] else '')+chains(L)))
    d=os.path.dirname(path)
    mod=f"Rattle.{crate}.proofs.{fpath.replace('/','.')}"
    def used(text):
        out=[]
        for u in uses:
            m=re.match(r"use (.*?)(?:\.\{(.*)\})?(?: as (.*))?$",u)
            if m.group(2):
                ns=[x.strip() for x in m.group(2).split(',')]
                keep=[]
                for x in ns:
                    y=x.split(' as ')[-1]
                    parts=[q for q in y.split('◌') if q]
                    if not parts: parts=[y]
                    if all(re.search(r"(?<![\w'\-])%s(?![\w'\-])"%re.escape(q) if re.match(r"\w",q) else re.escape(q),text) for q in parts): keep.append(x)
                if keep: out.append(f"use {m.group(1)}.{{{', '.join(keep)}}}")
            elif m.group(3):
                if re.search(r"(?<![\w'\-])%s\."%re.escape(m.group(3)),text): out.append(u)
            else: out.append(u)
        return out
    written=[]
    if inv:
        t='\n\n'.join(inv)
        open(d+'/Invariants.antt','w').write('\n'.join(head[:0]+used(t)+[f"use {mod}.Given as goal"])+'\n\n'+t+'\n'); written.append('I')
    if ans:
        allt=[]
        hi=0
        for i,a in enumerate(ans):
            while hi<len(helpers) and helpers[hi][0]<=i: allt.append(helpers[hi][1]); hi+=1
            allt.append(a)
        while hi<len(helpers): allt.append(helpers[hi][1]); hi+=1
        t='\n\n'.join(allt)
        open(d+'/Answers.antt','w').write('\n'.join(head+used(t)+[f"use {mod}.Goals as goal"])+'\n\n'+t+'\n'); written.append('A')
    os.rename(path,path+'.old')
    return ''.join(written)+' '+'; '.join(warn)
for p in sorted(glob.glob(f'crates/{crate}/proofs/**/Proof.antt',recursive=True)):
    if '/out/' in p: continue
    if only and not any(o in p for o in only): continue
    try: print(p, convert(p))
    except Exception as e:
        import traceback; traceback.print_exc(); print(p,'FAILED',e)
