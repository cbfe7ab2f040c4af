#!/usr/bin/env python3
"""lend.py FROM CLONE [CRATE..]: copies built libraries of FROM (by rt ci) into CLONE, with the stamp
that rt check wants, for crates (all that FROM has built) that CLONE hasn't built itself at its text."""
import sys, os, shutil, importlib.machinery, importlib.util
sys.dont_write_bytecode=True
l=importlib.machinery.SourceFileLoader("rtlib","/opt/rattle/bin/rtlib.py")
m=importlib.util.module_from_spec(importlib.util.spec_from_loader("rtlib",l)); sys.modules["rtlib"]=m; l.exec_module(m)
src,dst,*only=sys.argv[1:]
src,dst=os.path.abspath(src),os.path.abspath(dst)
memo={}
made=m.Crate.stamp
def stamp(c):
    if c.folder not in memo: memo[c.folder]=made(c)
    return memo[c.folder]
m.Crate.stamp=stamp
a={c.name:c for c in m.crates_below(src)}
b={c.name:c for c in m.crates_below(dst)}
n=0
for name,c in b.items():
    if only and name not in only: continue
    o=a.get(name)
    if o is None: continue
    r=f"{src}/crates/{name}/out/rlib/{name}.rlib"
    if not os.path.isdir(r): continue
    # same text?
    if o.stamp()!=c.stamp():
        print("other text:",name); continue
    t=f"{dst}/crates/{name}/out/rlib"
    if m.text_of(t+"/stamp")==c.stamp() and os.path.isdir(t) and not only: continue
    shutil.rmtree(t,ignore_errors=True); os.makedirs(t)
    shutil.copytree(r,f"{t}/{name}.rlib")
    open(t+"/stamp","w").write(c.stamp()); n+=1
print("lent",n)
