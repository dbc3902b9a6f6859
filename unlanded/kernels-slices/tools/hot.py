import sys,re,subprocess
# map instr counts to the function's disassembly: basic-block summary
out,lvl,fn=sys.argv[1:4]
cnt={};names={};cur=None;addr=0;skip=False
obj={}
for line in open(f'{out}/ci.{lvl}'):
    line=line.rstrip('\n')
    if line.startswith('ob='):
        m=re.match(r'ob=\((\d+)\)(?: (.*))?',line)
        if m.group(2): obj[m.group(1)]=m.group(2)
        cur=obj[m.group(1)]
    elif line.startswith('cob='):
        m=re.match(r'cob=\((\d+)\)(?: (.*))?',line)
        if m.group(2): obj[m.group(1)]=m.group(2)
    elif line.startswith('calls='): skip=True
    elif re.match(r'^(0x|\+|-|\*)',line):
        a=line.split()
        if a[0].startswith('0x'): addr=int(a[0],16)
        elif a[0].startswith('+'): addr+=int(a[0][1:],0) if len(a[0])>1 else 0
        elif a[0].startswith('-'): addr-=int(a[0][1:],0)
        if skip: skip=False; continue
        if cur and cur.endswith('/p'): cnt[addr]=cnt.get(addr,0)+int(a[2])
d=subprocess.run(['objdump','-d','--no-show-raw-insn',f'{out}/p'],capture_output=True,text=True).stdout
infn=False;lines=[]
for l in d.split('\n'):
    m=re.match(r'^([0-9a-f]+) <(.*)>:',l)
    if m: infn=fn in m.group(2)
    m=re.match(r'^ +([0-9a-f]+):\t(.*)',l)
    if m and infn: lines.append((int(m.group(1),16),m.group(2)))
base=min(cnt) ; 
# find load offset: callgrind reports object-relative? try offsets
for off in (0,0x108000,0x4000000,0x400000):
    if any((a+off) in cnt for a,_ in lines): break
# runs of equal counts
prev=None;start=0;acc=[]
for i,(a,t) in enumerate(lines):
    c=cnt.get(a+off,0)
    if c!=prev:
        acc.append([c,1,a,[t]]);prev=c
    else: acc[-1][1]+=1;acc[-1][3].append(t)
thr=int(sys.argv[4]) if len(sys.argv)>4 else 20000
for c,n,a,ts in acc:
    if c*n>=thr:
        print('== %x count %d x %d instrs = %d'%(a,c,n,c*n))
        k=int(sys.argv[5]) if len(sys.argv)>5 else 60
        for t in ts[:k]: print('     ',t)
