import sys,re
# callers of memset/memmove with inclusive costs
fn=None;cost={};calls={};names={}
def nm(s):
    m=re.match(r'\((\d+)\)(?: (.*))?',s)
    if m.group(2): names[m.group(1)]=m.group(2)
    return names[m.group(1)]
cf=None;own={};inc={}
for line in open(sys.argv[1]):
    line=line.rstrip('\n')
    if line.startswith('fn='): fn=nm(line[3:])
    elif line.startswith('cfn='): cf=nm(line[4:])
    elif line.startswith('calls='): n=int(line[6:].split()[0]); pend=True; nxt=(cf,n)
    elif re.match(r'^[+\-*0-9]',line):
        c=int(line.split()[1])
        if cf:
            k=(fn,cf); a=calls.get(k,[0,0]); a[0]+=nxt[1]; a[1]+=c; calls[k]=a; cf=None
        else: own[fn]=own.get(fn,0)+c
print('own:')
for f,c in sorted(own.items(),key=lambda x:-x[1])[:45]: print('%10d %s'%(c,f))
print('calls:')
for (a,b),(n,c) in sorted(calls.items(),key=lambda x:-x[1][1])[:90]: print('%10d %6d  %s -> %s'%(c,n,a,b))
