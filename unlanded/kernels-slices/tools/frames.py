import sys,re,subprocess
d=subprocess.run(['objdump','-d','--no-show-raw-insn',sys.argv[1]+'/p'],capture_output=True,text=True).stdout
fn=None;fr={}
for l in d.split('\n'):
    m=re.match(r'^([0-9a-f]+) <(.*)>:',l)
    if m: fn=m.group(2)
    m=re.search(r'(?:sub +\$(0x[0-9a-f]+),%rsp|sub +\$(0x[0-9a-f]+),%r11)',l)
    if m:
        v=int(m.group(1) or m.group(2),16)
        fr[fn]=fr.get(fn,0)+(v if v!=0x1000 else 0)
for f,v in sorted(fr.items(),key=lambda x:-x[1]):
    if v>1500: print('%8d %s'%(v,f))
