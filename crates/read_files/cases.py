#!/usr/bin/env python3
"""Writes data/cases and stdout of this crate.

    cases.py BIN

BIN is the folder of the reference's two programs, wagner-reference and wagner-files. A refusal is what the reference prints with the
requests in force; what a sound file says is read here, by a parse of its own. Behind each case stands how many lent codes, weights, name
bytes and numbers of branch records are as they were.
"""
import os, subprocess, sys
REF = sys.argv[1] + '/'
OUT = os.path.dirname(os.path.abspath(__file__)) + '/'
IN_FORCE=4  # so many requests, from M-100 on
def ref(b):
    return subprocess.run([REF+'wagner-reference','--requests',str(IN_FORCE)],input=b,stdout=subprocess.PIPE,check=True).stdout
def gen(seed,requests=0):
    return subprocess.run([REF+'wagner-files',str(seed),'--requests',str(requests)],stdout=subprocess.PIPE,check=True).stdout
def matrix(n,m,f=lambda v,j:(v*7+j*3)%19-9,name=lambda v:b'T%d'%v):
    return b'W\t%d\t%d\n'%(n,m)+b''.join(name(v)+b''.join(b'\t%d'%f(v,j) for j in range(1,m+1))+b'\n' for v in range(1,n+1))
cases=[]
def add(b): cases.append(bytes(b))
ex=b'W\t4\t3\nA\t0\t0\t0\nB\t2\t1\t0\nC\t2\t3\t1\nD\t-1\t1\t2\n'
add(ex)
# document 01's further edges
one=lambda c: b'W\t1\t1\nA\t'+c+b'\n'
for c in [b'999',b'-999',b'1000',b'-1000',b'1000000',b'-1000000',b'-0',b'0',b'00',b'01',b'-01',b'',b'-',b'+1',b' 1',b'1 ',b'999999',b'-999999',b'--1',b'1-',b'1a',b'a',b'/',b':',b'9:',b'0\x00']:
    add(one(c))
add(matrix(64,1)); add(matrix(65,1)); add(matrix(1,128)); add(matrix(1,129)); add(matrix(64,128)); add(matrix(0,1)); add(matrix(1,0))
add(ex[:-1])                                   # a missing last line feed
add(b'W\t2\t2\nA\t1\t2\nB\t1\t2\n')            # equal rows under two names
add(b'W\t2\t2\n1A\t1\nB\t1\t2\n')              # a bad name and too few codes
add(b'W\t2\t2\n1A\t1\t2\t3\nB\t1\t2\n')
# size
add(b''); add(b'\n'); add(b'W'); add(b'W\n')
big=b'W\t1\t1\nA\t0\n'
add(big+b'x'*(45000-len(big))); add(big+b'x'*(45001-len(big))); 
w=matrix(64,128,lambda v,j:-999,lambda v:b'Abcdefghijklm_%02d'%v); add(w)
# line 1
for l in [b'W\t1\t1',b'W\t1\t1\t',b'W\t1',b'W 1 1',b'w\t1\t1',b'WW\t1\t1',b'\t1\t1',b'W\t\t1',b'W\t1\t',b'W\t01\t1',b'W\t1\t01',b'W\t-1\t1',b'W\t1\t-1',b'W\t0000001\t1',b'W\t1000000\t1',b'W\t999999\t1',b'W\t1\t999999',b'W\t0\t1',b'W\t1\t0',b'W\t65\t128',b'W\t64\t129',b' W\t1\t1',b'W\t1\t1 ',b'W\t1\t1\r',b'W\t1a\t1',b'W\t+1\t1',b'']:
    add(l+b'\nA\t0\n')
add(b'W\t1\t1'); add(b'W\t1\t1A\t0\n')
# the fourth field of line 1
for word in [b'advance',b'closest']:
    add(ex.replace(b'\n',b'\t'+word+b'\n',1)); add(b'W\t1\t1\t'+word+b'\nA\t0\n'); add(b'W\t1\t1\t'+word)
for word in [b'Closest',b'Advance',b'ADVANCE',b'closest ',b' closest',b'closest\r',b'close',b'closestt',b'advanc',b'advances',b'closest\x00',b'advance,closest',b'clo\xf3est',b'7',b'W']:
    add(b'W\t1\t1\t'+word+b'\nA\t0\n')
for l in [b'W\t1\t1\tclosest\t',b'W\t1\t1\tclosest\tadvance',b'W\t1\t1\t\t',b'W\t1\tclosest',b'W\tclosest\t1\t1',b'closest\tW\t1\t1',b'W\tx\t1\tnot',b'w\t1\t1\tclosest',b'W\t01\t1\tclosest',b'W\t1\t1000000\tclosest',b'W\t0\t1\tnot',b'W\t1\t129\tnot',b'W\t0\t1\tclosest',b'W\t1\t0\tadvance',b'W\t65\t1\tadvance',b'W\t1\t129\tclosest']:
    add(l+b'\nA\t0\n')
add(b'W\t2\t1\tclosest\nA\t0\n'); add(b'W\t1\t1\tadvance\nA\tx\n'); add(b'W\t1\t1\tclosest\nA\t1\nx')
add(w.replace(b'\n',b'\tclosest\n',1))             # the longest file without a `V` line
# the `V` line
V=lambda line: b'W\t1\t1\n'+line+b'\nA\t5\n'
add(ex.replace(b'\n',b'\nV\t1\t9\t3\n',1)); add(ex.replace(b'\n',b'\nV\t1\t1\t1\n',1)); add(ex.replace(b'\n',b'\tclosest\nV\t2\t2\t5\n',1))
for c in [b'0',b'1',b'9',b'10',b'01',b'-1',b'+1',b'',b' 1',b'1 ',b'1\r',b':',b'/',b'a',b'11',b'99',b'1\x00',b'1.',b'\xb1']:
    add(V(b'V\t'+c))
for l in [b'V',b'V\t1\t1',b'V\t',b'V\t\t',b'V\t1\t',b'VV\t1',b'v\t1',b'V1\t1',b'V 1',b' V\t1',b'V\r\t1',b'V\x00\t1',b'U\t1',b'N\t1',b'']:
    add(V(l))
for f in [b'V',b'V\t1',b'V\t0',b'V\t1\t1',b'VA',b'VA\t1',b'V\t1\nV\t2\n',b'V\t1\nV\t2',b'V\t1\nV',b'V\t1\nV\t2\nV\t3\n',b'A\t1\nV\t1\n',b'V\t0\nA\tx\n',b'V\t1\nA\tx\n',b'V\t1\n',b'V\t1\nA\t1',b'V\t1\n1A\t1\n',b'V\t1\nA\t1\t1\n',b'V\t1\nA\t1000\n',b'V\t1\nA\t1\n\n',b'V\t1\nA\t1\nx',b'V\t1\n\nA\t1\n',b'\nV\t1\nA\t1\n']:
    add(b'W\t1\t1\n'+f)
for l in [b'W\t0\t1',b'W\t1\t129',b'W\t1\t1\tnot',b'W\t1',b'W\t1\t2',b'W\t2\t1']:
    add(l+b'\nV\t0\nA\t0\n'); add(l+b'\nV\t1\nA\t0\n')
add(b'W\t2\t1\nV\t3\nA\t1\nA\t2\n'); add(b'W\t3\t1\nV\t3\nA\t1\nV\t2\nB\t1\n'); add(b'W\t2\t2\nV\t3\nA\t1\t2\nB\t1\t2\n')
for k in [127,128,129]:
    add(matrix(1,128).replace(b'\n',b'\nV'+b'\t7'*k+b'\n',1))
add(w.replace(b'\n',b'\tclosest\nV'+b'\t9'*128+b'\n',1))  # the longest file
# names
row=lambda name: b'W\t1\t1\n'+name+b'\t5\n'
for nm in [b'A',b'z',b'Zz09_',b'_A',b'9A',b'',b'A-B',b'A B',b'ABCDEFGHIJKLMNOP',b'ABCDEFGHIJKLMNOPQ',b'A\x00',b'\x00',b'\x80',b'A\xff',b'@',b'[',b'`',b'{',b'A/',b'A:',b'A@',b'A[',b'A^',b'A`',b'A{']:
    add(row(nm))
for a,b,c in [(b'A',b'A',b'B'),(b'A',b'B',b'A'),(b'B',b'A',b'A'),(b'A',b'a',b'B'),(b'A',b'AA',b'AAA'),(b'AAA',b'AA',b'A'),(b'AB',b'A',b'AC'),(b'ABCDEFGHIJKLMNOP',b'ABCDEFGHIJKLMNO',b'ABCDEFGHIJKLMNOP')]:
    add(b'W\t3\t1\n'+b''.join(x+b'\t1\n' for x in (a,b,c)))
add(b'W\t2\t1\nA\t1\nA\tx\n')                  # name taken before the code's form
add(b'W\t2\t1\nA\t1\n1\tx\n'); add(b'W\t1\t2\nA\t1000\tx\n'); add(b'W\t1\t2\nA\tx\t1000\n'); add(b'W\t1\t2\nA\t1\t1000\n')
# rows
add(b'W\t2\t1\nA\t1\n'); add(b'W\t2\t1\nA\t1\nB\t1'); add(b'W\t2\t1\n'); add(b'W\t2\t1\n\nB\t1\n'); add(b'W\t2\t1\nA\t1\n\n'); add(b'W\t1\t1\nA\n'); add(b'W\t1\t1\nA\t\n'); add(b'W\t1\t1\n\t1\n'); add(b'W\t1\t1\n\t\n')
add(b'W\t1\t1\nA\t1\t1\n'); add(b'W\t1\t2\nA\t1\n'); add(b'W\t1\t2\nA\t1\t\n')
# behind the last row
for t in [b'x',b'\n',b'B\t1\n',b'\t',b'\x00',b'\n\n']:
    add(b'W\t1\t1\nA\t1\n'+t)
# a late refusal leaves the lists as they were
add(ex.replace(b'D\t-1\t1\t2',b'D\t-1\t1\t2x')); add(ex.replace(b'D\t-1\t1\t2',b'A\t-1\t1\t2')); add(ex.replace(b'D\t-1\t1\t2',b'D\t-1\t1\t-1000')); add(ex+b'E\t0\t0\t0\n')
# generated files, the small ones
taken=0; seed=0
while taken<300:
    seed+=1
    b=gen(seed)
    if len(b)<=700: add(b); taken+=1
many=0; seed=10000
while many<6:
    seed+=1
    b=gen(seed)
    if 700<len(b)<=45010: add(b); many+=1
# generated files with M-100 in force that carry a fourth field, the small ones
words=0; seed=20000
while words<80:
    seed+=1
    b=gen(seed,1)
    if len(b)<=300 and b.split(b'\n')[0].count(b'\t')==3: add(b); words+=1
# generated files with M-101 in force that carry a `V` line, the small ones
weighed=0; seed=30000
while weighed<80:
    seed+=1
    b=gen(seed,2)
    if len(b)<=300 and b.split(b'\n')[1:2]!=[] and b.split(b'\n')[1].split(b'\t')[0]==b'V': add(b); weighed+=1
# branchings, as the ancestors of nodes 2, 3, ..: HTUs one below another, with a taxon at each; the same numbered from below; pairs of pairs
def ladder(n): return [1][:n-1] if n<3 else [2*n-2]+[2*n+1-t for t in range(3,n+1)]+[1]+list(range(n+1,2*n-2))
def turned(n): return ladder(n) if n<4 else [a if a==1 else 3*n-1-a for a in ladder(n)[:n-1]]+[3*n-1-a for a in ladder(n)[:n-1:-1]]+[1]
def pairs(n): return ladder(n) if n<3 else [n+(t+n-3)//2 for t in range(2,n+1)]+[1]+[n+k//2 for k in range(2,n-1)]
C=lambda above: b''.join(b'C\t%d\t%d\n'%(v,a) for v,a in enumerate(above,2))
def own(n,above,v=b'',m=1,f=lambda v,j:(v*7+j*3)%19-9,name=lambda v:b'T%d'%v):
    first,rows=matrix(n,m,f,name).split(b'\n',1); return b'F'+first[1:]+b'\n'+v+rows+C(above)
vline=lambda m: b'V'+b''.join(b'\t%d'%((j+6)%9+1) for j in range(m))+b'\n'
fex=b'F'+ex[1:]+C([6,6,5,1,5]); add(fex); add(fex.replace(b'\n',b'\nV\t1\t9\t3\n',1)); add(b'F'+ex[1:]); add(ex+C([6,6,5,1,5]))
# `F` files of every size that counts, without a `V` line and with one
for n in [1,2,3,4,5,63,64]:
    for form in [ladder,turned,pairs][:1 if n<4 else 3]:
        add(own(n,form(n))); add(own(n,form(n),vline(1)))
add(own(1,[],b'',128)); add(own(1,[],vline(128),128)); add(own(1,[],vline(127),128)); add(own(65,ladder(65))); add(own(0,[]))
long_f=own(64,turned(64),b'V'+b'\t9'*128+b'\n',128,lambda v,j:-999,lambda v:b'Abcdefghijklm_%02d'%v); add(long_f)  # the longest `F` file
small=own(2,[1]); add(small+b'x'*(45001-len(small)))
# line 1 of an `F` file: three fields, and no word for the order
for l in [b'F',b'F\t',b'F\t1',b'F\t1\t1\t',b'F\t1\t1\tadvance',b'F\t1\t1\tclosest',b'F\t1\t1\tnot',b'F\t1\t1\tF',b'F\t1\t1\tclosest\t',b'F\t1\t1\t1\t1',b'F\t0\t1\tclosest',b'F 1 1',b'f\t1\t1',b'FF\t1\t1',b'WF\t1\t1',b'FW\t1\t1',b' F\t1\t1',b'F \t1\t1',b'F\r\t1\t1',b'F\x00\t1\t1',b'E\t1\t1',b'C\t1\t1',b'\xc6\t1\t1',b'1\tF\t1',b'F\t\t1',b'F\t1\t',b'F\tx\t1',b'F\t01\t1',b'F\t1\t01',b'F\t-1\t1',b'F\t1000000\t1',b'F\t999999\t1',b'F\t1\t999999',b'F\t0\t1',b'F\t1\t0',b'F\t65\t1',b'F\t1\t129',b'F\t1\t1\r',b'F\t1\t1 ',b'F\t1\t1']:
    add(l+b'\nA\t0\n')
add(b'F'); add(b'F\n'); add(b'F\t1\t1'); add(b'F\t1\t1\n'); add(b'F\t1\t1A\t0\n'); add(b'F\t2\t1\tclosest\nA\t0\nB\t1\nC\t2\t1\n'); add(b'W\t2\t1\tF\nA\t0\nB\t1\n')
# the rows and the `V` line of an `F` file are asked first
F=lambda rows: b'F\t2\t1\n'+rows
for rows in [b'',b'A\t0',b'A\t0\n',b'A\t0\nB\t1',b'A\t0\nA\t1\nC\t2\t2\n',b'A\t0\nB\tx\nC\t2\tx\n',b'A\t0\nB\t1000\nC\t3\t1\n',b'A\t0\n1B\t1\nC\n',b'A\t0\nB\t1\t1\nC\t2\t1\n',b'A\t0\nB\t1..2\nC\t2\t1\n',b'A\t0\nB\t2..2\nC\t2\t1\n',b'U\to\nA\t0\nB\t1\nC\t2\t1\n',b'N\t3\nA\t0\nB\t1\nC\t2\t1\n',b'V\t0\nA\tx\nB\t1\nC\n',b'V\t1\nA\tx\nB\t1\nC\n',b'V\t1\nA\t0\nB\t1\n',b'V\t1\nA\t0\nB\t1\nC\t2\t1',b'V\t1\nA\t0\nB\t1\nC\t2\t2\n',b'V\t1\nA\t0\nB\t1\nC\t2\t1\nC\t3\t1\n',b'V\t1\t1\nA\t0\nB\t1\nC\t2\t1\n',b'V\t1',b'V',b'\nA\t0\nB\t1\nC\t2\t1\n',b'A\t0\nB\t1\n\nC\t2\t1\n',b'A\t0\nC\t2\t1\nB\t1\n',b'C\t2\t1\nA\t0\nB\t1\n',b'A\t0\nB\t1\nV\t1\nC\t2\t1\n',b'A\t0\nB\t1\nC\t2\t1\nV\t1\n',b'A\t0\nB\t1\nD\t2\nC\t2\t1\n']:
    add(F(rows))
# one `C` line is missing, or its form or its node is wrong
ask=lambda line: F(b'A\t0\nB\t1\n'+line)
for line in [b'',b'C',b'C\t',b'C\t2',b'C\t2\t',b'C\t2\t1',b'C\t2\t1\r',b'\t',b'x']:
    add(ask(line))
for line in [b'',b'C',b'C\t2',b'C\t2\t',b'C\t\t1',b'C\t\t',b'C\t2\t1\t',b'C\t2\t1\t0',b'C\t2\t1\t0\t',b'\tC\t2\t1',b'C\t2\t\t1',b'C 2 1',b'2\t1',b'2\t1\t0',b'C\t1\t2',b'B\t2\t1',b'T\t2\t1',b'V\t2\t1',b'W\t2\t1',b'F\t2\t1']:
    add(ask(line+b'\n'))
for letter in [b'c',b'',b'CC',b' C',b'C ',b'C\r',b'C\x00',b'\xc3',b'#',b'c2']:
    add(ask(letter+b'\t2\t1\n'))
for v in [b'0',b'1',b'3',b'4',b'02',b'002',b'-2',b'+2',b' 2',b'2 ',b'2\r',b'2a',b'b2',b'2\x00',b'\xb2',b'2.',b'2..2',b'22',b'12',b'20',b'999999',b'1000000',b'0000002',b'258',b'65538',b'#1',b'B']:
    add(ask(b'C\t'+v+b'\t1\n'))
for a in [b'01',b'001',b'00',b'-0',b'-1',b'+1',b' 1',b'1 ',b'1\r',b'1a',b'a1',b'a',b'1\x00',b'\xb1',b'1.',b'1..1',b':',b'/',b'1:',b'/1',b'0000001',b'1000000',b'9999999',b'#1',b'A',b'-']:
    add(ask(b'C\t2\t'+a+b'\n'))
three=[b'F\t3\t1',b'A\t0',b'B\t1',b'D\t2',b'C\t2\t4',b'C\t3\t4',b'C\t4\t1']; lines=lambda l: b''.join(x+b'\n' for x in l)
for i in range(4,7):                           # one left out, twice, cut short, in another place, and a bad one
    add(lines(three[:i]+three[i+1:])); add(lines(three[:i+1]+three[i:])); add(lines(three[:i+1])[:-1]); add(lines(three[:i])); add(lines(three[:4]+three[i:]+three[4:i])); add(lines(three[:i]+[b'']+three[i:])); add(lines(three[:i]+[b'C\t%d\t0x'%(i-2)]+three[i+1:])); add(lines(three[:i]+[b'C\t%d\t01'%(i-2)]+three[i+1:])); add(lines(three[:1]+[b'V\t3']+three[1:i]+[b'c'+three[i][1:]]+three[i+1:]))
add(lines(three[:4]+three[:3:-1])); add(lines(three[:3]+three[4:]+three[3:4])); add(lines(three[:4]+[b'C\t4\t4',b'C\t4\t4',b'C\t4\t1'])); add(lines(three[:4]+[b'C\t1\t0']+three[4:])); add(lines(three).replace(b'\n',b'\r\n'))
for f in [own(64,ladder(64)),own(64,ladder(64),b'V\t5\n')]:  # the last of 125 lines
    last=b'C\t126\t125\n'; assert f.endswith(last); f=f[:-len(last)]
    for line in [b'',last[:-1],b'C\t126\t\n',b'C\t127\t125\n',b'C\t125\t124\n',last+b'x',last+b'C\t127\t126\n',b'C\t126\t127\n',b'C\t126\t126\n',b'C\t126\t0125\n']: add(f+line)
# does the file end behind the `C` lines? A branching that is none is asked for after that
for t in [b'x',b'\n',b'C',b'C\t3\t1\n',b'C\t3\t1',b'C\t2\t1\n',b'B\t1\n',b'\t',b'\x00',b'\r\n',b'\n\n']:
    add(ask(b'C\t2\t1\n'+t)); add(ask(b'C\t2\t2\n'+t)); add(ask(b'C\t2\t01\n'+t)); add(b'F\t1\t1\nA\t1\n'+t)
for t in [b'C\t2\t1\n',b'C\t1\t0\n',b'C\t1\t1\n',b'C\t2\t1']:
    add(b'F\t1\t1\nA\t1\n'+t); add(b'F\t1\t1\nV\t2\nA\t1\n'+t)
# no branching: every list of ancestors of three taxa, of four those that differ from a branching at one node
for a in [0,2,3,4,10,11,256,257,65536,65537,999999]: add(own(2,[a]))
for a in range(6):
    for b in range(6):
        for c in range(6): add(own(3,[a,b,c]))
for form in [ladder,turned,pairs]:
    for i in range(5):
        for a in [0,1,2,3,4,5,6,7,261,999999]: add(own(4,form(4)[:i]+[a]+form(4)[i+1:]))
# each node has its count of descendants, and some never reach node 1
for above in [[5,6,1,6,5],[5,6,6,5,1],[6,5,5,1,6],[1,5,5,6,6],[6,6,1,5,5],[1,6,6,5,5]]: add(own(4,above))
for above in [[6,7,8,1,7,8,6],[6,7,8,8,7,6,1],[6,6,7,8,1,8,7],[1,6,6,7,8,8,7]]: add(own(5,above))
add(own(64,[1]+[62+t for t in range(3,65)]+list(range(66,127))+[65])); add(own(64,[1]+[62+t for t in range(3,65)]+[126]+list(range(65,126)),b'V\t5\n'))
for n in [5,6,64]:                             # two ancestors changed places; one more or one less
    for form in [ladder,turned,pairs]:
        f=form(n)
        for i,j in [(0,n-1),(1,2*n-4),(0,1),(n-1,n),(2,n)]: g=f[:]; g[i],g[j]=g[j],g[i]; add(own(n,g))
        for i in [0,n-2,n-1,2*n-4]: add(own(n,f[:i]+[f[i]+1]+f[i+1:])); add(own(n,f[:i]+[f[i]-1]+f[i+1:]))
# a `W` file has no `C` lines; taxa may have the letters as names
for f in [b'W\t1\t1\nA\t0\nC\t2\t1\n',b'W\t2\t1\nA\t0\nB\t1\nC\t2\t1\n',b'W\t2\t1\nA\t0\nB\t1\nC\t2\t1',b'W\t2\t1\nA\t0\nB\t1\nC',b'W\t2\t1\nV\t2\nA\t0\nB\t1\nC\t2\t1\n',b'W\t2\t1\tclosest\nA\t0\nB\t1\nC\t2\t2\n',b'W\t3\t1\nA\t0\nB\t1\nC\t2\n',b'W\t3\t2\nA\t0\t0\nB\t1\t1\nC\t2\t1\n',b'W\t3\t2\nA\t0\t0\nB\t1\t1\nC\t2\t1\nC\t2\t1\n',b'W\t3\t2\nA\t0\t0\nF\t1\t1\nC\t2\t1\n',b'W\t2\t2\nF\t2\t2\nC\t2\t1\n',b'W\t2\t2\nC\t2\t1\nF\t2\t2\n',b'W\t4\t1\nC\t0\nF\t1\nW\t2\nV\t3\n',b'F\t4\t1\nC\t0\nF\t1\nW\t2\nV\t3\n'+C(ladder(4)),b'F\t4\t1\nV\t2\nV\t0\nF\t1\nW\t2\nC\t3\n'+C(ladder(4)),b'F\t2\t2\nA\t0\t0\nC\t2\t1\n',b'F\t2\t2\nA\t0\t0\nC\t2\t1\nC\t2\t1\n',b'F\t2\t2\nC\t2\t1\nA\t0\t0\nC\t2\t1\n',b'F\t2\t2\nC\t2\t1\nC\t2\t1\nC\t2\t1\n',b'F\t2\t2\nF\t2\t2\nC\t2\t1\nC\t2\t1\n',b'F\t2\t2\nF\t2\t2\nC\t2\t1\nC\t2\t2\n',b'F\t1\t2\nC\t2\t1\n',b'F\t1\t2\nF\t1\t2\n',b'F\t1\t1\nC\t1\n',b'F\t1\t2\nC\t2\t1\nC\t2\t1\n',b'F\t2\t1\nC\t2\nF\t1\nC\t2\t1\n',b'F\t2\t1\nU\t0\nN\t1\nC\t2\t1\n',b'F\t2\t1\nA\t0\nC\t1\nC\t2\t1\n',b'F\t2\t1\nA\t0\nC\t2\t1\n']:
    add(f)
# a refusal behind the rows leaves the lists as they were
add(fex[:-1]); add(fex[:-2]+b'6\n'); add(fex[:-2]+b'5x\n'); add(fex+b'C\t7\t1\n'); add(fex.replace(b'C\t6\t5',b'C\t7\t5')); add(long_f[:-3]+b'26\n')
# generated files with M-103 in force that begin with `F`, the small ones, and some others
taken=0; seed=40000
while taken<200:
    seed+=1
    b=gen(seed,4)
    if len(b)<=300 and b[:1]==b'F': add(b); taken+=1
many=0; seed=50000
while many<4:
    seed+=1
    b=gen(seed,4)
    if 700<len(b)<=45010 and b[:1]==b'F': add(b); many+=1
def branching(n,above):
    up=dict(enumerate(above,2)); nodes=range(1,max(2*n-1,2))
    if any(a not in nodes for a in above) or any(above.count(v)!=(1 if v==1 else 2 if v>n else 0) for v in nodes if n>1): return False
    for v in nodes:
        for _ in nodes: v=up.get(v,1)
        if v!=1: return False
    return len(above)==max(2*n-3,0)
def parse(b):
    lines=b.decode('ascii').split('\n'); assert lines[-1]==''
    w,n,m,*order=lines[0].split('\t'); n=int(n); m=int(m); assert w=='W' and order in ([],['advance'],['closest']) or w=='F' and order==[]
    weights=[1]*m; letter='-'; lines=lines[:-1]
    if lines[1].split('\t')[0]=='V': letter,*weights=lines[1].split('\t'); weights=[int(c) for c in weights]; del lines[1]
    assert len(weights)==m and all(1<=c<=9 for c in weights)
    rows=[l.split('\t') for l in lines[1:n+1]]; assert len(rows)==n and all(len(r)==m+1 for r in rows)
    above=[l.split('\t') for l in lines[n+1:]]; assert all(r==['C',str(v),str(int(r[2]))] for v,r in enumerate(above,2)); above=[int(r[2]) for r in above]
    assert branching(n,above) if w=='F' else above==[]
    return lines[0],n,m,letter+''.join('\t%d'%c for c in weights),[(r[0],[int(c) for c in r[1:]]) for r in rows],above
# lists that have not their full size
out=b''.join(b'R\t12\t0\nk\t%d\t%d\t%d\t%d\n'%sizes for sizes in [(16128,128,1023,375),(16129,128,1024,375),(16128,127,1024,375),(16128,128,1024,374)]); kinds={}
for b in cases:
    r=ref(b)
    if r.startswith(b'R\t'):
        out+=r+b'k\t16128\t128\t1024\t375\n'; k=r.split(b'\t')[1].decode()
    else:
        first,n,m,weights,rows,above=parse(b); k='ok '+first[0]
        out+=(first+'\n'+weights+'\n').encode()+b''.join((nm+''.join('\t%d'%c for c in cs)+'\n').encode() for nm,cs in rows)
        out+=b''.join(b'C\t%d\t%d\t0\n'%(v,a) for v,a in enumerate(above,2))+b'k\t%d\t%d\t%d\t%d\n'%(16128-n*m,128-m,1024-16*n,375-3*len(above))
    kinds[k]=kinds.get(k,0)+1
open(OUT+'data/cases','wb').write(b''.join(len(b).to_bytes(3,'big')+b for b in cases))
open(OUT+'stdout','wb').write(out)
print(len(cases),sum(map(len,cases)),len(out),sorted(kinds.items()))
