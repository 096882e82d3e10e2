# Calls of flow_sheet.
from model import *
from calls import sheet as case, head, labels, array as arr, node
from programs import T, seqs, v, n, skip
from remembered import remembering, nested
sheet2=remembering(sheet)
SK=node('skip')
def refused():
    good=head()+labels()+SK
    # 1
    case([],4,16,(1,0)); case(good[:3],4,16,(1,0)); case(good[:9],4,16,(1,0)); case(good[:10],4,16,(1,10)); case(good[:19],4,16,(1,10))
    case(good[:20],4,16,(1,20)); case(good[:23],4,16,(1,20)); case(head(1,0,1)+labels()+node('assign',0,0)[:7],4,16,(1,20))
    # 2; before the body is found cut
    case([10,0,2,0],4,16,(2,0)); case([9,0,1,0],4,16,(2,0)); case(head()+SK,4,16,(2,10)); case(head(0,1,1)+labels()+SK,4,16,(2,20))
    case(head()+labels()+[4,0,99,0],4,16,(2,20)); case(head()+labels()+[5,0,48,0,0],4,16,(2,20)); case(head()+labels()+[4,0,16,0],4,16,(2,20))
    case(head()+labels()+[4,0,55,0],4,16,(2,20)); case(head()+labels()+[4,0,15,0],4,16,(2,20))
    # 3, but for the first: version 2 has longer labels (P7)
    case(head(version=2)+labels()+SK,4,16,(2,10)); case(head(version=0)+labels()+SK,4,16,(3,0)); case(head(33)+labels()+SK,4,16,(3,0)); case(head(0,17)+labels()+SK,4,16,(3,0))
    case(head(N=0)+labels(),4,16,(3,0)); case(head(N=4097)+labels()+SK,4,16,(3,0))
    case(head(3)+labels(8)+SK,4,16,(3,10)); case(head(0,2)+labels(0,4)+arr(1)+arr(1)+SK,4,16,(3,10)); case(head(31)+labels(1<<31)+SK,4,16,(3,10))
    case(head(0,1)+labels()+arr(0)+SK,4,16,(3,20)); case(head(0,2)+labels()+arr(16384)+arr(1)+SK,4,16,(3,26)); case(head(0,1)+labels()+arr(16385)+SK,4,16,(3,20))
    # 4; before 5
    two=head(1,1,2)+labels()+arr(1)   # nodes from 26
    case(head(1,1,1)+labels()+arr(1)+node('var',1),4,16,(4,26)); case(two+node('num',5)+node('assign',1,0),4,16,(4,34))
    case(two+node('num',5)+node('read',0,1,0),4,16,(4,34)); case(two+node('num',5)+node('write',1,0,0),4,16,(4,34))
    case(head(1,1,1)+labels()+arr(1)+node('assign',0,0),4,16,(4,26)); case(two+node('num',5)+node('assign',0,1),4,16,(4,34))
    case(head()+labels()+node('const',2),4,16,(4,20)); case(two+SK+node('assign',1,0),4,16,(4,30))
    case(two+SK+node('seq',0,1),4,16,(4,30))
    # 5
    case(two+SK+node('assign',0,0),4,16,(5,30)); case(two+node('num',5)+node('not',0),4,16,(5,34)); case(two+node('const',1)+node('seq',0,0),4,16,(5,32))
    case(two+node('const',1)+node('add',0,0),4,16,(5,32)); case(two+node('const',1)+node('while',0,0),4,16,(5,32))
    # 6; before 7
    case(head(N=2)+labels()+SK+SK,4,16,(6,20)); case(head(N=2)+labels()+SK+node('seq',0,0),4,16,(6,20)); case(head()+labels()+node('num',5),4,16,(6,20))
    case(head(N=2)+labels()+SK+SK+[1],4,16,(6,20)); case(head(N=2)+labels()+node('const',1)+node('not',0),4,16,(6,26))
    # 7; before 23
    case(good+[0],4,16,(7,24)); case(good+SK,0,16,(7,24))
    # 23: the sheet of skip takes 14 bytes
    case(good,0,16,(23,0)); case(good,13,16,(23,0)); case(good,14,16,(0,14)); case(good,17,16,(0,14))
    # answer slices of other lengths
    for k in (0,7,8,15,20): case(good,14,k,(0,14)); case([],2,k,(1,0))
def add_sheet_cases():
    refused()
    for k in ('loop','straight','branch','branchThen','secretIf','publicIf','bounds','skip31','skip32','chain'):
        b=flat(T[k]); size=len(flat(sheet(readTable(b)))); assert sheet2(readTable(b))==sheet(readTable(b))
        case(b,size+2,16,(0,size))
        case(b,size-1,16,(23,0))
    # all kinds, with secrets in index, condition and array
    al=('seq',('if',('and',('not',('lt',v(0),n(7))),('eq',v(1),('mul',n(3),v(0)))),('read',2,0,('sub',v(3),n(1))),('write',1,v(3),v(0))),
        ('while',('const',0),('seq',('write',0,v(0),('choice',('const',1),v(1),n(4294967295))),('seq',('read',1,1,('add',v(0),v(0))),skip))))
    for vm,am in ((0,0),(1,0),(2,0),(8,0),(0,1),(0,2),(15,3)):
        b=flat(table(4,vm,[2,3],am,al)); size=len(flat(sheet(readTable(b)))); case(b,size,16,(0,size))
    # 4,096 nodes
    nots=('const',0)
    for _ in range(4091): nots=('not',nots)
    big=flat(table(2,2,[],0,('assign',0,('choice',nots,v(1),n(1))))); assert readTable(big)['N']==4096
    case(big,14,16,(0,14))
    sk=flat(table(1,0,[],0,seqs([skip]*2047+[('assign',0,n(1))]))); assert readTable(sk)['N']==4096
    case(sk,0,16,(23,0))
    # nested loops
    for d in range(1,11):
        p=readTable(nested(d,32)); assert sheet2(p)==sheet(p),d
    for d in (10,60):
        b=nested(d,32); size=14+d*(14+12+12); assert all(0<=x<256 for x in b); case(b,size,16,(0,size),sheet2)
