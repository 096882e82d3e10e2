# The model's analysis for loops nested deep, where passes within passes would take too long, and tables with such loops.
import model
from model import *
from programs import v, n, skip
# the analysis with results remembered; the notes, and what enters each command, come from one walk at the settled labelling (= the model's last pass)
def remembered(p):
    memo={}
    def res(t,ctx,L):
        key=(t[0],ctx,L)
        if key not in memo: memo[key]=res1(t,ctx,L)
        return memo[key]
    def settled(t,ctx,L):
        while True:
            c=elabel(t[2],L); M=join(L,res(t[3],ctx|c,L))
            if M==L: return c,L
            L=M
    def res1(t,ctx,L):
        k=t[1]
        if k=='seq': return res(t[3],ctx,res(t[2],ctx,L))
        if k=='if':
            c=elabel(t[2],L); return join(res(t[3],ctx|c,L),res(t[4],ctx|c,L))
        if k=='while': return settled(t,ctx,L)[1]
        return model.analyse(t,ctx,L,{},{})
    notes,before={},{}
    def walk(t,ctx,L):
        k=t[1]; before[t[0]]=L
        if k=='seq':
            M=res(t[2],ctx,L); notes[t[0]]=('seq',M); walk(t[2],ctx,L); walk(t[3],ctx,M)
        elif k=='if':
            c=elabel(t[2],L); notes[t[0]]=('if',c); walk(t[3],ctx|c,L); walk(t[4],ctx|c,L)
        elif k=='while':
            c,S=settled(t,ctx,L); notes[t[0]]=('while',c,S); walk(t[3],ctx|c,S)
        else: model.analyse(t,ctx,L,notes,{})
    L0=(p['vm'],p['am']); walk(p['root'],0,L0)
    return res(p['root'],0,L0), notes, before
def remembering(make):
    def made(p,*more):
        F,notes,before=remembered(p)
        old=model.analyse
        def fake(t,ctx,L,out,entered): out.update(notes); entered.update(before); return F
        model.analyse=fake
        try: return make(p,*more)
        finally: model.analyse=old
    return made
# d loops, each with a variable that its end makes secret and its start public again
def nest(d,secret,i=0):
    if i==d: return skip
    x=i%secret
    return ('while',('const',1),('seq',('assign',x,n(0)),('seq',nest(d,secret,i+1),('assign',x,v(secret)))))
def nested(d,V): return flat(table(V,1<<V-1,[],0,nest(d,V-1)))
