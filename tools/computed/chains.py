#!/usr/bin/env python3
"""chains.py: writes crates/chains/specs, for each case that answers/computed.txt marks `chain` the theorem that `reply` of its input is the Rust's output,
as a chain with one theorem for each attempt, for runs too long for one computation. The states between attempts are those of the rendered definition;
that they are right is what the theorems say."""
import json
import os
import subprocess
import sys
from common import ROOT, answer, listed, literal, write

RENDERED = ROOT + '/target/render/definition.js'


def chain(name):
    i, o = answer(name)
    command = 'ulimit -s unlimited 2>/dev/null; exec node --stack-size=60000 "$@"'
    out = subprocess.run(['bash', '-c', command, 'node', ROOT + '/tools/computed/trace.js', RENDERED, ROOT + '/answers/small/' + name], capture_output=True, text=True, check=True).stdout
    d = json.loads(out)
    full='opened_attempts'
    h='''-- From the oracle's case %s: one theorem for each attempt, and a chain of them. Made by tools/computed/chains.py.
use Rattle.std.specs.Prelude.{◌≡◌, refl, Bool, true, false, List, [], ◌∷◌, map, ℕ, suc, ℤ, pos, negsuc, Float}
use Rattle.std.proofs.Common.{ap, ◌∙◌}
use Rattle.std.specs.Float.{nan, inf, fin}
use Rattle.vectors.specs.Opened.{opened_attempts}
use %s.{edges_none, edges_stuck, edges_progressed, edges_limited, edges_stopped, loops_none, loops_stuck, loops_progressed, loops_limited, loops_stopped, round_loops, run_progressed, run_stuck, run_limited, run_stopped}
'''%(name,'Rattle.vectors.specs.Steps')
    types={'Plane':['Node','Edge'],'Cells':['Tri','Quad','Cell','tri','quad','Live','Event','was_split','was_flipped','was_placed','Mesh'],'Numbers':['Settings'],'Counts':['of_points','of_slots'],'Front':['State','Progress','stuck','progressed','limited','stopped'],'Text':['Bytes','Input']}
    need={'Cells':['front'],'Loops':['front_loops'],'Front':['attempt','open_edges','try_edges','round','front_loop','outcome','counting'],'Call':['after_run'],'Text':['bytes','reply','show_returned','lent_for'],'Plane':[],'Numbers':['base','max_attempts'],'Counts':['tally','◌⊞◌','emptied']}
    for m,l in need.items():
        h+='use Rattle.definition.specs.%s.{%s}\n'%(m,', '.join(l+types.get(m,[])))
    S=d['settings']
    T=[h,'''
abbrev pt : Float → Float → Float → Node
pt a b c = record { x = a; y = b; z = c }
abbrev tr : ℕ → ℕ → ℕ → Tri
tr a b c = record { n0 = a; n1 = b; n2 = c }
abbrev qd : ℕ → ℕ → ℕ → ℕ → Edge → ℕ → ℕ → Quad
qd a b c d e r k = record { n0 = a; n1 = b; n2 = c; n3 = d; edge = e; round = r; replaced = k }
abbrev lv : ℕ → Cell → Live
lv n c = record { slot = n; cell = c }
''']
    T.append('s : Settings\ns = record { quality = base; attempts = max_attempts %d; capacity = 96; slots = 160; room = 0; size = %s; even = %s }\n'%(int(S['given']),S['size'],str(S['even']).lower()))
    for k,p in enumerate(d['points']): T.append('points_%d : List Node\npoints_%d = %s\n'%(k,k,p))
    for k,p in enumerate(d['states']): T.append('st_%d : State\nst_%d = %s\n'%(k,k,p))
    allst=' '.join(['s']+['points_%d'%k for k in range(len(d['points']))])
    def un(*sts): return 'unfolding %s %s %s'%(full,allst,' '.join(sorted(set(sts))))
    g=S['given']; fuel=200*int(g)+10002
    cnt={}
    def nm(p): cnt[p]=cnt.get(p,0)+1; return '%s_%d'%(p,cnt[p]-1)
    def thm(n,ty,body,u=None): T.append('%s : %s\n%s%s = %s\n'%(n,ty,(u+'\n') if u else '',n,body))
    ev=d['events']; k=0; rounds=[]; front=None; cur=None
    for e in ev:
        if e['t']=='front': front=e['out']
        elif e['t']=='round': cur={'st':e['st'],'front':front,'loops':None,'opens':[]}; rounds.append(cur)
        elif e['t']=='loops': cur['loops']=e['out']
        elif e['t']=='open': cur['opens'].append({'st':e['st'],'l':e['l'],'out':e['out'],'att':[]})
        elif e['t']=='attempt': cur['opens'][-1]['att'].append(e)
        elif e['t']=='round-end': cur['res']=e['res']
    def val(r): return r['w']+' '+r['st'] if r['tag']=='stopped' else r['st']
    def arg(r): return r['st']+' '+r['w'] if r['tag']=='stopped' else r['st']
    def tail(l,k): return ' ∷ '.join(l[k:]+['[]'])
    runs=[]
    for r in rounds:
        st=r['st']; fr=nm('front_is')
        thm(fr,'front %s.mesh ≡ %s'%(st,r['front']),'refl',un(st))
        rr=r['res']; rd=nm('round_is'); rty='round s %s %s (%s) ≡ %s %s'%(g,st,r['front'],rr['tag'],val(rr))
        if r['loops'] is None: thm(rd,rty,'refl','unfolding round counting ◌⊞◌ emptied tally %s %s'%(st,val(rr)))
        else:
            lo=nm('loops_are'); ls=['('+l+')' for l in r['loops']]
            fe=r['front'].split(' ∷ ')
            thm(lo,'front_loops %s.mesh.points (%s) ≡ %s'%(st,r['front'],tail(ls,0)),'refl',un(st))
            parts=['round_loops s %s %s %s (%s) (%s) %s'%(g,st,fe[0],tail(fe[1:-1],0) if len(fe)>2 else '[]',tail(ls,0),lo)]
            for j,q in enumerate(r['opens']):
                on=nm('open_is'); thm(on,'open_edges %s (%s) ≡ %s'%(q['st'],q['l'],tail(q['out'],0)),'refl',un(q['st']))
                es=[]; last=la=q['st']; tag='stuck'
                for a,x in enumerate(q['att']):
                    an=nm('attempt_is'); thm(an,'attempt s %s %s %s ≡ %s %s'%(g,x['st'],x['e'],x['res']['tag'],val(x['res'])),'refl',un(x['st'],*([x['res']['st']] if 'st' in x['res'] else [])))
                    es.append('edges_%s s %s %s %s %s (%s) %s'%(x['res']['tag'],g,x['st'],arg(x['res']),x['e'],tail(q['out'],a+1),an)); last=val(x['res']); la=arg(x['res']); tag=x['res']['tag']
                if tag=='stuck': es.append('edges_none s %s %s'%(g,last))
                en=nm('edges_are'); thm(en,'try_edges s %s %s (%s) ≡ %s %s'%(g,q['st'],tail(q['out'],0),tag,last),' ∙ '.join(es))
                parts.append('loops_%s s %s %s %s (%s) (%s) (%s) %s %s'%(tag,g,q['st'],la,ls[j][1:-1],tail(ls,j+1),tail(q['out'],0),on,en))
            if rr['tag']=='stuck' and tag=='stuck': parts.append('loops_none s %s %s'%(g,rr['st']))
            thm(rd,rty,' ∙ '.join(parts))
        fuel-=1
        runs.append('run_%s s %s %d %s %s (%s) %s %s'%(rr['tag'],g,fuel,st,arg(rr),r['front'],fr,rd))
    final=val(rounds[-1]['res']); ended='stopped' if rounds[-1]['res']['tag']=='stopped' else 'stuck'
    # the given points' bits
    ls_=i.decode().split('\n'); nt,npt=int(ls_[1].split()[0]),int(ls_[1].split()[1])
    bits=['('+' ∷ '.join(['0x'+w for w in l.split()]+['[]'])+')' for l in ls_[4+nt:4+nt+npt]]
    trs=['('+' ∷ '.join(l.split()+['[]'])+')' for l in ls_[3:3+nt]]
    hd=ls_[1].split()
    T.append('given : List (List ℕ)\ngiven = %s\n'%tail(bits,0))
    T.append('the_input : Input\nthe_input = record { size = 0x%s; stop = %s; triangles = %s; points = given }\n'%(hd[2],hd[3],tail(trs,0)))
    f0=200*int(g)+10002
    T.append('input_text : Bytes\ninput_text = bytes %s\n\noutput_text : Bytes\noutput_text = bytes %s\n'%(literal(i),literal(o)))
    thm('begins','reply input_text ≡ show_returned given (after_run (lent_for the_input) (outcome (front_loop %d s %s %s)))'%(f0,g,rounds[0]['st']),'refl',un(rounds[0]['st'],'given','the_input','input_text'))
    thm('the_run','front_loop %d s %s %s ≡ %s %s'%(f0,g,rounds[0]['st'],ended,final),' ∙ '.join(runs))
    thm('finishes','show_returned given (after_run (lent_for the_input) (outcome (%s %s))) ≡ output_text'%(ended,final),'refl',un(final.split()[-1],'given','the_input','output_text'))
    T.append('case : reply input_text ≡ output_text\ncase = begins ∙ ap (λ r. show_returned given (after_run (lent_for the_input) (outcome r))) the_run ∙ finishes\n')
    return '\n'.join(T)


if __name__ == '__main__':
    os.makedirs(ROOT + '/target/render', exist_ok=True)
    subprocess.run([sys.executable, ROOT + '/tools/render/tojs.py', RENDERED], env=dict(os.environ, DEFDIR=ROOT + '/crates/definition/specs/'), check=True)

    cases = listed('chain')
    for k, name in enumerate(cases):
        write(ROOT + '/crates/chains/specs/Chain%d.antt' % k, chain(name))
    write(ROOT + '/crates/chains/specs/Lib.antt', ''.join('pub mod Chain%d\n' % k for k in range(len(cases))))
    write(ROOT + '/crates/chains/src/lib.rt', '// Longer answers of the Rust as theorems of specs/; this crate has no functions.\n#![tactic(auto)]\n')
    print(len(cases), 'chains')
