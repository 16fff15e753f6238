# Writes the walks of the exports that take a cache, from the kinds of their other parameters. Run it in crates/vtex_c, then `rt tidy`.
# Kinds: num (u32), slice (&[T]), ref (&T), mutref (&mut T), mutslice (&mut [T], alone or behind one number or slice). The inner function takes `&mut Cache` and then
# the same parameters, answers a u32, and has one clause, a record with a field `long` where there is a mutslice. vtex_cache_init is not among them.
import os
CR='vtex_c'
IMPORTS="◌≡◌, ℕ, List, [], ◌∷◌, refl, w32, MutBor, proved, full_share, id⊢, Lft, GName, ftrue, flft, fres, flent, named, Val, vint, vptr, fact, tables, Body, ‵, raw, ◌⊛◌, some, later, prop, ◌$◌, ◌∵◌, !, qed, done, move, keep, drop, use1, use2, use3, split, join, fsplit, fjoin, frame, show, pick, await, regoal, suffices, group, lft_new, lft_end, enter, of_opd, addr, from, fld, hop, stop, no_more, and_then, returns, agg, sub, whole, look_in_at, get_in, alloc_all, pass_all, free_all, look_at, get, through, sets, lands_as, u8, u32, SliceRefOf, RefOf, yes, Is, shows, lends_ref, ref_back, mem, uint_Lawful, uint_vals, uint_Tells, Ptr, RawPtr, block_ptr, lies_at, in_a_block, rawptr_vals, rawptr_Tells, MutRef, mut_vals, shr_vals, shr_Tells, shr_slice_vals, mut_slice_vals, shr_slice_Tells, mut_slice_Tells, slice_val, owns, types_at, sep, plain, nothing, heard, peeks, calls_at, Lasts, lasts, on_entry, triple_of, Stays, walk_of, says, stay_dropped, Goes-dropped, gave_slice, Goes-gave_slice, gave_ref, Goes-gave_ref, mut_Tells, ends_at, framed"
def nest(xs): return ''.join('('+x+', ' for x in xs)+'tt'+')'*len(xs)
def proj(k): return '.1'*k+'.0'
def gen(fn, callee, mod, params, fact, fact_imports, comment):
    # params: list of (kind,row,rowimport)
    nl=sum(1 for p in params if p[0]!='num')
    j=0; stays=['stay_dropped _ yes']; goes=['Goes-dropped 𝓛 %d (plain (λ _. RawPtr)) yes (λ κs x w. refl)'%nl]
    vals=[]; tells=[]; wts=['(tt, tt)']; restv=[]; stm=[]; fits=['tt']; uses=[]
    stay_list=['stay_dropped _ yes']; fit_list=['tt']
    for k,(kind,row,imp) in enumerate(params):
        i=k+1; A='a'+proj(i); ar='are'+proj(i)
        if imp and imp not in uses: uses.append(imp)
        if kind=='num':
            stay_list.append('stay_dropped _ yes'); fit_list.append('tt')
            goes.append('Goes-dropped 𝓛 %d (plain (λ _. u32)) yes (λ κs x w. refl)'%nl)
            vals.append('uint_vals w32'); tells.append('uint_Tells w32'); restv.append('uint_vals w32 '+A)
            wts.append('(tt, record { fits = %s.1 })'%ar)
        elif kind=='slice':
            stay_list.append('stay_dropped _ yes'); fit_list.append('tt')
            goes.append('Goes-dropped 𝓛 %d (SliceRefOf (%d ∷ []) tt (plain (λ _. %s)) (λ _. tt)) yes (λ κs x w. refl)'%(nl,j,row))
            vals.append('shr_slice_vals'); tells.append('shr_slice_Tells (named %d) κs%s %s'%(j,proj(j),row)); restv.append('shr_slice_vals '+A)
            wts.append('(tt, (tt, (record { fits = %s.0.0.1.0 }, tt)))'%('are'+'.1'*i)); j+=1
        elif kind=='ref':
            stay_list.append('stay_dropped _ yes'); fit_list.append('tt')
            goes.append('Goes-dropped 𝓛 %d (RefOf (%d ∷ []) tt (plain (λ _. %s)) (λ _. tt)) yes (λ κs x w. refl)'%(nl,j,row))
            vals.append('shr_vals'); tells.append('shr_Tells (named %d) κs%s %s'%(j,proj(j),row)); restv.append('shr_vals '+A)
            wts.append('(tt, tt)'); j+=1
        elif kind=='mutslice':
            stay_list.append('gave_slice (%d ∷ []) tt (plain (λ _. %s))'%(j,row)); fit_list.append('told.long')
            goes.append('Goes-gave_slice 𝓛 %d %d tt (plain (λ _. %s))'%(nl,j,row))
            vals.append('mut_slice_vals'); tells.append('mut_slice_Tells (named %d) κs%s %s'%(j,proj(j),row)); restv.append('mut_slice_vals '+A)
            f='record { fits = %s.0.0.1.0 }'%('are'+'.1'*i)
            wts.append('(tt, (tt, (%s, tt)))'%f); j+=1
            stm.append('    sets ! (addr ! (from ! (fld ! refl (hop ! (look_in_at ! %d (sub ! 0 refl (whole !))) (stop !))))) refl (tt, tt) $\n    sets ! (agg ! (and_then ! (get ! refl) (and_then ! (get_in ! (fld ! refl (stop !)) (sub ! 1 refl (whole !))) (no_more !)))) refl (tt, (tt, (%s, tt))) $\n'%(i+1,f))
        elif kind=='mutref':
            stay_list.append('gave_ref (%d ∷ []) tt (plain (λ _. %s))'%(j,row)); fit_list.append('tt')
            goes.append('Goes-gave_ref 𝓛 %d %d tt (plain (λ _. %s))'%(nl,j,row))
            vals.append('mut_vals'); tells.append('mut_Tells (named %d) κs%s %s'%(j,proj(j),row)); restv.append('mut_vals '+A)
            wts.append('(tt, tt)'); j+=1
            stm.append('    sets ! (addr ! (through ! refl (stop !))) refl (tt, tt) $\n')
    n=len(params)
    toks=' ⊛ '.join(['‵ (flft κs%s qs%s)'%(proj(i),proj(i)) for i in range(nl)]+['‵ ftrue'])
    restty=''.join('(List Val × ' for _ in params)+'Unit {0}'+')'*n
    resttype = restty
    args='(and_then ! (get ! refl) '*(n+1)+'(no_more !)'+')'*(n+1)
    has_mut=any(p[0]=='mutslice' for p in params)
    if has_mut and n==1:
        endstep='''    move ! (2 ∷ []) $ fsplit ! $ fsplit ! $ fsplit ! $
    -- [what says the slice's last value; its length; its borrow; nothing; the cache; its borrow; the result; the tokens]
    move ! (0 ∷ 2 ∷ []) $ fjoin ! $ move ! (0 ∷ 2 ∷ []) $ fjoin ! $ nothing ! $ fjoin ! $ keep ! (5 ∷ 0 ∷ 4 ∷ 2 ∷ []) $ group ! 3 $ frame ! $
'''
    elif has_mut:
        assert [p[0] for p in params] in (['num','mutslice'],['slice','mutslice'])
        endstep='''    move ! (2 ∷ []) $ fsplit ! $ move ! (1 ∷ []) $ fsplit ! $ fsplit ! $ fsplit ! $
    -- [what says the slice's last value; its length; its borrow; nothing; the number's; the cache; its borrow; the result; the tokens]
    move ! (0 ∷ 2 ∷ []) $ fjoin ! $ move ! (0 ∷ 2 ∷ []) $ fjoin ! $ move ! (2 ∷ 0 ∷ []) $ fjoin ! $ nothing ! $ fjoin ! $
    keep ! (5 ∷ 0 ∷ 4 ∷ 2 ∷ []) $ group ! 3 $ frame ! $
'''
    else:
        endstep='''    keep ! (2 ∷ 4 ∷ 3 ∷ 0 ∷ []) $ nothing ! $ fjoin ! $ move ! (1 ∷ 0 ∷ []) $ group ! 3 $ frame ! $
'''
    imports=IMPORTS
    s='''-- %s
use Rattle.%s.proofs.Steps.{%s}
use types.Logic.{sem}
use prog.Wp.{WpFn}
%s
use Rattle.%s.specs.contracts.cache.Cache.{the_row as R}
%suse Rattle.%s.specs.contracts.%s as f
use Rattle.%s.proofs.%s.Statement.{statement}
use Rattle.%s.proofs.%s.Code as code
use Rattle.%s.specs.contracts.%s.%s as g
use Rattle.%s.proofs.%s.%s.Met.{met}

abbrev stayed : Stays f.ended.signature.params f.ended.kept
stayed = %s

pub %s_spec : {M : Type 1} → statement M
%s_spec 𝓤 𝓛 𝓜 𝓡 wired =
    let c = f.clauses 𝓛 𝓜.mem 𝓡.returns in let W = walk_of 𝓛 f.ended stayed c in let 𝓣 = tables 𝓤 𝓛.H 𝓜 𝓡 𝓡.env in
    proved 𝓛 f.ended stayed c 𝓜 𝓡 %s
    f.Key.name code.function (code.unfolded 𝓤 𝓛.H 𝓜 𝓡 wired)
    (λ κs. %s) (λ κs. %s) (λ κs qs bounds a x are.
    let rest : %s = %s in
    let y : Ptr → W.Ghost = λ p. ((κs, qs, bounds, (p, a.1), (rawptr_vals p, rest)), x) in
    let toks = %s in
    qed 𝓛 ((toks ⊛ ‵ (owns (types_at f.signature.params κs) a (y a.0).0.4)) ∷ ‵ (lies_at R full_share a.0 x) ∷ []) ∵
    split ! $ move ! (1 ∷ []) $ fsplit ! $ drop ! $ move ! (2 ∷ []) $
    in_a_block ! a.0 (λ p. lies_at R full_share p x) (id⊢ 𝓤 _) (λ b o e.
    regoal ! (λ p. prop (WpFn 𝓤 𝓛.H 𝓣.C 𝓣.Λ code.function (W.args (y p)) (W.post (y p)))) e refl $
    enter ! _ _ _ _ _ $ alloc_all ! (λ l. pass_all ! refl %s $
    sets ! (of_opd ! (get ! refl)) refl (tt, tt) $
    sets ! (addr ! (through ! refl (stop !))) refl (tt, tt) $
%s    -- [the cache; the other parameters; the tokens]
    lft_new ! tt (λ α. let κ : Lft = α ∷ [] in move ! (1 ∷ 0 ∷ []) $
    use1 𝓛 (later (some (λ (γ : GName). ‵ ((MutRef (named 0) κ R).own_val (record { ref_ptr = (b, o); ghost_name = γ; now = x }) (vptr b o ∷ [])) ⊛ ‵ (flent κ (Body (mem R) b o γ)))))
    (lends_ref 𝓛 R (named 0) κ x b o) $ await ! tt $ pick ! (λ γ. split ! $
    -- [the loan; the lender's part; its token; the other parameters; the tokens]
    let G = triple_of 𝓛 g.signature (g.spec 𝓛 𝓜.mem 𝓡.returns) in
    let m : MutBor R.Denot = record { ref_ptr = (b, o); ghost_name = γ; now = x } in
    let z : G.Ghost = (((κ, κs), (full_share, qs), tt, (m, a.1), (vptr b o ∷ [], rest)), tt) in
    move ! (0 ∷ 3 ∷ []) $ fjoin ! $ move ! (2 ∷ 3 ∷ []) $ join ! $ join ! $ nothing ! $ move ! (1 ∷ 0 ∷ []) $ use2 𝓛 (raw (G.pre z)) (id⊢ 𝓤 _) $
    calls_at ! (framed 𝓤 𝓛.H 𝓜 (tables 𝓤 𝓛.H 𝓜 𝓡 𝓡.env)) G (met 𝓤 𝓛 𝓜 𝓡 (code.calls-%s::%s::%s 𝓡.env wired)) z
    %s (λ v.
    use1 𝓛 (later (some (λ (u : ℕ). ((‵ (flft κ full_share) ⊛ toks) ⊛ ‵ (u32.own_val u (v ∷ []))) ⊛
    some (λ (ws : Lasts g.ended z.0.0 z.0.3). ‵ (lasts g.ended z.0.0 z.0.3 ws) ⊛ raw (fact 𝓤 (%s)))))) (id⊢ 𝓤 _) $
    await ! tt $ pick ! (λ u. split ! $ split ! $ split ! $ lft_end ! tt $
    -- [over; the tokens; the result; its last values; the lender's part]
    move ! (2 ∷ []) $ peeks ! u32 (Is u32) (shows 𝓛 u32) u (v ∷ []) (λ is. lands_as ! refl refl ((uint_Lawful 𝓛 w32).typed u _ is).0 $
    move ! (3 ∷ []) $ pick ! (λ ws. split ! $ move ! (1 ∷ []) $ heard ! _ (λ told. fsplit ! $ fsplit ! $
    -- [its last value; its borrow; the others'; the result; over; the tokens; the lender's part]
    move ! (4 ∷ 6 ∷ 0 ∷ []) $ use3 𝓛 (later (‵ ((mem R).own_at ws.0 b o))) (ref_back 𝓛 R κ γ ws.0 b o) $ await ! tt $
    -- [the cache; its borrow; the others'; the result; the tokens]
    returns ! (look_at ! 0 refl) $ free_all ! refl $
    suffices ! _ (ends_at 𝓛 f.ended stayed c (y (block_ptr b o)) v u (tt, ws.1) %s) $
%s    show ! (λ d. sep 𝓤 (sem 𝓛 (lies_at R full_share (block_ptr b o) d)) (fact 𝓤 (%s))) ws.0 $ says ! told $ done !))))))))))
'''%(comment,CR,imports,fact_imports,CR,''.join(u+'\n' for u in uses),CR,fn,CR,fn,CR,fn,CR,mod,callee,CR,mod,callee,nest(stay_list),fn,fn,nest(goes),nest(['rawptr_vals']+vals),nest(['rawptr_Tells']+tells),resttype,nest(restv),toks,nest(wts),''.join(stm),CR,mod,callee,args,fact%'ws.0',nest(fit_list),endstep,fact%'d')
    os.makedirs('proofs/'+fn,exist_ok=True)
    open('proofs/'+fn+'/Proof.antt','w').write(s)
CF='use Rattle.vtex_c.specs.Caches.{%s}'
SHAPE='use Rattle.vtex_c.specs.contracts.shape.VtexShape.{the_row as ShapeRow}'
def row(mod,name): return 'use Rattle.vt_residency.specs.contracts.%s.%s.{the_row as %sRow}'%(mod,name,name)
TALLY='\nuse Rattle.vt_residency.specs.Tallies.{%s}'
def lent(name): return 'The cache is lent to `%s` for a lifetime of its own, and comes back.'%name
gen('vtex_cache_close','close','cache',[],'IsClosed x u %s',CF%'IsClosed',lent('close'))
gen('vtex_cache_open','open','cache',[('ref','ShapeRow',SHAPE),('num','u32',None),('num','u32',None)],'IsCacheOpened x a.1.0.now a.1.1.0 a.1.1.1.0 u %s',CF%'IsCacheOpened',lent('open'))
gen('vtex_cache_pass_counts','pass_counts','cache',[('slice','u32',None),('num','u32',None)],'IsPassedBy x (slice_index a.1.0.now) (AreCounts a.1.0.now) a.1.1.0 u %s',CF%'IsPassedBy, AreCounts'+'\nuse Rattle.std.specs.Prelude.{slice_index}',lent('pass_counts'))
gen('vtex_cache_pass_wanted','pass_wanted','cache',[('slice','ListedRow',row('feedback','Listed')),('num','u32',None)],'IsPassedBy x (pixels_of a.1.0.now) (AreListed a.1.0.now) a.1.1.0 u %s',CF%'IsPassedBy, AreListed'+TALLY%'pixels_of',lent('pass_wanted'))
gen('vtex_cache_pass_pages','pass_pages','cache',[('slice','u32',None),('num','u32',None)],'IsPassedBy x (pixels_of (map one_pixel a.1.0.now)) (ArePages a.1.0.now) a.1.1.0 u %s',CF%'IsPassedBy, ArePages'+TALLY%'pixels_of, one_pixel'+'\nuse Rattle.std.specs.Prelude.{map}',lent('pass_pages'))
gen('vtex_cache_loads','loads','cache',[('mutslice','LoadRow',row('loads','Load'))],'IsListed x a.1.0.now u ws.1.0 %s',CF%'IsListed',lent('loads'))
gen('vtex_cache_stale_loads','stale_loads','cache',[('slice','u32',None),('mutslice','u8',None)],'AreStates x a.1.0.now a.1.1.0.now u ws.1.1.0 %s',CF%'AreStates',lent('stale_loads'))
gen('vtex_cache_settle','settle','cache',[('slice','u8',None)],'IsSettledBy x a.1.0.now u %s',CF%'IsSettledBy',lent('settle'))
gen('vtex_cache_changes','changes','cache',[('mutslice','ChangeRow',row('changes','Change'))],'AreChanges x a.1.0.now u ws.1.0 %s',CF%'AreChanges',lent('changes'))
gen('vtex_cache_look_up','look_up','cache',[('num','u32',None),('mutref','PlaceRow',row('places','Place'))],'IsLookedUp x a.1.0 a.1.1.0.now u ws.1.1.0 %s',CF%'IsLookedUp',lent('look_up'))
gen('vtex_cache_table','table','cache',[('num','u32',None),('mutslice','u32',None)],'IsLevelListed x a.1.0 a.1.1.0.now u ws.1.1.0 %s',CF%'IsLevelListed',lent('table'))
gen('vtex_cache_info','info','cache',[('mutref','InfoRow',row('residency','Info'))],'IsInfoAnswer x a.1.0.now u ws.1.0 %s',CF%'IsInfoAnswer',lent('info'))
