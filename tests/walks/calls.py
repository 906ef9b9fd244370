"""Prints call rules: of a function to which slices are lent, and of covered functions on plain data by value."""
from text import *

def binders(T, P):
    B = ' '.join('(s-%s : Seat) (%s : List %s)' % (n, n, T.denot(slice_of(t)[1])) if slice_of(t) else '(%s : %s)' % (n, T.denot(t)) for n, t in P)
    N = ' '.join('s-%s %s' % (n, n) if slice_of(t) else n for n, t in P)
    K = ' → '.join('Seat → List %s' % T.denot(slice_of(t)[1]) if slice_of(t) else T.denot(t) for n, t in P)
    return B, N, K

def slice_rule(path, modes_list, here):
    """the text of the rules of one function, one for each string of modes: a letter for each slice, m: `&mut` lent again, s: `&mut` lent as `&`, c: `&` passed on"""
    f = function(path); P, res, h, crate = f['params'], f['res'], f['h'], f['crate']
    T = Types(here)
    for _, t in P + [('', res)]: T.meet(crate, t)
    sl = [(n, slice_of(t)) for n, t in P if slice_of(t)]; k = len(sl)
    R = {n: T.row(s[1]) for n, s in sl}; X = {n: T.denot(s[1]) for n, s in sl}
    muts = [n for n, s in sl if s[0]]
    B, N, K = binders(T, P)
    hyps = [('g-' + n, T.is_(t, n)) for n, t in P if not slice_of(t)] + ([('l', f['req'])] if f['req'] else [])
    seats = ['s-' + n for n, _ in sl]; plain = ' '.join(n for n, t in P)
    ks = tup([s + ' .life' for s in seats]); qs = tup([s + ' .share' for s in seats])
    args = tup(['ref-at s-%s %s' % (n, n) if slice_of(t) else n for n, t in P])
    vs = tup([('word s-' + n if slice_of(t) else T.val(t) + ' ' + n) + ' ∷ []' for n, t in P])
    exits = ' '.join('(%s′ : List %s)' % (n, X[n]) for n in muts)
    name, sym = 'Contract-' + h, '#' + '·'.join([hyphen(x) for x in path.split('::')])
    o = UNIT if res == 'unit' else ''
    o += '-- what the callee ensures of its result and of the last lists\nabbrev pub Ensured-%s : %s → %s → %sType 0\nEnsured-%s %s res %s = %s\n\n' % (h, ' → '.join('List ' + X[n] if slice_of(t) else T.denot(t) for n, t in P), T.denot(res), ''.join('List %s → ' % X[n] for n in muts), h, plain, ' '.join(n + '′' for n in muts), f['ens'])
    o += 'module _ {M : Type 1} (𝓤 : URA M) (H : Heap 𝓤) (A : Atoms 𝓤) (mem : Memory → SProp 𝓤) (run : Routine → Fun 𝓤) where\n'
    o += '  abbrev pub %s : Contract 𝓤\n  %s = tripleOf 𝓤 H A callee.signature (callee.spec 𝓤 H A mem run)\n\n' % (name, name)
    o += '  abbrev to : %s → %s .Ghost\n  to %s = ((%s, %s, tt, %s, %s), tt)\n\n' % (K, name, N, ks, qs, args, vs)
    toks = ['‵ (Tok s-%s)' % n for n, _ in sl]; owns = ['‵ (%s %s s-%s %s)' % ('Mut' if n in muts else 'Shr', R[n], n, n) for n, _ in sl]
    c = Ctx(['T' + n for n, _ in sl] + ['O' + n for n, _ in sl])
    if f['req']: c.say('says ! l $')
    c.op('nothing !', 0, ['J'])
    for n, _ in reversed(sl): c.move(['T' + n, 'J']); c.op('join !', 2, ['J'])
    if f['req']: c.op('frame !', 1, [])
    c.op('nothing !', 0, ['P'])
    for n, t in reversed(P):
        if slice_of(t): c.move(['O' + n, 'P']); c.op('fjoin !', 2, ['P'])
        else: c.op(T.owned(t, n, 'g-' + n), 0, ['V']); c.op('fjoin !', 2, ['P'])
    if not f['req']: c.move(['J', 'P']); c.op('join !', 2, ['J']); c.op('frame !', 1, []); c.op('nothing !', 0, ['E'])
    o += '  goes : Given 𝓤 H A → %s → %sent 𝓤 (⋆ 𝓤 H A (%s ∷ [])) (%s .pre (to %s))\n' % (B, ''.join(x[1] + ' → ' for x in hyps), ' ∷ '.join(toks + owns), name, N)
    o += '  goes W %s %s = qed W (%s ∷ []) ∵ %s done !\n\n' % (N, ' '.join(x[0] for x in hyps), ' ∷ '.join(toks + owns), c.text())
    o += 'module _ {M : Type 1} {𝓤 : URA M} {H : Heap 𝓤} {A : Atoms 𝓤} {K : Type 0} {W : Given 𝓤 H A} {Γ : List (Item 𝓤)} {E : Env 𝓤 H} {C : Calls 𝓤 H} {Λ : Loops 𝓤 H} {xs : List Operand} {q : After 𝓤 H} {d : Place} {rest : Code} where\n'
    for modes in modes_list:
        mode = dict(zip([n for n, _ in sl], modes)); rule = 'calls-%s-%s' % (h, modes)
        hold = lambda n, l: '‵ (%s %s s-%s %s) ∷ ‵ (Tok s-%s)' % ('Shr' if mode[n] == 'c' else 'Mut', R[n], n, l, n)
        before = ' ∷ '.join(hold(n, n) for n, _ in sl); after = ' ∷ '.join(hold(n, n + '′' if n in muts else n) for n, _ in sl)
        lens = ''.join(' → length %s ≡ s-%s .count' % (n, n) for n in muts)
        o += '  pub %s : K → FmC 𝓤 H (W .laws) C → (mem : Memory → SProp 𝓤) (run : Routine → Fun 𝓤) → Triple 𝓤 (C %s) (%s 𝓤 H A mem run)\n      → %s%s%s\n' % (rule, sym, name, B, lens, ''.join(' → ' + x[1] for x in hyps))
        o += '      → ((P %s : Item 𝓤) → Opds K W (P ∷ %s ∷ Γ) E xs (%s ∷ []))\n' % (' '.join('Ω%d' % i for i in range(k)), ' ∷ '.join('Ω%d' % i for i in range(k)), ' ∷ '.join('word s-' + n if slice_of(t) else T.val(t) + ' ' + n for n, t in P))
        o += '      → ((res : %s) %s → Ensured-%s %s res %s → Is %s res (%s res ∷ [])%s → Seq K W (%s ∷ Γ) (lands C Λ E d (%s res) rest q))\n' % (T.denot(res), exits, h, plain, ' '.join(n + '′' for n in muts), T.row(res), T.val(res), ''.join(' → length %s′ ≡ s-%s .count' % (n, n) for n in muts), after, T.val(res))
        o += '      → Seq K W (%s ∷ Γ) (runs C Λ E (seq (call %s xs d) rest) q)\n' % (before, sym)
        o += '  %s t fm mem run met %s %s %s os k =\n' % (rule, N, ' '.join('ln-' + n for n in muts), ' '.join(x[0] for x in hyps))
        c = Ctx([x for n, _ in sl for x in ('H' + n, 'T' + n)], 't'); L = []; close = 0
        for n, _ in sl:
            c.move(['H' + n, 'T' + n])
            if mode[n] == 'm': c.say('lend-mut t tt %s s-%s %s ln-%s (λ ν-%s δ-%s w-%s.' % (R[n], n, n, n, n, n, n)); close += 1
            if mode[n] == 's': c.say('lend-shr t tt %s s-%s %s (λ ν-%s δ-%s w-%s.' % (R[n], n, n, n, n, n)); close += 1
            if mode[n] == 'c': c.say('lend-copy t %s s-%s %s $' % (R[n], n, n))
            c.l[:2] = ['t' + n, 'o' + n, 'k' + n]
            L.append(c.text())
        lt = {n: 's-' + n if mode[n] == 'c' else '(lent-to s-%s ν-%s δ-%s)' % (n, n, n) for n, _ in sl}
        at = ' '.join('%s %s' % (lt[n], n) if slice_of(t) else n for n, t in P)
        c.move(['t' + n for n, _ in sl] + ['o' + n for n, _ in sl])
        c.op('group t %d' % (2 * k), 2 * k, ['pre'])
        c.op('use1 W (raw (%s 𝓤 H A mem run .pre (to 𝓤 H A mem run %s))) (goes 𝓤 H A mem run W %s %s)' % (name, at, at, ' '.join(x[0] for x in hyps)), 1, ['pre'])
        L.append(c.text())
        L.append('calls-at t fm (%s 𝓤 H A mem run) met (to 𝓤 H A mem run %s) (os %s) (λ out.' % (name, at, ' '.join('_' for _ in range(k + 1)))); close += 1
        c.l[:1] = ['post']
        toksep = ' ⊛ '.join(['‵ (Tok %s)' % lt[n] for n, _ in sl] + ['‵ ftrue'])
        ks2 = tup(['%s .life' % lt[n] if mode[n] == 'c' else 'ν-%s ∷ []' % n for n, _ in sl])
        args2 = tup(['ref-at %s %s' % (lt[n], n) if slice_of(t) else n for n, t in P])
        L.append('use1 W (later (some (λ (res : %s). ((%s) ⊛ ‵ (%s .own res (out ∷ []))) ⊛ raw (ensured 𝓤 H A callee.ended (callee.clauses 𝓤 H A mem run) %s %s tt res)))) (id⊢ 𝓤 _) $ await t tt $ pick t (λ res.' % (T.denot(res), toksep, T.row(res), ks2, args2)); close += 1
        c.l[:1] = ['to', 'en']; c.say('split t $'); c.move(['en'])
        wt = ' × ('.join(['List ' + X[n] if n in muts else 'Unit {0}' for n, t in P] + ['Unit {0}']) + ')' * len(P)
        ws = {n: 'ws' + ' .1' * i + ' .0' for i, (n, t) in enumerate(P)}
        Q = 'Ensured-%s %s res %s' % (h, plain, ' '.join('(%s)' % ws[n] for n in muts))
        c.say('use1 W (some (λ (ws : %s). ‵ (lasts callee.ended %s %s ws) ⊛ raw (fact 𝓤 (%s)))) (id⊢ 𝓤 _) $ pick t (λ ws.' % (wt, ks2, args2, Q)); close += 1
        c.l[:1] = ['la', 'fa']; c.say('split t $'); c.move(['fa']); c.say('heard t (%s) (λ e.' % Q); close += 1; c.l[:1] = []
        for n, t in P:
            c.op('fsplit t', 1, ['p' + n, 'la'])
            if n in muts:
                c.op('fsplit t', 1, ['f' + n, 'eq']); c.move(['eq']); c.say('feqL t (λ le-%s.' % n); close += 1; c.l[:1] = []
                c.move(['la'])
            else: c.op('drop t', 1, [])
        c.op('drop t', 1, [])
        c.move(['to']); c.op('split t', 1, ['to', 're']); c.move(['re'])
        c.say('peeks t %s (Is %s) (shows 𝓤 H A %s) res (out ∷ []) (λ is.' % (T.row(res), T.row(res), T.row(res))); close += 1
        c.op('drop t', 1, [])
        for n, _ in sl: c.op('split t', 1, ['t' + n, 'to']); c.move(['to'])
        c.op('drop t', 1, [])
        L.append(c.text())
        for n, _ in sl:
            if mode[n] == 'm': c.move(['t' + n, 'f' + n, 'k' + n]); c.op('back-mut t tt %s s-%s ν-%s δ-%s %s (%s) ln-%s w-%s le-%s' % (R[n], n, n, n, n, ws[n], n, n, n), 3, ['H' + n, 'T' + n])
            if mode[n] == 's': c.move(['t' + n, 'k' + n]); c.op('back-shr t tt %s s-%s ν-%s δ-%s %s w-%s' % (R[n], n, n, n, n, n), 2, ['H' + n, 'T' + n])
            if mode[n] == 'c': c.l[c.l.index('k' + n)] = 'H' + n; c.l[c.l.index('t' + n)] = 'T' + n
            L.append(c.text())
        c.move([x for n, _ in sl for x in ('H' + n, 'T' + n)])
        L.append(c.text())
        final = ' ∷ '.join(hold(n, '(%s)' % ws[n] if n in muts else n) for n, _ in sl)
        L.append('subst (λ (u : Val). Seq K W (%s ∷ Γ) (lands C Λ E d u rest q)) (sym (ap only (%s res (out ∷ []) is))) (k res %s e (subst (Is %s res) (%s res (out ∷ []) is) is) %s)%s' % (final, T.tells(res), ' '.join('(%s)' % ws[n] for n in muts), T.row(res), T.tells(res), ' '.join('(le-%s ∙ ln-%s)' % (n, n) for n in muts), ')' * close))
        o += '\n'.join('      ' + x for x in L if x) + '\n\n'
    own = module(crate, 'proofs', '.'.join(f['mods'] + [f['fn']]), here)
    head = '-- How `%s` is called, with %s lent to it: a rule for each way to lend them (m: a `&mut` lent again, s: a `&mut` lent as `&`, c: a `&` passed on). Printed (tests/walks).\n-- Assumes `Given`, and that the callee meets its contract.\n' % (path, 'a slice' if k == 1 else '%d slices' % k)
    ghost = {n: (placed(m, here), s) for n, (m, s) in f['ghost'].items() if occurs(n, tokens(f['req'] + ' ' + f['ens']))}
    return head + library_uses(o, ghost) + T.uses(o) + 'use %s as callee\nuse %s.Symbol.{name as %s}\n\n' % (own, own, sym) + o.rstrip('\n') + '\n'

def rule_file(fn): return 'Calls' + camel(fn)

def print_rules(path, modes_list, here):
    p = 'crates/%s/proofs/%s.antt' % (here, rule_file(split(path)[2]))
    o = slice_rule(path, modes_list, here)
    open(p, 'w').write(o); print(p, o.count('\n'), 'lines')

def by_value(here, paths):
    """proofs/ByValue.antt: the rules of covered functions on plain data"""
    T = Types(here); o = ''; ghost = {}; uses = ''
    for path in paths:
        f = function(path); P, res, m, crate, said, req = f['params'], f['res'], f['h'], f['crate'], f['ens'], f['req']
        for _, t in P + [('', res)]: T.meet(crate, t)
        for n, (g, s) in f['ghost'].items():
            if occurs(n, tokens(said + ' ' + req)): ghost[n] = (placed(g, here), s)
        name, sym = 'Contract-' + m, '#' + '·'.join([hyphen(x) for x in path.split('::')])
        own = module(crate, 'proofs', '.'.join(f['mods'] + [f['fn']]), here)
        uses += 'use %s as %s\nuse %s.Symbol.{name as %s}\n' % (own, m + '′', own, sym)
        c_ = m + '′'
        vs = ' '.join(n for n, _ in P); bind = ' '.join('(%s : %s)' % (n, T.denot(t)) for n, t in P); arr = ' → '.join(T.denot(t) for _, t in P)
        hyps = [('g-' + n, T.is_(t, n)) for n, t in P] + ([('l', req)] if req else [])
        own_ = ''.join(T.owned(t, n, 'g-' + n) + ' $ fjoin ! $ ' for n, t in reversed(P))
        goes = 'qed W [] ∵ says ! l $ nothing ! $ ' + own_ + 'nothing ! $ frame ! $ done !' if False else ('qed W [] ∵ says ! l $ nothing ! $ ' + own_ + 'nothing ! $ frame ! $ done !' if req else 'qed W [] ∵ nothing ! $ nothing ! $ ' + own_ + 'move ! (1 ∷ 0 ∷ []) $ join ! $ frame ! $ nothing ! $ done !')
        Hs, hs = ' → '.join(x[1] for x in hyps), ' '.join(x[0] for x in hyps)
        RIs = 'Is %s res (%s res ∷ [])' % (T.row(res), T.val(res)); A = tup([n for n, _ in P]); V = tup([T.val(t) + ' ' + n + ' ∷ []' for n, t in P]); D = T.denot(res)
        o += f'''-- ---- `{f['fn']}`
module _ {{M : Type 1}} (𝓤 : URA M) (H : Heap 𝓤) (A : Atoms 𝓤) (mem : Memory → SProp 𝓤) (run : Routine → Fun 𝓤) where
  abbrev pub {name} : Contract 𝓤
  {name} = tripleOf 𝓤 H A {c_}.signature ({c_}.spec 𝓤 H A mem run)

  abbrev to-{m} : {arr} → {name} .Ghost
  to-{m} {vs} = ((tt, tt, tt, {A}, {V}), tt)

  abbrev Said-{m} : {arr} → {D} → SProp 𝓤
  Said-{m} {vs} = ensured 𝓤 H A {c_}.ended ({c_}.clauses 𝓤 H A mem run) tt {A} tt

  said-{m} : {bind} (res : {D}) → ent 𝓤 (Said-{m} {vs} res) (fact 𝓤 ({said}))
  said-{m} {vs} res = exE 𝓤 _ (λ ws. snd∗ 𝓤 (sem 𝓤 H A (lasts {c_}.ended tt {A} ws)) (fact 𝓤 ({said})))

  goes-{m} : Given 𝓤 H A → {bind} → {Hs} → ent 𝓤 (emp 𝓤) ({name} .pre (to-{m} {vs}))
  goes-{m} W {vs} {hs} = {goes}

module _ {{M : Type 1}} {{𝓤 : URA M}} {{H : Heap 𝓤}} {{A : Atoms 𝓤}} {{K : Type 0}} {{W : Given 𝓤 H A}} {{Γ : List (Item 𝓤)}} {{E : Env 𝓤 H}} {{C : Calls 𝓤 H}} {{Λ : Loops 𝓤 H}} {{xs : List Operand}} {{q : After 𝓤 H}} {{d : Place}} {{rest : Code}} where
  pub calls-{m} : K → FmC 𝓤 H (W .laws) C → (mem : Memory → SProp 𝓤) (run : Routine → Fun 𝓤) → Triple 𝓤 (C {sym}) ({name} 𝓤 H A mem run) → {bind} → {Hs}
      → ((P : Item 𝓤) → Opds K W (P ∷ Γ) E xs ({' ∷ '.join(T.val(t) + ' ' + n for n, t in P)} ∷ []))
      → ((res : {D}) → {said} → {RIs} → Seq K W Γ (lands C Λ E d ({T.val(res)} res) rest q))
      → Seq K W Γ (runs C Λ E (seq (call {sym} xs d) rest) q)
  calls-{m} t fm mem run met {vs} {hs} os k =
      calls-plain t fm ({name} 𝓤 H A mem run) met (to-{m} 𝓤 H A mem run {vs}) {T.row(res)} ({T.val(res)}) ({T.tells(res)}) (Said-{m} 𝓤 H A mem run {vs}) (λ (res : {D}). {said}) (said-{m} 𝓤 H A mem run {vs})
      (λ _. id⊢ 𝓤 _) (goes-{m} 𝓤 H A mem run W {vs} {hs}) (os _) k

'''
    head = '-- How covered functions on plain data are called, by value. Printed (tests/walks).\n-- Assumes `Given`, and that each callee meets its contract.\n'
    p = 'crates/%s/proofs/ByValue.antt' % here
    o = head + library_uses(o, ghost) + T.uses(o) + uses + '\n' + o.rstrip('\n') + '\n'
    open(p, 'w').write(o); print(p, o.count('\n'), 'lines')
