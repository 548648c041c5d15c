"""The text of proofs/F/Proof/CALLEE.antt: one call of a covered function as "memory in, memory out", or as "value in, value out"."""
from parts import *


class Callee:
    """A function that takes the buffers, all by & (mode 'shr') or all by &mut (mode 'mut') at one lifetime, and plain data.

    here: the caller's crate. crate, name: the callee's. mod: the file to write.
    params: (name, Kind or Slice). result: the Kind of what it returns.
    after: what its `ensures` says, over the parameters' names: the result (shr), or the Stage (mut).
    requires: what its `requires` says, or None. cites: what these two name (parts.spec_uses)."""

    def __init__(self, here, kit, crate, name, mod, params, result, mode, after, requires, cites, stage=None):
        self.__dict__.update({k: v for k, v in locals().items() if k != 'self'})
        self.F = dashed(name)
        self.slices = [n for n, k in params if isinstance(k, Slice)]
        self.plain = [(n, k) for n, k in params if isinstance(k, Kind)]
        self.row = {n: k.row for n, k in params if isinstance(k, Slice)}
        self.key = '#%s·%s' % (crate, self.F)
        self.calls = calls(crate, name)

    def uses(self):
        """What the walk imports of it, beside the file."""
        p = '%s.%s' % (proofs(self.here, self.crate), self.name)
        return 'use %s.Symbol as %s-def\nuse %s.Symbol.{name as %s}\nuse %s.Met as %s-thm\n' % (p, self.F, p, self.key, p, self.F)

    def text(self):
        F, sl, R, mut, row = self.F, self.slices, self.result, self.mode == 'mut', self.row
        ref = 'MutSlice' if mut else 'ShrSlice'
        number = {n: i + 1 for i, n in enumerate(sl)}
        I, J = ' ' * 6, ' ' * 8

        def own(n, ν='(k .0 ∷ [])', δ=None):
            return '‵ (%s (named 0) %s %s .own (at-list %s %s %s %s) (slice-at %s %s %s ∷ []))' % (ref, ν, row[n], row[n], at(n), δ or '(k .%d)' % number[n], n, row[n], at(n), n)

        def lent(n, ν='(k .0 ∷ [])', δ=None):
            if mut:
                return '‵ (Loan %s %s %s %s (length %s))' % (row[n], at(n), ν, δ or '(k .%d)' % number[n], n)
            return '‵ (Shared %s %s %s %s)' % (row[n], at(n), ν, n)

        t = '-- The call of `%s` as a walk has it that holds the buffers\' memory: the memory is lent for the call and taken back, and the result is known.\n' % self.name
        t += '--     before, after       what stands before the call and after it\n-- Assumes `Given`.\n'
        t += HEAD + kind_uses(self.here, [k for n, k in self.plain] + [R]) + spec_uses(self.here, self.cites) + kit_uses(self.here, self.kit)
        t += 'use %s.%s as %s\n\n' % (proofs(self.here, self.crate), self.name, F)
        t += 'module _ {M : Type 1} (𝓤 : URA M) (H : Heap 𝓤) (A : Atoms 𝓤) (mem : Memory → SProp 𝓤) (run″ : Routine → Fun 𝓤) where\n'
        t += '  abbrev pub Called : Contract 𝓤\n  Called = tripleOf 𝓤 H A %s.signature (%s.spec 𝓤 H A mem run″)\n\n' % (F, F)
        t += '  module _ (W : Given 𝓤 H A) (%s : ℕ) where\n' % ' '.join(at(n) for n in sl)
        t += '    abbrev pub Held : %s → Item 𝓤\n    Held %s = %s\n\n' % (' → '.join('List ℕ' for n in sl), ' '.join(sl), chain('‵ (Cells %s %s %s)' % (row[n], at(n), n) for n in sl))
        t += '    module _ %s where\n' % ' '.join('(%s : %s)' % (n, k.ty) for n, k in self.params)
        t += I + '-- the lifetime of the call, and the ghost names\n' + I + 'abbrev pub Key : Type 0\n' + I + 'Key = ℕ × %s\n\n' % ' × '.join('GName' for n in sl)
        t += I + 'abbrev pub to : Key → Called .Ghost\n' + I + 'to k = (((k .0 ∷ [], tt), (fullShare, tt), tt, %s, %s), tt)\n\n' % (
            nest('(at-list %s %s (k .%d) %s)' % (row[n], at(n), number[n], n) if n in row else n for n, k in self.params),
            nest('(slice-at %s %s %s) ∷ []' % (row[n], at(n), n) if n in row else k.vals(n) for n, k in self.params))
        t += I + 'abbrev pub Out : Key → Item 𝓤\n' + I + 'Out k = %s\n\n' % chain(lent(n) for n in sl)
        t += I + 'abbrev pub after-it : %s\n' % (self.stage.name if mut else R.ty) + I + 'after-it = %s\n\n' % self.after
        res = self.stage.held('after-it') if mut else 'after-it'
        hyps = ['(%s-is : %s)' % (n, k.is_(n)) for n, k in self.plain] + (['(ready : %s)' % self.requires] if self.requires else [])
        t += I + 'module _ %s where\n' % ' '.join(hyps)
        t += self.asked(own, J) + self.before(own, lent, J)
        # what it tells of its result
        t += I + '-- what the call tells of its result w\n' + I + 'pub record Told (w : Val) : Type 0 where\n'
        t += I + '  pub value : w ≡ %s\n' % R.val(res) + I + '  pub is : %s\n' % R.is_(res, '(%s ∷ [])' % R.val(res))
        if mut:
            t += ''.join(I + '  pub %s-len : length %s ≡ length %s\n' % (n, self.stage.of('after-it', n), n) for n in sl)
        t += '\n'
        if not mut:
            t += I + 'said : (k : Key) (r : %s) → ent 𝓤 (ensured 𝓤 H A %s.ended (%s.clauses 𝓤 H A mem run″) (k .0 ∷ [], tt) (to k .0 .3) tt r) (fact 𝓤 (r ≡ after-it))\n' % (R.ty, F, F)
            t += I + 'said k r = exE 𝓤 _ (λ ws. snd∗ 𝓤 (sem 𝓤 H A (lasts %s.ended (k .0 ∷ [], tt) (to k .0 .3) ws)) (fact 𝓤 (r ≡ after-it)))\n\n' % F
        return prune(t + self.afterwards(res, I, J))

    def asked(self, own, J):
        sl = self.slices
        t = J + 'asked : (k : Key) → ent 𝓤 (mean 𝓤 H A (‵ (flft (k .0 ∷ []) fullShare) ⊛ %s)) (Called .pre (to k))\n' % chain(own(n) for n in sl)
        cx = Context(['o', 'tok'] + ['own·' + n for n in sl])
        b = ('says ! ready $ ' if self.requires else '') + 'nothing ! $ '
        for n, k in reversed(self.params):
            if n in self.row:
                b += cx.move('own·' + n, 'o') + 'fjoin ! $ '
                cx.front(2, ['o'])
            else:
                b += k.owned(n, n + '-is') + 'fjoin ! $ '
        b += 'nothing ! $ '
        cx.items.insert(0, 'true')
        b += cx.move('tok', 'true') + 'join ! $ '
        b += 'frame ! $ done !' if self.requires else 'join ! $ frame ! $ nothing ! $ done !'
        return t + J + 'asked k =\n' + J + '    qed W (‵ (flft (k .0 ∷ []) fullShare) ∷ %s ∷ []) ∵ %s\n\n' % (' ∷ '.join(own(n) for n in sl), b)

    def before(self, own, lent, J):
        sl = self.slices
        t = J + 'pub before : %s ent 𝓤 (mean 𝓤 H A (Held %s)) (mean 𝓤 H A (later (some (λ (k : Key). raw (Called .pre (to k)) ⊛ Out k))))\n' % (
            ' '.join('Room %s (length %s) →' % (self.row[n], n) for n in sl), ' '.join(sl))
        cx = Context(['held'])
        b = 'updating ! $ ' + cx.split(['c·' + n for n in sl]) + 'lft-new ! tt (λ ν. '
        cx.items.insert(0, 'tok')
        law = 'slice-lends' if self.mode == 'mut' else 'slice-shares'
        for n in sl:
            b += '\n' + J + '    ' + cx.move('c·' + n) + 'use1 W (later (some (λ (δ : GName). %s ⊛ %s))) (%s %s %s 𝓤 H A W (named 0) (ν ∷ []) %s r-%s) $ await ! tt $ pick ! (λ δ-%s. split ! $ ' % (
                own(n, '(ν ∷ [])', 'δ'), lent(n, '(ν ∷ [])', 'δ'), law, self.row[n], at(n), n, n, n)
            cx.front(1, ['own·' + n, 'lent·' + n])
        key = '(ν, %s)' % ', '.join('δ-' + n for n in sl)
        b += '\n' + J + '    at-once ! $ show ! (λ (k : Key). sep 𝓤 (Called .pre (to k)) (mean 𝓤 H A (Out k))) %s $ ' % key
        b += cx.group(['tok'] + ['own·' + n for n in sl], 'pre') + 'use1 W (raw (Called .pre (to %s))) (asked %s) $ frame ! $ ' % (key, key)
        cx.front(1, [])
        b += cx.move(*['lent·' + n for n in sl]) + 'done !' + ')' * (len(sl) + 1)
        return t + J + 'before %s =\n' % ' '.join('r-' + n for n in sl) + J + '    qed W (Held %s ∷ []) ∵ %s\n\n' % (' '.join(sl), b)

    def afterwards(self, res, I, J):
        F, sl, R, S, mut, row = self.F, self.slices, self.result, self.stage, self.mode == 'mut', self.row
        t = I + 'pub after : (k : Key) (w : Val) → ent 𝓤 (sep 𝓤 (Called .post (to k) w) (mean 𝓤 H A (Out k))) (H .⇛ (guard 𝓤 (Told w) (mean 𝓤 H A (Held %s))))\n' % (
            ' '.join(S.of('after-it', n) if mut else n for n in sl))
        b = 'updating ! $\n' + J + '  use1 W (later (some (λ (r : %s). ((‵ (flft (k .0 ∷ []) fullShare) ⊛ ‵ ftrue) ⊛ ‵ (%s .own r (w ∷ []))) ⊛ raw (ensured 𝓤 H A %s.ended (%s.clauses 𝓤 H A mem run″) (k .0 ∷ [], tt) (to k .0 .3) tt r)))) (id⊢ 𝓤 _) $ await ! tt $ pick ! (λ r.\n' % (R.ty, R.row, F, F)
        par = 1
        cx = Context(['tokres', 'ens', 'out'])
        b += J + '  split ! $ ' + cx.move('ens')
        if mut:
            last = ' × ('.join(k.ty if n in row else 'Unit {0}' for n, k in self.params) + ' × Unit {0}' + ')' * (len(self.params) - 1)
            final = {n: '(zs' + ' .1' * j + ' .0)' for j, (n, k) in enumerate(self.params) if n in row}
            says = '%s ≡ after-it' % S.made('r', [final[n] for n in sl])
            b += 'use1 W (some (λ (zs : %s). ‵ (lasts %s.ended (k .0 ∷ [], tt) (to k .0 .3) zs) ⊛ raw (fact 𝓤 (%s)))) (id⊢ 𝓤 _) $ pick ! (λ zs.\n' % (last, F, says)
            cx.front(1, ['lasts', 'fact'])
            b += J + '  split ! $ ' + cx.move('fact') + 'heard ! (%s) (λ e.\n' % says
            cx.front(1, [])
            par += 2
            b += J + '  -- what is said of each last list\n' + J + '  '
            seen = 0
            for n, k in self.params:
                if seen == len(sl):
                    break
                b += 'fsplit ! $ '
                if n in row:
                    b += 'fsplit ! $ '
                    cx.front(1, ['fin·' + n, 'eq·' + n, 'lasts'])
                    seen += 1
                    if seen < len(sl):
                        b += cx.move('lasts')
                else:
                    b += 'drop ! $ '
            b += '\n' + J + '  '
            for n in sl:
                b += cx.move('eq·' + n) + 'feqL ! (λ len-%s. ' % n
                cx.front(1, [])
                par += 1
            b += '\n' + J + '  ' + cx.move('tokres') + 'split ! $ '
            cx.front(1, ['tok', 'res'])
            b += 'rewrite ! 1 (λ (x : %s). ‵ (%s .own %s (w ∷ []))) e refl $ ' % (S.name, R.row, S.held('x'))
        else:
            b += 'use1 W (raw (fact 𝓤 (r ≡ after-it))) (said k r) $ heard ! (r ≡ after-it) (λ e. split ! $ '
            par += 1
            cx.front(2, ['tok', 'res'])
            b += 'rewrite ! 1 (λ (x : %s). ‵ (%s .own x (w ∷ []))) e refl $ ' % (R.ty, R.row)
        b += cx.move('res') + 'facts ! %s (Is %s) (shows 𝓤 H A %s) %s (w ∷ []) (λ is.\n' % (R.row, R.row, R.row, res)
        par += 1
        cx.front(1, [])
        b += J + '  split ! $ lft-end ! tt $ '
        cx.front(1, ['dead', 'true'])
        b += cx.move('out') + cx.split(['lent·' + n for n in sl])
        for n in sl:
            b += '\n' + J + '  '
            if mut:
                b += cx.move('dead', 'lent·' + n, 'fin·' + n) + 'use3 W (later (‵ (Cells %s %s %s) ⊛ ‵ (fdead (k .0 ∷ [])))) (slice-returns %s %s 𝓤 H A W (k .0 ∷ []) (k .%d) (length %s) %s)' % (
                    row[n], at(n), final[n], row[n], at(n), sl.index(n) + 1, n, final[n])
                cx.front(3, ['c·' + n, 'dead'])
            else:
                b += cx.move('dead', 'lent·' + n) + 'use2 W (later (‵ (Cells %s %s %s) ⊛ ‵ (fdead (k .0 ∷ [])))) (slice-unshares %s %s 𝓤 H A W (k .0 ∷ []) %s)' % (row[n], at(n), n, row[n], at(n), n)
                cx.front(2, ['c·' + n, 'dead'])
            b += ' $ await ! tt $ split ! $ '
        b += '\n' + J + '  '
        tells = '%s.tells %s %s (w ∷ []) is' % (R.LL, R.tl, res)
        told = 'value = ap only (%s); is = subst (Is %s %s) (%s) is' % (tells, R.row, res, tells)
        if mut:
            for n in sl:
                b += 'rewrite ! %d (λ (x : %s). ‵ (Cells %s %s %s)) e refl $ ' % (cx.at('c·' + n), S.name, row[n], at(n), S.of('x', n))
                told += '; %s-len = subst (λ (x : %s). length %s ≡ length %s) e len-%s' % (n, S.name, S.of('x', n), n, n)
        b += '\n' + J + '  at-once ! $ check ! (record { %s }) $ ' % told + cx.keep(*['c·' + n for n in sl]) + 'done !' + ')' * par
        return t + I + 'after k w =\n' + J + '  qed W (raw (Called .post (to k) w) ∷ Out k ∷ []) ∵ ' + b + '\n'


class Plain:
    """A function that takes one struct of plain data and returns one. The entries are Callee's; param: (name, Kind)."""

    def __init__(self, here, crate, name, mod, param, result, after, requires, cites):
        self.__dict__.update({k: v for k, v in locals().items() if k != 'self'})
        self.F = dashed(name)
        self.key = '#%s·%s' % (crate, self.F)
        self.calls = calls(crate, name)

    uses = Callee.uses

    def text(self):
        (n, k), R, F = self.param, self.result, self.F
        t = '-- The call of `%s`: the value that it is passed, and what it returns.\n-- Assumes `Given`.\n' % self.name
        t += HEAD + kind_uses(self.here, [k, R]) + spec_uses(self.here, self.cites) + 'use %s.%s as %s\n\n' % (proofs(self.here, self.crate), self.name, F)
        return prune(t + PLAIN % dict(F=F, n=n, ty=k.ty, vals=k.vals(n), is_=k.is_(n), row=R.row, res=R.ty, after=self.after, asks=self.requires + ' → ' if self.requires else '',
                                      ready=' ready' if self.requires else '', says='says ! ready $ nothing ! $ frame ! $ nothing ! $ ' if self.requires else 'nothing ! $ ',
                                      owned=k.owned(n, n + '-is'), rest='fjoin ! $ done !' if self.requires else 'fjoin ! $ nothing ! $ join ! $ join ! $ frame ! $ nothing ! $ done !',
                                      val=R.val('after-it'), told=R.is_('after-it', '(%s ∷ [])' % R.val('after-it')), tells='%s.tells %s after-it (w ∷ []) is' % (R.LL, R.tl)))


PLAIN = '''module _ {M : Type 1} (𝓤 : URA M) (H : Heap 𝓤) (A : Atoms 𝓤) (mem : Memory → SProp 𝓤) (run″ : Routine → Fun 𝓤) where
  abbrev pub Called : Contract 𝓤
  Called = tripleOf 𝓤 H A %(F)s.signature (%(F)s.spec 𝓤 H A mem run″)

  module _ (W : Given 𝓤 H A) (%(n)s : %(ty)s) where
    abbrev pub to : Called .Ghost
    to = ((tt, tt, tt, (%(n)s, tt), (%(vals)s, tt)), tt)

    abbrev pub after-it : %(res)s
    after-it = %(after)s

    pub before : %(is_)s → %(asks)sent 𝓤 (emp 𝓤) (Called .pre to)
    before %(n)s-is%(ready)s = qed W [] ∵ %(says)s%(owned)s%(rest)s

    -- what the call tells of its result w
    pub record Told (w : Val) : Type 0 where
      pub value : w ≡ %(val)s
      pub is : %(told)s

    said : (r : %(res)s) → ent 𝓤 (ensured 𝓤 H A %(F)s.ended (%(F)s.clauses 𝓤 H A mem run″) tt (%(n)s, tt) tt r) (fact 𝓤 (r ≡ after-it))
    said r = exE 𝓤 _ (λ ws. snd∗ 𝓤 (sem 𝓤 H A (lasts %(F)s.ended tt (%(n)s, tt) ws)) (fact 𝓤 (r ≡ after-it)))

    pub after : (w : Val) → ent 𝓤 (Called .post to w) (H .⇛ (guard 𝓤 (Told w) (mean 𝓤 H A (‵ ftrue))))
    after w =
        qed W (raw (Called .post to w) ∷ []) ∵ updating ! $
        use1 W (later (some (λ (r : %(res)s). (‵ ftrue ⊛ ‵ (%(row)s .own r (w ∷ []))) ⊛ raw (ensured 𝓤 H A %(F)s.ended (%(F)s.clauses 𝓤 H A mem run″) tt (%(n)s, tt) tt r)))) (id⊢ 𝓤 _) $ await ! tt $ pick ! (λ r.
        split ! $ move ! (1 ∷ []) $ use1 W (raw (fact 𝓤 (r ≡ after-it))) (said r) $ heard ! (r ≡ after-it) (λ e. split ! $
        rewrite ! 1 (λ (x : %(res)s). ‵ (%(row)s .own x (w ∷ []))) e refl $ move ! (1 ∷ []) $ facts ! %(row)s (Is %(row)s) (shows 𝓤 H A %(row)s) after-it (w ∷ []) (λ is.
        at-once ! $ check ! (record { value = ap only (%(tells)s); is = subst (Is %(row)s after-it) (%(tells)s) is }) $ done !)))
'''
