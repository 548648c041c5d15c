"""The text of proofs/F/Proof.antt and proofs/F/Proof/CALLEE.antt: the walk of a function that lends its locals to a walked entry.

    pub fn run_array(setup: Setup, blocks: &mut [u32], .., mut account: Account, requests: [Request; 8], values: &mut [u32]) -> Ran
    {
        let answer = run::run(setup, blocks, .., &mut account, &requests, values);
        Ran { answer: answer, account: account }
    }

The callee takes the parameters in their order: a buffer as it came in, which is not needed any more; a number or a struct by value; a struct by `&mut`; an array by `&` or `&mut`, as a slice.
What is returned is what the callee returns, or a struct of that and of what was lent by `&mut`.
"""
from parts import *
from mir import function, items, place, callee
from call import Callee


def spaced(text):
    return text + ' ' if text else ''


class Entry:
    """The callee, of another crate, as a caller of the crate `here` names it. mod: the file of the call."""

    def __init__(self, here, crate, name, mod):
        self.here, self.crate, self.name, self.mod = here, crate, name, mod
        self.F = dashed(name)
        self.key, self.calls = '#%s·%s' % (crate, self.F), calls(crate, name)

    uses = Callee.uses


class Array:
    """An array of `count` records by value. It has the entries of a Kind."""
    num = False

    def __init__(self, element, count):
        self.element, self.count = element, count
        self.row, self.ty = '(Array %s %d)' % (element.row, count), 'List %s' % element.ty
        self.type = '(tyArray %s-l.mir %d)' % (element.name, count)

    def vals(self, x):
        return '(array-vals %s %s)' % (self.element.spells(), x)

    def val(self, x):
        return '(only %s)' % self.vals(x)

    def spells(self):
        return '(array-vals %s)' % self.element.spells()

    def tells(self):
        e = self.element
        return '(array-tells %s %s %s %d)' % (e.row, e.spells(), e.tells(), self.count)

    def makes(self):
        return '(array-makes 𝓤 H A W %s %s %d)' % (self.element.row, self.element.makes(), self.count)

    def typed(self, x, vs, is_):
        e = self.element
        lawful = '(%s.lawful %s 𝓤 H A W%s)' % (e.LL, e.tl, ' tt' if e.enum else '')
        return '(array-lawful 𝓤 H A W %s %s %d .typed %s %s %s .0)' % (e.row, lawful, self.count, x, vs, is_)

    owned, is_ = Kind.owned, Kind.is_


class Lending:
    """root, here, name: the repository, and the function's crate and name. kit: the crate of Frame, Opening, Lending and Arrays. entry: the Entry.
    params: (name, Kind | Slice | Array). refs: the names of those that are lent by &mut.
    answer: the Kind of what the callee returns. result: the Kind of what the function returns. Where that is another one: made, the struct's text, with
    {answer} and {NAME} for the last value of what is lent by &mut, and fields, which of these each field is.
    says: what both contracts say, with {answer}, and {NAME} for the last value of a buffer or of what is lent by &mut. cites: what it names (parts.spec_uses)."""

    made = fields = None

    def __init__(self, **given):
        self.__dict__.update(given)
        self.F, self.G, self.mod = dashed(self.name), self.entry.F, self.entry.mod
        self.kind = dict(self.params)
        self.slices = [n for n, k in self.params if isinstance(k, Slice)]
        self.plain = [(n, k) for n, k in self.params if not isinstance(k, Slice)]
        self.arrays = [n for n, k in self.params if isinstance(k, Array)]
        self.shared = [n for n in self.arrays if n not in self.refs]
        self.structs = [n for n in self.refs if n not in self.arrays]
        self.locals = [n for n, k in self.params if n in self.refs or n in self.arrays]
        self.lent = [n for n, k in self.params if n in self.slices or n in self.locals]
        self.life = {n: i for i, n in enumerate(self.slices)}
        self.param = {i + 1: n for i, (n, k) in enumerate(self.params)}
        # a key's numbers: the lifetime of each local and its ghost name
        self.number = {n: (2 * i, 2 * i + 1) for i, n in enumerate(self.locals)}
        # the numbers of what is had after the call: the answer, and the last values
        self.last = {n: i + 1 for i, n in enumerate(n for n in self.lent if n not in self.shared)}
        self.last['answer'] = 0

    # ---- small texts
    def at(self, n):
        """The block and the offset."""
        return at(n) if n in self.slices else 'l-%s 0' % n

    def row(self, n):
        k = self.kind[n]
        return k.element.row if n in self.arrays else k.row

    def pointer(self, n):
        """The machine value of a reference that is passed to the callee."""
        if n in self.slices:
            return '(slice-at %s %s %s)' % (self.row(n), self.at(n), n)
        return '(vptr l-%s 0)' % n if n in self.structs else '(sliceVal (l-%s, 0) %d)' % (n, self.kind[n].count)

    def referred(self, n, γ):
        return '(at-%s %s %s %s %s)' % ('value' if n in self.structs else 'list', self.row(n), self.at(n), γ, n)

    def slice_own(self, n):
        return '‵ (MutSlice (named 0) κ-%s %s .own %s (%s ∷ []))' % (n, self.row(n), self.referred(n, 'γ-' + n), self.pointer(n))

    def local_own(self, n, ν, δ):
        former = 'MutRef' if n in self.structs else 'ShrSlice' if n in self.shared else 'MutSlice'
        return '‵ (%s (named 0) %s %s .own %s (%s ∷ []))' % (former, ν, self.row(n), self.referred(n, δ), self.pointer(n))

    def loan(self, n, ν, δ):
        if n in self.structs:
            return '‵ (RefLoan %s %s %s %s)' % (self.row(n), self.at(n), ν, δ)
        if n in self.refs:
            return '‵ (Loan %s %s %s %s %d)' % (self.row(n), self.at(n), ν, δ, self.kind[n].count)
        return '‵ (Shared %s %s %s %s)' % (self.row(n), self.at(n), ν, n)

    def cell(self, n, x):
        k = self.kind[n]
        return '‵ (cellAt fullShare (%s .mir) %s l-%s 0)' % (k.row, k.vals(x), n)

    def token(self, n):
        return '‵ (flft κ-%s q-%s)' % (n, n)

    def final(self, n, z='z'):
        return '(%s .%d)' % (z, self.last[n])

    def said(self, of):
        return self.says.format(**{n: of(n) for n in self.last})

    def known(self):
        """The buffers' lifetimes, shares, names and places, as parameters."""
        if not self.slices:
            return ''
        return '(%s : Lft) (%s : Share) (%s : GName) (%s : ℕ)' % (
            ' '.join('κ-' + n for n in self.slices), ' '.join('q-' + n for n in self.slices), ' '.join('γ-' + n for n in self.slices), ' '.join(at(n) for n in self.slices))

    def values(self):
        return ' '.join('(%s : %s)' % (n, k.ty) for n, k in self.params)

    def app(self, name):
        """Of the call's file, at what the walk has."""
        return '%s.%s 𝓤 H A mem run″ W %s %s' % (self.mod, name, self.names(), ' '.join(n for n, k in self.params))

    def names(self):
        return ' '.join(['κ-' + n for n in self.slices] + ['q-' + n for n in self.slices] + ['γ-' + n for n in self.slices] + [at(n) for n in self.slices] + [self.block[n] for n in self.locals])

    # ---- the call
    def call_text(self):
        G, I = self.G, ' ' * 4
        t = '-- The call of `%s` by a caller that lends its own locals: each is lent for a lifetime of its own and stands again as a cell after the call. The buffers are passed on at their own lifetimes, shares and names, and what is had of them after the call is what says their last values.\n' % self.entry.name
        t += '--     before, after       what stands before the call and after it\n-- Assumes `Given`.\n'
        t += HEAD + kind_uses(self.here, self.kinds() + [self.answer]) + spec_uses(self.here, self.cites) + kit_uses(self.here, self.kit)
        t += 'use %s.%s as %s\n\n' % (proofs(self.here, self.entry.crate), self.entry.name, G)
        t += 'module _ {M : Type 1} (𝓤 : URA M) (H : Heap 𝓤) (A : Atoms 𝓤) (mem : Memory → SProp 𝓤) (run″ : Routine → Fun 𝓤) where\n'
        t += '  abbrev pub Called : Contract 𝓤\n  Called = tripleOf 𝓤 H A %s.signature (%s.spec 𝓤 H A mem run″)\n\n' % (G, G)
        t += '  module _ (W : Given 𝓤 H A) %s(%s : ℕ)\n      %s where\n' % (spaced(self.known()), ' '.join('l-' + n for n in self.locals), self.values())
        t += I + '-- the lifetime and the ghost name of each local that is lent\n' + I + 'abbrev pub Key : Type 0\n' + I + 'Key = %s\n\n' % ' × '.join('ℕ × GName' for n in self.locals)
        self.κs = nest('κ-' + n if n in self.slices else 'k .%d ∷ []' % self.number[n][0] for n in self.lent)
        qs = nest('q-' + n if n in self.slices else 'fullShare' for n in self.lent)
        args = nest(self.referred(n, 'γ-' + n if n in self.slices else '(k .%d)' % self.number[n][1]) if n in self.lent else n for n, k in self.params)
        vals = nest('%s ∷ []' % self.pointer(n) if n in self.lent else k.vals(n) for n, k in self.params)
        t += I + 'abbrev pub to : Key → Called .Ghost\n' + I + 'to k = ((%s, %s, tt, %s, %s), tt)\n\n' % (self.κs, qs, args, vals)
        t += I + '-- what the caller has of the buffers and of its locals\n' + I + 'abbrev pub Passed : Item 𝓤\n' + I + 'Passed = %s\n\n' % self.passed()
        t += I + 'abbrev pub Cells-before : Item 𝓤\n' + I + 'Cells-before = %s\n\n' % chain(self.cell(n, n) for n in self.locals)
        t += I + 'abbrev pub Out : Key → Item 𝓤\n' + I + 'Out k = %s\n\n' % chain(self.loan(n, '(k .%d ∷ [])' % self.number[n][0], '(k .%d)' % self.number[n][1]) for n in self.locals)
        t += self.before(I) + self.told(I) + self.after(I)
        return prune(t)

    def passed(self):
        """What comes in of the buffers, entry by entry."""
        return chain([self.token(n) for n in self.slices] + [self.slice_own(n) for n in self.slices] or ['‵ ftrue'])

    def kinds(self):
        return [k.element if isinstance(k, Array) else k for n, k in self.plain]

    def before(self, I):
        hyps = ' '.join('(%s-is : %s)' % (n, k.is_(n)) for n, k in self.plain)
        t = I + 'module _ %s where\n' % hyps
        J = I + '  '
        keyed = {n: ('(k .%d ∷ [])' % i, '(k .%d)' % j) for n, (i, j) in self.number.items()}
        have = [self.token(n) if n in self.slices else '‵ (flft %s fullShare)' % keyed[n][0] for n in self.lent]
        have += [self.slice_own(n) if n in self.slices else self.local_own(n, *keyed[n]) for n in self.lent]
        t += J + 'asked : (k : Key) → ent 𝓤 (mean 𝓤 H A (%s)) (Called .pre (to k))\n' % chain(have)
        cx = Context(['o'] + ['tok·' + n for n in self.lent] + ['own·' + n for n in self.lent])
        b = 'nothing ! $ '
        for n, k in reversed(self.params):
            if n in self.lent:
                b += cx.move('own·' + n, 'o') + 'fjoin ! $ '
                cx.front(2, ['o'])
            else:
                b += k.owned(n, n + '-is') + 'fjoin ! $ '
        b += 'nothing ! $ '
        cx.items.insert(0, 'true')
        b += cx.group(['tok·' + n for n in self.lent] + ['true'], 'toks') + 'join ! $ frame ! $ nothing ! $ done !'
        t += J + 'asked k =\n' + J + '    qed W (%s ∷ []) ∵ %s\n\n' % (' ∷ '.join(have), b)
        # the locals are lent
        t += J + 'pub before : ent 𝓤 (sep 𝓤 (mean 𝓤 H A Passed) (mean 𝓤 H A Cells-before)) (mean 𝓤 H A (later (some (λ (k : Key). raw (Called .pre (to k)) ⊛ Out k))))\n'
        cx = Context(['passed', 'cells'])
        b = 'updating ! $ ' + cx.split(['tok·' + n for n in self.slices] + ['own·' + n for n in self.slices] or ['true']) + cx.move('cells') + cx.split(['c·' + n for n in self.locals])
        for n in self.locals:
            k = self.kind[n]
            b += '\n' + J + '    lft-new ! tt (λ ν-%s. ' % n
            cx.items.insert(0, 'tok·' + n)
            b += cx.move('c·' + n)
            own, out = self.local_own(n, '(ν-%s ∷ [])' % n, 'δ'), self.loan(n, '(ν-%s ∷ [])' % n, 'δ')
            if n in self.structs:
                law, room = 'ref-lends %s %s 𝓤 H A W %s' % (k.row, self.at(n), k.makes()), ''
            else:
                law = 'array-%s %s %d %s 𝓤 H A W tt %s' % ('shares' if n in self.shared else 'lends', self.row(n), k.count, self.at(n), k.element.makes())
                room = ' (lit< tt, lit< tt)'
            b += 'use1 W (later (some (λ (δ : GName). %s ⊛ %s))) (%s (named 0) (ν-%s ∷ []) %s %s %s-is%s) $ await ! tt $ pick ! (λ δ-%s. split ! $ ' % (
                own, out, law, n, n, k.vals(n), n, room, n)
            cx.front(1, ['own·' + n, 'lent·' + n])
        key = '(%s)' % ', '.join('ν-%s, δ-%s' % (n, n) for n in self.locals)
        b += '\n' + J + '    at-once ! $ show ! (λ (k : Key). sep 𝓤 (Called .pre (to k)) (mean 𝓤 H A (Out k))) %s $ ' % key
        b += cx.group(['tok·' + n for n in self.lent] + ['own·' + n for n in self.lent], 'pre') + 'use1 W (raw (Called .pre (to %s))) (asked %s) $ frame ! $ ' % (key, key)
        cx.front(1, [])
        b += (cx.move if self.slices else cx.keep)(*['lent·' + n for n in self.locals]) + 'done !' + ')' * (2 * len(self.locals))
        return t + J + 'before =\n' + J + '    qed W (Passed ∷ Cells-before ∷ []) ∵ %s\n\n' % b

    def told(self, I):
        R = self.answer
        t = I + '-- what there is after the call: the answer, and the last values\n' + I + 'abbrev pub End : Type 0\n'
        t += I + 'End = %s × %s\n\n' % (R.ty, ' × '.join(self.kind[n].ty for n in self.lent if n in self.last))
        t += I + '-- what the call tells of it, and of its result w\n' + I + 'pub record Told (w : Val) (z : End) : Type 0 where\n'
        t += I + '  pub value : w ≡ %s\n' % R.val('(z .0)') + I + '  pub is : %s\n' % R.is_('(z .0)', '(%s ∷ [])' % R.val('(z .0)'))
        t += ''.join(I + '  pub %s-is : %s\n' % (n, self.kind[n].is_(self.final(n))) for n in self.refs)
        t += ''.join(I + '  pub %s-len : length %s ≡ length %s\n' % (n, self.final(n), n) for n in self.slices)
        t += I + '  pub so : %s\n\n' % self.said(self.final)
        t += I + 'abbrev pub Left : End → Item 𝓤\n' + I + 'Left z = %s\n\n' % chain(
            [self.token(n) for n in self.slices] + ['‵ (finally %s γ-%s %s)' % (self.row(n), n, self.final(n)) for n in self.slices] or ['‵ ftrue'])
        t += I + 'abbrev pub Cells-after : End → Item 𝓤\n' + I + 'Cells-after z = %s\n\n' % chain(self.cell(n, self.final(n) if n in self.refs else n) for n in self.locals)
        return t

    def after(self, I):
        G, R = self.G, self.answer
        J = I + '    '
        # an array's length is known of the caller's argument
        lens = ' '.join('(%s-count : length %s ≡ %d) →' % (n, n, self.kind[n].count) for n in self.arrays)
        t = I + 'pub after : %s (k : Key) (w : Val) → ent 𝓤 (sep 𝓤 (Called .post (to k) w) (mean 𝓤 H A (Out k))) (mean 𝓤 H A (later (some (λ (z : End). given (Told w z) (Left z ⊛ Cells-after z)))))\n' % lens
        toks = chain(['‵ (flft %s)' % ('κ-%s q-%s' % (n, n) if n in self.slices else '(k .%d ∷ []) fullShare' % self.number[n][0]) for n in self.lent] + ['‵ ftrue'])
        b = 'updating ! $\n' + J + 'use1 W (later (some (λ (r : %s). ((%s) ⊛ ‵ (%s .own r (w ∷ []))) ⊛ raw (ensured 𝓤 H A %s.ended (%s.clauses 𝓤 H A mem run″) %s (to k .0 .3) tt r)))) (id⊢ 𝓤 _) $ await ! tt $ pick ! (λ r.\n' % (R.ty, toks, R.row, G, G, self.κs)
        par = 1
        cx = Context(['tokres', 'ens', 'out'])
        b += J + 'split ! $ ' + cx.move('ens')
        last = 'Unit {0}'
        for n, k in reversed(self.params):
            last = '%s × (%s)' % (k.ty if n in self.last else 'Unit {0}', last)
        zs = {n: '(zs' + ' .1' * j + ' .0)' for j, (n, k) in enumerate(self.params)}
        zs['answer'] = 'r'
        says = self.said(lambda n: zs[n])
        b += 'use1 W (some (λ (zs : %s). ‵ (lasts %s.ended %s (to k .0 .3) zs) ⊛ raw (fact 𝓤 (%s)))) (id⊢ 𝓤 _) $ pick ! (λ zs.\n' % (last, G, self.κs, says)
        cx.front(1, ['lasts', 'fact'])
        b += J + 'split ! $ ' + cx.move('fact') + 'heard ! (%s) (λ e.\n' % says
        cx.front(1, [])
        par += 2
        b += J + '-- what is said of each last value\n' + J
        seen = 0
        for n, k in self.params:
            b += 'fsplit ! $ '
            if n in self.slices + self.arrays and n in self.last:
                b += 'fsplit ! $ '
                cx.front(1, ['fin·' + n, 'eq·' + n, 'lasts'])
            elif n in self.structs:
                cx.front(1, ['fin·' + n, 'lasts'])
            else:
                b += 'drop ! $ '
                continue
            seen += 1
            if seen == len(self.last) - 1:
                break
            b += cx.move('lasts')
        b += '\n' + J
        for n in self.slices + [n for n in self.arrays if n in self.last]:
            b += cx.move('eq·' + n) + 'feqL ! (λ len-%s. ' % n
            cx.front(1, [])
            par += 1
        b += '\n' + J + cx.move('tokres') + 'split ! $ '
        cx.front(1, ['toks', 'res'])
        b += cx.move('res') + 'facts ! %s (Is %s) (shows 𝓤 H A %s) r (w ∷ []) (λ is.\n' % (R.row, R.row, R.row)
        par += 1
        cx.front(1, [])
        b += J + cx.split(['tok·' + n for n in self.lent] + ['true']) + cx.move('out') + cx.split(['lent·' + n for n in self.locals])
        for n in self.locals:
            k, ν = self.kind[n], '(k .%d ∷ [])' % self.number[n][0]
            b += '\n' + J + cx.move('tok·' + n) + 'lft-end ! tt $ '
            cx.front(1, ['dead·' + n])
            if n in self.refs:
                of, told = k, ''
                law = 'ref-returns %s' % k.row
                if n in self.arrays:
                    of, told = k.element, ' (len-%s ∙ %s-count)' % (n, n)
                    law = 'array-returns %s %d' % (of.row, k.count)
                b += cx.move('dead·' + n, 'lent·' + n, 'fin·' + n) + 'use3 W (later (given (%s) (%s ⊛ ‵ (fdead %s)))) (%s %s 𝓤 H A W %s %s %s (k .%d) %s%s) $ await ! tt $ learn ! (λ %s-is. split ! $ ' % (
                    k.is_(zs[n]), self.cell(n, zs[n]), ν, law, self.at(n), of.spells(), of.tells(), ν, self.number[n][1], zs[n], told, n)
                cx.front(3, ['c·' + n, 'dead·' + n])
                par += 1
            else:
                e = k.element
                b += cx.move('dead·' + n, 'lent·' + n) + 'use2 W (later (%s ⊛ ‵ (fdead %s))) (array-unshares %s %d %s 𝓤 H A W %s %s %s %s %s-count) $ await ! tt $ split ! $ ' % (
                    self.cell(n, n), ν, e.row, k.count, self.at(n), e.spells(), e.tells(), ν, n, n)
                cx.front(2, ['c·' + n, 'dead·' + n])
        tells = 'uint-tells %s r (w ∷ []) is' % R.w if R.num else '%s.tells %s r (w ∷ []) is' % (R.LL, R.tl)
        told = 'value = ap only (%s); is = subst (Is %s r) (%s) is; so = e' % (tells, R.row, tells)
        told += ''.join('; %s-is = %s-is' % (n, n) for n in self.refs) + ''.join('; %s-len = len-%s' % (n, n) for n in self.slices)
        z = '(%s)' % ', '.join(['r'] + [zs[n] for n in self.lent if n in self.last])
        b += '\n' + J + 'at-once ! $ show ! (λ (z : End). guard 𝓤 (Told w z) (mean 𝓤 H A (Left z ⊛ Cells-after z))) %s $ check ! (record { %s }) $ ' % (z, told)
        b += cx.keep(*(['tok·' + n for n in self.slices] + ['fin·' + n for n in self.slices] + ['c·' + n for n in self.locals]))
        b += ('group ! %d $ done !' % (2 * len(self.slices)) if self.slices else 'nothing ! $ done !') + ')' * par
        return t + I + 'after %s k w =\n' % ' '.join(n + '-count' for n in self.arrays) + I + '    qed W (raw (Called .post (to k) w) ∷ Out k ∷ []) ∵ ' + b + '\n'

    # ---- the walk
    def text(self):
        self.count, self.body = function(self.root, self.here, self.name)
        self.blocks = ' '.join(block(i) for i in range(self.count))
        # the local that each lent parameter is copied to: its number, and its block
        self.copy = {self.param[place(st[2][1][1])[0]]: place(st[1])[0] for st in self.body if st != 'return' and st[0] == 'assign' and st[2][0] == 'rvOpd' and place(st[2][1][1])[0] in self.param}
        self.block = {n: block(self.copy[n]) for n in self.locals}
        return prune(self.head() + self.opening() + self.finish() + self.walk() + self.contract())

    def head(self):
        here, own = self.here, '%s.%s' % (proofs(self.here, self.here), self.name)
        t = '-- `%s::%s` meets its contract: a walk of its MIR, by hand. It knows of `%s` only that it meets its contract.\n' % (here, self.name, self.entry.name)
        t += '-- The buffers are passed on for good. The locals are lent for the call, and freed at the end.\n-- The context is [_0; …; _%d; that the locals die; what came in]. Assumes nothing.\n' % (self.count - 1)
        t += 'mod %s\n' % self.mod + HEAD + kind_uses(here, self.kinds() + [self.answer, self.result]) + spec_uses(here, self.cites) + kit_uses(here, self.kit)
        t += 'use %s.Proof.%s as %s\n' % (own, self.mod, self.mod) + self.entry.uses()
        return t + 'use %s.Key.{name as #%s·%s}\nuse %s as %s\nuse %s.Statement as stated\nuse %s.Code as code\n\n' % (own, here, self.F, own, self.F, own, own)

    def opening(self):
        F, many = self.F, len(self.slices)
        stays = nest('gave-slice (%d ∷ []) tt (plain (λ _. %s))' % (self.life[n], k.row) if n in self.slices else 'stay-none (λ _. %s) yes' % k.row for n, k in self.params)
        self.goes = nest('goes-gave-slice 𝓤 H A W %d %d tt (plain (λ _. %s))' % (many, self.life[n], k.row) if n in self.slices else 'goes-none 𝓤 H A W %d (λ _. %s) yes (λ κs x f. refl)' % (many, k.row) for n, k in self.params)
        t = 'abbrev stayed : Stays (%s.ended .signature .params) (%s.ended .kept)\nstayed = %s\n\n' % (F, F, stays)
        hyps = ' '.join(['(%s-is : %s)' % (n, k.is_(n)) for n, k in self.plain] + ['(r-%s : Room %s (length %s))' % (n, self.row(n), n) for n in self.slices])
        t += 'module _ {M : Type 1} (𝓤 : URA M) (H : Heap 𝓤) (A : Atoms 𝓤) (W : Given 𝓤 H A) (mem : Memory → SProp 𝓤) (run″ : Routine → Fun 𝓤)\n%s    %s\n    %s where\n' % ('    %s\n' % self.known() if self.slices else '', self.values(), hyps)
        arg_type, val_type = 'Unit {0}', 'Unit {0}'
        for n, k in reversed(self.params):
            arg_type = '(%s × %s)' % ('RefT (%s)' % k.ty if n in self.slices else k.ty, arg_type)
            val_type = '(List Val × %s)' % val_type
        args = nest(self.referred(n, 'γ-' + n) if n in self.slices else n for n, k in self.params)
        vals = nest('(%s ∷ [])' % self.pointer(n) if n in self.slices else k.vals(n) for n, k in self.params)
        t += '  abbrev args : %s\n  args = %s\n\n  abbrev at : %s\n  at = %s\n\n' % (arg_type, args, val_type, vals)
        self.κs, self.qs = nest('κ-' + n for n in self.slices), nest('q-' + n for n in self.slices)
        t += '  abbrev bound : walkOf 𝓤 H A %s.ended stayed (%s.clauses 𝓤 H A mem run″) .Ghost\n  bound = ((%s, %s, tt, args, at), tt)\n\n' % (F, F, self.κs, self.qs)
        t += '  abbrev Post : Val → SProp 𝓤\n  Post = walkOf 𝓤 H A %s.ended stayed (%s.clauses 𝓤 H A mem run″) .post bound\n\n' % (F, F)
        rows = ' ∷ '.join('MutSlice (named %d) κ-%s %s' % (self.life[n], n, k.row) if n in self.slices else k.row for n, k in self.params)
        t += '  abbrev Toks : Item 𝓤\n  Toks = %s\n\n  abbrev Owns : Item 𝓤\n  Owns = ‵ (owns (%s ∷ []) args at)\n\n' % (chain([self.token(n) for n in self.slices] + ['‵ ftrue']), rows)
        # what came in, entry by entry
        t += '  parted : ent 𝓤 (sep 𝓤 (mean 𝓤 H A Toks) (mean 𝓤 H A Owns)) (mean 𝓤 H A (%s))\n' % self.passed()
        cx = Context(['toks', 'owns'])
        b = cx.split(['tok·' + n for n in self.slices] + ['true']) + cx.move('owns')
        for n, k in self.params:
            b += 'fsplit ! $ '
            if n in self.slices:
                cx.front(1, ['own·' + n, 'owns'])
                b += cx.move('owns')
            else:
                b += 'drop ! $ '
        b += cx.keep(*(['tok·' + n for n in self.slices] + ['own·' + n for n in self.slices] or ['true'])) + 'done !'
        return t + '  parted =\n      qed W (Toks ∷ Owns ∷ []) ∵ ' + b + '\n\n'

    def returned(self, z='z'):
        return '(%s)' % self.made.format(**{n: self.final(n, z) for n in self.last}) if self.made else self.final('answer', z)

    def finish(self):
        F, R = self.F, self.result
        I = ' ' * 4
        end, out = self.app('End'), self.returned()
        self.block_params = ' '.join('l-' + n for n in self.locals)
        self.block = {n: 'l-' + n for n in self.locals}
        t = '  -- from what the call left to the end\n  module _ (%s : ℕ) (w : Val) (z : %s) (told : %s w z) where\n' % (self.block_params, self.app('End'), self.app('Told'))
        t += I + 'result-is : %s\n' % R.is_(out)
        if self.made:
            t += I + 'result-is = %s.owes %s %s %s\n\n' % (R.LL, R.tl, out, nest(self.owed(f) for f in self.fields))
        else:
            t += I + 'result-is = told .is\n\n'
        t += I + 'finish : ent 𝓤 (mean 𝓤 H A (%s z)) (Post %s)\n' % (self.app('Left'), R.val(out))
        cx = Context(['left'])
        b = cx.split(['tok·' + n for n in self.slices] + ['fin·' + n for n in self.slices]) if self.slices else 'drop ! $ '
        cx.items = cx.items if self.slices else []
        last = nest(self.final(n) if n in self.slices else 'tt' for n, k in self.params)
        fits = nest('told .%s-len' % n if n in self.slices else 'tt' for n, k in self.params)
        b += 'suffices ! _ (ends-at 𝓤 H A %s.ended stayed (%s.clauses 𝓤 H A mem run″) W bound %s %s %s %s) $ says ! (told .so) $ nothing ! $ ' % (F, F, R.val(out), out, last, fits)
        cx.items.insert(0, 'true')
        b += cx.group(['tok·' + n for n in self.slices] + ['true'], 'toks') + 'frame ! $ nothing ! $ '
        cx.front(1, ['o'])
        for n, k in reversed(self.params):
            if n in self.slices:
                b += cx.move('fin·' + n, 'o') + 'fjoin ! $ '
                cx.front(2, ['o'])
            else:
                b += k.owned(n, n + '-is') + 'fjoin ! $ '
        b += 'frame ! $ %sdone !' % R.owned(out, 'result-is')
        return t + I + 'finish =\n' + I + '    qed W (%s z ∷ []) ∵ ' % self.app('Left') + b + '\n\n'

    def owed(self, f):
        """What is owed of a field of the result."""
        if f == 'answer':
            return 'told .is'
        if f in self.arrays:
            return 'field-is %s %d %s (told .%s-is)' % (self.kind[f].element.tl, self.kind[f].count, self.final(f), f)
        return 'told .%s-is' % f

    def assign(self, cx, st):
        d, path = place(st[1])
        assert not path, st
        rv = st[2]
        to = '(from ! (stop !)) (init ! %d refl ' % cx.at('_%d' % d)
        self.filled.append(d)
        if rv[0] == 'addrOf':
            local, steps = place(rv[1])
            source = '(fld ! refl (hop ! (look-in ! %d (sub ! 0 refl (whole !))) (stop !)))' % cx.at('_%d' % local) if steps else '(stop !)'
            return 'assigns ! (addr ! (from ! %s)) %s(tt, tt)) $ ' % (source, to)
        if rv[0] == 'aggregate' and d == 0:
            return 'assigns ! (agg ! %s) %s%s) $ ' % (operands(cx, items(rv[1])), to, self.result.typed(self.returned(), '_', 'made-is'))
        if rv[0] == 'aggregate':
            a, b = items(rv[1])
            fits = 'lit< tt' if b[0] == 'int' else 'r-%s .0' % self.param[place(b[1])[0]]
            return 'assigns ! (agg ! %s) %s(tt, (tt, (record { fits = %s }, tt)))) $ ' % (operands(cx, [a, b]), to, fits)
        assert rv[0] == 'rvOpd', st
        local, steps = place(rv[1][1])
        if local in self.param:
            n = self.param[local]
            typed = self.kind[n].typed(n, '_', n + '-is')
        else:
            n = [n for n in self.refs if self.copy[n] == local][0]
            typed = self.kind[n].typed(self.final(n), '_', '(told .%s-is)' % n)
        t = 'assigns ! (of-opd ! %s) %s%s) $ ' % (operand(cx, rv[1]), to, typed)
        if n in self.arrays and local not in self.param:
            # the array is to be a field
            t += 'rewrite ! %d (λ (u : Val). ‵ (fat fullShare %s %s 0 u)) (field-value %s %s) refl $ ' % (cx.at('_%d' % d), self.mir(n), block(d), self.kind[n].element.tl, self.final(n))
        return t

    def mir(self, n):
        k = self.kind[n]
        return k.type if n in self.arrays else '%s-l.mir' % k.name

    def walk(self):
        self.block = {n: block(self.copy[n]) for n in self.locals}
        I, R = ' ' * 8, self.result
        values = cons('(%s)' % self.pointer(n) if n in self.slices else k.val(n) for n, k in self.params)
        t = '  module _ (𝓣 : Tables 𝓤 H) (known-%s : Triple 𝓤 (𝓣 .C %s) (%s.Called 𝓤 H A mem run″)) where\n' % (self.G, self.entry.key, self.mod)
        t += '    abbrev C : Calls 𝓤 H\n    C = 𝓣 .C\n\n    abbrev Λ : Loops 𝓤 H\n    Λ = 𝓣 .Λ\n\n'
        t += '    walk : ent 𝓤 (onEntry 𝓤 H A %s.signature %s %s args at) (WpFn 𝓤 H C Λ code.function %s Post)\n' % (self.F, self.κs, self.qs, values)
        t += '    walk =\n' + I + 'qed W (Toks ∷ Owns ∷ []) ∵ enter ! C Λ code.function %s _ $\n' % values
        t += I + 'alloc-all ! (code.function .locals) (λ %s. params1 ! $\n' % self.blocks
        par = 1
        for i, (n, k) in enumerate(self.params):
            typed = '(tt, (tt, (record { fits = r-%s .0 }, tt)))' % n if n in self.slices else k.typed(n, k.vals(n), n + '-is')
            t += I + 'pass1 ! (init ! %d refl %s) $\n' % (i + 1, typed)
        locals_ = ['_%d' % i for i in range(self.count)]
        cx = Context(locals_ + ['dies', 'toks', 'owns'])
        self.filled = list(range(1, len(self.params) + 1))
        t += I + 'pass0 ! $ ' + cx.move('toks', 'owns') + 'use2 W (%s) parted $\n' % self.app('Passed')
        cx.front(2, ['passed'])
        E = '(blocks-of (code.function .locals) %s)' % cons(block(i) for i in range(self.count))
        for st in self.body:
            if st == 'return':
                continue
            if st[0] == 'assign':
                t += I + self.assign(cx, st) + '\n'
                continue
            assert callee(st) == (self.entry.crate, self.entry.name), st
            # the locals that are lent, as cells
            t += I
            for n in self.locals:
                c = '_%d' % self.copy[n]
                t += cx.move(c) + 'use1 W (%s) (W .laws .at-raw fullShare %s %s 0 %s) $ ' % (self.cell(n, n).replace('l-' + n, self.block[n]), self.mir(n), self.block[n], self.kind[n].val(n))
            cells = ['_%d' % self.copy[n] for n in self.locals]
            t += '\n' + I + cx.group(cells, 'cells') + cx.move('passed', 'cells')
            pre = '%s.Called 𝓤 H A mem run″ .pre (%s k)' % (self.mod, self.app('to'))
            t += 'use2 W (later (some (λ (k : %s). raw (%s) ⊛ %s k))) (%s %s) $ await ! tt $ pick ! (λ k. split ! $\n' % (
                self.app('Key'), pre, self.app('Out'), self.app('before'), ' '.join(n + '-is' for n, k in self.plain))
            cx.front(2, ['pre', 'out'])
            t += I + 'calls-at ! (fmOf 𝓤 H (W .laws) 𝓣) (%s.Called 𝓤 H A mem run″) known-%s (%s k) %s (λ w.\n' % (self.mod, self.G, self.app('to'), operands(cx, items(st[2])))
            cx.front(1, ['call'])
            t += I + cx.move('call', 'out') + 'use2 W (later (some (λ (z : %s). given (%s w z) (%s z ⊛ %s z)))) (%s %s k w) $ await ! tt $ pick ! (λ z. learn ! (λ told. split ! $ ' % (
                self.app('End'), self.app('Told'), self.app('Left'), self.app('Cells-after'), self.app('after'), ' '.join('(%s-is .1 .0 .1)' % n for n in self.arrays))
            par += 4
            cx.front(2, ['left', 'cells'])
            t += cx.move('cells') + cx.split(cells) + '\n' + I
            for n in self.locals:
                x = self.final(n) if n in self.refs else n
                t += cx.move('_%d' % self.copy[n]) + 'use1 W (‵ (fat fullShare %s %s 0 %s)) (W .laws .raw-at fullShare %s %s 0 %s) $ ' % ((self.mir(n), self.block[n], self.kind[n].val(x)) * 2)
            d = place(st[3])[0]
            self.filled.append(d)
            typed = self.answer.typed('(z .0)', '(w ∷ [])', '(subst (λ (u : Val). Is %s (z .0) (u ∷ [])) (sym (told .value)) (told .is))' % self.answer.row)
            t += '\n' + I + 'land ! (from ! (stop !)) (init ! %d refl %s) $\n' % (cx.at('_%d' % d), typed)
            t += I + 'rewrite ! %d (λ (u : Val). ‵ (fat fullShare %s %s 0 u)) (told .value) refl $\n' % (cx.at('_%d' % d), '(tyInt %s)' % self.answer.w if self.answer.num else self.answer.name + '-l.mir', block(d))
        finish = 'finish %s w z told' % ' '.join(self.block[n] for n in self.locals)
        t = t.replace('made-is', '(result-is %s w z told)' % ' '.join(self.block[n] for n in self.locals))
        t += I + cx.move('left') + 'use1 W (raw (Post %s)) (%s) $ ' % (R.val(self.returned()), finish)
        cx.front(1, ['post'])
        t += cx.move('post', *locals_) + '\n' + I + 'returns ! (look ! 1 refl) $ ' + ' '.join('forget ! %d refl $' % (i + 1) for i in sorted(set(self.filled))) + '\n'
        t += I + 'leave-all ! %s [] (done !)%s\n\n' % (E, ')' * par)
        return t

    # ---- the contract
    def contract(self):
        number = {n: i for i, (n, k) in enumerate(self.params)}
        spells = nest('slice-vals' if n in self.slices else k.spells() for n, k in self.params)
        tells = nest('(mut-slice-tells (named %d) %s) %s)' % (self.life[n], nth(self.life[n], 'κs'), k.row) if n in self.slices else k.tells() for n, k in self.params)
        given = [nth(self.life[n], 'κs') + ')' for n in self.slices] + [nth(self.life[n], 'qs') + ')' for n in self.slices]
        given += ['%s .name)' % nth(number[n], 'a') for n in self.slices] + ['%s .ptr .%d)' % (nth(number[n], 'a'), i) for n in self.slices for i in (0, 1)]
        given += [nth(number[n], 'a') + (' .now)' if n in self.slices else ')') for n, k in self.params]
        given += [nth(number[n], 'are') + ')' for n, k in self.plain] + [nth(number[n], 'are') + ' .0 .1)' for n in self.slices]
        return contract(self.here, self.F, spells, tells, given, self.goes, [self.entry])
