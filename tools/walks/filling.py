"""The text of the walk of a function that fills a lent list with records, each of which a covered step makes by value:

    pub fn generate(setup: Setup, seed: u32, list: &mut [Request]) -> u32 {
        let count = list.len();
        let mut p = begin(setup, seed, count);
        while p.going {
            list[p.at] = p.request;
            p = turn(setup, p, count);
        }
        p.refusal
    }
"""
from parts import *


class Filling:
    """The function.

    here, name: its crate and its own name. kit: the crate of Frame and Opening. steps: the crate of `begin` and `turn`.
    values: [(name, Kind)], the parameters by value, in their order. The list is the last parameter, in the proof it is ys.
    element, size: the Kind of its elements, and the bytes of one. carried: the Kind of p. Its field 0 is `going`, its field 1 `at`; made: the name and the
    number of the field with the record, answer: the name, the number and the Kind of the one that is returned.
    turn_takes: the names of the values that `turn` takes, before p and the count.
    begun, turned: what `begin` and `turn` return, with {n} for the count and {d} for p. asks: what `turn` requires, with the same. ready: a proof of it, with
    {inv} for what a law of the loop is applied to; `below` says that the place is in the list. says: the contract, of the answer r and the last list l.
    laws: (crate, module of its proofs, names) of the loop's laws. cites: parts.spec_uses."""

    def __init__(self, here, name, kit, steps, values, element, size, carried, made, answer, turn_takes, begun, turned, asks, ready, says, laws, cites):
        self.__dict__.update({k: v for k, v in locals().items() if k != 'self'})
        self.F = dashed(name)
        self.vs = ' '.join(x for x, _ in values)
        self.inv = '%s ys (x .state) (x .list) (x .inv)' % self.vs

    def text(self):
        names = dict(F=self.F, here=self.here, steps=self.steps, vs=self.vs, inv=self.inv, says=self.says, size=self.size)
        for part in (self.values_part(), self.types_part(), self.calls_part(), self.places_part(), self.end_part()):
            names.update(part)
        return prune(self.head() + WALK % names)

    def head(self):
        here, own = self.here, '%s.%s' % (proofs(self.here, self.here), self.name)
        t = '-- `%s::%s` meets its contract: a walk of its MIR, by hand. It knows of its callees only that each meets its contract.\n' % (here, self.name)
        t += '-- The list is opened at the start and closed at the end; in between the walk has its memory. At each turn the record that is had by value is stored at its place, and the next one is asked for. The loop goes by `proofs/%s.antt`.\n' % self.laws[1]
        t += '-- The context is [the list\'s memory; what is left of its borrow; _0; …; _%d; that the locals die]. Assumes nothing.\n' % (len(self.values) + 6)
        t += HEAD + FILLING_HEAD
        t += kind_uses(here, [k for _, k in self.values] + [self.element, self.carried]) + spec_uses(here, self.cites)
        t += 'use %s.%s.{%s}\n' % (proofs(here, self.laws[0]), self.laws[1], ', '.join(self.laws[2])) + kit_uses(here, self.kit)
        for f in ('begin', 'turn'):
            p = '%s.%s' % (proofs(here, self.steps), f)
            t += 'use %s as %s-fn\nuse %s.Symbol as %s-def\nuse %s.Symbol.{name as #%s·%s}\nuse %s.Met as %s-thm\n' % (p, f, p, f, p, self.steps, f, p, f)
        return t + 'use %s.Key.{name as #%s·%s}\nuse %s as %s\nuse %s.Statement as stated\nuse %s.Code as code\nuse %s.Code.Mir as code-mir\n\n' % (own, here, self.F, own, self.F, own, own, own)

    def values_part(self):
        """The parameters by value: their types, what is known of them, and how they come in."""
        V, E, n = self.values, self.element, len(self.values)
        return dict(
            params=' '.join('(%s : %s)' % (x, k.ty) for x, k in V), are=' '.join('(%s-is : %s)' % (x, k.is_(x)) for x, k in V), is_all=' '.join(x + '-is' for x, _ in V),
            stayed=nest(['stay-none (λ _. %s) yes' % k.row for _, k in V] + ['stay-slice (0 ∷ []) tt (plain (λ _. %s))' % E.row]),
            args=nest([x for x, _ in V] + ['at-list %s b o γ ys' % E.row]), args_ty=''.join('%s × (' % k.ty for _, k in V) + 'RefT (List %s) × Unit {0}' % E.ty + ')' * n,
            at=nest([k.vals(x) for x, k in V] + ['sl ∷ []']), at_ty='List Val × (' * n + 'List Val × Unit {0}' + ')' * n,
            rows=' ∷ '.join(k.row for _, k in V), entry=' ∷ '.join(k.val(x) for x, k in V),
            passed=''.join('pass1 ! (init ! %d refl %s) $ ' % (i + 1, k.typed(x, '_', x + '-is')) for i, (x, k) in enumerate(V)), drops='drop ! $ fsplit ! $ ' * n,
            exits=nest(['tt'] * n + ['l']), lens=nest(['tt'] * n + ['len']), end_owned=owned(V))

    def types_part(self):
        """The list's elements, what the loop carries, the record that is stored, and the answer."""
        E, C, (made, made_at), (answer, answer_at, R) = self.element, self.carried, self.made, self.answer
        m, r = '(x .state .%s)' % made, '(x .state .%s)' % answer
        return dict(
            E=E.ty, Erow=E.row, Evals=E.spells(), Etells=E.tells(), Emakes=E.makes(), C=C.ty, Crow=C.row, Ctl=C.tl, Cl=C.name + '-l', Cval='(%s.val %s)' % (C.LL, C.tl),
            made=m, made_at=made_at, made_owed=' .1' * made_at + ' .0', made_vals='(%s %s)' % (E.spells(), m), made_typed=E.typed(m, '_', 'made-is'), made_is=E.is_(m),
            Rty=R.ty, Rval=R.val('r'), Ris=R.is_('r'), Rowned=R.owned('r', 'r-is'), answer=answer, answer_at=answer_at, answer_owed=' .1' * answer_at + ' .0',
            answer_val=R.val(r), answer_typed=R.typed(r, '_', 'r-is'), answer_is=R.is_(r))

    def calls_part(self):
        """What `begin` and `turn` are passed and return."""
        count, takes = ('n', Kind('usize')), [(x, k) for x, k in self.values if x in self.turn_takes]
        begin, turn = self.values + [count], takes + [('d', self.carried), count]
        here = dict(d='(x .state)', n='(length ys)')
        return dict(
            begun=self.begun.format(n='n'), begun_ys=self.begun.format(n='(length ys)'), turned=self.turned.format(d='d', n='n'), turned_x=self.turned.format(**here),
            asks=self.asks.format(d='d', n='n'), asks_x=self.asks.format(**here), ready=self.ready.format(inv=self.inv + ' go'),
            begin_args=nest(x for x, _ in begin), begin_vals=nest(k.vals(x) for x, k in begin), begin_owned=owned(begin),
            turn_args=nest(x for x, _ in turn), turn_vals=nest(k.vals(x) for x, k in turn), turn_owned=owned(turn),
            takes=' '.join('(%s : %s)' % (x, k.ty) for x, k in takes), takes_are=' '.join('(%s-is : %s)' % (x, k.is_(x)) for x, k in takes),
            take=' '.join(x for x, _ in takes), take_is=' '.join(x + '-is' for x, _ in takes), calls_begin=calls(self.steps, 'begin'), calls_turn=calls(self.steps, 'turn'))

    def places_part(self):
        """The locals: the answer, the parameters, the count, p, the loop's test, an offset and a place. In the context local i stands at i + 2, at a call at i + 3."""
        n, names = len(self.values), [x for x, _ in self.values]
        local = dict(list=n + 1, count=n + 2, p=n + 3, flag=n + 4, offset=n + 5, place=n + 6)
        blocks = [block(i) for i in range(n + 7)]
        loads = lambda values, own: passes([names.index(x) + 4 for x in values] + [local[k] + 3 for k in own])
        slots = ['is-some ' + k.val(x) for x, k in self.values] + ['is-some sl', 'is-some (vint w64 (length ys))', 'is-some (val (x .state))']
        answer, _, R = self.answer
        places = {k: i + 2 for k, i in local.items() if k != 'list'}
        return dict(
            places, slice=local['list'] + 2, list_local=local['list'], p1=local['p'] + 4, place1=local['place'] + 4, owns_at=n + 9, borrow_at=n + 10,
            blocks=' '.join(blocks), blocks_list=cons(blocks), flag_block=blocks[local['flag']], place_block=blocks[local['place']], p_block=blocks[local['p']],
            begin_loads=loads(names, ['count']), turn_loads=loads(self.turn_takes, ['p', 'count']),
            slots_first=cons(['none'] + slots), slots_end=cons(['is-some ' + R.val('(x .state .%s)' % answer)] + slots + ['is-some (vbool false)']))

    def end_part(self):
        """From the walk to the contract."""
        V, E, n = self.values, self.element, len(self.values)
        given = [nth(n, 'a') + x for x in (' .ptr .0)', ' .ptr .1)', ' .name)')] + [nth(i, 'a') + ')' for i in range(n)] + [nth(n, 'a') + ' .now)']
        return dict(
            spells=nest([k.spells() for _, k in V] + ['slice-vals']), tells=nest([k.tells() for _, k in V] + ['mut-slice-tells (named 0) (κs .0) %s' % E.row]),
            given=' '.join(given + [nth(i, 'are') + ')' for i in range(n)] + [nth(n, 'are') + ' .0 .1)']),
            goes=nest(['goes-none 𝓤 H A W 1 (λ _. %s) yes (λ κs x f. refl)' % k.row for _, k in V] + ['goes-slice 𝓤 H A W 1 0 tt (plain (λ _. %s))' % E.row]))


def owned(values):
    """What owns them, the last one first."""
    return ''.join(k.owned(x, x + '-is') + 'fjoin ! $ ' for x, k in reversed(values))


def passes(places):
    """The operands of a call, from these places of the context."""
    r = '(no-more !)'
    for i in reversed(places):
        r = '(and-then ! (load ! (from ! (stop !)) (look ! %d refl)) %s)' % (i, r)
    return r


FILLING_HEAD = '''use Prim.Native.Nat.{_-_}
use lib.ListN.{set, length-set}
use denote.Index.{row, whole-out, whole-in, elem-put}
'''

WALK = '''abbrev stayed : Stays (%(F)s.ended .signature .params) (%(F)s.ended .kept)
stayed = %(stayed)s

abbrev val : %(C)s → Val
val = %(Cval)s

module _ %(params)s (ys : List %(E)s) where
  -- a state that the loop comes to
  record Turning : Type 0 where
    state : %(C)s
    list : List %(E)s
    inv : Inv %(vs)s ys state list
    is : Is %(Crow)s state (val state ∷ [])
    len : length list ≡ length ys

  abbrev left : Turning → ℕ
  left x = length ys - x .state .at

  abbrev ≺ : Turning → Turning → Type 0
  ≺ y x = left y < left x

  wf : WellFounded ≺
  wf = InvImage·wf left (Nat·lt-wfRel .wf)

-- what a call tells of its result w, which is d
record Told (d : %(C)s) (w : Val) : Type 0 where
  value : w ≡ val d
  is : Is %(Crow)s d (val d ∷ [])

told : (d : %(C)s) (w : Val) → Is %(Crow)s d (w ∷ []) → Told d w
told d w is = let e = LL.tells %(Ctl)s d (w ∷ []) is in record { value = ap only e; is = subst (Is %(Crow)s d) e is }

-- a call that returns some r, of which it says S r: if that is to be d, then the value is d's
told-by : {M : Type 1} (𝓤 : URA M) (H : Heap 𝓤) (A : Atoms 𝓤) (W : Given 𝓤 H A) (S : %(C)s → SProp 𝓤) (d : %(C)s) → ((r : %(C)s) → ent 𝓤 (S r) (fact 𝓤 (r ≡ d))) → (w : Val)
    → ent 𝓤 (mean 𝓤 H A (later (some (λ (r : %(C)s). (‵ ftrue ⊛ ‵ (%(Crow)s .own r (w ∷ []))) ⊛ raw (S r))))) (H .⇛ (guard 𝓤 (Told d w) (sem 𝓤 H A ftrue)))
told-by 𝓤 H A W S d said w =
    qed W (later (some (λ (r : %(C)s). (‵ ftrue ⊛ ‵ (%(Crow)s .own r (w ∷ []))) ⊛ raw (S r))) ∷ []) ∵ updating ! $ await ! tt $ pick ! (λ r.
    split ! $ move ! (1 ∷ []) $ use1 W (raw (fact 𝓤 (r ≡ d))) (said r) $ heard ! (r ≡ d) (λ e. split ! $ rewrite ! 1 (λ (g : %(C)s). ‵ (%(Crow)s .own g (w ∷ []))) e refl $ move ! (1 ∷ []) $
    facts ! %(Crow)s (Is %(Crow)s) (shows 𝓤 H A %(Crow)s) d (w ∷ []) (λ is. at-once ! $ check ! (told d w is) $ done !)))

module _ {M : Type 1} (𝓤 : URA M) (H : Heap 𝓤) (A : Atoms 𝓤) (W : Given 𝓤 H A) (mem : Memory → SProp 𝓤) (run : Routine → Fun 𝓤) where
  abbrev Begin : Contract 𝓤
  Begin = tripleOf 𝓤 H A begin-fn.signature (begin-fn.spec 𝓤 H A mem run)

  abbrev Turn : Contract 𝓤
  Turn = tripleOf 𝓤 H A turn-fn.signature (turn-fn.spec 𝓤 H A mem run)

  module _ %(params)s (n : ℕ) %(are)s (n-is : Is usize n (vint w64 n ∷ [])) where
    abbrev to-begin : Begin .Ghost
    to-begin = ((tt, tt, tt, %(begin_args)s, %(begin_vals)s), tt)

    begin-before : ent 𝓤 (emp 𝓤) (Begin .pre to-begin)
    begin-before = qed W [] ∵ nothing ! $ %(begin_owned)snothing ! $ join ! $ frame ! $ nothing ! $ done !

    begin-after : (w : Val) → ent 𝓤 (Begin .post to-begin w) (H .⇛ (guard 𝓤 (Told (%(begun)s) w) (sem 𝓤 H A ftrue)))
    begin-after =
        told-by 𝓤 H A W (ensured 𝓤 H A begin-fn.ended (begin-fn.clauses 𝓤 H A mem run) tt %(begin_args)s tt) (%(begun)s)
        (λ r. exE 𝓤 _ (λ ws. snd∗ 𝓤 (sem 𝓤 H A (lasts begin-fn.ended tt %(begin_args)s ws)) (fact 𝓤 (r ≡ %(begun)s))))

  module _ %(takes)s (d : %(C)s) (n : ℕ) %(takes_are)s (d-is : Is %(Crow)s d (val d ∷ [])) (n-is : Is usize n (vint w64 n ∷ [])) (ready : %(asks)s) where
    abbrev to-turn : Turn .Ghost
    to-turn = ((tt, tt, tt, %(turn_args)s, %(turn_vals)s), tt)

    turn-before : ent 𝓤 (emp 𝓤) (Turn .pre to-turn)
    turn-before = qed W [] ∵ says ! ready $ nothing ! $ frame ! $ nothing ! $ %(turn_owned)sdone !

    turn-after : (w : Val) → ent 𝓤 (Turn .post to-turn w) (H .⇛ (guard 𝓤 (Told (%(turned)s) w) (sem 𝓤 H A ftrue)))
    turn-after =
        told-by 𝓤 H A W (ensured 𝓤 H A turn-fn.ended (turn-fn.clauses 𝓤 H A mem run) tt %(turn_args)s tt) (%(turned)s)
        (λ r. exE 𝓤 _ (λ ws. snd∗ 𝓤 (sem 𝓤 H A (lasts turn-fn.ended tt %(turn_args)s ws)) (fact 𝓤 (r ≡ %(turned)s))))

module _ {M : Type 1} (𝓤 : URA M) (H : Heap 𝓤) (A : Atoms 𝓤) (W : Given 𝓤 H A) (mem : Memory → SProp 𝓤) (run : Routine → Fun 𝓤) (κ : Lft) (q : Share) (b o : ℕ) (γ : GName)
    %(params)s (ys : List %(E)s) %(are)s (room : Room %(Erow)s (length ys)) where
  abbrev args : %(args_ty)s
  args = %(args)s

  abbrev sl : Val
  sl = slice-at %(Erow)s b o ys

  abbrev at : %(at_ty)s
  at = %(at)s

  abbrev bound : walkOf 𝓤 H A %(F)s.ended stayed (%(F)s.clauses 𝓤 H A mem run) .Ghost
  bound = (((κ, tt), (q, tt), tt, args, at), tt)

  abbrev Post : Val → SProp 𝓤
  Post = walkOf 𝓤 H A %(F)s.ended stayed (%(F)s.clauses 𝓤 H A mem run) .post bound

  abbrev Kept : Item 𝓤
  Kept = ‵ (Opened %(Erow)s b o κ q γ ys)

  finish : (r : %(Rty)s) (l : List %(E)s) → %(Ris)s → %(says)s → length l ≡ length ys → ent 𝓤 (mean 𝓤 H A (‵ (Cells %(Erow)s b o l) ⊛ Kept)) (H .⇛ (Post %(Rval)s))
  finish r l r-is e len =
      qed W (‵ (Cells %(Erow)s b o l) ∷ Kept ∷ []) ∵ updating ! $
      use2 W (later (‵ (MutSlice (named 0) κ %(Erow)s .own (at-list %(Erow)s b o γ l) (sl ∷ [])) ⊛ ‵ (flft κ q))) (slice-closes %(Erow)s b o 𝓤 H A W (named 0) κ q γ ys l room len) $ await ! tt $ split ! $
      at-once ! $ suffices ! _ (ends-at 𝓤 H A %(F)s.ended stayed (%(F)s.clauses 𝓤 H A mem run) W bound %(Rval)s r %(exits)s %(lens)s) $ says ! e $
      nothing ! $ move ! (2 ∷ 0 ∷ []) $ join ! $ frame ! $ nothing ! $ move ! (1 ∷ 0 ∷ []) $ fjoin ! $ %(end_owned)sframe ! $ %(Rowned)sdone !

  module _ (𝓣 : Tables 𝓤 H) (known-begin : Triple 𝓤 (𝓣 .C #%(steps)s·begin) (Begin 𝓤 H A W mem run)) (known-turn : Triple 𝓤 (𝓣 .C #%(steps)s·turn) (Turn 𝓤 H A W mem run)) where
    abbrev C : Calls 𝓤 H
    C = 𝓣 .C

    abbrev Λ : Loops 𝓤 H
    Λ = 𝓣 .Λ

    module _ (%(blocks)s : ℕ) where
      abbrev E : Env 𝓤 H
      E = blocks-of (code.function .locals) %(blocks_list)s

      abbrev X : Type 0
      X = Turning %(vs)s ys

      -- the context where the loop's test is reached
      abbrev I : X → List (Item 𝓤)
      I x = ‵ (Cells %(Erow)s b o (x .list)) ∷ Kept ∷ (slots E %(slots_first)s ++ (‵ (dieAll E) ∷ []))

      abbrev Left : Kit.Post 𝓤 H
      Left = anyQ (afterBlock 𝓤 H (afterSeq 𝓤 H (Wp 𝓤 H C Λ E code-mir.t-4 (atReturn 𝓤 H E Post)) (atReturn 𝓤 H E Post)))

      abbrev Turns : X → Type 1
      Turns x = Sq W (I x) (runs C Λ E code-mir.turn-1 (anyQ (afterTurn 𝓤 H (Below 𝓤 H A (≺ %(vs)s ys) I x) (post 𝓤 H Left))))

      ends : (x : X) → x .state .going ≡ false → Turns x
      unfolding afterTurn
      ends x stopped =
          assigns ! (of-opd ! (load ! (from ! (fld ! refl (stop !))) (look-in ! %(p)d (sub ! 0 refl (whole !))))) (from ! (stop !)) (init ! %(flag)d refl (tt, tt)) $
          rewrite ! %(flag)d (λ (y : Bool). ‵ (fat fullShare tyBool %(flag_block)s 0 (vbool y))) stopped refl $
          leaves-loop ! (load ! (from ! (stop !)) (look ! %(flag)d refl)) $ exec ! C Λ E code-mir.t-4 (atRet E Post) $
          assigns ! (of-opd ! (load ! (from ! (fld ! refl (stop !))) (look-in ! %(p)d (sub ! %(answer_at)d refl (whole !))))) (from ! (stop !)) (init ! 2 refl %(answer_typed)s) $
          group ! 2 $ use1 W (later (raw (Post %(answer_val)s))) (finish (x .state .%(answer)s) (x .list) r-is (inv-end %(inv)s stopped) (x .len)) $ await ! tt $
          returns ! (look ! 1 refl) $ leave-all ! E %(slots_end)s (done !)
        where
          r-is : %(answer_is)s
          r-is = LL.owed %(Ctl)s (x .state) _ (x .is)%(answer_owed)s

      more : (x : X) → x .state .going ≡ true → Turns x
      unfolding afterTurn
      more x go =
          assigns ! (of-opd ! (load ! (from ! (fld ! refl (stop !))) (look-in ! %(p)d (sub ! 0 refl (whole !))))) (from ! (stop !)) (init ! %(flag)d refl (tt, tt)) $
          rewrite ! %(flag)d (λ (y : Bool). ‵ (fat fullShare tyBool %(flag_block)s 0 (vbool y))) go refl $
          stays ! (load ! (from ! (stop !)) (look ! %(flag)d refl)) $
          assigns ! (bin ! (load ! (from ! (fld ! refl (stop !))) (look-in ! %(p)d (sub ! 1 refl (whole !)))) (lit ! tt) (record { fits = small })) (from ! (stop !)) (init ! %(offset)d refl (tt, record { fits = small })) $
          assigns ! (bin ! (load ! (from ! (fld ! refl (stop !))) (look-in ! %(slice)d (sub ! 0 refl (whole !)))) (load ! (from ! (stop !)) (look ! %(offset)d refl)) tt) (from ! (stop !)) (init ! %(place)d refl (tt, tt)) $
          rewrite ! %(place)d (λ (p : ℕ). ‵ (fat fullShare tyPtr %(place_block)s 0 (vptr b p))) (sym (place-is %(size)d o (x .state .at))) refl $
          -- the element at the place is taken out of the row, the record is stored there, and it is put back
          use1 W (‵ (row %(Erow)s fullShare (x .list) b o)) (whole-out 𝓤 H A W %(Erow)s (x .list) b o) $
          elem-out ! %(Erow)s (Is %(Erow)s) (shows 𝓤 H A %(Erow)s) %(Evals)s %(Etells)s fullShare (x .list) (x .state .at) %(made)s b o at-place (λ _.
          assigns ! (of-opd ! (load ! (from ! (fld ! refl (stop !))) (look-in ! %(p1)d (sub ! %(made_at)d refl (whole !))))) (from ! (hop ! (look ! %(place1)d refl) (stop !))) (store-raw ! 0 refl %(made_typed)s) $
          move ! (1 ∷ []) $ drop ! $ owned ! %(Erow)s (Is %(Erow)s) %(Emakes)s %(made)s _ made-is $ move ! (1 ∷ 0 ∷ []) $
          elem-put ! %(Erow)s fullShare (x .list) (x .state .at) %(made)s %(made_vals)s b o at-place $
          use1 W (‵ (Cells %(Erow)s b o stored)) (whole-in 𝓤 H A W %(Erow)s stored b o) $
          use0 W (raw (Turn 𝓤 H A W mem run .pre (to-turn 𝓤 H A W mem run %(take)s (x .state) (length ys) %(take_is)s (x .is) (refl, room .0) ready))) (turn-before 𝓤 H A W mem run %(take)s (x .state) (length ys) %(take_is)s (x .is) (refl, room .0) ready) $
          calls-at-last ! (fmOf 𝓤 H (W .laws) 𝓣) (Turn 𝓤 H A W mem run) known-turn (to-turn 𝓤 H A W mem run %(take)s (x .state) (length ys) %(take_is)s (x .is) (refl, room .0) ready) %(turn_loads)s (λ w.
          use1 W (later (given (Told next w) (‵ ftrue))) (turn-after 𝓤 H A W mem run %(take)s (x .state) (length ys) %(take_is)s (x .is) (refl, room .0) ready w) $ await ! tt $ learn ! (λ t. drop ! $
          land-last ! (from ! (stop !)) (store ! %(p)d refl (LL.lawful %(Ctl)s 𝓤 H A W .typed next (w ∷ []) (subst (λ (u : Val). Is %(Crow)s next (u ∷ [])) (sym (t .value)) (t .is)) .0)) $
          forget ! %(flag)d refl $ forget ! %(offset)d refl $ forget ! %(place)d refl $ rewrite ! %(p)d (λ (u : Val). ‵ (fat fullShare %(Cl)s.mir %(p_block)s 0 u)) (t .value) refl $
          again ! (≺ %(vs)s ys) I x (record { state = next; list = stored; inv = inv-turn %(inv)s go; is = t .is; len = length-set (x .list) (x .state .at) %(made)s ∙ x .len })
          falls)))
        where
          next : %(C)s
          next = %(turned_x)s

          stored : List %(E)s
          stored = set (x .list) (x .state .at) %(made)s

          below : x .state .at < length ys
          below = inv-within %(inv)s go

          ready : %(asks_x)s
          ready = %(ready)s

          at-place : x .state .at < length (x .list)
          at-place = let w : x .state .at < length ys = below in let e : length (x .list) ≡ length ys = x .len in omega arith

          made-is : %(made_is)s
          made-is = LL.owed %(Ctl)s (x .state) _ (x .is)%(made_owed)s

          small : x .state .at * %(size)d < 2 ^ 64
          small = let far : length ys * %(size)d < 2 ^ 63 = room .1 in let w : x .state .at < length ys = below in omega arith

          falls : length ys - next .at < length ys - x .state .at
          falls = inv-falls %(inv)s go

      turn-at : (x : X) (y : Bool) → x .state .going ≡ y → Turns x
      turn-at x true e = more x e
      turn-at x false e = ends x e

    walk : ent 𝓤 (onEntry 𝓤 H A %(F)s.signature (κ, tt) (q, tt) args at) (WpFn 𝓤 H C Λ code.function (%(entry)s ∷ sl ∷ []) Post)
    walk =
        qed W ((‵ (flft κ q) ⊛ ‵ ftrue) ∷ ‵ (owns (%(rows)s ∷ MutSlice (named 0) κ %(Erow)s ∷ []) args at) ∷ []) ∵ enter ! C Λ code.function (%(entry)s ∷ sl ∷ []) _ $
        alloc-all ! (code.function .locals) (λ %(blocks)s. params1 ! $ %(passed)spass1 ! (init ! %(list_local)d refl (tt, (tt, (record { fits = room .0 }, tt)))) $ pass0 ! $
        move ! (%(owns_at)d ∷ []) $ fsplit ! $ %(drops)smove ! (%(borrow_at)d ∷ []) $ split ! $ move ! (2 ∷ 0 ∷ []) $
        use2 W (later (‵ (Cells %(Erow)s b o ys) ⊛ Kept)) (slice-opens %(Erow)s b o 𝓤 H A W (named 0) κ q γ ys) $ await ! tt $ split ! $ move ! (2 ∷ 3 ∷ []) $ drop ! $ drop ! $
        assigns ! (of-opd ! (load ! (from ! (fld ! refl (stop !))) (look-in ! %(slice)d (sub ! 1 refl (whole !))))) (from ! (stop !)) (init ! %(count)d refl (tt, record { fits = room .0 })) $
        use0 W (raw (Begin 𝓤 H A W mem run .pre (to-begin 𝓤 H A W mem run %(vs)s (length ys) %(is_all)s (refl, room .0)))) (begin-before 𝓤 H A W mem run %(vs)s (length ys) %(is_all)s (refl, room .0)) $
        calls-at ! (fmOf 𝓤 H (W .laws) 𝓣) (Begin 𝓤 H A W mem run) known-begin (to-begin 𝓤 H A W mem run %(vs)s (length ys) %(is_all)s (refl, room .0)) %(begin_loads)s (λ w.
        use1 W (later (given (Told (%(begun_ys)s) w) (‵ ftrue))) (begin-after 𝓤 H A W mem run %(vs)s (length ys) %(is_all)s (refl, room .0) w) $ await ! tt $ learn ! (λ t. drop ! $
        land ! (from ! (stop !)) (init ! %(p)d refl (LL.lawful %(Ctl)s 𝓤 H A W .typed (%(begun_ys)s) (w ∷ []) (subst (λ (u : Val). Is %(Crow)s (%(begun_ys)s) (u ∷ [])) (sym (t .value)) (t .is)) .0)) $
        rewrite ! %(p)d (λ (u : Val). ‵ (fat fullShare %(Cl)s.mir %(p_block)s 0 u)) (t .value) refl $
        first ! $ into-block ! $ loops ! 𝓣 (≺ %(vs)s ys) (wf %(vs)s ys) (I %(blocks)s) (λ x. turn-at %(blocks)s x (x .state .going) refl)
        (record { state = %(begun_ys)s; list = ys; inv = inv-start %(vs)s ys; is = t .is; len = refl }))))

module _ {M : Type 1} (𝓤 : URA M) (H : Heap 𝓤) (A : Atoms 𝓤) (W : Given 𝓤 H A) (mem : Memory → SProp 𝓤) (run : Routine → Fun 𝓤) (𝓣 : Tables 𝓤 H)
    (known-begin : Triple 𝓤 (𝓣 .C #%(steps)s·begin) (Begin 𝓤 H A W mem run)) (known-turn : Triple 𝓤 (𝓣 .C #%(steps)s·turn) (Turn 𝓤 H A W mem run)) where
  %(F)s-walks : Walks 𝓤 H A %(F)s.ended stayed (WpFn 𝓤 H (𝓣 .C) (𝓣 .Λ) code.function) (%(F)s.clauses 𝓤 H A mem run)
  %(F)s-walks = walked 𝓤 H A %(F)s.ended stayed (%(F)s.clauses 𝓤 H A mem run) (WpFn 𝓤 H (𝓣 .C) (𝓣 .Λ) code.function) (λ κs. %(spells)s) (λ κs. %(tells)s)
      (λ κs qs bounds a g are. via 𝓤 _ (fst∗ 𝓤 _ (emp 𝓤)) (walk 𝓤 H A W mem run (κs .0) (qs .0) %(given)s 𝓣 known-begin known-turn))

  %(F)s-meets : Meets 𝓤 H A %(F)s.signature (WpFn 𝓤 H (𝓣 .C) (𝓣 .Λ) code.function) (%(F)s.spec 𝓤 H A mem run)
  %(F)s-meets = walk-meets 𝓤 H A %(F)s.ended stayed W %(goes)s (%(F)s.clauses 𝓤 H A mem run)
      (WpFn 𝓤 H (𝓣 .C) (𝓣 .Λ) code.function) (WpFn-mono 𝓤 H (W .laws) 𝓣 code.function) %(F)s-walks

pub %(F)s-spec : {M : Type 1} → stated.statement M
unfolding code.routine tablesOf
%(F)s-spec 𝓤 H 𝓜 𝓖 𝓡 =
    entered 𝓤 H (tripleOf 𝓤 H (𝓖 .A) %(F)s.signature (%(F)s.spec 𝓤 H (𝓖 .A) (𝓜 .mem) (𝓡 .run)))
    (tables 𝓤 H 𝓜 𝓡 code.env .C) (tables 𝓤 H 𝓜 𝓡 code.env .Λ) #%(here)s·%(F)s code.function (code.unfolded 𝓤 H 𝓜 𝓡)
    (%(F)s-meets 𝓤 H (𝓖 .A) (givenOf 𝓤 H 𝓜 𝓖) (𝓜 .mem) (𝓡 .run) (tablesOf 𝓤 H 𝓜 (tables 𝓤 H 𝓜 𝓡 code.env))
    (cited 𝓤 H (Begin 𝓤 H (𝓖 .A) (givenOf 𝓤 H 𝓜 𝓖) (𝓜 .mem) (𝓡 .run)) 𝓜 𝓡 code.env #%(steps)s·begin begin-def.routine %(calls_begin)s (begin-thm.met 𝓤 H 𝓜 𝓖 𝓡))
    (cited 𝓤 H (Turn 𝓤 H (𝓖 .A) (givenOf 𝓤 H 𝓜 𝓖) (𝓜 .mem) (𝓡 .run)) 𝓜 𝓡 code.env #%(steps)s·turn turn-def.routine %(calls_turn)s (turn-thm.met 𝓤 H 𝓜 𝓖 𝓡)))
'''
