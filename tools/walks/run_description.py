"""The walk of run::run: `python3 tools/walks/run_description.py` writes its proof.

It writes crates/run/proofs/run/Proof.antt and crates/run/proofs/run/Proof/{Begin,Turn,Growth,GrowLent}.antt.
The repository is the one that this file stands in, or the folder named as the first argument."""
import os
import sys

from parts import Kind, Slice, Stage
from call import Callee, Plain
from counting import CountingCall
from grow_lent_description import grow_lent
from loop import Loop

ROOT = sys.argv[1] if len(sys.argv) > 1 else os.path.dirname(os.path.dirname(os.path.dirname(os.path.abspath(__file__))))
HERE, KIT = 'run', 'walks'
PROGRESS, STEPS = 'run_progress', 'run_steps'

Setup, Account, Request, RunAnswer = (Kind(n, 'protocol_types') for n in ('Setup', 'Account', 'Request', 'RunAnswer'))
Progress = Kind('Progress', PROGRESS)
usize = Kind('usize')

TABLES = ['blocks', 'counters', 'marks', 'words', 'memory']
MASKED = TABLES + ['masks']
lent_slices = [(n, Slice('u32')) for n in TABLES] + [('masks', Slice('u8'))]
slices = lent_slices + [('values', Slice('u32'))]
lent = '(masked (lent %s) masks)' % ' '.join(TABLES)
stage = Stage('(RunStage Masked)', 'runStage {} (masked (lent {} {} {} {} {}) {}) {}', 'progress',
              {**{n: '.tables .tables .' + n for n in TABLES}, 'masks': '.tables .masks', 'values': '.values'})

TABLES_SPEC = ('protocol', 'Tables', ['tables as lent'])
MASKS_SPEC = ('protocol', 'Masks', ['Masked', 'masked'])
RUNS_SPEC = ('protocol', 'Runs', ['maskedRefusal', 'maskedEngine'])
USABLE_SPEC = ('engine', 'Usable', ['UsableMasked'])
here = '(runStage p %s values)' % lent
begun = 'begun (maskedRefusal setup %s account %%s values) account %%s' % lent

begin = Callee(HERE, KIT, STEPS, 'begin', 'Begin', [('setup', Setup)] + slices + [('account', Account), ('count', usize)], Progress, 'shr',
               begun % ('count', 'count'), None, [TABLES_SPEC, MASKS_SPEC, RUNS_SPEC, (PROGRESS, 'Progress', ['begun'])])
turn = Callee(HERE, KIT, STEPS, 'turn', 'Turn', [('setup', Setup)] + slices + [('p', Progress), ('request', Request)], Progress, 'mut',
              'turned (maskedEngine setup) %s request' % here, 'Ready setup (UsableMasked setup) %s' % here,
              [TABLES_SPEC, MASKS_SPEC, RUNS_SPEC, USABLE_SPEC, (PROGRESS, 'Progress', ['RunStage', 'runStage', 'Ready', 'turned'])], stage)
grow_lent_call = CountingCall(grow_lent, HERE, KIT, 'GrowLent')
growth = Plain(HERE, PROGRESS, 'growth', 'Growth', ('p', Progress), Account, 'growthOf p', 'p .answer .taken < 2 ^ 32', [(PROGRESS, 'Progress', ['growthOf'])])

inv = 'setup %s account requests values' % lent
at_turn = '%s (x .at) (x .inv)' % inv

run = Loop(
    root=ROOT, here=HERE, kit=KIT, name='run',
    params=[('setup', Setup)] + lent_slices + [('account', ('ref', Account)), ('requests', ('list', Request)), ('values', Slice('u32'))],
    stage=stage, carried=Progress, result=RunAnswer, answer='answer', answer_at=3, size={'requests': 16},
    begin=begin, begin_args={'count': '(length requests)'}, begin_is={'count': '(refl, r-requests .0)'}, begin_ready=None,
    first='(runStage (%s) %s values)' % (begun % ('(length requests)', '(length requests)'), lent),
    inv_start='inv-start %s (small-fields account-is)' % inv,
    arms=[dict(callee=turn, list='requests', index='(x .at .progress .answer .taken)', none='no-request', args={'request': 'e'}, **{'is': {'request': 'e-is'}},
               ready='(x .inv .goes go .ready)', next='turned (maskedEngine setup) (x .at) e', inv='inv-turn %s go' % at_turn, falls='inv-falls %s go' % at_turn, within='inv-within %s go' % at_turn)],
    counting=dict(by=grow_lent_call, made=growth, made_ready='(inv-count %s)' % at_turn, growth='(growthOf (x .at .progress))', room='(inv-room %s)' % at_turn),
    last='(grown account (growthOf (s .progress)))',
    done='outcome (s .progress .answer) (s .tables) (grown account (growthOf (s .progress))) (s .values) ≡ ran (maskedEngine setup) %s account requests values' % lent,
    done_is='inv-end %s stopped' % at_turn,
    inv_params=['setup'] + MASKED + ['account', 'requests', 'values'], inv=inv,
    laws=[('protocol_types', 'Conditions', ['no-request']), (STEPS, 'Loop', ['Inv', 'μ', 'inv-start', 'inv-turn', 'inv-falls', 'inv-within', 'inv-room', 'inv-count', 'inv-end'])],
    cites=[TABLES_SPEC, MASKS_SPEC, ('protocol', 'Engines', ['run as ran']), RUNS_SPEC, (PROGRESS, 'Progress', ['RunStage', 'runStage', 'begun', 'turned', 'grown', 'growthOf', 'outcome'])],
    small=(Account, ['requests', 'fetch', 'write_back', 'update']))


def write(path, text):
    path = os.path.join(ROOT, 'crates', HERE, 'proofs', path)
    os.makedirs(os.path.dirname(path), exist_ok=True)
    with open(path, 'w', encoding='utf-8') as f:
        f.write(text)


if __name__ == '__main__':
    write('run/Proof/Begin.antt', begin.text())
    write('run/Proof/Turn.antt', turn.text())
    write('run/Proof/Growth.antt', growth.text())
    write('run/Proof/GrowLent.antt', grow_lent_call.text())
    write('run/Proof.antt', run.text())
