"""The walk of best::best: `python3 tools/walks/best_description.py` writes its proof.

It writes crates/best/proofs/best/Proof.antt and crates/best/proofs/best/Proof/{Begin,Take,Turn}.antt.
The repository is the one that this file stands in, or the folder named as the first argument."""
import os
import sys

from parts import Kind, Slice, Filled, Stage
from call import Callee
from loop import Loop

ROOT = sys.argv[1] if len(sys.argv) > 1 else os.path.dirname(os.path.dirname(os.path.dirname(os.path.abspath(__file__))))
HERE, KIT, STEPS = 'best', 'walks', 'best_steps'

Setup, Request = (Kind(n, 'protocol_types') for n in ('Setup', 'Request'))
Entry, BestAnswer = (Kind(n, 'protocol_types', True) for n in ('Entry', 'BestAnswer'))
BestProgress = Kind('BestProgress', STEPS)
usize, u32 = Kind('usize'), Kind('u32')

BUFFERS = ['distances', 'order', 'predecessors', 'lowest']
slices = [(n, Slice('u32')) for n in BUFFERS]
lent = '(searchTables %s)' % ' '.join(BUFFERS)
steps_stage = Stage('BestStage', 'bestStage {} (searchTables {} {} {} {})', 'progress', {n: '.tables .' + n for n in BUFFERS})
stage = Stage('FillingStage', 'fillingStage (bestStage {} (searchTables {} {} {} {})) {}', 'stage .progress',
              dict({n: '.stage .tables .' + n for n in BUFFERS}, list='.list'))

TABLES = ('best_positions', 'Best', ['searchTables'])
here = '(bestStage p %s)' % lent


def of_steps(*names):
    return (STEPS, 'Steps', list(names))


begin = Callee(HERE, KIT, STEPS, 'begin', 'Begin', [('setup', Setup)] + slices + [('count', usize), ('entries', usize), ('steps', u32)], BestProgress, 'mut',
               'begun setup %s count entries steps' % lent, None, [TABLES, of_steps('BestStage', 'bestStage', 'begun')], steps_stage)
take = Callee(HERE, KIT, STEPS, 'take', 'Take', [('setup', Setup)] + slices + [('p', BestProgress), ('request', Request)], BestProgress, 'mut',
              'took setup %s request' % here, 'Asking setup %s' % here, [TABLES, of_steps('BestStage', 'bestStage', 'Asking', 'took')], steps_stage)
turn = Callee(HERE, KIT, STEPS, 'turn', 'Turn', [('p', BestProgress), ('distances', Slice('u32'))], BestProgress, 'shr',
              'turned distances p', 'p .at < p .count', [of_steps('turned')])

inv = 'setup requests %s list steps' % lent
at_turn = '%s (x .at) (x .inv)' % inv
body = '(rest-of (rest-of (rest-of code-mir.turn-1)))'
sized = '(searchSized %s (length list))' % lent
now = '(x .at .stage .progress .at)'

best = Loop(
    root=ROOT, here=HERE, kit=KIT, name='best',
    params=[('setup', Setup), ('requests', ('list', Request))] + slices + [('list', Filled(Entry)), ('steps', u32)],
    stage=stage, carried=BestProgress, result=BestAnswer, answer='answer', answer_at=7, size={'requests': 16, 'list': 12}, flag='asking',
    begin=begin, begin_args={'count': '(length requests)', 'entries': '(length list)'},
    begin_is={'count': '(refl, r-requests .0)', 'entries': '(refl, r-list .0)'}, begin_ready=None,
    first='(fillingStage (begun setup %s (length requests) (length list) steps) list)' % lent, inv_start='inv-start %s' % inv,
    arms=[dict(name='with-request', body='(then-of %s)' % body, callee=take, list='requests', index=now, none='no-request',
               args={'request': 'e'}, **{'is': {'request': 'e-is'}}, ready='(asking %s go flag)' % at_turn, next='fillingStage (took setup (x .at .stage) e) (x .at .list)',
               inv='inv-took %s go flag' % at_turn, falls='falls-took %s go flag' % at_turn, within='at-request %s go flag' % at_turn),
          dict(name='with-entry', body='(else-of %s)' % body, callee=turn, filled='list', index=now, made=('entry', 4), ready='(at-count %s go flag)' % at_turn,
               next='fillingStage (bestStage (turned (x .at .stage .tables .distances) (x .at .stage .progress)) (x .at .stage .tables)) stored',
               inv='inv-turned %s go flag' % at_turn, falls='falls-turned %s go flag' % at_turn, within='at-entry %s go flag' % at_turn)],
    done='(s .stage .progress .answer ≡ bestAnswer setup requests steps %s) × (s .list ≡ bestList setup requests steps %s list) × (bestRefusal setup requests %s ≢ noRefusal → s .stage .tables ≡ %s)' % (sized, sized, sized, lent),
    done_is='inv-end %s stopped' % at_turn,
    inv_params=['setup', 'requests'] + BUFFERS + ['list', 'steps'], inv=inv,
    laws=[('protocol_types', 'Conditions', ['no-request']),
          (HERE, 'Loop', ['FillingStage', 'fillingStage', 'Inv', 'μ', 'inv-start', 'asking', 'at-request', 'inv-took', 'falls-took', 'at-count', 'at-entry', 'inv-turned', 'falls-turned', 'inv-end'])],
    cites=[('protocol_types', 'Refusals', ['noRefusal']), ('best_positions', 'Best', ['searchTables', 'searchSized', 'bestRefusal', 'bestAnswer', 'bestList']),
           of_steps('BestStage', 'bestStage', 'begun', 'took', 'turned')],
    small=None)


def write(path, text):
    path = os.path.join(ROOT, 'crates', HERE, 'proofs', path)
    os.makedirs(os.path.dirname(path), exist_ok=True)
    with open(path, 'w', encoding='utf-8') as f:
        f.write(text)


if __name__ == '__main__':
    for c in (begin, take, turn):
        write('best/Proof/%s.antt' % c.mod, c.text())
    write('best/Proof.antt', best.text())
