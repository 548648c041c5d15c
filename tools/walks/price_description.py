"""The walk of rival_pricer::price: `python3 tools/walks/price_description.py` writes its proof.

It writes crates/rival_pricer/proofs/price/Proof.antt and crates/rival_pricer/proofs/price/Proof/{Begin,Take,Complete}.antt.
The repository is the one that this file stands in, or the folder named as the first argument."""
import os
import sys

from parts import Kind, Slice, Stage
from call import Callee
from loop import Loop

ROOT = sys.argv[1] if len(sys.argv) > 1 else os.path.dirname(os.path.dirname(os.path.dirname(os.path.abspath(__file__))))
HERE, KIT = 'rival_pricer', 'walks'

Setup, Request = (Kind(n, 'protocol_types') for n in ('Setup', 'Request'))
Entry, PriceAnswer = (Kind(n, 'protocol_types', True) for n in ('Entry', 'PriceAnswer'))
Pricing = Kind('Pricing', 'rival_pricing')
usize = Kind('usize')

BUFFERS = ['blocks', 'held', 'marks']
slices = [(n, Slice('u32')) for n in BUFFERS]
buffers = ' '.join(BUFFERS)
lent = '(rival %s)' % buffers
stage = Stage('PriceStage', 'priceStage {} (rival {} {} {})', 'progress', {n: '.copies .' + n for n in BUFFERS})

RIVAL_SPEC = ('protocol', 'Rival', ['rival'])
here = '(priceStage p %s)' % lent


def stages(*names):
    return ('rival_pricing', 'Stages', ['PriceStage', 'priceStage'] + list(names))


begin = Callee(HERE, KIT, 'rival_schedule', 'begin', 'Begin', [('setup', Setup)] + slices + [('entries', usize), ('requests', usize)], Pricing, 'mut',
               'priceBegun setup %s entries requests' % lent, None, [RIVAL_SPEC, stages('priceBegun')], stage)
take = Callee(HERE, KIT, 'rival_schedule', 'take', 'Take', [('setup', Setup)] + slices + [('p', Pricing), ('entry', Entry)], Pricing, 'mut',
              'took setup %s entry' % here, 'PriceReady setup %s' % here, [RIVAL_SPEC, stages('PriceReady', 'took')], stage)
complete = Callee(HERE, KIT, 'rival_schedule', 'complete', 'Complete', [('setup', Setup)] + slices + [('p', Pricing), ('request', Request)], Pricing, 'mut',
                  'completed setup %s request' % here, 'Due setup %s' % here, [RIVAL_SPEC, stages('Due', 'completed')], stage)

inv = 'setup %s entries requests' % lent
at_turn = '%s (x .at) (x .inv)' % inv
whole = 'setup %s requests entries' % lent
body = '(rest-of (rest-of (rest-of code-mir.turn-1)))'

price = Loop(
    root=ROOT, here=HERE, kit=KIT, name='price',
    params=[('setup', Setup)] + slices + [('entries', ('list', Entry)), ('requests', ('list', Request))],
    stage=stage, carried=Pricing, result=PriceAnswer, answer='answer', answer_at=8, size={'entries': 12, 'requests': 16}, flag='completing',
    begin=begin, begin_args={'entries': '(length entries)', 'requests': '(length requests)'},
    begin_is={'entries': '(refl, r-entries .0)', 'requests': '(refl, r-requests .0)'}, begin_ready=None,
    first='(priceBegun setup %s (length entries) (length requests))' % lent, inv_start='inv-start %s' % inv,
    arms=[dict(name='with-request', body='(then-of %s)' % body, callee=complete, list='requests', index='(x .at .progress .next)', none='no-request',
               args={'request': 'e'}, **{'is': {'request': 'e-is'}}, ready='(due %s go flag)' % at_turn, next='completed setup (x .at) e',
               inv='inv-completed %s go flag' % at_turn, falls='falls-completed %s go flag' % at_turn, within='at-request %s go flag' % at_turn),
          dict(name='with-entry', body='(else-of %s)' % body, callee=take, list='entries', index='(x .at .progress .at)', none='no-entry',
               args={'entry': 'e'}, **{'is': {'entry': 'e-is'}}, ready='(x .inv .goes go .ready)', next='took setup (x .at) e',
               inv='inv-took %s go flag' % at_turn, falls='falls-took %s go flag' % at_turn, within='at-entry %s go' % at_turn)],
    done='(s .progress .answer ≡ priced %s) × (inNumbers (s .progress .answer) ≡ priceNumbers %s) × (s .copies ≡ priceTables %s)' % (whole, whole, whole),
    done_is='in-numbers %s (inv-end %s stopped)' % (whole, at_turn),
    inv_params=['setup'] + BUFFERS + ['entries', 'requests'], inv=inv,
    laws=[('protocol_types', 'Conditions', ['no-request']), ('protocol', 'Pricer', ['in-numbers']), (HERE, 'Loop', ['no-entry', 'Inv', 'μ', 'inv-start', 'inv-took', 'falls-took', 'inv-completed', 'falls-completed', 'at-entry', 'at-request', 'due', 'inv-end'])],
    cites=[RIVAL_SPEC, ('protocol', 'Pricer', ['price as priced', 'priceTables', 'inNumbers', 'priceNumbers']), stages('priceBegun', 'took', 'completed')],
    small=None)


def write(path, text):
    path = os.path.join(ROOT, 'crates', HERE, 'proofs', path)
    os.makedirs(os.path.dirname(path), exist_ok=True)
    with open(path, 'w', encoding='utf-8') as f:
        f.write(text)


if __name__ == '__main__':
    for c in (begin, take, complete):
        write('price/Proof/%s.antt' % c.mod, c.text())
    write('price/Proof.antt', price.text())
