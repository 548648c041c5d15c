"""The walk of trials_lending::price_arrays: `python3 tools/walks/price_arrays_description.py` writes its proof.

It writes crates/trials_lending/proofs/price_arrays/Proof.antt and crates/trials_lending/proofs/price_arrays/Proof/Price.antt.
The repository is the one that this file stands in, or the folder named as the first argument."""
import os
import sys

from parts import Kind, Slice
from lending import Array, Entry, Lending

ROOT = sys.argv[1] if len(sys.argv) > 1 else os.path.dirname(os.path.dirname(os.path.dirname(os.path.abspath(__file__))))
HERE, KIT = 'trials_lending', 'walks'

Setup, Request = (Kind(n, 'protocol_types') for n in ('Setup', 'Request'))
ScheduleEntry, PriceAnswer = (Kind(n, 'protocol_types', True) for n in ('Entry', 'PriceAnswer'))
BUFFERS = ['blocks', 'held', 'marks']
whole = 'setup (rival %s) requests entries' % ' '.join(BUFFERS)

price_arrays = Lending(
    root=ROOT, here=HERE, kit=KIT, name='price_arrays', entry=Entry(HERE, 'rival_pricer', 'price', 'Price'),
    params=[('setup', Setup)] + [(n, Slice('u32')) for n in BUFFERS] + [('entries', Array(ScheduleEntry, 20)), ('requests', Array(Request, 8))],
    refs=[], answer=PriceAnswer, result=PriceAnswer,
    says='({answer} ≡ priced %s) × (inNumbers {answer} ≡ priceNumbers %s) × (rival {blocks} {held} {marks} ≡ priceTables %s)' % (whole, whole, whole),
    cites=[('protocol', 'Rival', ['rival']), ('protocol', 'Pricer', ['price as priced', 'priceTables', 'inNumbers', 'priceNumbers'])])


def write(path, text):
    path = os.path.join(ROOT, 'crates', HERE, 'proofs', path)
    os.makedirs(os.path.dirname(path), exist_ok=True)
    with open(path, 'w', encoding='utf-8') as f:
        f.write(text)


if __name__ == '__main__':
    write('price_arrays/Proof/Price.antt', price_arrays.call_text())
    write('price_arrays/Proof.antt', price_arrays.text())
