"""The walk of generator::generate: `python3 tools/walks/generate_description.py` writes its proof, crates/generator/proofs/generate/Proof.antt.

The repository is the one that this file stands in, or the folder named as the first argument."""
import os
import sys

from parts import Kind
from filling import Filling

ROOT = sys.argv[1] if len(sys.argv) > 1 else os.path.dirname(os.path.dirname(os.path.dirname(os.path.abspath(__file__))))
HERE, STEPS = 'generator', 'generator_steps'

generate = Filling(
    here=HERE, name='generate', kit='walks', steps=STEPS,
    values=[('setup', Kind('Setup', 'protocol_types')), ('seed', Kind('u32'))], element=Kind('Request', 'protocol_types'), size=16,
    carried=Kind('Generation', STEPS), made=('request', 3), answer=('refusal', 4, Kind('u32')), turn_takes=['setup'],
    begun='generationBegun setup seed {n}', turned='generationTurned setup {n} {d}', asks='Fits setup × ({d} .at < {n})', ready='(inv-fits {inv}, below)',
    says='(r ≡ generateRefusal setup seed (length ys)) × (l ≡ generated setup seed ys)',
    laws=(HERE, 'Loop', ['Inv', 'inv-start', 'inv-fits', 'inv-within', 'inv-turn', 'inv-falls', 'inv-end']),
    cites=[('protocol_types', 'Board', ['Fits']), ('protocol', 'Generator', ['generateRefusal', 'generated']), (STEPS, 'Generation', ['generationBegun', 'generationTurned'])])

if __name__ == '__main__':
    path = os.path.join(ROOT, 'crates', HERE, 'proofs/generate/Proof.antt')
    os.makedirs(os.path.dirname(path), exist_ok=True)
    with open(path, 'w', encoding='utf-8') as f:
        f.write(generate.text())
