"""The walk of trials_lending::generate_array: `python3 tools/walks/generate_array_description.py` writes its proof.

It writes crates/trials_lending/proofs/generate_array/Proof.antt and crates/trials_lending/proofs/generate_array/Proof/Generate.antt.
The repository is the one that this file stands in, or the folder named as the first argument."""
import os
import sys

from parts import Kind
from lending import Array, Entry, Lending

ROOT = sys.argv[1] if len(sys.argv) > 1 else os.path.dirname(os.path.dirname(os.path.dirname(os.path.abspath(__file__))))
HERE, KIT = 'trials_lending', 'walks'

Setup, Request = (Kind(n, 'protocol_types') for n in ('Setup', 'Request'))

generate_array = Lending(
    root=ROOT, here=HERE, kit=KIT, name='generate_array', entry=Entry(HERE, 'generator', 'generate', 'Generate'),
    params=[('setup', Setup), ('seed', Kind('u32')), ('requests', Array(Request, 8))],
    refs=['requests'], answer=Kind('u32'), result=Kind('Generated', HERE), made='record {{ refusal = {answer}; requests = {requests} }}', fields=['answer', 'requests'],
    says='({answer} ≡ generateRefusal setup seed (length requests)) × ({requests} ≡ generated setup seed requests)',
    cites=[('protocol', 'Generator', ['generateRefusal', 'generated'])])


def write(path, text):
    path = os.path.join(ROOT, 'crates', HERE, 'proofs', path)
    os.makedirs(os.path.dirname(path), exist_ok=True)
    with open(path, 'w', encoding='utf-8') as f:
        f.write(text)


if __name__ == '__main__':
    write('generate_array/Proof/Generate.antt', generate_array.call_text())
    write('generate_array/Proof.antt', generate_array.text())
