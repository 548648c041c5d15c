"""The walk of trials_lending::run_array: `python3 tools/walks/run_array_description.py` writes its proof.

It writes crates/trials_lending/proofs/run_array/Proof.antt and crates/trials_lending/proofs/run_array/Proof/Run.antt.
The repository is the one that this file stands in, or the folder named as the first argument."""
import os
import sys

from parts import Kind, Slice
from lending import Array, Entry, Lending

ROOT = sys.argv[1] if len(sys.argv) > 1 else os.path.dirname(os.path.dirname(os.path.dirname(os.path.abspath(__file__))))
HERE, KIT = 'trials_lending', 'walks'

Setup, Account, Request, RunAnswer = (Kind(n, 'protocol_types') for n in ('Setup', 'Account', 'Request', 'RunAnswer'))
TABLES = ['blocks', 'counters', 'marks', 'words', 'memory']

run_array = Lending(
    root=ROOT, here=HERE, kit=KIT, name='run_array', entry=Entry(HERE, 'run', 'run', 'Run'),
    params=[('setup', Setup)] + [(n, Slice('u32')) for n in TABLES] + [('masks', Slice('u8')), ('account', Account), ('requests', Array(Request, 8)), ('values', Slice('u32'))],
    refs=['account'], answer=RunAnswer, result=Kind('Ran', 'host_numbers'), made='record {{ answer = {answer}; account = {account} }}', fields=['answer', 'account'],
    says='outcome {answer} (masked (lent {blocks} {counters} {marks} {words} {memory}) {masks}) {account} {values} ≡ ran (maskedEngine setup) (masked (lent %s) masks) account requests values' % ' '.join(TABLES),
    cites=[('protocol', 'Tables', ['tables as lent']), ('protocol', 'Masks', ['masked']), ('protocol', 'Engines', ['run as ran']), ('protocol', 'Runs', ['maskedEngine']), ('run_progress', 'Progress', ['outcome'])])


def write(path, text):
    path = os.path.join(ROOT, 'crates', HERE, 'proofs', path)
    os.makedirs(os.path.dirname(path), exist_ok=True)
    with open(path, 'w', encoding='utf-8') as f:
        f.write(text)


if __name__ == '__main__':
    write('run_array/Proof/Run.antt', run_array.call_text())
    write('run_array/Proof.antt', run_array.text())
