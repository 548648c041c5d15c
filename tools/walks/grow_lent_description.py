"""The walk of run_progress::grow_lent: `python3 tools/walks/grow_lent_description.py` writes its proof.

It writes crates/run_progress/proofs/grow_lent/Proof.antt.
The repository is the one that this file stands in, or the folder named as the first argument.
A caller's description takes the function from here: `CountingCall(grow_lent, HERE, KIT, 'GrowLent')`."""
import os
import sys

from parts import Kind
from counting import Counting

ROOT = sys.argv[1] if len(sys.argv) > 1 else os.path.dirname(os.path.dirname(os.path.dirname(os.path.abspath(__file__))))
CRATE = 'run_progress'

Account = Kind('Account', 'protocol_types')

grow_lent = Counting(CRATE, 'grow_lent', (CRATE, 'grow'), Account, Account, 'GrowthFits', 'grown', [(CRATE, 'Progress', ['grown', 'GrowthFits'])])

if __name__ == '__main__':
    path = os.path.join(ROOT, 'crates', CRATE, 'proofs', 'grow_lent', 'Proof.antt')
    os.makedirs(os.path.dirname(path), exist_ok=True)
    with open(path, 'w', encoding='utf-8') as f:
        f.write(grow_lent.text())
