"""What the tools share: reading the files of a run, and going through the run slot by slot.

The rules of routing and of ranks are those of the plain models in `examples/`, which are imported.
"""

import os
import sys

if sys.version_info < (3, 11):
    sys.exit("these tools need Python 3.11 or later")

ROOT = os.path.dirname(os.path.dirname(os.path.dirname(os.path.realpath(__file__))))
sys.path.append(os.path.join(ROOT, "examples"))
