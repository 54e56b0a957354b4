"""Definitions held against the reference by computation, a module for each kind (see tests/check_definitions.py).

A kind has CRATES, the crates whose definitions it computes; HEADER, the imports and helpers of its theorems;
REFUSALS, the numbers that its calls can answer; and cases(count, seed). `antt` writes numbers and tables as antt,
`scratch` has cases and claims, the scratch crate and the run.
"""

import repository     # finds the reference
