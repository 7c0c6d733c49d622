# Bias by corner. The table's keys are the names of corners, and the last line asks by number.
table = {"hairpin": 545, "chicane": 552, "final": 560}
bias = table["hairpin"]
next_bias = table[2]
