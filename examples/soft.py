# Brake bias: one click of the dial, in tenths of a percent.
step = 5
bias = 560
wet = True
if wet:
    def softer(step):
        step = 2.5
        return step + " a click"
