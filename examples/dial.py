step = 5  # Brake bias: one click of the dial, in tenths of a percent.
bias = 560

def turned(clicks):
    return bias + clicks * step

bias = turned(2)
# From here on the track is damp: a click moves it half as far.
step = 2.5
bias = turned(-1)
