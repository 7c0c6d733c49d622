# Brake bias: each click of the driver's dial moves it by one step, in tenths of a percent.
step = 2.5
bias = 560

def turned(clicks):
    return bias + clicks * step

bias = turned(2)
