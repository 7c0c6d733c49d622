# Brake bias by the weather. In heavy rain a click moves it less: that branch makes the step a Float.
rain = 0
step = 5
bias = 560
if rain > 2:
    bias = 545
    step = 2.5
elif rain > 0:
    bias = 552

def turned(clicks):
    return bias + clicks * step

bias = turned(2)
