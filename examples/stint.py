# Bias over a stint: fuel burns off, the rear gets lighter, the bias moves to the front lap by lap.
laps = 18
start_bias = 552
fuel_step = 0.35
dial = {"step": 5, "low": 520, "high": 600}
corners = [("hairpin", 545), ("chicane", 552), ("final", 560)]

def held(bias, low, high):
    if bias < low:
        return low
    elif bias > high:
        return high
    return bias

def for_lap(lap):
    moved = start_bias + int(lap * fuel_step)
    return held(moved, dial["low"], dial["high"])

for lap in range(laps):
    print(lap, for_lap(lap))

total = 0
at = 0
while at < len(corners):
    total = total + int(corners[at][1])
    at = at + 1

mean = total / len(corners)
far = filter(lambda corner: corner[1] > 555, corners)
report = "mean bias " + str(mean) + " over " + str(len(corners)) + " corners"
ready = mean > 500 and not mean > 600
if ready:
    status = "load"
else:
    status = "hold"
