# Brake bias corner by corner: each corner moves it by a step of its own.
corners = {"hairpin": -15, "chicane": 0, "final": 5}
bias = 560

for corner in corners:
    step = corners[corner]
    print(corner, bias + step)
