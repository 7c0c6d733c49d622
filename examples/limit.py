# Keeps the bias below a limit; the limit is set inside the function, as a Float.
limit = 600

def keep(bias):
    limit = 59.5
    if bias > limit:
        return limit
    return bias

bias = keep(560)
