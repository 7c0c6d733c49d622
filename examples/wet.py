# A wet track moves the bias to the rear. One branch writes a number, the other a text.
wet = True
if wet:
    bias = 545
else:
    bias = "560"
