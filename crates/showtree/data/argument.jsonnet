melt(rate=0.8, mass)
