local [a, b] = c; a
