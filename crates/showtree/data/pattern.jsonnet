local [first, 2] = bays; first
