{ [bay]: 1, assert true for bay in bays }
