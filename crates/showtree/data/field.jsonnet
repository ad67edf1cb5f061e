{ bay: 3, , level: 4 }
