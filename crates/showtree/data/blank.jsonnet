{ bay: 3 }
