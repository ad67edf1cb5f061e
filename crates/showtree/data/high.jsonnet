{ "crête \uD83D\q": 1 }
