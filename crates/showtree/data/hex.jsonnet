{ note: "\x4" }
