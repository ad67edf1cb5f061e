local x = "first	line
and then one that is never closed