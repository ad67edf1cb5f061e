a?.b { mass+: 1 }
