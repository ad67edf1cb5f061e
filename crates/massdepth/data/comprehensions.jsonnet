[{ [k]+: 1 for k in ks }, { local k = 1, mass+: 1 for x in xs }, {"\u006dass"+::: 2, mass+: 3}]
