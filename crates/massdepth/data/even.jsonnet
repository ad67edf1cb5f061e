{ mass+: 1, depth+: 1, inner: { mass: 1, depth():: 2 } }
