{ mass+: }
