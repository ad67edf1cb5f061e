{
  melt: 2.5,
  factor: -1_0e9_99,
}
