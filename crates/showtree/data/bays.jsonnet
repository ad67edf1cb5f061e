{
  bays: [1, 2,
  level: -3 * factor,
}
