/* checked by the gate crew */ {
  bays: [1, 2],
  level: 4, # raised
}
