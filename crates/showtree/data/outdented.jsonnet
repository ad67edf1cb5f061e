{
  note: |||
    Bay 3 waits for the crew.
  Bay 4 may close.
  |||,
}
