{
  note: |||
Bay 3 waits for the crew.
  |||,
}
