{
  note: 'bays 1 and 2
    closed at 4 \u4e m',
}
