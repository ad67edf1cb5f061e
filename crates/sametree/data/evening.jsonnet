// closed at night
{
  bays: [1, 2], // both
  level: 3,
}
