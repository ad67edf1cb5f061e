{
  level: 3 +,
}
