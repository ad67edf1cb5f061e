local bays = [1, 2, 3];
{
  closed: if std.length(bays) > 2 then bays[0 else null,
}
