// Inflow of a melt week, and which bays may be closed.
local degree_days = 12.5, melt(mass, rate=0.8) = mass * rate;
local notes = |||-
  Bay 3 waits for the crew.
  Bay 4 may close.
|||;
local [first, ..., last] = [1, 2, 3], { level, gate: { open = true }, ...others } = import 'gates.libsonnet';
{
  assert degree_days > 0 : "no melt",
  local snow = self.snow,
  snow:: [{ ["cell" + i]: i } for i in std.range(1, 9) if i % 2 == 0 && !(i in [4])],
  inflow(station, factor=1): if snow == [] then null else melt(snow[0], rate=factor) tailstrict,
  series::: { [k]: v for [k]:: v in others },
  "closed bays": notes[2:8] + super.notes[::2] + (a.b).c?.d,
  limit+: -level * 2 ?? error "level is missing",
  table: importstr 'a very long file name, far longer than a line of the screen would have room for.csv',
} { extra: function(x, [?, y]) $.inflow }
