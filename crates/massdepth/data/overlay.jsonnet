// the pack after the storm
local base = import 'base.libsonnet';
base {
  pack+: {
    mass+: 12,
    density: 0.3,
  },
  [if wet then 'depth']+: 1,
  both: { mass+: 1, depth+: 2 },
  below: { local mass = 1, assert mass > 0, 'depth'+: 3 },
}
