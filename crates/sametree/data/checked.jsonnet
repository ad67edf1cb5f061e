# closed at night, and seen to be so
{ bays: [ 1, 2 ], level: 3, /* metres */ }
