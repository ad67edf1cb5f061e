{ note: "50\% open" }
