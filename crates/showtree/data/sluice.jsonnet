{
  "Zürich, Größe der Öffnung: ✓ 😀": "ä", größe: 3,
}
