"""Cards and sheets for people: layout, descriptions, sheets, refusals. docs/CARD.md has the format."""
