"""The cells of docs/FORMATS.md, and a plain model of it from which cells.py knows which of them a row shows."""
