"""Devices of ESI files (ETG.2000) as slaves of a project text, and what such a text can't say of them."""
