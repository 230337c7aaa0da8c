"""Scenes for people: read, checked, painted by the proved calls, and packed for hosts."""
