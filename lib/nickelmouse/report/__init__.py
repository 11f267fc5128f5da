"""A page about an answer, for whoever would rather look than read: `nickelmouse --report FILE.html`."""
