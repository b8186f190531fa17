"""The pages of the API: `entries` reads what they say from the sources, `pages` writes Markdown, and `site` writes HTML."""
