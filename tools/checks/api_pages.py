"""Checks that docs/api is what `tools/write_api` writes."""
from api.pages import outdated_pages


def problems():
    return [f"docs/api/{name} is not current: run tools/write_api, and commit it" for name in outdated_pages()]
