"""References in an OpenAPI document."""


def without_references(document, value):
    """The value with each reference into the document replaced by what it names."""
    if isinstance(value, list):
        return [without_references(document, item) for item in value]
    if not isinstance(value, dict):
        return value
    rest = {name: without_references(document, item) for name, item in value.items() if name != "$ref"}
    if "$ref" not in value:
        return rest
    named = document
    for part in value["$ref"].removeprefix("#/").split("/"):
        named = named[part]
    return {**without_references(document, named), **rest}
