#!/usr/bin/env python3
"""Makes docs/openapi-3.0.3.yaml out of docs/openapi.yaml, for tools that read no OpenAPI 3.1, and says whether it is the one that lies there.

  tests/people/openapi_303.py [--write]

Both documents have to be valid ones of their version, and each example has to meet its schema in both. What 3.0.3 can't say as 3.1 does is
said in other words: `const` is an `enum` of one, `if` with `then` and `else` is one of two cases, and a reference with more beside it
stands in an `allOf`.
"""
import copy
import pathlib
import sys

import yaml
from jsonschema import Draft202012Validator
from openapi_schema_validator import OAS30Validator
from openapi_spec_validator import OpenAPIV30SpecValidator, OpenAPIV31SpecValidator

ROOT = pathlib.Path(__file__).resolve().parents[2]
sys.dont_write_bytecode = True
sys.path.append(str(ROOT / "tests" / "openapi"))
from references import without_references

SOURCE, MADE = ROOT / "docs" / "openapi.yaml", ROOT / "docs" / "openapi-3.0.3.yaml"
TOP = "# Made of docs/openapi.yaml by tests/people/openapi_303.py: change that document, not this one.\n"
TYPES = {str: "string", bool: "boolean", int: "integer"}
# Under these names stand values, in which nothing is a keyword.
VALUES = {"value", "example", "default", "enum", "const"}
# Under these stand names of the document's own, and below each of them keywords again.
NAMED = {"properties", "schemas", "responses", "parameters", "examples", "headers", "requestBodies", "securitySchemes", "paths", "content", "patternProperties"}


def older(value, named=False):
    """The value in the words of 3.0.3; `named` where its members are names and no keywords."""
    if isinstance(value, list):
        return [older(item) for item in value]
    if not isinstance(value, dict):
        return value
    made = {}
    for name, inner in value.items():
        made[name] = copy.deepcopy(inner) if not named and name in VALUES else older(inner, not named and name in NAMED)
    if named:
        return made
    if "const" in made:
        only = made.pop("const")
        made = {"type": TYPES[type(only)], **made, "enum": [only]}
    if "if" in made:
        test, then, other = made.pop("if"), made.pop("then", {}), made.pop("else", {})
        made["anyOf"] = made.pop("anyOf", []) + [{"allOf": [test, then]}, {"allOf": [{"not": test}, other]}]
    if "$ref" in made and len(made) > 1:
        made = {"allOf": [{"$ref": made.pop("$ref")}], **made}
    return made


def made_of(whole):
    made = older(whole)
    made["openapi"] = "3.0.3"
    summary = made["info"].pop("summary")
    made["info"]["description"] = summary + "\n\n" + made["info"]["description"]
    return made


class Dumper(yaml.SafeDumper):
    def ignore_aliases(self, data):
        return True


def text_of(made):
    Dumper.add_representer(str, lambda dumper, text: dumper.represent_scalar("tag:yaml.org,2002:str", text, style="|" if "\n" in text else None))
    return TOP + yaml.dump(made, Dumper=Dumper, sort_keys=False, width=120, allow_unicode=True)


def examples_of(document):
    """Each example of a body with its schema."""
    whole = without_references(document, document)
    for path, item in whole["paths"].items():
        for method, operation in item.items():
            if method == "parameters":
                continue
            bodies = [("request", operation.get("requestBody", {}))] + list(operation["responses"].items())
            for where, body in bodies:
                for media in body.get("content", {}).values():
                    for name, example in media.get("examples", {}).items():
                        yield "%s %s, %s, %s" % (method.upper(), path, where, name), media["schema"], example["value"]


def faults_of(document, spec, validator):
    version = document["openapi"]
    for error in spec(document).iter_errors():
        yield "%s: %s" % (version, error.message[:300])
    held = 0
    for where, schema, value in examples_of(document):
        held += 1
        for error in validator(schema).iter_errors(value):
            yield "%s: %s: %s" % (version, where, error.message[:300])
        # That the schema refuses something: a member that no body has.
        if validator(schema).is_valid({**value, "nobody": 1}) and validator is OAS30Validator and not Draft202012Validator(schema).is_valid({**value, "nobody": 1}):
            yield "%s: %s: it takes what the other refuses" % (version, where)
    if held < 40:
        yield "%s: only %d examples were found" % (version, held)


def main():
    whole = yaml.safe_load(SOURCE.read_text())
    made = made_of(whole)
    if sys.argv[1:] == ["--write"]:
        MADE.write_text(text_of(made))
        return 0
    found = list(faults_of(whole, OpenAPIV31SpecValidator, Draft202012Validator))
    found += faults_of(yaml.safe_load(text_of(made)), OpenAPIV30SpecValidator, OAS30Validator)
    if not MADE.is_file() or MADE.read_text() != text_of(made):
        found.append("docs/openapi-3.0.3.yaml is not what docs/openapi.yaml makes: tests/people/openapi_303.py --write")
    for fault in found:
        print("openapi_303: " + fault)
    print("openapi_303: both documents and their examples: %d wrong" % len(found))
    return 1 if found else 0


sys.exit(main())
