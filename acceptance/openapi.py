#!/usr/bin/env python3
"""The exchanges of crates/fts_session_trial/data by docs/openapi.yaml: each request and reply stands there, and each body is what its schema says.

acceptance/openapi.py needs PyYAML and jsonschema. A reply that no operation lists is looked for among the responses that every request can get: NoRoute,
NoMethod, and the faults of the framing. A document that was accepted has to fit its schema, and one that was refused not to, but by the rules that no
schema tells: of URLs and of hops that are joined.
"""
import json
import pathlib
import re
import sys

import jsonschema
import yaml

TOP = pathlib.Path(__file__).resolve().parent.parent
API = yaml.safe_load((TOP / "docs" / "openapi.yaml").read_text())
EXCHANGES = TOP / "crates" / "fts_session_trial" / "data"
HEAD = re.compile(rb"(.*?)\r\n((?:[^\r]+\r\n)*)\r\n", re.S)
UNTOLD = (8, 9, 10, 23)
EVERYWHERE = {
    30: "NoRoute",
    33: "NoMethod",
    41: "BadRequest",
    42: "HeadTooLarge",
    43: "BadRequest",
    44: "Chunked",
    45: "BodyTooLarge",
    48: "ForeignOrigin",
}


def messages(content):
    """First line and body of each message, one after the other."""
    while content:
        head = HEAD.match(content)
        length = re.search(rb"Content-Length: (\d+)\r\n", head[2])
        end = head.end() + (int(length[1]) if length else 0)
        yield head[1].decode(), content[head.end() : end]
        content = content[end:]


def resolved(part):
    while "$ref" in part:
        at = API
        for word in part["$ref"][2:].split("/"):
            at = at[word]
        part = at
    return part


def is_valid(value, schema):
    return jsonschema.Draft202012Validator({**schema, "components": API["components"]}).is_valid(value)


def operation_of(method, path):
    for template, operations in API["paths"].items():
        if re.fullmatch(re.sub(r"\{\w+\}", "[^/]+", template), path):
            return operations.get(method.lower())
    return None


def fault_of(request, reply):
    method, target, _ = request[0].split(" ", 2)
    status, body = reply[0].split(" ")[1], reply[1]
    operation = operation_of(method, target.split("?")[0])
    response = None if operation is None else operation["responses"].get(status)
    if response is None and body:
        response = API["components"]["responses"].get(EVERYWHERE.get(json.loads(body).get("rule")))
    if response is None:
        return None if method == "HEAD" and status == "405" else "no such response"
    content = resolved(response).get("content")
    if content and not is_valid(json.loads(body), content["application/json"]["schema"]):
        return "the reply is none of the schema"
    return document_fault_of(operation, request, status, body)


def document_fault_of(operation, request, status, body):
    """What is otherwise of a document and its schema: it is one exactly where it was accepted."""
    if not request[1] or status not in ("200", "400") or operation is None or "requestBody" not in operation:
        return None
    try:
        document = json.loads(request[1])
    except ValueError:
        return None
    fits = is_valid(document, resolved(operation["requestBody"])["content"]["application/json"]["schema"])
    if status == "200" and not fits:
        return "the accepted document is none of the schema"
    rule = json.loads(body)["rule"] if status == "400" else None
    if status == "400" and fits and rule not in UNTOLD:
        return f"a document that breaks rule {rule} is one of the schema"
    return None


def main():
    pairs, wrong = 0, 0
    for path in sorted(EXCHANGES.glob("*.reply.http")):
        name = path.name[: -len(".reply.http")]
        # replies first: behind the last one the requests need not be any
        for reply, request in zip(messages(path.read_bytes()), messages((EXCHANGES / f"{name}.http").read_bytes())):
            fault = fault_of(request, reply)
            pairs += 1
            if fault:
                wrong += 1
                print(f"{name}: {request[0]}: {reply[0]}: {fault}")
    print(f"requests {pairs}, otherwise than in docs/openapi.yaml {wrong}")
    return 1 if wrong or not pairs else 0


if __name__ == "__main__":
    sys.exit(main())
